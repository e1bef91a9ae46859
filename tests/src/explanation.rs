//! Section 7 of document 02, written out plainly: where the points of a sheet went, and the refusals of the call that tells it.
use crate::plain::{read_card, Show, OFF};
use crate::points::{self, Outcome, Points};
use std::ops::Range;

/// The running cost of a sheet: F of each step, as it stands in the sheet.
fn running_of_sheet(show: &Show, sheet: &[u8]) -> u64 {
    sheet.iter().filter(|byte| **byte != OFF).map(|step| show.table[usize::from(*step)]).sum()
}

/// The least running cost for the counts, each with its slot's load.
fn running_of_counts(show: &Show, counts: &[u8]) -> u64 {
    let of_slot =
        |(count, load): (&u8, &u64)| show.running_cost(u64::from(*count), *load).expect("the counts of a sheet that serves do");
    counts.iter().zip(&show.loads).map(of_slot).sum()
}

/// The switching cost of a module that is off before the first slot and after the last.
fn switching_of_module(show: &Show, burns: &[bool]) -> u64 {
    let off_to_off = [&[false], burns, &[false]].concat();
    let price = |change: &[bool]| match change {
        [false, true] => show.up,
        [true, false] => show.down,
        _ => 0,
    };
    off_to_off.windows(2).map(price).sum()
}

/// The switching cost of a sheet, module by module.
fn switching_of_sheet(show: &Show, sheet: &[u8]) -> u64 {
    let modules = show.modules as usize;
    let burns = |module: usize| sheet.iter().skip(module).step_by(modules).map(|byte| *byte != OFF).collect::<Vec<_>>();
    (0..modules).map(|module| switching_of_module(show, &burns(module))).sum()
}

/// The switching cost of counts alone: the warm-up price for each module more than in the slot before, the cool-down price for each module
/// less. No module burns before the first slot and after the last.
fn switching_of_counts(show: &Show, counts: &[u8]) -> u64 {
    let mut before = 0;
    let mut cost = 0;
    for count in counts.iter().copied().chain([0]).map(u64::from) {
        cost += if count > before { show.up * (count - before) } else { show.down * (before - count) };
        before = count;
    }
    cost
}

fn less(minuend: u64, subtrahend: u64) -> u64 {
    minuend.checked_sub(subtrahend).expect("none is negative")
}

/// The explanation of a sheet that serves, where the least cost is known. The counts as a plan cost what the sheet of this plan does.
pub fn points(show: &Show, least: u64, sheet: &[u8]) -> Points {
    let counts = show.active(sheet);
    let spread = less(running_of_sheet(show, sheet), running_of_counts(show, &counts));
    let swaps = less(switching_of_sheet(show, sheet), switching_of_counts(show, &counts));
    points::of(spread, swaps, less(show.sheet_cost(&show.sheet(&counts)), least))
}

/// The least cost of a show, by a plain search over all counts.
pub fn least_cost(show: &Show) -> u64 {
    show.least_plan(&show.counts(false)).0
}

/// The bytes of work that are asked for.
pub fn asked(show: &Show) -> usize {
    (show.modules as usize + 1) * show.slots()
}

/// What the call answers with a work area of some length: 1 to 8 come first, then 10, then 11 to 13.
fn answer(show: Result<&Show, u64>, sheet: &[u8], work_len: usize) -> Points {
    let show = match show {
        Ok(show) => show,
        Err(number) => return points::refused(number),
    };
    if work_len < asked(show) {
        return points::refused(10);
    }
    match show.sheet_refusal(sheet) {
        Some(number) => points::refused(number),
        None => points(show, least_cost(show), sheet),
    }
}

/// The whole outcome of the call: after a success the bytes that are asked for are zero, and all others are as they were.
pub fn explain(card: &[u8], sheet: &[u8], area: &[u8], lent: Range<usize>) -> Outcome {
    let show = read_card(card);
    let points = answer(show.as_ref().map_err(|number| *number), sheet, lent.len());
    let mut area = area.to_vec();
    if let (0, Ok(show)) = (points.number, &show) {
        area[lent.start..lent.start + asked(show)].fill(0);
    }
    Outcome { points, area }
}
