//! Where a refusal comes from. The number is the library's; the places are found here, and say in words what the library looked at.
use crate::planning::Groups;
use crate::refusal::Refusal;
use crate::show::{Head, Show, MARK, OFF};
use crate::show_text::Field;
use crate::words::{grouped, several};
use std::ops::RangeInclusive;

/// A place at fault in a card: a field's number, by its index, where one field can be named, and what is wrong with it.
#[derive(Clone, Debug, PartialEq, Eq)]
pub struct CardFault {
    pub field: Option<(Field, usize)>,
    pub text: String,
}

const MOST_RACK: u8 = 200;
const MOST_SLOTS: u16 = 1_024;
const MOST_PRICE: u32 = 500_000_000;
const MOST_ENTRY: u32 = 1_000_000;

fn fault(field: Option<(Field, usize)>, text: String) -> CardFault {
    CardFault { field, text }
}

/// The places in a card for which it gets a refusal of 1 to 8.
pub fn of_card(refusal: Refusal, card: &[u8]) -> Vec<CardFault> {
    let (head, show) = (Head::read(card), Show::read(card));
    match (refusal, head, show) {
        (Refusal::NotACard, _, _) => vec![fault(None, not_a_card(card))],
        (Refusal::WrongVersion, Some(head), _) => vec![fault(None, format!("version {}", head.version))],
        (Refusal::RackSize, Some(head), _) => rack(&head),
        (Refusal::SlotCount, Some(head), _) => slots(&head),
        (Refusal::CardLength, Some(head), _) => vec![fault(None, length(&head, card.len()))],
        (Refusal::PriceRange, _, Some(show)) => prices(&show),
        (Refusal::NotConvex, _, Some(show)) => not_convex(&show),
        (Refusal::LoadRange, _, Some(show)) => loads(&show),
        _ => Vec::new(),
    }
}

fn not_a_card(card: &[u8]) -> String {
    let hex = |bytes: &[u8]| bytes.iter().map(|byte| format!("{byte:02X}")).collect::<Vec<_>>().join(" ");
    if card.starts_with(MARK) || card.is_empty() {
        return several(card.len() as u64, "byte");
    }
    let first = &card[..card.len().min(MARK.len())];
    format!("{}, beginning with {} and not with {} (DLS)", several(card.len() as u64, "byte"), hex(first), hex(MARK))
}

fn rack(head: &Head) -> Vec<CardFault> {
    let fields = [(Field::Modules, head.modules), (Field::Top, head.top)];
    let outside = fields.into_iter().filter(|(_, number)| !(1..=MOST_RACK).contains(number));
    outside.map(|(field, number)| fault(Some((field, 0)), format!("{} {number}", field.name()))).collect()
}

fn slots(head: &Head) -> Vec<CardFault> {
    let text = several(head.slots.into(), "slot");
    vec![fault(Some((Field::Loads, usize::from(MOST_SLOTS))), text)]
}

fn length(head: &Head, found: usize) -> String {
    let asked = grouped(head.card_length() as u64);
    format!("{} where top {} and {} make {asked}", several(found as u64, "byte"), head.top, several(head.slots.into(), "slot"))
}

fn prices(show: &Show) -> Vec<CardFault> {
    let above =
        |name: String, number: u32, most: u32| format!("{name} {}, above {}", grouped(number.into()), grouped(most.into()));
    let prices = [(Field::WarmUp, show.warm_up), (Field::CoolDown, show.cool_down)];
    let dear = prices.into_iter().filter(|(_, price)| *price > MOST_PRICE);
    let mut out: Vec<_> =
        dear.map(|(field, price)| fault(Some((field, 0)), above(field.name().to_string(), price, MOST_PRICE))).collect();
    let entries = show.table.iter().enumerate().filter(|(_, entry)| **entry > MOST_ENTRY);
    out.extend(entries.map(|(k, entry)| fault(Some((Field::Table, k)), above(format!("F({k})"), *entry, MOST_ENTRY))));
    out
}

fn not_convex(show: &Show) -> Vec<CardFault> {
    let threes = show.table.windows(3).enumerate();
    let bent = threes.filter(|(_, f)| u64::from(f[0]) + u64::from(f[2]) < 2 * u64::from(f[1]));
    let text = |k: usize, f: &[u32]| {
        let [low, middle, high] = [f[0], f[1], f[2]].map(|entry| grouped(entry.into()));
        format!("F({k}), F({}), F({}): {low} + {high} is below 2 times {middle}", k + 1, k + 2)
    };
    bent.map(|(k, f)| fault(Some((Field::Table, k + 1)), text(k, f))).collect()
}

fn loads(show: &Show) -> Vec<CardFault> {
    let most = u64::from(show.modules) * u64::from(show.top);
    let above = show.loads.iter().enumerate().filter(|(_, load)| u64::from(**load) > most);
    let text = |t: usize, load: u16| {
        let (load, most) = (grouped(load.into()), grouped(most));
        format!("slot {}: load {load}, above {most}, {} times {}", t + 1, show.modules, show.top)
    };
    above.map(|(t, load)| fault(Some((Field::Loads, t)), text(t, *load))).collect()
}

/// A place at fault in a sheet: the slot and, for a step, the module, both counted from 0.
#[derive(Clone, Debug, PartialEq, Eq)]
pub struct SheetFault {
    pub slot: usize,
    pub module: Option<usize>,
    pub text: String,
}

/// The steps of a sheet above the top step, for which it gets 12.
pub fn entries(show: &Show, sheet: &[u8]) -> Vec<SheetFault> {
    let mut out = Vec::new();
    for (slot, row) in show.rows(sheet).enumerate() {
        let above = row.iter().enumerate().filter(|(_, step)| **step > show.top && **step != OFF);
        out.extend(above.map(|(module, step)| SheetFault {
            slot,
            module: Some(module),
            text: format!("slot {}, module {}: step {step}, above {}", slot + 1, module + 1, show.top),
        }));
    }
    out
}

/// The slots of a sheet with less light than their load, for which it gets 13.
pub fn lights(show: &Show, sheet: &[u8]) -> Vec<SheetFault> {
    let slots = show.lights(sheet).zip(&show.loads).enumerate();
    let dark = slots.filter(|(_, (light, load))| *light < u64::from(**load));
    let text = |slot: usize, light: u64, load: u64| {
        let [less, light, load] = [load - light, light, load].map(grouped);
        format!("slot {}: light {light} where the load is {load}, {less} too little", slot + 1)
    };
    dark.map(|(slot, (light, load))| SheetFault { slot, module: None, text: text(slot, light, u64::from(*load)) }).collect()
}

const ENTRIES: RangeInclusive<u64> = 2..=201;
const RATIOS: RangeInclusive<u64> = 1..=200;

fn bounds(numbers: RangeInclusive<u64>) -> String {
    format!("{} to {}", numbers.start(), numbers.end())
}

/// The rules that a list of counts and its ratio break in a rack, for which they get 18. Entries are counted from 1. Gaps are measured only
/// between entries that ascend and by a ratio within its bounds, since else those are what is wrong.
pub fn groups(groups: &Groups, modules: u8) -> Vec<String> {
    let counts: Vec<u64> = groups.counts.iter().map(|count| u64::from(*count)).collect();
    let mut out = list_ends(&counts, modules.into());
    out.extend(not_above(&counts));
    if RATIOS.contains(&groups.ratio) {
        out.extend(above_ratio(&counts, groups.ratio));
        out.extend(wide_gaps(&counts, groups.ratio));
    } else {
        out.push(format!("the ratio is {}; it has to be {}", grouped(groups.ratio), bounds(RATIOS)));
    }
    out
}

/// How many entries a list has, how it begins and how it ends.
fn list_ends(counts: &[u64], modules: u64) -> Vec<String> {
    let (mut out, length) = (Vec::new(), counts.len() as u64);
    if !ENTRIES.contains(&length) {
        out.push(format!("the list has {}; it has to have {}", several(length, "entry"), bounds(ENTRIES)));
    }
    if let Some(first @ 1..) = counts.first() {
        out.push(format!("entry 1 is {}; it has to be 0", grouped(*first)));
    }
    if let Some(last) = counts.last().filter(|last| **last != modules) {
        let last = grouped(*last);
        out.push(format!("entry {length}, the last, is {last}; it has to be {modules}, the number of modules"));
    }
    out
}

/// The entries that are not above the one before them.
fn not_above(counts: &[u64]) -> impl Iterator<Item = String> + '_ {
    let pairs = counts.windows(2).enumerate().filter(|(_, pair)| pair[0] >= pair[1]);
    pairs.map(|(at, pair)| {
        let [before, entry] = [pair[0], pair[1]].map(grouped);
        format!("entry {} is {entry}; it has to be above entry {}, which is {before}", at + 2, at + 1)
    })
}

/// The first entry after 0, if it is above the ratio. A list that does not begin with 0 has none.
fn above_ratio(counts: &[u64], ratio: u64) -> Option<String> {
    match counts {
        [0, entry, ..] if *entry > ratio => {
            Some(format!("entry 2 is {}; the first entry after 0 has to be at most {ratio}, the ratio", grouped(*entry)))
        }
        _ => None,
    }
}

/// The entries at a gap that is too wide for the gap before it.
fn wide_gaps(counts: &[u64], ratio: u64) -> impl Iterator<Item = String> + '_ {
    let threes = counts.windows(3).enumerate().filter(|(_, three)| three[0] < three[1] && three[1] < three[2]);
    let wide = threes.filter(move |(_, three)| three[2] - three[1] > ratio * (three[1] - three[0]));
    wide.map(move |(at, three)| {
        let (gap, most) = (grouped(three[2] - three[1]), grouped(ratio * (three[1] - three[0])));
        let [first, middle, last] = [three[0], three[1], three[2]].map(grouped);
        let allowed = format!("it has to be at most {most}, {ratio} times the gap from {first} to {middle}");
        format!("entry {} is {last}; the gap from {middle} to {last} is {gap}, and {allowed}", at + 3)
    })
}
