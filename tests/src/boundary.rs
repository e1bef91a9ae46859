//! The calls of the safe binding with their whole outcome: a call that is lent buffers returns them with its answer.
use crate::areas::{beside, given_back, lent};
use crate::cards::Card;
use lamp::calls;
pub use lamp::planning::Planner;
use std::ops::Range;

pub const BOTH: [Planner; 2] = [Planner::Exact, Planner::Coarse];

/// A number and a cost, as C has them.
#[derive(Clone, Copy, Debug, PartialEq, Eq)]
pub struct Answer {
    pub number: u64,
    pub cost: u64,
}

impl Answer {
    pub fn cost(cost: u64) -> Self {
        Answer { number: 0, cost }
    }

    pub fn refused(number: u64) -> Self {
        Answer { number, cost: 0 }
    }
}

impl From<calls::Answer> for Answer {
    fn from(given: calls::Answer) -> Self {
        match given {
            Ok(cost) => Answer::cost(cost),
            Err(refusal) => Answer::refused(refusal.number()),
        }
    }
}

/// The whole outcome of a call: its answer, and each lent buffer at exit in the order of the parameters.
#[derive(Clone, Debug, PartialEq, Eq)]
pub struct Outcome {
    pub answer: Answer,
    pub buffers: Vec<Vec<u8>>,
}

/// What differs between an outcome and the expected one.
pub fn difference(found: &Outcome, expected: &Outcome) -> Result<(), String> {
    if found.answer != expected.answer {
        return Err(format!("answer {:?}, expected {:?}", found.answer, expected.answer));
    }
    for (at, (have, want)) in found.buffers.iter().zip(&expected.buffers).enumerate() {
        if have != want {
            return Err(format!("buffer {at} is {have:?}, expected {want:?}"));
        }
    }
    if found.buffers.len() != expected.buffers.len() {
        return Err("another number of buffers".to_string());
    }
    Ok(())
}

pub fn check_card(card: &[u8]) -> Answer {
    calls::check_card(card).into()
}

pub fn running_cost(card: &[u8], count: u64, load: u64) -> Answer {
    calls::running_cost(card, count, load).into()
}

pub fn rounded_count(count: u64, modules: u64) -> Answer {
    calls::rounded_count(count, modules).into()
}

pub fn mark(card: &[u8], sheet: &[u8]) -> Answer {
    calls::mark(card, sheet).into()
}

pub fn practice_card(start: u32, area: &[u8]) -> Outcome {
    let mut lent = area.to_vec();
    let answer = calls::practice_card(start, &mut lent).into();
    Outcome { answer, buffers: vec![lent] }
}

/// The call is lent a part of the area; the buffer of the outcome is the whole area.
pub fn catalogue_table(top: u64, area: &[u8], lent: Range<usize>) -> Outcome {
    let mut whole = area.to_vec();
    let answer = calls::catalogue_table(top, &mut whole[lent]).into();
    Outcome { answer, buffers: vec![whole] }
}

pub fn sheet(card: &[u8], plan: &[u8], sheet: &[u8]) -> Outcome {
    let mut lent = sheet.to_vec();
    let answer = calls::sheet(card, plan, &mut lent).into();
    Outcome { answer, buffers: vec![lent] }
}

pub fn plan(planner: Planner, card: &[u8], plan: &[u8], work: &[u8]) -> Outcome {
    let (mut plan, mut work) = (plan.to_vec(), work.to_vec());
    let answer = planner.plan(card, &mut plan, &mut work).into();
    Outcome { answer, buffers: vec![plan, work] }
}

/// The planner over a list. Card and list are seen to be as they were; the outcome has both areas.
pub fn plan_groups(card: &[u8], list: &[u16], ratio: u64, plan: &[u8], work: &[u8]) -> Outcome {
    let (card_area, list_area) = (beside(card, 0x5A), beside(list, 0x5A));
    let (mut plan_area, mut work_area) = (beside(plan, 0x5A), beside(work, 0x5A));
    let (read, counts) = (&card_area[lent(card.len())], &list_area[lent(list.len())]);
    let (write, room) = (&mut plan_area[lent(plan.len())], &mut work_area[lent(work.len())]);
    let answer = calls::plan_groups(read, counts, ratio, write, room).into();
    assert_eq!((given_back(card_area, 0x5A), given_back(list_area, 0x5A)), (card.to_vec(), list.to_vec()));
    Outcome { answer, buffers: vec![given_back(plan_area, 0x5A), given_back(work_area, 0x5A)] }
}

/// The cost and the plan that a planner gives for an accepted card, in areas that are just long enough.
pub fn planned(planner: Planner, card: &Card) -> (u64, Vec<u8>) {
    let (bytes, slots) = (card.bytes(), card.loads.len());
    let work = planner.work_bytes(card.modules.into(), slots);
    let mut found = plan(planner, &bytes, &vec![7; slots], &vec![7; work]);
    assert_eq!(found.answer.number, 0, "{planner:?}: {card:?}");
    (found.answer.cost, found.buffers.swap_remove(0))
}
