//! The explanation of a sheet through the boundary with its whole outcome: its four numbers as C has them, and every byte of the area of
//! which a part is lent to it as its work area.
use lamp::calls;
pub use lamp::calls::Points;
use std::ops::Range;

pub fn refused(number: u64) -> Points {
    Points { number, ..Points::default() }
}

pub fn of(spread: u64, swaps: u64, counts: u64) -> Points {
    Points { number: 0, spread, swaps, counts }
}

/// The whole outcome of an explanation.
#[derive(Clone, Debug, PartialEq, Eq)]
pub struct Outcome {
    pub points: Points,
    pub area: Vec<u8>,
}

/// The call is lent a part of the area; the outcome has the whole area.
pub fn explain(card: &[u8], sheet: &[u8], area: &[u8], lent: Range<usize>) -> Outcome {
    let mut area = area.to_vec();
    let points = calls::explain(card, sheet, &mut area[lent]);
    Outcome { points, area }
}

/// What differs between an outcome and the expected one.
pub fn difference(found: &Outcome, expected: &Outcome) -> Result<(), String> {
    if found.points != expected.points {
        return Err(format!("{:?}, expected {:?}", found.points, expected.points));
    }
    if found.area.len() != expected.area.len() {
        return Err(format!("an area of {} bytes, expected {}", found.area.len(), expected.area.len()));
    }
    match (0..found.area.len()).find(|at| found.area[*at] != expected.area[*at]) {
        Some(at) => Err(format!("byte {at} of the area is {}, expected {}", found.area[at], expected.area[at])),
        None => Ok(()),
    }
}
