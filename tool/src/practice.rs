//! Practice cards by their numbers (document 02, section 1).
use crate::calls;
use crate::folder::NewFile;
use crate::refusal::Refusal;
use crate::show::{Head, Show};
use crate::words::grouped;
use std::ops::RangeInclusive;

/// The bytes of the longest practice card, which has top step 200 and 64 slots.
pub const LONGEST: usize = 17 + 4 * (200 + 1) + 2 * 64;

/// Which numbers have a practice card, in words.
pub fn numbering() -> String {
    format!("practice cards have the numbers 1 to {}", grouped(u32::MAX.into()))
}

/// The practice card of a number. It has to be accepted: the library's contract says so, and a machine on which it does not hold must
/// not hand out a card.
fn card(number: u32) -> Result<Vec<u8>, Refusal> {
    let mut card = vec![0; LONGEST];
    let cost = calls::practice_card(number, &mut card)?;
    card.truncate(Head::read(&card).map_or(0, |head| head.card_length()));
    let accepted = Show::read(&card).is_some() && calls::check_card(&card).is_ok();
    assert!(cost == 0 && accepted, "the practice card of {number} is not accepted");
    Ok(card)
}

/// The practice cards of some numbers, each under the name of its file.
pub fn cards(numbers: RangeInclusive<u32>) -> Result<Vec<NewFile>, Refusal> {
    numbers.map(|number| Ok(NewFile { name: format!("{number}.card"), bytes: card(number)? })).collect()
}
