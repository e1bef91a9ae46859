//! The catalogue module's table of document 02, section 5, written out plainly.
use crate::boundary::{Answer, Outcome};
use crate::plain;

/// The largest top step of the catalogue module.
pub const MOST_TOP: u64 = 200;

/// F(k) = 400 + 3k + k(k - 1)/2. For k 0 the last term is 0.
pub fn entry(k: u64) -> u64 {
    let pairs = if k == 0 { 0 } else { k * (k - 1) / 2 };
    400 + 3 * k + pairs
}

/// F(0) to F(top) as a card's fields: four bytes each, the lowest first.
pub fn bytes(top: u64) -> Vec<u8> {
    let field =
        |number: u64| [number % 256, number / 256 % 256, number / 65_536 % 256, number / 16_777_216].map(|byte| byte as u8);
    (0..=top).flat_map(|k| field(entry(k))).collect()
}

/// What the call must answer: 3 for a top outside 1 to 200, then 10 for a short area.
pub fn catalogue_table(top: u64, area: &[u8]) -> Outcome {
    let refused = |number| Outcome { answer: Answer::refused(number), buffers: vec![area.to_vec()] };
    if top == 0 || top > MOST_TOP {
        return refused(3);
    }
    let table = bytes(top);
    if area.len() < table.len() {
        return refused(10);
    }
    Outcome { answer: Answer::cost(0), buffers: vec![plain::written(&table, area)] }
}

fn number(bytes: &[u8]) -> u64 {
    bytes.iter().rev().fold(0, |value, byte| value * 256 + u64::from(*byte))
}

/// Which of 1 to 8 a card gets whose table is in order, or 0. No byte of the table is looked at, so that 7 is never given, and 6 for a
/// price alone.
pub fn check_around_table(card: &[u8]) -> u64 {
    if card.len() < 17 || card[..3] != *b"DLS" {
        return 1;
    }
    if number(&card[3..5]) != 1 {
        return 2;
    }
    let (modules, top, slots) = (u64::from(card[5]), u64::from(card[6]), number(&card[7..9]));
    if !(1..=200).contains(&modules) || !(1..=200).contains(&top) {
        return 3;
    }
    if slots > 1_024 {
        return 4;
    }
    let loads_at = 17 + 4 * (top + 1);
    if card.len() as u64 != loads_at + 2 * slots {
        return 5;
    }
    if [&card[9..13], &card[13..17]].iter().any(|price| number(price) > 500_000_000) {
        return 6;
    }
    if card[loads_at as usize..].chunks(2).any(|load| number(load) > modules * top) {
        return 8;
    }
    0
}
