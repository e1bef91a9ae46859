//! Areas of which a part is lent to a call, so that what stands beside it is seen too.
use crate::random::Random;
use std::fmt::Debug;
use std::hint::black_box;
use std::ops::Range;

/// How many items stand before the lent part of an area and after it that are not lent.
pub const BESIDE: usize = 3;

/// The items that a call with `length` of them is lent, in an area that begins and ends with items that are not.
pub fn lent(length: usize) -> Range<usize> {
    BESIDE..BESIDE + length
}

/// An area with the items that a call is lent, and with other ones beside them.
pub fn beside<T: Copy>(items: &[T], other: T) -> Vec<T> {
    [&[other; BESIDE], items, &[other; BESIDE]].concat()
}

/// The items that were lent, once those beside them are seen to be as they were.
pub fn given_back<T: Copy + PartialEq + Debug>(area: Vec<T>, other: T) -> Vec<T> {
    let (length, area) = (area.len() - 2 * BESIDE, black_box(area));
    let beside = [&area[..BESIDE], &area[BESIDE + length..]].concat();
    assert_eq!(beside, [other; 2 * BESIDE], "items beside a lent area were altered");
    area[lent(length)].to_vec()
}

/// The classes of `length`.
pub const LENGTHS: [&str; 4] = ["area exact", "area one short", "area empty", "area longer"];

/// Draws the length of an area, mostly the one that is asked for, and names its class.
pub fn length(random: &mut Random, asked: usize) -> (usize, &'static str) {
    match random.below(8) {
        0 if asked > 0 => (asked - 1, "area one short"),
        1 => (0, "area empty"),
        2 | 3 => (asked + 1 + random.below(5) as usize, "area longer"),
        _ => (asked, "area exact"),
    }
}
