//! Random lists of counts with their ratios, and the classes they fall into.
use crate::random::Random;

/// A ratio that keeps the rules, mostly a small one.
pub fn ratio(random: &mut Random) -> u64 {
    let any = 1 + random.below(200);
    random.pick(&[1, 2, 2, 3, 3, 4, 5, 6, 8, any, any, 200])
}

/// A list that keeps the rules for a rack and a ratio. Each gap is at most as large as the gap before it allows, and as the rack leaves: always
/// just as large, or 1 or 2, or mostly 1, or any.
pub fn list(random: &mut Random, modules: u64, ratio: u64) -> Vec<u16> {
    let (mut list, mut last, mut allowed) = (vec![0], 0, ratio);
    let style = random.below(5);
    while last < modules {
        let most = allowed.min(modules - last);
        let gap = match style {
            0 => most,
            1 => 1 + random.below(most.min(2)),
            2 if random.below(30) != 0 => 1,
            _ => 1 + random.below(most),
        };
        last += gap;
        list.push(last as u16);
        allowed = ratio * gap;
    }
    list
}

/// All counts of a rack.
pub fn all(modules: u64) -> Vec<u16> {
    (0..=modules as u16).collect()
}

/// The classes of a list that keeps the rules.
pub fn classes(list: &[u16], ratio: u64) -> Vec<&'static str> {
    let gaps: Vec<u64> = list.windows(2).map(|two| u64::from(two[1] - two[0])).collect();
    let classes = [
        ("two entries", list.len() == 2),
        ("201 entries", list.len() == 201),
        ("all counts", gaps.iter().all(|gap| *gap == 1)),
        ("some counts", list.len() > 2 && gaps.iter().any(|gap| *gap > 1)),
        ("the first entry is just the ratio", gaps[0] == ratio),
        ("a gap is just the ratio times the gap before it", gaps.windows(2).any(|two| two[1] == ratio * two[0])),
        ("a gap is smaller than the gap before it", gaps.windows(2).any(|two| two[1] < two[0])),
    ];
    classes.into_iter().filter(|(_, holds)| *holds).map(|(name, _)| name).collect()
}

/// The names of the classes of lists for racks of any size; a small rack has no list of 201 entries.
pub const ALL_CLASSES: [&str; 7] = [
    "201 entries",
    "two entries",
    "all counts",
    "some counts",
    "the first entry is just the ratio",
    "a gap is just the ratio times the gap before it",
    "a gap is smaller than the gap before it",
];

/// Alters one entry of the list by one, drops it, doubles it, swaps it with the next one, or makes it too large for a byte.
fn spoil_entry(random: &mut Random, list: &mut Vec<u16>) {
    let at = random.below(list.len() as u64) as usize;
    match random.below(8) {
        0 => list[at] = list[at].saturating_sub(1),
        1 | 2 => list[at] += 1,
        3 => drop(list.remove(at)),
        4 => list.insert(at, list[at]),
        5 if at + 1 < list.len() => list.swap(at, at + 1),
        6 => list[at] = u16::MAX,
        _ => list[at] += 256,
    }
}

/// Gives the list another length: none, one, or more entries than a list may have.
fn spoil_length(random: &mut Random, list: &mut Vec<u16>) {
    let (length, last) = (random.pick(&[0, 1, 202, 300]), list[list.len() - 1]);
    if random.below(2) == 0 {
        list.resize(length.into(), last);
    } else {
        *list = (0..length).collect();
    }
}

/// Now and then spoils the list or the ratio; what is spoiled may keep the rules.
pub fn spoil(random: &mut Random, list: &mut Vec<u16>, ratio: &mut u64) {
    match random.below(16) {
        0..=3 => spoil_entry(random, list),
        4 => spoil_length(random, list),
        5 | 6 => *ratio -= 1,
        7 => *ratio = random.pick(&[0, 201, 256 + *ratio, (1 << 32) + *ratio, u64::MAX]),
        8 => *list = self::list(random, u64::from(list[list.len() - 1]) + 1, *ratio),
        _ => {}
    }
}
