//! Random cards, and the classes they fall into.
use crate::cards::Card;
use crate::random::Random;

/// A convex table: 0 falling, 1 flat, 2 V-shaped, 3 rising, 4 V-shaped with a flat bottom.
pub fn table(random: &mut Random, top: u64, shape: u64, steepest: u64) -> Vec<u32> {
    let mut difference = || {
        let drawn = random.below(2 * steepest + 1) as i64 - steepest as i64;
        match shape {
            0 => -drawn.abs(),
            1 => 0,
            2 => drawn,
            3 => drawn.abs(),
            _ => drawn * random.below(2) as i64,
        }
    };
    let mut differences: Vec<i64> = (0..top).map(|_| difference()).collect();
    differences.sort_unstable();
    let fall: i64 = differences.iter().filter(|d| **d < 0).map(|d| -d).sum();
    let mut entry = fall + random.below(steepest + 1) as i64;
    let mut out = vec![entry as u32];
    for difference in differences {
        entry += difference;
        out.push(entry as u32);
    }
    out
}

/// An accepted card.
pub fn card(random: &mut Random, modules: u64, top: u64, slots: u64, steepest: u64) -> Card {
    let shape = random.pick(&[0, 1, 2, 2, 3, 4]);
    let price = |random: &mut Random| if random.below(3) == 0 { 0 } else { random.below(2 * steepest + 2) as u32 };
    let table = table(random, top, shape, steepest);
    let most = modules * top;
    let loads = (0..slots).map(|_| if random.below(4) == 0 { 0 } else { random.below(most + 1) as u16 }).collect();
    Card { modules: modules as u8, top: top as u8, up: price(random), down: price(random), table, loads }
}

/// An accepted card of any size, mostly a small one.
pub fn of_any_size(random: &mut Random, steepest: u64) -> Card {
    let (modules, top, slots) = (1 + random.below(200), 1 + random.below(200), random.below(1_025));
    let small = (1 + random.below(9), 1 + random.below(5), random.below(14));
    let (modules, top, slots) = if random.below(10) == 0 { (modules, top, slots) } else { small };
    card(random, modules, top, slots, steepest)
}

/// An accepted card that has at most so many sheets, few enough to go through all of them.
pub fn of_few_sheets(random: &mut Random, most: u64) -> Card {
    loop {
        let (modules, top, slots) = (1 + random.below(6), 1 + random.below(3), random.below(4));
        // few shows without slots, which have one sheet, and none with too many sheets
        if slots == 0 && random.below(10) != 0 || (top + 2).pow((modules * slots) as u32) > most {
            continue;
        }
        let steepest = random.pick(&[1, 2, 6]);
        return card(random, modules, top, slots, steepest);
    }
}

/// The names of the classes that a card belongs to.
pub fn classes(card: &Card) -> Vec<&'static str> {
    let falls = card.table.windows(2).any(|w| w[1] < w[0]);
    let rises = card.table.windows(2).any(|w| w[0] < w[1]);
    let mut out = vec![match (falls, rises) {
        (true, true) => "V-shaped table",
        (true, false) => "falling table",
        (false, true) => "rising table",
        (false, false) => "flat table",
    }];
    let least = card.table.iter().min();
    if falls && card.table.iter().filter(|entry| Some(*entry) == least).count() > 1 {
        out.push("falls to several lowest steps");
    }
    if card.table[..card.table.len() - 1].iter().all(|entry| Some(entry) != least) {
        out.push("lowest at Q alone");
    }
    if card.loads.is_empty() {
        out.push("T 0");
    }
    if card.top == 1 {
        out.push("Q 1");
    }
    if card.modules == 1 {
        out.push("m 1");
    }
    out.push(if card.modules.is_power_of_two() { "m a power of two" } else { "m no power of two" });
    if card.up == 0 && card.down == 0 {
        out.push("both prices 0");
    }
    out
}

/// All class names of `classes`.
pub const ALL_CLASSES: [&str; 12] = [
    "V-shaped table",
    "falling table",
    "rising table",
    "flat table",
    "falls to several lowest steps",
    "lowest at Q alone",
    "T 0",
    "Q 1",
    "m 1",
    "m a power of two",
    "m no power of two",
    "both prices 0",
];

/// A card's bytes with a fault of each kind in turn (1 to 8), or none.
pub fn damaged(random: &mut Random, card: &Card) -> Vec<u8> {
    let mut card = card.clone();
    match random.below(16) {
        1 => return card.bytes()[..random.below(17) as usize].to_vec(),
        2 => {
            let mut bytes = card.bytes();
            bytes[3] = 2;
            bytes
        }
        3 => {
            card.modules = random.pick(&[0, 201, 255]);
            card.bytes()
        }
        4 => {
            let mut bytes = card.bytes();
            bytes[8] = 5;
            bytes
        }
        5 => {
            let mut bytes = card.bytes();
            bytes.pop();
            bytes
        }
        6 => {
            card.up = 500_000_001;
            card.bytes()
        }
        7 if card.top > 1 => {
            let last = card.table.len() - 1;
            card.table[last - 1] += 900;
            card.bytes()
        }
        8 if !card.loads.is_empty() => {
            card.loads[0] = u16::from(card.modules) * u16::from(card.top) + 1;
            card.bytes()
        }
        _ => card.bytes(),
    }
}
