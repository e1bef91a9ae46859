//! The planners, which look for the least plan by thresholds, against the plain dynamic program over columns: small and middle shows with
//! many ties, of which the smallest are also compared with all plans in turn, and large ones. Every byte of both areas is compared.
use lamp::planning::Groups;
use lamp_tests::boundary::{self, difference, Planner};
use lamp_tests::cards::Card;
use lamp_tests::catalogue;
use lamp_tests::classes::Classes;
use lamp_tests::count_lists;
use lamp_tests::groups;
use lamp_tests::plain::{self, Show};
use lamp_tests::random::Random;
use lamp_tests::searches::least_plans;
use lamp_tests::shows;
use std::collections::BTreeSet;

/// A list for a rack, with its ratio.
fn drawn_list(random: &mut Random, modules: u64) -> (Vec<u16>, u64) {
    let ratio = count_lists::ratio(random);
    (count_lists::list(random, modules, ratio), ratio)
}

/// The three planners in turn, the last one over the list.
fn in_turn((list, ratio): &(Vec<u16>, u64), turn: u64) -> Planner<'_> {
    match turn % 3 {
        0 => Planner::Exact,
        1 => Planner::Coarse,
        _ => Planner::Groups(Groups { counts: list, ratio: *ratio }),
    }
}

fn name(planner: Planner) -> &'static str {
    match planner {
        Planner::Exact => "exact",
        Planner::Coarse => "coarse",
        Planner::Groups(_) => "over a list",
    }
}

/// The counts that a planner may use.
fn counts(planner: Planner, show: &Show) -> Vec<u64> {
    match planner.groups() {
        Some(groups) => groups::counts(groups.counts),
        None => show.counts(planner == Planner::Coarse),
    }
}

/// Plans in areas with some bytes more than are asked for, all of one value, and compares the answer and every byte with those of the plain
/// dynamic program. The function returns the cost and the plan.
fn compare(random: &mut Random, planner: Planner, card: &Card, show: &Show) -> (u64, Vec<u8>) {
    let (asked, byte) = (planner.work_bytes(card.modules.into(), show.slots()), random.pick(&[0, 1, 7, 128, 201, 255]));
    let plan = vec![byte; show.slots() + random.below(3) as usize];
    let work = vec![byte ^ 0x55; asked + random.below(4) as usize];
    let mut found = boundary::plan(planner, &card.bytes(), &plan, &work);
    if let Err(text) = difference(&found, &plain::plan_over(show, &counts(planner, show), asked, &plan, &work)) {
        panic!("{planner:?}: {text}; {card:?}");
    }
    found.buffers[0].truncate(show.slots());
    (found.answer.cost, found.buffers.swap_remove(0))
}

/// Fails unless each kind came up at least as often as it is listed.
fn require_often(classes: &Classes, kinds: &[(&str, u64)]) {
    let rare: Vec<_> = kinds.iter().filter(|(name, least)| classes.count(name) < *least).collect();
    assert!(rare.is_empty(), "came up less often than listed: {rare:?}");
}

// ---------------------------------------------------------------- shows with many ties

/// The most plans of a show that is compared with all of them.
const MOST_PLANS: usize = 300;

const ALL_PLANS: &str = "compared with all plans";
const TIES: &str = "several least plans";
const FALLING_TIES: &str = "several least plans on a table that falls";
const FALLS: &str = "the table falls somewhere";
const LEVEL: &str = "all counts that serve cost the same in a slot";
const NO_LOAD: &str = "a slot without load";
const ALL_LIGHT: &str = "a slot that wants the whole rack at the top step";
const AT_TOP: &str = "a slot that wants some modules at the top step";
const FORCED: &str = "a slot that only the full rack serves";
const KEPT_ON: &str = "a count above the cheapest one of its slot";
const HELD_BACK: &str = "a count below the cheapest one of its slot";
const RISES_AND_FALLS: &str = "the plan rises, falls and rises again";

/// The kinds of shows of any size, each with how often it comes up at least among a hundred.
const OFTEN: [(&str, u64); 20] = [
    ("exact", 33),
    ("coarse", 33),
    ("over a list", 33),
    (FALLS, 40),
    (LEVEL, 10),
    (NO_LOAD, 40),
    (ALL_LIGHT, 40),
    (AT_TOP, 40),
    (FORCED, 40),
    (KEPT_ON, 20),
    (HELD_BACK, 3),
    (RISES_AND_FALLS, 8),
    ("V-shaped table", 15),
    ("falling table", 20),
    ("rising table", 20),
    ("flat table", 15),
    ("falls to several lowest steps", 15),
    ("T 0", 2),
    ("Q 1", 10),
    ("both prices 0", 10),
];

/// A load from 0 to what the rack gives, often 0, the most, or a multiple of the top step.
fn tied_load(random: &mut Random, modules: u64, top: u64) -> u16 {
    let any = random.below(modules * top + 1);
    let multiple = top * random.below(modules + 1);
    random.pick(&[0, modules * top, multiple, multiple, any, any, any]) as u16
}

/// A card with small numbers, so that ties are many.
fn tied_card(random: &mut Random, modules: u64, slots: u64) -> Card {
    let (top, steepest) = (random.pick(&[1, 2, 2, 3, 4, 6]), random.pick(&[1, 1, 2, 3, 9]));
    let card = shows::card(random, modules, top, slots, steepest);
    Card { loads: (0..slots).map(|_| tied_load(random, modules, top)).collect(), ..card }
}

/// The smallest of the counts that run a load at the least cost, if the slot stood alone and switching cost nothing.
fn cheapest(show: &Show, counts: &[u64], load: u64) -> u64 {
    let cost = |count: &u64| show.running_cost(*count, load);
    let least = counts.iter().filter_map(cost).min().expect("the full rack serves");
    *counts.iter().find(|count| cost(count) == Some(least)).expect("the least is one of them")
}

/// Whether two counts or more serve a load, and all of them at one cost.
fn is_level(show: &Show, counts: &[u64], load: u64) -> bool {
    let costs: Vec<u64> = counts.iter().filter_map(|count| show.running_cost(*count, load)).collect();
    costs.len() > 1 && costs.iter().all(|cost| *cost == costs[0])
}

/// The kinds of a show and its plan.
fn kinds(planner: Planner, card: &Card, show: &Show, plan: &[u8]) -> Vec<&'static str> {
    let (counts, all) = (counts(planner, show), show.modules * show.top);
    let below_full = show.top * counts[counts.len() - 2];
    let cheap: Vec<u64> = show.loads.iter().map(|load| cheapest(show, &counts, *load)).collect();
    let planned = || plan.iter().map(|count| u64::from(*count)).zip(&cheap);
    let turns: Vec<bool> = plan.windows(2).filter(|two| two[0] != two[1]).map(|two| two[0] < two[1]).collect();
    let any_load = |holds: &dyn Fn(u64) -> bool| show.loads.iter().any(|load| holds(*load));
    let kinds = [
        (FALLS, show.falls()),
        (LEVEL, any_load(&|load| is_level(show, &counts, load))),
        (NO_LOAD, any_load(&|load| load == 0)),
        (ALL_LIGHT, any_load(&|load| load == all)),
        (AT_TOP, any_load(&|load| 0 < load && load < all && load % show.top == 0)),
        (FORCED, any_load(&|load| below_full < load)),
        (KEPT_ON, planned().any(|(count, cheap)| *cheap < count)),
        (HELD_BACK, planned().any(|(count, cheap)| count < *cheap)),
        (RISES_AND_FALLS, turns.windows(3).any(|three| three == [true, false, true])),
    ];
    let held = kinds.into_iter().filter(|(_, holds)| *holds).map(|(name, _)| name);
    held.chain([name(planner)]).chain(shows::classes(card)).collect()
}

/// The plan is the first of the least plans of all that serve, and costs as much. The kinds that are then known are counted.
fn compare_with_all_plans(classes: &mut Classes, planner: Planner, card: &Card, show: &Show, found: &(u64, Vec<u8>)) {
    let plans = least_plans(show, &counts(planner, show));
    let least = show.sheet_cost(&show.sheet(&plans[0]));
    assert_eq!((found.0, &found.1), (least, &plans[0]), "{planner:?}: {card:?}");
    let several = plans.len() > 1;
    let kinds = [(ALL_PLANS, true), (TIES, several), (FALLING_TIES, several && show.falls())];
    kinds.into_iter().filter(|(_, holds)| *holds).for_each(|(name, _)| classes.see(name));
}

/// Compares a show for each turn, of a size that is drawn, and counts the kinds of all.
fn compare_shows(classes: &mut Classes, seed: u64, shows: u64, size: impl Fn(&mut Random) -> (u64, u64)) {
    let mut random = Random::new(seed);
    for turn in 0..shows {
        let (modules, slots) = size(&mut random);
        let card = tied_card(&mut random, modules, slots);
        let show = plain::read_card(&card.bytes()).expect("an accepted card");
        let list = drawn_list(&mut random, modules);
        let planner = in_turn(&list, turn);
        let found = compare(&mut random, planner, &card, &show);
        if counts(planner, &show).len().saturating_pow(slots as u32) <= MOST_PLANS {
            compare_with_all_plans(classes, planner, &card, &show, &found);
        }
        kinds(planner, &card, &show, &found.1).into_iter().for_each(|name| classes.see(name));
    }
    classes.require_all();
    let often: Vec<(&str, u64)> = OFTEN.iter().map(|(name, percent)| (*name, percent * shows / 100)).collect();
    require_often(classes, &often);
}

/// Up to 12 modules and 12 slots. Every third show has few slots or few modules, and so few plans.
#[test]
fn small_shows() {
    const KINDS: [(&str, u64); 4] = [(ALL_PLANS, 300_000), (TIES, 50_000), (FALLING_TIES, 20_000), ("m 1", 70_000)];
    let mut classes = Classes::new("600,000 small shows by thresholds (seed 201)", &KINDS.map(|(name, _)| name));
    compare_shows(&mut classes, 201, 600_000, |random| match random.below(6) {
        0 => (1 + random.below(12), random.below(3)),
        1 => (1 + random.below(3), random.below(6)),
        _ => (1 + random.below(12), random.below(13)),
    });
    require_often(&classes, &KINDS);
}

/// Up to 200 modules and 30 slots.
#[test]
fn middle_shows() {
    let mut classes = Classes::new("30,000 middle shows by thresholds (seed 203)", &[]);
    compare_shows(&mut classes, 203, 30_000, |random| (13 + random.below(188), random.below(31)));
}

// ---------------------------------------------------------------- large shows

const LARGE_SHOWS: u64 = 400;

const MANY_COUNTS: &str = "the plan has 50 counts or more";
const LARGEST: &str = "m 200, Q 200 and T 1,024";

/// The kinds of large shows, each with how often it comes up at least.
const LARGE_KINDS: [(&str, u64); 10] = [
    ("exact", 130),
    ("coarse", 130),
    ("over a list", 130),
    ("the catalogue's table", 190),
    ("a table on which counts spread", 190),
    ("random loads", 130),
    ("slowly varying loads", 130),
    ("the same load in every slot", 130),
    (MANY_COUNTS, 70),
    (LARGEST, 130),
];

/// The catalogue's table, or that table with every entry so much higher that few modules at a high step cost less than many at a low one.
fn large_table(top: u64, spread: bool) -> Vec<u32> {
    let mut table: Vec<u32> = (0..=top).map(|step| catalogue::entry(step) as u32).collect();
    if spread {
        table.iter_mut().for_each(|entry| *entry += 14_600);
    }
    table
}

/// So many loads up to `most`: random ones, or slowly rising and falling ones, or one for all slots.
fn large_loads(random: &mut Random, style: u64, slots: u64, most: u64) -> Vec<u16> {
    let mut way = random.below(most + 1);
    let mut load = || {
        way = match style {
            0 => random.below(most + 1),
            1 => (way + random.below(most / 50 + 1)) % (2 * most),
            _ => way,
        };
        way.min(2 * most - way) as u16
    };
    (0..slots).map(|_| load()).collect()
}

/// A card of any size, often the largest one, and the names of its table and of its loads.
fn large_card(random: &mut Random, turn: u64) -> (Card, [&'static str; 2]) {
    let (any, spread, style) = (1 + random.below(200), turn / 3 % 2 == 1, turn / 6 % 3);
    let modules = random.pick(&[any, 128, 200, 200]);
    let (top, slots) = if random.below(4) == 0 { (1 + random.below(200), random.below(1_025)) } else { (200, 1_024) };
    let loads = large_loads(random, style, slots, modules * top);
    let price = if spread { 8_000 } else { 800 };
    let card = Card { modules: modules as u8, top: top as u8, up: price, down: price, table: large_table(top, spread), loads };
    let table = if spread { "a table on which counts spread" } else { "the catalogue's table" };
    (card, [table, ["random loads", "slowly varying loads", "the same load in every slot"][style as usize]])
}

#[test]
fn large_shows() {
    let names: Vec<&str> = LARGE_KINDS.iter().map(|(name, _)| *name).collect();
    let mut classes = Classes::new("400 large shows by thresholds (seed 205)", &names);
    let mut random = Random::new(205);
    for turn in 0..LARGE_SHOWS {
        let (card, drawn) = large_card(&mut random, turn);
        let show = plain::read_card(&card.bytes()).expect("an accepted card");
        let list = drawn_list(&mut random, show.modules);
        let planner = in_turn(&list, turn);
        let (_, plan) = compare(&mut random, planner, &card, &show);
        let counts = plan.iter().collect::<BTreeSet<_>>().len();
        let largest = (show.modules, show.top, show.slots()) == (200, 200, 1_024);
        let of_size = [(MANY_COUNTS, counts >= 50), (LARGEST, largest)].into_iter().filter(|(_, holds)| *holds);
        of_size.map(|(name, _)| name).chain(drawn).chain([name(planner)]).for_each(|name| classes.see(name));
    }
    classes.require_all();
    require_often(&classes, &LARGE_KINDS);
}
