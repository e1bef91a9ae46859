//! The three facts of document 02, section 3, and two more that the course book has: a show played backwards, a rack with more modules, two
//! shows joined end to end, and which of several least plans is given. The costs and plans that a fact compares are the library's. Beside them
//! stand the plain rules, where they are quick enough, so that a library that is wrong in the same way twice is noticed.
use lamp_tests::boundary::{planned, Planner, BOTH};
use lamp_tests::cards::{largest, lowest_at, Card};
use lamp_tests::classes::Classes;
use lamp_tests::plain;
use lamp_tests::random::Random;
use lamp_tests::searches::{least_plans, serving_sheets};
use lamp_tests::shows;
use std::cmp::Ordering;

/// Draws 10,000 shows of any size and 100 of 1,024 slots. The entries and prices of some are 0 and 1 at most, so that many plans cost
/// the same. The last two are the largest show with random loads, on a table that never falls and on one that falls up to step 120.
fn many_shows(random: &mut Random) -> Vec<Card> {
    const STEEPEST: [u64; 5] = [0, 1, 2, 9, 900];
    let mut out = Vec::new();
    for _ in 0..10_000 {
        let steepest = random.pick(&STEEPEST);
        out.push(shows::of_any_size(random, steepest));
    }
    for _ in 0..100 {
        let (modules, top, steepest) = (1 + random.below(200), 1 + random.below(200), random.pick(&STEEPEST));
        out.push(shows::card(random, modules, top, 1_024, steepest));
    }
    let loads = (0..1_024).map(|_| random.below(40_001) as u16).collect();
    let never_falls = Card { loads, ..largest(0) };
    out.extend([never_falls.clone(), lowest_at(120, never_falls)]);
    out
}

/// The name of a class that is counted for each planner.
fn of(planner: Planner, name: &str) -> String {
    format!("{planner:?}: {name}")
}

/// The classes of shows, those that are counted for each planner, and others.
fn classes(title: &str, of_each: &[&str], others: &[&str]) -> Classes {
    let of_both: Vec<String> = BOTH.iter().flat_map(|planner| of_each.iter().map(|name| of(*planner, name))).collect();
    let names: Vec<&str> = of_both.iter().map(String::as_str).chain(others.iter().copied()).chain(shows::ALL_CLASSES).collect();
    Classes::new(title, &names)
}

/// Counts those of a planner's classes that hold.
fn see(classes: &mut Classes, planner: Planner, names: &[(&str, bool)]) {
    names.iter().filter(|(_, holds)| *holds).for_each(|(name, _)| classes.see(&of(planner, name)));
}

fn reversed<T: Copy>(list: &[T]) -> Vec<T> {
    list.iter().rev().copied().collect()
}

/// How many least plans a show has over the counts allowed to a planner, where it has 1,000 plans or fewer in all.
fn least_of_few(planner: Planner, card: &Card) -> Option<usize> {
    let show = plain::read_card(&card.bytes()).unwrap();
    let counts = show.counts(planner == Planner::Coarse);
    let few = counts.len().checked_pow(show.slots() as u32).is_some_and(|plans| plans <= 1_000);
    few.then(|| least_plans(&show, &counts).len())
}

/// The classes of a show played backwards. Only of a show that has few plans it is known how many of them are least.
const OTHER_PLAN: &str = "the plan is not its own reverse";
const OWN_REVERSE: &str = "the plan is its own reverse";
const ONE_LEAST: &str = "few plans, one of them least";
const SEVERAL_LEAST: &str = "few plans, several of them least";
const SEVERAL_AND_OTHER: &str = "few plans, several of them least, and the plan is not its own reverse";

const BY_PLAIN_RULES: &str = "compared with the plain rules";
const LONG_BY_PLAIN_RULES: &str = "compared with the plain rules, over 100 slots";

/// The cost and the plan by the plain rules, of a show that is not too large for them.
fn by_plain_rules(planner: Planner, card: &Card) -> Option<(u64, Vec<u8>)> {
    let show = plain::read_card(&card.bytes()).unwrap();
    let work = u64::from(card.modules).pow(2) * u64::from(card.top) * card.loads.len() as u64;
    (work <= 2_000_000).then(|| show.least_plan(&show.counts(planner == Planner::Coarse)))
}

/// The show with its loads in reverse has the same cost, and its plan is the plan in reverse.
fn compare_backwards(classes: &mut Classes, planner: Planner, card: &Card) {
    let backwards = Card { loads: reversed(&card.loads), ..card.clone() };
    let (cost, plan) = planned(planner, card);
    assert_eq!(planned(planner, &backwards), (cost, reversed(&plan)), "{planner:?}: {card:?}");
    if let Some(wanted) = by_plain_rules(planner, card) {
        assert_eq!((cost, &plan), (wanted.0, &wanted.1), "{planner:?}: {card:?}");
        see(classes, planner, &[(BY_PLAIN_RULES, true), (LONG_BY_PLAIN_RULES, plan.len() > 100)]);
    }
    let (other, least) = (plan != reversed(&plan), least_of_few(planner, card));
    let several = least.is_some_and(|plans| plans > 1);
    see(classes, planner, &[(OTHER_PLAN, other), (OWN_REVERSE, !other), (ONE_LEAST, least == Some(1))]);
    see(classes, planner, &[(SEVERAL_LEAST, several), (SEVERAL_AND_OTHER, several && other)]);
}

#[test]
fn backwards() {
    let of_each = [OTHER_PLAN, OWN_REVERSE, ONE_LEAST, SEVERAL_LEAST, SEVERAL_AND_OTHER, BY_PLAIN_RULES, LONG_BY_PLAIN_RULES];
    let mut classes = classes("10,102 shows played backwards (seed 151)", &of_each, &["the loads are not their own reverse"]);
    for card in many_shows(&mut Random::new(151)) {
        BOTH.into_iter().for_each(|planner| compare_backwards(&mut classes, planner, &card));
        if reversed(&card.loads) != card.loads {
            classes.see("the loads are not their own reverse");
        }
        shows::classes(&card).into_iter().for_each(|name| classes.see(name));
    }
    classes.require_all();
}

/// Draws a rack that has at least as many modules.
fn larger_rack(random: &mut Random, modules: u8) -> u8 {
    let any = modules + random.below(201 - u64::from(modules)) as u8;
    random.pick(&[modules, any.min(modules + 1), any, 200])
}

/// Compares the cost on the larger rack with that on the smaller one, and counts which it is.
fn compare_racks(classes: &mut Classes, planner: Planner, card: &Card, larger: &Card) -> Ordering {
    let found = planned(planner, larger).0.cmp(&planned(planner, card).0);
    let name = match found {
        Ordering::Less => "the cost is lower",
        Ordering::Equal => "the cost is equal",
        Ordering::Greater => "the cost is HIGHER",
    };
    classes.see(&of(planner, name));
    found
}

/// The exact cost is not higher on a larger rack. The coarse cost is, in some shows, so the fact is about the exact planner alone.
#[test]
fn more_modules() {
    let others =
        ["as many modules", "more modules, fewer than 200", "200 modules in the place of fewer", "Coarse: the cost is HIGHER"];
    let mut classes = classes("10,102 shows on a larger rack (seed 161)", &["the cost is lower", "the cost is equal"], &others);
    let mut random = Random::new(161);
    for card in many_shows(&mut random) {
        let larger = Card { modules: larger_rack(&mut random, card.modules), ..card.clone() };
        let [exact, _] = BOTH.map(|planner| compare_racks(&mut classes, planner, &card, &larger));
        assert_ne!(exact, Ordering::Greater, "the exact cost is higher with {} modules: {card:?}", larger.modules);
        classes.see(match larger.modules {
            modules if modules == card.modules => "as many modules",
            200 => "200 modules in the place of fewer",
            _ => "more modules, fewer than 200",
        });
        shows::classes(&card).into_iter().for_each(|name| classes.see(name));
    }
    classes.require_all();
}

/// The count 3 is allowed to the coarse planner on a rack of three, which it fills, and not on a rack of four.
#[test]
fn coarse_cost_is_higher_with_more_modules() {
    let card = |modules| Card { modules, top: 1, up: 1, down: 0, table: vec![0, 0], loads: vec![3] };
    assert_eq!(planned(Planner::Coarse, &card(3)), (3, vec![3]));
    assert_eq!(planned(Planner::Coarse, &card(4)), (4, vec![4]));
    for modules in [3, 4] {
        assert_eq!(planned(Planner::Exact, &card(modules)), (3, vec![3]));
    }
}

/// Draws how many of the slots belong to the first of two shows. Mostly both have some.
fn slots_of_the_first(random: &mut Random, slots: usize) -> usize {
    let inside = 1 + random.below(slots.max(2) as u64 - 1) as usize;
    random.pick(&[inside, inside, inside, inside, inside, inside, 0, slots]).min(slots)
}

/// The classes of two shows that are joined.
const BELOW_SUM: &str = "below the sum";
const SUM: &str = "equal to the sum";
const ABOVE_LARGER: &str = "above the larger of the two";
const BELOW_PAID: &str = "both cost something, below the sum";
const SUM_PAID: &str = "both cost something, equal to the sum";

/// Joined end to end, two shows on one rack with one table and the same prices cost at most the sum. The function returns the cost.
fn compare_joined(classes: &mut Classes, planner: Planner, joined: &Card, slots: usize) -> u64 {
    let parts = joined.loads.split_at(slots);
    let cost = |loads: &[u16]| planned(planner, &Card { loads: loads.to_vec(), ..joined.clone() }).0;
    let (first, second, together) = (cost(parts.0), cost(parts.1), cost(&joined.loads));
    assert!(together <= first + second, "{planner:?}: {together} for {first} and {second}, {slots} slots of {joined:?}");
    let (below, paid) = (together < first + second, first > 0 && second > 0);
    see(classes, planner, &[(BELOW_SUM, below), (SUM, !below), (ABOVE_LARGER, together > first.max(second))]);
    see(classes, planner, &[(BELOW_PAID, paid && below), (SUM_PAID, paid && !below)]);
    together
}

#[test]
fn joined() {
    let of_each = [BELOW_SUM, SUM, ABOVE_LARGER, BELOW_PAID, SUM_PAID];
    let others = ["one part is empty", "both parts are empty", "1,024 slots together", "coarse above exact"];
    let mut classes = classes("10,102 pairs of shows joined (seed 171)", &of_each, &others);
    let mut random = Random::new(171);
    for joined in many_shows(&mut random) {
        let slots = joined.loads.len();
        let first = slots_of_the_first(&mut random, slots);
        let [exact, coarse] = BOTH.map(|planner| compare_joined(&mut classes, planner, &joined, first));
        let holds = [slots > 0 && (first == 0 || first == slots), slots == 0, slots == 1_024, coarse > exact];
        others.into_iter().zip(holds).filter(|(_, holds)| *holds).for_each(|(name, _)| classes.see(name));
        shows::classes(&joined).into_iter().for_each(|name| classes.see(name));
    }
    classes.require_all();
}

/// Draws a show with few enough plans to go through all of them, and with entries and prices so small that many cost the same.
fn show_of_few_plans(random: &mut Random) -> Card {
    loop {
        let (modules, top, slots) = (1 + random.below(6), 1 + random.below(3), random.pick(&[0, 1, 2, 2, 3, 3, 4, 4, 5, 5]));
        if (modules + 1).pow(slots as u32) <= 3_000 {
            let steepest = random.pick(&[0, 1, 2]);
            return shows::card(random, modules, top, slots, steepest);
        }
    }
}

/// Says whether the counts are in no slot below those of the plan.
fn nowhere_below(counts: &[u8], plan: &[u8]) -> bool {
    counts.len() == plan.len() && counts.iter().zip(plan).all(|(count, least)| count >= least)
}

/// The classes of shows by their least plans, and of these plans.
const ONE: &str = "shows with one least plan";
const SEVERAL: &str = "shows with several least plans";
const OTHERS: &str = "least plans other than the planner's";

/// Of all plans with allowed counts that serve at the least cost, the planner's has the smallest count in every slot.
fn compare_least_plans(classes: &mut Classes, planner: Planner, card: &Card) {
    let show = plain::read_card(&card.bytes()).unwrap();
    let plans = least_plans(&show, &show.counts(planner == Planner::Coarse));
    let (cost, plan) = planned(planner, card);
    assert!(plans.contains(&plan), "{planner:?}: {plan:?} is none of {plans:?}: {card:?}");
    assert_eq!(cost, show.sheet_cost(&show.sheet(&plan)), "{planner:?}: {card:?}");
    for other in &plans {
        assert!(nowhere_below(other, &plan), "{planner:?}: {other:?} costs as little as {plan:?}: {card:?}");
        see(classes, planner, &[(OTHERS, *other != plan)]);
    }
    see(classes, planner, &[(ONE, plans.len() == 1), (SEVERAL, plans.len() > 1)]);
}

#[test]
fn smallest_of_the_least_plans() {
    let mut classes = classes("all least plans of 6,000 small shows (seed 181)", &[ONE, SEVERAL, OTHERS], &[]);
    let mut random = Random::new(181);
    for _ in 0..6_000 {
        let card = show_of_few_plans(&mut random);
        BOTH.into_iter().for_each(|planner| compare_least_plans(&mut classes, planner, &card));
        shows::classes(&card).into_iter().for_each(|name| classes.see(name));
    }
    classes.require_all();
    for planner in BOTH {
        assert!(classes.count(&of(planner, SEVERAL)) > 1_000, "few shows have several least plans");
    }
}

/// The classes of shows by their least sheets, and of these sheets.
const SAME_COUNTS: &str = "least sheets with the plan's counts";
const MORE_ACTIVE: &str = "least sheets with more active modules in some slot";
const SOME_MORE: &str = "shows that have a least sheet with more active modules in some slot";

/// Of all sheets, each that serves at the least cost has in every slot at least as many active modules as the exact plan.
fn compare_least_sheets(classes: &mut Classes, card: &Card) {
    let show = plain::read_card(&card.bytes()).unwrap();
    let (least, plan) = planned(Planner::Exact, card);
    let sheets = serving_sheets(card, &show);
    assert_eq!(sheets.iter().map(|(_, cost)| *cost).min(), Some(least), "{card:?}");
    let mut some_more = false;
    for (sheet, _) in sheets.iter().filter(|(_, cost)| *cost == least) {
        let active = show.active(sheet);
        assert!(nowhere_below(&active, &plan), "sheet {sheet:?} costs as little as plan {plan:?}: {card:?}");
        classes.see(if active == plan { SAME_COUNTS } else { MORE_ACTIVE });
        some_more |= active != plan;
    }
    if some_more {
        classes.see(SOME_MORE);
    }
}

#[test]
fn smallest_of_all_least_sheets() {
    let mut classes = classes("all least sheets of 5,000 small shows (seed 191)", &[], &[SAME_COUNTS, MORE_ACTIVE, SOME_MORE]);
    let mut random = Random::new(191);
    for _ in 0..5_000 {
        let card = shows::of_few_sheets(&mut random, 8_000);
        compare_least_sheets(&mut classes, &card);
        shows::classes(&card).into_iter().for_each(|name| classes.see(name));
    }
    classes.require_all();
}

/// A single count below the plan's is reported, and so is a slot too few or too many.
#[test]
fn smaller_counts_are_reported() {
    assert!(nowhere_below(&[2, 0, 3], &[2, 0, 3]) && nowhere_below(&[2, 1, 9], &[2, 0, 3]));
    for counts in [&[1, 0, 3][..], &[2, 0, 2], &[9, 9, 0], &[2, 0], &[2, 0, 3, 0]] {
        assert!(!nowhere_below(counts, &[2, 0, 3]), "{counts:?}");
    }
}
