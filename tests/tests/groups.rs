//! `lamp_plan_groups`: the plan limited to a list against searches through all plans over it and through all sheets, and against a plain
//! dynamic program; the ratio; the rules of a list and its ratio, each broken alone and together; the order of the refusals; and every byte
//! that is lent.
use lamp_tests::areas;
use lamp_tests::boundary::{self, difference, plan_groups, planned, Answer, Outcome, Planner};
use lamp_tests::cards::{card_a, largest, lowest_at, small, Card};
use lamp_tests::classes::Classes;
use lamp_tests::count_lists;
use lamp_tests::faults::{self, set, Change, Fault};
use lamp_tests::groups::{self, broken, counts, Rule, RULES};
use lamp_tests::plain::{self, Show};
use lamp_tests::random::Random;
use lamp_tests::searches::{least_plans, lists, serving_sheets};
use lamp_tests::shows;

fn compare(card: &[u8], list: &[u16], ratio: u64, plan: &[u8], work: &[u8]) -> Outcome {
    let found = plan_groups(card, list, ratio, plan, work);
    if let Err(text) = difference(&found, &groups::plan(card, list, ratio, plan, work)) {
        let (plan, work) = (plan.len(), work.len());
        panic!("{text}; card {card:?}, list {list:?}, ratio {ratio}, plan area of {plan}, work area of {work}");
    }
    found
}

/// The cost and the plan of a list that keeps the rules, in areas with some bytes more than are asked for, which are as they were.
fn grouped(card: &Card, list: &[u16], ratio: u64) -> (u64, Vec<u8>) {
    let (slots, asked) = (card.loads.len(), list.len() * card.loads.len());
    let mut found = plan_groups(&card.bytes(), list, ratio, &vec![201; slots + 2], &vec![7; asked + 3]);
    let work = plain::written(&vec![0; asked], &vec![7; asked + 3]);
    let plan = found.buffers.swap_remove(0);
    let left = (found.answer.number, &plan[slots..], &found.buffers[0]);
    assert_eq!(left, (0, &[201, 201][..], &work), "{card:?}, {list:?}, ratio {ratio}");
    (found.answer.cost, plan[..slots].to_vec())
}

// ---------------------------------------------------------------- examples

/// Document 01's card E, whose least cost is 5.
fn card_e() -> Card {
    Card { modules: 8, top: 1, up: 1, down: 0, table: vec![0, 0], loads: vec![5, 3, 5] }
}

#[test]
fn examples_on_card_e() {
    let rows: [(&[u16], u64, u8); 6] = [
        (&[0, 2, 4, 8], 2, 8),
        (&[0, 1, 2, 3, 4, 5, 6, 7, 8], 1, 5),
        (&[0, 8], 8, 8),
        (&[0, 5, 8], 5, 5),
        (&[0, 3, 6, 8], 3, 6),
        (&[0, 2, 6, 8], 2, 6),
    ];
    for (list, ratio, count) in rows {
        assert_eq!(grouped(&card_e(), list, ratio), (count.into(), vec![count; 3]), "{list:?}");
        compare(&card_e().bytes(), list, ratio, &[7; 3], &vec![7; 3 * list.len()]);
    }
}

/// Of several least plans the one with the smallest count in the last slot is given, and so on back.
#[test]
fn smallest_counts_from_the_last_slot_on() {
    let free = Card { modules: 6, top: 1, up: 0, down: 0, table: vec![0, 0], loads: vec![1, 0, 3, 2] };
    assert_eq!(grouped(&free, &[0, 2, 4, 6], 2), (0, vec![2, 0, 4, 2]));
    assert_eq!(grouped(&free, &[0, 3, 6], 3), (0, vec![3, 0, 3, 3]));
    // a module that burns through slot 2 costs as much there as it costs to start it again
    let even = Card { modules: 4, top: 1, up: 3, down: 2, table: vec![5, 5], loads: vec![1, 0, 1] };
    assert_eq!(grouped(&even, &[0, 2, 4], 2), (10 + 10 + 20, vec![2, 0, 2]));
}

/// A show without slots costs nothing and asks for no byte. Its list and its ratio are still looked at.
#[test]
fn no_slots() {
    let card = small(3, &[4, 2, 9], &[]).bytes();
    let done = |plan: &[u8], work: &[u8]| Outcome { answer: Answer::cost(0), buffers: vec![plan.to_vec(), work.to_vec()] };
    for (plan, work) in [(&[][..], &[][..]), (&[7; 2], &[7; 5]), (&[], &[7; 5]), (&[7; 2], &[])] {
        assert_eq!(compare(&card, &[0, 1, 3], 2, plan, work), done(plan, work));
        for (list, ratio) in [(&[0, 1, 2][..], 2), (&[0, 3], 2), (&[1, 2, 3], 2), (&[0, 1, 3], 0), (&[0, 1, 3], 201), (&[], 2)] {
            assert_eq!(compare(&card, list, ratio, plan, work).answer, Answer::refused(18), "{list:?}, ratio {ratio}");
        }
    }
}

// ---------------------------------------------------------------- all plans and all sheets

/// The name of a class of lists with a ratio. A list for at most six modules that keeps the rules with a higher ratio keeps them with 6.
fn of_ratio(ratio: u64, what: &str) -> String {
    match ratio {
        ..=6 => format!("ratio {ratio}: {what}"),
        7.. => format!("ratio 7 and more: {what}"),
    }
}

const LISTS: &str = "lists";
const ABOVE: &str = "the cost is above the least";
const ATTAINED: &str = "the cost is just the ratio times a least cost above 0";
const TIES: &str = "two or more least plans over the list";
const FALLS: &str = "the cost is above the least on a falling table";

/// A card with few sheets. In one of four every step is free and the loads are at most 1, so that a list's ratio may be attained.
fn small_card(random: &mut Random) -> Card {
    let mut card = shows::of_few_sheets(random, 20_000);
    if random.below(4) == 0 {
        card.table.fill(0);
        card.loads.iter_mut().for_each(|load| *load = 1.min(*load));
    }
    card
}

/// The least cost of the sheets, given by their counts and costs, whose counts are all allowed.
fn least_cost(sheets: &[(Vec<u8>, u64)], allowed: impl Fn(u16) -> bool) -> u64 {
    let within = sheets.iter().filter(|(counts, _)| counts.iter().all(|count| allowed(u16::from(*count))));
    within.map(|(_, cost)| *cost).min().expect("the full rack serves")
}

/// The planner gives the first of the least plans over the list, at the cost of its sheet, which is the least cost of all sheets that keep to
/// the list, and at most the ratio times the least cost of ALL sheets.
fn compare_with_all(classes: &mut Classes, card: &Card, show: &Show, sheets: &[(Vec<u8>, u64)], list: &[u16], ratio: u64) {
    let (cost, plan) = grouped(card, list, ratio);
    assert_eq!(cost, least_cost(sheets, |count| list.contains(&count)), "sheets that keep to the list: {card:?}, {list:?}, ratio {ratio}");
    let least = least_cost(sheets, |_| true);
    let plans = least_plans(show, &counts(list));
    assert_eq!((cost, &plan), (show.sheet_cost(&show.sheet(&plans[0])), &plans[0]), "{card:?}, {list:?}, ratio {ratio}");
    assert!(least <= cost && cost <= ratio * least, "{cost}, where the least is {least}: {card:?}, {list:?}, ratio {ratio}");
    if plans.len() > 1 {
        classes.see(TIES);
    }
    if cost > least && show.falls() {
        classes.see(FALLS);
    }
    let of_costs = [(LISTS, true), (ABOVE, cost > least), (ATTAINED, least > 0 && cost == ratio * least)];
    of_costs.into_iter().filter(|(_, holds)| *holds).for_each(|(what, _)| classes.see(&of_ratio(ratio, what)));
}

/// Thousands of small shows, each with several lists, against a search through all plans over the list and through all sheets.
#[test]
fn all_plans_and_sheets() {
    let of_ratios = (1..=7).map(|ratio| of_ratio(ratio, LISTS)).chain((2..=7).map(|ratio| of_ratio(ratio, ABOVE)));
    let names: Vec<String> = of_ratios.chain((1..=6).map(|ratio| of_ratio(ratio, ATTAINED))).collect();
    let lists = &count_lists::ALL_CLASSES[1..];
    let names: Vec<&str> =
        names.iter().map(String::as_str).chain(shows::ALL_CLASSES).chain(lists.iter().copied()).chain([TIES, FALLS]).collect();
    let mut classes = Classes::new("6,000 small shows, each with four lists, against all plans and all sheets (seed 91)", &names);
    let mut random = Random::new(91);
    for _ in 0..6_000 {
        let card = small_card(&mut random);
        let show = plain::read_card(&card.bytes()).unwrap();
        let sheets: Vec<_> = serving_sheets(&card, &show).iter().map(|(sheet, cost)| (show.active(sheet), *cost)).collect();
        shows::classes(&card).into_iter().for_each(|name| classes.see(name));
        for _ in 0..4 {
            let ratio = count_lists::ratio(&mut random);
            let list = count_lists::list(&mut random, show.modules, ratio);
            compare_with_all(&mut classes, &card, &show, &sheets, &list, ratio);
            count_lists::classes(&list, ratio).into_iter().for_each(|name| classes.see(name));
        }
    }
    classes.require_all();
}

/// Every ratio from 1 to 200 is attained: with the multiples of r as the list, a load of 1 costs r warm-ups where one is enough.
#[test]
fn every_ratio_is_attained() {
    let card = Card { modules: 200, top: 1, up: 1, down: 0, table: vec![0, 0], loads: vec![1] };
    assert_eq!(planned(Planner::Exact, &card), (1, vec![1]));
    for ratio in 1..=200 {
        let mut list: Vec<u16> = (0..200).step_by(ratio).collect();
        list.push(200);
        assert_eq!(grouped(&card, &list, ratio as u64), (ratio as u64, vec![ratio as u8]));
    }
}

// ---------------------------------------------------------------- larger shows

/// Larger shows against the plain dynamic program, which `compare` uses, and the cost beside the exact planner's.
#[test]
fn larger_shows() {
    let names: Vec<&str> = shows::ALL_CLASSES.into_iter().chain(count_lists::ALL_CLASSES).chain(["200 modules", ABOVE]).collect();
    let mut classes = Classes::new("4,000 larger shows (seed 92)", &names).with_numbers([0]);
    let mut random = Random::new(92);
    for _ in 0..4_000 {
        let modules = random.pick(&[1, 2, 3, 7, 8, 31, 64, 100, 128, 150, 199, 200, 200]);
        let (top, slots) = (random.pick(&[1, 2, 9, 60, 200]), random.below(61));
        let card = shows::card(&mut random, modules, top, slots, 900);
        let ratio = count_lists::ratio(&mut random);
        let list = count_lists::list(&mut random, modules, ratio);
        let (plan, work) = (vec![7; card.loads.len() + 2], vec![7; list.len() * card.loads.len() + 3]);
        let found = compare(&card.bytes(), &list, ratio, &plan, &work).answer;
        let least = planned(Planner::Exact, &card).0;
        assert!(least <= found.cost && found.cost <= ratio * least, "{card:?}, {list:?}, ratio {ratio}");
        classes.see_number(found.number);
        let of_show = [("200 modules", modules == 200), (ABOVE, found.cost > least)];
        of_show.into_iter().filter(|(_, holds)| *holds).for_each(|(name, _)| classes.see(name));
        shows::classes(&card).into_iter().chain(count_lists::classes(&list, ratio)).for_each(|name| classes.see(name));
    }
    classes.require_all();
}

/// The largest show with short and long lists, with a table that never falls and with one that does.
#[test]
fn largest_shows() {
    let mut random = Random::new(93);
    let mut card = largest(0);
    card.loads.iter_mut().for_each(|load| *load = random.below(40_001) as u16);
    for card in [card.clone(), lowest_at(120, card)] {
        for gap in [1, 3, 20, 200] {
            let list: Vec<u16> = (0..200).step_by(gap).chain([200]).collect();
            let asked = 1_024 * list.len();
            let number =
                |plan: usize, work: usize| compare(&card.bytes(), &list, 200, &vec![7; plan], &vec![7; work]).answer.number;
            assert_eq!((number(1_024, asked), number(1_024, asked - 1), number(1_023, asked)), (0, 10, 10), "{list:?}");
        }
    }
}

/// With the counts of a planner the call gives that planner's cost and plan: with all counts and ratio 1 the exact one's, with the coarse
/// counts and ratio 2 the coarse one's, and also with a higher ratio.
#[test]
fn as_the_two_planners() {
    let mut classes = Classes::new("3,000 shows with the lists of both planners (seed 94)", &shows::ALL_CLASSES);
    let mut random = Random::new(94);
    for _ in 0..3_000 {
        let card = shows::of_any_size(&mut random, 900);
        let modules = u64::from(card.modules);
        let coarse: Vec<u16> = plain::allowed(modules).into_iter().map(|count| count as u16).collect();
        for (planner, list, ratio) in [(Planner::Exact, count_lists::all(modules), 1), (Planner::Coarse, coarse, 2)] {
            let (wanted, higher) = (planned(planner, &card), ratio + random.below(201 - ratio));
            assert_eq!(grouped(&card, &list, ratio), wanted, "{planner:?}: {card:?}");
            assert_eq!(grouped(&card, &list, higher), wanted, "{planner:?}, ratio {higher}: {card:?}");
        }
        shows::classes(&card).into_iter().for_each(|name| classes.see(name));
    }
    classes.require_all();
}

// ---------------------------------------------------------------- the rules of a list and its ratio

/// A show without slots on a rack, which is refused by 18 or by nothing.
fn rack(modules: u8) -> Vec<u8> {
    small(modules, &[0, 1], &[]).bytes()
}

/// The number that a list gets in a show without slots: 18 exactly if a rule is broken. So it is in a show with one slot and no byte of work,
/// where a list that keeps the rules gets 10.
fn judged(modules: u8, list: &[u16], ratio: u64) -> u64 {
    let number = plan_groups(&rack(modules), list, ratio, &[], &[]).answer.number;
    let rules = broken(list, ratio, modules.into());
    assert_eq!(number, if rules.is_empty() { 0 } else { 18 }, "{rules:?} broken: {list:?}, ratio {ratio}, {modules} modules");
    let with_slot = plan_groups(&small(modules, &[0, 1], &[0]).bytes(), list, ratio, &[7], &[]).answer.number;
    assert_eq!(with_slot, if number == 0 { 10 } else { 18 }, "{list:?}, ratio {ratio}, {modules} modules, one slot");
    number
}

/// The names of the rules that are broken, joined.
fn names(rules: &[Rule]) -> String {
    let name = |rule: &Rule| RULES.iter().find(|(each, _)| each == rule).expect("all rules are listed").1;
    rules.iter().map(name).collect::<Vec<_>>().join(" and ")
}

/// Each rule broken alone, where it can be. Ratio 0 is below every entry after 0, fewer than two entries cannot begin with 0 and end with m,
/// and more than 201 cannot ascend from 0 to at most 200.
#[test]
fn each_rule_alone() {
    use Rule::*;
    let rows: [(&[Rule], u8, &[u16], u64); 20] = [
        (&[], 4, &[0, 2, 4], 2),
        (&[Ratio], 4, &[0, 2, 4], 201),
        (&[Ratio], 4, &[0, 2, 4], (1 << 32) + 2),
        (&[Ratio], 4, &[0, 2, 4], u64::MAX),
        (&[Ratio, First, Gaps], 4, &[0, 2, 4], 0),
        (&[Begin], 4, &[1, 2, 4], 2),
        (&[Begin, Ascent, Gaps], 4, &[256, 2, 4], 2),
        (&[End], 4, &[0, 2, 3], 2),
        (&[End], 4, &[0, 2, 5], 2),
        (&[End], 4, &[0, 2, 256 + 4], 200),
        (&[End], 200, &[0, 200, 30_000, u16::MAX], 200),
        (&[Ascent], 4, &[0, 2, 4, 4], 2),
        (&[Ascent], 4, &[0, 2, 5, 4], 2),
        (&[First], 4, &[0, 3, 4], 2),
        (&[First], 4, &[0, 4], 3),
        (&[First, Ascent], 4, &[0, 256 + 2, 4], 200),
        (&[Gaps], 4, &[0, 1, 4], 2),
        (&[Gaps], 200, &[0, 1, 2, 3, 200], 196),
        (&[Entries, Begin, End], 4, &[], 2),
        (&[Entries, End], 4, &[0], 2),
    ];
    for (rules, modules, list, ratio) in rows {
        let found = broken(list, ratio, modules.into());
        assert!(
            found.len() == rules.len() && rules.iter().all(|rule| found.contains(rule)),
            "{found:?}: {list:?}, ratio {ratio}"
        );
        judged(modules, list, ratio);
    }
}

/// Lists of every length up to some more than are allowed: only the list of all counts of the largest rack has 201 entries.
#[test]
fn lengths_of_lists() {
    for length in 0..=310 {
        let ascending: Vec<u16> = (0..length).collect();
        assert_eq!(judged(200, &ascending, 200) == 0, length == 201, "{length}");
        let ends_with_the_rack: Vec<u16> = ascending.iter().map(|entry| 200.min(*entry)).collect();
        assert_eq!(judged(200, &ends_with_the_rack, 200) == 0, length == 201, "{length}");
        let short = ascending.into_iter().take(199).chain([200]).collect::<Vec<_>>();
        assert_eq!(judged(200, &short, 200) == 0, length >= 1, "{length}");
    }
}

/// A list with these gaps, and then gaps of 1 up to the full rack of 200.
fn gaps(gaps: &[u64]) -> Vec<u16> {
    let mut list = vec![0];
    for gap in gaps {
        list.push(list[list.len() - 1] + *gap as u16);
    }
    list.extend(list[list.len() - 1] + 1..=200);
    list
}

/// For every ratio, 0 and 201 too, the first entry and the gap behind each gap just at their bounds, or as large as the rack leaves,
/// and one above.
#[test]
fn bounds_of_entries_and_gaps() {
    let mut classes = Classes::new("first entries and gaps at their bounds", &["kept", "broken"]);
    let mut see = |list: &[u16], ratio: u64| {
        classes.see(if judged(200, list, ratio) == 0 { "kept" } else { "broken" });
    };
    for ratio in 0..=201 {
        for first in [ratio, ratio + 1] {
            see(&gaps(&[first.clamp(1, 200)]), ratio);
        }
        for before in 1..=100 {
            let most = (ratio * before).min(199 - before);
            for gap in [most, most + 1].map(|gap| gap.max(1)) {
                see(&gaps(&[before, gap]), ratio);
                see(&gaps(&[1, before.min(98), gap.min(199 - before.min(98))]), ratio);
            }
        }
    }
    classes.require_all();
}

/// ALL lists of up to six entries from 0 to 5, for racks of 1 to 4 modules and ratios of 0 to 6 and a few large ones.
#[test]
fn all_small_lists() {
    let mut classes = Classes::new("how many rules all small lists break", &["none", "one", "two", "more"]).with_numbers([0, 18]);
    let all: Vec<Vec<u16>> = (0..=6).flat_map(|length| lists(&[0, 1, 2, 3, 4, 5], length)).collect();
    for modules in 1..=4 {
        for list in &all {
            for ratio in [0, 1, 2, 3, 4, 5, 6, 200, 201, (1 << 32) + 2] {
                let found = plan_groups(&rack(modules), list, ratio, &[], &[]).answer.number;
                let rules = broken(list, ratio, modules.into());
                assert_eq!(
                    found,
                    if rules.is_empty() { 0 } else { 18 },
                    "{rules:?} broken: {list:?}, ratio {ratio}, {modules} modules"
                );
                classes.see_number(found);
                classes.see(if rules.is_empty() { "none" } else { ["one", "two", "more"][rules.len().min(3) - 1] });
            }
        }
    }
    classes.require_all();
}

// ---------------------------------------------------------------- refusals and areas

/// What a call is handed and lent beside card A: at first the list 0 1 3 with ratio 2, and just the bytes that are asked for.
struct Request {
    list: Vec<u16>,
    ratio: u64,
    plan: usize,
    work: usize,
}

/// The faults of the list, the ratio and the areas. No change undoes another one.
const FAULTS: [(u64, Change<Request>); 14] = [
    (18, |request| request.ratio = 0),
    (18, |request| request.ratio |= 1 << 32),
    (18, |request| request.list.clear()),
    (18, |request| request.list.truncate(1)),
    (18, |request| set(&mut request.list, 0, 1)),
    (18, |request| set(&mut request.list, 1, 256 + 1)),
    (18, |request| set(&mut request.list, 2, u16::MAX)),
    (18, |request| set(&mut request.list, 1, 3)),
    (18, |request| request.list.extend(4..204)),
    (10, |request| request.plan = 2.min(request.plan)),
    (10, |request| request.plan = 0),
    (10, |request| request.work = 8.min(request.work)),
    (10, |request| request.work = 0),
    (10, |request| request.work = 1.min(request.work)),
];

/// The request with these faults is refused by the first of their numbers, where 18 comes after 8 and before 10. No byte is altered.
fn refuse(classes: &mut Classes, three: [&Fault<Request>; 3]) {
    let numbers = faults::numbers(&three);
    let first = if numbers.starts_with(&[10, 18]) { 18 } else { numbers[0] };
    let (card, request) = faults::request(&three, Request { list: vec![0, 1, 3], ratio: 2, plan: 3, work: 9 });
    for paint in [7, 255] {
        let (plan, work) = (vec![paint; request.plan], vec![paint; request.work]);
        let found = plan_groups(&card, &request.list, request.ratio, &plan, &work);
        let text = format!("faults {numbers:?}, card {card:?}, list {:?}, ratio {}", request.list, request.ratio);
        difference(&found, &plain::unplanned(first, &plan, &work)).unwrap_or_else(|difference| panic!("{difference}; {text}"));
        compare(&card, &request.list, request.ratio, &plan, &work);
    }
    classes.see_number(first);
    classes.see(faults::together(&numbers));
    if numbers.ends_with(&[10, 18]) {
        classes.see(if numbers.len() == 2 { "18 and 10" } else { "a card's number, 18 and 10" });
    }
}

/// Every fault, every two of them and every three.
#[test]
fn order_of_refusals() {
    let names = [&faults::TOGETHER[..], &["18 and 10", "a card's number, 18 and 10"]].concat();
    let mut classes = Classes::new("list planner refused for up to three faults", &names).with_numbers((1..=8).chain([10, 18]));
    faults::every_three(&faults::all(&FAULTS), |three| refuse(&mut classes, three));
    classes.require_all();
}

/// Areas of every length up to some bytes more than the 3 and 9 that are asked for, with lists that keep the rules and with others.
#[test]
fn plan_and_work_areas() {
    for (list, ratio) in [([0, 1, 3], 2), ([0, 1, 3], 1), ([0, 2, 3], 2), ([0, 3, 3], 3)] {
        for (plan, work) in (0..6).flat_map(|plan| (0..14).map(move |work| (plan, work))) {
            for paint in [1, 255] {
                let found = compare(&card_a(), &list, ratio, &vec![paint; plan], &vec![paint; work]);
                let kept = broken(&list, ratio, 3).is_empty();
                let wanted = if !kept {
                    18
                } else if plan < 3 || work < 9 {
                    10
                } else {
                    0
                };
                assert_eq!(found.answer.number, wanted, "{list:?}, ratio {ratio}, {plan} bytes of plan, {work} of work");
            }
        }
    }
}

const AGAIN: &str = "18 with an area that is too short";

/// Random bytes for an area.
fn random_bytes(random: &mut Random, length: usize) -> Vec<u8> {
    (0..length).map(|_| random.below(256) as u8).collect()
}

/// Cards, lists, ratios and areas with every fault and with none, against the plain rules.
#[test]
fn random_requests() {
    let alone = [Rule::Ratio, Rule::Begin, Rule::End, Rule::Ascent, Rule::First, Rule::Gaps].map(|rule| names(&[rule]));
    let expected: Vec<&str> = areas::LENGTHS.into_iter().chain([AGAIN]).chain(alone.iter().map(String::as_str)).collect();
    let mut classes = Classes::new("60,000 requests with a list (seed 95)", &expected).with_numbers((0..=8).chain([10, 18]));
    let mut random = Random::new(95);
    for _ in 0..60_000 {
        let (modules, top, slots) = (random.pick(&[1, 2, 3, 4, 6, 9, 14, 200]), 1 + random.below(4), random.below(5));
        let card = shows::card(&mut random, modules, top, slots, 50);
        let bytes = shows::damaged(&mut random, &card);
        let mut ratio = count_lists::ratio(&mut random);
        let mut list = count_lists::list(&mut random, modules, ratio);
        count_lists::spoil(&mut random, &mut list, &mut ratio);
        let (plan, first) = areas::length(&mut random, slots as usize);
        let (work, second) = areas::length(&mut random, list.len() * slots as usize);
        let (plan, work) = (random_bytes(&mut random, plan), random_bytes(&mut random, work));
        let number = compare(&bytes, &list, ratio, &plan, &work).answer.number;
        classes.see_number(number);
        [first, second].into_iter().for_each(|name| classes.see(name));
        if number == 18 {
            classes.see(&names(&broken(&list, ratio, modules)));
        }
        if number == 18 && (plan.len() < slots as usize || work.len() < list.len() * slots as usize) {
            classes.see(AGAIN);
        }
    }
    classes.require_all();
}

/// The exact planner's work area is enough for every list that keeps the rules, since such a list has at most m + 1 entries.
#[test]
fn exact_work_area_is_enough() {
    let mut random = Random::new(96);
    for _ in 0..2_000 {
        let card = shows::of_any_size(&mut random, 900);
        let ratio = count_lists::ratio(&mut random);
        let list = count_lists::list(&mut random, card.modules.into(), ratio);
        let work = Planner::Exact.work_bytes(card.modules.into(), card.loads.len());
        let found = plan_groups(&card.bytes(), &list, ratio, &vec![7; card.loads.len()], &vec![7; work]);
        assert_eq!(found.answer, Answer::cost(grouped(&card, &list, ratio).0), "{card:?}, {list:?}, ratio {ratio}");
    }
}

/// The sheet that the library makes of the plan serves, and costs what the planner named.
#[test]
fn sheet_of_the_plan() {
    let mut random = Random::new(97);
    for _ in 0..2_000 {
        let card = shows::of_any_size(&mut random, 900);
        let ratio = count_lists::ratio(&mut random);
        let (cost, plan) = grouped(&card, &count_lists::list(&mut random, card.modules.into(), ratio), ratio);
        let made = boundary::sheet(&card.bytes(), &plan, &vec![7; usize::from(card.modules) * plan.len()]);
        assert_eq!(made.answer, Answer::cost(cost), "{card:?}, plan {plan:?}");
        assert_eq!(boundary::mark(&card.bytes(), &made.buffers[0]), Answer::cost(cost), "{card:?}, plan {plan:?}");
    }
}

/// The comparer reports a falsified number and cost, another least plan of the same cost, a work byte, and a byte behind each area's part.
#[test]
fn falsified_outcomes_are_reported() {
    let free = Card { modules: 4, top: 1, up: 0, down: 0, table: vec![0, 0], loads: vec![0, 1] };
    let expected = groups::plan(&free.bytes(), &[0, 2, 4], 2, &[7; 3], &[7; 7]);
    assert_eq!((expected.answer, &expected.buffers[0]), (Answer::cost(0), &vec![0, 2, 7]));
    let falsify: [fn(&mut Outcome); 6] = [
        |outcome| outcome.answer.number = 18,
        |outcome| outcome.answer.cost = 1,
        |outcome| outcome.buffers[0][1] = 4,
        |outcome| outcome.buffers[0][2] = 0,
        |outcome| outcome.buffers[1][5] = 7,
        |outcome| outcome.buffers[1][6] = 0,
    ];
    for change in falsify {
        let mut falsified = expected.clone();
        change(&mut falsified);
        assert!(difference(&falsified, &expected).is_err());
    }
}
