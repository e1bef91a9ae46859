//! `lamp_explain`: the three numbers against searches through all sheets, all patterns and all plans, and against section 7 of document 02
//! written out plainly; their sum; the refusals and their order; and every byte of the work area and beside it.
use lamp_tests::areas::{self, lent, BESIDE};
use lamp_tests::boundary::{self, mark, planned, Planner, BOTH};
use lamp_tests::cards::{card_a, largest, lowest_at, small, Card};
use lamp_tests::classes::Classes;
use lamp_tests::explanation;
use lamp_tests::faults::{self, set, Change, Fault};
use lamp_tests::plain::{self, Show, OFF};
use lamp_tests::points::{self, difference, Outcome, Points};
use lamp_tests::random::Random;
use lamp_tests::searches::{patterns, serving_plans, serving_sheets};
use lamp_tests::shows;
use std::collections::HashMap;
use std::ops::Range;

const D: [u8; 9] = [2, 2, 2, OFF, 0, OFF, 2, OFF, OFF];

fn compare(card: &[u8], sheet: &[u8], area: &[u8], lent: Range<usize>) -> Points {
    let found = points::explain(card, sheet, area, lent.clone());
    if let Err(text) = difference(&found, &explanation::explain(card, sheet, area, lent.clone())) {
        panic!("{text}; card {card:?}, sheet {sheet:?}, bytes {lent:?} of the area are lent");
    }
    found.points
}

/// The explanation of a sheet, with a work area that is just long enough and is then zero.
fn explained(card: &[u8], show: &Show, sheet: &[u8]) -> Points {
    let asked = explanation::asked(show);
    let mut area = vec![7; 2 * BESIDE + asked];
    let found = points::explain(card, sheet, &area, lent(asked));
    area[lent(asked)].fill(0);
    assert_eq!(found.area, area, "card {card:?}, sheet {sheet:?}");
    found.points
}

// ---------------------------------------------------------------- examples

/// The explanation of a sheet of card A, by the library and by the plain rules.
fn of_card_a(sheet: [u8; 9]) -> Points {
    compare(&card_a(), &sheet, &[7; 2 * BESIDE + 12], lent(12))
}

/// Document 01's example D costs 37, and 43 with its last byte 0; the least cost is 32.
#[test]
fn example_d() {
    assert_eq!(of_card_a(D), points::of(0, 5, 0));
    let mut active = D;
    active[8] = 0;
    assert_eq!(of_card_a(active), points::of(1, 5, 5));
}

/// On card A each number alone is above 0, every two of them, all three, and none.
#[test]
fn each_number_alone() {
    let rows = [
        ([0, OFF, OFF, 2, OFF, OFF], points::of(0, 0, 0)),
        ([1, OFF, OFF, 2, OFF, OFF], points::of(1, 0, 0)),
        ([OFF, 0, OFF, 2, OFF, OFF], points::of(0, 5, 0)),
        ([OFF, OFF, OFF, 2, OFF, OFF], points::of(0, 0, 4)),
        ([OFF, 2, OFF, 2, OFF, OFF], points::of(3, 5, 0)),
        ([1, OFF, OFF, 2, 0, OFF], points::of(2, 0, 5)),
        ([OFF, 0, OFF, 1, OFF, 1], points::of(0, 5, 5)),
        ([OFF, 0, OFF, 2, OFF, 0], points::of(1, 5, 5)),
    ];
    for (slots, wanted) in rows {
        let sheet = [&[2, 2, 2], &slots[..]].concat().try_into().unwrap();
        assert_eq!(of_card_a(sheet), wanted, "{sheet:?}");
        assert_eq!(mark(&card_a(), &sheet).cost, 32 + wanted.together(), "{sheet:?}");
    }
}

/// The least running cost for the counts is that of G: a module that burns at step 0 for no load could be brighter and cost less.
#[test]
fn spread_is_above_the_least_and_not_above_the_load() {
    let card = small(2, &[5, 1, 9], &[0]);
    let explain = |sheet: [u8; 2]| compare(&card.bytes(), &sheet, &[7; 2 * BESIDE + 3], lent(3));
    assert_eq!(explain([OFF, OFF]), points::of(0, 0, 0));
    assert_eq!(explain([1, OFF]), points::of(0, 0, 1 + 5));
    assert_eq!(explain([0, OFF]), points::of(4, 0, 1 + 5));
    assert_eq!(explain([2, 0]), points::of(8 + 4, 0, 2 + 10));
    // two modules with just the load of 2 can do no better than at step 1 each
    let card = Card { loads: vec![2], ..card };
    let explain = |sheet: [u8; 2]| compare(&card.bytes(), &sheet, &[7; 2 * BESIDE + 3], lent(3));
    assert_eq!(explain([1, 1]), points::of(0, 0, 0));
    assert_eq!(explain([2, 0]), points::of(9 + 5 - 2, 0, 0));
    assert_eq!(explain([OFF, 2]), points::of(0, 0, 9 + 5 - 12));
}

/// A swap costs both prices, in whichever slot it is, and also beside a count that rises or falls. Nothing is swapped before the first slot
/// and after the last.
#[test]
fn swaps_in_each_slot() {
    let card = small(3, &[0, 0], &[0, 0, 0, 0]);
    let swaps = |sheet: [u8; 12]| compare(&card.bytes(), &sheet, &[7; 2 * BESIDE + 16], lent(16)).swaps;
    let (on, off) = (0, OFF);
    assert_eq!(swaps([on, on, off, on, on, off, on, on, off, on, on, off]), 0);
    assert_eq!(swaps([on, on, off, off, on, on, off, on, on, off, on, on]), 5);
    assert_eq!(swaps([on, on, off, on, on, off, off, on, on, off, on, on]), 5);
    assert_eq!(swaps([on, on, off, on, on, off, on, on, off, off, on, on]), 5);
    assert_eq!(swaps([on, off, off, off, on, off, off, off, on, on, off, off]), 15);
    assert_eq!(swaps([on, off, off, off, on, on, on, off, off, off, on, on]), 15);
    assert_eq!(swaps([on, off, off, off, off, off, off, on, off, off, off, on]), 5);
    assert_eq!(swaps([on, off, off, off, off, off, off, on, off, off, off, off]), 0);
}

// ---------------------------------------------------------------- all sheets, patterns and plans

/// The class of each number of points, and of the three together.
fn class_names() -> Vec<String> {
    let zero_or_above = ["0", "above 0"];
    let mut names = Vec::new();
    for number in ["spread", "swaps", "counts"] {
        names.extend(zero_or_above.map(|how| format!("{number} {how}")));
    }
    for spread in zero_or_above {
        for swaps in zero_or_above {
            names.extend(zero_or_above.map(|counts| format!("spread {spread}, swaps {swaps}, counts {counts}")));
        }
    }
    names
}

/// Counts the number of an answer, and of a success the classes of its three numbers.
fn count(classes: &mut Classes, points: Points) {
    classes.see_number(points.number);
    if points.number != 0 {
        return;
    }
    let named = [("spread", points.spread), ("swaps", points.swaps), ("counts", points.counts)];
    let each = named.map(|(name, value)| format!("{name} {}", if value == 0 { "0" } else { "above 0" }));
    each.iter().for_each(|name| classes.see(name));
    classes.see(&each.join(", "));
}

/// Classes with the names of the cards' classes, of those of the three numbers, and of others.
fn classes(title: &str, others: &[&str], numbers: impl IntoIterator<Item = u64>) -> Classes {
    let of_points = class_names();
    let names: Vec<&str> = shows::ALL_CLASSES.iter().chain(others).copied().chain(of_points.iter().map(String::as_str)).collect();
    Classes::new(title, &names).with_numbers(numbers)
}

/// The least that was seen for each key.
struct Least(HashMap<Vec<u8>, u64>);

impl Least {
    fn of(seen: impl IntoIterator<Item = (Vec<u8>, u64)>) -> Self {
        let mut out = HashMap::new();
        for (key, cost) in seen {
            let least = out.entry(key).or_insert(cost);
            *least = cost.min(*least);
        }
        Least(out)
    }

    fn at(&self, key: &[u8]) -> u64 {
        self.0[key]
    }

    fn least(&self) -> u64 {
        self.0.values().copied().min().expect("there is one")
    }
}

/// Which modules burn in which slots: the sheet with step 0 in the place of every step.
fn burning(sheet: &[u8]) -> Vec<u8> {
    sheet.iter().map(|byte| if *byte == OFF { OFF } else { 0 }).collect()
}

/// Which steps there are in each slot, and how many modules off, whichever modules they are.
fn steps(show: &Show, sheet: &[u8]) -> Vec<u8> {
    let mut rows = sheet.to_vec();
    rows.chunks_mut(show.modules as usize).for_each(|row| row.sort_unstable());
    rows
}

/// All that searches through ALL sheets that serve, ALL patterns and ALL plans that serve find of a show.
struct Searched {
    sheets: Vec<(Vec<u8>, u64)>,
    /// The least cost of a sheet that serves, by which modules burn in which slots.
    by_burning: Least,
    /// The least cost of a sheet that serves, by the steps in each slot.
    by_steps: Least,
    /// The switching cost of each pattern.
    switching: Least,
    /// The least switching cost of a pattern, by the counts.
    by_counts: Least,
    /// The cost of each plan that serves.
    plans: Least,
}

impl Searched {
    fn of(card: &Card, show: &Show) -> Self {
        let (sheets, patterns) = (serving_sheets(card, show), patterns(show));
        Searched {
            by_burning: Least::of(sheets.iter().map(|(sheet, cost)| (burning(sheet), *cost))),
            by_steps: Least::of(sheets.iter().map(|(sheet, cost)| (steps(show, sheet), *cost))),
            by_counts: Least::of(patterns.iter().map(|(pattern, cost)| (show.active(pattern), *cost))),
            switching: Least::of(patterns),
            plans: Least::of(serving_plans(show, &show.counts(false))),
            sheets,
        }
    }

    /// What is saved by the best change of each thing alone: of the steps with the burning modules held, of the choice of modules with the
    /// counts held, and of the counts. So each is 0 exactly if changing that one thing alone saves nothing.
    fn saved(&self, show: &Show, sheet: &[u8], cost: u64) -> Points {
        let (burning, counts) = (burning(sheet), show.active(sheet));
        let spread = cost - self.by_burning.at(&burning);
        let swaps = self.switching.at(&burning) - self.by_counts.at(&counts);
        assert_eq!(swaps, cost - self.by_steps.at(&steps(show, sheet)), "{show:?}, sheet {sheet:?}");
        points::of(spread, swaps, self.plans.at(&counts) - self.plans.least())
    }
}

/// Every sheet that serves: each number is what the best change of that thing alone saves, and together they are the cost above the exact
/// planner's. The plain rules say the same.
fn compare_sheets(classes: &mut Classes, card: &Card, show: &Show, searched: &Searched) {
    let (bytes, (least, _)) = (card.bytes(), planned(Planner::Exact, card));
    for (sheet, cost) in &searched.sheets {
        let found = explained(&bytes, show, sheet);
        assert_eq!(found, searched.saved(show, sheet, *cost), "{card:?}, sheet {sheet:?}");
        assert_eq!(found, explanation::points(show, least, sheet), "{card:?}, sheet {sheet:?}");
        assert_eq!(found.together(), cost - least, "{card:?}, sheet {sheet:?}");
        count(classes, found);
    }
}

/// The explanation of the sheet that the library makes of a plan.
fn explained_plan(card: &Card, show: &Show, plan: &[u8]) -> Points {
    let (bytes, modules) = (card.bytes(), usize::from(card.modules));
    let made = boundary::sheet(&bytes, plan, &vec![7; modules * plan.len()]);
    assert_eq!(made.answer.number, 0, "{card:?}, plan {plan:?}");
    explained(&bytes, show, &made.buffers[0])
}

/// The sheet of every plan that serves has spread 0 and swaps 0, and its counts are what the plan costs above the least.
fn compare_plans(classes: &mut Classes, card: &Card, show: &Show, plans: &Least) {
    for (plan, cost) in &plans.0 {
        assert_eq!(explained_plan(card, show, plan), points::of(0, 0, cost - plans.least()), "{card:?}, plan {plan:?}");
    }
    compare_planners(classes, card, show);
}

/// The sheets of both planners have spread 0 and swaps 0, and that of the exact plan has counts 0.
fn compare_planners(classes: &mut Classes, card: &Card, show: &Show) {
    let [(least, exact), (cost, coarse)] = BOTH.map(|planner| planned(planner, card));
    assert_eq!(explained_plan(card, show, &exact), points::of(0, 0, 0), "{card:?}");
    assert_eq!(explained_plan(card, show, &coarse), points::of(0, 0, cost - least), "{card:?}");
    if cost > least {
        classes.see(COARSE_ABOVE);
    }
}

const COARSE_ABOVE: &str = "the coarse plan's sheet has counts above 0";
const TIES: &str = "two or more least plans";
const BRIGHTER: &str = "spread 0 with more light than a load";

/// Counts the classes of a show and of its sheets that the search tells.
fn count_show(classes: &mut Classes, card: &Card, show: &Show, searched: &Searched) {
    shows::classes(card).into_iter().for_each(|name| classes.see(name));
    if searched.plans.0.values().filter(|cost| **cost == searched.plans.least()).count() > 1 {
        classes.see(TIES);
    }
    let brighter =
        |(sheet, cost): &(Vec<u8>, u64)| show.lights(sheet) != show.loads && *cost == searched.by_burning.at(&burning(sheet));
    if searched.sheets.iter().any(brighter) {
        classes.see(BRIGHTER);
    }
}

/// Modules, top step and slots with two modules and two slots at least, so that modules can be swapped, and with under 20,000 sheets.
const SIZES: [(u64, u64, u64); 11] =
    [(2, 1, 2), (2, 2, 2), (2, 3, 2), (3, 1, 2), (3, 2, 2), (3, 3, 2), (4, 1, 2), (2, 1, 3), (2, 2, 3), (2, 3, 3), (3, 1, 3)];

/// A card with few sheets: of any size, or of one of those above.
fn small_card(random: &mut Random) -> Card {
    if random.below(4) != 0 {
        return shows::of_few_sheets(random, 5_000);
    }
    let ((modules, top, slots), steepest) = (random.pick(&SIZES), random.pick(&[1, 2, 6]));
    shows::card(random, modules, top, slots, steepest)
}

/// Thousands of small shows, of each of them every sheet that serves, against searches through all sheets, patterns and plans.
#[test]
fn all_sheets() {
    let title = "explanations of all sheets of 3,200 small shows against all sheets, patterns and plans (seed 71)";
    let mut classes = classes(title, &[COARSE_ABOVE, TIES, BRIGHTER], [0]);
    let mut random = Random::new(71);
    for _ in 0..3_200 {
        let card = small_card(&mut random);
        let show = plain::read_card(&card.bytes()).unwrap();
        let searched = Searched::of(&card, &show);
        compare_sheets(&mut classes, &card, &show, &searched);
        compare_plans(&mut classes, &card, &show, &searched.plans);
        count_show(&mut classes, &card, &show, &searched);
    }
    classes.require_all();
}

// ---------------------------------------------------------------- larger shows

/// A count that serves the load, mostly near the least one.
fn serving_count(random: &mut Random, card: &Card, load: u16) -> u8 {
    let (modules, least) = (u64::from(card.modules), u64::from(load).div_ceil(u64::from(card.top)));
    let more = random.pick(&[0, 0, 1, 2, modules]);
    (least + random.below(more + 1)).min(modules) as u8
}

/// A plan that serves: of one of the planners, or any.
fn serving_plan(random: &mut Random, card: &Card) -> Vec<u8> {
    match random.below(4) {
        0 => planned(Planner::Exact, card).1,
        1 => planned(Planner::Coarse, card).1,
        _ => card.loads.iter().map(|load| serving_count(random, card, *load)).collect(),
    }
}

/// Lets other modules burn with the same steps: in no slot, in one, in all from one on, or in all.
fn choose_modules(random: &mut Random, rows: &mut [&mut [u8]]) {
    if rows.is_empty() {
        return;
    }
    let (at, kind) = (random.below(rows.len() as u64) as usize, random.below(5));
    let moved = match kind {
        0 | 1 => return,
        2 => at..at + 1,
        3 => at..rows.len(),
        _ => 0..rows.len(),
    };
    for row in &mut rows[moved] {
        let by = random.below(row.len() as u64) as usize;
        row.rotate_left(by);
    }
}

/// Makes modules brighter: none, some of a single slot, or here and there in all slots.
fn brighten(random: &mut Random, rows: &mut [&mut [u8]], top: u8) {
    if rows.is_empty() {
        return;
    }
    let (at, kind) = (random.below(rows.len() as u64) as usize, random.below(5));
    let (brighter, every) = match kind {
        0 | 1 => return,
        2 | 3 => (at..at + 1, 1),
        _ => (0..rows.len(), 9),
    };
    for row in &mut rows[brighter] {
        let up_to = 1 + random.below(row.len() as u64) as usize;
        for byte in row[..up_to].iter_mut().filter(|byte| **byte < top) {
            *byte += u8::from(random.below(every) == 0) * (1 + random.below(u64::from(top - *byte)) as u8);
        }
    }
}

/// A sheet that serves: that of a plan, then mostly with other modules and other steps.
fn serving_sheet(random: &mut Random, card: &Card, show: &Show) -> Vec<u8> {
    let mut sheet = show.sheet(&serving_plan(random, card));
    let mut rows: Vec<&mut [u8]> = sheet.chunks_mut(show.modules as usize).collect();
    choose_modules(random, &mut rows);
    brighten(random, &mut rows, card.top);
    sheet
}

/// Any bytes from 0 to Q and 255, and a card with loads that they serve.
fn any_sheet(random: &mut Random, card: &mut Card) -> Vec<u8> {
    let (modules, top, slots) = (usize::from(card.modules), u64::from(card.top), card.loads.len());
    let off = 1 + random.below(4);
    let sheet: Vec<u8> =
        (0..modules * slots).map(|_| if random.below(4) < off { OFF } else { random.below(top + 1) as u8 }).collect();
    let lights = plain::read_card(&card.bytes()).unwrap().lights(&sheet);
    card.loads = lights.iter().map(|light| if random.below(2) == 0 { *light } else { random.below(light + 1) } as u16).collect();
    sheet
}

/// An area of random bytes with room for the work and for what stands beside it, and the part that is lent: just what is asked for or more.
fn random_area(random: &mut Random, asked: usize) -> (Vec<u8>, Range<usize>) {
    let more = random.pick(&[0, 0, 1, 5]);
    let area = (0..asked + more + 2 * BESIDE).map(|_| random.below(256) as u8).collect();
    (area, lent(asked + more))
}

/// A larger show, and a sheet that serves it: one of a plan that was changed, or any.
fn larger_show(random: &mut Random, any: bool) -> (Card, Show, Vec<u8>) {
    let modules = random.pick(&[1, 2, 3, 7, 8, 31, 64, 100, 128, 150, 200]);
    let (top, slots) = (random.pick(&[1, 2, 9, 60, 200]), random.below(61));
    let mut card = shows::card(random, modules, top, slots, 900);
    let drawn = if any { any_sheet(random, &mut card) } else { Vec::new() };
    let show = plain::read_card(&card.bytes()).unwrap();
    let sheet = if any { drawn } else { serving_sheet(random, &card, &show) };
    (card, show, sheet)
}

/// Larger shows against the plain rules, and the sum of the three numbers against marking and the exact planner.
#[test]
fn larger_shows() {
    let mut classes = classes("explanations in 3,000 larger shows (seed 72)", &[COARSE_ABOVE, "any sheet", "200 modules"], [0]);
    let mut random = Random::new(72);
    for _ in 0..3_000 {
        let any = random.below(4) == 0;
        let (card, show, sheet) = larger_show(&mut random, any);
        let (area, lent) = random_area(&mut random, explanation::asked(&show));
        let found = compare(&card.bytes(), &sheet, &area, lent);
        let above = mark(&card.bytes(), &sheet).cost - planned(Planner::Exact, &card).0;
        assert_eq!(found.together(), above, "{card:?}, sheet {sheet:?}");
        compare_planners(&mut classes, &card, &show);
        count(&mut classes, found);
        shows::classes(&card).into_iter().for_each(|name| classes.see(name));
        if any {
            classes.see("any sheet");
        }
        if card.modules == 200 {
            classes.see("200 modules");
        }
    }
    classes.require_all();
}

/// The largest show, with sheets whose numbers can be told without a search; two of them have a hundred million million points and more.
#[test]
fn largest_numbers() {
    const BOTH_PRICES: u64 = 1_000_000_000;
    let card = largest(0);
    let show = plain::read_card(&card.bytes()).unwrap();
    let explain = |sheet: &[u8]| explained(&card.bytes(), &show, sheet);
    let by_slot = |row: &dyn Fn(usize, usize) -> u8| -> Vec<u8> { (0..200 * 1_024).map(|at| row(at / 200, at % 200)).collect() };
    // every module burns at step 0 in every second slot
    let found = explain(&by_slot(&|slot, _| if slot % 2 == 0 { 0 } else { OFF }));
    assert_eq!(found, points::of(0, 0, 512 * 200 * BOTH_PRICES));
    // the two halves of the rack take turns, at the top step
    let found = explain(&by_slot(&|slot, module| if (module < 100) == (slot % 2 == 0) { 200 } else { OFF }));
    assert_eq!(found, points::of(1_024 * 100 * 1_000_000, 1_023 * 100 * BOTH_PRICES, 100 * BOTH_PRICES));
    // every module burns through the show at the top step
    let found = explain(&vec![200; 200 * 1_024]);
    assert_eq!(found, points::of(1_024 * 200 * 1_000_000, 0, 200 * BOTH_PRICES));
}

/// The largest show against the plain rules, with a table that never falls and with one that does.
#[test]
fn largest_shows() {
    let mut random = Random::new(73);
    let mut card = largest(0);
    card.loads.iter_mut().for_each(|load| *load = random.below(40_001) as u16);
    for card in [card.clone(), lowest_at(120, card)] {
        let show = plain::read_card(&card.bytes()).unwrap();
        let sheet = serving_sheet(&mut random, &card, &show);
        let (area, lent) = random_area(&mut random, explanation::asked(&show));
        let found = compare(&card.bytes(), &sheet, &area, lent);
        assert_eq!(found.number, 0);
        assert_eq!(found.together(), mark(&card.bytes(), &sheet).cost - planned(Planner::Exact, &card).0);
    }
}

// ---------------------------------------------------------------- refusals and the work area

/// What a call is handed and lent beside card A: at first example D's sheet and just the work bytes that are asked for.
struct Request {
    sheet: Vec<u8>,
    work: usize,
}

/// The faults of the sheet and the work area. No change undoes another one.
const FAULTS: [(u64, Change<Request>); 9] = [
    (10, |request| request.work = 11.min(request.work)),
    (10, |request| request.work = 0),
    (11, |request| request.sheet.truncate(8)),
    (11, |request| request.sheet.extend([OFF; 3])),
    (11, |request| request.sheet.clear()),
    (12, |request| set(&mut request.sheet, 3, 3)),
    (12, |request| set(&mut request.sheet, 7, 254)),
    (13, |request| set(&mut request.sheet, 0, 1)),
    (13, |request| set(&mut request.sheet, 6, OFF)),
];

/// The request with these faults is refused by the lowest of their numbers. All three numbers are 0, and no byte is altered.
fn refuse(classes: &mut Classes, three: [&Fault<Request>; 3]) {
    let numbers = faults::numbers(&three);
    let (card, request) = faults::request(&three, Request { sheet: D.to_vec(), work: 12 });
    for paint in [7, 255] {
        let area = vec![paint; 2 * BESIDE + request.work];
        let expected = Outcome { points: points::refused(numbers[0]), area: area.clone() };
        let found = points::explain(&card, &request.sheet, &area, lent(request.work));
        let text = || format!("faults {numbers:?}, card {card:?}, sheet {:?}", request.sheet);
        difference(&found, &expected).unwrap_or_else(|difference| panic!("{difference}; {}", text()));
    }
    classes.see_number(numbers[0]);
    classes.see(faults::together(&numbers));
    if numbers.starts_with(&[10, 11]) {
        classes.see("10 and 11");
    }
}

/// Every fault, every two of them and every three.
#[test]
fn lowest_number_wins() {
    let names = [&faults::TOGETHER[..], &["10 and 11"]].concat();
    let mut classes = Classes::new("explanations refused for up to three faults", &names).with_numbers((1..=8).chain(10..=13));
    faults::every_three(&faults::all(&FAULTS), |three| refuse(&mut classes, three));
    classes.require_all();
}

/// Explains a sheet of card A with a work area of some length, which holds `paint` and so do the bytes beside it. After a success just the
/// 12 bytes that are asked for are zero, and after a refusal none is altered.
fn expect_work(sheet: &[u8], length: usize, paint: u8, points: Points) {
    let area = vec![paint; 2 * BESIDE + length];
    let mut left = area.clone();
    if points.number == 0 {
        left[lent(12)].fill(0);
    }
    let found = points::explain(&card_a(), sheet, &area, lent(length));
    let text = |text| panic!("{text}; {length} bytes of work, sheet {sheet:?}");
    difference(&found, &Outcome { points, area: left }).unwrap_or_else(text);
}

/// Work areas of every length up to some bytes more than are asked for. One that is too short is refused by 10, whatever the sheet is.
#[test]
fn work_areas() {
    let refused =
        [(11, D[1..].to_vec()), (12, vec![3; 9]), (13, vec![OFF; 9])].map(|(number, sheet)| (sheet, points::refused(number)));
    let sheets: Vec<(Vec<u8>, Points)> = [(D.to_vec(), points::of(0, 5, 0))].into_iter().chain(refused).collect();
    for (sheet, points) in &sheets {
        for paint in [1, 255] {
            (0..12).for_each(|length| expect_work(sheet, length, paint, points::refused(10)));
            (12..20).for_each(|length| expect_work(sheet, length, paint, *points));
        }
    }
}

/// A show without slots has the empty sheet alone, which costs nothing, and asks for no byte of work.
#[test]
fn no_slots() {
    for modules in [1, 3, 200] {
        let card = small(modules, &[4, 2, 9], &[]).bytes();
        assert_eq!(points::explain(&card, &[], &[], 0..0), Outcome { points: points::of(0, 0, 0), area: Vec::new() });
        assert_eq!(compare(&card, &[], &[7; 2 * BESIDE], lent(0)), points::of(0, 0, 0));
        assert_eq!(compare(&card, &[], &[7; 2 * BESIDE + 5], lent(5)), points::of(0, 0, 0));
        for sheet in [&[OFF][..], &[254], &[0; 200]] {
            assert_eq!(compare(&card, sheet, &[7; 2 * BESIDE + 5], lent(5)), points::refused(11));
        }
    }
}

/// Now and then gives the sheet another length, another byte at some place, or less light.
fn spoil(random: &mut Random, sheet: &mut Vec<u8>, top: u8) {
    let place = random.below(sheet.len() as u64 + 1) as usize;
    match random.below(10) {
        0 => sheet.push(0),
        1 => sheet.truncate(place),
        2 => set(sheet, place, random.pick(&[top + 1, 254])),
        3 | 4 => set(sheet, place, random.pick(&[0, OFF])),
        _ => {}
    }
}

/// Cards, sheets and work areas with every fault and with none, against the plain rules. A sheet is explained exactly if it is marked and the
/// work area is long enough.
#[test]
fn random_requests() {
    let mut classes = classes("explanations of 60,000 requests (seed 74)", &areas::LENGTHS, (0..=8).chain(10..=13));
    let mut random = Random::new(74);
    for _ in 0..60_000 {
        let (modules, top, slots) = (1 + random.below(5), 1 + random.below(4), random.below(5));
        let mut card = shows::card(&mut random, modules, top, slots, 50);
        let mut sheet = any_sheet(&mut random, &mut card);
        let bytes = shows::damaged(&mut random, &card);
        spoil(&mut random, &mut sheet, card.top);
        let asked = ((modules + 1) * slots) as usize;
        let (length, class) = areas::length(&mut random, asked);
        let area: Vec<u8> = (0..length + 2 * BESIDE).map(|_| random.below(256) as u8).collect();
        let found = compare(&bytes, &sheet, &area, lent(length));
        let marked = mark(&bytes, &sheet).number == 0;
        assert_eq!(found.number == 0, marked && length >= asked, "{card:?}, sheet {sheet:?}");
        count(&mut classes, found);
        classes.see(class);
        shows::classes(&card).into_iter().for_each(|name| classes.see(name));
    }
    classes.require_all();
}

/// The comparer reports each falsified number, a work byte, and a byte beside the work area.
#[test]
fn falsified_outcomes_are_reported() {
    let expected = explanation::explain(&card_a(), &D, &[7; 2 * BESIDE + 14], lent(14));
    assert_eq!(expected.points, points::of(0, 5, 0));
    assert!(difference(&expected, &expected).is_ok());
    let falsify: [fn(&mut Outcome); 8] = [
        |outcome| outcome.points.number = 1,
        |outcome| outcome.points.spread += 1,
        |outcome| outcome.points.swaps -= 1,
        |outcome| outcome.points.counts += 1,
        |outcome| outcome.area[BESIDE] = 7,
        |outcome| outcome.area[BESIDE + 12] = 0,
        |outcome| outcome.area[BESIDE - 1] = 0,
        |outcome| outcome.area.truncate(BESIDE + 14),
    ];
    for change in falsify {
        let mut falsified = expected.clone();
        change(&mut falsified);
        assert!(difference(&falsified, &expected).is_err());
    }
}
