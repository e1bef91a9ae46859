//! `lamp_plan_exact` and `lamp_plan_coarse` against searches through all sheets with enough light and through all plans, and against a
//! plain dynamic program; and that no call gives 9.
use lamp_tests::acts::{self, Act, Seat, Sitting};
use lamp_tests::areas;
use lamp_tests::boundary::{self, difference, mark, Answer, Outcome, Planner, BOTH};
use lamp_tests::cards::{card_a, largest, lowest_at, small, Card};
use lamp_tests::classes::Classes;
use lamp_tests::count_lists;
use lamp_tests::plain::{self, Show, OFF};
use lamp_tests::points;
use lamp_tests::random::Random;
use lamp_tests::searches::{least_plans, serving_sheets};
use lamp_tests::shows;

fn compare(planner: Planner, card: &[u8], plan: &[u8], work: &[u8]) -> Outcome {
    let found = boundary::plan(planner, card, plan, work);
    if let Err(text) = difference(&found, &plain::plan(planner, card, plan, work)) {
        panic!("{planner:?}: {text}; card {card:?}, plan area of {}, work area of {}", plan.len(), work.len());
    }
    found
}

/// Areas with some guard bytes after what is asked for.
fn planned(planner: Planner, card: &Card) -> Outcome {
    let slots = card.loads.len();
    let asked = if planner == Planner::Exact { (usize::from(card.modules) + 1) * slots } else { 10 * slots };
    compare(planner, &card.bytes(), &vec![7; slots + 2], &vec![7; asked + 3])
}

#[test]
fn examples_a_e_f_g_i() {
    let a = compare(Planner::Exact, &card_a(), &[7; 5], &[7; 14]);
    assert_eq!((a.answer, &a.buffers[0][..]), (Answer::cost(32), &[3, 1, 1, 7, 7][..]));

    let e = Card { modules: 8, top: 1, up: 1, down: 0, table: vec![0, 0], loads: vec![5, 3, 5] };
    let exact = planned(Planner::Exact, &e);
    assert_eq!((exact.answer, &exact.buffers[0][..3]), (Answer::cost(5), &[5, 5, 5][..]));
    let coarse = planned(Planner::Coarse, &e);
    assert_eq!((coarse.answer, &coarse.buffers[0][..3]), (Answer::cost(8), &[8, 8, 8][..]));

    let f = planned(Planner::Exact, &Card { modules: 2, loads: vec![1, 0], ..e });
    assert_eq!((f.answer, &f.buffers[0][..2]), (Answer::cost(1), &[1, 0][..]));

    let g = Card { modules: 2, top: 2, up: 0, down: 0, table: vec![5, 1, 9], loads: vec![2] };
    let exact = planned(Planner::Exact, &g);
    assert_eq!((exact.answer, &exact.buffers[0][..1]), (Answer::cost(2), &[2][..]));
    let coarse = planned(Planner::Coarse, &g);
    assert_eq!((coarse.answer, &coarse.buffers[0][..1]), (Answer::cost(2), &[2][..]));

    for planner in BOTH {
        let i = compare(planner, &small(3, &[1, 2, 4], &[]).bytes(), &[7; 3], &[7; 3]);
        assert_eq!(i, Outcome { answer: Answer::cost(0), buffers: vec![vec![7; 3], vec![7; 3]] });
    }
}

/// 01's plausible error: the coarse plan is not the exact plan rounded up.
#[test]
fn coarse_is_not_rounded_exact() {
    let card = Card { modules: 4, top: 2, up: 1, down: 0, table: vec![1, 1, 4], loads: vec![3] };
    let (exact, coarse) = (planned(Planner::Exact, &card), planned(Planner::Coarse, &card));
    assert_eq!((exact.answer, exact.buffers[0][0]), (Answer::cost(6), 3));
    assert_eq!((coarse.answer, coarse.buffers[0][0]), (Answer::cost(7), 2));
}

/// On a table that falls first, more light than the load is planned where that costs less.
#[test]
fn more_light_where_it_costs_less() {
    // with just its load slot 2 would cost 4 by one module, and 1 + 5 by two
    let card = Card { modules: 3, top: 3, up: 0, down: 0, table: vec![9, 5, 1, 4], loads: vec![2, 3, 0] };
    for planner in BOTH {
        let found = planned(planner, &card);
        assert_eq!((found.answer, &found.buffers[0][..3]), (Answer::cost(1 + 2), &[1, 2, 0][..]), "{planner:?}");
    }
    let sheet = [2, OFF, OFF, 2, 2, OFF, OFF, OFF, OFF];
    assert_eq!(boundary::sheet(&card.bytes(), &[1, 2, 0], &[7; 9]).buffers[0], sheet);
    // switching is dear, so the module goes on through the slot without load, at its lowest step
    let card = Card { modules: 2, top: 2, up: 9, down: 0, table: vec![5, 1, 3], loads: vec![2, 0, 1] };
    for planner in BOTH {
        let found = planned(planner, &card);
        assert_eq!((found.answer, &found.buffers[0][..3]), (Answer::cost(9 + 3 + 1 + 1), &[1, 1, 1][..]), "{planner:?}");
    }
    assert_eq!(boundary::sheet(&card.bytes(), &[1, 1, 1], &[7; 6]).buffers[0], [2, OFF, 1, OFF, 1, OFF]);
}

/// The least cost over ALL sheets that serve the show, which have at least the load in every slot: over those with just the loads, and
/// over those with more light than the load in some slot, if there are any.
struct LeastSheets {
    just: Option<u64>,
    more: Option<u64>,
}

impl LeastSheets {
    /// Goes through all sheets.
    fn of(card: &Card, show: &Show) -> Self {
        let mut out = LeastSheets { just: None, more: None };
        for (sheet, cost) in serving_sheets(card, show) {
            let least = if show.lights(&sheet) == show.loads { &mut out.just } else { &mut out.more };
            *least = Some(least.map_or(cost, |least| least.min(cost)));
        }
        out
    }

    fn least(&self) -> u64 {
        self.just.into_iter().chain(self.more).min().expect("the full rack serves")
    }

    /// Whether a least sheet has more light than the load in some slot.
    fn some_more(&self) -> bool {
        self.more == Some(self.least())
    }

    /// Whether every least sheet has.
    fn all_more(&self) -> bool {
        self.just != Some(self.least())
    }
}

/// The classes of `all_sheets` that speak of more light than the load.
const FALLS: &str = "the table falls somewhere";
const SOME_MORE: &str = "some least sheet has more light than the load";
const ALL_MORE: &str = "every least sheet has more light than the load";

/// The exact planner gives the first of the least plans, and the sheet of it costs the least of all sheets. The function returns
/// how many least plans there are.
fn compare_exact(card: &Card, show: &Show, least: u64) -> usize {
    let exact = planned(Planner::Exact, card);
    let plans = least_plans(show, &show.counts(false));
    let plan = &exact.buffers[0][..show.slots()];
    assert_eq!(exact.answer, Answer::cost(least), "{card:?}");
    assert_eq!(plan, &plans[0][..], "{card:?}");
    let made = boundary::sheet(&card.bytes(), plan, &vec![7; show.modules as usize * show.slots()]);
    assert_eq!(made, Outcome { answer: exact.answer, buffers: vec![show.sheet(plan)] }, "{card:?}");
    assert_eq!(mark(&card.bytes(), &made.buffers[0]), exact.answer, "{card:?}");
    plans.len()
}

/// The coarse planner gives the first of the least plans over its counts, and at most twice the least cost. The function
/// returns its cost.
fn compare_coarse(card: &Card, show: &Show, least: u64) -> u64 {
    let coarse = planned(Planner::Coarse, card);
    let plan = &coarse.buffers[0][..show.slots()];
    assert_eq!(plan, &least_plans(show, &show.counts(true))[0][..], "{card:?}");
    assert_eq!(coarse.answer, Answer::cost(show.sheet_cost(&show.sheet(plan))), "{card:?}");
    assert!(coarse.answer.cost <= 2 * least, "{card:?}");
    coarse.answer.cost
}

/// Thousands of small shows against a search through all sheets with enough light and through all plans.
#[test]
fn all_sheets() {
    const SHOWS: u64 = 6_000;
    let mut names = shows::ALL_CLASSES.to_vec();
    names.extend(["two or more least plans", "coarse above exact", "coarse above exact on a falling table"]);
    names.extend([FALLS, SOME_MORE, ALL_MORE]);
    let mut classes = Classes::new("6,000 small shows against all sheets with enough light (seed 51)", &names);
    let mut random = Random::new(51);
    for _ in 0..SHOWS {
        let card = shows::of_few_sheets(&mut random, 20_000);
        let show = plain::read_card(&card.bytes()).unwrap();
        let sheets = LeastSheets::of(&card, &show);
        let several = compare_exact(&card, &show, sheets.least()) > 1;
        let above = compare_coarse(&card, &show, sheets.least()) > sheets.least();
        let of_plans = [
            ("two or more least plans", several),
            ("coarse above exact", above),
            ("coarse above exact on a falling table", above && show.falls()),
        ];
        let of_light = [(FALLS, show.falls()), (SOME_MORE, sheets.some_more()), (ALL_MORE, sheets.all_more())];
        of_plans.into_iter().chain(of_light).filter(|(_, holds)| *holds).for_each(|(name, _)| classes.see(name));
        shows::classes(&card).into_iter().for_each(|name| classes.see(name));
    }
    classes.require_all();
    assert!(3 * classes.count(FALLS) >= SHOWS, "under a third of the tables fall");
}

/// Larger shows against the plain dynamic program, which `compare` uses.
#[test]
fn larger_shows() {
    let mut names = shows::ALL_CLASSES.to_vec();
    names.extend(["coarse above exact", "coarse above exact on a falling table"]);
    let mut classes = Classes::new("larger shows (seed 61)", &names).with_numbers([0]);
    let mut random = Random::new(61);
    for _ in 0..1_500 {
        let modules = random.pick(&[1, 2, 7, 8, 31, 64, 100, 128, 150, 200]);
        let (top, slots) = (random.pick(&[1, 2, 9, 200]), random.below(12));
        let card = shows::card(&mut random, modules, top, slots, 900);
        let exact = planned(Planner::Exact, &card);
        let coarse = planned(Planner::Coarse, &card);
        for number in [exact.answer.number, coarse.answer.number] {
            assert_eq!(number, 0, "{card:?}");
            classes.see_number(number);
        }
        assert!(exact.answer.cost <= coarse.answer.cost && coarse.answer.cost <= 2 * exact.answer.cost, "{card:?}");
        if coarse.answer.cost > exact.answer.cost {
            classes.see("coarse above exact");
            if card.table.windows(2).any(|w| w[1] < w[0]) {
                classes.see("coarse above exact on a falling table");
            }
        }
        shows::classes(&card).into_iter().for_each(|name| classes.see(name));
    }
    classes.require_all();
}

#[test]
fn largest_show() {
    let mut card = largest(40_000);
    let mut random = Random::new(71);
    assert_eq!(planned(Planner::Exact, &card).answer.number, 0);
    card.loads.iter_mut().for_each(|load| *load = random.below(40_001) as u16);
    for card in [card.clone(), lowest_at(120, card)] {
        assert_eq!(planned(Planner::Exact, &card).answer.number, 0);
        assert_eq!(planned(Planner::Coarse, &card).answer.number, 0);
    }
}

/// Every refusal, with areas exact, one short, empty and longer.
#[test]
fn refusals() {
    let mut classes = Classes::new("planners' refusals (seed 81)", &areas::LENGTHS).with_numbers((0..=8).chain([10]));
    let mut random = Random::new(81);
    for _ in 0..30_000 {
        let (modules, top, slots) = (1 + random.below(9), 1 + random.below(5), random.below(5));
        let card = shows::card(&mut random, modules, top, slots, 50);
        let bytes = shows::damaged(&mut random, &card);
        let planner = random.pick(&BOTH);
        let asked = if planner == Planner::Exact { (modules + 1) * slots } else { 10 * slots } as usize;
        let (plan, first) = areas::length(&mut random, slots as usize);
        let (work, second) = areas::length(&mut random, asked);
        let found = compare(planner, &bytes, &vec![7; plan], &vec![9; work]);
        classes.see_number(found.answer.number);
        classes.see(first);
        classes.see(second);
    }
    classes.require_all();
}

/// A length that is mostly the one asked for, else from 0 to one more.
fn length(random: &mut Random, asked: u64) -> usize {
    let other = random.below(asked + 2);
    random.pick(&[asked, asked, asked, asked, asked, asked, asked, other]) as usize
}

/// A handed-in list, mostly of the length asked for, with bytes that are mostly from 0 to `most`.
fn list(random: &mut Random, asked: u64, most: u64) -> Vec<u8> {
    (0..length(random, asked))
        .map(|_| if random.below(40) == 0 { random.below(256) } else { random.below(most + 1) } as u8)
        .collect()
}

/// Makes a card, mostly with a table of a shape that falls.
fn mostly_falling(random: &mut Random, modules: u64, top: u64, slots: u64) -> Card {
    let mut card = shows::card(random, modules, top, slots, 50);
    let shape = random.pick(&[0, 2, 4]);
    if random.below(4) != 0 {
        card.table = shows::table(random, top, shape, 50);
    }
    card
}

/// Calls a planner with areas that are mostly long enough, and returns its number: 0 just if they are and the card is accepted.
fn planner_number(random: &mut Random, planner: Planner, card: &Card, bytes: &[u8], accepted: bool) -> u64 {
    let slots = card.loads.len();
    let asked = planner.work_bytes(usize::from(card.modules), slots);
    let (plan, work) = (length(random, slots as u64), length(random, asked as u64));
    let number = boundary::plan(planner, bytes, &vec![7; plan], &vec![7; work]).answer.number;
    let enough = plan >= slots && work >= asked;
    assert_eq!(number == 0, accepted && enough, "{planner:?} gives {number}: {card:?}");
    number
}

/// Makes the calls that neither check a card nor plan, with random handed-in values, and returns their answers.
fn other_answers(random: &mut Random, card: &Card, bytes: &[u8]) -> [Answer; 5] {
    let (modules, top, slots) = (u64::from(card.modules), u64::from(card.top), card.loads.len() as u64);
    let (count, load) = (random.below(modules + 2), random.below(modules * top + 2));
    let (plan, sheet) = (list(random, slots, modules), list(random, modules * slots, top));
    let (area, practice) = (vec![7; length(random, modules * slots)], vec![7; length(random, 949)]);
    let (rack, start) = (random.below(202), random.below(5) as u32);
    [
        boundary::running_cost(bytes, count, load),
        boundary::sheet(bytes, &plan, &area).answer,
        mark(bytes, &sheet),
        boundary::rounded_count(count, rack),
        boundary::practice_card(start, &practice).answer,
    ]
}

/// Explains a random sheet with a work area that is mostly long enough, and returns the number.
fn explained_number(random: &mut Random, card: &Card, bytes: &[u8]) -> u64 {
    let (modules, top, slots) = (u64::from(card.modules), u64::from(card.top), card.loads.len() as u64);
    let (sheet, work) = (list(random, modules * slots, top), length(random, (modules + 1) * slots));
    points::explain(bytes, &sheet, &vec![7; work], 0..work).points.number
}

/// Plans with a list that mostly keeps the rules and areas that are mostly long enough, and returns the number.
fn grouped_number(random: &mut Random, card: &Card, bytes: &[u8]) -> u64 {
    let (mut ratio, slots) = (count_lists::ratio(random), card.loads.len());
    let mut list = count_lists::list(random, card.modules.into(), ratio);
    count_lists::spoil(random, &mut list, &mut ratio);
    let (plan, work) = (length(random, slots as u64), length(random, (list.len() * slots) as u64));
    boundary::plan_groups(bytes, &list, ratio, &vec![7; plan], &vec![7; work]).answer.number
}

/// The acts of a sitting that are lent a card, with a sitting that is open or not and a list of one seat, and their numbers.
fn act_numbers(random: &mut Random, card: &Card, bytes: &[u8]) -> [u64; 2] {
    let (modules, top, slots) = (u64::from(card.modules), u64::from(card.top), card.loads.len() as u64);
    let (plan, work) = (vec![7; length(random, slots)], vec![7; length(random, (modules + 1) * slots)]);
    let sheet = list(random, modules * slots, top);
    let open = Act::Open { allowance: random.pick(&[0, 5]), card: bytes.to_vec(), plan, work };
    let submit = Act::Submit { card: bytes.to_vec(), sheet };
    let sitting = Sitting { state: random.below(3), allowance: 2, submissions: random.below(3), least: 0 };
    let seats = [Seat { candidate: 1, ..Seat::default() }];
    let mut number = |act: &Act| acts::act(sitting, random.below(3) as u16, act, &seats).reply.number;
    [number(&open), number(&submit)]
}

/// Every call on cards of which most have a table that falls; the acts of a sitting that are lent no card are left out. Nothing is compared
/// with the plain rules: the numbers are counted, and 9 is not among them. Either planner plans just the accepted cards with areas long enough.
#[test]
fn no_call_gives_nine() {
    const PLANNED: [&str; 2] = ["exact plans a falling table", "coarse plans a falling table"];
    let mut classes = Classes::new("the numbers of all calls (seed 82)", &PLANNED).with_numbers((0..=8).chain(10..=18));
    let mut random = Random::new(82);
    for _ in 0..40_000 {
        let (modules, top, slots) = (1 + random.below(9), 1 + random.below(5), random.below(5));
        let card = mostly_falling(&mut random, modules, top, slots);
        let (bytes, falls) = (shows::damaged(&mut random, &card), card.table.windows(2).any(|w| w[1] < w[0]));
        let checked = boundary::check_card(&bytes).number;
        classes.see_number(checked);
        for (planner, planned) in BOTH.into_iter().zip(PLANNED) {
            let number = planner_number(&mut random, planner, &card, &bytes, checked == 0);
            classes.see_number(number);
            if number == 0 && falls {
                classes.see(planned);
            }
        }
        other_answers(&mut random, &card, &bytes).iter().for_each(|answer| classes.see_number(answer.number));
        classes.see_number(explained_number(&mut random, &card, &bytes));
        classes.see_number(grouped_number(&mut random, &card, &bytes));
        act_numbers(&mut random, &card, &bytes).into_iter().for_each(|number| classes.see_number(number));
    }
    classes.require_all();
}

/// A falsified outcome is reported: another least plan of the same cost, a work byte, a guard byte.
#[test]
fn falsified_outcomes_are_reported() {
    let card = Card { modules: 2, top: 1, up: 0, down: 0, table: vec![0, 0], loads: vec![0, 1] };
    let expected = plain::plan(Planner::Exact, &card.bytes(), &[7; 3], &[7; 7]);
    assert_eq!(expected.buffers[0], [0, 1, 7]);
    for (buffer, place, byte) in [(0, 0, 1), (1, 5, 1), (1, 6, 0), (0, 2, 0)] {
        let mut falsified = expected.clone();
        falsified.buffers[buffer][place] = byte;
        assert!(difference(&falsified, &expected).is_err());
    }
}
