//! Random sequences of acts. Each act is handed the sitting and lent the list as the last one left them, and the card of the opening is lent
//! to the submissions. What comes next is drawn with a look at the history, so that every situation comes up.
use crate::acts::{self, Act, Outcome, Seat, Sitting, SUPERVISOR};
use crate::cards::Card;
use crate::history::History;
use crate::plain::{self, Show, OFF};
use crate::random::Random;
use crate::shows;

/// What stands in the list before the first act, and in the sitting.
#[derive(Clone, Copy, Debug, PartialEq, Eq)]
pub enum Start {
    /// All zero.
    Zero,
    /// An unopened sitting that is all zero, and a list with any records.
    AnyRecords,
    /// A state that counts as unopened and is not 0, and any other numbers and records.
    OtherState,
    /// Any numbers and records, also of an open or closed sitting. The first act is an opening that is accepted.
    Anything,
}

impl Start {
    pub fn name(self) -> &'static str {
        match self {
            Start::Zero => "start: all zero",
            Start::AnyRecords => "start: unopened, any records",
            Start::OtherState => "start: a state above 2, any records",
            Start::Anything => "start: any sitting, any records, opened first",
        }
    }
}

pub const STARTS: [Start; 4] = [Start::Zero, Start::AnyRecords, Start::OtherState, Start::Anything];

/// How often each act is drawn: open, seat, close, submit, least, lowest, used.
pub type Weights = [u64; 7];

/// Many submissions, many seats, many openings, many closings.
pub const WEIGHTS: [Weights; 4] =
    [[1, 12, 1, 80, 6, 9, 4], [0, 60, 0, 20, 4, 6, 3], [12, 20, 4, 30, 8, 12, 6], [3, 16, 8, 30, 14, 16, 8]];

/// Submissions without end: no second opening and no closing.
pub const SUBMISSIONS_ALONE: Weights = [0, 4, 0, 100, 1, 2, 1];

/// Candidates' numbers, among them such as share their low byte or their high byte, the smallest and the largest.
pub fn candidates(several: usize) -> Vec<u16> {
    let special = [1, 257, 256, 65_535, 2, 513, 32_768, 255, 65_280, 512];
    special.into_iter().chain(1_000..).take(several).collect()
}

/// A record with any fields. Its candidate is mostly 0 or one of the list.
pub fn any_record(random: &mut Random, candidates: &[u16]) -> Seat {
    let (other, named) = (random.next() as u16, random.pick(candidates));
    Seat {
        lowest: any_number(random),
        candidate: random.pick(&[0, 0, named, named, named, other]),
        marked: random.pick(&[0, 0, 1, 1, 2, 256, u16::MAX]),
        reserved: random.pick(&[0, 1, u32::MAX]),
    }
}

/// A number of any size.
pub fn any_number(random: &mut Random) -> u64 {
    let (small, large) = (random.below(60), random.next());
    random.pick(&[0, small, small, small, large, u64::MAX])
}

/// A state that is neither 1 nor 2. Some are so in their low bytes.
pub fn other_state(random: &mut Random) -> u64 {
    random.pick(&[3, 4, 257, (1 << 32) + 1, (1 << 32) + 2, (1 << 63) + 1, u64::MAX])
}

/// A small card that is accepted. Few have no slot, and few cost nothing.
pub fn small_card(random: &mut Random) -> Card {
    let (modules, top) = (1 + random.below(4), 1 + random.below(3));
    let slots = random.pick(&[0, 1, 2, 2, 3, 3]);
    let steepest = random.pick(&[0, 5, 9, 50]);
    shows::card(random, modules, top, slots, steepest)
}

/// The bytes of a card with a fault of 1 to 8.
fn refused_card(random: &mut Random) -> Vec<u8> {
    loop {
        let card = small_card(random);
        let bytes = shows::damaged(random, &card);
        if plain::check_card(&bytes).number != 0 {
            return bytes;
        }
    }
}

/// A sheet that serves: that of a plan with enough modules in each slot, and the modules of each slot moved round.
fn serving_sheet(random: &mut Random, show: &Show) -> Vec<u8> {
    let count = |random: &mut Random, load: u64| {
        let needed = load.div_ceil(show.top);
        (needed + random.below(show.modules - needed + 1)) as u8
    };
    let plan: Vec<u8> = show.loads.iter().map(|load| count(random, *load)).collect();
    let mut sheet = show.sheet(&plan);
    for row in sheet.chunks_mut(show.modules as usize) {
        row.rotate_right(random.below(show.modules) as usize);
    }
    sheet
}

/// A sheet: one of the least cost, another one that serves, or one with a fault of 11, 12 or 13.
pub fn any_sheet(random: &mut Random, show: &Show) -> Vec<u8> {
    let mut sheet = match random.below(12) {
        0 => show.sheet(&show.least_plan(&show.counts(false)).1),
        _ => serving_sheet(random, show),
    };
    let fault = random.below(16);
    if fault <= 1 && !sheet.is_empty() {
        let place = random.below(sheet.len() as u64) as usize;
        sheet[place] = random.pick(&[show.top as u8 + 1, 254]);
    }
    match fault {
        1 | 2 => sheet.push(OFF),
        3 => sheet.truncate(sheet.len() / 2),
        4 | 5 => {
            let slot = show.loads.iter().position(|load| *load > 0).unwrap_or(0);
            sheet.chunks_mut(show.modules as usize).skip(slot).take(1).for_each(|row| row.fill(OFF));
        }
        _ => {}
    }
    sheet
}

/// Plan and work for a card, with any bytes: mostly long enough, and else one byte short or empty.
fn areas(random: &mut Random, card: &Card, enough: bool) -> (Vec<u8>, Vec<u8>) {
    let slots = card.loads.len();
    let mut length = |asked: usize| match random.below(12) {
        0 if !enough => asked.saturating_sub(1),
        1 if !enough => 0,
        _ => asked + random.below(3) as usize,
    };
    let lengths = [length(slots), length((usize::from(card.modules) + 1) * slots)];
    let [plan, work] = lengths.map(|length| (0..length).map(|_| random.next() as u8).collect());
    (plan, work)
}

fn any_allowance(random: &mut Random) -> u64 {
    let small = 1 + random.below(20);
    let edge = random.pick(&[0, 1, 999, 1_000, 1_001, 1_002, (1 << 32) + 1, u64::MAX]);
    random.pick(&[small, small, small, small, small, small, edge])
}

/// An opening with a card, which comes with a fault now and then, and with any allowance and areas.
pub fn any_opening(random: &mut Random, card: Card) -> Act {
    let bytes = if random.below(5) == 0 { refused_card(random) } else { card.bytes() };
    let (plan, work) = areas(random, &card, false);
    Act::Open { allowance: any_allowance(random), card: bytes, plan, work }
}

/// A submission for a card, which comes with a fault now and then.
pub fn any_submission(random: &mut Random, card: &Card) -> Act {
    let show = plain::read_card(&card.bytes()).expect("the card is accepted");
    let bytes = if random.below(16) == 0 { refused_card(random) } else { card.bytes() };
    Act::Submit { card: bytes, sheet: any_sheet(random, &show) }
}

/// A sequence, and where it stands.
pub struct Sequence {
    random: Random,
    /// The first act must be an opening that is accepted.
    opens_first: bool,
    weights: Weights,
    candidates: Vec<u16>,
    /// The card of the last accepted opening. The one that is being opened takes its place.
    card: Card,
    opening: Option<Card>,
    sitting: Sitting,
    seats: Vec<Seat>,
    history: History,
}

/// An act of a sequence: what it was, what the library did and what the history says that it must do.
pub struct Step {
    pub caller: u16,
    pub act: Act,
    pub refusals: Vec<(u64, &'static str)>,
    pub found: Outcome,
    pub wanted: Outcome,
}

impl Sequence {
    pub fn new(mut random: Random, records: usize, start: Start, weights: Weights) -> Self {
        let candidates = candidates(records.min(32) + 4);
        let seats: Vec<Seat> = match start {
            Start::Zero => vec![Seat::default(); records],
            _ => (0..records).map(|_| any_record(&mut random, &candidates)).collect(),
        };
        let state = match start {
            Start::Zero | Start::AnyRecords => 0,
            Start::OtherState => other_state(&mut random),
            Start::Anything => random.pick(&[1, 2, 3, u64::MAX]),
        };
        let sitting = match state {
            0 => Sitting::default(),
            _ => {
                let [allowance, submissions, least] = [(); 3].map(|()| any_number(&mut random));
                Sitting { state, allowance, submissions, least }
            }
        };
        let history = History::new(sitting, &seats);
        let card = small_card(&mut random);
        let opens_first = start == Start::Anything;
        Sequence { random, opens_first, weights, candidates, card, opening: None, sitting, seats, history }
    }

    /// The sitting and the list that the next act is handed.
    pub fn handed(&self) -> (Sitting, Vec<Seat>) {
        (self.sitting, self.seats.clone())
    }

    /// An opening that is accepted.
    pub fn open(&mut self, allowance: u64) -> Step {
        self.opens_first = false;
        let (plan, work) = areas(&mut self.random, &self.card, true);
        let card = self.card.bytes();
        self.play(SUPERVISOR, Act::Open { allowance, card, plan, work })
    }

    /// The next act. If the sitting is unopened or closed, it is an opening more often.
    pub fn next(&mut self) -> Step {
        if self.opens_first {
            let allowance = 1 + self.random.below(9);
            return self.open(allowance);
        }
        let all: u64 = self.weights.iter().sum();
        let mut drawn = self.random.below(all);
        let mut which = self.weights.iter().position(|weight| {
            let here = drawn < *weight;
            drawn = drawn.wrapping_sub(*weight);
            here
        });
        if !self.history.open() && self.random.below(if self.history.opened() { 16 } else { 4 }) == 0 {
            which = Some(0);
        }
        let (caller, act) = self.draw(which.expect("the weights cover what is drawn"));
        self.play(caller, act)
    }

    /// One of the seated candidates, the first ones more often, and now and then any candidate or 0.
    fn candidate(&mut self) -> u16 {
        let (any, seated) = (self.random.pick(&self.candidates), self.history.seated());
        let few = seated.len().min(self.random.pick(&[2, 2, 32]));
        let named = if few == 0 { any } else { self.random.pick(&seated[..few]) };
        let mostly = [named; 9];
        self.random.pick(&[&mostly[..], &[any, any, 0]].concat())
    }

    /// A candidate that is not seated, if there is one, and now and then any one.
    fn unseated(&mut self) -> u16 {
        let (any, seated) = (self.candidate(), self.history.seated());
        let others: Vec<u16> = self.candidates.iter().copied().filter(|candidate| !seated.contains(candidate)).collect();
        let other = self.random.pick(&others);
        self.random.pick(&[other, other, any])
    }

    /// The supervisor, and now and then another one.
    fn supervisor(&mut self) -> u16 {
        if self.random.below(10) == 0 {
            self.candidate()
        } else {
            SUPERVISOR
        }
    }

    fn draw(&mut self, which: usize) -> (u16, Act) {
        let named = self.candidate();
        match which {
            0 => {
                let card = if self.random.below(2) == 0 { self.card.clone() } else { small_card(&mut self.random) };
                self.opening = Some(card.clone());
                (self.supervisor(), any_opening(&mut self.random, card))
            }
            1 => (self.supervisor(), Act::Seat { candidate: self.unseated() }),
            2 => (self.supervisor(), Act::Close),
            3 => (named, any_submission(&mut self.random, &self.card)),
            4 => (self.random.pick(&[SUPERVISOR, named, named]), Act::Least),
            5 => {
                let other = self.candidate();
                (self.random.pick(&[SUPERVISOR, named, named, other]), Act::Lowest { candidate: named })
            }
            _ => (self.supervisor(), Act::Used),
        }
    }

    /// Hands an act to the library and to the history. The library's sitting and list are those that the next act gets.
    fn play(&mut self, caller: u16, act: Act) -> Step {
        let refusals = self.history.refusals(caller, &act);
        let wanted = self.history.next(caller, &act);
        let found = acts::act(self.sitting, caller, &act, &self.seats);
        (self.sitting, self.seats) = (found.reply.sitting, found.seats.clone());
        if let (Some(card), 0) = (self.opening.take(), wanted.reply.number) {
            self.card = card;
        }
        Step { caller, act, refusals, found, wanted }
    }
}
