//! The acts of a sitting as a data type, and each of them through the boundary with its whole outcome: the reply, every record of the list
//! and every byte that was lent to be written.
use lamp::calls;
pub use lamp::calls::{Reply, Seat, Sitting};

/// The number of the supervisor.
pub const SUPERVISOR: u16 = 0;

/// An act with all that is handed over and lent to it, but for the caller, the sitting and the list.
#[derive(Clone, Debug)]
pub enum Act {
    Open { allowance: u64, card: Vec<u8>, plan: Vec<u8>, work: Vec<u8> },
    Seat { candidate: u16 },
    Close,
    Submit { card: Vec<u8>, sheet: Vec<u8> },
    Least,
    Lowest { candidate: u16 },
    Used,
}

impl Act {
    pub fn name(&self) -> &'static str {
        match self {
            Act::Open { .. } => "open",
            Act::Seat { .. } => "seat",
            Act::Close => "close",
            Act::Submit { .. } => "submit",
            Act::Least => "least",
            Act::Lowest { .. } => "lowest",
            Act::Used => "used",
        }
    }

    /// The areas that are lent to be written, besides the list.
    pub fn areas(&self) -> Vec<Vec<u8>> {
        match self {
            Act::Open { plan, work, .. } => vec![plan.clone(), work.clone()],
            _ => Vec::new(),
        }
    }
}

/// What the caller of an act is told.
#[derive(Clone, Copy, Debug, Default, PartialEq, Eq)]
pub struct Told {
    pub number: u64,
    pub cost: u64,
    pub marked: u64,
}

impl Told {
    pub fn cost(cost: u64) -> Self {
        Told { cost, ..Told::default() }
    }

    pub fn refused(number: u64) -> Self {
        Told { number, ..Told::default() }
    }

    /// With the sitting that the act gives back.
    pub fn with(self, sitting: Sitting) -> Reply {
        Reply { number: self.number, cost: self.cost, marked: self.marked, sitting }
    }
}

impl From<Reply> for Told {
    fn from(reply: Reply) -> Self {
        Told { number: reply.number, cost: reply.cost, marked: reply.marked }
    }
}

/// The whole outcome of an act. The areas are plan and work of an opening, and of the other acts there are none.
#[derive(Clone, Debug, PartialEq, Eq)]
pub struct Outcome {
    pub reply: Reply,
    pub seats: Vec<Seat>,
    pub areas: Vec<Vec<u8>>,
}

/// What differs between an outcome and the expected one.
pub fn difference(found: &Outcome, expected: &Outcome) -> Result<(), String> {
    if found.reply != expected.reply {
        return Err(format!("{:?}, expected {:?}", found.reply, expected.reply));
    }
    if let Some(at) = (0..found.seats.len()).find(|at| Some(&found.seats[*at]) != expected.seats.get(*at)) {
        return Err(format!("record {at} is {:?}, expected {:?}", found.seats[at], expected.seats.get(at)));
    }
    if found.seats.len() != expected.seats.len() {
        return Err(format!("{} records, expected {}", found.seats.len(), expected.seats.len()));
    }
    if found.areas != expected.areas {
        return Err(format!("areas {:?}, expected {:?}", found.areas, expected.areas));
    }
    Ok(())
}

/// The records that stand before and after a list in memory and are not lent: an empty one, and one for each of the candidates 1 to 33. A
/// library that looks beyond the list finds them, and one that writes there alters them.
fn beside() -> Vec<Seat> {
    (0..34).map(|k| Seat { lowest: 700 + u64::from(k), candidate: k, marked: 1, reserved: 9 }).collect()
}

/// Hands an act to the library. The list lies between records that are not lent, and these are found as they were.
pub fn act(sitting: Sitting, caller: u16, act: &Act, seats: &[Seat]) -> Outcome {
    let beside = beside();
    let mut memory = [&beside, seats, &beside].concat();
    let list = &mut memory[beside.len()..beside.len() + seats.len()];
    let mut areas = act.areas();
    let reply = match act {
        Act::Open { allowance, card, .. } => {
            let (plan, work) = areas.split_at_mut(1);
            calls::sitting_open(sitting, caller, *allowance, card, &mut plan[0], &mut work[0], list)
        }
        Act::Seat { candidate } => calls::sitting_seat(sitting, caller, *candidate, list),
        Act::Close => calls::sitting_close(sitting, caller),
        Act::Submit { card, sheet } => calls::sitting_submit(sitting, caller, card, sheet, list),
        Act::Least => calls::sitting_least(sitting, caller, list),
        Act::Lowest { candidate } => calls::sitting_lowest(sitting, caller, *candidate, list),
        Act::Used => calls::sitting_used(sitting, caller),
    };
    let seats = list.to_vec();
    let after = beside.len() + seats.len();
    assert!(memory[..beside.len()] == beside && memory[after..] == beside, "{} alters records that are not lent", act.name());
    Outcome { reply, seats, areas }
}
