//! Section 4 of document 02 for every sitting and every list, also such as no act leaves: what an act does with the values that it is handed.
//! A state other than 1 and 2 counts as unopened, a record is empty if its candidate is 0, the first record with a candidate's number is the
//! candidate's seat, and a record is marked if its `marked` is not 0. The records after the 32nd are no seats.
use crate::acts::{Act, Outcome, Reply, Seat, Sitting};
use crate::boundary::Planner;
use crate::plain;

const OPEN: u64 = 1;
const CLOSED: u64 = 2;

/// The sitting that an act is handed, and the list and the areas that it is lent.
struct Lent {
    sitting: Sitting,
    seats: Vec<Seat>,
    areas: Vec<Vec<u8>>,
}

/// What an act gives where it refuses nothing: the cost, and marked.
type Given = Result<(u64, u64), u64>;

fn refuse_if(applies: bool, number: u64) -> Result<(), u64> {
    if applies {
        Err(number)
    } else {
        Ok(())
    }
}

impl Lent {
    fn is_open(&self) -> bool {
        self.sitting.state == OPEN
    }

    fn is_unopened(&self) -> bool {
        !self.is_open() && self.sitting.state != CLOSED
    }

    /// The place of the first record among the seats that has this candidate, 0 for an empty one.
    fn place(&self, candidate: u16) -> Option<usize> {
        self.seats.iter().take(32).position(|seat| seat.candidate == candidate)
    }

    fn open(&mut self, caller: u16, allowance: u64, card: &[u8]) -> Given {
        let planned = plain::plan(Planner::Exact, card, &self.areas[0], &self.areas[1]);
        refuse_if(planned.answer.number != 0, planned.answer.number)?;
        refuse_if(caller != 0, 15)?;
        refuse_if(!(1..=1_000).contains(&allowance), 17)?;
        self.areas = planned.buffers;
        self.seats.iter_mut().take(32).for_each(|seat| *seat = Seat::default());
        self.sitting = Sitting { state: OPEN, allowance, submissions: 0, least: planned.answer.cost };
        Ok((planned.answer.cost, 0))
    }

    fn seat(&mut self, caller: u16, candidate: u16) -> Given {
        refuse_if(caller != 0 || !self.is_open(), 15)?;
        refuse_if(candidate == 0 || self.place(candidate).is_some(), 16)?;
        let empty = self.place(0).ok_or(16u64)?;
        self.seats[empty] = Seat { candidate, ..Seat::default() };
        Ok((0, 0))
    }

    fn close(&mut self, caller: u16) -> Given {
        refuse_if(caller != 0 || !self.is_open(), 15)?;
        self.sitting.state = CLOSED;
        Ok((0, 0))
    }

    fn submit(&mut self, caller: u16, card: &[u8], sheet: &[u8]) -> Given {
        let checked = plain::check_card(card).number;
        refuse_if(checked != 0, checked)?;
        refuse_if(caller == 0 || !self.is_open(), 15)?;
        let place = self.place(caller).ok_or(16u64)?;
        refuse_if(self.sitting.submissions >= self.sitting.allowance, 17)?;
        self.sitting.submissions += 1;
        let marked = plain::mark(card, sheet);
        refuse_if(marked.number != 0, marked.number)?;
        let seat = &mut self.seats[place];
        seat.lowest = if seat.marked == 0 { marked.cost } else { marked.cost.min(seat.lowest) };
        seat.marked = 1;
        Ok((marked.cost, 0))
    }

    fn least(&self, caller: u16) -> Given {
        refuse_if(self.is_unopened(), 15)?;
        refuse_if(caller != 0 && self.is_open(), 15)?;
        refuse_if(caller != 0 && self.place(caller).is_none(), 16)?;
        Ok((self.sitting.least, 0))
    }

    fn lowest(&self, caller: u16, candidate: u16) -> Given {
        refuse_if(self.is_unopened(), 15)?;
        refuse_if(caller != 0 && caller != candidate, 15)?;
        refuse_if(candidate == 0, 16)?;
        let seat = self.seats[self.place(candidate).ok_or(16u64)?];
        Ok(if seat.marked == 0 { (0, 0) } else { (seat.lowest, 1) })
    }

    fn used(&self, caller: u16) -> Given {
        refuse_if(caller != 0 || self.is_unopened(), 15)?;
        Ok((self.sitting.submissions, 0))
    }
}

/// The whole outcome that an act must have.
pub fn outcome(sitting: Sitting, caller: u16, act: &Act, seats: &[Seat]) -> Outcome {
    let mut lent = Lent { sitting, seats: seats.to_vec(), areas: act.areas() };
    let given = match act {
        Act::Open { allowance, card, .. } => lent.open(caller, *allowance, card),
        Act::Seat { candidate } => lent.seat(caller, *candidate),
        Act::Close => lent.close(caller),
        Act::Submit { card, sheet } => lent.submit(caller, card, sheet),
        Act::Least => lent.least(caller),
        Act::Lowest { candidate } => lent.lowest(caller, *candidate),
        Act::Used => lent.used(caller),
    };
    let (number, (cost, marked)) = given.map_or_else(|number| (number, (0, 0)), |given| (0, given));
    Outcome { reply: Reply { number, cost, marked, sitting: lent.sitting }, seats: lent.seats, areas: lent.areas }
}
