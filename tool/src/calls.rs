//! The safe binding: every call of include/lamp.h over slices. A call answers its cost or its refusal; after a refusal every lent
//! byte is as it was. The explanation of a sheet answers its points as C has them, and an act of a sitting its reply, with the sitting that
//! the next act is handed. Slices of Rust that are written never overlap another slice, which is all that a call asks of its host.
use crate::refusal::Refusal;

/// A cost in points, or the refusal. The rounded count gives its count in the cost's place.
pub type Answer = Result<u64, Refusal>;

/// The answer as C has it.
#[repr(C)]
struct LampAnswer {
    number: u64,
    cost: u64,
}

/// The points of a sheet above the least cost, in three parts. With a refusal, which is the number, all three are 0.
#[repr(C)]
#[derive(Clone, Copy, Debug, Default, PartialEq, Eq)]
pub struct Points {
    pub number: u64,
    pub spread: u64,
    pub swaps: u64,
    pub counts: u64,
}

impl Points {
    /// The three parts together: after a success the sheet's cost above the least.
    pub fn together(&self) -> u64 {
        self.spread + self.swaps + self.counts
    }
}

/// A seat of a sitting. An empty one is all zero.
#[repr(C)]
#[derive(Clone, Copy, Debug, Default, PartialEq, Eq)]
pub struct Seat {
    pub lowest: u64,
    pub candidate: u16,
    pub marked: u16,
    pub reserved: u32,
}

/// A sitting, which its host keeps and shows to no candidate. An unopened one is all zero; its state is 1 while it is open and 2 once it is
/// closed.
#[repr(C)]
#[derive(Clone, Copy, Debug, Default, PartialEq, Eq)]
pub struct Sitting {
    pub state: u64,
    pub allowance: u64,
    pub submissions: u64,
    pub least: u64,
}

/// The reply of an act: number, cost and marked are for its caller, the sitting is for the host.
#[repr(C)]
#[derive(Clone, Copy, Debug, Default, PartialEq, Eq)]
pub struct Reply {
    pub number: u64,
    pub cost: u64,
    pub marked: u64,
    pub sitting: Sitting,
}

const _: () = assert!(size_of::<Points>() == 32);
const _: () = assert!(size_of::<Seat>() == 16 && size_of::<Sitting>() == 32 && size_of::<Reply>() == 56);

extern "C" {
    fn lamp_check_card(card: *const u8, card_len: usize) -> LampAnswer;
    fn lamp_running_cost(card: *const u8, card_len: usize, count: u64, load: u64) -> LampAnswer;
    fn lamp_plan_exact(
        card: *const u8,
        card_len: usize,
        plan: *mut u8,
        plan_len: usize,
        work: *mut u8,
        work_len: usize,
    ) -> LampAnswer;
    fn lamp_plan_coarse(
        card: *const u8,
        card_len: usize,
        plan: *mut u8,
        plan_len: usize,
        work: *mut u8,
        work_len: usize,
    ) -> LampAnswer;
    fn lamp_plan_groups(
        card: *const u8,
        card_len: usize,
        list: *const u16,
        list_len: usize,
        ratio: u64,
        plan: *mut u8,
        plan_len: usize,
        work: *mut u8,
        work_len: usize,
    ) -> LampAnswer;
    fn lamp_sheet(
        card: *const u8,
        card_len: usize,
        plan: *const u8,
        plan_len: usize,
        sheet: *mut u8,
        sheet_len: usize,
    ) -> LampAnswer;
    fn lamp_mark(card: *const u8, card_len: usize, sheet: *const u8, sheet_len: usize) -> LampAnswer;
    fn lamp_explain(
        card: *const u8,
        card_len: usize,
        sheet: *const u8,
        sheet_len: usize,
        work: *mut u8,
        work_len: usize,
    ) -> Points;
    fn lamp_rounded_count(count: u64, modules: u64) -> LampAnswer;
    fn lamp_practice_card(start: u32, card: *mut u8, card_len: usize) -> LampAnswer;
    fn lamp_catalogue_table(top: u64, table: *mut u8, table_len: usize) -> LampAnswer;
    fn lamp_sitting_open(
        sitting: Sitting,
        caller: u16,
        allowance: u64,
        card: *const u8,
        card_len: usize,
        plan: *mut u8,
        plan_len: usize,
        work: *mut u8,
        work_len: usize,
        seats: *mut Seat,
        seats_len: usize,
    ) -> Reply;
    fn lamp_sitting_seat(sitting: Sitting, caller: u16, candidate: u16, seats: *mut Seat, seats_len: usize) -> Reply;
    fn lamp_sitting_close(sitting: Sitting, caller: u16) -> Reply;
    fn lamp_sitting_submit(
        sitting: Sitting,
        caller: u16,
        card: *const u8,
        card_len: usize,
        sheet: *const u8,
        sheet_len: usize,
        seats: *mut Seat,
        seats_len: usize,
    ) -> Reply;
    fn lamp_sitting_least(sitting: Sitting, caller: u16, seats: *const Seat, seats_len: usize) -> Reply;
    fn lamp_sitting_lowest(sitting: Sitting, caller: u16, candidate: u16, seats: *const Seat, seats_len: usize) -> Reply;
    fn lamp_sitting_used(sitting: Sitting, caller: u16) -> Reply;
}

/// The library's contract says that a number is 0 or one of the refusals, and that a refusal has cost 0.
fn answer(given: LampAnswer) -> Answer {
    if given.number == 0 {
        return Ok(given.cost);
    }
    assert_eq!(given.cost, 0, "refusal {} came with a cost", given.number);
    Err(Refusal::of_number(given.number).unwrap_or_else(|| panic!("the library gave the unknown number {}", given.number)))
}

/// Accepts a card at cost 0, or refuses it by 1 to 8.
pub fn check_card(card: &[u8]) -> Answer {
    answer(unsafe { lamp_check_card(card.as_ptr(), card.len()) })
}

/// The running cost of a count and a load.
pub fn running_cost(card: &[u8], count: u64, load: u64) -> Answer {
    answer(unsafe { lamp_running_cost(card.as_ptr(), card.len(), count, load) })
}

/// The plan of least cost: one count a slot in the first bytes of `plan`; `work` is asked for (modules + 1) times slots bytes.
pub fn plan_exact(card: &[u8], plan: &mut [u8], work: &mut [u8]) -> Answer {
    answer(unsafe { lamp_plan_exact(card.as_ptr(), card.len(), plan.as_mut_ptr(), plan.len(), work.as_mut_ptr(), work.len()) })
}

/// The least plan with counts 0, the powers of two and the full rack; `work` is asked for 10 times slots bytes.
pub fn plan_coarse(card: &[u8], plan: &mut [u8], work: &mut [u8]) -> Answer {
    answer(unsafe { lamp_plan_coarse(card.as_ptr(), card.len(), plan.as_mut_ptr(), plan.len(), work.as_mut_ptr(), work.len()) })
}

/// The least plan with counts of a list alone, which begins with 0 and ends with the full rack; `work` is asked for one byte for each entry and
/// slot. A list or ratio against the rules is refused by 18, and then a short area by 10.
pub fn plan_groups(card: &[u8], list: &[u16], ratio: u64, plan: &mut [u8], work: &mut [u8]) -> Answer {
    answer(unsafe {
        lamp_plan_groups(
            card.as_ptr(),
            card.len(),
            list.as_ptr(),
            list.len(),
            ratio,
            plan.as_mut_ptr(),
            plan.len(),
            work.as_mut_ptr(),
            work.len(),
        )
    })
}

/// The sheet of a handed-in plan: modules times slots bytes at the front of `sheet`.
pub fn sheet(card: &[u8], plan: &[u8], sheet: &mut [u8]) -> Answer {
    answer(unsafe { lamp_sheet(card.as_ptr(), card.len(), plan.as_ptr(), plan.len(), sheet.as_mut_ptr(), sheet.len()) })
}

/// The cost of a handed-in sheet.
pub fn mark(card: &[u8], sheet: &[u8]) -> Answer {
    answer(unsafe { lamp_mark(card.as_ptr(), card.len(), sheet.as_ptr(), sheet.len()) })
}

/// Where the points of a handed-in sheet above the least cost went; `work` is that of `plan_exact`.
pub fn explain(card: &[u8], sheet: &[u8], work: &mut [u8]) -> Points {
    let (sheet_at, work_at) = (sheet.as_ptr(), work.as_mut_ptr());
    unsafe { lamp_explain(card.as_ptr(), card.len(), sheet_at, sheet.len(), work_at, work.len()) }
}

/// The smallest allowed count not below `count` in a rack of `modules`.
pub fn rounded_count(count: u64, modules: u64) -> Answer {
    answer(unsafe { lamp_rounded_count(count, modules) })
}

/// The practice card of a start at the front of `card`, at cost 0. Start 0 is refused by 14, and then a short area by 10.
pub fn practice_card(start: u32, card: &mut [u8]) -> Answer {
    answer(unsafe { lamp_practice_card(start, card.as_mut_ptr(), card.len()) })
}

/// F(0) to F(top) of the catalogue module at the front of `table`, four bytes each, at cost 0. A top outside 1 to 200 is refused by 3, and
/// then a short area by 10.
pub fn catalogue_table(top: u64, table: &mut [u8]) -> Answer {
    answer(unsafe { lamp_catalogue_table(top, table.as_mut_ptr(), table.len()) })
}

/// Opens a sitting with an allowance of 1 to 1,000 submissions, at the least cost; `plan` and `work` are those of `plan_exact`. The first 32
/// records of `seats` become empty.
pub fn sitting_open(
    sitting: Sitting,
    caller: u16,
    allowance: u64,
    card: &[u8],
    plan: &mut [u8],
    work: &mut [u8],
    seats: &mut [Seat],
) -> Reply {
    unsafe {
        lamp_sitting_open(
            sitting,
            caller,
            allowance,
            card.as_ptr(),
            card.len(),
            plan.as_mut_ptr(),
            plan.len(),
            work.as_mut_ptr(),
            work.len(),
            seats.as_mut_ptr(),
            seats.len(),
        )
    }
}

/// Seats a candidate in the first empty record.
pub fn sitting_seat(sitting: Sitting, caller: u16, candidate: u16, seats: &mut [Seat]) -> Reply {
    unsafe { lamp_sitting_seat(sitting, caller, candidate, seats.as_mut_ptr(), seats.len()) }
}

/// Ends seating and submitting.
pub fn sitting_close(sitting: Sitting, caller: u16) -> Reply {
    unsafe { lamp_sitting_close(sitting, caller) }
}

/// Marks the sheet of a seated candidate, the caller. A sheet that is refused by 11 to 13 uses a submission too.
pub fn sitting_submit(sitting: Sitting, caller: u16, card: &[u8], sheet: &[u8], seats: &mut [Seat]) -> Reply {
    let (sheet_at, seats_at) = (sheet.as_ptr(), seats.as_mut_ptr());
    unsafe { lamp_sitting_submit(sitting, caller, card.as_ptr(), card.len(), sheet_at, sheet.len(), seats_at, seats.len()) }
}

/// The least cost, for the supervisor, or for a seated candidate after closing.
pub fn sitting_least(sitting: Sitting, caller: u16, seats: &[Seat]) -> Reply {
    unsafe { lamp_sitting_least(sitting, caller, seats.as_ptr(), seats.len()) }
}

/// The lowest cost of a candidate's marked sheets, for the supervisor or the candidate; without one, `marked` is 0.
pub fn sitting_lowest(sitting: Sitting, caller: u16, candidate: u16, seats: &[Seat]) -> Reply {
    unsafe { lamp_sitting_lowest(sitting, caller, candidate, seats.as_ptr(), seats.len()) }
}

/// How many submissions were used, in the cost's place, for the supervisor.
pub fn sitting_used(sitting: Sitting, caller: u16) -> Reply {
    unsafe { lamp_sitting_used(sitting, caller) }
}
