//! Plans with areas as large as asked for.
use crate::calls::{self, Answer};
use crate::refusal::Refusal;
use crate::show::Show;
use crate::words::{grouped, runs};

/// What is said of a least cost.
pub const LEAST: &str = "no sheet that serves the show costs less";

/// The counts that a plan is limited to, with the ratio that bounds its cost (document 02, section 8).
#[derive(Clone, Copy, Debug, PartialEq, Eq)]
pub struct Groups<'a> {
    pub counts: &'a [u16],
    pub ratio: u64,
}

impl Groups<'_> {
    /// The options by which the plan is made again.
    pub fn options(&self) -> String {
        let counts: Vec<String> = self.counts.iter().map(u16::to_string).collect();
        format!("--groups {} --ratio {}", counts.join(","), self.ratio)
    }

    /// The counts in a sentence, with neighbours taken together. After so many of these it is said how many counts follow.
    pub fn limit(&self, most: usize) -> String {
        let counts: Vec<usize> = self.counts.iter().map(|count| usize::from(*count)).collect();
        format!("limited to the counts {}", runs(&counts, most))
    }

    /// Whether every count of a plan is in the list.
    fn has_all(&self, plan: &[u8]) -> bool {
        plan.iter().all(|count| self.counts.contains(&u16::from(*count)))
    }
}

/// What is said of a plan that is not the exact one.
const NOT_EXACT: &str = "NOT the key of the exact plan";

/// A group plan beside the exact plan of its card.
#[derive(Clone, Copy, Debug)]
pub struct Beside<'a> {
    pub groups: Groups<'a>,
    pub least: u64,
    is_least: bool,
    is_exact: bool,
}

impl<'a> Beside<'a> {
    /// Plans the card exactly too. The group plan has counts of its list alone, and costs at least the least cost and at most the ratio
    /// times that.
    fn of(groups: Groups<'a>, card: &[u8], cost: u64, counts: &[u8]) -> Self {
        assert!(groups.has_all(counts), "the plan has a count that the list has not");
        let exact = plan(Planner::Exact, card).expect("the exact planner takes every accepted card");
        let range = exact.cost..=exact.cost.saturating_mul(groups.ratio);
        assert!(range.contains(&cost), "the group plan costs less than the least cost, or more than the ratio times that");
        Beside { groups, least: exact.cost, is_least: cost == exact.cost, is_exact: counts == exact.plan }
    }

    /// Whether the plan is the exact one, in words. Plans of the same counts have the same sheet.
    pub fn likeness(&self) -> &'static str {
        if self.is_exact {
            "the same as the exact plan"
        } else {
            NOT_EXACT
        }
    }

    /// What the plan costs, with these words for the least cost.
    pub fn bound(&self, least: &str) -> String {
        if self.is_least {
            return format!("this plan costs just {least}");
        }
        format!("this plan costs at most {} times {least}", grouped(self.groups.ratio))
    }

    /// The sentences that stand before the plan.
    fn notes(&self) -> Vec<String> {
        let limit = self.groups.limit(usize::MAX);
        let least = format!("the least cost of any sheet is {}; {}", grouped(self.least), self.bound("that"));
        vec![format!("group plan, {limit}; {}", self.likeness()), least]
    }
}

#[derive(Clone, Copy, Debug, PartialEq, Eq)]
pub enum Planner<'a> {
    Exact,
    Coarse,
    Groups(Groups<'a>),
}

impl<'a> Planner<'a> {
    /// The work bytes that the planner asks for.
    pub fn work_bytes(self, modules: usize, slots: usize) -> usize {
        match self {
            Planner::Exact => (modules + 1) * slots,
            Planner::Coarse => 10 * slots,
            Planner::Groups(groups) => groups.counts.len() * slots,
        }
    }

    /// A work area for a show, just as long as the planner asks for.
    pub fn work(self, show: &Show) -> Vec<u8> {
        vec![0; self.work_bytes(show.modules.into(), show.slots())]
    }

    /// The planner's call.
    pub fn plan(self, card: &[u8], plan: &mut [u8], work: &mut [u8]) -> Answer {
        match self {
            Planner::Exact => calls::plan_exact(card, plan, work),
            Planner::Coarse => calls::plan_coarse(card, plan, work),
            Planner::Groups(groups) => calls::plan_groups(card, groups.counts, groups.ratio, plan, work),
        }
    }

    /// The list that the planner's plans are limited to, where one was given.
    pub fn groups(self) -> Option<Groups<'a>> {
        match self {
            Planner::Groups(groups) => Some(groups),
            _ => None,
        }
    }
}

/// An accepted show with a planner's cost, plan and sheet, and for a group plan what it is beside the exact one.
#[derive(Clone, Debug)]
pub struct Planned<'a> {
    pub planner: Planner<'a>,
    pub show: Show,
    pub cost: u64,
    pub plan: Vec<u8>,
    pub sheet: Vec<u8>,
    pub beside: Option<Beside<'a>>,
}

/// How many runs of slots a sentence names.
const MOST_RUNS: usize = 10;

impl Planned<'_> {
    /// The light of each slot.
    pub fn lights(&self) -> Vec<u64> {
        self.show.lights(&self.sheet).collect()
    }

    /// A sentence on the slots that get more light than their load, where there are any. Each of them costs less than its count would with
    /// just the load, since a module is at a step above its share only if that step costs less.
    pub fn brighter(&self) -> Option<String> {
        let slots = self.lights().into_iter().zip(&self.show.loads).enumerate();
        let brighter = slots.filter(|(_, (light, load))| *light > u64::from(**load));
        let numbers: Vec<usize> = brighter.map(|(slot, _)| slot + 1).collect();
        let sentence =
            || format!("slots with more light than their load, which costs less at their counts: {}", runs(&numbers, MOST_RUNS));
        (!numbers.is_empty()).then(sentence)
    }

    /// The sentences that stand before the plan: whose it is and what its cost is, and where there is more light.
    pub fn notes(&self) -> impl Iterator<Item = String> {
        let notes = match (&self.beside, self.planner) {
            (Some(beside), _) => beside.notes(),
            (None, Planner::Exact) => vec![format!("exact plan: {LEAST}")],
            (None, _) => vec![format!("coarse plan: at most twice the least cost, {NOT_EXACT}")],
        };
        notes.into_iter().chain(self.brighter())
    }
}

/// Plans a card. The sheet is made from the plan and marked, and both have to cost what the planner named; a group plan is held to its
/// list and to the exact plan's cost. The library's contract says so, and a machine on which it does not hold must not print a key.
pub fn plan<'a>(planner: Planner<'a>, card: &[u8]) -> Result<Planned<'a>, Refusal> {
    calls::check_card(card)?;
    let show = Show::read(card).expect("an accepted card has a readable length");
    let (mut plan, mut sheet) = (vec![0; show.slots()], vec![0; usize::from(show.modules) * show.slots()]);
    let cost = planner.plan(card, &mut plan, &mut planner.work(&show))?;
    let (made, marked) = (calls::sheet(card, &plan, &mut sheet), calls::mark(card, &sheet));
    assert_eq!((made, marked), (Ok(cost), Ok(cost)), "the sheet does not cost what the planner named");
    let beside = planner.groups().map(|groups| Beside::of(groups, card, cost, &plan));
    Ok(Planned { planner, show, cost, plan, sheet, beside })
}
