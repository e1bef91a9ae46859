//! Section 8 of document 02, written out plainly: the rules of a list of counts and its ratio, and the planner over the list.
use crate::boundary::Outcome;
use crate::plain::{plan_over, read_card, unplanned};

/// A rule of the list and its ratio.
#[derive(Clone, Copy, Debug, PartialEq, Eq)]
pub enum Rule {
    Ratio,
    Entries,
    Begin,
    End,
    Ascent,
    First,
    Gaps,
}

/// All rules, each with a name for what breaks it.
pub const RULES: [(Rule, &str); 7] = [
    (Rule::Ratio, "ratio"),
    (Rule::Entries, "entries"),
    (Rule::Begin, "begin"),
    (Rule::End, "end"),
    (Rule::Ascent, "ascent"),
    (Rule::First, "first entry"),
    (Rule::Gaps, "gaps"),
];

/// Whether a list keeps a rule, looked at by itself. Where the list does not begin with 0, the first entry after 0 is its second one.
fn keeps(rule: Rule, list: &[i128], ratio: i128, modules: i128) -> bool {
    let gaps: Vec<i128> = list.windows(2).map(|two| two[1] - two[0]).collect();
    match rule {
        Rule::Ratio => (1..=200).contains(&ratio),
        Rule::Entries => (2..=201).contains(&list.len()),
        Rule::Begin => list.first() == Some(&0),
        Rule::End => list.last() == Some(&modules),
        Rule::Ascent => gaps.iter().all(|gap| *gap > 0),
        Rule::First => list.get(1).is_none_or(|entry| *entry <= ratio),
        Rule::Gaps => gaps.windows(2).all(|two| two[1] <= ratio * two[0]),
    }
}

/// The rules that a list and its ratio break in a rack of `modules`.
pub fn broken(list: &[u16], ratio: u64, modules: u64) -> Vec<Rule> {
    let list: Vec<i128> = list.iter().map(|entry| i128::from(*entry)).collect();
    let broken = |rule: &Rule| !keeps(*rule, &list, ratio.into(), modules.into());
    RULES.iter().map(|(rule, _)| *rule).filter(broken).collect()
}

/// The entries as counts.
pub fn counts(list: &[u16]) -> Vec<u64> {
    list.iter().map(|entry| u64::from(*entry)).collect()
}

/// The whole outcome of the call: 1 to 8 come first, then 18, then 10. The work area has one byte for each entry and slot.
pub fn plan(card: &[u8], list: &[u16], ratio: u64, plan: &[u8], work: &[u8]) -> Outcome {
    let show = match read_card(card) {
        Ok(show) => show,
        Err(number) => return unplanned(number, plan, work),
    };
    if !broken(list, ratio, show.modules).is_empty() {
        return unplanned(18, plan, work);
    }
    plan_over(&show, &counts(list), list.len() * show.slots(), plan, work)
}
