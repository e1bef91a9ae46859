//! Searches through all sheets, all patterns and all plans of a show that has few of them.
use crate::boundary::{mark, Answer};
use crate::cards::Card;
use crate::plain::{Show, OFF};

/// All lists of `length` entries from `entries`, the last place counting slowest.
pub fn lists<T: Copy>(entries: &[T], length: usize) -> Vec<Vec<T>> {
    let mut out = vec![Vec::new()];
    for _ in 0..length {
        out = entries.iter().flat_map(|entry| out.iter().map(move |list: &Vec<T>| [&list[..], &[*entry]].concat())).collect();
    }
    out
}

/// ALL sheets that serve the show, which have at least the load in every slot, each with its cost. The library marks every sheet, also
/// one that does not serve, as the plain rules do.
pub fn serving_sheets(card: &Card, show: &Show) -> Vec<(Vec<u8>, u64)> {
    let card = card.bytes();
    let bytes: Vec<u8> = (0..=show.top as u8).chain([OFF]).collect();
    let mut out = Vec::new();
    for sheet in lists(&bytes, show.modules as usize * show.slots()) {
        let marked = mark(&card, &sheet);
        if let Some(number) = show.sheet_refusal(&sheet) {
            assert_eq!(marked, Answer::refused(number), "{show:?}, sheet {sheet:?}");
            continue;
        }
        let cost = show.sheet_cost(&sheet);
        assert_eq!(marked, Answer::cost(cost), "{show:?}, sheet {sheet:?}");
        out.push((sheet, cost));
    }
    out
}

/// Each list with its cost.
fn with_costs(lists: Vec<Vec<u8>>, cost: impl Fn(&[u8]) -> u64) -> Vec<(Vec<u8>, u64)> {
    let costs: Vec<u64> = lists.iter().map(|list| cost(list)).collect();
    lists.into_iter().zip(costs).collect()
}

/// ALL on/off patterns of the show's modules and slots, whatever the loads, each with its switching cost. A pattern is a sheet with step 0
/// for on. It costs its switching alone where every step is free.
pub fn patterns(show: &Show) -> Vec<(Vec<u8>, u64)> {
    let free = Show { table: vec![0; show.table.len()], ..show.clone() };
    with_costs(lists(&[0, OFF], show.modules as usize * show.slots()), |pattern| free.sheet_cost(pattern))
}

/// ALL plans over the counts that serve the show, each with its cost, which is that of its sheet.
pub fn serving_plans(show: &Show, counts: &[u64]) -> Vec<(Vec<u8>, u64)> {
    let counts: Vec<u8> = counts.iter().map(|count| *count as u8).collect();
    let mut plans = lists(&counts, show.slots());
    plans.retain(|plan| show.plan_refusal(plan).is_none());
    with_costs(plans, |plan| show.sheet_cost(&show.sheet(plan)))
}

/// All least plans over the counts, in tie order.
pub fn least_plans(show: &Show, counts: &[u64]) -> Vec<Vec<u8>> {
    let plans = serving_plans(show, counts);
    let least = plans.iter().map(|(_, cost)| *cost).min().unwrap();
    let mut plans: Vec<Vec<u8>> = plans.into_iter().filter(|(_, cost)| *cost == least).map(|(plan, _)| plan).collect();
    plans.sort_by(|a, b| a.iter().rev().cmp(b.iter().rev()));
    plans
}
