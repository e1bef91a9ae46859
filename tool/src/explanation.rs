//! Where the points of a sheet went (document 02, section 7), in sentences for a candidate.
use crate::calls::{self, Points};
use crate::planning::{Planned, Planner, LEAST};
use crate::refusal::Refusal;

/// A sheet's cost, the least cost, and the points between the two in their three parts.
#[derive(Clone, Copy, Debug, PartialEq, Eq)]
pub struct Explanation {
    pub cost: u64,
    pub least: u64,
    pub points: Points,
}

/// Explains a sheet beside the exact plan of its card. The number has to be marking's, and the three parts together the points above the
/// least cost, or 0 with a refusal: the library's contract says so, and a machine on which it does not hold must not explain a mark.
pub fn of(planned: &Planned, card: &[u8], sheet: &[u8]) -> Result<Explanation, Refusal> {
    let points = calls::explain(card, sheet, &mut Planner::Exact.work(&planned.show));
    let marked = calls::mark(card, sheet);
    let asked = marked.map_or_else(|refusal| (refusal.number(), 0), |cost| (0, cost - planned.cost));
    assert_eq!((points.number, points.together()), asked, "the three parts are not the points above the least cost");
    Ok(Explanation { cost: marked?, least: planned.cost, points })
}

/// The sentence for no points, or the other one with so many points in the place of `{}`, in the digits that begin the line.
fn either(number: u64, none: &str, some: &str) -> String {
    match number {
        0 => none.to_string(),
        1 => some.replace("{}", "1 point"),
        _ => some.replace("{}", &format!("{number} points")),
    }
}

fn above(number: u64) -> String {
    let some = "the sheet costs {} more than the least, for spread, swaps and counts together";
    either(number, "the sheet costs the least", some)
}

/// With the modules held that are active in each slot, this part is what the best steps save.
fn spread(number: u64) -> String {
    let none = "with the same modules active in the same slots, no other steps give enough light for less";
    either(number, none, "with the same modules active in the same slots, other steps would give enough light for {} less")
}

/// With the counts held, this part is what the best choice of modules saves on switching.
fn swaps(number: u64) -> String {
    let none = "with as many modules active in each slot as here, no other choice of which ones saves on warm-ups and cool-downs";
    let some =
        "with as many modules active in each slot as here, another choice of which ones would save {} of warm-ups and cool-downs";
    either(number, none, some)
}

/// The cheapest sheet with the same counts costs what they cost as a plan, and this part is what that is above the least cost.
fn counts(number: u64) -> String {
    let none = "the cheapest sheet with as many active modules in each slot as this one costs the least";
    let some = "even the cheapest sheet with as many active modules in each slot as this one costs {} more than the least";
    either(number, none, some)
}

impl Explanation {
    /// A line for each number, with a sentence that holds of it whatever the other numbers are.
    pub fn text(&self) -> String {
        let beyond = self.cost - self.least;
        let lines = [
            ("cost", self.cost, "this is what the sheet costs".to_string()),
            ("least", self.least, LEAST.to_string()),
            ("above", beyond, above(beyond)),
            ("spread", self.points.spread, spread(self.points.spread)),
            ("swaps", self.points.swaps, swaps(self.points.swaps)),
            ("counts", self.points.counts, counts(self.points.counts)),
        ];
        lines.iter().map(|(name, number, sentence)| format!("{name} {number}: {sentence}\n")).collect()
    }
}
