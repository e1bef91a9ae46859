//! Document 01 with section 2 of document 02, written out plainly, with no care for speed: what every call must answer. Nothing here
//! uses that a table is convex.
use crate::boundary::{Answer, Outcome, Planner};

/// The numbers of an accepted card.
#[derive(Clone, Debug)]
pub struct Show {
    pub modules: u64,
    pub top: u64,
    pub up: u64,
    pub down: u64,
    pub table: Vec<u64>,
    pub loads: Vec<u64>,
}

fn number(bytes: &[u8]) -> u64 {
    bytes.iter().rev().fold(0, |value, byte| value * 256 + u64::from(*byte))
}

/// Every refusal of 1 to 8 that can be told to apply, lowest first, or the show.
pub fn read_card(card: &[u8]) -> Result<Show, u64> {
    if card.len() < 17 || card[..3] != [0x44, 0x4C, 0x53] {
        return Err(1);
    }
    if number(&card[3..5]) != 1 {
        return Err(2);
    }
    let (modules, top) = (u64::from(card[5]), u64::from(card[6]));
    if !(1..=200).contains(&modules) || !(1..=200).contains(&top) {
        return Err(3);
    }
    let slots = number(&card[7..9]) as usize;
    if slots > 1_024 {
        return Err(4);
    }
    let entries = top as usize + 1;
    if card.len() != 17 + 4 * entries + 2 * slots {
        return Err(5);
    }
    let (up, down) = (number(&card[9..13]), number(&card[13..17]));
    let table: Vec<u64> = card[17..17 + 4 * entries].chunks(4).map(number).collect();
    let loads: Vec<u64> = card[17 + 4 * entries..].chunks(2).map(number).collect();
    if up > 500_000_000 || down > 500_000_000 || table.iter().any(|entry| *entry > 1_000_000) {
        return Err(6);
    }
    if table.windows(3).any(|w| w[0] + w[2] < 2 * w[1]) {
        return Err(7);
    }
    if loads.iter().any(|load| *load > modules * top) {
        return Err(8);
    }
    Ok(Show { modules, top, up, down, table, loads })
}

pub const OFF: u8 = 255;

impl Show {
    pub fn slots(&self) -> usize {
        self.loads.len()
    }

    /// Both prices: what one module costs from off to off.
    pub fn switching(&self) -> u64 {
        self.up + self.down
    }

    pub fn falls(&self) -> bool {
        self.table.windows(2).any(|w| w[1] < w[0])
    }

    /// G(k), the least F(j) for j from k to Q.
    pub fn least_from(&self, step: u64) -> u64 {
        (step..=self.top).map(|j| self.table[j as usize]).min().expect("a step is at most Q")
    }

    /// The active step of step k: the smallest j from k to Q with F(j) = G(k).
    pub fn active_step(&self, step: u64) -> u64 {
        let least = self.least_from(step);
        (step..=self.top).find(|j| self.table[*j as usize] == least).expect("the least is one of them")
    }

    /// 'Running cost of a count' with G in place of F, or nothing where the pair cannot be served.
    pub fn running_cost(&self, count: u64, load: u64) -> Option<u64> {
        if count == 0 {
            return (load == 0).then_some(0);
        }
        if load > count * self.top {
            return None;
        }
        let (step, rest) = (load / count, load % count);
        let second = if rest == 0 { 0 } else { rest * self.least_from(step + 1) };
        Some((count - rest) * self.least_from(step) + second)
    }

    /// The counts allowed to a planner.
    pub fn counts(&self, coarse: bool) -> Vec<u64> {
        if coarse {
            allowed(self.modules)
        } else {
            (0..=self.modules).collect()
        }
    }

    /// The sheet of a plan that serves.
    pub fn sheet(&self, plan: &[u8]) -> Vec<u8> {
        let mut out = Vec::new();
        for (count, load) in plan.iter().zip(&self.loads) {
            let count = u64::from(*count);
            for module in 0..self.modules {
                out.push(if module >= count {
                    OFF
                } else {
                    self.active_step(load / count + u64::from(module < load % count)) as u8
                });
            }
        }
        out
    }

    /// The light of each slot of a sheet that has a byte for each slot and module: the sum of the steps of the active modules.
    pub fn lights(&self, sheet: &[u8]) -> Vec<u64> {
        let light = |row: &[u8]| row.iter().filter(|byte| **byte != OFF).map(|byte| u64::from(*byte)).sum();
        sheet.chunks(self.modules as usize).map(light).collect()
    }

    /// The counts of such a sheet: how many modules are active in each slot.
    pub fn active(&self, sheet: &[u8]) -> Vec<u8> {
        let count = |row: &[u8]| row.iter().filter(|byte| **byte != OFF).count() as u8;
        sheet.chunks(self.modules as usize).map(count).collect()
    }

    /// Which of 11, 12, 13 a sheet gets first, if any. 13 is for too little light only.
    pub fn sheet_refusal(&self, sheet: &[u8]) -> Option<u64> {
        let modules = self.modules as usize;
        if sheet.len() != modules * self.slots() {
            return Some(11);
        }
        if sheet.iter().any(|byte| *byte != OFF && u64::from(*byte) > self.top) {
            return Some(12);
        }
        self.lights(sheet).iter().zip(&self.loads).any(|(light, load)| light < load).then_some(13)
    }

    /// A sheet's cost, module by module, with F of each step as it stands in the sheet.
    pub fn sheet_cost(&self, sheet: &[u8]) -> u64 {
        let modules = self.modules as usize;
        let mut cost = 0;
        for module in 0..modules {
            let mut before = OFF;
            for slot in 0..=self.slots() {
                let now = if slot < self.slots() { sheet[slot * modules + module] } else { OFF };
                if before == OFF && now != OFF {
                    cost += self.up;
                }
                if before != OFF && now == OFF {
                    cost += self.down;
                }
                if now != OFF {
                    cost += self.table[now as usize];
                }
                before = now;
            }
        }
        cost
    }

    /// Which of 11, 12, 13 a handed-in plan gets first, if any.
    pub fn plan_refusal(&self, plan: &[u8]) -> Option<u64> {
        if plan.len() != self.slots() {
            return Some(11);
        }
        if plan.iter().any(|count| u64::from(*count) > self.modules) {
            return Some(12);
        }
        let unserved = |(count, load): (&u8, &u64)| self.running_cost(u64::from(*count), *load).is_none();
        plan.iter().zip(&self.loads).any(unserved).then_some(13)
    }

    /// The least plan by a plain dynamic program over pairs of counts, with the tie rule: the smallest last count, then the one
    /// before it, and so on back.
    pub fn least_plan(&self, counts: &[u64]) -> (u64, Vec<u8>) {
        let switch = |from: u64, to: u64| self.switching() * to.saturating_sub(from);
        let mut columns: Vec<Vec<Option<u64>>> = Vec::new();
        for (slot, load) in self.loads.iter().enumerate() {
            let column = counts
                .iter()
                .map(|to| {
                    let run = self.running_cost(*to, *load)?;
                    let before = match slot {
                        0 => Some(switch(0, *to)),
                        _ => counts
                            .iter()
                            .zip(&columns[slot - 1])
                            .filter_map(|(from, cost)| cost.map(|cost| cost + switch(*from, *to)))
                            .min(),
                    };
                    before.map(|cost| cost + run)
                })
                .collect();
            columns.push(column);
        }
        let mut plan = vec![0; self.slots()];
        let mut least = 0;
        let mut next = 0;
        for slot in (0..self.slots()).rev() {
            let reach = |place: usize| columns[slot][place].map(|cost| cost + if slot + 1 == self.slots() { 0 } else { switch(counts[place], next) });
            let best = (0..counts.len()).filter_map(reach).min().expect("the full rack serves");
            let place = (0..counts.len()).find(|place| reach(*place) == Some(best)).unwrap();
            if slot + 1 == self.slots() {
                least = best;
            }
            next = counts[place];
            plan[slot] = next as u8;
        }
        (least, plan)
    }
}

/// 'Coarse': 0, each power of two up to m, and m.
pub fn allowed(modules: u64) -> Vec<u64> {
    let mut counts = vec![0, modules];
    counts.extend((0..8).map(|power| 1u64 << power).filter(|count| *count <= modules));
    counts.sort_unstable();
    counts.dedup();
    counts
}

/// 'Rounded count', with its refusals.
pub fn rounded_count(count: u64, modules: u64) -> Answer {
    if !(1..=200).contains(&modules) {
        return Answer::refused(3);
    }
    match allowed(modules).into_iter().find(|allowed| *allowed >= count) {
        Some(rounded) => Answer::cost(rounded),
        None => Answer::refused(12),
    }
}

pub fn check_card(card: &[u8]) -> Answer {
    match read_card(card) {
        Ok(_) => Answer::cost(0),
        Err(number) => Answer::refused(number),
    }
}

pub fn running_cost(card: &[u8], count: u64, load: u64) -> Answer {
    let show = match read_card(card) {
        Ok(show) => show,
        Err(number) => return Answer::refused(number),
    };
    if count > show.modules {
        return Answer::refused(12);
    }
    show.running_cost(count, load).map_or(Answer::refused(13), Answer::cost)
}

pub fn mark(card: &[u8], sheet: &[u8]) -> Answer {
    match read_card(card) {
        Err(number) => Answer::refused(number),
        Ok(show) => match show.sheet_refusal(sheet) {
            Some(number) => Answer::refused(number),
            None => Answer::cost(show.sheet_cost(sheet)),
        },
    }
}

/// The bytes asked for hold the answer, all further bytes are as they were.
pub fn written(answer: &[u8], entry: &[u8]) -> Vec<u8> {
    [answer, &entry[answer.len()..]].concat()
}

pub fn sheet(card: &[u8], plan: &[u8], sheet: &[u8]) -> Outcome {
    let refused = |number| Outcome { answer: Answer::refused(number), buffers: vec![sheet.to_vec()] };
    let show = match read_card(card) {
        Ok(show) => show,
        Err(number) => return refused(number),
    };
    if sheet.len() < show.modules as usize * show.slots() {
        return refused(10);
    }
    if let Some(number) = show.plan_refusal(plan) {
        return refused(number);
    }
    let made = show.sheet(plan);
    Outcome { answer: Answer::cost(show.sheet_cost(&made)), buffers: vec![written(&made, sheet)] }
}

/// A planner that refuses leaves both areas as they were.
pub fn unplanned(number: u64, plan: &[u8], work: &[u8]) -> Outcome {
    Outcome { answer: Answer::refused(number), buffers: vec![plan.to_vec(), work.to_vec()] }
}

/// What a planner over these counts does with an accepted card, if it asks for so many bytes of work.
pub fn plan_over(show: &Show, counts: &[u64], asked: usize, plan: &[u8], work: &[u8]) -> Outcome {
    if plan.len() < show.slots() || work.len() < asked {
        return unplanned(10, plan, work);
    }
    let (cost, least) = show.least_plan(counts);
    Outcome { answer: Answer::cost(cost), buffers: vec![written(&least, plan), written(&vec![0; asked], work)] }
}

pub fn plan(planner: Planner, card: &[u8], plan: &[u8], work: &[u8]) -> Outcome {
    let show = match read_card(card) {
        Ok(show) => show,
        Err(number) => return unplanned(number, plan, work),
    };
    let coarse = planner == Planner::Coarse;
    let asked = if coarse { 10 * show.slots() } else { (show.modules as usize + 1) * show.slots() };
    plan_over(&show, &show.counts(coarse), asked, plan, work)
}
