//! The practice cards of document 02, section 1, written out plainly.
use crate::boundary::{Answer, Outcome};
use crate::cards::Card;
use crate::plain;

/// The stated generator: each draw is the new state.
struct Draws {
    state: u32,
}

impl Draws {
    fn draw(&mut self) -> u32 {
        let left = self.state ^ (self.state << 13);
        let right = left ^ (left >> 17);
        self.state = right ^ (right << 5);
        self.state
    }

    /// A draw modulo a number.
    fn modulo(&mut self, number: u32) -> u32 {
        self.draw() % number
    }
}

/// The practice card of a start from 1 on, as fields.
pub fn card(start: u32) -> Card {
    assert_ne!(start, 0, "start 0 has no card");
    let mut draws = Draws { state: start };
    let modules = 1 + draws.modulo(200);
    let top = 1 + draws.modulo(200);
    let slots = draws.modulo(65);
    let up = draws.modulo(1_001);
    let down = draws.modulo(1_001);
    let table = table(&mut draws, top);
    let loads = (0..slots).map(|_| draws.modulo(modules * top + 1) as u16).collect();
    Card { modules: modules as u8, top: top as u8, up, down, table, loads }
}

/// F(0), and then F(k + 1), which is F(k) and the k-th difference.
fn table(draws: &mut Draws, top: u32) -> Vec<u32> {
    let mut table = vec![draws.modulo(1_001)];
    let mut difference = 0;
    for k in 0..top as usize {
        difference = if k == 0 { draws.modulo(11) } else { difference + draws.modulo(4) };
        table.push(table[k] + difference);
    }
    table
}

/// What the call must answer: 14 for start 0 before 10 for a short area.
pub fn practice_card(start: u32, area: &[u8]) -> Outcome {
    let refused = |number| Outcome { answer: Answer::refused(number), buffers: vec![area.to_vec()] };
    if start == 0 {
        return refused(14);
    }
    let card = card(start).bytes();
    if area.len() < card.len() {
        return refused(10);
    }
    Outcome { answer: Answer::cost(0), buffers: vec![plain::written(&card, area)] }
}
