//! Cards as fields and as bytes.

#[derive(Clone, Debug)]
pub struct Card {
    pub modules: u8,
    pub top: u8,
    pub up: u32,
    pub down: u32,
    pub table: Vec<u32>,
    pub loads: Vec<u16>,
}

impl Card {
    pub fn bytes(&self) -> Vec<u8> {
        let mut out = b"DLS".to_vec();
        out.extend(1u16.to_le_bytes());
        out.push(self.modules);
        out.push(self.top);
        out.extend((self.loads.len() as u16).to_le_bytes());
        out.extend(self.up.to_le_bytes());
        out.extend(self.down.to_le_bytes());
        for entry in &self.table {
            out.extend(entry.to_le_bytes());
        }
        for load in &self.loads {
            out.extend(load.to_le_bytes());
        }
        out
    }
}

/// Card A of document 01, from its hex text.
pub fn card_a() -> Vec<u8> {
    from_hex(
        "44 4C 53 01 00 03 02 03 00 03 00 00 00 02 00 00 00 01 00 00 00 \
         02 00 00 00 04 00 00 00 06 00 00 00 02 00",
    )
}

pub fn from_hex(text: &str) -> Vec<u8> {
    text.split_whitespace().map(|pair| u8::from_str_radix(pair, 16).unwrap()).collect()
}

/// A card with one slot of load `load` and the table given, for examples.
pub fn small(modules: u8, table: &[u32], loads: &[u16]) -> Card {
    Card { modules, top: (table.len() - 1) as u8, up: 3, down: 2, table: table.to_vec(), loads: loads.to_vec() }
}

/// A card whose table falls up to a step and rises from there on, more steeply with each step.
pub fn lowest_at(lowest: u8, card: Card) -> Card {
    let table = (0..=card.top).map(|step| 300 + 20 * u32::from(step.abs_diff(lowest)).pow(2)).collect();
    Card { table, ..card }
}

/// The largest card: m 200, Q 200, T 1,024, with every load `load`.
pub fn largest(load: u16) -> Card {
    Card {
        modules: 200,
        top: 200,
        up: 500_000_000,
        down: 500_000_000,
        table: (0..=200u32).map(|k| k * 5_000).collect(),
        loads: vec![load; 1_024],
    }
}
