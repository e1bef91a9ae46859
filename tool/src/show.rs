//! The fields of a show card (document 01, 'The show card').

/// The byte of a sheet for a module that is off.
pub const OFF: u8 = 255;

/// The first bytes of every card.
pub const MARK: &[u8; 3] = b"DLS";

/// The version of the cards that are written.
pub const VERSION: u16 = 1;

/// The length of a card before its table.
const HEAD: usize = 17;

/// The fields of a card but for mark and version, as numbers. The slots are as many as the loads, and the table has one entry more
/// than the top step. It may have none where the top step is outside 1 to 200: no card of such a top step is accepted.
#[derive(Clone, Debug, PartialEq, Eq)]
pub struct Show {
    pub modules: u8,
    pub top: u8,
    pub warm_up: u32,
    pub cool_down: u32,
    pub table: Vec<u32>,
    pub loads: Vec<u16>,
}

/// The fields before the table, where the card has that many bytes.
#[derive(Clone, Copy, Debug, PartialEq, Eq)]
pub struct Head {
    pub version: u16,
    pub modules: u8,
    pub top: u8,
    pub slots: u16,
    pub warm_up: u32,
    pub cool_down: u32,
}

fn two(bytes: &[u8]) -> u16 {
    u16::from_le_bytes([bytes[0], bytes[1]])
}

fn four(bytes: &[u8]) -> u32 {
    u32::from_le_bytes([bytes[0], bytes[1], bytes[2], bytes[3]])
}

impl Head {
    /// Nothing where the card is too short or has another mark.
    pub fn read(card: &[u8]) -> Option<Head> {
        if card.len() < HEAD || !card.starts_with(MARK) {
            return None;
        }
        Some(Head {
            version: two(&card[3..]),
            modules: card[5],
            top: card[6],
            slots: two(&card[7..]),
            warm_up: four(&card[9..]),
            cool_down: four(&card[13..]),
        })
    }

    /// The number of bytes that a card with these fields has.
    pub fn card_length(&self) -> usize {
        self.table_end() + 2 * usize::from(self.slots)
    }

    fn table_end(&self) -> usize {
        HEAD + 4 * (usize::from(self.top) + 1)
    }
}

impl Show {
    /// The fields of a card that has the mark, version 1 and just the length that its fields say. Their bounds are not looked at: a
    /// card that the library refuses for one of them can be read back too.
    pub fn read(card: &[u8]) -> Option<Show> {
        let head = Head::read(card)?;
        if head.version != VERSION || card.len() != head.card_length() {
            return None;
        }
        let (table, loads) = card[HEAD..].split_at(head.table_end() - HEAD);
        Some(Show {
            modules: head.modules,
            top: head.top,
            warm_up: head.warm_up,
            cool_down: head.cool_down,
            table: table.chunks_exact(4).map(four).collect(),
            loads: loads.chunks_exact(2).map(two).collect(),
        })
    }

    /// The card with these fields.
    pub fn card(&self) -> Vec<u8> {
        let slots = u16::try_from(self.loads.len()).expect("the slots have two bytes");
        let whole = self.table.len() == usize::from(self.top) + 1;
        assert!(whole || self.has_no_table(), "the table has an entry for each step");
        let mut card = MARK.to_vec();
        card.extend(VERSION.to_le_bytes());
        card.extend([self.modules, self.top]);
        card.extend(slots.to_le_bytes());
        card.extend(self.warm_up.to_le_bytes());
        card.extend(self.cool_down.to_le_bytes());
        self.table.iter().for_each(|entry| card.extend(entry.to_le_bytes()));
        self.loads.iter().for_each(|load| card.extend(load.to_le_bytes()));
        card
    }

    /// Whether there is no table, because the top step is outside 1 to 200.
    fn has_no_table(&self) -> bool {
        self.table.is_empty() && !(1..=200).contains(&self.top)
    }

    pub fn slots(&self) -> usize {
        self.loads.len()
    }

    /// The sheet's bytes slot by slot. A rack of no modules has no bytes.
    pub fn rows<'a>(&self, sheet: &'a [u8]) -> impl Iterator<Item = &'a [u8]> {
        sheet.chunks(usize::from(self.modules.max(1)))
    }

    /// The light of each slot of a sheet: the sum of the steps of its active modules.
    pub fn lights<'a>(&self, sheet: &'a [u8]) -> impl Iterator<Item = u64> + 'a {
        self.rows(sheet).map(|row| row.iter().filter(|step| **step != OFF).map(|step| u64::from(*step)).sum())
    }

    /// The rack, the slots and the prices in words.
    pub fn summary(&self) -> String {
        format!(
            "{}, top step {}, {}, warm-up {}, cool-down {}",
            crate::words::several(self.modules.into(), "module"),
            self.top,
            crate::words::several(self.slots() as u64, "slot"),
            crate::words::grouped(self.warm_up.into()),
            crate::words::grouped(self.cool_down.into()),
        )
    }
}
