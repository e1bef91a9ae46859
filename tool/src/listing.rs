//! The listing of document 01 ('Program and listing').
use crate::planning::Planned;
use crate::show::OFF;
use crate::words::listed;

/// A step as it is printed: `-` for off.
pub fn step(byte: u8) -> String {
    if byte == OFF {
        "-".to_string()
    } else {
        byte.to_string()
    }
}

/// The cost, the plan, and a line for each slot.
pub fn write(planned: &Planned) -> String {
    let mut out = format!("cost {}\n", planned.cost);
    out += format!("plan {}", listed(&planned.plan)).trim_end();
    out.push('\n');
    for (slot, row) in planned.show.rows(&planned.sheet).enumerate() {
        out += &format!("slot {}: {}\n", slot + 1, listed(row.iter().map(|byte| step(*byte))));
    }
    out
}
