//! The catalogue module's table (document 02, section 5). The library's call gives it; nothing of its rule stands here.
use crate::calls;
use crate::refusal::Refusal;
use crate::show::Show;

/// The bytes of the longest table, which has top step 200.
pub const LONGEST: usize = 4 * (200 + 1);

/// F(0) to F(top) of the catalogue module. A card with this table has to be accepted: the library's contract says so, and a machine on
/// which it does not hold must not hand out a table.
pub fn table(top: u64) -> Result<Vec<u32>, Refusal> {
    let mut bytes = [0; LONGEST];
    let cost = calls::catalogue_table(top, &mut bytes)?;
    let entries = bytes.chunks_exact(4).map(|entry| u32::from_le_bytes([entry[0], entry[1], entry[2], entry[3]]));
    let table: Vec<u32> = entries.take(top as usize + 1).collect();
    let show = Show { modules: 1, top: top as u8, warm_up: 0, cool_down: 0, table: table.clone(), loads: Vec::new() };
    let accepted = calls::check_card(&show.card()).is_ok();
    assert!(cost == 0 && accepted, "the catalogue module's table of top {top} is not accepted");
    Ok(table)
}
