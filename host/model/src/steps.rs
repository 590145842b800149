//! "Other steps."

use crate::machine::*;

pub const DONE: u32 = 0;
pub const REFUSED: u32 = 1;

/// "A store names VMPL, page, offset and bytes. It is done exactly when the VMPL is 1 to 3, the page below N, offset plus length at most 4,096, and the page
/// valid and permitted to that VMPL." "Otherwise, a wrong size included, .. refused without change."
pub fn store(
    memory: &mut [u8],
    table: &[u8],
    vmpl: u8,
    page: usize,
    offset: usize,
    bytes: &[u8],
) -> u32 {
    if !pages_sized(memory, table)
        || !(1..=3).contains(&vmpl)
        || page >= table.len()
        || offset as u128 + bytes.len() as u128 > PAGE as u128
        || !valid(table[page])
        || !permitted(table[page], vmpl)
    {
        return REFUSED;
    }
    let start = PAGE * page + offset;
    memory[start..start + bytes.len()].copy_from_slice(bytes);
    DONE
}

/// "A run or stop mark sets byte +2 of a live record (byte +0 is 1) to 1 or 0."
/// "Otherwise, a wrong size included, .. refused without change."
pub fn mark(sheet: &mut [u8], record: usize, running: u8) -> u32 {
    if sheet.len() != SHEET
        || record >= RECORDS
        || running > 1
        || sheet[RECORD * record + LIVE] != 1
    {
        return REFUSED;
    }
    sheet[RECORD * record + RUNNING] = running;
    DONE
}
