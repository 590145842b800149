//! Document 02, 2026-01: "Tell the firmware where we are."

use crate::machine::{number, put_number, PAGE};

pub const TOLD: u32 = 0;
pub const UNALIGNED_BASE: u32 = 1;
pub const UNALIGNED_SIZE: u32 = 2;
pub const UNALIGNED_AREA: u32 = 3;
pub const PAST_END: u32 = 4;
pub const AREA_INSIDE: u32 = 5;
pub const NO_MONITOR: u32 = 6;
pub const WRONG_LENGTH: u32 = 7;

// "SVSM_BASE, SIZE, CAA, MAX_VERSION (1) and GUEST_VMPL at 0x140 to 0x15C", and after them "the reserved three bytes".
const BASE: usize = 0x140;
const SIZE: usize = 0x148;
const AREA: usize = 0x150;
const VERSION: usize = 0x158;
const GUEST_VMPL: usize = 0x15C;
const RESERVED: usize = 0x15D;
const END: usize = 0x160;

/// What the reader fills: the fields as they are laid out in the page.
pub const FIELDS: usize = END - BASE;

/// "Write SVSM_BASE, SIZE, CAA, MAX_VERSION (1) and GUEST_VMPL at 0x140 to 0x15C of a lent 4,096-byte page".
pub fn announce(page: &mut [u8], base: u64, size: u64, area: u64, vmpl: u8) -> u32 {
    // "A page of another length is 7 in both, first of all."
    if page.len() != PAGE {
        return WRONG_LENGTH;
    }

    // "The writer refuses the same ..
    if let Some(refusal) = refusal(base, size, area) {
        return refusal;
    }

    // .., and size 0 with 6, tested last, and then writes nothing."
    if size == 0 {
        return NO_MONITOR;
    }

    // ".. with the reserved three bytes 0 and all else kept". Of the VMPL nothing is asked.
    put_number(page, BASE, 8, base);
    put_number(page, SIZE, 8, size);
    put_number(page, AREA, 8, area);
    put_number(page, VERSION, 4, 1);
    put_number(page, GUEST_VMPL, 1, u64::from(vmpl));
    page[RESERVED..END].fill(0);
    TOLD
}

/// "Also supply the reader for firmware". What it finds is handed out in `fields`.
pub fn discover(page: &[u8], fields: &mut [u8]) -> u32 {
    // "A page of another length is 7 in both, first of all." Ours: so are fields of another length.
    if page.len() != PAGE || fields.len() != FIELDS {
        return WRONG_LENGTH;
    }

    // "size 0 means no monitor, whatever else stands there". Ours: its number is 6 here too.
    let size = number(page, SIZE, 8);
    if size == 0 {
        return NO_MONITOR;
    }

    let (base, area) = (number(page, BASE, 8), number(page, AREA, 8));
    if let Some(refusal) = refusal(base, size, area) {
        return refusal;
    }

    // Ours: version and VMPL as they stand; the reserved three are 0, whatever stands there.
    fields.copy_from_slice(&page[BASE..END]);
    fields[RESERVED - BASE..].fill(0);
    TOLD
}

/// "a base, size or area that is not a multiple of 4,096, a range that passes the end of 64-bit addresses, or an area inside the range is refused with 1 to 5
/// in this order (base, size, area, end, inside)"
fn refusal(base: u64, size: u64, area: u64) -> Option<u32> {
    // "a base, ..
    if !base.is_multiple_of(4096) {
        return Some(UNALIGNED_BASE);
    }
    // .. size ..
    if !size.is_multiple_of(4096) {
        return Some(UNALIGNED_SIZE);
    }
    // .. or area that is not a multiple of 4,096, ..
    if !area.is_multiple_of(4096) {
        return Some(UNALIGNED_AREA);
    }

    // .. a range that passes the end of 64-bit addresses, .." Its last byte may be the last of all. The sum can't wrap.
    let end = u128::from(base) + u128::from(size);
    if end > 1 << 64 {
        return Some(PAST_END);
    }

    // ".. or an area inside the range"
    if (u128::from(base)..end).contains(&u128::from(area)) {
        return Some(AREA_INSIDE);
    }
    None
}
