//! "Launch."

use crate::machine::*;

pub const MADE: u32 = 0;
pub const WRONG_SIZE: u32 = 1;
pub const OUT_OF_RANGE: u32 = 2;
pub const AREAS_MEET: u32 = 3;
pub const UNFIT_VMSA: u32 = 4;

/// "Given N, the monitor's first page and count (at least 1), startup VMSA page, calling page, APIC ID, and V (0 to N)."
/// "Lowest number wins; unless 0, nothing changes."
#[allow(clippy::too_many_arguments)]
pub fn launch(
    memory: &mut [u8],
    table: &mut [u8],
    sheet: &mut [u8],
    n: usize,
    monitor_first: usize,
    monitor_count: usize,
    vmsa_page: usize,
    calling_page: usize,
    apic_id: u32,
    valid_below: usize,
) -> u32 {
    // "1 a size wrong". N is told besides; it is the table's length.
    if table.len() != n || !pages_sized(memory, table) || sheet.len() != SHEET {
        return WRONG_SIZE;
    }

    // "2 a page or V out of range, or the monitor empty". The sum can't wrap.
    let monitor_end = monitor_first as u128 + monitor_count as u128;
    if monitor_count == 0
        || monitor_end > n as u128
        || vmsa_page >= n
        || calling_page >= n
        || valid_below > n
    {
        return OUT_OF_RANGE;
    }

    // "3 two of the three areas meet"
    let monitor = monitor_first..monitor_first + monitor_count;
    if vmsa_page == calling_page || monitor.contains(&vmsa_page) || monitor.contains(&calling_page)
    {
        return AREAS_MEET;
    }

    // "4 VMPL not 1 to 3 or EFER (0xD0, eight bytes) bit 12 clear"
    if !(1..=3).contains(&vmsa_vmpl(memory, vmsa_page)) || !vmsa_svme(memory, vmsa_page) {
        return UNFIT_VMSA;
    }

    // "Monitor bytes 0x0A, VMSA 0x0D, calling page 0x79; other pages below V 0x78, the rest 0x00."
    for (page, byte) in table.iter_mut().enumerate() {
        *byte = if monitor.contains(&page) {
            0x0A
        } else if page == vmsa_page {
            0x0D
        } else if page == calling_page {
            0x79
        } else if page < valid_below {
            0x78
        } else {
            0x00
        };
    }

    // "Record 0 is live, not running, holds nothing, and takes VMPL and features from the VMSA ..; the other records are zeros"
    sheet.fill(0);
    let mut machine = Machine {
        memory,
        table,
        sheet,
    };
    machine.fill_record(0, apic_id, vmsa_page, calling_page, None);

    // "bytes 0 and 1 of the calling page become 0"
    machine.memory[PAGE * calling_page] = 0;
    machine.memory[PAGE * calling_page + 1] = 0;
    MADE
}
