//! The exported functions of the monitor's core, as they are linked. The crate `monitor` has them in safe functions, and says what they mean.
//!
//! Each buffer is a pointer and a length. The pointer must be fit for that many bytes, also where the length is 0 (not null), and a buffer that can be
//! written (`*mut`) must not overlap another of the same call. Nothing else is asked: every size, number and byte has its answer.

#![warn(missing_docs)]

extern "C" {
    /// Launches a machine: 0 made, 1 a size wrong, 2 out of range, 3 areas meet, 4 VMSA unfit.
    pub fn monitor_launch(
        memory: *mut u8,
        memory_length: usize,
        table: *mut u8,
        table_length: usize,
        sheet: *mut u8,
        sheet_length: usize,
        n: usize,
        monitor_first: usize,
        monitor_count: usize,
        vmsa_page: usize,
        calling_page: usize,
        apic_id: u32,
        valid_below: usize,
    ) -> u32;

    /// Stores bytes in a page as a VMPL: 0 done, 1 refused.
    pub fn monitor_store(
        memory: *mut u8,
        memory_length: usize,
        table: *const u8,
        table_length: usize,
        vmpl: u8,
        page: usize,
        offset: usize,
        bytes: *const u8,
        bytes_length: usize,
    ) -> u32;

    /// Marks a record as running (1) or stopped (0): 0 done, 1 refused.
    pub fn monitor_mark(sheet: *mut u8, sheet_length: usize, record: usize, running: u8) -> u32;

    /// A call by the vCPU of a record: 0 handled, 1 no call, 2 gone, 3 bad machine.
    pub fn monitor_call(
        memory: *mut u8,
        memory_length: usize,
        table: *mut u8,
        table_length: usize,
        sheet: *mut u8,
        sheet_length: usize,
        registers: *mut u8,
        registers_length: usize,
        caller: usize,
    ) -> u32;

    /// Writes where the monitor is into a secrets page: 0 told, 1 base, 2 size, 3 area no multiple of 4,096, 4 past the end, 5 area inside, 6 no monitor,
    /// 7 a length wrong.
    pub fn monitor_announce(
        page: *mut u8,
        page_length: usize,
        base: u64,
        size: u64,
        area: u64,
        vmpl: u8,
    ) -> u32;

    /// Reads from a secrets page where the monitor is, into 32 bytes: the same answers.
    pub fn monitor_discover(
        page: *const u8,
        page_length: usize,
        fields: *mut u8,
        fields_length: usize,
    ) -> u32;
}
