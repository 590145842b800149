//! "The machine as it is lent": sizes, numbers in bytes, table bytes, records.

/// "Page p starts at gPA 4,096 x p."
pub const PAGE: usize = 4096;
/// "512 bytes, 16 records of 32".
pub const RECORDS: usize = 16;
pub const RECORD: usize = 32;
pub const SHEET: usize = RECORDS * RECORD;

// "Bits 2:0 owner"; 6 and 7 are nobody's.
pub const PLAIN: u8 = 0;
pub const CALLING: u8 = 1;
pub const MONITOR: u8 = 2;
pub const POOL_FREE: u8 = 3;
pub const POOL_IN_USE: u8 = 4;
pub const VMSA: u8 = 5;

// Where a record has what.
pub const LIVE: usize = 0;
pub const VMPL: usize = 1;
pub const RUNNING: usize = 2;
pub const HOLDS: usize = 3;
pub const APIC_ID: usize = 4;
pub const VMSA_PAGE: usize = 8;
pub const CALLING_PAGE: usize = 12;
pub const POOL_PAGE: usize = 16;
pub const ZEROS: usize = 20;
pub const FEATURES: usize = 24;

// Where a VMSA has what.
const VMSA_VMPL: usize = 0xCA;
const VMSA_EFER: usize = 0xD0;
const VMSA_FEATURES: usize = 0x3B0;
/// EFER bit 12.
const SVME: u64 = 1 << 12;

/// "Numbers in memory are little-endian."
pub fn number(bytes: &[u8], at: usize, width: usize) -> u64 {
    let low_first = bytes[at..at + width].iter();
    low_first
        .rev()
        .fold(0, |sum, &byte| sum * 256 + u64::from(byte))
}

pub fn put_number(bytes: &mut [u8], at: usize, width: usize, value: u64) {
    bytes[at..at + width].copy_from_slice(&value.to_le_bytes()[..width]);
}

pub fn owner(byte: u8) -> u8 {
    byte & 0b111
}

/// "Bit 3 valid."
pub fn valid(byte: u8) -> bool {
    byte & 0b1000 != 0
}

/// "Bits 4, 5, 6 full permission for VMPL 1, 2, 3."
pub fn permitted(byte: u8, vmpl: u8) -> bool {
    match vmpl {
        1 => byte & 0x10 != 0,
        2 => byte & 0x20 != 0,
        3 => byte & 0x40 != 0,
        _ => false,
    }
}

/// "A change of owner leaves bits 7:3."
pub fn with_owner(byte: u8, owner: u8) -> u8 {
    (byte & 0b1111_1000) | owner
}

pub fn with_valid(byte: u8, valid: bool) -> u8 {
    (byte & 0b1111_0111) | if valid { 0b1000 } else { 0 }
}

/// "'Grant c' sets the permissions of VMPL 1 to c and leaves the rest."
pub fn granted(byte: u8, c: u8) -> u8 {
    match c {
        1 => byte | 0x10,
        2 => byte | 0x30,
        3 => byte | 0x70,
        _ => unreachable!("outcome 3 has ruled out a caller of VMPL {c}"),
    }
}

/// "'Revoke' clears all three."
pub fn revoked(byte: u8) -> u8 {
    byte & 0b1000_1111
}

/// N, the table's length, is from 3 to 8,192, and memory is 4,096 x N bytes.
pub fn pages_sized(memory: &[u8], table: &[u8]) -> bool {
    (3..=8192).contains(&table.len()) && memory.len() == PAGE * table.len()
}

/// What is lent to a call, the registers aside.
pub struct Machine<'a> {
    pub memory: &'a mut [u8],
    pub table: &'a mut [u8],
    pub sheet: &'a mut [u8],
}

impl Machine<'_> {
    /// The page of a gPA where it is below N. The whole gPA counts, all 64 bits.
    pub fn page_of(&self, gpa: u64) -> Option<usize> {
        self.page_numbered(gpa / PAGE as u64)
    }

    pub fn page_numbered(&self, page: u64) -> Option<usize> {
        if page < self.table.len() as u64 {
            Some(page as usize)
        } else {
            None
        }
    }

    pub fn byte(&mut self, record: usize, at: usize) -> &mut u8 {
        &mut self.sheet[RECORD * record + at]
    }

    pub fn live(&self, record: usize) -> bool {
        self.sheet[RECORD * record + LIVE] == 1
    }

    pub fn running(&self, record: usize) -> bool {
        self.sheet[RECORD * record + RUNNING] == 1
    }

    pub fn holds(&self, record: usize) -> bool {
        self.sheet[RECORD * record + HOLDS] == 1
    }

    pub fn vmpl(&self, record: usize) -> u8 {
        self.sheet[RECORD * record + VMPL]
    }

    pub fn apic_id(&self, record: usize) -> u32 {
        self.field(record, APIC_ID) as u32
    }

    pub fn vmsa_page(&self, record: usize) -> usize {
        self.field(record, VMSA_PAGE) as usize
    }

    pub fn calling_page(&self, record: usize) -> usize {
        self.field(record, CALLING_PAGE) as usize
    }

    pub fn pool_page(&self, record: usize) -> usize {
        self.field(record, POOL_PAGE) as usize
    }

    pub fn features(&self, record: usize) -> u64 {
        number(self.sheet, RECORD * record + FEATURES, 8)
    }

    /// A field of four bytes.
    fn field(&self, record: usize, at: usize) -> u64 {
        number(self.sheet, RECORD * record + at, 4)
    }

    pub fn put_field(&mut self, record: usize, at: usize, value: u64) {
        put_number(self.sheet, RECORD * record + at, 4, value);
    }

    /// Record 0 or one that is made, from the VMSA page, not running. "Features: record 0 only, else 0"; `held` is the pool page if one is held.
    pub fn fill_record(
        &mut self,
        record: usize,
        apic_id: u32,
        vmsa: usize,
        calling: usize,
        held: Option<usize>,
    ) {
        let vmpl = vmsa_vmpl(self.memory, vmsa);
        let features = vmsa_features(self.memory, vmsa);
        self.clear_record(record);
        *self.byte(record, LIVE) = 1;
        *self.byte(record, VMPL) = vmpl;
        self.put_field(record, APIC_ID, u64::from(apic_id));
        self.put_field(record, VMSA_PAGE, vmsa as u64);
        self.put_field(record, CALLING_PAGE, calling as u64);
        if let Some(page) = held {
            *self.byte(record, HOLDS) = 1;
            self.put_field(record, POOL_PAGE, page as u64);
        }
        if record == 0 {
            put_number(self.sheet, FEATURES, 8, features);
        }
    }

    pub fn clear_record(&mut self, record: usize) {
        self.sheet[RECORD * record..RECORD * (record + 1)].fill(0);
    }

    /// The lowest page of owner 3.
    pub fn lowest_free_pool_page(&self) -> Option<usize> {
        self.table.iter().position(|&byte| owner(byte) == POOL_FREE)
    }

    /// What outcome 3 names of the sheet, but for the caller: "record 0 not live; a live, running or holding byte above 1; a live record with VMPL outside
    /// 1 to 3 or a page (the pool page if held) at or above N".
    pub fn bad_sheet(&self) -> bool {
        let n = self.table.len();
        let bad_record = |record: usize| {
            let start = RECORD * record;
            let marks = [LIVE, RUNNING, HOLDS];
            let bad_mark = marks.iter().any(|&at| self.sheet[start + at] > 1);
            let bad_live = self.live(record)
                && (!(1..=3).contains(&self.vmpl(record))
                    || self.vmsa_page(record) >= n
                    || self.calling_page(record) >= n
                    || (self.holds(record) && self.pool_page(record) >= n));
            bad_mark || bad_live
        };
        !self.live(0) || (0..RECORDS).any(bad_record)
    }
}

/// "VMPL .. from the VMSA (offset 0xCA one byte ..)".
pub fn vmsa_vmpl(memory: &[u8], page: usize) -> u8 {
    memory[PAGE * page + VMSA_VMPL]
}

/// ".. features .. (0x3B0 eight bytes)".
pub fn vmsa_features(memory: &[u8], page: usize) -> u64 {
    number(memory, PAGE * page + VMSA_FEATURES, 8)
}

/// "EFER (0xD0, eight bytes) bit 12".
pub fn vmsa_svme(memory: &[u8], page: usize) -> bool {
    number(memory, PAGE * page + VMSA_EFER, 8) & SVME != 0
}

pub fn clear_vmsa_svme(memory: &mut [u8], page: usize) {
    let efer = number(memory, PAGE * page + VMSA_EFER, 8);
    put_number(memory, PAGE * page + VMSA_EFER, 8, efer & !SVME);
}
