//! Rows: a call on a machine, and all that it leaves, in numbers that stand in document 01.

// Codes that document 01 gives a name.
pub const ADDRESS: u64 = 0x8000_0003;
pub const PARAMETER: u64 = 0x8000_0005;
pub const REQUEST: u64 = 0x8000_0006;

/// Bytes and where they start.
pub type At = (usize, &'static [u8]);

/// A call and all that it leaves. What a row does not name stays as it was, but for the pending byte and RAX of a call that is handled.
#[derive(Clone, Copy)]
pub struct Row {
    /// What it is about, where it can be in the words of document 01.
    pub says: &'static str,
    /// N. The last four pages are the monitor's, before them VMSA and calling page, as in the sixteen.
    pub pages: usize,
    // What is written before the call.
    pub memory_before: &'static [At],
    pub table_before: &'static [At],
    pub sheet_before: &'static [At],
    pub pending: u8,
    pub caller: usize,
    /// RAX, RCX, RDX and R8.
    pub asks: [u64; 4],
    pub exit_reason: u64,
    pub outcome: u32,
    pub code: u64,
    /// RCX after the call, where it changes.
    pub rcx: Option<u64>,
    // What the call changes.
    pub memory: &'static [At],
    pub table: &'static [At],
    pub sheet: &'static [At],
}

impl Row {
    /// A call by record 0 that is handled, with the code 0, and changes nothing.
    pub const fn success(says: &'static str, asks: [u64; 4]) -> Row {
        Row {
            says,
            pages: 16,
            memory_before: &[],
            table_before: &[],
            sheet_before: &[],
            pending: 1,
            caller: 0,
            asks,
            exit_reason: 0x403,
            outcome: 0,
            code: 0,
            rcx: None,
            memory: &[],
            table: &[],
            sheet: &[],
        }
    }

    pub const fn refused(says: &'static str, asks: [u64; 4], code: u64) -> Row {
        Row {
            code,
            ..Row::success(says, asks)
        }
    }

    /// Panics unless the row holds of it on a machine just launched.
    pub fn holds(&self, subject: &Subject) {
        self.holds_next(subject, &mut subject.launched(self.pages));
    }

    /// Makes the call on a machine as it is.
    fn holds_next(&self, subject: &Subject, machine: &mut Machine) {
        put(&mut machine.memory, self.memory_before);
        put(&mut machine.table, self.table_before);
        put(&mut machine.sheet, self.sheet_before);
        let calling = machine.calling_place(self.caller);
        machine.memory[calling] = self.pending;
        let [rax, rcx, rdx, r8] = self.asks;
        machine.set_registers([rax, rcx, rdx, r8, 0x1234, self.exit_reason]);
        let mut expected = machine.clone();
        if self.outcome == 0 {
            let rcx = self.rcx.unwrap_or(rcx);
            expected.set_registers([self.code, rcx, rdx, r8, 0x1234, self.exit_reason]);
            expected.memory[calling] = 0;
        }
        put(&mut expected.memory, self.memory);
        put(&mut expected.table, self.table);
        put(&mut expected.sheet, self.sheet);
        let row = format!("{} {:x?}", self.says, self.asks);
        subject.leaves(machine, self.caller, self.outcome, &expected, &row);
    }
}

/// What the rows are tried on: the core or the model.
pub struct Subject {
    /// Launches a machine, given V. The areas are where a row says; the APIC ID is 0x01020304.
    pub launch: fn(&mut Machine, usize) -> u32,
    pub call: fn(&mut Machine, usize) -> u32,
}

impl Subject {
    /// V is 8 of sixteen pages, 30 less than N of more.
    pub fn launched(&self, pages: usize) -> Machine {
        let mut machine = Machine::blank(pages);
        let valid_below = if pages == 16 { 8 } else { pages - 30 };
        assert_eq!((self.launch)(&mut machine, valid_below), 0);
        machine
    }

    /// Makes the call, and compares the outcome and every byte.
    pub fn leaves(
        &self,
        machine: &mut Machine,
        caller: usize,
        outcome: u32,
        expected: &Machine,
        row: &str,
    ) {
        assert_eq!((self.call)(machine, caller), outcome, "{row}");
        assert_eq!(machine.registers, expected.registers, "{row}");
        // Memory is long: it is compared as a whole, and looked through only to tell where it differs.
        if machine.memory != expected.memory {
            let mut pairs = machine.memory.iter().zip(&expected.memory);
            let at = pairs.position(|(is, must_be)| is != must_be).unwrap();
            panic!("byte {at:#x} of memory, after {row}");
        }
        assert_eq!(machine.table, expected.table, "{row}");
        assert_eq!(machine.sheet, expected.sheet, "{row}");
    }

    /// Panics unless a call is handled with this code and, beside RAX and the pending byte, changes just what `changes` does.
    pub fn handles(
        &self,
        machine: &mut Machine,
        caller: usize,
        asks: [u64; 4],
        code: u64,
        changes: impl Fn(&mut Machine),
    ) {
        machine.ask(caller, asks);
        let mut expected = machine.clone();
        expected.registers[..8].copy_from_slice(&code.to_le_bytes());
        expected.memory[machine.calling_place(caller)] = 0;
        changes(&mut expected);
        let row = format!("{asks:x?} by record {caller}");
        self.leaves(machine, caller, 0, &expected, &row);
    }

    /// Panics unless the rows hold of it, one after the other on one machine.
    pub fn keeps(&self, rows: &[Row]) {
        let mut machine = self.launched(16);
        for row in rows {
            row.holds_next(self, &mut machine);
        }
    }
}

/// A machine as it is lent.
#[derive(Clone, PartialEq)]
pub struct Machine {
    pub memory: Vec<u8>,
    pub table: Vec<u8>,
    pub sheet: Vec<u8>,
    pub registers: Vec<u8>,
}

impl Machine {
    /// Blank pages, but for what launch wants of the VMSA: VMPL 1, and EFER bit 12.
    fn blank(pages: usize) -> Machine {
        let mut memory = vec![0; 4096 * pages];
        memory[4096 * (pages - 5) + 0xCA] = 1;
        memory[4096 * (pages - 5) + 0xD1] = 0x10;
        Machine {
            memory,
            table: vec![0; pages],
            sheet: vec![0; 512],
            registers: vec![0; 48],
        }
    }

    /// Writes the registers and the pending byte of a call.
    pub fn ask(&mut self, caller: usize, [rax, rcx, rdx, r8]: [u64; 4]) {
        let calling = self.calling_place(caller);
        self.memory[calling] = 1;
        self.set_registers([rax, rcx, rdx, r8, 0x1234, 0x403]);
    }

    /// Writes a list whose first entry is next.
    pub fn write_list(&mut self, gpa: usize, entries: &[u64]) {
        let head = entries.len() as u64;
        for (index, word) in [&[head], entries].concat().iter().enumerate() {
            let at = gpa + 8 * index;
            self.memory[at..at + 8].copy_from_slice(&word.to_le_bytes());
        }
    }

    /// Makes what Create makes: a VMSA and a calling page, and a record that names them and holds no pool page.
    pub fn make_vcpu(&mut self, record: usize, vmpl: u8, apic_id: u8, vmsa: usize, calling: usize) {
        self.table[vmsa] = 0x0D;
        self.table[calling] = 0x79;
        let [vmsa, calling] = [vmsa as u8, calling as u8];
        let bytes = &mut self.sheet[32 * record..32 * (record + 1)];
        bytes.fill(0);
        bytes[..13].copy_from_slice(&[1, vmpl, 0, 0, apic_id, 0, 0, 0, vmsa, 0, 0, 0, calling]);
    }

    fn set_registers(&mut self, values: [u64; 6]) {
        self.registers = values.map(u64::to_le_bytes).concat();
    }

    /// Where the calling page of a record starts. A record has one also where it is not live.
    fn calling_place(&self, record: usize) -> usize {
        let page = &self.sheet[32 * record + 12..32 * record + 16];
        4096 * u32::from_le_bytes(page.try_into().unwrap()) as usize
    }
}

fn put(bytes: &mut [u8], parts: &[At]) {
    for (at, part) in parts {
        bytes[*at..at + part.len()].copy_from_slice(part);
    }
}

/// An entry again and again.
pub const fn repeated<const BYTES: usize>(entry: u64) -> [u8; BYTES] {
    let mut bytes = [0; BYTES];
    let mut at = 0;
    while at < BYTES {
        bytes[at] = entry.to_le_bytes()[at % 8];
        at += 1;
    }
    bytes
}
