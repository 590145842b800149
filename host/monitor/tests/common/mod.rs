//! The core and the model on the same input.

#![allow(dead_code)] // Each test file takes what it needs.

pub mod guest;
pub mod seen;

use model::machine::*;
use monitor::{Launched, Outcome, Plan, Verdict};
use trials::{Call, Random};

pub const PAGE: usize = 4096;

/// Numbers that a careless test of a range lets through: past 32 bits, or where a sum or a product wraps.
pub const HUGE: [usize; 8] = [
    1 << 32,
    (1 << 32) + 1,
    1 << 52,
    (1 << 52) + 1,
    1 << 59,
    1 << 63,
    usize::MAX - 1,
    usize::MAX,
];

/// A buffer with guard bytes before and after what is lent. Their number is odd, so that what is lent is not aligned.
pub struct Guarded {
    bytes: Vec<u8>,
    guard: &'static Guard,
}

type Guard = [u8; 4099];

/// Guards that would be taken if they were read: beside the table, pages that are valid and permitted to all; beside the sheet, records that are live.
pub const BESIDE_TABLE: Guard = [0xF8; 4099];
pub const BESIDE_OTHERS: Guard = {
    let mut guard = [0; 4099];
    let mut index = 0;
    while index < guard.len() {
        guard[index] = if index % 32 == 0 {
            1
        } else {
            (index % 251) as u8 + 3
        };
        index += 1;
    }
    guard
};

impl Guarded {
    pub fn new(bytes: &[u8], guard: &'static Guard) -> Guarded {
        let bytes = [guard, bytes, guard].concat();
        Guarded { bytes, guard }
    }

    pub fn lend(&mut self) -> &mut [u8] {
        let end = self.bytes.len() - self.guard.len();
        &mut self.bytes[self.guard.len()..end]
    }

    /// Panics unless it holds just these bytes, and the guards are as they were.
    #[track_caller]
    pub fn is(&self, name: &str, expected: &[u8], step: &dyn Fn() -> String) {
        let lent = self.unspoiled(name, step);
        if lent != expected {
            let at = (0..lent.len()).find(|&at| lent[at] != expected[at]);
            let at = at.expect("the lengths are the same");
            let (core, model) = (lent[at], expected[at]);
            let step = step();
            panic!("byte {at:#x} of {name} is {core:#x}, not {model:#x}, after {step}");
        }
    }

    /// What it holds. Panics unless the guards are as they were.
    #[track_caller]
    pub fn unspoiled(&self, name: &str, step: &dyn Fn() -> String) -> &[u8] {
        let (before, rest) = self.bytes.split_at(self.guard.len());
        let (lent, after) = rest.split_at(rest.len() - self.guard.len());
        assert!(before == self.guard, "written before {name}, by {}", step());
        assert!(after == self.guard, "written after {name}, by {}", step());
        lent
    }
}

/// A machine twice: what is lent to the core, and what is lent to the model. Each step compares the answer and every byte.
pub struct Twins {
    core: [Guarded; 3],
    pub memory: Vec<u8>,
    pub table: Vec<u8>,
    pub sheet: Vec<u8>,
}

impl Twins {
    pub fn new(memory: Vec<u8>, table: Vec<u8>, sheet: Vec<u8>) -> Twins {
        Twins {
            core: [
                Guarded::new(&memory, &BESIDE_OTHERS),
                Guarded::new(&table, &BESIDE_TABLE),
                Guarded::new(&sheet, &BESIDE_OTHERS),
            ],
            memory,
            table,
            sheet,
        }
    }

    /// Buffers of these lengths with bytes at random.
    pub fn random(random: &mut Random, lengths: [usize; 3]) -> Twins {
        let [memory, table, sheet] = lengths.map(|length| {
            let mut bytes = vec![0; length];
            random.fill(&mut bytes);
            bytes
        });
        Twins::new(memory, table, sheet)
    }

    /// Buffers of the right sizes for n pages, with bytes at random.
    pub fn sized(n: usize) -> Twins {
        Twins::random(&mut Random::new(n as u64), [PAGE * n, n, 512])
    }

    /// Buffers of n pages with bytes at random, one of them now and then of a wrong size.
    pub fn sized_at_random(random: &mut Random, n: usize) -> Twins {
        let mut lengths = [PAGE * n, n, 512];
        if random.once_in(12) {
            let which = random.below(3);
            lengths[which] = match random.below(6) {
                0 => lengths[which] + 1,
                1 => lengths[which].saturating_sub(1),
                2 => lengths[which] + PAGE,
                3 => lengths[which].saturating_sub(PAGE),
                4 => random.below(2 * lengths[which] + 2),
                _ => 0,
            };
        }
        Twins::random(random, lengths)
    }

    pub fn poke(&mut self, buffer: Buffer, at: usize, bytes: &[u8]) {
        let (core, model) = match buffer {
            Buffer::Memory => (self.core[0].lend(), &mut self.memory),
            Buffer::Table => (self.core[1].lend(), &mut self.table),
            Buffer::Sheet => (self.core[2].lend(), &mut self.sheet),
        };
        core[at..at + bytes.len()].copy_from_slice(bytes);
        model[at..at + bytes.len()].copy_from_slice(bytes);
    }

    /// Writes VMPL and EFER of a VMSA.
    pub fn poke_vmsa(&mut self, page: usize, vmpl: u8, efer: u64) {
        self.poke(Buffer::Memory, PAGE * page + 0xCA, &[vmpl]);
        self.poke(Buffer::Memory, PAGE * page + 0xD0, &efer.to_le_bytes());
    }

    /// Writes bytes at random into a record, such as outcome 3 does not name. It is live, as record 0 must be, or is not live and not zeros.
    pub fn poke_record(&mut self, random: &mut Random, record: usize, live: bool) {
        let mut bytes = [0; RECORD];
        random.fill(&mut bytes);
        bytes[LIVE] = u8::from(live || record == 0);
        bytes[RUNNING] &= 1;
        bytes[HOLDS] &= 1;
        if bytes[LIVE] == 1 {
            bytes[VMPL] = 1 + random.below(3) as u8;
            let held = bytes[HOLDS] == 1;
            for at in [VMSA_PAGE, CALLING_PAGE, POOL_PAGE] {
                let page = random.below(self.table.len().max(1));
                if held || at != POOL_PAGE {
                    put_number(&mut bytes, at, 4, page as u64);
                }
            }
        }
        self.poke(Buffer::Sheet, RECORD * record, &bytes);
    }

    /// Writes what the guest has written for a call.
    pub fn write_for(&mut self, call: &Call) {
        call.write_into(self.core[0].lend());
        call.write_into(&mut self.memory);
    }

    #[track_caller]
    pub fn launch(&mut self, plan: &Plan) -> Launched {
        let [memory, table, sheet] = &mut self.core;
        let answer = monitor::launch(memory.lend(), table.lend(), sheet.lend(), plan);
        let expected = model::launch(
            &mut self.memory,
            &mut self.table,
            &mut self.sheet,
            plan.pages,
            plan.monitor_first,
            plan.monitor_count,
            plan.vmsa_page,
            plan.calling_page,
            plan.apic_id,
            plan.valid_below,
        );
        self.same(answer.number(), expected, &|| format!("{plan:?}"));
        answer
    }

    #[track_caller]
    pub fn store(&mut self, vmpl: u8, page: usize, offset: usize, bytes: &[u8]) -> Verdict {
        let [memory, table, _] = &mut self.core;
        let mut lent = Guarded::new(bytes, &BESIDE_OTHERS);
        let answer = monitor::store(memory.lend(), table.lend(), vmpl, page, offset, lent.lend());
        let expected = model::store(&mut self.memory, &self.table, vmpl, page, offset, bytes);
        let step = || {
            format!(
                "a store: {vmpl} {page:#x} {offset:#x} {} bytes",
                bytes.len()
            )
        };
        self.same(answer.number(), expected, &step);
        lent.is("bytes", bytes, &step);
        answer
    }

    #[track_caller]
    pub fn mark(&mut self, record: usize, running: u8) -> Verdict {
        let answer = monitor::mark(self.core[2].lend(), record, running);
        let expected = model::mark(&mut self.sheet, record, running);
        let step = || format!("a mark: {record:#x} {running}");
        self.same(answer.number(), expected, &step);
        answer
    }

    /// The answer, and the registers after the call.
    #[track_caller]
    pub fn call(&mut self, registers: &[u8], caller: usize) -> (Outcome, Vec<u8>) {
        let [memory, table, sheet] = &mut self.core;
        let mut lent = Guarded::new(registers, &BESIDE_OTHERS);
        let buffers = (memory.lend(), table.lend(), sheet.lend());
        let answer = monitor::call(buffers.0, buffers.1, buffers.2, lent.lend(), caller);
        let mut after = registers.to_vec();
        let expected = model::call(
            &mut self.memory,
            &mut self.table,
            &mut self.sheet,
            &mut after,
            caller,
        );
        let step = || format!("a call by {caller}: {registers:x?}");
        self.same(answer.number(), expected, &step);
        lent.is("registers", &after, &step);
        (answer, after)
    }

    #[track_caller]
    fn same(&self, answer: u32, expected: u32, step: &dyn Fn() -> String) {
        if answer != expected {
            panic!("the answer is {answer}, not {expected}, to {}", step());
        }
        let [memory, table, sheet] = &self.core;
        memory.is("memory", &self.memory, step);
        table.is("table", &self.table, step);
        sheet.is("sheet", &self.sheet, step);
    }
}

#[derive(Clone, Copy, Debug)]
pub enum Buffer {
    Memory,
    Table,
    Sheet,
}

/// "EFER (0xD0, eight bytes) bit 12".
pub const SVME: u64 = 1 << 12;
