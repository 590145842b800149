//! The core of the lift monitor for Rust hosts.
//!
//! The core is a proved static library; this crate calls it in safe functions. The host keeps a machine in three buffers and lends them:
//!
//! - *memory*, 4,096 × N bytes, N from 3 to 8,192: page p starts at byte 4,096 × p;
//! - *table*, one byte a page: bits 2:0 owner, bit 3 valid, bits 4 to 6 permission for VMPL 1 to 3;
//! - *sheet*, 512 bytes: 16 vCPU records of 32.
//!
//! Beside the machine, [`announce`] tells the firmware where the monitor is, in a secrets page that it is lent, and [`discover`] reads it there.
//!
//! Any sizes and any numbers may be given. The functions here test nothing: refusing is the core's business, and each refusal is an answer. An answer
//! that its document does not know is a panic: for these two the change requests (02), for the others the rule sheet (01).
//!
//! ```
//! use monitor::{launch, mark, store, Launched, Plan, Verdict};
//!
//! let (mut memory, mut table, mut sheet) = (vec![0; 65536], [0; 16], [0; 512]);
//! memory[0xB0CA] = 1; // the startup VMSA, page 11: VMPL 1
//! memory[0xB0D1] = 0x10; // and EFER bit 12
//! let plan = Plan {
//!     pages: 16,
//!     monitor_first: 12,
//!     monitor_count: 4,
//!     vmsa_page: 11,
//!     calling_page: 10,
//!     apic_id: 0,
//!     valid_below: 8,
//! };
//! assert_eq!(launch(&mut memory, &mut table, &mut sheet, &plan), Launched::Made);
//! assert_eq!(store(&mut memory, &table, 1, 3, 4095, b"x"), Verdict::Done);
//! assert_eq!(store(&mut memory, &table, 1, 11, 0, b"x"), Verdict::Refused);
//! assert_eq!(mark(&mut sheet, 0, 1), Verdict::Done);
//! ```

#![warn(missing_docs)]

mod discovery;

pub use discovery::{announce, discover, discover_into, Discovery, Located, Place};

/// What launch is given beside the buffers.
#[derive(Clone, Copy, Debug, PartialEq, Eq, Hash)]
pub struct Plan {
    /// N, the number of pages: the length of the table, from 3 to 8,192.
    pub pages: usize,
    /// The first page of the monitor.
    pub monitor_first: usize,
    /// How many pages the monitor has, at least 1.
    pub monitor_count: usize,
    /// The page of the startup vCPU's VMSA.
    pub vmsa_page: usize,
    /// The page of the startup vCPU's calling area.
    pub calling_page: usize,
    /// The startup vCPU's APIC ID.
    pub apic_id: u32,
    /// V, from 0 to N: the pages below it are valid.
    pub valid_below: usize,
}

/// What launch answers. Where more than one refusal would fit, it is the one of the lowest number. Unless it is [`Launched::Made`], nothing has changed.
#[derive(Clone, Copy, Debug, PartialEq, Eq, Hash)]
pub enum Launched {
    /// 0: the machine is made.
    Made,
    /// 1: a size is wrong. N is not from 3 to 8,192 or not the table's length, or memory is not 4,096 × N bytes, or the sheet not 512.
    WrongSize,
    /// 2: a page is not below N (of the monitor's, any), or V is above N, or the monitor is empty.
    OutOfRange,
    /// 3: two of the three areas (monitor, VMSA, calling page) meet.
    AreasMeet,
    /// 4: the VMSA's VMPL is not 1 to 3, or bit 12 of its EFER is clear.
    UnfitVmsa,
}

impl Launched {
    /// The number that document 01 gives the answer.
    pub fn number(self) -> u32 {
        match self {
            Launched::Made => 0,
            Launched::WrongSize => 1,
            Launched::OutOfRange => 2,
            Launched::AreasMeet => 3,
            Launched::UnfitVmsa => 4,
        }
    }

    fn from_number(number: u32) -> Launched {
        match number {
            0 => Launched::Made,
            1 => Launched::WrongSize,
            2 => Launched::OutOfRange,
            3 => Launched::AreasMeet,
            4 => Launched::UnfitVmsa,
            _ => panic!("launch answered {number}, which document 01 does not know"),
        }
    }
}

/// What a store and a mark answer.
#[derive(Clone, Copy, Debug, PartialEq, Eq, Hash)]
pub enum Verdict {
    /// 0: it is done.
    Done,
    /// 1: it is refused, and nothing has changed.
    Refused,
}

impl Verdict {
    /// The number that document 01 gives the answer.
    pub fn number(self) -> u32 {
        match self {
            Verdict::Done => 0,
            Verdict::Refused => 1,
        }
    }

    fn from_number(step: &str, number: u32) -> Verdict {
        match number {
            0 => Verdict::Done,
            1 => Verdict::Refused,
            _ => panic!("a {step} answered {number}, which document 01 does not know"),
        }
    }
}

/// What a call comes back with.
#[derive(Clone, Copy, Debug, PartialEq, Eq, Hash)]
pub enum Outcome {
    /// 0: it is handled, and RAX is its code.
    Handled,
    /// 1: there is no call, and nothing has changed.
    NoCall,
    /// 2: the caller deleted itself.
    Gone,
    /// 3: the machine is bad, and nothing has changed.
    BadMachine,
}

impl Outcome {
    /// The number that document 01 gives the outcome.
    pub fn number(self) -> u32 {
        match self {
            Outcome::Handled => 0,
            Outcome::NoCall => 1,
            Outcome::Gone => 2,
            Outcome::BadMachine => 3,
        }
    }

    fn from_number(number: u32) -> Outcome {
        match number {
            0 => Outcome::Handled,
            1 => Outcome::NoCall,
            2 => Outcome::Gone,
            3 => Outcome::BadMachine,
            _ => panic!("a call answered {number}, which document 01 does not know"),
        }
    }
}

/// Launches a machine by a plan.
///
/// The table becomes 0x0A on the monitor's pages, 0x0D on the VMSA, 0x79 on the calling page, 0x78 on the other pages below V, and 0x00 on the rest. In the sheet,
/// record 0 is the startup vCPU: live, not running, holding nothing, with VMPL and SEV features from the VMSA (offset 0xCA one byte, 0x3B0 eight
/// bytes); the other records are zeros. Bytes 0 and 1 of the calling page become 0. The other bytes of memory stay.
///
/// Unless the answer is [`Launched::Made`], nothing has changed.
pub fn launch(memory: &mut [u8], table: &mut [u8], sheet: &mut [u8], plan: &Plan) -> Launched {
    // SAFETY: each pointer comes with the length of the slice that it is from, and slices that are borrowed mutably at once don't overlap.
    let number = unsafe {
        monitor_sys::monitor_launch(
            memory.as_mut_ptr(),
            memory.len(),
            table.as_mut_ptr(),
            table.len(),
            sheet.as_mut_ptr(),
            sheet.len(),
            plan.pages,
            plan.monitor_first,
            plan.monitor_count,
            plan.vmsa_page,
            plan.calling_page,
            plan.apic_id,
            plan.valid_below,
        )
    };
    Launched::from_number(number)
}

/// Stores `bytes` in a page, from an offset on, as software of a VMPL would.
///
/// It is done exactly when memory and table are of the right sizes, the VMPL is 1 to 3, the page is below N, the offset plus the number of bytes is at most
/// 4,096, and the page is valid and permitted to that VMPL. No bytes at all are judged in the same way.
pub fn store(
    memory: &mut [u8],
    table: &[u8],
    vmpl: u8,
    page: usize,
    offset: usize,
    bytes: &[u8],
) -> Verdict {
    // SAFETY: each pointer comes with the length of the slice that it is from; memory is borrowed mutably, so neither of the other two overlaps it.
    let number = unsafe {
        monitor_sys::monitor_store(
            memory.as_mut_ptr(),
            memory.len(),
            table.as_ptr(),
            table.len(),
            vmpl,
            page,
            offset,
            bytes.as_ptr(),
            bytes.len(),
        )
    };
    Verdict::from_number("store", number)
}

/// Marks the vCPU of a record as running (1) or stopped (0): byte +2 of the record.
///
/// It is done exactly when the sheet is 512 bytes, the record is 0 to 15 and live (its byte +0 is 1), and `running` is 0 or 1.
pub fn mark(sheet: &mut [u8], record: usize, running: u8) -> Verdict {
    // SAFETY: the pointer comes with the length of the slice that it is from.
    let number =
        unsafe { monitor_sys::monitor_mark(sheet.as_mut_ptr(), sheet.len(), record, running) };
    Verdict::from_number("mark", number)
}

/// Carries out a call by the vCPU of a record.
///
/// The registers are 48 bytes, eight each, little-endian: RAX, RCX, RDX, R8, R9, and the exit reason. Where it is handled, RAX is the call's code and byte 0 of
/// the caller's calling page (pending) is 0. Where the vCPU deleted itself ([`Outcome::Gone`]), the registers and its pending byte are as they were. After both,
/// byte 1 of the startup's calling page (the flag) is 1 if a pool page is free, else 0.
///
/// A code that refuses, which is any but 0 and 0x80000000 (incomplete), has changed nothing beyond RAX and these two bytes, with one exception: where Pvalidate
/// or Deposit (call 1 or 4) is refused at an entry of its list, the index of that entry is stored in the list, and the entries done before it stand.
///
/// ```
/// # use monitor::{call, launch, Launched, Outcome, Plan};
/// # let (mut memory, mut table, mut sheet) = (vec![0; 65536], [0; 16], [0; 512]);
/// # (memory[0xB0CA], memory[0xB0D1]) = (1, 0x10);
/// # let (monitor_first, monitor_count) = (12, 4);
/// # let plan = Plan { pages: 16, monitor_first, monitor_count, vmsa_page: 11, calling_page: 10, apic_id: 0, valid_below: 8 };
/// # assert_eq!(launch(&mut memory, &mut table, &mut sheet, &plan), Launched::Made);
/// // The machine above. A list at 0x1000 has three entries: pages 2 and 3, and the VMSA, which is refused.
/// let list = [3, 0x2000, 0x3000, 0xB000].map(u64::to_le_bytes).concat();
/// memory[0x1000..0x1020].copy_from_slice(&list);
/// memory[0xA000] = 1; // pending
/// let mut registers = [4, 0x1000, 0, 0, 0, 0x403].map(u64::to_le_bytes).concat(); // Deposit
///
/// let mut after = (memory.clone(), table, sheet, registers.clone());
/// after.0[0x1002] = 2; // the index of the refused entry
/// after.1[2..4].fill(0x0B); // the two before it stand: their pages are in the pool
/// after.0[0xA000..0xA002].copy_from_slice(&[0, 1]); // pending, and the flag
/// after.3[..8].copy_from_slice(&0x8000_0003_u64.to_le_bytes()); // RAX: ADDRESS
///
/// let outcome = call(&mut memory, &mut table, &mut sheet, &mut registers, 0);
/// assert_eq!(outcome, Outcome::Handled);
/// assert!((memory, table, sheet, registers) == after); // and nothing else has changed
/// ```
pub fn call(
    memory: &mut [u8],
    table: &mut [u8],
    sheet: &mut [u8],
    registers: &mut [u8],
    caller: usize,
) -> Outcome {
    // SAFETY: each pointer comes with the length of the slice that it is from, and slices that are borrowed mutably at once don't overlap.
    let number = unsafe {
        monitor_sys::monitor_call(
            memory.as_mut_ptr(),
            memory.len(),
            table.as_mut_ptr(),
            table.len(),
            sheet.as_mut_ptr(),
            sheet.len(),
            registers.as_mut_ptr(),
            registers.len(),
            caller,
        )
    };
    Outcome::from_number(number)
}

#[cfg(test)]
mod tests {
    use super::{Launched, Outcome, Verdict};

    #[test]
    fn each_answer_has_its_number() {
        for number in 0..5 {
            assert_eq!(Launched::from_number(number).number(), number);
        }
        for number in 0..4 {
            assert_eq!(Outcome::from_number(number).number(), number);
        }
        for number in 0..2 {
            assert_eq!(Verdict::from_number("store", number).number(), number);
        }
    }

    #[test]
    #[should_panic(expected = "launch answered 5, which document 01 does not know")]
    fn a_launch_answer_that_is_not_known_is_a_panic() {
        Launched::from_number(5);
    }

    #[test]
    #[should_panic(expected = "a mark answered 2, which document 01 does not know")]
    fn a_verdict_that_is_not_known_is_a_panic() {
        Verdict::from_number("mark", 2);
    }
}
