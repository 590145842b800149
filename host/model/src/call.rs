//! "What a call comes back with", and the two calls that touch registers only.

use crate::answers::*;
use crate::lists::{deposit, pvalidate, withdraw};
use crate::machine::*;
use crate::vcpus::{create, delete, remap};

// "48 bytes, eight each: RAX, RCX, RDX, R8, R9, and the exit reason from the VMSA."
pub const REGISTERS: usize = 48;
pub const RAX: usize = 0;
pub const RCX: usize = 8;
pub const RDX: usize = 16;
pub const R8: usize = 24;
pub const EXIT_REASON: usize = 40;

pub fn call(
    memory: &mut [u8],
    table: &mut [u8],
    sheet: &mut [u8],
    registers: &mut [u8],
    caller: usize,
) -> u32 {
    let mut machine = Machine {
        memory,
        table,
        sheet,
    };
    // "Checked in that order."
    if bad_machine(&machine, registers, caller) {
        return BAD_MACHINE;
    }
    if no_call(&machine, registers, caller) {
        return NO_CALL;
    }
    let outcome = match dispatch(&mut machine, registers, caller) {
        // "the caller deleted itself | registers; its pending byte is not cleared"
        Ended::Gone => GONE,
        // "otherwise | RAX is the code, zero-extended; pending is 0"
        Ended::With(code) => {
            put_number(registers, RAX, 8, u64::from(code));
            let calling = machine.calling_page(caller);
            machine.memory[PAGE * calling] = 0;
            HANDLED
        }
    };
    // "Last of all, outcomes 0 and 2 set byte 1 of the startup calling page to 1 if a pool page is free, else 0 (house)."
    let flag = u8::from(machine.lowest_free_pool_page().is_some());
    let startup = machine.calling_page(0);
    machine.memory[PAGE * startup + 1] = flag;
    outcome
}

/// "a size wrong; caller above 15 or not live; record 0 not live; a live, running or holding byte above 1; a live record with ..".
fn bad_machine(machine: &Machine, registers: &[u8], caller: usize) -> bool {
    !pages_sized(machine.memory, machine.table)
        || machine.sheet.len() != SHEET
        || registers.len() != REGISTERS
        || caller > 15
        || !machine.live(caller)
        || machine.bad_sheet()
}

/// "pending byte 0, or exit reason not 0x403".
fn no_call(machine: &Machine, registers: &[u8], caller: usize) -> bool {
    pending(machine, caller) == 0 || number(registers, EXIT_REASON, 8) != 0x403
}

/// "The pending byte is byte 0 of the caller's calling page."
fn pending(machine: &Machine, caller: usize) -> u8 {
    machine.memory[PAGE * machine.calling_page(caller)]
}

/// "First 0x80000004, then protocol (RAX bits 63:32, only 0), then call (bits 31:0, 0 to 7)."
fn dispatch(machine: &mut Machine, registers: &mut [u8], caller: usize) -> Ended {
    if pending(machine, caller) != 1 {
        return Ended::With(BAD_PENDING);
    }
    let rax = number(registers, RAX, 8);
    if rax >> 32 != 0 {
        return Ended::With(PROTOCOL_NOT_KNOWN);
    }
    let rcx = number(registers, RCX, 8);
    let rdx = number(registers, RDX, 8);
    let r8 = number(registers, R8, 8);
    Ended::With(match rax {
        0 => remap(machine, caller, rcx),
        1 => pvalidate(machine, caller, rcx),
        2 => create(machine, caller, rcx, rdx, r8),
        3 => return delete(machine, caller, rcx),
        4 => deposit(machine, caller, rcx),
        5 => withdraw(machine, caller, rcx),
        6 => query(registers, rcx),
        7 => vtom(registers, rcx),
        _ => CALL_NOT_KNOWN,
    })
}

/// "RCX becomes 0x0000000100000001 if it was 1, else 0. Success."
fn query(registers: &mut [u8], rcx: u64) -> u32 {
    let known = if rcx == 1 { 0x0000_0001_0000_0001 } else { 0 };
    put_number(registers, RCX, 8, known);
    SUCCESS
}

/// "RCX bit 0 set and RCX not 1: PARAMETER; RCX 1: success, RCX 0. Configure: bits 11:5 set, or bit 1 clear with bits 63:12 set: PARAMETER; else REQUEST."
fn vtom(registers: &mut [u8], rcx: u64) -> u32 {
    if rcx == 1 {
        put_number(registers, RCX, 8, 0);
        return SUCCESS;
    }
    if rcx & 1 != 0 {
        return PARAMETER;
    }
    let bits_11_5 = rcx & 0b1111_1110_0000;
    let bit_1 = rcx & 0b10;
    let bits_63_12 = rcx >> 12;
    if bits_11_5 != 0 || (bit_1 == 0 && bits_63_12 != 0) {
        return PARAMETER;
    }
    REQUEST
}
