//! A caller of each VMPL, on the sixteen pages: it is granted nothing above its VMPL, and neither makes nor deletes a vCPU of a lower one.

use crate::rows::*;

/// A valid plain page without permission, granted to each VMPL: "sets the permissions of VMPL 1 to c and leaves the rest".
const GRANTED: [u8; 4] = [0x08, 0x18, 0x38, 0x78];

const LIST: usize = 0x1000;

/// Panics unless each grant to a caller of record 1 ends at its VMPL.
pub fn grants(subject: &Subject) {
    for vmpl in 1..=3 {
        let granted = GRANTED[vmpl as usize];
        let mut machine = subject.launched(16);
        create(subject, &mut machine, 0, 1, vmpl, 0);

        machine.write_list(LIST, &[0x8004]);
        machine.memory[0x8FFF] = 7;
        subject.handles(&mut machine, 1, [1, 0x1000, 0, 0], 0, |after| {
            after.memory[LIST + 2] = 1;
            after.memory[0x8FFF] = 0;
            after.table[8] = granted;
        });

        machine.write_list(LIST, &[0x8000, 0x7000]);
        subject.handles(&mut machine, 1, [4, 0x1000, 0, 0], 0, |after| {
            after.memory[LIST + 2] = 2;
            after.memory[0xA001] = 1;
            after.table[7..9].fill(0x0B);
        });
        subject.handles(&mut machine, 1, [5, 0x0FE8, 0, 0], 0, |after| {
            after.memory[0x0FE8] = 2;
            after.memory[0x0FF1] = 0x70;
            after.memory[0x0FF9] = 0x80;
            after.memory[0xA001] = 0;
            after.table[7..9].fill(granted);
        });

        goes(subject, &mut machine, granted);
    }
}

/// Record 1 deletes itself: registers and pending byte stay.
fn goes(subject: &Subject, machine: &mut Machine, granted: u8) {
    machine.ask(1, [3, 0x2000, 0, 0]);
    let mut expected = machine.clone();
    deleted(&mut expected, 1, granted);
    subject.leaves(machine, 1, 2, &expected, "a vCPU that deletes itself");
}

/// Panics unless record 1 makes and deletes vCPUs of its VMPL and above alone.
pub fn vcpus(subject: &Subject) {
    for vmpl in 1..=3 {
        for other in 1..=3 {
            let code = if other < vmpl { PARAMETER } else { 0 };
            let mut machine = subject.launched(16);
            create(subject, &mut machine, 0, 1, vmpl, 0);
            create(subject, &mut machine, 0, 2, other, 0);
            create(subject, &mut machine, 1, 3, other, code);
            subject.handles(&mut machine, 1, [3, 0x4000, 0, 0], code, |after| {
                if code == 0 {
                    deleted(after, 2, GRANTED[vmpl as usize]);
                }
            });
        }
    }
}

/// VMSA and calling page of a record that a test has made. They are its own.
fn pages(record: usize) -> (usize, usize) {
    (2 * record, 2 * record + 1)
}

/// Create of a vCPU of a VMPL by a caller, with this code. The record is the lowest that is free, and its number is the APIC ID.
fn create(
    subject: &Subject,
    machine: &mut Machine,
    caller: usize,
    record: usize,
    vmpl: u8,
    code: u64,
) {
    let (vmsa, calling) = pages(record);
    machine.memory[4096 * vmsa + 0xCA] = vmpl;
    machine.memory[4096 * vmsa + 0xD1] = 0x10;
    let gpa = |page: usize| 4096 * page as u64;
    let asks = [2, gpa(vmsa), gpa(calling), record as u64];
    subject.handles(machine, caller, asks, code, |after| {
        if code == 0 {
            after.make_vcpu(record, vmpl, record as u8, vmsa, calling);
        }
    });
}

/// What Delete of a record leaves.
fn deleted(machine: &mut Machine, record: usize, granted: u8) {
    let (vmsa, calling) = pages(record);
    machine.memory[4096 * vmsa + 0xD1] = 0;
    machine.table[vmsa] = granted;
    machine.table[calling] = 0x78;
    machine.sheet[32 * record..32 * (record + 1)].fill(0);
}
