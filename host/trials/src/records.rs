//! Create on the sixteen pages, with every set of records that are live beside record 0: "No free record: REQUEST. The lowest free record is used".

use crate::rows::*;

const RECORDS: usize = 16;

/// Panics unless each of the 32,768 sets comes out so, whether the running bytes of the live records and all other bytes of the free ones are 0 or 1.
pub fn lowest_free(subject: &Subject) {
    let launched = fit(subject);
    for set in 0..1 << (RECORDS - 1) {
        // Record 0, bit 0, is live in each.
        let live = set << 1 | 1;
        let is_live = |record: usize| live >> record & 1 == 1;
        for other in [0, 1] {
            let mut machine = launched.clone();
            for record in 1..RECORDS {
                let bytes = &mut machine.sheet[32 * record..32 * record + 32];
                if is_live(record) {
                    bytes[..3].copy_from_slice(&[1, 1, other]);
                } else {
                    bytes[1..].fill(other);
                }
            }
            let free = (0..RECORDS).find(|&record| !is_live(record));
            let code = if free.is_some() { 0 } else { REQUEST };
            subject.handles(&mut machine, 0, [2, 0x6000, 0x5000, 9], code, |after| {
                after.memory[0xA001] = 1;
                if let Some(record) = free {
                    made(after, record);
                }
            });
        }
    }
}

/// Page 6 is fit for a VMSA, page 5 for a calling page, and page 1 is the one free pool page.
fn fit(subject: &Subject) -> Machine {
    let mut machine = subject.launched(16);
    machine.memory[0x60CA] = 1;
    machine.memory[0x60D1] = 0x10;
    machine.table[1] = 0x0B;
    machine
}

/// "Records 4 to 15 also need the lowest free pool page": then none is left, and the flag says so.
fn made(machine: &mut Machine, record: usize) {
    machine.make_vcpu(record, 1, 9, 6, 5);
    if record >= 4 {
        machine.sheet[32 * record + 3] = 1;
        machine.sheet[32 * record + 16] = 1;
        machine.table[1] = 0x0C;
        machine.memory[0xA001] = 0;
    }
}
