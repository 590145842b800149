//! "Then up to 32 entries (house) are done from next. An entry either reads cleanly into its range and wishes or is refused on the spot; its index is then
//! stored, earlier entries stand. If all is well the new index is stored; the code is incomplete if entries remain, else success."
//!
//! Each entry is of another page, so that every byte tells which of them are done.

use std::ops::Range;

use crate::rows::*;

const PVALIDATE: u64 = 1;
const DEPOSIT: u64 = 4;

const INCOMPLETE: u64 = 0x8000_0000;
const NO_CHANGE: u64 = 0x8000_1010;

const LIST: usize = 0x1000;

/// V is 40, the calling page 64, the VMSA 65.
const PAGES: usize = 70;

/// "33 entries: incomplete at 32", and to the end.
pub fn of_33_entries(subject: &Subject) {
    for call in [PVALIDATE, DEPOSIT] {
        let mut machine = with_list(subject, &clean(call, 33));
        stops(subject, &mut machine, call, 0..32, INCOMPLETE);
        stops(subject, &mut machine, call, 32..33, 0);
        let again = [call, LIST as u64, 0, 0];
        subject.handles(&mut machine, 0, again, PARAMETER, |_| {});
    }
}

/// A list of 34 entries with one, wherever it is, that is refused.
pub fn refused_at_each_entry(subject: &Subject) {
    let not_plain = (65 << 12, ADDRESS);
    let malformed = (2, PARAMETER);
    let valid_already = (4, NO_CHANGE);
    let not_valid = (63 << 12, ADDRESS);
    for (call, last) in [(PVALIDATE, valid_already), (DEPOSIT, not_valid)] {
        for (entry, code) in [not_plain, malformed, last] {
            for refused in 0..34 {
                let mut entries = clean(call, 34);
                entries[refused] = entry;
                let mut machine = with_list(subject, &entries);
                let mut next = 0;
                if refused >= 32 {
                    stops(subject, &mut machine, call, 0..32, INCOMPLETE);
                    next = 32;
                }
                stops(subject, &mut machine, call, next..refused, code);
            }
        }
    }
}

/// Panics unless the call does these entries and no more, stores the index after them, and has this code.
fn stops(subject: &Subject, machine: &mut Machine, call: u64, done: Range<usize>, code: u64) {
    let asks = [call, LIST as u64, 0, 0];
    subject.handles(machine, 0, asks, code, |after| {
        after.memory[LIST + 2] = done.end as u8;
        for index in done.clone() {
            let (page, _, byte) = entry(call, index);
            after.table[page] = byte;
            if byte == 0x18 {
                after.memory[4096 * page..4096 * (page + 1)].fill(0);
            }
        }
        let flag = call == DEPOSIT && done.end > 0;
        after.memory[4096 * 64 + 1] = u8::from(flag);
    });
}

/// An entry that reads cleanly: its page, its other bits, and the table byte that it leaves. Pvalidate makes pages valid and invalid in turn.
fn entry(call: u64, index: usize) -> (usize, u64, u8) {
    match (call, index % 2) {
        (DEPOSIT, _) => (2 + index, 0, 0x0B),
        (_, 0) => (40 + index / 2, 4, 0x18),
        _ => (2 + index / 2, 0, 0x00),
    }
}

/// So many of them.
fn clean(call: u64, count: usize) -> Vec<u64> {
    let bytes = |index| {
        let (page, bits, _) = entry(call, index);
        (page as u64) << 12 | bits
    };
    (0..count).map(bytes).collect()
}

/// A machine just launched, with bytes in the pages, and a list.
fn with_list(subject: &Subject, entries: &[u64]) -> Machine {
    let mut machine = subject.launched(PAGES);
    machine.memory[0x2000..4096 * 64].fill(7);
    machine.write_list(LIST, entries);
    machine
}
