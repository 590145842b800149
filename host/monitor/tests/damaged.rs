//! Machines that are not sound and yet no bad ones to outcome 3: pages coincide, records name what is not theirs, the table says something else. The core
//! against the model.
//!
//! The numbers are the same in every run. MONITOR_STEPS=10000000 tries more of them, MONITOR_SEED others.

mod common;

use common::guest::{launched, step};
use common::seen::Seen;
use common::{Buffer, Twins};
use model::answers::SIZE_MISMATCH;
use model::machine::*;
use trials::{steps_or, Random};

const STEPS_OF_A_MACHINE: u64 = 300;

#[test]
fn damaged_machines() {
    let mut random = Random::seeded(13);
    const ORDINARY: u64 = 500_000;
    let steps = steps_or(ORDINARY);
    let mut seen = Seen::default();
    for _ in 0..steps.div_ceil(STEPS_OF_A_MACHINE) {
        let mut twins = damaged(&mut random);
        for _ in 0..STEPS_OF_A_MACHINE {
            if random.once_in(4) {
                damage(&mut random, &mut twins);
            }
            if random.once_in(100) {
                step_of_a_bad_machine(&mut random, &mut twins, &mut seen);
            }
            step(&mut random, &mut twins, &mut seen);
        }
    }
    println!("{seen}");
    if steps >= ORDINARY {
        seen.must(&[(1, SIZE_MISMATCH)], &SIGHTS);
    }
}

const SIGHTS: [&str; 24] = [
    "16 live records",
    "Create in a record that was not zeros",
    "Create on a page that a record names",
    "Delete of a VMSA that two records name",
    "Delete of a lower record by its VMSA",
    "Delete of the caller's calling page",
    "Delete of the startup's calling page",
    "Delete where VMSA and calling page meet",
    "Delete where the pool page meets another",
    "Remap from a VMSA",
    "Remap from a monitor page",
    "Remap from a page of two records",
    "Withdraw into a VMSA",
    "a change to a table byte with bit 7",
    "a list in a VMSA",
    "a list in a held pool page",
    "a list in another's calling page",
    "a list in its caller's calling page",
    "a list whose count is the startup's two bytes",
    "an entry on a VMSA",
    "an entry on a held pool page",
    "an entry on a page of owner 6 or 7",
    "an entry on its caller's calling page",
    "an entry on the startup's calling page",
];

fn damaged(random: &mut Random) -> Twins {
    let n = match random.below(6) {
        0 => 40 + random.below(20),
        _ => 8 + random.below(30),
    };
    let mut twins = launched(random, n);
    // Now and then all records are live at once, but for a few.
    if random.once_in(8) {
        for record in 0..RECORDS {
            let live = !random.once_in(30);
            twins.poke_record(random, record, live);
        }
    }
    twins
}

/// Damages the table or a record in a way that outcome 3 does not name.
fn damage(random: &mut Random, twins: &mut Twins) {
    let n = twins.table.len();
    let record = random.below(RECORDS);
    match random.below(8) {
        0 => twins.poke(Buffer::Table, random.below(n), &[random.byte()]),
        1 => plain_or_calling(random, twins, record),
        2 => {
            let page = random.below(n);
            let byte = twins.table[page] ^ 0x80;
            twins.poke(Buffer::Table, page, &[byte]);
        }
        3 => share_a_page(random, twins, record),
        4 => {
            let at = random.pick(&[VMSA_PAGE, CALLING_PAGE, POOL_PAGE]);
            name(twins, record, at, random.below(n) as u32);
        }
        5 => hold(random, twins, record),
        6 => other_bytes(random, twins, record),
        _ => {
            let live = random.once_in(3);
            twins.poke_record(random, record, live);
        }
    }
}

fn name(twins: &mut Twins, record: usize, at: usize, page: u32) {
    twins.poke(Buffer::Sheet, RECORD * record + at, &page.to_le_bytes());
}

fn field(twins: &Twins, record: usize, at: usize) -> u32 {
    number(&twins.sheet, RECORD * record + at, 4) as u32
}

fn is_live(twins: &Twins, record: usize) -> bool {
    twins.sheet[RECORD * record + LIVE] == 1
}

/// A page that the record names turns plain or calling, so that lists and entries may be there.
fn plain_or_calling(random: &mut Random, twins: &mut Twins, record: usize) {
    let at = random.pick(&[VMSA_PAGE, CALLING_PAGE, POOL_PAGE]);
    let page = field(twins, record, at) as usize;
    let byte = random.pick(&[0x78, 0x18, 0xF8, 0x79]);
    if is_live(twins, record) && page < twins.table.len() {
        twins.poke(Buffer::Table, page, &[byte]);
    }
}

/// The record names a page that another live record names, or that it names itself as something else.
fn share_a_page(random: &mut Random, twins: &mut Twins, record: usize) {
    let from = random.below(RECORDS);
    let at = random.pick(&[VMSA_PAGE, CALLING_PAGE]);
    let to = random.pick(&[at, at, VMSA_PAGE, CALLING_PAGE, POOL_PAGE]);
    if is_live(twins, from) {
        name(twins, record, to, field(twins, from, at));
    }
}

/// The record holds a page, whatever its number, or holds none.
fn hold(random: &mut Random, twins: &mut Twins, record: usize) {
    name(
        twins,
        record,
        POOL_PAGE,
        random.below(twins.table.len()) as u32,
    );
    let holds = random.below(2) as u8;
    twins.poke(Buffer::Sheet, RECORD * record + HOLDS, &[holds]);
}

/// Bytes of the record that outcome 3 does not look at, or not in that value.
fn other_bytes(random: &mut Random, twins: &mut Twins, record: usize) {
    let at = random.pick(&[
        VMPL,
        RUNNING,
        APIC_ID,
        ZEROS,
        ZEROS + 3,
        FEATURES,
        FEATURES + 7,
    ]);
    let byte = match at {
        VMPL => 1 + random.below(3) as u8,
        RUNNING => random.below(2) as u8,
        _ => random.byte(),
    };
    twins.poke(Buffer::Sheet, RECORD * record + at, &[byte]);
}

/// Any bytes of a record, and a step; then what stood there again.
fn step_of_a_bad_machine(random: &mut Random, twins: &mut Twins, seen: &mut Seen) {
    let at = random.below(SHEET - 8);
    let kept = twins.sheet.clone();
    let mut bytes = [0; 8];
    random.fill(&mut bytes);
    twins.poke(Buffer::Sheet, at, &bytes[..1 + random.below(8)]);
    step(random, twins, seen);
    twins.poke(Buffer::Sheet, 0, &kept);
}
