//! Bytes at random: small machines whose memory, table, sheet and registers are any bytes, made to pass outcome 3 or not, of right and wrong sizes. The core
//! against the model.
//!
//! The numbers are the same in every run. MONITOR_STEPS=10000000 tries more of them, MONITOR_SEED others.

mod common;

use common::guest::{make, step};
use common::seen::Seen;
use common::{Buffer, Twins, PAGE};
use model::answers::{INCOMPLETE, SIZE_MISMATCH};
use model::call::REGISTERS;
use model::machine::{number, CALLING_PAGE, RECORD, RECORDS};
use trials::{steps_or, Random};

const STEPS_OF_A_MACHINE: u64 = 30;

#[test]
fn bytes_at_random() {
    let mut random = Random::seeded(14);
    const ORDINARY: u64 = 500_000;
    let steps = steps_or(ORDINARY);
    let mut seen = Seen::default();
    let mut wrong_sizes = 0;
    for _ in 0..steps.div_ceil(STEPS_OF_A_MACHINE) {
        let mut twins = machine(&mut random);
        for _ in 0..STEPS_OF_A_MACHINE {
            if random.once_in(4) {
                step(&mut random, &mut twins, &mut seen);
            } else {
                wrong_sizes += any_call(&mut random, &mut twins, &mut seen);
            }
        }
    }
    println!("{wrong_sizes} calls with wrong sizes\n{seen}");
    if steps >= ORDINARY {
        assert!(wrong_sizes > 10_000);
        // The machines are too small for these two.
        seen.must(
            &[(1, SIZE_MISMATCH), (4, INCOMPLETE)],
            &[
                "Create in a record that was not zeros",
                "Delete where VMSA and calling page meet",
                "a change to a table byte with bit 7",
                "a list in a VMSA",
                "an entry on a page of owner 6 or 7",
                "an entry on its caller's calling page",
            ],
        );
    }
}

/// Three pages or a few more, or once in a while fewer.
fn machine(random: &mut Random) -> Twins {
    let n = match random.below(60) {
        0 => random.below(3),
        1..=4 => 3,
        _ => 3 + random.below(22),
    };
    let mut twins = Twins::sized_at_random(random, n);
    for page in 0..twins.table.len() {
        let byte = twins.table[page];
        // Any byte; a plain page; a plain page that is valid.
        let byte = random.pick(&[byte, byte & 0xF8, byte & 0xF8 | 8, byte & 0xF8 | 8]);
        twins.poke(Buffer::Table, page, &[byte]);
    }
    if twins.sheet.len() == RECORD * RECORDS {
        let bad = random.once_in(20).then(|| random.below(RECORDS));
        // Half of the records are live, or nearly all.
        let dead = random.pick(&[2, 2, 2, 40]);
        for record in (0..RECORDS).filter(|&record| Some(record) != bad) {
            let live = !random.once_in(dead);
            twins.poke_record(random, record, live);
        }
    }
    twins
}

/// A call with registers at random that look like a call's, on memory as it is but for the pending byte and, mostly, the head of a list. It is 1 where a
/// size is wrong.
fn any_call(random: &mut Random, twins: &mut Twins, seen: &mut Seen) -> u64 {
    let live = |record: &usize| twins.sheet.get(RECORD * record) == Some(&1);
    let drawn = [(); 3].map(|()| random.below(RECORDS + 1));
    let caller = drawn.into_iter().find(live).unwrap_or(drawn[0]);
    let any = random.number();
    let rax = random.pick(&[1, 4, 5, any % 8, any % 9, any]);
    let [rcx, rdx] = [(); 2].map(|()| gpa(random, twins));
    let reason = random.pick(&[0x403, 0x403, 0x403, 0x403, any]);
    let registers = [rax, rcx, rdx, any, any, reason];
    let mut registers = registers.map(u64::to_le_bytes).concat();
    if random.once_in(50) {
        registers.resize(random.below(2 * REGISTERS), 0);
    }
    let head = [random.byte() % 40, 0, random.byte() % 4, 0];
    if random.below(4) > 0 {
        poke(twins, rcx as usize, &head);
    }
    if let Some(record) = twins.sheet.get(RECORD * caller..RECORD * (caller + 1)) {
        let calling = number(record, CALLING_PAGE, 4) as usize;
        let pending = random.pick(&[1, 1, 1, 1, any as u8]);
        poke(twins, PAGE * calling, &[pending]);
    }
    make(twins, seen, &registers, caller);
    let n = twins.table.len();
    let lengths = (twins.memory.len(), twins.sheet.len(), registers.len());
    u64::from(n < 3 || lengths != (PAGE * n, RECORD * RECORDS, REGISTERS))
}

/// Where it lies in memory.
fn poke(twins: &mut Twins, at: usize, bytes: &[u8]) {
    let end = at.checked_add(bytes.len());
    if end.is_some_and(|end| end <= twins.memory.len()) {
        twins.poke(Buffer::Memory, at, bytes);
    }
}

/// Mostly a multiple of 4,096 or of 8, mostly in memory.
fn gpa(random: &mut Random, twins: &Twins) -> u64 {
    let page = random.below(twins.table.len() + 1);
    let offset = match random.below(8) {
        0 => random.below(PAGE),
        1 => 8 * random.below(PAGE / 8),
        2 => PAGE - 8 * (1 + random.below(6)),
        _ => 0,
    };
    let high = if random.once_in(30) {
        1 << (32 + random.below(32))
    } else {
        0
    };
    high | (PAGE * page + offset) as u64
}
