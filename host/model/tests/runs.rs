//! Runs of calls, stores and marks from a fresh machine: it stays sound, the pool's pages add up, and a refusal changes no more than it may.
//!
//! The numbers are the same in every run. MONITOR_STEPS=10000000 tries more of them, MONITOR_SEED others.

mod common;

use std::collections::BTreeMap;

use common::Owned;
use model::answers::*;
use model::call::*;
use model::machine::{number, owner, PAGE, POOL_FREE, POOL_IN_USE};
use model::{mark, store};
use trials::{draw_call, steps_or, Random};

const STEPS_OF_A_RUN: u64 = 300;

#[test]
fn runs_stay_sound() {
    let mut random = Random::seeded(1);
    const ORDINARY: u64 = 100_000;
    let steps = steps_or(ORDINARY);
    let mut seen = BTreeMap::new();
    for step in 0..steps.div_ceil(STEPS_OF_A_RUN) {
        let mut machine = fresh(&mut random);
        for _ in 0..STEPS_OF_A_RUN {
            let said = one_step(&mut random, &mut machine);
            assert!(machine.sound(), "run {step}, after {said}");
            *seen.entry(said).or_insert(0) += 1;
        }
    }
    println!("{seen:#?}");
    if steps >= ORDINARY {
        // Each outcome, each call's success and each code that document 01 lists has come up.
        for said in ["outcome 1", "outcome 2", "outcome 3", "store 0", "store 1"] {
            assert!(seen.contains_key(said), "{said}");
        }
        for call in 0..8 {
            let success = format!("call {call}: 0");
            // Configure is never granted, but the query of call 7 is.
            assert!(seen.contains_key(&success), "{success}");
        }
        for code in [
            ONE_MORE_PAGE,
            INCOMPLETE,
            PROTOCOL_NOT_KNOWN,
            CALL_NOT_KNOWN,
            ADDRESS,
            BAD_PENDING,
            PARAMETER,
            REQUEST,
            IN_USE,
            SIZE_MISMATCH,
            NO_CHANGE,
        ] {
            let end = format!(": {code:x}");
            assert!(seen.keys().any(|said| said.ends_with(&end)), "{code:x}");
        }
    }
}

fn fresh(random: &mut Random) -> Owned {
    let n = match random.below(20) {
        0 => 530 + random.below(60) + 512 * random.below(2),
        1..=5 => 6 + random.below(10),
        _ => 16 + random.below(60),
    };
    let valid_below = random.below(n + 1);
    let vmpl = random.pick(&[1, 1, 2, 3]);
    let mut machine = Owned::launched(n, valid_below, vmpl);
    if random.once_in(2) {
        random.fill(&mut machine.memory);
    }
    machine
}

/// Does one step, and says how it went.
fn one_step(random: &mut Random, machine: &mut Owned) -> String {
    match random.below(10) {
        0 => {
            let n = machine.table.len();
            let (vmpl, page) = (random.below(5) as u8, random.below(n + 1));
            let (offset, bytes) = (random.below(4100), [random.byte(); 3]);
            let bytes = &bytes[..random.below(4)];
            let answer = store(
                &mut machine.memory,
                &machine.table,
                vmpl,
                page,
                offset,
                bytes,
            );
            format!("store {answer}")
        }
        1 => {
            let (record, running) = (random.below(17), random.below(3) as u8);
            format!("mark {}", mark(&mut machine.sheet, record, running))
        }
        _ => one_call(random, machine),
    }
}

fn one_call(random: &mut Random, machine: &mut Owned) -> String {
    let call = draw_call(random, &machine.table, &machine.sheet);
    call.write_into(&mut machine.memory);
    machine.registers = call.registers.to_vec();
    let before = machine.clone();
    let outcome = machine.call_raw(call.caller);
    let rax = number(&before.registers, RAX, 8);
    let code = number(&machine.registers, RAX, 8) as u32;
    match outcome {
        NO_CALL | BAD_MACHINE => assert_eq!(*machine, before),
        HANDLED if code != SUCCESS && code != INCOMPLETE => {
            refused(&before, machine, call.caller, rax == 1 || rax == 4);
        }
        _ => {}
    }
    let rcx = number(&before.registers, RCX, 8);
    let (mut taken_in, mut given_back) = (0, 0);
    if outcome == HANDLED && rax == 4 {
        taken_in = pages_taken_in(&before, machine, rcx);
    }
    if outcome == HANDLED && rax == 5 && code == SUCCESS {
        given_back = number(&machine.memory, rcx as usize, 2);
    }
    assert_eq!(pool(machine) + given_back, pool(&before) + taken_in);
    match outcome {
        HANDLED => format!("call {rax}: {code:x}"),
        _ => format!("outcome {outcome}"),
    }
}

/// "A refusal changes only RAX, the two calling-area bytes, and what the list rules say." For a list that is its index; the entries before the refused one stand.
fn refused(before: &Owned, after: &Owned, caller: usize, is_list_call: bool) {
    assert_eq!(before.sheet, after.sheet);
    assert_eq!(before.registers[8..], after.registers[8..]);
    if !is_list_call {
        assert_eq!(before.table, after.table);
        let mut memory = before.memory.clone();
        memory[PAGE * before.calling_page(caller)] = 0;
        let free = before.table.iter().any(|&byte| owner(byte) == POOL_FREE);
        memory[PAGE * before.calling_page(0) + 1] = u8::from(free);
        assert!(memory == after.memory);
    }
}

/// "'Taken in' counts the pages of Deposit entries that the index passed". Where the head was refused, the index has not moved.
fn pages_taken_in(before: &Owned, after: &Owned, rcx: u64) -> u64 {
    if !rcx.is_multiple_of(8) || rcx / PAGE as u64 >= before.table.len() as u64 {
        return 0;
    }
    let list = rcx as usize;
    (before.index(list)..after.index(list))
        .map(|index| number(&before.memory, list + 8 + 8 * index as usize, 8))
        .map(|entry| if entry & 3 == 1 { 512 } else { 1 })
        .sum()
}

fn pool(machine: &Owned) -> u64 {
    let of_pool = |byte: &&u8| [POOL_FREE, POOL_IN_USE].contains(&owner(**byte));
    machine.table.iter().filter(of_pool).count() as u64
}
