//! The plain program does what the core does, so that what is timed is the same work.

use std::collections::BTreeSet;

use trials::{draw_call, Random};

use super::*;

#[test]
fn a_small_night_ends_alike() {
    let night = Night::new(700, 600);
    let mut machines = [Machine::new(700), Machine::new(700)];
    for (machine, call) in machines.iter_mut().zip([CORE, plain::call]) {
        // Lists of 511 and 189 entries, then of 511 and 89; a call does 32.
        assert_eq!(night.pass(machine, call), 16 + 6 + 16 + 3);
    }
    assert!(machines[0] == machines[1]);
}

/// Calls drawn at random, but for those that the plain program does not know: it and the model.
#[test]
fn the_plain_program_is_right() {
    let mut random = Random::seeded(15);
    let mut seen = BTreeSet::new();
    for run in 0..400 {
        let n = if run % 10 == 0 { 1030 } else { 40 };
        let mut machine = Machine::new(n);
        // Some more pages are valid, and the caller's VMPL is 1 to 3.
        machine.table[1..random.below(n - 7) + 2].fill(0x78);
        machine.sheet[1] = 1 + random.below(3) as u8;
        let mut expected = machine.clone();
        for _ in 0..if n == 40 { 100 } else { 20 } {
            let call = draw_call(&mut random, &machine.table, &machine.sheet);
            if matches!(
                call.registers[..8],
                [0 | 2 | 3 | 5 | 6 | 7, 0, 0, 0, 0, 0, 0, 0]
            ) {
                continue;
            }
            call.write_into(&mut machine.memory);
            call.write_into(&mut expected.memory);
            let (outcome, registers) = made(&mut machine, plain::call, &call);
            assert_eq!(
                (outcome, registers),
                made(&mut expected, model::call, &call),
                "{call:x?}"
            );
            assert!(machine == expected, "{call:x?}");
            seen.insert((outcome, registers[..4].to_vec()));
        }
    }
    let codes = seen.iter().filter(|(outcome, _)| *outcome == 0).count();
    // Success, incomplete, the three before a call, and the four refusals of an entry.
    assert_eq!(codes, 9, "{seen:x?}");
    assert!(seen.iter().any(|(outcome, _)| *outcome == 1), "{seen:x?}");
    assert!(seen.iter().any(|(outcome, _)| *outcome == 3), "{seen:x?}");
}

fn made(machine: &mut Machine, call: Call, drawn: &trials::Call) -> (u32, [u8; 48]) {
    let mut registers = drawn.registers;
    let buffers = (&mut machine.memory, &mut machine.table, &mut machine.sheet);
    let outcome = call(
        buffers.0,
        buffers.1,
        buffers.2,
        &mut registers,
        drawn.caller,
    );
    (outcome, registers)
}
