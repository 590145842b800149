//! Every row of "Sixteen pages", marked or not, the refusals of each call in their order, lists that stop midway, callers of each VMPL,
//! and every set of live records: the core, with guard bytes around each buffer.

mod common;

use common::{Guarded, BESIDE_OTHERS, BESIDE_TABLE, PAGE};
use monitor::Plan;
use trials::rows::{Machine, Subject};
use trials::{confined, lists, records, refusals, sixteen};

const CORE: Subject = Subject { launch, call };

fn launch(machine: &mut Machine, valid_below: usize) -> u32 {
    let pages = machine.table.len();
    let plan = Plan {
        pages,
        monitor_first: pages - 4,
        monitor_count: 4,
        vmsa_page: pages - 5,
        calling_page: pages - 6,
        apic_id: 0x0102_0304,
        valid_below,
    };
    guarded(machine, |[memory, table, sheet, _]| {
        monitor::launch(memory, table, sheet, &plan).number()
    })
}

fn call(machine: &mut Machine, caller: usize) -> u32 {
    guarded(machine, |[memory, table, sheet, registers]| {
        monitor::call(memory, table, sheet, registers, caller).number()
    })
}

/// Lends the machine's four buffers with guards around them.
fn guarded(machine: &mut Machine, step: impl Fn([&mut [u8]; 4]) -> u32) -> u32 {
    let mut lent = [
        Guarded::new(&machine.memory, &BESIDE_OTHERS),
        Guarded::new(&machine.table, &BESIDE_TABLE),
        Guarded::new(&machine.sheet, &BESIDE_OTHERS),
        Guarded::new(&machine.registers, &BESIDE_OTHERS),
    ];
    let answer = step(lent.each_mut().map(Guarded::lend));
    let after = |index: usize| {
        let named = || "a row".to_string();
        lent[index].unspoiled("a buffer", &named).to_vec()
    };
    machine.memory = after(0);
    machine.table = after(1);
    machine.sheet = after(2);
    machine.registers = after(3);
    answer
}

#[test]
fn table_whole() {
    sixteen::launch_holds(&CORE);
}

#[test]
fn marked_rows() {
    CORE.keeps(sixteen::MARKED);
}

#[test]
fn unmarked_rows() {
    CORE.keeps(sixteen::UNMARKED);
}

#[test]
fn refusals_in_order() {
    refusals::hold(&CORE);
}

#[test]
fn lists_of_33_entries() {
    lists::of_33_entries(&CORE);
}

#[test]
fn lists_refused_at_each_entry() {
    lists::refused_at_each_entry(&CORE);
}

#[test]
fn grants_end_at_the_callers_vmpl() {
    confined::grants(&CORE);
}

#[test]
fn vcpus_of_a_lower_vmpl_are_out_of_reach() {
    confined::vcpus(&CORE);
}

#[test]
fn the_lowest_free_record_of_every_set() {
    records::lowest_free(&CORE);
}

/// "a size wrong": each of the four buffers, a byte or a page too short or too long.
#[test]
fn sizes() {
    let fit = || {
        let mut machine = CORE.launched(16);
        machine.memory[0xA000] = 1;
        machine.registers = [6, 1, 0, 0, 0, 0x403].map(u64::to_le_bytes).concat();
        machine
    };
    let lengths: [(fn(&mut Machine) -> &mut Vec<u8>, &[usize]); 4] = [
        (
            |machine| &mut machine.memory,
            &[0, 15 * PAGE, 65535, 65537, 17 * PAGE],
        ),
        (|machine| &mut machine.table, &[0, 2, 15, 17, 8193]),
        (|machine| &mut machine.sheet, &[0, 32, 511, 513]),
        (|machine| &mut machine.registers, &[0, 40, 47, 49]),
    ];
    assert_eq!(call(&mut fit(), 0), 0);
    for (buffer, lengths) in lengths {
        for &length in lengths {
            let mut machine = fit();
            buffer(&mut machine).resize(length, 0);
            let before = machine.clone();
            assert_eq!(call(&mut machine, 0), 3, "{length}");
            assert!(machine == before, "{length}");
        }
    }
}
