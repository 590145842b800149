//! Every row of "Sixteen pages", marked or not, the refusals of each call in their order, lists that stop midway, callers of each VMPL,
//! and every set of live records: the model.

use trials::rows::{Machine, Subject};
use trials::{confined, lists, records, refusals, sixteen};

const MODEL: Subject = Subject { launch, call };

fn launch(machine: &mut Machine, valid_below: usize) -> u32 {
    let n = machine.table.len();
    let buffers = (&mut machine.memory, &mut machine.table, &mut machine.sheet);
    model::launch(
        buffers.0,
        buffers.1,
        buffers.2,
        n,
        n - 4,
        4,
        n - 5,
        n - 6,
        0x0102_0304,
        valid_below,
    )
}

fn call(machine: &mut Machine, caller: usize) -> u32 {
    let buffers = (&mut machine.memory, &mut machine.table, &mut machine.sheet);
    model::call(
        buffers.0,
        buffers.1,
        buffers.2,
        &mut machine.registers,
        caller,
    )
}

#[test]
fn table_whole() {
    sixteen::launch_holds(&MODEL);
}

#[test]
fn marked_rows() {
    MODEL.keeps(sixteen::MARKED);
}

#[test]
fn unmarked_rows() {
    MODEL.keeps(sixteen::UNMARKED);
}

#[test]
fn refusals_in_order() {
    refusals::hold(&MODEL);
}

#[test]
fn lists_of_33_entries() {
    lists::of_33_entries(&MODEL);
}

#[test]
fn lists_refused_at_each_entry() {
    lists::refused_at_each_entry(&MODEL);
}

#[test]
fn grants_end_at_the_callers_vmpl() {
    confined::grants(&MODEL);
}

#[test]
fn vcpus_of_a_lower_vmpl_are_out_of_reach() {
    confined::vcpus(&MODEL);
}

#[test]
fn the_lowest_free_record_of_every_set() {
    records::lowest_free(&MODEL);
}
