//! "A sound machine."

use crate::machine::*;

/// Whether the machine is sound. Sizes are part of it, since outcome 3 names them.
pub fn sound(memory: &[u8], table: &[u8], sheet: &[u8]) -> bool {
    if !pages_sized(memory, table) || sheet.len() != SHEET {
        return false;
    }
    // Nothing is said of memory's bytes.
    let machine = Machine {
        memory: &mut [],
        table: &mut table.to_vec(),
        sheet: &mut sheet.to_vec(),
    };
    !machine.bad_sheet() && records_sound(&machine) && pages_sound(&machine)
}

fn live_records(machine: &Machine) -> Vec<usize> {
    (0..RECORDS)
        .filter(|&record| machine.live(record))
        .collect()
}

fn records_sound(machine: &Machine) -> bool {
    let live = live_records(machine);
    (0..RECORDS).all(|record| {
        let bytes = &machine.sheet[RECORD * record..RECORD * (record + 1)];
        if !machine.live(record) {
            // "other records are zeros"
            return bytes.iter().all(|&byte| byte == 0);
        }
        // "keeps the layout above": no pool page where none is held, zeros at +20, features in record 0 only.
        let layout = (machine.holds(record) || machine.pool_page(record) == 0)
            && number(bytes, ZEROS, 4) == 0
            && (record == 0 || number(bytes, FEATURES, 8) == 0);
        // "A live record from 4 up holds a pool page, 0 to 3 never do"
        let holding = machine.holds(record) == (record >= 4);
        // "Live APIC IDs differ, and no live VMPL is below the startup's."
        let same_id = |other: &usize| machine.apic_id(*other) == machine.apic_id(record);
        let alone = live.iter().filter(|other| same_id(other)).count() == 1;
        layout && holding && alone && machine.vmpl(record) >= machine.vmpl(0)
    })
}

fn pages_sound(machine: &Machine) -> bool {
    let startup = machine.vmpl(0);
    let live = live_records(machine);
    (0..machine.table.len()).all(|page| {
        let byte = machine.table[page];
        let names = |named: &dyn Fn(usize) -> bool| live.iter().filter(|&&r| named(r)).count();
        let as_vmsa = names(&|record| machine.vmsa_page(record) == page);
        let as_calling = names(&|record| machine.calling_page(record) == page);
        let as_held = names(&|record| machine.holds(record) && machine.pool_page(record) == page);
        // "Owners 5, 1 and 4 stand on exactly the pages that live records name as VMSA, calling page and held pool page, each named once; 6 and 7 don't occur."
        let owners = match owner(byte) {
            VMSA => (as_vmsa, as_calling, as_held) == (1, 0, 0),
            CALLING => (as_vmsa, as_calling, as_held) == (0, 1, 0),
            POOL_IN_USE => (as_vmsa, as_calling, as_held) == (0, 0, 1),
            PLAIN | MONITOR | POOL_FREE => (as_vmsa, as_calling, as_held) == (0, 0, 0),
            _ => false,
        };
        // "Pages that aren't plain are valid."
        let validity = owner(byte) == PLAIN || valid(byte);
        // "Owners 2 to 5 and invalid pages carry no permission; valid plain and calling pages carry the startup's VMPL."
        let permissions = match owner(byte) {
            PLAIN | CALLING if valid(byte) => permitted(byte, startup),
            _ => byte & 0x70 == 0,
        };
        owners && validity && permissions
    })
}
