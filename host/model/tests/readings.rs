//! Points that document 01 leaves to be read closely.

mod common;

use common::Owned;
use model::answers::*;
use model::call::*;
use model::machine::{put_number, PAGE};
use model::{mark, store};

const REMAP: u64 = 0;
const PVALIDATE: u64 = 1;
const DELETE: u64 = 3;
const DEPOSIT: u64 = 4;
const WITHDRAW: u64 = 5;

/// 1,030 pages, the first 1,000 valid.
fn large() -> Owned {
    Owned::launched(1030, 1000, 1)
}

#[test]
fn grant_covers_every_vmpl_up_to_the_callers() {
    for (vmpl, byte) in [(1, 0x18), (2, 0x38), (3, 0x78)] {
        let mut machine = Owned::launched(16, 8, vmpl);
        machine.list(0x1000, 0, &[0x8004]);
        assert_eq!(machine.call(PVALIDATE, 0x1000), SUCCESS);
        assert_eq!(machine.table[8], byte);
        assert!(machine.sound());
    }
}

#[test]
fn bit_7_of_a_table_byte_is_kept() {
    let mut machine = Owned::sixteen();
    for byte in &mut machine.table {
        *byte |= 0x80;
    }
    assert!(machine.sound());
    machine.list(0x1000, 0, &[0x8004]);
    assert_eq!(machine.call(PVALIDATE, 0x1000), SUCCESS);
    assert_eq!(machine.table[8], 0x98);
    machine.list(0x1000, 0, &[0x8000]);
    assert_eq!(machine.call(PVALIDATE, 0x1000), SUCCESS);
    assert_eq!(machine.table[8], 0x80);
    assert_eq!(machine.create(6, 1, 7, 5), SUCCESS);
    assert_eq!((machine.table[6], machine.table[7]), (0x8D, 0xF9));
    assert!(machine.sound());
}

#[test]
fn every_page_of_a_512_page_entry_counts() {
    let mut machine = large();
    machine.memory[PAGE * 700] = 1;
    // Pages 512 to 1,023 are not of equal validity, and bit 3 does not excuse that.
    for entry in [0x20_0001, 0x20_0005, 0x20_000D] {
        machine.list(0x1000, 0, &[entry]);
        let before = machine.table.clone();
        // The VMSA is page 1,025, so all of them are plain.
        assert_eq!(machine.call(PVALIDATE, 0x1000), SIZE_MISMATCH);
        assert_eq!(machine.table, before);
        assert_eq!(machine.index(0x1000), 0);
    }
    machine.list(0x1000, 0, &[0x20_0001]);
    assert_eq!(machine.call(DEPOSIT, 0x1000), ADDRESS);
    // The rest made valid: now they are equal.
    for first in [1000, 1012] {
        let entries: Vec<u64> = (first..first + 12).map(|page| page << 12 | 4).collect();
        machine.list(0x1000, 0, &entries);
        assert_eq!(machine.call(PVALIDATE, 0x1000), SUCCESS);
    }
    machine.list(0x1000, 0, &[0x20_0005]);
    assert_eq!(machine.call(PVALIDATE, 0x1000), NO_CHANGE);
    machine.list(0x1000, 0, &[0x20_000D]);
    assert_eq!(machine.call(PVALIDATE, 0x1000), SUCCESS);
    assert_eq!(machine.memory[PAGE * 700], 0);
    machine.list(0x1000, 0, &[0x20_0001]);
    assert_eq!(machine.call(DEPOSIT, 0x1000), SUCCESS);
    assert!(machine.table[512..1024].iter().all(|&byte| byte == 0x0B));
    assert!(machine.sound());
    // A withdrawal takes as many as fit: 511 at offset 0.
    assert_eq!(machine.call(WITHDRAW, 0x2000), SUCCESS);
    assert_eq!(machine.memory[0x2000..0x2002], 511_u16.to_le_bytes());
    assert_eq!((machine.table[1022], machine.table[1023]), (0x18, 0x0B));
    assert_eq!(machine.flag(), 1);
    assert!(machine.sound());
}

#[test]
fn an_entry_may_not_cover_its_own_list() {
    let mut machine = large();
    // The list is in page 1, which the 512 pages from 0 cover.
    for entry in [0x0009, 0x1008, 0x1000] {
        machine.list(0x1000, 0, &[entry]);
        assert_eq!(machine.call(PVALIDATE, 0x1000), ADDRESS);
    }
    machine.list(0x1000, 0, &[0x1000]);
    assert_eq!(machine.call(DEPOSIT, 0x1000), ADDRESS);
}

#[test]
fn a_wish_for_invalid_that_bit_3_excused_is_carried_out() {
    let mut machine = Owned::sixteen();
    machine.table[9] = 0x70; // invalid and yet permitted: not sound
    machine.list(0x1000, 0, &[0x9000]);
    assert_eq!(machine.call(PVALIDATE, 0x1000), NO_CHANGE);
    machine.list(0x1000, 0, &[0x9008]);
    assert_eq!(machine.call(PVALIDATE, 0x1000), SUCCESS);
    assert_eq!(machine.table[9], 0x00);
}

#[test]
fn a_list_in_the_calling_page() {
    let mut machine = Owned::sixteen();
    assert_eq!(machine.call(WITHDRAW, 0xA000), ADDRESS);
    assert_eq!(machine.call(WITHDRAW, 0xA008), SUCCESS);
    machine.list(0xA008, 0, &[0x8004]);
    assert_eq!(machine.call(PVALIDATE, 0xA008), SUCCESS);
    assert_eq!(machine.index(0xA008), 1);
    assert_eq!(machine.call(PVALIDATE, 0xA008), PARAMETER);
}

#[test]
fn remap() {
    let mut machine = Owned::sixteen();
    machine.write(0x3000, &[9, 9, 9]);
    machine.write(0xA000, &[9, 9, 9]);
    assert_eq!(machine.call(REMAP, 0x3000), SUCCESS);
    assert_eq!(machine.calling_page(0), 3);
    assert_eq!((machine.table[3], machine.table[10]), (0x79, 0x78));
    // The flag is set in the new page; the old one keeps byte 1.
    assert_eq!(machine.memory[0x3000..0x3003], [0, 0, 9]);
    assert_eq!(machine.memory[0xA000..0xA003], [0, 9, 9]);
    assert!(machine.sound());
    let before = (machine.table.clone(), machine.sheet.clone());
    assert_eq!(machine.call(REMAP, 0x3000), SUCCESS);
    assert_eq!((machine.table.clone(), machine.sheet.clone()), before);
    // Another vCPU's calling page is neither plain nor the caller's own.
    assert_eq!(machine.create(6, 1, 7, 5), SUCCESS);
    assert_eq!(machine.call(REMAP, 0x7000), ADDRESS);
    // The caller's own page is the one that its record names, whatever the table says; it must be valid.
    machine.table[3] = 0x0D;
    assert_eq!(machine.call(REMAP, 0x3000), SUCCESS);
    assert_eq!(machine.table[3], 0x09);
    machine.table[3] = 0x71;
    assert_eq!(machine.call(REMAP, 0x3000), ADDRESS);
}

#[test]
fn create_touches_no_byte_of_the_new_calling_page() {
    let mut machine = Owned::launched(16, 8, 2);
    machine.memory[0x7000] = 1;
    assert_eq!(machine.create(6, 3, 7, 1 << 31), SUCCESS);
    assert_eq!(machine.memory[0x7000], 1);
    assert_eq!(machine.sheet[32..34], [1, 3]);
    assert!(machine.sound());
}

#[test]
fn create_looks_at_no_byte_of_a_free_record_but_the_first() {
    let mut machine = Owned::sixteen();
    machine.sheet[4] = 9; // the startup's APIC ID
    machine.sheet[32..64].fill(1);
    machine.sheet[32] = 0;
    machine.sheet[64 + 4] = 5;
    // APIC IDs 0 and 5 are those of records that are not live.
    assert_eq!(machine.create(6, 2, 7, 5), SUCCESS);
    let mut record = [0; 32];
    record[..16].copy_from_slice(&[1, 2, 0, 0, 5, 0, 0, 0, 6, 0, 0, 0, 7, 0, 0, 0]);
    assert_eq!(machine.sheet[32..64], record);
    assert_eq!(machine.create(4, 1, 5, 0), SUCCESS);
    assert_eq!(machine.create(2, 1, 3, 9), PARAMETER);
    assert!(machine.sound());
}

#[test]
fn delete_clears_one_bit_of_efer() {
    let mut machine = Owned::sixteen();
    machine.memory[0x60D0..0x60D8].fill(0xFF);
    assert_eq!(machine.create(6, 1, 7, 5), SUCCESS);
    machine.memory[0x60D0..0x60D8].fill(0xFF);
    assert_eq!(machine.call(DELETE, 0x6000), SUCCESS);
    let efer = (!0x1000_u64).to_le_bytes();
    assert_eq!(machine.memory[0x60D0..0x60D8], efer);
}

#[test]
fn numbers_of_pages() {
    for (n, fit) in [(2, false), (3, true), (8192, true), (8193, false)] {
        let mut machine = Owned {
            memory: vec![0; PAGE * n],
            table: vec![0x78; n],
            sheet: vec![0; 512],
            registers: vec![0; 48],
        };
        machine.sheet[..16].copy_from_slice(&[1, 1, 0, 0, 0, 0, 0, 0, 1, 0, 0, 0, 0, 0, 0, 0]);
        machine.table[..2].copy_from_slice(&[0x79, 0x0D]);
        assert_eq!(machine.sound(), fit);
        let outcome = machine.outcome(0, 6, 1, 0, 0);
        assert_eq!(outcome, if fit { HANDLED } else { BAD_MACHINE });
        let answer = store(&mut machine.memory, &machine.table, 1, n - 1, 0, &[1]);
        assert_eq!(answer, u32::from(!fit));
    }
}

#[test]
fn sixteen_live_records_are_all() {
    let mut machine = Owned::launched(64, 58, 1);
    let deposits: Vec<u64> = (40..52).map(|page| page << 12).collect();
    machine.list(0x2_6000, 0, &deposits);
    assert_eq!(machine.call(DEPOSIT, 0x2_6000), SUCCESS);
    for record in 1..16 {
        assert_eq!(
            machine.create(2 * record, 1, 2 * record + 1, record as u64),
            SUCCESS
        );
        assert!(machine.sound());
    }
    assert_eq!(machine.flag(), 0);
    assert_eq!(machine.create(34, 1, 35, 99), REQUEST);
    // Record 2 is free again: the lowest free record goes by number, and 2 needs no page.
    assert_eq!(machine.call(DELETE, 0x4000), SUCCESS);
    assert_eq!(machine.create(34, 1, 35, 99), SUCCESS);
    assert_eq!(machine.sheet[64 + 8], 34);
    assert_eq!(machine.sheet[64 + 3], 0);
    assert!(machine.sound());
}

#[test]
fn delete() {
    let mut machine = Owned::sixteen();
    assert_eq!(machine.create(4, 1, 5, 4), SUCCESS);
    assert_eq!(machine.create(6, 2, 7, 6), SUCCESS);
    assert_eq!(mark(&mut machine.sheet, 1, 1), 0);
    assert_eq!(machine.call(DELETE, 0x4000), IN_USE);
    // Record 2 is of VMPL 2: record 1 is not its to delete, running or not.
    assert_eq!(machine.call_of(2, DELETE, 0x4000, 0, 0), PARAMETER);
    // A vCPU that deletes itself may be running.
    assert_eq!(mark(&mut machine.sheet, 2, 1), 0);
    machine.memory[0xA001] = 9;
    let before = machine.clone();
    assert_eq!(machine.outcome(2, DELETE, 0x6000, 1, 2), GONE);
    for (index, value) in [DELETE, 0x6000, 1, 2, 0, 0x403].iter().enumerate() {
        assert_eq!(machine.registers[8 * index..][..8], value.to_le_bytes());
    }
    assert_eq!(machine.memory[0x7000], 1);
    assert_eq!(machine.memory[0xA001], 0);
    assert_eq!(machine.memory[0x60D1], before.memory[0x60D1] & !0x10);
    assert_eq!((machine.table[6], machine.table[7]), (0x38, 0x78));
    assert_eq!(machine.sheet[64..96], [0; 32]);
    assert!(machine.sound());
}

#[test]
fn where_two_records_name_one_vmsa_the_lowest_counts() {
    let mut machine = Owned::sixteen();
    assert_eq!(machine.create(4, 1, 5, 4), SUCCESS);
    assert_eq!(machine.create(6, 1, 7, 6), SUCCESS);
    machine.sheet[64 + 8] = 4;
    assert!(!machine.sound());
    // Record 2 names page 4 as its own VMSA, and deletes record 1.
    assert_eq!(machine.outcome(2, DELETE, 0x4000, 0, 0), HANDLED);
    assert_eq!(machine.sheet[32..64], [0; 32]);
    assert_eq!(machine.sheet[64], 1);
    // Once more: now it is itself.
    assert_eq!(machine.outcome(2, DELETE, 0x4000, 0, 0), GONE);
}

#[test]
fn every_pending_byte_from_2_up() {
    let mut machine = Owned::sixteen();
    put_number(&mut machine.registers, EXIT_REASON, 8, 0x403);
    for pending in 2..=255 {
        put_number(&mut machine.registers, RAX, 8, 1 << 32 | 6);
        machine.memory[0xA000] = pending;
        assert_eq!(machine.call_raw(0), HANDLED);
        assert_eq!(machine.registers[..8], u64::from(BAD_PENDING).to_le_bytes());
        assert_eq!(machine.memory[0xA000], 0);
    }
}

#[test]
fn bad_machines() {
    let mut fit = Owned::sixteen();
    assert_eq!(fit.create(6, 1, 7, 6), SUCCESS);
    put_number(&mut fit.registers, RAX, 8, 6);
    fit.memory[0xA000] = 1;
    assert_eq!(fit.clone().call_raw(0), HANDLED);
    let bad = |spoil: &dyn Fn(&mut Owned)| {
        let mut machine = fit.clone();
        spoil(&mut machine);
        let before = machine.clone();
        assert_eq!(machine.call_raw(0), BAD_MACHINE);
        assert_eq!(machine, before);
        assert!(!machine.sound() || machine.registers.len() != 48);
    };
    bad(&|machine| machine.memory.truncate(65535));
    bad(&|machine| machine.memory.push(0));
    bad(&|machine| machine.table.truncate(15));
    bad(&|machine| machine.table.push(0));
    bad(&|machine| machine.sheet.truncate(511));
    bad(&|machine| machine.sheet.push(0));
    bad(&|machine| machine.registers.truncate(47));
    bad(&|machine| machine.registers.push(0));
    for (at, value) in [
        (0, 0),   // record 0 not live
        (0, 2),   // a live byte above 1
        (2, 2),   // a running byte
        (3, 2),   // a holding byte
        (160, 2), // the same of a record that is not live
        (162, 255),
        (163, 2),
        (1, 0), // VMPL
        (1, 4),
        (33, 0),
        (32 + 8, 16), // VMSA page
        (32 + 11, 1),
        (32 + 12, 16), // calling page
        (12, 16),
    ] {
        bad(&|machine| machine.sheet[at] = value);
    }
    // The pool page counts where it is held.
    bad(&|machine| {
        machine.sheet[32 + 3] = 1;
        machine.sheet[32 + 16] = 16;
    });
    let mut not_held = fit.clone();
    not_held.sheet[32 + 16] = 16;
    assert_eq!(not_held.call_raw(0), HANDLED);
    assert!(!not_held.sound());
    // VMPL and pages of a record that is not live don't.
    let mut not_live = fit.clone();
    not_live.sheet[161] = 9;
    not_live.sheet[168] = 16;
    assert_eq!(not_live.call_raw(0), HANDLED);
    for caller in [2, 15, 16, usize::MAX] {
        let mut machine = fit.clone();
        assert_eq!(machine.call_raw(caller), BAD_MACHINE);
        assert_eq!(machine, fit);
    }
}

#[test]
fn where_pages_coincide_the_later_write_stands() {
    // Record 1 names record 0's calling page as its own.
    let mut machine = Owned::sixteen();
    assert_eq!(machine.create(6, 1, 7, 6), SUCCESS);
    machine.sheet[32 + 12] = 10;
    assert_eq!(machine.outcome(1, REMAP, 0x3000, 0, 0), HANDLED);
    assert_eq!((machine.table[3], machine.table[10]), (0x79, 0x78));
    assert_eq!(machine.calling_page(0), 10);
    // Record 1's VMSA page is its calling page too: plain, and granted.
    machine.sheet[32 + 12] = 6;
    assert_eq!(machine.outcome(0, DELETE, 0x6000, 0, 0), HANDLED);
    assert_eq!(machine.table[6], 0x18);
}

#[test]
fn stores_and_marks() {
    let mut machine = Owned::sixteen();
    let mut try_store = |vmpl, page, offset, bytes: &[u8]| {
        store(
            &mut machine.memory,
            &machine.table,
            vmpl,
            page,
            offset,
            bytes,
        )
    };
    assert_eq!(try_store(1, 3, 4095, &[5]), 0);
    assert_eq!(try_store(3, 3, 4096, &[]), 0);
    assert_eq!(try_store(3, 3, 4097, &[]), 1);
    assert_eq!(try_store(3, 3, usize::MAX, &[1]), 1);
    assert_eq!(try_store(0, 3, 0, &[1]), 1);
    assert_eq!(try_store(4, 3, 0, &[1]), 1);
    assert_eq!(try_store(1, 8, 0, &[1]), 1);
    assert_eq!(try_store(1, 10, 0, &[1]), 0);
    assert_eq!(try_store(1, 11, 0, &[1]), 1);
    assert_eq!(try_store(1, 16, 0, &[]), 1);
    assert_eq!(machine.memory[0x3FFF], 5);
    assert_eq!(mark(&mut machine.sheet, 0, 1), 0);
    assert_eq!(mark(&mut machine.sheet, 0, 2), 1);
    assert_eq!(mark(&mut machine.sheet, 1, 1), 1);
    assert_eq!(mark(&mut machine.sheet, 16, 1), 1);
    assert_eq!(machine.sheet[2], 1);
    assert_eq!(mark(&mut machine.sheet, 0, 0), 0);
    machine.sheet[0] = 2;
    assert_eq!(mark(&mut machine.sheet, 0, 1), 1);
}

#[test]
fn machines_that_are_not_sound() {
    let mut fit = Owned::launched(64, 58, 2);
    fit.list(0x2_6000, 0, &[40 << 12, 41 << 12]);
    assert_eq!(fit.call(DEPOSIT, 0x2_6000), SUCCESS);
    for record in 1..5 {
        assert_eq!(
            fit.create(2 * record, 3, 2 * record + 1, record as u64),
            SUCCESS
        );
    }
    assert!(fit.sound());
    let table_faults = [
        (0, 0x08),  // valid and plain, with no permission
        (0, 0x58),  // permitted, and not to the startup's VMPL
        (0, 0x10),  // invalid and permitted
        (0, 0x7E),  // owner 6
        (0, 0x0F),  // owner 7
        (0, 0x0D),  // a VMSA that no record names
        (0, 0x79),  // a calling page
        (0, 0x0C),  // a pool page in use
        (2, 0x08),  // a VMSA that is plain
        (2, 0x3D),  // permitted
        (2, 0x05),  // invalid
        (3, 0x78),  // a calling page that is plain
        (3, 0x70),  // that is not valid
        (3, 0x09),  // without the startup's permission
        (40, 0x0B), // a held page that is free
        (41, 0x03), // a free page that is not valid
        (41, 0x1B), // that is permitted
        (41, 0x0C), // that is in use and no one's
        (63, 0x02), // a monitor page that is not valid
        (63, 0x7A), // that is permitted
    ];
    for (page, byte) in table_faults {
        let mut machine = fit.clone();
        machine.table[page] = byte;
        assert!(!machine.sound(), "page {page} {byte:#x}");
    }
    for (page, byte) in [
        (0, 0x00),
        (0, 0xA8),
        (0, 0x28),
        (3, 0x29),
        (63, 0x00),
        (41, 0x38),
    ] {
        let mut machine = fit.clone();
        machine.table[page] = byte;
        assert!(machine.sound(), "page {page} {byte:#x}");
    }
    let sheet_faults = [
        (0, 0),  // record 0 not live
        (16, 1), // a pool page that is not held
        (20, 1), // not zeros
        (32 + 23, 1),
        (32 + 24, 1), // features in another record
        (32 + 31, 1),
        (32 + 1, 1),    // VMPL below the startup's
        (32 + 4, 0),    // the startup's APIC ID
        (32 + 4, 2),    // another's
        (32 + 8, 4),    // another's VMSA
        (32 + 12, 5),   // another's calling page
        (32 + 12, 2),   // its own VMSA
        (128 + 3, 0),   // record 4 without a pool page
        (128 + 16, 41), // a page that is not in use
        (160 + 5, 1),   // a record that is not live, and not zeros
        (160 + 31, 1),
    ];
    for (at, value) in sheet_faults {
        let mut machine = fit.clone();
        machine.sheet[at] = value;
        assert!(!machine.sound(), "byte {at} {value}");
    }
    // Running or not, and the startup's features, are free.
    for at in [2, 34, 24, 31] {
        let mut machine = fit.clone();
        machine.sheet[at] = 1;
        assert!(machine.sound(), "byte {at}");
    }
    // A record below 4 that holds a pool page, though it is all in order otherwise.
    let mut machine = fit.clone();
    machine.sheet[32 + 3] = 1;
    machine.sheet[32 + 16] = 41;
    machine.table[41] = 0x0C;
    assert!(!machine.sound());
    // Record 4 holds nothing, though it is all in order otherwise.
    let mut machine = fit.clone();
    machine.sheet[128 + 3] = 0;
    machine.sheet[128 + 16] = 0;
    machine.table[40] = 0x0B;
    assert!(!machine.sound());
    // One VMSA, and one calling page, named twice.
    let mut machine = fit.clone();
    machine.sheet[32 + 8] = 4;
    machine.table[2] = 0x78;
    assert!(!machine.sound());
    let mut machine = fit.clone();
    machine.sheet[32 + 12] = 5;
    machine.table[3] = 0x78;
    assert!(!machine.sound());
    // One pool page, held twice.
    let mut machine = fit.clone();
    assert_eq!(machine.create(12, 2, 13, 77), SUCCESS);
    assert!(machine.sound());
    machine.sheet[160 + 16] = 40;
    machine.table[41] = 0x0B;
    assert!(!machine.sound());
}
