//! "Sixteen pages": "Monitor 12 to 15, VMSA 11, calling 10, V 8, VMPL 1."

use crate::rows::*;

/// "Table whole".
const TABLE_WHOLE: [u8; 16] = [
    0x78, 0x78, 0x78, 0x78, 0x78, 0x78, 0x78, 0x78, 0x00, 0x00, 0x79, 0x0D, 0x0A, 0x0A, 0x0A, 0x0A,
];

const RECORD_0: [u8; 16] = [1, 1, 0, 0, 4, 3, 2, 1, 11, 0, 0, 0, 10, 0, 0, 0];

/// Panics unless launch leaves the table whole, record 0, and zeros in the others.
pub fn launch_holds(subject: &Subject) {
    let machine = subject.launched(16);
    assert_eq!(machine.table, TABLE_WHOLE);
    assert_eq!(machine.sheet[..16], RECORD_0);
    assert_eq!(machine.sheet[16..], [0; 496]);
    assert_eq!(machine.memory[0xA000..0xA002], [0, 0]);
}

/// The marked rows, one after the other on one machine.
pub const MARKED: &[Row] = &[
    Row {
        memory_before: &[
            (0x1000, &[1, 0, 0, 0, 0, 0, 0, 0, 4, 0x80, 0, 0, 0, 0, 0, 0]),
            (0x8000, &[0xEE; 4096]),
        ],
        memory: &[(0x1002, &[1, 0]), (0x8000, &[0; 4096])],
        table: &[(8, &[0x18])],
        ..Row::success(
            "Pvalidate: code 0, bytes 2,3 01 00, page 8 zeros, table byte 18",
            [1, 0x1000, 0, 0],
        )
    },
    Row {
        memory_before: &[(0x1002, &[0, 0]), (0x8FFF, &[7])],
        ..Row::refused(
            "Index back to 0, again: 0x80001010, index 0",
            [1, 0x1000, 0, 0],
            0x8000_1010,
        )
    },
    Row {
        memory_before: &[(0x1008, &[0x0C, 0x80])],
        memory: &[(0x1002, &[1, 0]), (0x8FFF, &[0])],
        ..Row::success("Entry 0x800C: success", [1, 0x1000, 0, 0])
    },
    Row {
        memory_before: &[
            (0x1002, &[0, 0]),
            (0x1008, &[0, 0x80]),
            (0x8000, &[7; 4096]),
        ],
        memory: &[(0x1002, &[1, 0]), (0xA001, &[1])],
        table: &[(8, &[0x0B])],
        ..Row::success(
            "Index 0, entry 0x8000 by Deposit: 0B, startup flag 1",
            [4, 0x1000, 0, 0],
        )
    },
    Row {
        memory_before: &[(0x2000, &[0xEE; 24])],
        memory: &[
            (0x2000, &[1, 0]),
            (0x2008, &[0, 0x80, 0, 0, 0, 0, 0, 0]),
            (0xA001, &[0]),
        ],
        table: &[(8, &[0x18])],
        ..Row::success(
            "Withdraw at 0x2000: 01 00, six bytes kept, 00 80 ..; byte 18, flag 0",
            [5, 0x2000, 0, 0],
        )
    },
    // Pages 8 and 3 are deposited for the next two.
    Row {
        memory_before: &[(0x1000, &[2, 0, 0, 0]), (0x1010, &[0, 0x30])],
        memory: &[(0x1002, &[2, 0]), (0xA001, &[1])],
        table: &[(3, &[0x0B]), (8, &[0x0B])],
        ..Row::success("Deposit of two pages", [4, 0x1000, 0, 0])
    },
    Row::refused(
        "Withdraw at 0x2FF8: PARAMETER",
        [5, 0x2FF8, 0, 0],
        PARAMETER,
    ),
    Row {
        memory_before: &[(0x2FF0, &[0xEE; 16])],
        memory: &[(0x2FF0, &[1, 0]), (0x2FF8, &[0, 0x30, 0, 0, 0, 0, 0, 0])],
        table: &[(3, &[0x18])],
        ..Row::success("at 0x2FF0 one entry fits", [5, 0x2FF0, 0, 0])
    },
    Row {
        memory: &[(0xA001, &[0])],
        table: &[(8, &[0x18])],
        ..Row::success("The other page, at 0x2000 as before", [5, 0x2000, 0, 0])
    },
    Row {
        memory: &[(0x2000, &[0, 0])],
        ..Row::success("Withdraw where no page is free", [5, 0x2000, 0, 0])
    },
    Row {
        memory_before: &[(0x1000, &[0xFF, 1, 0xFE, 1]), (0x1FF8, &[0x0C, 0x80])],
        memory: &[(0x1002, &[0xFF, 1]), (0x8000, &[0; 4096])],
        ..Row::success("Count 511 at offset 0 is read", [1, 0x1000, 0, 0])
    },
    Row {
        memory_before: &[(0x1000, &[0, 2, 0, 0])],
        ..Row::refused("512 is PARAMETER", [1, 0x1000, 0, 0], PARAMETER)
    },
    Row {
        memory_before: &[(0x60CA, &[1]), (0x60D0, &[0xFF; 8])],
        table: &[(6, &[0x0D]), (7, &[0x79])],
        sheet: &[(32, &[1, 1, 0, 0, 5, 0, 0, 0, 6, 0, 0, 0, 7])],
        ..Row::success(
            "Create with VMSA 6 .., calling 7, a new APIC ID: 0D, 79",
            [2, 0x6000, 0x7000, 5],
        )
    },
    Row {
        memory: &[(0x60D1, &[0xEF])],
        table: &[(6, &[0x18]), (7, &[0x78])],
        sheet: &[(32, &[0; 32])],
        ..Row::success("Delete: 18, 78", [3, 0x6000, 0, 0])
    },
    Row {
        memory_before: &[(0x20CA, &[1]), (0x20D1, &[0x10])],
        table: &[(2, &[0x0D]), (3, &[0x19])],
        sheet: &[(32, &[1, 1, 0, 0, 1, 0, 0, 0, 2, 0, 0, 0, 3])],
        ..Row::success("A second", [2, 0x2000, 0x3000, 1])
    },
    Row {
        memory_before: &[(0x40CA, &[2]), (0x40D1, &[0x10])],
        table: &[(4, &[0x0D]), (5, &[0x79])],
        sheet: &[(64, &[1, 2, 0, 0, 0, 0, 0, 0x80, 4, 0, 0, 0, 5])],
        ..Row::success("A third", [2, 0x4000, 0x5000, 0x8000_0000])
    },
    Row {
        memory_before: &[(0x60CA, &[1]), (0x60D1, &[0x10])],
        table: &[(6, &[0x0D]), (7, &[0x79])],
        sheet: &[(96, &[1, 1, 0, 0, 3, 0, 0, 0, 6, 0, 0, 0, 7])],
        ..Row::success(
            "A fourth; R8 bits 63:32 don't count",
            [2, 0x6000, 0x7000, 0x9_0000_0003],
        )
    },
    Row {
        memory_before: &[(0x00CA, &[3]), (0x00D1, &[0x10])],
        ..Row::refused(
            "A fifth live vCPU, pool empty: 0x40000001",
            [2, 0, 0x1000, 9],
            0x4000_0001,
        )
    },
    Row {
        memory_before: &[(0xA008, &[1, 0, 0, 0, 0, 0, 0, 0, 0, 0x80, 0, 0, 0, 0, 0, 0])],
        memory: &[(0xA00A, &[1, 0]), (0xA001, &[1])],
        table: &[(8, &[0x0B])],
        ..Row::success("A list in the calling page", [4, 0xA008, 0, 0])
    },
    Row {
        memory: &[(0xA001, &[0])],
        table: &[(0, &[0x0D]), (1, &[0x79]), (8, &[0x0C])],
        sheet: &[(128, &[1, 3, 0, 1, 9, 0, 0, 0, 0, 0, 0, 0, 1, 0, 0, 0, 8])],
        ..Row::success("The fifth with a pool page", [2, 0, 0x1000, 9])
    },
    Row {
        sheet_before: &[(128 + 2, &[1])],
        caller: 4,
        outcome: 2,
        memory: &[(0x00D1, &[0]), (0xA001, &[1])],
        table: &[(0, &[0x78]), (1, &[0x78]), (8, &[0x0B])],
        sheet: &[(128, &[0; 32])],
        ..Row::success(
            "the caller deleted itself | registers; its pending byte is not cleared",
            [3, 0, 0, 0],
        )
    },
    Row {
        rcx: Some(0),
        ..Row::success("Query RCX 2: 0", [6, 2, 0, 0])
    },
    Row {
        rcx: Some(0x0000_0001_0000_0001),
        ..Row::success("RCX becomes 0x0000000100000001 if it was 1", [6, 1, 0, 0])
    },
];

/// The rows that are not marked, one after the other on one machine, and the calls that no row makes.
pub const UNMARKED: &[Row] = &[
    Row {
        memory_before: &[
            (0x1000, &[2]),
            (0x1008, &[4, 0x80, 0, 0, 0, 0, 0, 0, 4, 0x80]),
            (0x8FFF, &[7]),
        ],
        code: 0x8000_1010,
        memory: &[(0x1002, &[1, 0]), (0x8FFF, &[0])],
        table: &[(8, &[0x18])],
        ..Row::success(
            "Page 8 twice in one list, both wishing valid: index 1, 0x80001010",
            [1, 0x1000, 0, 0],
        )
    },
    Row {
        memory_before: &[(0x1000, &[33, 0, 0, 0]), (0x1008, &repeated::<264>(0x800C))],
        code: 0x8000_0000,
        memory: &[(0x1002, &[32, 0])],
        ..Row::success("33 entries: incomplete at 32", [1, 0x1000, 0, 0])
    },
    Row {
        memory: &[(0x1002, &[33, 0])],
        ..Row::success("and again, to the end", [1, 0x1000, 0, 0])
    },
    Row {
        memory_before: &[(0x1000, &[34]), (0x1002, &[1, 0]), (0x1110, &[0xFF; 8])],
        code: 0x8000_0000,
        memory: &[(0x1002, &[33, 0])],
        ..Row::success(
            "what comes after the 32 has not been read",
            [1, 0x1000, 0, 0],
        )
    },
    Row {
        memory_before: &[(0x1000, &[1, 0, 0, 0]), (0x1008, &[5, 0])],
        ..Row::refused(
            "A 512-page entry with N 16: ADDRESS",
            [1, 0x1000, 0, 0],
            ADDRESS,
        )
    },
    Row {
        memory_before: &[(0x3000, &[9, 9, 9]), (0xA000, &[9, 9, 9])],
        memory: &[(0x3000, &[0, 0]), (0xA000, &[0])],
        table: &[(3, &[0x79]), (10, &[0x78])],
        sheet: &[(12, &[3])],
        ..Row::success(
            "Remap: the flag is in the new page, and the old one keeps byte 1",
            [0, 0x3000, 0, 0],
        )
    },
    Row::success("The same page again is success", [0, 0x3000, 0, 0]),
    Row {
        rcx: Some(0),
        ..Row::success("vTOM: RCX 1: success, RCX 0", [7, 1, 0, 0])
    },
    Row {
        rcx: Some(0),
        ..Row::success("Query: all of RCX counts", [6, 1 << 32 | 1, 0, 0])
    },
    Row {
        memory_before: &[(0x1000, &[1, 0, 0, 0]), (0x1008, &[4, 0x90])],
        sheet_before: &[(64, &[1, 2, 0, 0, 2, 0, 0, 0, 4, 0, 0, 0, 5])],
        caller: 2,
        memory: &[(0x1002, &[1])],
        table: &[(9, &[0x38])],
        ..Row::success(
            "Grant c sets the permissions of VMPL 1 to c",
            [1, 0x1000, 0, 0],
        )
    },
];
