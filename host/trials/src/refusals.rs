//! "The eight calls, checks in order": for each two checks that follow one another and whose codes differ, an input that fails both. The earlier wins.
//! "This / that" in a row's words means that both fail.

use crate::rows::*;

/// Panics unless every row holds, each on a machine just launched.
pub fn hold(subject: &Subject) {
    for rows in [
        OUTCOMES, REMAP, PVALIDATE, CREATE, DELETE, DEPOSIT, WITHDRAW, VTOM,
    ] {
        rows.iter().for_each(|row| row.holds(subject));
    }
    for row in HEADS.iter().chain(ENTRIES) {
        let [_, rcx, rdx, r8] = row.asks;
        for call in [1, 4] {
            let asks = [call, rcx, rdx, r8];
            Row { asks, ..*row }.holds(subject);
        }
    }
}

const fn refused(says: &'static str, call: u64, rcx: u64, code: u64) -> Row {
    Row::refused(says, [call, rcx, 0, 0], code)
}

const fn create(says: &'static str, rcx: u64, rdx: u64, r8: u64, code: u64) -> Row {
    Row::refused(says, [2, rcx, rdx, r8], code)
}

/// Record 1 is live, of VMPL 1, and runs: VMSA 6, calling page 7. Record 2 is of VMPL 2: VMSA 4, calling page 5.
const TWO_MORE: &[At] = &[
    (32, &[1, 1, 1, 0, 1, 0, 0, 0, 6, 0, 0, 0, 7]),
    (64, &[1, 2, 0, 0, 2, 0, 0, 0, 4, 0, 0, 0, 5]),
];

/// Records 1 to 3 are live.
const FOUR_LIVE: &[At] = &[(32, &[1, 1]), (64, &[1, 1]), (96, &[1, 1])];

const SIXTEEN_LIVE: &[At] = &[
    (32, &[1, 1]),
    (64, &[1, 1]),
    (96, &[1, 1]),
    (128, &[1, 1]),
    (160, &[1, 1]),
    (192, &[1, 1]),
    (224, &[1, 1]),
    (256, &[1, 1]),
    (288, &[1, 1]),
    (320, &[1, 1]),
    (352, &[1, 1]),
    (384, &[1, 1]),
    (416, &[1, 1]),
    (448, &[1, 1]),
    (480, &[1, 1]),
];

/// Page 6 is a VMSA that Create takes.
const VMSA_6: &[At] = &[(0x60CA, &[1]), (0x60D1, &[0x10])];

/// The outcomes, and what comes before the eight calls.
const OUTCOMES: &[Row] = &[
    Row {
        sheet_before: &[(2, &[2])],
        pending: 0,
        outcome: 3,
        ..Row::success("bad machine / no call: a running byte", [6, 1, 0, 0])
    },
    Row {
        caller: 1,
        exit_reason: 0,
        outcome: 3,
        ..Row::success("bad machine / no call: the caller", [6, 1, 0, 0])
    },
    Row {
        pending: 0,
        outcome: 1,
        ..Row::success("pending byte 0", [8, 1, 0, 0])
    },
    Row {
        pending: 2,
        exit_reason: 0x402,
        outcome: 1,
        ..Row::success("no call / 0x80000004", [6, 1, 0, 0])
    },
    Row {
        exit_reason: 0x1_0000_0403,
        outcome: 1,
        ..Row::success("the exit reason is compared whole", [6, 1, 0, 0])
    },
    Row {
        pending: 2,
        ..refused("0x80000004 / protocol", 1 << 32 | 8, 1, 0x8000_0004)
    },
    Row {
        pending: 255,
        ..refused("0x80000004 / the call", 8, 1, 0x8000_0004)
    },
    refused("protocol / call", 1 << 32 | 8, 1, 0x8000_0001),
    refused("all of RAX counts", 1 << 63 | 6, 1, 0x8000_0001),
    refused("call 8", 8, 0x1008, 0x8000_0002),
    refused("the last call", 0xFFFF_FFFF, 1, 0x8000_0002),
];

const REMAP: &[Row] = &[
    refused("not a multiple / not below N", 0, 0x1_0008, PARAMETER),
    refused("not a multiple / not valid", 0, 0x8001, PARAMETER),
    refused("not a multiple / not plain", 0, 0xB800, PARAMETER),
    refused("not below N", 0, 0x1_0000, ADDRESS),
    refused("page 3 in the low 32 bits only", 0, 0x1_0000_3000, ADDRESS),
    refused("not valid", 0, 0x8000, ADDRESS),
    refused("VMSA", 0, 0xB000, ADDRESS),
    refused("monitor", 0, 0xC000, ADDRESS),
    Row {
        sheet_before: TWO_MORE,
        table_before: &[(7, &[0x79])],
        ..refused("another's calling page", 0, 0x7000, ADDRESS)
    },
    Row {
        table_before: &[(10, &[0x71])],
        ..refused("its own page, not valid", 0, 0xA000, ADDRESS)
    },
];

/// Heads of a list that Pvalidate and Deposit refuse alike.
const HEADS: &[Row] = &[
    refused("not a multiple of 8 / not below N", 1, 0x1_0004, PARAMETER),
    refused("not a multiple of 8 / not valid", 1, 0x8004, PARAMETER),
    refused("not a multiple of 8 / not plain", 1, 0xB001, PARAMETER),
    refused("not below N", 1, 0x1_0000, ADDRESS),
    refused("page 1 in the low 32 bits only", 1, 0x1_0000_1000, ADDRESS),
    refused("the last of all", 1, 0xFFFF_FFFF_FFFF_FFF8, ADDRESS),
    refused("not valid / count 0", 1, 0x8000, ADDRESS),
    refused("VMSA / count 0", 1, 0xB008, ADDRESS),
    refused("monitor / count 0", 1, 0xC008, ADDRESS),
    Row {
        memory_before: &[(0xA001, &[2])],
        memory: &[(0xA001, &[0])],
        ..refused("calling with page offset 0 / count 513", 1, 0xA000, ADDRESS)
    },
    Row {
        memory_before: &[(0x8FF8, &[1])],
        ..refused("not valid / no room", 1, 0x8FF8, ADDRESS)
    },
    refused("count 0", 1, 0x1000, PARAMETER),
    refused("count 0 in the calling page", 1, 0xA008, PARAMETER),
    Row {
        memory_before: &[(0x1FF8, &[1])],
        ..refused("no room for an entry", 1, 0x1FF8, PARAMETER)
    },
    Row {
        memory_before: &[(0x1000, &[0, 2]), (0x1008, &[0, 0, 1])],
        ..refused("count 512 / an entry past N", 1, 0x1000, PARAMETER)
    },
    Row {
        memory_before: &[(0x1008, &[0xFF, 1]), (0x1010, &[0, 0, 1])],
        ..refused("count 511 at offset 8", 1, 0x1008, PARAMETER)
    },
    Row {
        memory_before: &[(0x1000, &[1, 0, 1, 0]), (0x1008, &[0, 0, 1])],
        ..refused("next not below count / an entry", 1, 0x1000, PARAMETER)
    },
    Row {
        memory_before: &[(0x1000, &[1, 0, 0xFF, 0xFF])],
        ..refused("next 65,535", 1, 0x1000, PARAMETER)
    },
];

/// The head of a list at 0x1000: of two entries, the second is next.
const SECOND: At = (0x1000, &[2, 0, 1, 0]);

/// A row whose next entry starts with these bytes.
macro_rules! entry {
    ($says:literal, $bytes:expr, $code:expr) => {
        Row {
            memory_before: &[SECOND, (0x1010, &$bytes)],
            ..refused($says, 1, 0x1000, $code)
        }
    };
}

/// Entries that Pvalidate and Deposit refuse alike.
const ENTRIES: &[Row] = &[
    entry!("size 2 / not below N", [2, 0, 1], PARAMETER),
    entry!("size 3 / not below N", [3, 0, 1], PARAMETER),
    entry!("bit 4 / not below N", [0x10, 0, 1], PARAMETER),
    entry!("bit 11 / not below N", [0, 8, 1], PARAMETER),
    entry!("not a multiple of 512 / not below N", [1, 0, 1], PARAMETER),
    entry!("size 2 / its own list", [2, 0x10], PARAMETER),
    entry!("bit 5 / not plain", [0x20, 0xB0], PARAMETER),
    entry!("not below N", [0, 0, 1], ADDRESS),
    entry!("512 pages of sixteen", [1], ADDRESS),
    entry!(
        "the last 512 of all",
        0xFFFF_FFFF_FFE0_0001_u64.to_le_bytes(),
        ADDRESS
    ),
    entry!(
        "page 8 in the low 32 bits only",
        [0, 0x80, 0, 0, 1],
        ADDRESS
    ),
    entry!("page 8, and bit 44", [0, 0x80, 0, 0, 0, 0x10], ADDRESS),
    entry!("its own list", [0, 0x10], ADDRESS),
    entry!("calling", [0, 0xA0], ADDRESS),
    entry!("VMSA", [0, 0xB0], ADDRESS),
    entry!("monitor", [0, 0xC0], ADDRESS),
];

const PVALIDATE: &[Row] = &[
    Row {
        memory_before: &[(0x1000, &[1]), (0x1008, &[4, 0xA0])],
        ..refused("not plain / 0x80001010", 1, 0x1000, ADDRESS)
    },
    Row {
        memory_before: &[(0x1000, &[1]), (0x1008, &[4, 0x10])],
        ..refused("its own list / 0x80001010", 1, 0x1000, ADDRESS)
    },
    Row {
        pages: 1030,
        table_before: &[(700, &[0x0B])],
        memory_before: &[(0x1000, &[1]), (0x1008, &[5, 0, 0x20])],
        memory: &[(4096 * 1024 + 1, &[1])],
        ..refused("not plain / 0x80001006", 1, 0x1000, ADDRESS)
    },
    Row {
        pages: 1030,
        memory_before: &[(0x20_1000, &[1]), (0x20_1008, &[1, 0, 0x20])],
        ..refused("the list inside / 0x80001006", 1, 0x20_1000, ADDRESS)
    },
    Row {
        pages: 1030,
        memory_before: &[(0x1000, &[1]), (0x1008, &[5, 0, 0x20])],
        ..refused("0x80001006 / 0x80001010", 1, 0x1000, 0x8000_1006)
    },
    Row {
        pages: 1030,
        table_before: &[(512, &[0])],
        memory_before: &[(0x1000, &[1]), (0x1008, &[1, 0, 0x20])],
        ..refused("the same of invalid pages", 1, 0x1000, 0x8000_1006)
    },
    Row {
        pages: 1030,
        memory_before: &[(0x1000, &[1]), (0x1008, &[0x0D, 0, 0x20])],
        ..refused("0x80001006 with bit 3", 1, 0x1000, 0x8000_1006)
    },
    Row {
        memory_before: &[(0x1000, &[1]), (0x1008, &[0, 0x90])],
        ..refused("already invalid", 1, 0x1000, 0x8000_1010)
    },
    Row {
        memory_before: &[
            (0x1000, &[3]),
            (0x1008, &[4, 0x80, 0, 0, 0, 0, 0, 0, 4, 0xB0]),
            (0x8010, &[9]),
        ],
        memory: &[(0x1002, &[1]), (0x8010, &[0])],
        table: &[(8, &[0x18])],
        ..refused("earlier entries stand", 1, 0x1000, ADDRESS)
    },
];

const DEPOSIT: &[Row] = &[
    Row {
        memory_before: &[(0x1000, &[1]), (0x1008, &[4, 0, 1])],
        ..refused("bit 2 / not below N", 4, 0x1000, PARAMETER)
    },
    Row {
        memory_before: &[(0x1000, &[1]), (0x1008, &[8, 0x80])],
        ..refused("bit 3 / not valid", 4, 0x1000, PARAMETER)
    },
    Row {
        pages: 1030,
        memory_before: &[(0x1000, &[1]), (0x1008, &[1, 0, 0x20])],
        ..refused("the last of 512 pages not valid", 4, 0x1000, ADDRESS)
    },
    Row {
        memory_before: &[
            (0x1000, &[3]),
            (0x1008, &[0, 0x50, 0, 0, 0, 0, 0, 0, 0, 0x80]),
            (0x5010, &[9]),
        ],
        memory: &[(0x1002, &[1]), (0xA001, &[1])],
        table: &[(5, &[0x0B])],
        ..refused("earlier entries stand", 4, 0x1000, ADDRESS)
    },
];

const CREATE: &[Row] = &[
    create(
        "VMSA not a multiple / not below N",
        0x1_0008,
        0x7000,
        5,
        PARAMETER,
    ),
    create(
        "calling area not a multiple / not valid",
        0x8000,
        0x7008,
        5,
        PARAMETER,
    ),
    create(
        "calling area not a multiple / not below N",
        0x6000,
        0x1_0001,
        5,
        PARAMETER,
    ),
    create(
        "VMSA not below N / its fields",
        0x1_0000,
        0x7000,
        5,
        ADDRESS,
    ),
    create(
        "page 6 in the low 32 bits only",
        0x1_0000_6000,
        0x7000,
        5,
        ADDRESS,
    ),
    create("VMSA not valid / its fields", 0x8000, 0x7000, 5, ADDRESS),
    create(
        "VMSA not plain / the APIC ID",
        0xB000,
        0x7000,
        0x0102_0304,
        ADDRESS,
    ),
    create(
        "calling area not below N / the fields",
        0x6000,
        0x1_0000,
        5,
        ADDRESS,
    ),
    create(
        "calling area not valid / the fields",
        0x6000,
        0x8000,
        5,
        ADDRESS,
    ),
    create(
        "calling area not plain / the fields",
        0x6000,
        0xA000,
        5,
        ADDRESS,
    ),
    create("both the same / the fields", 0x6000, 0x6000, 5, ADDRESS),
    Row {
        memory_before: &[(0x60CA, &[0]), (0x60D1, &[0x10])],
        sheet_before: SIXTEEN_LIVE,
        ..create("VMPL 0 / no free record", 0x6000, 0x7000, 5, PARAMETER)
    },
    Row {
        memory_before: &[(0x60CA, &[4]), (0x60D1, &[0x10])],
        sheet_before: SIXTEEN_LIVE,
        ..create("VMPL 4 / no free record", 0x6000, 0x7000, 5, PARAMETER)
    },
    Row {
        memory_before: VMSA_6,
        sheet_before: TWO_MORE,
        caller: 2,
        ..create("VMPL below the caller's", 0x6000, 0x7000, 5, PARAMETER)
    },
    Row {
        memory_before: &[(0x60CA, &[1]), (0x60D0, &[0xFF, 0xEF, 0xFF])],
        sheet_before: SIXTEEN_LIVE,
        ..create(
            "EFER bit 12 clear / no free record",
            0x6000,
            0x7000,
            5,
            PARAMETER,
        )
    },
    Row {
        memory_before: &[(0x60CA, &[1]), (0x60D1, &[0x10]), (0x63B7, &[1])],
        sheet_before: SIXTEEN_LIVE,
        ..create("features / no free record", 0x6000, 0x7000, 5, PARAMETER)
    },
    Row {
        memory_before: VMSA_6,
        sheet_before: SIXTEEN_LIVE,
        ..create(
            "APIC ID / no free record",
            0x6000,
            0x7000,
            0x0102_0304,
            PARAMETER,
        )
    },
    Row {
        memory_before: VMSA_6,
        sheet_before: FOUR_LIVE,
        ..create(
            "APIC ID / 0x40000001",
            0x6000,
            0x7000,
            0x9_0102_0304,
            PARAMETER,
        )
    },
    Row {
        memory_before: VMSA_6,
        sheet_before: SIXTEEN_LIVE,
        ..create("no free record / 0x40000001", 0x6000, 0x7000, 5, REQUEST)
    },
    Row {
        memory_before: VMSA_6,
        sheet_before: FOUR_LIVE,
        ..create("no pool page", 0x6000, 0x7000, 5, 0x4000_0001)
    },
];

const DELETE: &[Row] = &[
    Row {
        sheet_before: TWO_MORE,
        ..refused("not a multiple / running", 3, 0x6008, PARAMETER)
    },
    Row {
        sheet_before: &[(32, &[0, 1, 1, 0, 1, 0, 0, 0, 6, 0, 0, 0, 7])],
        ..refused("not live / running", 3, 0x6000, PARAMETER)
    },
    Row {
        sheet_before: TWO_MORE,
        ..refused(
            "page 6 in the low 32 bits only",
            3,
            0x1_0000_6000,
            PARAMETER,
        )
    },
    Row {
        sheet_before: TWO_MORE,
        ..refused("page 6, and bit 44", 3, 0x1000_0000_6000, PARAMETER)
    },
    Row {
        sheet_before: TWO_MORE,
        ..refused("a calling page", 3, 0x7000, PARAMETER)
    },
    Row {
        sheet_before: &[(2, &[1]), TWO_MORE[0], TWO_MORE[1]],
        caller: 1,
        ..refused("the startup's / running", 3, 0xB000, PARAMETER)
    },
    refused("the startup's, by itself", 3, 0xB000, PARAMETER),
    Row {
        sheet_before: TWO_MORE,
        caller: 2,
        ..refused("VMPL below the caller's / running", 3, 0x6000, PARAMETER)
    },
    Row {
        sheet_before: TWO_MORE,
        ..refused("Another vCPU, and running", 3, 0x6000, 0x8000_1003)
    },
];

const WITHDRAW: &[Row] = &[
    refused("not a multiple of 8 / not below N", 5, 0x1_0004, PARAMETER),
    refused("offset 0xFF8 / not below N", 5, 0x1_0FF8, PARAMETER),
    refused("offset 0xFF8 / not valid", 5, 0x8FF8, PARAMETER),
    refused("not below N", 5, 0x1_0FF0, ADDRESS),
    refused("page 2 in the low 32 bits only", 5, 0x1_0000_2000, ADDRESS),
    refused("not valid", 5, 0x8000, ADDRESS),
    refused("calling with page offset 0", 5, 0xA000, ADDRESS),
    refused("VMSA", 5, 0xB008, ADDRESS),
    refused("monitor", 5, 0xC008, ADDRESS),
];

const VTOM: &[Row] = &[
    refused("bit 0 set and RCX not 1", 7, 3, PARAMETER),
    refused("bit 0 and bit 63", 7, 1 << 63 | 1, PARAMETER),
    refused("bit 5", 7, 0x20, PARAMETER),
    refused("bit 11", 7, 0x800, PARAMETER),
    refused("bit 11, and bit 1 set", 7, 0x802, PARAMETER),
    refused("bit 1 clear with bit 12", 7, 0x1000, PARAMETER),
    refused("bit 1 clear with bit 63", 7, 1 << 63, PARAMETER),
    refused("Configure, nothing set", 7, 0, REQUEST),
    refused("Configure, bits 4:1 set", 7, 0x1E, REQUEST),
    refused("Configure, bits 12 and 1 set", 7, 0x1002, REQUEST),
    refused("Configure, bits 63 and 1 set", 7, 1 << 63 | 2, REQUEST),
];
