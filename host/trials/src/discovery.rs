//! Document 02, 2026-01: "Tell the firmware where we are." What the writer and the reader of the discovery fields answer, and every byte that they leave.
//!
//! The answers stand in tables or follow from the order that the document gives; the bytes are put where it says.

use std::fmt::Debug;
use std::ops::Range;

use crate::Random;

/// What it is tried on: the core or the model.
pub struct Subject {
    /// The writer, given a page, base, size, area and VMPL.
    pub announce: fn(&mut [u8], u64, u64, u64, u8) -> u32,
    /// The reader, given a page and fields. It may not change the page, so that is lent in a way that would show.
    pub discover: fn(&mut [u8], &mut [u8]) -> u32,
}

/// Base, size and area.
type Numbers = [u64; 3];

/// A monitor of four pages, with its area below it.
const FIT: Numbers = [0xC000, 0x4000, 0xA000];

/// Where the page has its discovery fields.
const FIELDS: Range<usize> = 0x140..0x160;

/// The last page of all, and the greatest multiple of 4,096.
const TOP: u64 = 0xFFFF_FFFF_FFFF_F000;

impl Subject {
    /// Panics unless the writer answers so. If that is 0 the page must have the fields where it had others and be the same in its other 4,064 bytes, and be
    /// read back; else it must be the same in all.
    fn writes(&self, page: &[u8], numbers: Numbers, vmpl: u8, answer: u32) {
        let mut expected = page.to_vec();
        if answer == 0 {
            put(&mut expected, &fields(numbers, 1, vmpl, [0; 3]));
        }
        let mut lent = page.to_vec();
        let [base, size, area] = numbers;
        let is = (self.announce)(&mut lent, base, size, area, vmpl);
        assert_eq!(is, answer, "{numbers:x?} told to {} bytes", page.len());
        same(&lent, &expected, "a page told", numbers);
        if answer == 0 {
            self.reads(&lent, 32, 0);
        }
    }

    /// Panics unless the reader answers so and leaves the page as it is. If that is 0 the fields must be the page's, with zeros for the reserved three; else
    /// they must stay as they were.
    fn reads(&self, page: &[u8], length: usize, answer: u32) {
        let mut found = noise(length, 9);
        let mut expected = found.clone();
        if answer == 0 {
            expected = page[FIELDS].to_vec();
            expected[29..].fill(0);
        }
        let mut lent = page.to_vec();
        let is = (self.discover)(&mut lent, &mut found);
        let stands = page.get(FIELDS);
        let lengths = (page.len(), length);
        assert_eq!(is, answer, "{stands:x?} read, of {lengths:?} bytes");
        same(&lent, page, "a page read", stands);
        same(&found, &expected, "the fields", stands);
    }

    /// Both: the writer given these numbers, and the reader of a page where they stand beside a version, a VMPL and reserved bytes of no meaning.
    fn both(&self, numbers: Numbers, writer: u32, reader: u32) {
        let mut page = noise(4096, 1);
        self.writes(&page, numbers, 2, writer);
        put(&mut page, &fields(numbers, 0xA1B2_C3D4, 0x7F, [5, 6, 7]));
        self.reads(&page, 32, reader);
    }
}

/// Panics unless these bytes, which are as many, are the same; tells the first that differs.
fn same(is: &[u8], expected: &[u8], name: &str, after: impl Debug) {
    if is != expected {
        let mut pairs = is.iter().zip(expected);
        let at = pairs.position(|(is, must_be)| is != must_be).unwrap();
        let (is, must_be) = (is[at], expected[at]);
        panic!("byte {at:#x} of {name} is {is:#x}, not {must_be:#x}, after {after:x?}");
    }
}

/// So many bytes, the same each time.
fn noise(length: usize, seed: u64) -> Vec<u8> {
    let mut bytes = vec![0; length];
    Random::new(seed).fill(&mut bytes);
    bytes
}

/// Writes the fields into a page, or as many of them as it has room for.
fn put(page: &mut [u8], fields: &[u8]) {
    for (byte, field) in page.iter_mut().skip(FIELDS.start).zip(fields) {
        *byte = *field;
    }
}

fn fields(numbers: Numbers, version: u32, vmpl: u8, reserved: [u8; 3]) -> Vec<u8> {
    let mut bytes = numbers.map(u64::to_le_bytes).concat();
    bytes.extend(version.to_le_bytes());
    bytes.push(vmpl);
    bytes.extend(reserved);
    bytes
}

/// Base, size and area of which each byte tells where it belongs.
const TELLING: Numbers = [
    0x0102_0304_0506_7000,
    0x1112_1314_1516_8000,
    0x2122_2324_2526_9000,
];

/// The 32 bytes that they are with VMPL 0x9C: "SVSM_BASE, SIZE, CAA, MAX_VERSION (1) and GUEST_VMPL at 0x140 to 0x15C .., with the reserved three bytes 0".
const WRITTEN: [u8; 32] = [
    0x00, 0x70, 0x06, 0x05, 0x04, 0x03, 0x02, 0x01, // base
    0x00, 0x80, 0x16, 0x15, 0x14, 0x13, 0x12, 0x11, // size
    0x00, 0x90, 0x26, 0x25, 0x24, 0x23, 0x22, 0x21, // area
    0x01, 0x00, 0x00, 0x00, 0x9C, 0x00, 0x00, 0x00, // version, VMPL, reserved
];

/// The same with another version and reserved bytes that are not 0, as they stand in a page, and as they are handed out.
const STANDS: [u8; 8] = [0x31, 0x32, 0x33, 0x34, 0x9C, 0xFF, 0xFE, 0xFD];
const HANDED_OUT: [u8; 8] = [0x31, 0x32, 0x33, 0x34, 0x9C, 0x00, 0x00, 0x00];

/// Panics unless the writer leaves these bytes and "all else kept", and the reader finds them.
pub fn layout(subject: &Subject) {
    let [base, size, area] = TELLING;
    // In the first two, no byte stands where it is written.
    for before in [vec![0x5A; 4096], vec![0xFF; 4096], noise(4096, 2)] {
        let mut page = before.clone();
        assert_eq!((subject.announce)(&mut page, base, size, area, 0x9C), 0);
        let mut expected = [&before[..0x140], &WRITTEN, &before[0x160..]].concat();
        same(&page, &expected, "a page told", TELLING);

        let mut found = [0xEE; 32];
        assert_eq!((subject.discover)(&mut page, &mut found), 0);
        assert_eq!(found, WRITTEN);
        page[0x158..0x160].copy_from_slice(&STANDS);
        expected[0x158..0x160].copy_from_slice(&STANDS);
        assert_eq!((subject.discover)(&mut page, &mut found), 0);
        assert_eq!(found[..24], WRITTEN[..24]);
        assert_eq!(found[24..], HANDED_OUT);
        same(&page, &expected, "a page read", TELLING);
    }
}

/// Panics unless each of ANSWERS is had of the writer and of the reader.
pub fn answers(subject: &Subject) {
    for &(numbers, answer) in ANSWERS {
        subject.both(numbers, answer, answer);
    }
}

/// Base, size and area, and what both answer.
const ANSWERS: &[(Numbers, u32)] = &[
    (FIT, 0),                                     // no fault
    ([0xC001, 0x4000, 0xA000], 1),                // base
    ([0xBFFF, 0x4000, 0xA000], 1),                // base, just below a page
    ([u64::MAX, 0x4000, 0xA000], 1),              // base, the last byte of all
    ([0xC000, 0x4800, 0xA000], 2),                // size
    ([0xC000, 1, 0xA000], 2),                     // size 1
    ([0, u64::MAX, 0xA000], 2),                   // size, as great as can be
    ([0xC000, 0x4000, 0xA008], 3),                // area
    ([0xC000, 0x4000, 0xBFFF], 3),                // area, a byte below the base
    ([0xC000, 0x4000, u64::MAX], 3),              // area, the last byte of all
    ([0xFFFF_FFFF_FFFF_C000, 0x5000, 0xA000], 4), // end
    ([0xC000, 0x4000, 0xD000], 5),                // inside
    ([0xC000, 0, 0xA000], 6),                     // size 0
    // Where the range ends. 2^64 is just behind the last address, so it does not pass the end there.
    ([0xFFFF_FFFF_FFFF_C000, 0x4000, 0xA000], 0), // to 2^64
    ([TOP, 0x1000, 0xA000], 0),                   // the last page alone
    ([TOP, 0x2000, 0xA000], 4),                   // the last page and one more
    ([TOP, 0xC000, 0xA000], 4),                   // the last page and eleven more
    ([0, TOP, TOP], 0),                           // all but the last page
    ([0x1000, TOP, 0], 0),                        // all but page 0
    ([0x2000, TOP, 0x1000], 4),                   // all but page 0, and one more
    ([TOP, TOP, 0xA000], 4),                      // the greatest of both
    ([1 << 63, 1 << 63, 0xA000], 0),              // two halves
    ([1 << 63, (1 << 63) - 0x1000, TOP], 0),      // two halves, less a page
    ([1 << 63, (1 << 63) + 0x1000, 0xA000], 4),   // two halves, and a page more
    // Where the area is.
    ([0xC000, 0x4000, 0xB000], 0),               // just below the base
    ([0xC000, 0x4000, 0xC000], 5),               // at the base
    ([0xC000, 0x4000, 0xF000], 5),               // the last page inside
    ([0xC000, 0x4000, 0x1_0000], 0),             // just behind
    ([0xC000, 0x4000, TOP], 0),                  // at the top
    ([0xC000, 0x4000, 0], 0),                    // page 0
    ([0, 0x1000, 0], 5),                         // page 0 as base and area
    ([0, 0x1000, 0x1000], 0),                    // page 0 as base
    ([TOP, 0x1000, TOP], 5),                     // at the base, to 2^64
    ([TOP, 0x1000, TOP - 0x1000], 0),            // just below, to 2^64
    ([0x1000, TOP, TOP], 5),                     // the last page inside, to 2^64
    ([0x1000, TOP, 0x1000], 5),                  // the first page inside, to 2^64
    ([0, TOP, TOP - 0x1000], 5),                 // the last inside of all but one
    ([0, TOP, 0], 5),                            // the first inside of all but one
    ([1 << 63, 1 << 63, (1 << 63) - 0x1000], 0), // two halves, below
    ([1 << 63, 1 << 63, 1 << 63], 5),            // two halves, at the base
    // All 64 bits count.
    ([0xC000, 0x4000, 0x1_0000_D000], 0), // inside by the low 32 bits
    ([0xC000, 1 << 32, 0xA000], 0),       // no size by the low 32 bits
    ([0xC000, 1 << 32, 1 << 32], 5),      // inside a size past 32 bits
    // Nothing is inside an empty range, and it ends where it starts.
    ([0xC000, 0, 0xC000], 6), // size 0, the area at the base
    ([TOP, 0, TOP], 6),       // size 0, at the top
    ([0; 3], 6),              // all 0
];

/// Panics unless each number is judged by whether its lowest twelve bits are clear: one bit set at a time.
pub fn bits(subject: &Subject) {
    for bit in 0..64 {
        let number = 1 << bit;
        let unless = |fault: u32| if bit < 12 { fault } else { 0 };
        subject.both([number, 0x1000, 0], unless(1), unless(1));
        subject.both([0, number, TOP], unless(2), unless(2));
        subject.both([0x3000, 0x1000, number], unless(3), unless(3));
    }
}

/// What is told, and how long the page is.
#[derive(Clone, Copy)]
struct Tried {
    page: usize,
    base: u64,
    size: u64,
    area: u64,
}

/// A change by which there is a fault. A number that is to be no multiple of 4,096 is made greater by the second argument.
type Fault = fn(&mut Tried, u64);

/// Each fault by its number, as a change to what has none. Each leaves the others standing, so that any of them can be had at once.
const FAULTS: [(u32, Fault); 7] = [
    (1, |tried, odd| tried.base += odd),
    (2, |tried, odd| tried.size += odd),
    (3, |tried, odd| tried.area += odd),
    (4, |tried, _| tried.size += 0x1_0000),
    (5, |tried, _| tried.area += 0xFFFF_FFFF_FFFF_0000),
    (6, |tried, _| tried.size = 0),
    (7, |tried, odd| tried.page += odd as usize),
];

const WITHOUT_FAULT: Tried = Tried {
    page: 4096,
    base: 0xFFFF_FFFF_FFFF_0000,
    size: 0x8000,
    area: 0x1000,
};

/// Faults that size 0 can't have beside it: it is a multiple of 4,096 (2), its range ends where it starts, which is an address (4), and has nothing inside (5).
const NOT_WITH_SIZE_0: [u32; 3] = [2, 4, 5];

/// "refused with 1 to 5 in this order (base, size, area, end, inside)", "and size 0 with 6, tested last", a length "first of all".
const WRITER: [u32; 7] = [7, 1, 2, 3, 4, 5, 6];
/// "size 0 means no monitor, whatever else stands there".
const READER: [u32; 7] = [7, 6, 1, 2, 3, 4, 5];

/// Panics unless each set of faults that can occur together, every two of them included, is answered with the one that is tested first.
pub fn faults_in_order(subject: &Subject) {
    let (mut sets, mut pairs) = (0, 0);
    for set in 0..1_u32 << FAULTS.len() {
        let has = |fault: &u32| set >> (fault - 1) & 1 == 1;
        if has(&6) && NOT_WITH_SIZE_0.iter().any(has) {
            continue;
        }
        sets += 1;
        pairs += u32::from(set.count_ones() == 2);
        let first_of = |order: [u32; 7]| order.into_iter().find(has).unwrap_or(0);
        for odd in [1, 0x800, 0xFFF] {
            let mut tried = WITHOUT_FAULT;
            for (_, make) in FAULTS.iter().filter(|(fault, _)| has(fault)) {
                make(&mut tried, odd);
            }
            let numbers = [tried.base, tried.size, tried.area];
            let mut page = noise(tried.page, 3);
            subject.writes(&page, numbers, 1, first_of(WRITER));
            put(&mut page, &fields(numbers, 1, 1, [0; 3]));
            subject.reads(&page, 32, first_of(READER));
            // Fields of another length are a 7 of the reader's own.
            subject.reads(&page, 31, 7);
            subject.reads(&page, 33, 7);
        }
    }
    // Without size 0 any of the other six; with it any of base, area and length. Of the 21 pairs, all but three.
    assert_eq!((sets, pairs), (64 + 8, 21 - 3));
}

/// "size 0 means no monitor, whatever else stands there", and to the writer "size 0 with 6, tested last".
pub fn size_0(subject: &Subject) {
    // Whether it is a multiple of 4,096.
    let others = [
        (0, true),
        (1, false),
        (0xA000, true),
        (0xC000, true),
        (0xC800, false),
        (TOP, true),
        (u64::MAX, false),
    ];
    for (base, fit_base) in others {
        for (area, fit_area) in others {
            let writer = match (fit_base, fit_area) {
                (false, _) => 1,
                (true, false) => 3,
                (true, true) => 6,
            };
            subject.both([base, 0, area], writer, 6);
        }
    }
    for seed in 0..100 {
        let mut page = noise(4096, seed);
        page[0x148..0x150].fill(0);
        subject.reads(&page, 32, 6);
    }
    for fill in [0x00, 0xFF] {
        let mut page = [fill; 4096];
        page[0x148..0x150].fill(0);
        subject.reads(&page, 32, 6);
    }
}

/// "A page of another length is 7 in both, first of all", and so are fields of another length.
pub fn lengths(subject: &Subject) {
    // Without a fault; with as many at once as can be; with size 0.
    let all = [
        FIT,
        [u64::MAX, u64::MAX, u64::MAX],
        [TOP, 0x2000, TOP],
        [0xC001, 0, 0xA001],
        [0; 3],
    ];
    for numbers in all {
        for page in [0, 1, 0x15F, 0x160, 4095, 4096, 4097, 8192] {
            let mut page = noise(page, 4);
            if page.len() != 4096 {
                subject.writes(&page, numbers, 1, 7);
            }
            put(&mut page, &fields(numbers, 1, 1, [0; 3]));
            for length in [0, 31, 32, 33, 64] {
                if (page.len(), length) != (4096, 32) {
                    subject.reads(&page, length, 7);
                }
            }
        }
    }
    subject.both(FIT, 0, 0);
}

/// Any VMPL is written.
pub fn vmpls(subject: &Subject) {
    let page = noise(4096, 5);
    for vmpl in 0..=255 {
        subject.writes(&page, FIT, vmpl, 0);
        // What is refused does not depend on it.
        subject.writes(&page, [0xC001, 0x4000, 0xA000], vmpl, 1);
        subject.writes(&page, [0xC000, 0, 0xA000], vmpl, 6);
    }
}

/// The reader judges neither version nor VMPL nor the reserved bytes: it hands out the first two as they stand, and zeros for the last three.
pub fn not_judged(subject: &Subject) {
    for version in [0, 1, 2, 0x100, 0x1_0000, 0x0100_0000, u32::MAX] {
        for vmpl in [0, 1, 3, 4, 255] {
            for reserved in [[0; 3], [1, 2, 3], [0xFF; 3]] {
                let mut page = noise(4096, 6);
                put(&mut page, &fields(FIT, version, vmpl, reserved));
                subject.reads(&page, 32, 0);
            }
        }
    }
    // Each value of each of these bytes.
    for at in 0x158..FIELDS.end {
        for byte in 0..=255 {
            let mut page = noise(4096, 7);
            put(&mut page, &fields(FIT, 1, 1, [0; 3]));
            page[at] = byte;
            subject.reads(&page, 32, 0);
        }
    }
}
