//! Stores: the core against the model, at the limits of every argument.

mod common;

use common::{Buffer, Twins, HUGE, PAGE};
use monitor::Verdict::{Done, Refused};
use trials::Random;

/// n pages, all of them plain, valid and permitted to all.
fn open(n: usize) -> Twins {
    let mut twins = Twins::sized(n);
    twins.poke(Buffer::Table, 0, &vec![0x78; n]);
    twins
}

#[test]
fn offsets_and_lengths() {
    let mut twins = open(4);
    let bytes: Vec<u8> = (0..9200).map(|index| (index % 253) as u8).collect();
    let offsets = [
        0, 1, 2, 4093, 4094, 4095, 4096, 4097, 4098, 8191, 8192, 12288,
    ];
    let lengths = [0, 1, 2, 3, 4, 4094, 4095, 4096, 4097, 4098, 8192, 9000];
    // Other bytes each time, so that a refused store can't have left what was there.
    let mut shift = 0;
    for offset in offsets.into_iter().chain(HUGE) {
        for length in lengths {
            for page in 0..4 {
                shift = (shift + 1) % 200;
                let fits = offset as u128 + length as u128 <= 4096;
                let verdict = twins.store(2, page, offset, &bytes[shift..shift + length]);
                assert_eq!(verdict, if fits { Done } else { Refused });
            }
        }
    }
    assert_eq!(twins.store(1, 3, 4096, &[]), Done);
    assert_eq!(twins.store(1, 3, 4097, &[]), Refused);
    // Offset and length come to 2^64 and a little.
    for length in 1..20_usize {
        for sum in 0..length {
            let offset = sum.wrapping_sub(length);
            assert_eq!(twins.store(1, 1, offset, &bytes[..length]), Refused);
        }
    }
}

#[test]
fn every_table_byte_and_every_vmpl() {
    let mut twins = open(3);
    let mut done = 0;
    for byte in 0..=255 {
        twins.poke(Buffer::Table, 1, &[byte]);
        for vmpl in 0..=255 {
            let verdict = twins.store(vmpl, 1, 9, &[byte, vmpl]);
            assert_eq!(twins.store(vmpl, 1, 4096, &[]), verdict);
            done += u32::from(verdict == Done);
        }
    }
    // The valid bit and the VMPL's own; the other six are free.
    assert_eq!(done, 3 * 64);
}

#[test]
fn pages() {
    for n in [3, 5] {
        let mut twins = open(n);
        assert_eq!(twins.store(3, 0, 0, &[1]), Done);
        assert_eq!(twins.store(3, n - 1, 4095, &[1]), Done);
        for page in [n, n + 1, 2 * n].into_iter().chain(HUGE) {
            for bytes in [&[][..], &[1], &[1; 4096]] {
                assert_eq!(twins.store(3, page, 0, bytes), Refused);
            }
        }
    }
}

#[test]
fn sizes() {
    let mut random = Random::seeded(4);
    for n in [0, 1, 2, 8193] {
        assert_eq!(open(n).store(1, 0, 0, &[1]), Refused);
    }
    for n in [3, 8192] {
        let mut twins = open(n);
        assert_eq!(twins.store(1, 0, 0, &[1]), Done);
        assert_eq!(twins.store(1, n - 1, 0, &[2; 4096]), Done);
        assert_eq!(twins.store(1, n, 0, &[]), Refused);
    }
    for (memory, table) in [
        (PAGE * 3 - 1, 3),
        (PAGE * 3 + 1, 3),
        (PAGE * 2, 3),
        (PAGE * 4, 3),
        (PAGE * 3, 2),
        (PAGE * 3, 4),
        (PAGE * 3, 0),
        (0, 3),
        (0, 0),
    ] {
        let mut twins = Twins::random(&mut random, [memory, table, 512]);
        twins.poke(Buffer::Table, 0, &vec![0x78; table]);
        assert_eq!(twins.store(1, 0, 0, &[1]), Refused);
        assert_eq!(twins.store(1, 0, 0, &[]), Refused);
    }
    // A store is not lent the sheet, so its size is nothing to it.
    let mut twins = Twins::random(&mut random, [PAGE * 3, 3, 7]);
    twins.poke(Buffer::Table, 0, &[0x78; 3]);
    assert_eq!(twins.store(1, 0, 0, &[1]), Done);
}
