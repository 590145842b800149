//! Launch: the core against the model, at the limits of every argument.

mod common;

use common::{Buffer, Twins, HUGE, PAGE, SVME};
use monitor::{Launched, Plan};
use trials::Random;

/// A plan that is made, on buffers of n pages whose page 0 is a VMSA.
fn good(n: usize) -> Plan {
    Plan {
        pages: n,
        monitor_first: 2,
        monitor_count: 1,
        vmsa_page: 0,
        calling_page: 1,
        apic_id: 0x89AB_CDEF,
        valid_below: n,
    }
}

fn twins(n: usize) -> Twins {
    let mut twins = Twins::sized(n);
    for page in 0..n {
        twins.poke_vmsa(page, page as u8 % 3 + 1, SVME);
    }
    twins
}

#[test]
fn sixteen_pages() {
    let mut twins = Twins::new(vec![0; 65536], vec![0xFF; 16], vec![0xFF; 512]);
    let plan = Plan {
        pages: 16,
        monitor_first: 12,
        monitor_count: 4,
        vmsa_page: 11,
        calling_page: 10,
        apic_id: 7,
        valid_below: 8,
    };
    // A wholly blank memory has no VMSA.
    assert_eq!(twins.launch(&plan), Launched::UnfitVmsa);
    twins.poke(Buffer::Memory, 0xB0CA, &[1]);
    assert_eq!(twins.launch(&plan), Launched::UnfitVmsa);
    twins.poke(Buffer::Memory, 0xB0D1, &[0x10]);
    assert_eq!(twins.launch(&plan), Launched::Made);
    let table = [
        0x78, 0x78, 0x78, 0x78, 0x78, 0x78, 0x78, 0x78, 0x00, 0x00, 0x79, 0x0D, 0x0A, 0x0A, 0x0A,
        0x0A,
    ];
    assert_eq!(twins.table, table);
    let record_0 = [1, 1, 0, 0, 7, 0, 0, 0, 11, 0, 0, 0, 10, 0, 0, 0];
    assert_eq!(twins.sheet[..16], record_0);
    assert_eq!(twins.sheet[16..], [0; 496]);
}

#[test]
fn good_plans_of_every_layout() {
    let mut random = Random::seeded(2);
    let mut twins = twins(9);
    for first in 0..9 {
        for count in 1..=9 - first {
            let outside = (0..9).filter(|page| !(first..first + count).contains(page));
            let outside: Vec<usize> = outside.collect();
            for &vmsa_page in &outside {
                for &calling_page in outside.iter().filter(|&&page| page != vmsa_page) {
                    let plan = Plan {
                        pages: 9,
                        monitor_first: first,
                        monitor_count: count,
                        vmsa_page,
                        calling_page,
                        apic_id: random.number() as u32,
                        valid_below: random.below(10),
                    };
                    // Whatever stood there before is written over.
                    let mut bytes = [0; 512];
                    random.fill(&mut bytes);
                    twins.poke(Buffer::Sheet, 0, &bytes);
                    twins.poke(Buffer::Table, 0, &bytes[..9]);
                    twins.poke(Buffer::Memory, PAGE * calling_page, &bytes[..4]);
                    assert_eq!(twins.launch(&plan), Launched::Made);
                    assert_eq!(twins.sheet[1] as usize, vmsa_page % 3 + 1);
                }
            }
        }
    }
}

#[test]
fn numbers_of_pages() {
    for n in [0, 1, 2, 8193] {
        assert_eq!(Twins::sized(n).launch(&good(n)), Launched::WrongSize);
    }
    for n in [3, 4, 255, 256, 257, 8191, 8192] {
        let mut twins = Twins::sized(n);
        twins.poke_vmsa(0, 1, SVME);
        assert_eq!(twins.launch(&good(n)), Launched::Made);
        // The monitor's pages are the last ones, and all others but two.
        twins.poke_vmsa(n - 2, 3, !0);
        let plan = Plan {
            monitor_first: 0,
            monitor_count: n - 2,
            vmsa_page: n - 2,
            calling_page: n - 1,
            ..good(n)
        };
        assert_eq!(twins.launch(&plan), Launched::Made);
    }
}

#[test]
fn sizes_that_are_wrong() {
    let mut random = Random::seeded(3);
    for n in [2, 3, 4, 16] {
        for memory in [
            0,
            1,
            PAGE * n - 1,
            PAGE * n + 1,
            PAGE * (n - 1),
            PAGE * (n + 1),
        ] {
            let mut twins = Twins::random(&mut random, [memory, n, 512]);
            assert_eq!(twins.launch(&good(n)), Launched::WrongSize);
        }
        for table in [0, 1, n - 1, n + 1, PAGE * n] {
            let mut twins = Twins::random(&mut random, [PAGE * n, table, 512]);
            assert_eq!(twins.launch(&good(n)), Launched::WrongSize);
            assert_eq!(twins.launch(&good(table)), Launched::WrongSize);
        }
        for sheet in [0, 1, 32, 480, 511, 513, 544, 1024] {
            let mut twins = Twins::random(&mut random, [PAGE * n, n, sheet]);
            assert_eq!(twins.launch(&good(n)), Launched::WrongSize);
        }
        let mut twins = twins(n);
        for pages in [0, 1, n - 1, n + 1].into_iter().chain(HUGE) {
            assert_eq!(twins.launch(&good(pages)), Launched::WrongSize);
        }
        for huge in HUGE {
            assert_eq!(
                twins.launch(&good(n.wrapping_add(huge))),
                Launched::WrongSize
            );
        }
    }
    assert_eq!(
        Twins::random(&mut random, [0, 0, 0]).launch(&good(0)),
        Launched::WrongSize
    );
}

#[test]
fn one_argument_at_its_limit() {
    let n = 7;
    let mut twins = twins(n);
    let numbers = [n, n + 1, 2 * n].into_iter().chain(HUGE);
    for number in numbers {
        for plan in [
            Plan {
                monitor_first: number,
                ..good(n)
            },
            Plan {
                monitor_count: number,
                ..good(n)
            },
            Plan {
                vmsa_page: number,
                ..good(n)
            },
            Plan {
                calling_page: number,
                ..good(n)
            },
            Plan {
                valid_below: number + usize::from(number == n),
                ..good(n)
            },
        ] {
            assert_eq!(twins.launch(&plan), Launched::OutOfRange, "{plan:?}");
        }
    }
    let last = n - 1;
    for plan in [
        Plan {
            monitor_first: last,
            ..good(n)
        },
        Plan {
            monitor_count: n - 2,
            ..good(n)
        },
        Plan {
            vmsa_page: last,
            ..good(n)
        },
        Plan {
            calling_page: last,
            ..good(n)
        },
        Plan {
            valid_below: n,
            ..good(n)
        },
        Plan {
            valid_below: last,
            ..good(n)
        },
        Plan {
            valid_below: 0,
            ..good(n)
        },
    ] {
        assert_eq!(twins.launch(&plan), Launched::Made, "{plan:?}");
    }
    for monitor_first in [0, last, n, usize::MAX] {
        let plan = Plan {
            monitor_first,
            monitor_count: 0,
            ..good(n)
        };
        assert_eq!(twins.launch(&plan), Launched::OutOfRange);
    }
}

#[test]
fn a_sum_past_64_bits_is_out_of_range() {
    let n = 7;
    let mut twins = twins(n);
    for monitor_first in [1, 2, 3, n - 1, n, 1 << 63, usize::MAX] {
        for sum in 0..=n + 1 {
            // First and count come to 2^64 + sum.
            let monitor_count = sum.wrapping_sub(monitor_first);
            if monitor_count as u128 + monitor_first as u128 == sum as u128 {
                continue;
            }
            let plan = Plan {
                monitor_first,
                monitor_count,
                ..good(n)
            };
            assert_eq!(twins.launch(&plan), Launched::OutOfRange);
        }
    }
}

#[test]
fn areas_that_touch_and_areas_that_meet() {
    let n = 9;
    let mut twins = twins(n);
    let monitor = Plan {
        monitor_first: 3,
        monitor_count: 3,
        ..good(n)
    };
    for (vmsa_page, calling_page, answer) in [
        (2, 6, Launched::Made),
        (6, 2, Launched::Made),
        (1, 2, Launched::Made),
        (7, 6, Launched::Made),
        (2, 2, Launched::AreasMeet),
        (3, 2, Launched::AreasMeet),
        (4, 2, Launched::AreasMeet),
        (5, 2, Launched::AreasMeet),
        (2, 3, Launched::AreasMeet),
        (2, 4, Launched::AreasMeet),
        (2, 5, Launched::AreasMeet),
        (4, 4, Launched::AreasMeet),
    ] {
        let plan = Plan {
            vmsa_page,
            calling_page,
            ..monitor
        };
        assert_eq!(twins.launch(&plan), answer, "{plan:?}");
    }
}

#[test]
fn every_plan_of_small_and_huge_numbers() {
    let n = 4;
    let mut twins = twins(n);
    // Page 3 is no VMSA, so that the order of the answers shows.
    twins.poke_vmsa(3, 0, SVME);
    let numbers = [0, 1, 2, 3, 4, 5, 1 << 32, 1 << 63, usize::MAX];
    let mut seen = [0; 5];
    for monitor_first in numbers {
        for monitor_count in numbers {
            for vmsa_page in numbers {
                for calling_page in numbers {
                    for valid_below in [0, 2, 4, 5, usize::MAX] {
                        let plan = Plan {
                            pages: n,
                            monitor_first,
                            monitor_count,
                            vmsa_page,
                            calling_page,
                            apic_id: 0x0102_0304,
                            valid_below,
                        };
                        seen[twins.launch(&plan).number() as usize] += 1;
                    }
                }
            }
        }
    }
    assert!(seen[0] > 0 && seen[2] > 0 && seen[3] > 0 && seen[4] > 0);
}

#[test]
fn the_vmsa() {
    let mut twins = Twins::sized(3);
    for vmpl in 0..=255 {
        let fit = (1..=3).contains(&vmpl);
        twins.poke_vmsa(0, vmpl, SVME);
        let answer = twins.launch(&good(3));
        assert_eq!(answer == Launched::Made, fit);
        assert_eq!(answer == Launched::UnfitVmsa, !fit);
        twins.poke_vmsa(0, vmpl, !SVME);
        assert_eq!(twins.launch(&good(3)), Launched::UnfitVmsa);
    }
    for bit in 0..64 {
        twins.poke_vmsa(0, 2, 1 << bit);
        let answer = twins.launch(&good(3));
        assert_eq!(answer == Launched::Made, bit == 12);
        twins.poke_vmsa(0, 2, !(1 << bit));
        let answer = twins.launch(&good(3));
        assert_eq!(answer == Launched::Made, bit != 12);
    }
    // The features are copied whole.
    for bit in 0..64 {
        twins.poke(Buffer::Memory, 0x3B0, &(1_u64 << bit).to_le_bytes());
        assert_eq!(twins.launch(&good(3)), Launched::Made);
        assert_eq!(twins.sheet[24..32], (1_u64 << bit).to_le_bytes());
    }
}

#[test]
fn the_lowest_number_wins() {
    let n = 5;
    let mut twins = Twins::sized(n);
    twins.poke_vmsa(0, 0, 0);
    twins.poke_vmsa(1, 1, SVME);
    // All four faults, then one less each time.
    let mut plan = Plan {
        pages: n + 1,
        monitor_first: 0,
        monitor_count: 2,
        vmsa_page: 0,
        calling_page: 0,
        apic_id: 1,
        valid_below: n + 1,
    };
    assert_eq!(twins.launch(&plan), Launched::WrongSize);
    plan.pages = n;
    assert_eq!(twins.launch(&plan), Launched::OutOfRange);
    plan.valid_below = n;
    assert_eq!(twins.launch(&plan), Launched::AreasMeet);
    plan.monitor_first = 3;
    assert_eq!(twins.launch(&plan), Launched::AreasMeet);
    plan.calling_page = 2;
    assert_eq!(twins.launch(&plan), Launched::UnfitVmsa);
    plan.vmsa_page = 1;
    assert_eq!(twins.launch(&plan), Launched::Made);
}
