//! Runs from launch: calls that a guest might make, stores and marks, one after the other. The core against the model.
//!
//! The numbers are the same in every run. MONITOR_STEPS=10000000 tries more of them, MONITOR_SEED others.

mod common;

use common::guest::{launched, step};
use common::seen::Seen;
use model::answers::{IN_USE, REQUEST, SIZE_MISMATCH};
use trials::{steps_or, Random};

/// Runs of so many steps, on machines of as many pages as are drawn.
fn runs(random: &mut Random, steps: u64, length: u64, pages: fn(&mut Random) -> usize) -> Seen {
    let mut seen = Seen::default();
    for _ in 0..steps.div_ceil(length) {
        let n = pages(random);
        let mut twins = launched(random, n);
        for _ in 0..length {
            step(random, &mut twins, &mut seen);
        }
    }
    println!("{seen}");
    seen
}

#[test]
fn runs_of_small_machines() {
    let mut random = Random::seeded(11);
    const ORDINARY: u64 = 500_000;
    let steps = steps_or(ORDINARY);
    let seen = runs(&mut random, steps, 500, |random| match random.below(3) {
        0 => 48 + random.below(20),
        _ => 6 + random.below(30),
    });
    if steps >= ORDINARY {
        // Only 512 pages can be of unequal validity.
        seen.must(
            &[(1, SIZE_MISMATCH)],
            &[
                "16 live records",
                "Create of a record from 4 up",
                "Create with a VMPL above the caller's",
                "Delete of another that holds a pool page",
                "Delete of itself, running",
                "Delete of itself, with a pool page",
                "Remap to another page",
                "Remap to the same page",
                "Withdraw into a calling page",
                "Withdraw of as many as fit",
                "Withdraw of nothing",
                "a list at offset 0 of a calling page",
                "a list in another's calling page",
                "a list in its caller's calling page",
                "a list taken up again and ended",
                "a list that ends with its page",
                "an entry above its list",
                "an entry below its list",
                "an entry on its own list",
            ],
        );
    }
}

/// Machines with room for entries of 512 pages. A step takes a hundred times as long as on a small one, so there are a hundred times fewer.
#[test]
fn runs_with_entries_of_512_pages() {
    let mut random = Random::seeded(12);
    const ORDINARY: u64 = 1_200_000;
    let steps = steps_or(ORDINARY) / 100;
    let seen = runs(&mut random, steps, 60, |random| match random.below(25) {
        0 => 8192 - random.below(2) * random.below(600),
        1..=3 => 1100 + random.below(1500),
        4..=6 => 512,
        7 => 511,
        8..=15 => 1024 + random.below(76),
        _ => 513 + random.below(587),
    });
    if steps >= ORDINARY / 100 {
        // These runs are too short for 16 live vCPUs, and most for one that runs.
        seen.must(
            &[(2, REQUEST), (3, IN_USE)],
            &[
                "512 pages above their list",
                "512 pages below their list",
                "512 pages deposited",
                "512 pages made invalid",
                "512 pages made valid",
                "512 pages past the last",
                "512 pages that bit 3 excused",
                "512 pages with their list inside",
                "Withdraw of 511 pages",
                "Withdraw of as many as fit",
                "a list taken up again and ended",
            ],
        );
    }
}
