//! Run and stop marks: the core against the model, at the limits of every argument.

mod common;

use common::{Buffer, Twins, HUGE};
use monitor::Verdict::{Done, Refused};
use trials::Random;

fn sheet_of(length: usize) -> Twins {
    let mut random = Random::new(length as u64);
    Twins::random(&mut random, [0, 0, length])
}

#[test]
fn every_record_and_every_value() {
    let mut twins = sheet_of(512);
    for record in 0..16 {
        for live in [0, 1, 2, 3, 128, 129, 255] {
            twins.poke(Buffer::Sheet, 32 * record, &[live]);
            for running in 0..=255 {
                let fit = live == 1 && running <= 1;
                let verdict = twins.mark(record, running);
                assert_eq!(verdict, if fit { Done } else { Refused });
            }
        }
    }
}

#[test]
fn every_live_byte() {
    let mut twins = sheet_of(512);
    for live in 0..=255 {
        for was in [0, 1, 2, 255] {
            twins.poke(Buffer::Sheet, 0, &[live, 9, was]);
            for running in [1, 0, 2] {
                let fit = live == 1 && running <= 1;
                let verdict = twins.mark(0, running);
                assert_eq!(verdict, if fit { Done } else { Refused });
            }
        }
    }
}

#[test]
fn records_that_are_none() {
    let mut twins = Twins::new(vec![], vec![], vec![1; 512]);
    assert_eq!(twins.mark(15, 1), Done);
    for record in [16, 17, 31, 32, 256].into_iter().chain(HUGE) {
        for running in [0, 1, 2] {
            assert_eq!(twins.mark(record, running), Refused);
        }
    }
}

#[test]
fn sizes() {
    for length in [0, 1, 3, 31, 32, 480, 511, 513, 544, 1024, 2048] {
        let mut twins = sheet_of(length);
        twins.poke(Buffer::Sheet, 0, &vec![1; length]);
        for record in [0, 1, 15, 16, usize::MAX] {
            assert_eq!(twins.mark(record, 0), Refused);
        }
    }
}
