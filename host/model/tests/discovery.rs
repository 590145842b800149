//! What document 02 asks of the discovery fields (2026-01), tried on the model; and the values of a launch, told and read back.

mod common;

use common::Owned;
use trials::discovery::{self, Subject};

const MODEL: Subject = Subject {
    announce: model::announce,
    discover: |page, fields| model::discover(page, fields),
};

#[test]
fn every_byte_of_the_fields() {
    discovery::layout(&MODEL);
}

#[test]
fn each_answer_and_the_ends_of_the_range() {
    discovery::answers(&MODEL);
}

#[test]
fn each_bit_of_each_number() {
    discovery::bits(&MODEL);
}

#[test]
fn every_set_of_faults() {
    discovery::faults_in_order(&MODEL);
}

#[test]
fn size_0_whatever_else_stands_there() {
    discovery::size_0(&MODEL);
}

#[test]
fn lengths() {
    discovery::lengths(&MODEL);
}

#[test]
fn every_vmpl_is_written() {
    discovery::vmpls(&MODEL);
}

#[test]
fn what_the_reader_does_not_judge() {
    discovery::not_judged(&MODEL);
}

/// "Read back, a written page must give the launch values."
#[test]
fn the_values_of_a_launch() {
    for n in [6, 16, 1030, 8192] {
        for vmpl in 1..=3 {
            let machine = Owned::launched(n, n / 2, vmpl);
            // The last four pages are the monitor's, the sixth from the end is the calling page.
            let [base, area] = [n - 4, n - 6].map(|page| 4096 * page as u64);
            let mut page = [0xEE; 4096];
            let told = model::announce(&mut page, base, 0x4000, area, machine.sheet[1]);
            assert_eq!(told, 0);
            let mut fields = [0xEE; 32];
            assert_eq!(model::discover(&page, &mut fields), 0);
            let expected = [base, 0x4000, area, u64::from(vmpl) << 32 | 1];
            assert_eq!(fields[..], expected.map(u64::to_le_bytes).concat());
        }
    }
}
