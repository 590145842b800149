//! The discovery fields of document 02 (2026-01): what is tried on the model, tried on the core, with guard bytes around page and fields; pages and numbers at
//! random, the core against the model; and launches at random, whose values are told and read back.
//!
//! The numbers are the same in every run. MONITOR_STEPS=10000000 tries more of them, MONITOR_SEED others.

mod common;

use common::{Guarded, Twins, BESIDE_OTHERS, PAGE, SVME};
use monitor::{Discovery, Launched, Located, Place, Plan};
use trials::discovery::{self, Subject};
use trials::{steps_or, Random};

const CORE: Subject = Subject { announce, discover };

fn announce(page: &mut [u8], base: u64, size: u64, area: u64, vmpl: u8) -> u32 {
    let place = Place {
        base,
        size,
        area,
        vmpl,
    };
    let mut lent = Guarded::new(page, &BESIDE_OTHERS);
    let answer = monitor::announce(lent.lend(), &place);
    page.copy_from_slice(lent.unspoiled("page", &|| format!("{place:x?}")));
    answer.number()
}

fn discover(page: &mut [u8], fields: &mut [u8]) -> u32 {
    let mut lent_page = Guarded::new(page, &BESIDE_OTHERS);
    let mut lent_fields = Guarded::new(fields, &BESIDE_OTHERS);
    let answer = monitor::discover_into(lent_page.lend(), lent_fields.lend());
    let named = || "a reading".to_string();
    page.copy_from_slice(lent_page.unspoiled("page", &named));
    fields.copy_from_slice(lent_fields.unspoiled("fields", &named));
    answer.number()
}

#[test]
fn every_byte_of_the_fields() {
    discovery::layout(&CORE);
}

#[test]
fn each_answer_and_the_ends_of_the_range() {
    discovery::answers(&CORE);
}

#[test]
fn each_bit_of_each_number() {
    discovery::bits(&CORE);
}

#[test]
fn every_set_of_faults() {
    discovery::faults_in_order(&CORE);
}

#[test]
fn size_0_whatever_else_stands_there() {
    discovery::size_0(&CORE);
}

#[test]
fn lengths() {
    discovery::lengths(&CORE);
}

#[test]
fn every_vmpl_is_written() {
    discovery::vmpls(&CORE);
}

#[test]
fn what_the_reader_does_not_judge() {
    discovery::not_judged(&CORE);
}

/// A page twice: what is lent to the core, and what is lent to the model. Each step compares the answer and every byte.
struct Pages {
    core: Guarded,
    page: Vec<u8>,
}

impl Pages {
    /// Of this length, with bytes at random.
    fn random(random: &mut Random, length: usize) -> Pages {
        let mut page = vec![0; length];
        random.fill(&mut page);
        Pages {
            core: Guarded::new(&page, &BESIDE_OTHERS),
            page,
        }
    }

    /// Writes bytes into both, as many as they have room for.
    fn poke(&mut self, at: usize, bytes: &[u8]) {
        for page in [self.core.lend(), &mut self.page] {
            for (byte, other) in page.iter_mut().skip(at).zip(bytes) {
                *byte = *other;
            }
        }
    }

    #[track_caller]
    fn announce(&mut self, place: &Place) -> Located {
        let answer = monitor::announce(self.core.lend(), place);
        let Place {
            base,
            size,
            area,
            vmpl,
        } = *place;
        let expected = model::announce(&mut self.page, base, size, area, vmpl);
        self.same(answer, expected, &|| format!("{place:x?}"));
        answer
    }

    /// The answer, and the fields after it.
    #[track_caller]
    fn discover(&mut self, fields: &[u8]) -> (Located, Vec<u8>) {
        let mut lent = Guarded::new(fields, &BESIDE_OTHERS);
        let answer = monitor::discover_into(self.core.lend(), lent.lend());
        let mut after = fields.to_vec();
        let expected = model::discover(&self.page, &mut after);
        let stands = self.page.get(0x140..0x160);
        let step = || format!("{stands:x?} read into {} bytes", fields.len());
        self.same(answer, expected, &step);
        lent.is("fields", &after, &step);
        (answer, after)
    }

    #[track_caller]
    fn same(&self, answer: Located, expected: u32, step: &dyn Fn() -> String) {
        if answer.number() != expected {
            panic!("the answer is {answer:?}, not {expected}, to {}", step());
        }
        self.core.is("page", &self.page, step);
    }

    /// Panics unless a place that was told is read.
    #[track_caller]
    fn reads_back(&mut self, place: &Place) {
        let found = Discovery {
            base: place.base,
            size: place.size,
            area: place.area,
            version: 1,
            vmpl: place.vmpl,
        };
        assert_eq!(monitor::discover(self.core.lend()), Ok(found));
        assert_eq!(self.discover(&[0xEE; 32]).0, Located::Told);
    }
}

const STEPS_OF_A_PAGE: u64 = 20;

#[test]
fn pages_at_random() {
    let mut random = Random::seeded(15);
    const ORDINARY: u64 = 400_000;
    let steps = steps_or(ORDINARY);
    // How often each answer came.
    let mut announced = [0; 8];
    let mut discovered = [0; 8];
    for _ in 0..steps.div_ceil(STEPS_OF_A_PAGE) {
        let length = match random.below(20) {
            0 => random.pick(&[0, 1, 0x15F, 0x160, PAGE - 1, PAGE + 1, 2 * PAGE]),
            1 => random.below(3 * PAGE),
            _ => PAGE,
        };
        let mut pages = Pages::random(&mut random, length);
        for _ in 0..STEPS_OF_A_PAGE {
            if random.once_in(2) {
                announced[step_of_the_writer(&mut random, &mut pages)] += 1;
            } else {
                discovered[step_of_the_reader(&mut random, &mut pages)] += 1;
            }
        }
    }
    println!("announced {announced:?}, discovered {discovered:?}");
    if steps >= ORDINARY {
        let often = |answers: &[u64]| answers.iter().all(|&times| times > 1000);
        assert!(often(&announced) && often(&discovered));
    }
}

/// What is told is read back at once.
fn step_of_the_writer(random: &mut Random, pages: &mut Pages) -> usize {
    let place = place(random);
    let answer = pages.announce(&place);
    if answer == Located::Told {
        pages.reads_back(&place);
    }
    answer.number() as usize
}

/// Of a page where a place stands, or once in a while of one as it is.
fn step_of_the_reader(random: &mut Random, pages: &mut Pages) -> usize {
    if !random.once_in(8) {
        let place = place(random);
        let numbers = [place.base, place.size, place.area, random.number()];
        pages.poke(0x140, &numbers.map(u64::to_le_bytes).concat());
    }
    let length = match random.below(40) {
        0 => random.pick(&[0, 1, 29, 31, 33, 64]),
        1 => random.below(2 * PAGE),
        _ => 32,
    };
    let mut fields = vec![0; length];
    random.fill(&mut fields);
    let (answer, after) = pages.discover(&fields);
    let read = monitor::discover(&pages.page);
    match answer {
        Located::Told => {
            let after = after.as_slice().try_into().expect("the fields are 32");
            assert_eq!(read, Ok(Discovery::from_bytes(after)));
        }
        refused if length == 32 => assert_eq!(read, Err(refused)),
        _ => {}
    }
    answer.number() as usize
}

/// Numbers near where an answer turns into another.
fn place(random: &mut Random) -> Place {
    let base = multiple(random);
    let size = match random.below(8) {
        0 => 0,
        // To the end of 64-bit addresses, or nearly.
        1 | 2 => near(random, base.wrapping_neg()),
        3 => multiple(random),
        _ => 4096 * (1 + random.below(64) as u64),
    };
    let area = match random.below(8) {
        0 | 1 => near(random, base),
        2 | 3 => near(random, base.wrapping_add(size)),
        // Somewhere between.
        4 => base.wrapping_add(4096 * (random.number() % (size / 4096 + 1))),
        _ => multiple(random),
    };
    let [base, size, area] = [base, size, area].map(|number| match random.below(40) {
        0 => number.wrapping_add(1),
        1 => number.wrapping_sub(1),
        2 => number | (random.number() % 4096),
        _ => number,
    });
    Place {
        base,
        size,
        area,
        vmpl: random.byte(),
    }
}

/// A multiple of 4,096: small, near the end, a single bit, or any.
fn multiple(random: &mut Random) -> u64 {
    let small = 4096 * random.below(40) as u64;
    let any = random.number() / 4096 * 4096;
    match random.below(5) {
        0 => small,
        1 => small.wrapping_neg(),
        2 => 1 << (12 + random.below(52)),
        3 => any,
        _ => (any >> random.below(52)) / 4096 * 4096,
    }
}

/// The number, or up to two pages more or less.
fn near(random: &mut Random, number: u64) -> u64 {
    let shift = 4096 * random.below(5) as u64;
    number.wrapping_add(shift).wrapping_sub(2 * 4096)
}

const LAUNCHES_OF_A_MACHINE: u64 = 100;

/// "Read back, a written page must give the launch values."
#[test]
fn launches_at_random() {
    let mut random = Random::seeded(16);
    const ORDINARY: u64 = 100_000;
    let steps = steps_or(ORDINARY);
    let mut made = 0;
    for _ in 0..steps.div_ceil(LAUNCHES_OF_A_MACHINE) {
        let n = 3 + random.below(10);
        let mut twins = Twins::random(&mut random, [PAGE * n, n, 512]);
        let mut pages = Pages::random(&mut random, PAGE);
        for _ in 0..LAUNCHES_OF_A_MACHINE {
            let first = random.below(n);
            let plan = Plan {
                pages: n,
                monitor_first: first,
                monitor_count: 1 + random.below(n - first),
                vmsa_page: random.below(n),
                calling_page: random.below(n),
                apic_id: random.number() as u32,
                valid_below: random.below(n + 1),
            };
            let vmpl = random.below(5) as u8;
            twins.poke_vmsa(plan.vmsa_page, vmpl, SVME);
            if twins.launch(&plan) == Launched::Made {
                made += 1;
                values_told(&mut pages, &plan, vmpl, &twins.sheet);
            }
        }
    }
    println!("{made} launches made");
    if steps >= ORDINARY {
        assert!(made > 10_000);
    }
}

/// The largest machine: the monitor is its last page, or all but two.
#[test]
fn launches_of_8192_pages() {
    let mut twins = Twins::sized(8192);
    let mut pages = Pages::random(&mut Random::new(8192), PAGE);
    for (first, count, vmsa_page, calling_page) in
        [(8191, 1, 0, 8190), (0, 8190, 8190, 8191), (2, 8190, 0, 1)]
    {
        let plan = Plan {
            pages: 8192,
            monitor_first: first,
            monitor_count: count,
            vmsa_page,
            calling_page,
            apic_id: 0,
            valid_below: 8192,
        };
        twins.poke_vmsa(vmsa_page, 3, SVME);
        assert_eq!(twins.launch(&plan), Launched::Made);
        values_told(&mut pages, &plan, 3, &twins.sheet);
    }
}

/// Panics unless the values of a launch, by this plan and with a VMSA of this VMPL, are told and read back.
fn values_told(pages: &mut Pages, plan: &Plan, vmpl: u8, sheet: &[u8]) {
    let gpa = |page: usize| (PAGE * page) as u64;
    let values = Place {
        base: gpa(plan.monitor_first),
        size: gpa(plan.monitor_count),
        area: gpa(plan.calling_page),
        vmpl,
    };
    let place = Place::launched(plan, sheet[1]);
    assert_eq!(place, values);
    assert_eq!(pages.announce(&place), Located::Told, "{plan:?}");
    pages.reads_back(&place);
}

/// No launch has such numbers, and the writer takes none of them.
#[test]
fn plans_past_64_bits_are_refused() {
    let mut pages = Pages::random(&mut Random::new(17), PAGE);
    let plan = Plan {
        pages: 16,
        monitor_first: 12,
        monitor_count: 4,
        vmsa_page: 11,
        calling_page: 10,
        apic_id: 0,
        valid_below: 8,
    };
    for past in [1 << 52, (1 << 52) + 12, 1 << 63, usize::MAX] {
        let base = Plan {
            monitor_first: past,
            ..plan
        };
        let size = Plan {
            monitor_count: past,
            ..plan
        };
        let area = Plan {
            calling_page: past,
            ..plan
        };
        for (plan, answer) in [
            (base, Located::UnalignedBase),
            (size, Located::UnalignedSize),
            (area, Located::UnalignedArea),
        ] {
            assert_eq!(pages.announce(&Place::launched(&plan, 1)), answer);
        }
    }
}
