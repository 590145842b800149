//! Launches, stores and marks at random, on buffers of right and wrong sizes and with damage: the core against the model.
//!
//! The numbers are the same in every run. MONITOR_STEPS=10000000 tries more of them, MONITOR_SEED others.

mod common;

use common::{Buffer, Twins, HUGE, PAGE, SVME};
use monitor::Plan;
use trials::{steps_or, Random};

const STEPS_OF_A_MACHINE: u64 = 100;

#[test]
fn steps_at_random() {
    let mut random = Random::seeded(5);
    const ORDINARY: u64 = 300_000;
    let steps = steps_or(ORDINARY);
    // How often each answer came.
    let mut launched = [0; 5];
    let mut stored = [0; 2];
    let mut marked = [0; 2];
    for _ in 0..steps.div_ceil(STEPS_OF_A_MACHINE) {
        let mut twins = machine(&mut random);
        for _ in 0..STEPS_OF_A_MACHINE {
            if random.once_in(8) {
                damage(&mut random, &mut twins);
            }
            match random.below(3) {
                0 => launched[launch(&mut random, &mut twins)] += 1,
                1 => stored[store(&mut random, &mut twins)] += 1,
                _ => marked[mark(&mut random, &mut twins)] += 1,
            }
        }
    }
    println!("launched {launched:?}, stored {stored:?}, marked {marked:?}");
    if steps >= ORDINARY {
        let often = |answers: &[u64]| answers.iter().all(|&times| times > 1000);
        assert!(often(&launched) && often(&stored) && often(&marked));
    }
}

/// Mostly small, mostly of the right sizes, with bytes at random.
fn machine(random: &mut Random) -> Twins {
    let n = match random.below(200) {
        0 => 500 + random.below(100),
        1..=10 => random.below(3),
        11..=60 => 9 + random.below(30),
        _ => 3 + random.below(6),
    };
    Twins::sized_at_random(random, n)
}

/// A few bytes somewhere: any, or ones that look like the real thing.
fn damage(random: &mut Random, twins: &mut Twins) {
    let buffer = random.pick(&[Buffer::Memory, Buffer::Table, Buffer::Sheet]);
    let length = match buffer {
        Buffer::Memory => twins.memory.len(),
        Buffer::Table => twins.table.len(),
        Buffer::Sheet => twins.sheet.len(),
    };
    for _ in 0..random.below(6) {
        if length > 0 {
            let any = random.byte();
            let byte = random.pick(&[any, 0, 1, 2, 0x78, 0x79, 0x18, 0x38]);
            let at = random.below(length);
            twins.poke(buffer, at, &[byte]);
        }
    }
    if random.once_in(3) && twins.sheet.len() == 512 {
        let record = random.below(16);
        let live = random.pick(&[0, 1, 1, 1, 2]);
        twins.poke(Buffer::Sheet, 32 * record, &[live]);
    }
}

/// A number below the limit, or now and then one at it or past it.
fn number(random: &mut Random, limit: usize) -> usize {
    match random.below(24) {
        0 => limit,
        1 => limit.wrapping_add(random.below(5)).wrapping_sub(2),
        2 => random.pick(&HUGE),
        3 => random.number() as usize >> random.below(64),
        4 => random.below(limit.max(1)).wrapping_add(random.pick(&HUGE)),
        _ => random.below(limit.max(1)),
    }
}

fn launch(random: &mut Random, twins: &mut Twins) -> usize {
    let n = twins.table.len();
    let first = number(random, n);
    let count = match random.below(12) {
        0 => 0,
        1 => 1_usize.wrapping_add(n).wrapping_sub(first),
        2 => number(random, n).wrapping_sub(first),
        _ => 1 + number(random, n.saturating_sub(first).clamp(1, 3)) % 4,
    };
    let plan = Plan {
        pages: if random.once_in(20) {
            number(random, n)
        } else {
            n
        },
        monitor_first: first,
        monitor_count: count,
        vmsa_page: number(random, n),
        calling_page: number(random, n),
        apic_id: random.number() as u32,
        valid_below: number(random, n.saturating_add(1)),
    };
    let vmsa_end = plan
        .vmsa_page
        .checked_add(1)
        .and_then(|end| end.checked_mul(PAGE));
    if vmsa_end.is_some_and(|end| end <= twins.memory.len()) && !random.once_in(5) {
        let vmpl = random.pick(&[0, 1, 1, 1, 2, 2, 2, 3, 3, 3, 4]);
        let svme = if random.once_in(8) { 0 } else { SVME };
        twins.poke_vmsa(plan.vmsa_page, vmpl, (random.number() & !SVME) | svme);
    }
    twins.launch(&plan).number() as usize
}

fn store(random: &mut Random, twins: &mut Twins) -> usize {
    let vmpl = match random.below(12) {
        0 => random.byte(),
        1 => random.pick(&[0, 4]),
        _ => 1 + random.below(3) as u8,
    };
    let page = number(random, twins.table.len());
    let offset = match random.below(3) {
        0 => 4096_usize.wrapping_sub(random.below(20)).wrapping_add(3),
        _ => number(random, 4097),
    };
    let length = match random.below(12) {
        0 => 0,
        1 => 4096_usize.saturating_sub(offset),
        2 => random.below(5000),
        _ => random.below(20),
    };
    let mut bytes = vec![0; length];
    random.fill(&mut bytes);
    twins.store(vmpl, page, offset, &bytes).number() as usize
}

fn mark(random: &mut Random, twins: &mut Twins) -> usize {
    let record = if random.once_in(3) {
        0
    } else {
        number(random, 16)
    };
    let running = match random.below(8) {
        0 => random.byte(),
        1 => 2,
        _ => random.below(2) as u8,
    };
    twins.mark(record, running).number() as usize
}
