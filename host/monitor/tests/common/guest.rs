//! What a guest does, step by step, drawn at random.

use model::answers::INCOMPLETE;
use model::call::RAX;
use model::machine::number;
use monitor::{Launched, Outcome, Plan};
use trials::{draw_call, Random};

use super::seen::{Found, Seen};
use super::{Buffer, Twins, PAGE, SVME};

/// A machine of n pages (at least 6), just launched, most of its pages valid.
pub fn launched(random: &mut Random, n: usize) -> Twins {
    let mut twins = Twins::random(random, [PAGE * n, n, 512]);
    if random.once_in(2) {
        twins.poke(Buffer::Memory, 0, &vec![0; PAGE * n]);
    }
    let plan = plan(random, n);
    let vmpl = random.pick(&[1, 1, 2, 3]);
    twins.poke_vmsa(plan.vmsa_page, vmpl, SVME);
    assert_eq!(twins.launch(&plan), Launched::Made);
    twins
}

/// The three areas are anywhere or, mostly, beyond the groups of 512 pages, so that these stay fit for an entry.
fn plan(random: &mut Random, n: usize) -> Plan {
    let beyond = n / 512 * 512;
    let lowest = if n - beyond < 6 || random.once_in(4) {
        0
    } else {
        beyond
    };
    let monitor_count = 1 + random.below(2);
    let monitor_first = lowest + random.below(n - lowest - monitor_count + 1);
    let monitor = monitor_first..monitor_first + monitor_count;
    let others: Vec<usize> = (lowest..n).filter(|page| !monitor.contains(page)).collect();
    let vmsa = random.below(others.len());
    let calling = (vmsa + 1 + random.below(others.len() - 1)) % others.len();
    Plan {
        pages: n,
        monitor_first,
        monitor_count,
        vmsa_page: others[vmsa],
        calling_page: others[calling],
        apic_id: random.number() as u32,
        valid_below: match random.below(4) {
            0 => random.below(n + 1),
            1 => 512 * random.below(n / 512 + 1),
            _ => n - random.below(4),
        },
    }
}

/// A call, a store or a mark.
pub fn step(random: &mut Random, twins: &mut Twins, seen: &mut Seen) {
    match random.below(10) {
        0 => store(random, twins),
        1 => {
            let (record, running) = (random.below(17), random.below(3) as u8);
            twins.mark(record, running);
        }
        _ => call(random, twins, seen),
    }
}

fn store(random: &mut Random, twins: &mut Twins) {
    let (vmpl, page) = (random.below(5) as u8, random.below(twins.table.len() + 1));
    let mut bytes = [0; 40];
    random.fill(&mut bytes);
    let bytes = &bytes[..random.below(41)];
    twins.store(vmpl, page, random.below(4100), bytes);
}

/// A call that is drawn, and mostly again while it is incomplete.
fn call(random: &mut Random, twins: &mut Twins, seen: &mut Seen) {
    let call = draw_call(random, &twins.table, &twins.sheet);
    twins.write_for(&call);
    let mut code = make(twins, seen, &call.registers, call.caller);
    while code == Some(INCOMPLETE) && !random.once_in(8) {
        let calling = number(&twins.sheet, 32 * call.caller + 12, 4) as usize;
        twins.poke(Buffer::Memory, PAGE * calling, &[1]);
        code = make(twins, seen, &call.registers, call.caller);
    }
}

/// Makes a call. Its code, where it is handled.
pub fn make(twins: &mut Twins, seen: &mut Seen, registers: &[u8], caller: usize) -> Option<u32> {
    let found = Found::new(twins, registers, caller);
    let (outcome, after) = twins.call(registers, caller);
    seen.call(&found, outcome, &after, twins);
    (outcome == Outcome::Handled).then(|| number(&after, RAX, 8) as u32)
}
