//! A night restart of 8,192 pages on the core and on a plain Rust program, one after the other in one process. It prints the medians and their ratio.

mod night;
mod plain;

use std::time::{Duration, Instant};

use night::{Call, Machine, Night};

const CORE: Call = |memory, table, sheet, registers, caller| {
    monitor::call(memory, table, sheet, registers, caller).number()
};

const PAGES: usize = 8192;
const DEPOSITS: usize = 4000;
const RUNS: usize = 51;

fn main() {
    let night = Night::new(PAGES, DEPOSITS);
    // Both have the same buffers, so that neither has the better part of memory.
    let mut machine = Machine::new(PAGES);
    let calls = night.pass(&mut machine, CORE);
    let end = machine.clone();
    let programs = [CORE, plain::call];
    let mut times = [Vec::new(), Vec::new()];
    for run in 0..RUNS {
        // Each goes first in turn.
        for which in [run % 2, 1 - run % 2] {
            machine.clear();
            let began = Instant::now();
            night.pass(&mut machine, programs[which]);
            times[which].push(began.elapsed());
            assert!(machine == end, "they don't end alike");
        }
    }
    let [core, plain] = times.map(median);
    println!("{PAGES} entries of Pvalidate, {DEPOSITS} of Deposit, {calls} calls, {RUNS} runs");
    println!("core  {core:.3} ms\nplain {plain:.3} ms");
    println!("ratio {:.2}", core / plain);
}

/// In milliseconds.
fn median(mut times: Vec<Duration>) -> f64 {
    times.sort();
    1000.0 * times[times.len() / 2].as_secs_f64()
}

#[cfg(test)]
mod tests;
