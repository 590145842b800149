//! A deterministic source of numbers (splitmix64).

use std::env::var;

pub struct Random {
    state: u64,
}

impl Random {
    pub fn new(seed: u64) -> Random {
        Random { state: seed }
    }

    /// A source from the seed in the environment variable MONITOR_SEED, else from `seed`. It is printed, so that a failure can be had again.
    pub fn seeded(seed: u64) -> Random {
        let seed = from_environment("MONITOR_SEED").unwrap_or(seed);
        println!("MONITOR_SEED={seed}");
        Random::new(seed)
    }

    pub fn number(&mut self) -> u64 {
        self.state = self.state.wrapping_add(0x9E37_79B9_7F4A_7C15);
        let mut z = self.state;
        z = (z ^ (z >> 30)).wrapping_mul(0xBF58_476D_1CE4_E5B9);
        z = (z ^ (z >> 27)).wrapping_mul(0x94D0_49BB_1331_11EB);
        z ^ (z >> 31)
    }

    /// A number below `limit`, which is not 0.
    pub fn below(&mut self, limit: usize) -> usize {
        (self.number() % limit as u64) as usize
    }

    /// True once in `times`.
    pub fn once_in(&mut self, times: usize) -> bool {
        self.below(times) == 0
    }

    pub fn pick<T: Copy>(&mut self, from: &[T]) -> T {
        from[self.below(from.len())]
    }

    pub fn byte(&mut self) -> u8 {
        self.number() as u8
    }

    pub fn fill(&mut self, bytes: &mut [u8]) {
        for part in bytes.chunks_mut(8) {
            let number = self.number().to_le_bytes();
            part.copy_from_slice(&number[..part.len()]);
        }
    }
}

/// How many steps to try: the environment variable MONITOR_STEPS, else `ordinary`.
pub fn steps_or(ordinary: u64) -> u64 {
    from_environment("MONITOR_STEPS").unwrap_or(ordinary)
}

fn from_environment(name: &str) -> Option<u64> {
    let text = var(name).ok()?;
    match text.parse() {
        Ok(number) => Some(number),
        Err(_) => panic!("{name}={text} is not a number"),
    }
}
