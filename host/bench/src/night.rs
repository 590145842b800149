//! A night restart: every page is made valid, then some of them are deposited.

const PAGE: usize = 4096;

/// A call as the exported function takes it, and its outcome.
pub type Call = fn(&mut [u8], &mut [u8], &mut [u8], &mut [u8], usize) -> u32;

#[derive(Clone, PartialEq)]
pub struct Machine {
    pub memory: Vec<u8>,
    pub table: Vec<u8>,
    pub sheet: Vec<u8>,
}

/// What the guest writes into page 0 one after the other, each with the call that it is for.
pub struct Night {
    lists: Vec<(u64, Vec<u8>)>,
}

impl Machine {
    /// A machine of n pages that launch would make: page 0 alone is valid and plain, the last four are the monitor's, before them VMSA and calling page.
    pub fn new(n: usize) -> Machine {
        let mut machine = Machine {
            memory: vec![0; PAGE * n],
            table: vec![0; n],
            sheet: vec![0; 512],
        };
        machine.clear();
        machine
    }

    pub fn clear(&mut self) {
        let n = self.table.len();
        self.memory.fill(0);
        self.memory[PAGE * (n - 5) + 0xCA] = 1;
        self.memory[PAGE * (n - 5) + 0xD1] = 0x10;
        let plan = monitor::Plan {
            pages: n,
            monitor_first: n - 4,
            monitor_count: 4,
            vmsa_page: n - 5,
            calling_page: n - 6,
            apic_id: 0,
            valid_below: 1,
        };
        let made = monitor::launch(&mut self.memory, &mut self.table, &mut self.sheet, &plan);
        assert_eq!(made, monitor::Launched::Made);
    }
}

impl Night {
    /// n entries that make a page valid: one for each page that an entry can name; the seven that are taken are made up by repeats, with bit 3 set. Then so many
    /// pages are deposited.
    pub fn new(n: usize, deposits: usize) -> Night {
        let free = 1..n as u64 - 6;
        let validated = free.clone().map(|page| page << 12 | 0b0100);
        let repeats = (1..8).map(|page| page << 12 | 0b1100);
        let entries: Vec<u64> = validated.chain(repeats).collect();
        assert_eq!(entries.len(), n);
        let deposited: Vec<u64> = free.take(deposits).map(|page| page << 12).collect();
        assert_eq!(deposited.len(), deposits);
        let mut lists = Vec::new();
        for (call, entries) in [(1, entries), (4, deposited)] {
            lists.extend(entries.chunks(511).map(|part| (call, list(part))));
        }
        Night { lists }
    }

    /// Makes the calls, each again until its list is done. How many they were.
    pub fn pass(&self, machine: &mut Machine, call: Call) -> usize {
        let calling = PAGE * (machine.table.len() - 6);
        let mut calls = 0;
        for (rax, list) in &self.lists {
            machine.memory[..list.len()].copy_from_slice(list);
            loop {
                let mut registers = [0; 48];
                registers[..8].copy_from_slice(&rax.to_le_bytes());
                registers[40..].copy_from_slice(&0x403_u64.to_le_bytes());
                machine.memory[calling] = 1;
                let buffers = (&mut machine.memory, &mut machine.table, &mut machine.sheet);
                let outcome = call(buffers.0, buffers.1, buffers.2, &mut registers, 0);
                calls += 1;
                match (outcome, registers[..8].try_into().map(u64::from_le_bytes)) {
                    (0, Ok(0)) => break,
                    (0, Ok(0x8000_0000)) => {}
                    refused => panic!("{refused:x?}"),
                }
            }
        }
        calls
    }
}

fn list(entries: &[u64]) -> Vec<u8> {
    let head = entries.len() as u64;
    let numbers = std::iter::once(&head).chain(entries);
    numbers.flat_map(|number| number.to_le_bytes()).collect()
}
