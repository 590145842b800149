//! Calls that a guest might make: mostly ones that get far, with a fault here and there.

use crate::Random;

const PAGE: usize = 4096;

#[derive(Clone, Debug, PartialEq)]
pub struct Call {
    pub registers: [u8; 48],
    pub caller: usize,
    /// What the guest has written for it, in order, each at its gPA: the list, the VMSA's fields, the pending byte.
    written: Vec<(u64, Vec<u8>)>,
}

impl Call {
    /// Writes into memory what the guest has written for the call. What lies outside is left out.
    pub fn write_into(&self, memory: &mut [u8]) {
        for (gpa, bytes) in &self.written {
            let start = usize::try_from(*gpa).ok();
            let place = start.and_then(|start| Some(start..start.checked_add(bytes.len())?));
            if let Some(part) = place.and_then(|place| memory.get_mut(place)) {
                part.copy_from_slice(bytes);
            }
        }
    }
}

/// Chooses a caller and a call, and what the guest writes for it. A table and a sheet of any size will do.
pub fn draw_call(random: &mut Random, table: &[u8], sheet: &[u8]) -> Call {
    let mut guest = Guest {
        random,
        table,
        sheet,
        written: Vec::new(),
    };
    let caller = guest.caller();
    let called = guest.called();
    let [rcx, rdx, r8] = guest.arguments(caller, called);
    let r9 = guest.random.number();
    // What stands at byte 0 of the calling page is written last.
    let pending = guest.pending();
    guest.write(PAGE as u64 * guest.field(caller, 12), &[pending]);
    let exit_reason = guest.exit_reason();
    let mut registers = [0; 48];
    for (index, value) in [called, rcx, rdx, r8, r9, exit_reason].iter().enumerate() {
        registers[8 * index..8 * index + 8].copy_from_slice(&value.to_le_bytes());
    }
    Call {
        registers,
        caller,
        written: guest.written,
    }
}

struct Guest<'a> {
    random: &'a mut Random,
    table: &'a [u8],
    sheet: &'a [u8],
    written: Vec<(u64, Vec<u8>)>,
}

impl Guest<'_> {
    fn called(&mut self) -> u64 {
        match self.random.below(40) {
            0 => self.random.pick(&[8, 9, 0xFFFF_FFFF, 1 << 31]),
            1 => (1 + self.random.below(3) as u64) << 32 | self.random.below(9) as u64,
            2..=8 => 1,
            9..=19 => 2,
            20..=23 => 3,
            24..=31 => 4,
            32..=34 => 5,
            35..=36 => 0,
            37 => 6,
            _ => 7,
        }
    }

    /// RCX, RDX and R8.
    fn arguments(&mut self, caller: usize, called: u64) -> [u64; 3] {
        let [mut rcx, rdx, r8] = [(); 3].map(|()| self.random.number());
        match called {
            0 if self.random.once_in(6) => rcx = PAGE as u64 * self.field(caller, 12),
            0 => rcx = self.gpa(),
            1 | 4 => rcx = self.list(caller, called == 4),
            2 => return self.new_vcpu(caller),
            3 => {
                let vmsa = self.live_field(8);
                rcx = self.spoiled(vmsa * PAGE as u64);
            }
            5 => rcx = self.list_place(caller),
            6 => rcx = self.random.pick(&[0, 1, 2, 1 << 32, 1 << 32 | 1, rcx]),
            7 => {
                let low = self.random.number() & 0x1F;
                let choice = [1, 1 << 32 | 1, 0, low, low | 1 << 12, low | 1 << 5, rcx];
                rcx = self.random.pick(&choice);
            }
            _ => {}
        }
        [rcx, rdx, r8]
    }

    fn pending(&mut self) -> u8 {
        match self.random.below(40) {
            0 => 0,
            1 => self.random.byte(),
            _ => 1,
        }
    }

    fn exit_reason(&mut self) -> u64 {
        match self.random.below(40) {
            0 => self.random.pick(&[0, 0x402, 0x403 + (1 << 32)]),
            _ => 0x403,
        }
    }

    /// Mostly a live record, where there is one.
    fn caller(&mut self) -> usize {
        if self.random.once_in(40) {
            return self.random.pick(&[15, 16, 17, 1 << 32, usize::MAX]);
        }
        (0..8)
            .map(|_| self.random.below(16))
            .find(|&record| self.sheet.get(32 * record) == Some(&1))
            .unwrap_or(0)
    }

    /// Four bytes of some live record, or of record 0 where none is.
    fn live_field(&mut self, at: usize) -> u64 {
        let mut live: Vec<usize> = (0..16)
            .filter(|&record| self.sheet.get(32 * record) == Some(&1))
            .collect();
        if live.is_empty() {
            live.push(0);
        }
        let record = self.random.pick(&live);
        self.field(record, at)
    }

    /// A page that some live record names.
    fn named_page(&mut self) -> u64 {
        let at = self.random.pick(&[8, 12, 16]);
        self.live_field(at)
    }

    /// Four bytes of a record; 0 where the sheet has none.
    fn field(&self, record: usize, at: usize) -> u64 {
        let start = record
            .checked_mul(32)
            .and_then(|start| start.checked_add(at));
        let bytes = start.and_then(|start| self.sheet.get(start..start.checked_add(4)?));
        bytes.map_or(0, |bytes| {
            u64::from(u32::from_le_bytes(bytes.try_into().unwrap()))
        })
    }

    fn vmpl(&self, record: usize) -> u8 {
        let at = record
            .checked_mul(32)
            .and_then(|start| start.checked_add(1));
        at.and_then(|at| self.sheet.get(at)).copied().unwrap_or(1)
    }

    fn fits(&self, page: usize, valid: bool) -> bool {
        let byte = self.table.get(page).copied().unwrap_or(0);
        byte & 7 == 0 && (byte & 8 != 0) == valid
    }

    /// The first page beyond the groups of 512, where a few are, or now and then 0. Pages are mostly drawn from there, so that groups stay fit for an entry.
    fn lowest(&mut self) -> usize {
        let n = self.table.len();
        let beyond = n / 512 * 512;
        if n - beyond < 6 || self.random.once_in(16) {
            0
        } else {
            beyond
        }
    }

    /// A page, mostly a plain one, mostly of that validity.
    fn page(&mut self, valid: bool) -> u64 {
        let lowest = self.lowest();
        let mut page = 0;
        for _ in 0..12 {
            page = lowest + self.random.below((self.table.len() - lowest).max(1));
            if self.fits(page, valid) {
                break;
            }
        }
        page as u64
    }

    /// A gPA as it is, or once in a while made unfit: not a multiple, past N, past 32 bits.
    fn spoiled(&mut self, gpa: u64) -> u64 {
        let end = (PAGE * self.table.len()) as u64;
        match self.random.below(60) {
            0 => gpa.wrapping_add(self.random.number() % 4096),
            1 => gpa.wrapping_add(1 << 32),
            2 => gpa.wrapping_add(1 << 44),
            3 => end,
            4 => end.wrapping_sub(PAGE as u64),
            5 => self.random.number(),
            6 => gpa.wrapping_add(8),
            _ => gpa,
        }
    }

    fn gpa(&mut self) -> u64 {
        let page = self.page(true);
        self.spoiled(page * PAGE as u64)
    }

    /// A place for a list: in a plain page, in the caller's calling page, or in a page that some record names.
    fn list_place(&mut self, caller: usize) -> u64 {
        let page = match self.random.below(12) {
            0 => self.field(caller, 12),
            1 => self.named_page(),
            _ => self.page(true),
        };
        let offset = match self.random.below(8) {
            0 => 8 * self.random.below(512) as u64,
            1 => 4096 - 8 * (1 + self.random.below(4) as u64),
            2..=4 => 8 * self.random.below(32) as u64,
            _ => 0,
        };
        self.spoiled(page * PAGE as u64 + offset)
    }

    fn list(&mut self, caller: usize, deposit: bool) -> u64 {
        let place = self.list_place(caller);
        let room = ((PAGE - place as usize % PAGE) / 8).saturating_sub(1);
        let count = match self.random.below(16) {
            0 => self.random.pick(&[0, room, room + 1, 511, 512, 0xFFFF]),
            1 | 2 => 30 + self.random.below(40),
            _ => 1 + self.random.below(6),
        };
        let next = match self.random.below(16) {
            0 => self.random.pick(&[count, count + 1, 0xFFFF]),
            1 | 2 => self.random.below(count + 1),
            _ => 0,
        };
        let head = [count as u16, next as u16].map(u16::to_le_bytes).concat();
        self.write(place, &head);
        let entries = if count > 20 && !self.random.once_in(4) {
            self.long_list(place / PAGE as u64, deposit)
        } else {
            let drawn = (0..count.min(room)).map(|_| self.entry(deposit));
            drawn.collect()
        };
        let entries = entries.iter().take(count.min(room));
        let bytes: Vec<u8> = entries.flat_map(|entry| entry.to_le_bytes()).collect();
        self.write(place.wrapping_add(8), &bytes);
        place
    }

    /// 511 entries of which many can be done: one page again and again, or each page that is fit.
    fn long_list(&mut self, list_page: u64, deposit: bool) -> Vec<u64> {
        if !deposit && self.random.once_in(2) {
            return vec![self.page(true) << 12 | 0b1100; 511];
        }
        let wish = !deposit && self.random.once_in(2);
        let lowest = self.lowest();
        let fit = |page: &u64| *page != list_page && self.fits(*page as usize, !wish);
        let pages = (lowest as u64..self.table.len() as u64).filter(fit);
        let mut entries: Vec<u64> = pages
            .map(|page| page << 12 | u64::from(wish) << 2)
            .collect();
        if entries.is_empty() {
            entries.push(self.entry(deposit));
        }
        entries.into_iter().cycle().take(511).collect()
    }

    fn entry(&mut self, deposit: bool) -> u64 {
        let wish = !deposit && self.random.once_in(2);
        let groups = self.table.len() / 512;
        let large = groups > 0 && self.random.once_in(2);
        let past = self.random.once_in(16);
        let page = if large {
            512 * self.random.below(groups + usize::from(past)) as u64
        } else if self.random.once_in(30) {
            self.named_page()
        } else {
            self.page(!wish)
        };
        let mut entry = self.spoiled(page << 12) | u64::from(large) | u64::from(wish) << 2;
        if !deposit && self.random.once_in(4) {
            entry |= 1 << 3;
        }
        if self.random.once_in(40) {
            entry |= 1 << self.random.below(12);
        }
        entry
    }

    /// Two pages and an APIC ID for Create, the VMSA written.
    fn new_vcpu(&mut self, caller: usize) -> [u64; 3] {
        let (vmsa, calling) = (self.gpa(), self.gpa());
        let mut vmpl = self.vmpl(caller);
        vmpl += self
            .random
            .below(4_usize.saturating_sub(vmpl.into()).max(1)) as u8;
        if self.random.once_in(20) {
            vmpl = self.random.pick(&[0, 1, 2, 3, 4, 255]);
        }
        self.write(vmsa.wrapping_add(0xCA), &[vmpl]);
        let efer = self.random.number() | if self.random.once_in(20) { 0 } else { 1 << 12 };
        self.write(vmsa.wrapping_add(0xD0), &efer.to_le_bytes());
        let mut features = [0; 8];
        if let Some(startup) = self.sheet.get(24..32) {
            features.copy_from_slice(startup);
        }
        if self.random.once_in(20) {
            features[self.random.below(8)] ^= 1 << self.random.below(8);
        }
        self.write(vmsa.wrapping_add(0x3B0), &features);
        let record = self.random.below(16);
        let r8 = match self.random.below(12) {
            0 => self.live_field(4) | self.random.number() << 32,
            1 => self.field(record, 4) | self.random.number() << 32,
            _ => self.random.number(),
        };
        [vmsa, calling, r8]
    }

    fn write(&mut self, gpa: u64, bytes: &[u8]) {
        self.written.push((gpa, bytes.to_vec()));
    }
}
