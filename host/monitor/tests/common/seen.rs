//! What the calls of a test have reached, so that a test whose calls no longer get there fails.

use std::collections::BTreeMap;
use std::fmt;
use std::ops::Range;

use model::answers::*;
use model::call::*;
use model::machine::*;
use monitor::Outcome;

use super::Twins;

/// The codes that document 01 permits each of the eight calls and, last, before them.
const PERMITTED: [&[u32]; 9] = [
    &[SUCCESS, PARAMETER, ADDRESS],
    &[
        SUCCESS,
        INCOMPLETE,
        PARAMETER,
        ADDRESS,
        SIZE_MISMATCH,
        NO_CHANGE,
    ],
    &[SUCCESS, ONE_MORE_PAGE, PARAMETER, ADDRESS, REQUEST],
    &[SUCCESS, PARAMETER, IN_USE],
    &[SUCCESS, INCOMPLETE, PARAMETER, ADDRESS],
    &[SUCCESS, PARAMETER, ADDRESS],
    &[SUCCESS],
    &[SUCCESS, PARAMETER, REQUEST],
    &[BAD_PENDING, PROTOCOL_NOT_KNOWN, CALL_NOT_KNOWN],
];

#[derive(Default)]
pub struct Seen {
    outcomes: [u64; 4],
    /// How often each code of each call.
    codes: BTreeMap<(usize, u32), u64>,
    sights: BTreeMap<&'static str, u64>,
}

impl fmt::Display for Seen {
    fn fmt(&self, out: &mut fmt::Formatter) -> fmt::Result {
        writeln!(out, "outcomes {:?}", self.outcomes)?;
        for ((called, code), times) in &self.codes {
            writeln!(out, "call {called}, code {code:#x}: {times}")?;
        }
        for (sight, times) in &self.sights {
            writeln!(out, "{sight}: {times}")?;
        }
        Ok(())
    }
}

/// The machine as a call found it.
pub struct Found {
    table: Vec<u8>,
    sheet: Vec<u8>,
    registers: Vec<u8>,
    caller: usize,
    /// The page that RCX names; no bytes where there is none.
    named: Vec<u8>,
}

/// A list whose head is accepted.
struct List {
    page: usize,
    offset: usize,
    count: usize,
    next: usize,
}

impl Found {
    pub fn new(twins: &Twins, registers: &[u8], caller: usize) -> Found {
        let rcx = registers
            .get(RCX..RCX + 8)
            .map_or(0, |rcx| number(rcx, 0, 8));
        let page = twins.memory.chunks(PAGE).nth((rcx / PAGE as u64) as usize);
        Found {
            table: twins.table.clone(),
            sheet: twins.sheet.clone(),
            registers: registers.to_vec(),
            caller,
            named: page.unwrap_or(&[]).to_vec(),
        }
    }

    /// Whether a call that was made kept within its caller's VMPL: no page has become permitted to a VMPL above it, and no vCPU of one below it came or went.
    fn is_confined(&self, twins: &Twins) -> bool {
        let vmpl = self.byte(self.caller, VMPL);
        let gained = |page: usize| {
            let (before, after) = (self.table[page], twins.table[page]);
            (vmpl + 1..=3).any(|above| !permitted(before, above) && permitted(after, above))
        };
        let reached = |record: usize| {
            let (before, after) = (self.record(record), &twins.sheet[RECORD * record..]);
            let of_one = if before[LIVE] == 1 { before } else { after };
            before[LIVE] != after[LIVE] && of_one[VMPL] < vmpl
        };
        !(0..self.table.len()).any(gained) && !(0..RECORDS).any(reached)
    }

    fn rcx(&self) -> u64 {
        number(&self.registers, RCX, 8)
    }

    fn rcx_page(&self) -> usize {
        (self.rcx() / PAGE as u64) as usize
    }

    fn record(&self, record: usize) -> &[u8] {
        &self.sheet[RECORD * record..RECORD * (record + 1)]
    }

    fn byte(&self, record: usize, at: usize) -> u8 {
        self.record(record)[at]
    }

    fn page(&self, record: usize, at: usize) -> usize {
        number(&self.sheet, RECORD * record + at, 4) as usize
    }

    fn live(&self) -> impl Iterator<Item = usize> + '_ {
        (0..RECORDS).filter(|&record| self.byte(record, LIVE) == 1)
    }

    /// How many live records name a page there.
    fn names(&self, page: usize, at: usize) -> usize {
        let held = |record: &usize| at != POOL_PAGE || self.byte(*record, HOLDS) == 1;
        let named = self.live().filter(held).map(|record| self.page(record, at));
        named.filter(|&named| named == page).count()
    }

    /// The list of Pvalidate or Deposit, where it gets as far as its entries.
    fn list(&self) -> Option<List> {
        let (page, offset) = (self.rcx_page(), self.rcx() as usize % PAGE);
        let byte = *self.table.get(page)?;
        let fit = owner(byte) == PLAIN || (owner(byte) == CALLING && offset != 0);
        if !offset.is_multiple_of(8) || !valid(byte) || !fit {
            return None;
        }
        let count = number(&self.named, offset, 2) as usize;
        let next = number(&self.named, offset + 2, 2) as usize;
        let whole = next < count && offset + 8 + 8 * count <= PAGE;
        whole.then_some(List {
            page,
            offset,
            count,
            next,
        })
    }
}

impl Seen {
    /// Looks at a call that was made.
    pub fn call(&mut self, found: &Found, outcome: Outcome, registers: &[u8], twins: &Twins) {
        self.outcomes[outcome.number() as usize] += 1;
        if matches!(outcome, Outcome::NoCall | Outcome::BadMachine) {
            return;
        }
        assert!(found.is_confined(twins), "by {}", found.caller);
        let mut code = SUCCESS;
        let mut called = number(&found.registers, RAX, 8) as usize;
        if outcome == Outcome::Handled {
            code = number(registers, RAX, 8) as u32;
            called = if PERMITTED[8].contains(&code) {
                8
            } else {
                called
            };
            assert!(PERMITTED[called].contains(&code), "{called}: {code:x}");
            *self.codes.entry((called, code)).or_insert(0) += 1;
        }
        let kept_bit_7 = |page: usize| {
            let (before, after) = (found.table[page], twins.table[page]);
            before != after && before & 0x80 != 0
        };
        let changed = (0..found.table.len()).any(kept_bit_7);
        self.note("a change to a table byte with bit 7", changed);
        match (called, code) {
            (0, SUCCESS) => self.remap(found),
            (1 | 4, _) => self.list(found, called == 4, code, twins),
            (2, SUCCESS) => self.create(found, twins),
            (3, SUCCESS) => self.delete(found, outcome),
            (5, SUCCESS) => self.withdraw(found, twins),
            _ => {}
        }
    }

    fn note(&mut self, sight: &'static str, is_seen: bool) {
        if is_seen {
            *self.sights.entry(sight).or_insert(0) += 1;
        }
    }

    fn remap(&mut self, found: &Found) {
        let old = found.page(found.caller, CALLING_PAGE);
        let same = old == found.rcx_page();
        let byte = found.table[old];
        self.note("Remap to the same page", same);
        self.note("Remap to another page", !same);
        let named = found.names(old, CALLING_PAGE);
        self.note("Remap from a page of two records", !same && named > 1);
        self.note("Remap from a monitor page", !same && owner(byte) == MONITOR);
        self.note(
            "Remap from a VMSA",
            !same && found.names(old, VMSA_PAGE) > 0,
        );
    }

    fn list(&mut self, found: &Found, deposit: bool, code: u32, twins: &Twins) {
        let Some(list) = found.list() else {
            let byte = found.table.get(found.rcx_page()).copied().unwrap_or(0);
            let at_0 = found.rcx().is_multiple_of(PAGE as u64);
            let refused = owner(byte) == CALLING && valid(byte) && at_0;
            self.note("a list at offset 0 of a calling page", refused);
            return;
        };
        let index = number(&twins.memory, PAGE * list.page + list.offset + 2, 2) as usize;
        let entry = |index: usize| number(&found.named, list.offset + 8 + 8 * index, 8);
        for index in list.next..index {
            self.done(found, &list, entry(index), deposit);
        }
        if code != SUCCESS && code != INCOMPLETE {
            self.refused(found, &list, entry(index), code);
        }
        if index > list.next {
            self.list_place(found, &list);
        }
        let ended = list.next >= 32 && code == SUCCESS;
        self.note("a list taken up again and ended", ended);
    }

    fn list_place(&mut self, found: &Found, list: &List) {
        let page = list.page;
        let own = found.page(found.caller, CALLING_PAGE) == page;
        let calling = owner(found.table[page]) == CALLING;
        let ends = list.offset + 8 + 8 * list.count == PAGE;
        self.note("a list in its caller's calling page", calling && own);
        self.note("a list in another's calling page", calling && !own);
        self.note("a list that ends with its page", ends);
        self.note("a list in a VMSA", found.names(page, VMSA_PAGE) > 0);
        let held = found.names(page, POOL_PAGE) > 0;
        self.note("a list in a held pool page", held);
        let startup = found.page(0, CALLING_PAGE) == page && list.offset == 0;
        self.note("a list whose count is the startup's two bytes", startup);
    }

    fn done(&mut self, found: &Found, list: &List, entry: u64, deposit: bool) {
        let Range { start, end } = covered(entry);
        let (below, above) = (end <= list.page, start > list.page);
        if end - start == 512 {
            self.note("512 pages below their list", below);
            self.note("512 pages above their list", above);
            self.note("512 pages deposited", deposit);
            self.note("512 pages made valid", !deposit && entry & 4 != 0);
            self.note("512 pages made invalid", !deposit && entry & 4 == 0);
            self.note("512 pages that bit 3 excused", entry & 8 != 0);
            return;
        }
        self.note("an entry below its list", below);
        self.note("an entry above its list", above);
        let own = found.page(found.caller, CALLING_PAGE) == start;
        self.note("an entry on its caller's calling page", own);
        let startup = found.page(0, CALLING_PAGE) == start;
        self.note("an entry on the startup's calling page", startup);
        self.note("an entry on a VMSA", found.names(start, VMSA_PAGE) > 0);
        let held = found.names(start, POOL_PAGE) > 0;
        self.note("an entry on a held pool page", held);
    }

    fn refused(&mut self, found: &Found, list: &List, entry: u64, code: u32) {
        let range = covered(entry);
        if code != ADDRESS {
            return;
        }
        let own = range.contains(&list.page);
        self.note("an entry on its own list", own && range.len() == 1);
        self.note(
            "512 pages with their list inside",
            own && range.len() == 512,
        );
        let past = range.len() == 512 && range.contains(&found.table.len());
        self.note("512 pages past the last", past);
        let nobodys = |byte: &u8| owner(*byte) > VMSA;
        let met = found.table.get(range.start).is_some_and(nobodys);
        self.note("an entry on a page of owner 6 or 7", met);
    }

    fn create(&mut self, found: &Found, twins: &Twins) {
        let free = |record: &usize| found.byte(*record, LIVE) == 0;
        let record = (0..RECORDS).find(free).expect("Create found one");
        self.note("16 live records", found.live().count() == 15);
        self.note("Create of a record from 4 up", record >= 4);
        let vmpl = twins.sheet[RECORD * record + VMPL];
        let above = vmpl > found.byte(found.caller, VMPL);
        self.note("Create with a VMPL above the caller's", above);
        let garbage = found.record(record).iter().any(|&byte| byte != 0);
        self.note("Create in a record that was not zeros", garbage);
        let page = found.rcx_page();
        let named = [VMSA_PAGE, CALLING_PAGE, POOL_PAGE].map(|at| found.names(page, at));
        self.note("Create on a page that a record names", named != [0; 3]);
    }

    fn delete(&mut self, found: &Found, outcome: Outcome) {
        let vmsa = found.rcx_page();
        let named = |record: &usize| found.page(*record, VMSA_PAGE) == vmsa;
        let record = found.live().find(named).expect("Delete found one");
        let (own, gone) = (record == found.caller, outcome == Outcome::Gone);
        assert_eq!(own, gone, "{record}");
        let held = found.byte(record, HOLDS) == 1;
        let running = found.byte(record, RUNNING) == 1;
        self.note("Delete of another that holds a pool page", held && !own);
        self.note("Delete of itself, with a pool page", held && own);
        self.note("Delete of itself, running", running && own);
        let two = found.names(vmsa, VMSA_PAGE) > 1;
        self.note("Delete of a VMSA that two records name", two && own);
        let callers = found.page(found.caller, VMSA_PAGE) == vmsa;
        self.note("Delete of a lower record by its VMSA", callers && !own);
        let calling = found.page(record, CALLING_PAGE);
        let pool = found.page(record, POOL_PAGE);
        self.note("Delete where VMSA and calling page meet", calling == vmsa);
        let meets = held && (pool == vmsa || pool == calling);
        self.note("Delete where the pool page meets another", meets);
        let callers = calling == found.page(found.caller, CALLING_PAGE);
        self.note("Delete of the caller's calling page", callers && !own);
        let startups = calling == found.page(0, CALLING_PAGE);
        self.note("Delete of the startup's calling page", startups);
    }

    fn withdraw(&mut self, found: &Found, twins: &Twins) {
        let place = found.rcx() as usize;
        let free = |table: &[u8]| table.iter().filter(|&&b| owner(b) == POOL_FREE).count();
        let given = free(&found.table) - free(&twins.table);
        let byte = found.table[place / PAGE];
        self.note("Withdraw of nothing", given == 0);
        self.note("Withdraw of 511 pages", given == 511);
        self.note("Withdraw of as many as fit", free(&twins.table) > 0);
        self.note("Withdraw into a calling page", owner(byte) == CALLING);
        let vmsa = found.names(place / PAGE, VMSA_PAGE) > 0;
        self.note("Withdraw into a VMSA", vmsa);
    }

    /// Panics unless each outcome has come, each code that document 01 permits each call but for these, and each of these sights.
    pub fn must(&self, but: &[(usize, u32)], sights: &[&str]) {
        assert!(self.outcomes.iter().all(|&times| times > 0), "{self}");
        for (called, codes) in PERMITTED.iter().enumerate() {
            for &code in codes.iter() {
                let seen = self.codes.contains_key(&(called, code));
                let excused = but.contains(&(called, code));
                assert!(seen || excused, "call {called}, code {code:#x}: {self}");
            }
        }
        for &sight in sights {
            assert!(self.sights.contains_key(sight), "{sight}: {self}");
        }
    }
}

/// "bits 1:0 size (0 one page, 1 512 pages), bits 63:12 page".
fn covered(entry: u64) -> Range<usize> {
    let first = (entry >> 12) as usize;
    first..first + if entry & 3 == 1 { 512 } else { 1 }
}
