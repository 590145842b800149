//! The calls that name a list: 1 Pvalidate, 4 Deposit, 5 Withdraw.

use std::ops::Range;

use crate::answers::*;
use crate::machine::*;

/// A list whose head was accepted: the page that holds it, where in memory it starts, its count and next index.
struct List {
    page: usize,
    start: usize,
    count: usize,
    next: usize,
}

/// An entry that read cleanly: "its range and wishes".
struct Entry {
    pages: Range<usize>,
    wish: Wish,
}

enum Wish {
    Invalid,
    Valid,
    Pool,
}

#[derive(Clone, Copy, PartialEq)]
enum Kind {
    Pvalidate,
    Deposit,
}

pub fn pvalidate(machine: &mut Machine, caller: usize, rcx: u64) -> u32 {
    list_call(machine, caller, rcx, Kind::Pvalidate)
}

pub fn deposit(machine: &mut Machine, caller: usize, rcx: u64) -> u32 {
    list_call(machine, caller, rcx, Kind::Deposit)
}

fn list_call(machine: &mut Machine, caller: usize, rcx: u64, kind: Kind) -> u32 {
    // "Up to here the list is untouched."
    let list = match read_head(machine, rcx) {
        Ok(list) => list,
        Err(code) => return code,
    };
    let vmpl = machine.vmpl(caller);
    // "Then up to 32 entries (house) are done from next."
    let mut index = list.next;
    let mut code = SUCCESS;
    for _ in 0..32 {
        if index == list.count {
            break;
        }
        match read_entry(machine, &list, index, kind) {
            Ok(entry) => carry_out(machine, entry, vmpl),
            // "refused on the spot; its index is then stored, earlier entries stand"
            Err(refusal) => {
                code = refusal;
                break;
            }
        }
        index += 1;
    }
    // "If all is well the new index is stored; the code is incomplete if entries remain, else success."
    put_number(machine.memory, list.start + 2, 2, index as u64);
    if code == SUCCESS && index < list.count {
        code = INCOMPLETE;
    }
    code
}

/// "RCX is a list: count (2 bytes), next index (2), reserved (4, ignored), entries of 8."
fn read_head(machine: &Machine, rcx: u64) -> Result<List, u32> {
    // "RCX not a multiple of 8: PARAMETER."
    if !rcx.is_multiple_of(8) {
        return Err(PARAMETER);
    }
    let page = list_page(machine, rcx)?;
    let offset = offset(rcx);
    let start = PAGE * page + offset;
    let count = number(machine.memory, start, 2) as usize;
    let next = number(machine.memory, start + 2, 2) as usize;
    // "Count 0, or offset + 8 + 8 x count above 4,096: PARAMETER."
    if count == 0 || offset + 8 + 8 * count > 4096 {
        return Err(PARAMETER);
    }
    // "Next not below count: PARAMETER."
    if next >= count {
        return Err(PARAMETER);
    }
    Ok(List {
        page,
        start,
        count,
        next,
    })
}

/// "List page not below N, not valid, neither plain nor calling, or calling with page offset 0: ADDRESS."
fn list_page(machine: &Machine, rcx: u64) -> Result<usize, u32> {
    let page = machine.page_of(rcx).ok_or(ADDRESS)?;
    let byte = machine.table[page];
    let fit = match owner(byte) {
        PLAIN => true,
        CALLING => offset(rcx) != 0,
        _ => false,
    };
    if valid(byte) && fit {
        Ok(page)
    } else {
        Err(ADDRESS)
    }
}

fn offset(rcx: u64) -> usize {
    (rcx % PAGE as u64) as usize
}

/// "An entry either reads cleanly into its range and wishes or is refused on the spot".
fn read_entry(machine: &Machine, list: &List, index: usize, kind: Kind) -> Result<Entry, u32> {
    // "bits 1:0 size (0 one page, 1 512 pages), bits 63:12 page"
    let entry = number(machine.memory, list.start + 8 + 8 * index, 8);
    let size = entry & 0b11;
    let first = entry >> 12;
    let length = if size == 1 { 512 } else { 1 };
    // "a reserved bit set (Pvalidate 11:4, Deposit 11:2)"
    let reserved = match kind {
        Kind::Pvalidate => entry & 0xFF0,
        Kind::Deposit => entry & 0xFFC,
    };
    // "Sizes 2 and 3, a reserved bit set .., or a size-1 page not a multiple of 512: PARAMETER."
    if size > 1 || reserved != 0 || (size == 1 && !first.is_multiple_of(512)) {
        return Err(PARAMETER);
    }
    // "Any covered page not below N, not plain, or holding this list: ADDRESS."
    for number in first..first + length {
        let page = machine.page_numbered(number).ok_or(ADDRESS)?;
        if owner(machine.table[page]) != PLAIN || page == list.page {
            return Err(ADDRESS);
        }
    }
    let pages = first as usize..(first + length) as usize;
    let covered = &machine.table[pages.clone()];
    if kind == Kind::Deposit {
        // "a covered page not valid: ADDRESS"
        if covered.iter().any(|&byte| !valid(byte)) {
            return Err(ADDRESS);
        }
        return Ok(Entry {
            pages,
            wish: Wish::Pool,
        });
    }
    // "bit 2 is the wished validity, bit 3 ignores 'no change'"
    let wished = entry & 0b100 != 0;
    let ignores = entry & 0b1000 != 0;
    // "Covered pages not all of equal validity: 0x80001006."
    let found = valid(covered[0]);
    if covered.iter().any(|&byte| valid(byte) != found) {
        return Err(SIZE_MISMATCH);
    }
    // "Already as wished and bit 3 clear: 0x80001010."
    if found == wished && !ignores {
        return Err(NO_CHANGE);
    }
    let wish = if wished { Wish::Valid } else { Wish::Invalid };
    Ok(Entry { pages, wish })
}

fn carry_out(machine: &mut Machine, entry: Entry, vmpl: u8) {
    for page in entry.pages {
        let byte = machine.table[page];
        machine.table[page] = match entry.wish {
            // "wish 0: revoke, make invalid"
            Wish::Invalid => with_valid(revoked(byte), false),
            // "Wish 1: make valid, fill with zeros, grant the caller's VMPL, also when bit 3 excused no change."
            Wish::Valid => {
                machine.memory[PAGE * page..PAGE * (page + 1)].fill(0);
                granted(with_valid(byte, true), vmpl)
            }
            // "Then revoke; pool free. Bytes stay."
            Wish::Pool => with_owner(revoked(byte), POOL_FREE),
        };
    }
}

pub fn withdraw(machine: &mut Machine, caller: usize, rcx: u64) -> u32 {
    // "RCX not a multiple of 8, or offset 0xFF8: PARAMETER."
    let offset = offset(rcx);
    if !rcx.is_multiple_of(8) || offset == 0xFF8 {
        return PARAMETER;
    }
    // "List page as above: ADDRESS."
    let page = match list_page(machine, rcx) {
        Ok(page) => page,
        Err(code) => return code,
    };
    // "As many free pool pages as fit below the 4,096 boundary, lowest first, rising: plain, granted to the caller's VMPL."
    let vmpl = machine.vmpl(caller);
    let room = (4096 - offset - 8) / 8;
    let free = (0..machine.table.len()).filter(|&page| owner(machine.table[page]) == POOL_FREE);
    let given: Vec<usize> = free.take(room).collect();
    for &page in &given {
        machine.table[page] = granted(with_owner(machine.table[page], PLAIN), vmpl);
    }
    // "Count goes in the first two bytes, gPAs from +8; the six bytes between and all after stay."
    let start = PAGE * page + offset;
    put_number(machine.memory, start, 2, given.len() as u64);
    for (index, &page) in given.iter().enumerate() {
        let gpa = (PAGE * page) as u64;
        put_number(machine.memory, start + 8 + 8 * index, 8, gpa);
    }
    // "Never incomplete."
    SUCCESS
}
