//! What the core is timed against: a call as a Rust programmer would write it, for speed. It knows the two calls of a night restart, Pvalidate and Deposit;
//! to any other it says that the call is not known.

use std::ops::Range;

const PAGE: usize = 4096;

const SUCCESS: u32 = 0;
const INCOMPLETE: u32 = 0x8000_0000;
const PROTOCOL_NOT_KNOWN: u32 = 0x8000_0001;
const CALL_NOT_KNOWN: u32 = 0x8000_0002;
const ADDRESS: u32 = 0x8000_0003;
const BAD_PENDING: u32 = 0x8000_0004;
const PARAMETER: u32 = 0x8000_0005;
const SIZE_MISMATCH: u32 = 0x8000_1006;
const NO_CHANGE: u32 = 0x8000_1010;

const OWNER: u8 = 0b111;
const CALLING: u8 = 1;
const POOL_FREE: u8 = 3;
const VALID: u8 = 1 << 3;
const PERMISSIONS: u8 = 0b111 << 4;

/// The outcome. The arguments are those of the exported function.
pub fn call(
    memory: &mut [u8],
    table: &mut [u8],
    sheet: &mut [u8],
    registers: &mut [u8],
    caller: usize,
) -> u32 {
    let sized = (3..=8192).contains(&table.len())
        && memory.len() == PAGE * table.len()
        && sheet.len() == 512
        && registers.len() == 48;
    if !sized || caller > 15 || sheet[32 * caller] != 1 || bad_sheet(sheet, table.len()) {
        return 3;
    }
    let calling = PAGE * number_4(sheet, 32 * caller + 12);
    let pending = memory[calling];
    if pending == 0 || number_8(registers, 40) != 0x403 {
        return 1;
    }
    let rcx = number_8(registers, 8);
    let vmpl = sheet[32 * caller + 1];
    let code = match number_8(registers, 0) {
        _ if pending != 1 => BAD_PENDING,
        1 => list_call(memory, table, rcx, 0xFF0, |entry, covered| {
            pvalidate(entry, covered, vmpl)
        }),
        4 => list_call(memory, table, rcx, 0xFFC, |_, covered| deposit(covered)),
        rax if rax >> 32 != 0 => PROTOCOL_NOT_KNOWN,
        _ => CALL_NOT_KNOWN,
    };
    registers[..8].copy_from_slice(&u64::from(code).to_le_bytes());
    memory[calling] = 0;
    memory[PAGE * number_4(sheet, 12) + 1] = u8::from(a_pool_page_is_free(table));
    0
}

/// To the end in any case: without a way out of the loop, the compiler makes vector instructions of it.
fn a_pool_page_is_free(table: &[u8]) -> bool {
    let is_free = |byte: &u8| byte & OWNER == POOL_FREE;
    table.iter().fold(false, |free, byte| free | is_free(byte))
}

fn bad_sheet(sheet: &[u8], n: usize) -> bool {
    let bad = |record: &[u8]| {
        let live = record[0] == 1;
        let bad_marks = record[0] > 1 || record[2] > 1 || record[3] > 1;
        let bad_pages = number_4(record, 8) >= n
            || number_4(record, 12) >= n
            || (record[3] == 1 && number_4(record, 16) >= n);
        bad_marks || (live && (!(1..=3).contains(&record[1]) || bad_pages))
    };
    sheet[0] != 1 || sheet.chunks_exact(32).any(bad)
}

fn number_4(bytes: &[u8], at: usize) -> usize {
    u32::from_le_bytes(bytes[at..at + 4].try_into().unwrap()) as usize
}

fn number_8(bytes: &[u8], at: usize) -> u64 {
    u64::from_le_bytes(bytes[at..at + 8].try_into().unwrap())
}

fn number_2(bytes: &[u8], at: usize) -> usize {
    usize::from(u16::from_le_bytes([bytes[at], bytes[at + 1]]))
}

/// Does up to 32 entries. `change` changes the table's bytes of an entry, and says whether its pages are filled with zeros, or the code of a refusal.
fn list_call(
    memory: &mut [u8],
    table: &mut [u8],
    rcx: u64,
    reserved: u64,
    change: impl Fn(u64, &mut [u8]) -> Result<bool, u32>,
) -> u32 {
    let (list, count, next) = match head(memory, table, rcx) {
        Ok(head) => head,
        Err(refusal) => return refusal,
    };
    let mut code = SUCCESS;
    let mut index = next;
    while index < count && index < next + 32 {
        let entry = number_8(memory, list + 8 + 8 * index);
        let done = pages(entry, reserved, list / PAGE).and_then(|pages| {
            let covered = table.get_mut(pages.clone()).ok_or(ADDRESS)?;
            if covered.iter().any(|byte| byte & OWNER != 0) {
                return Err(ADDRESS);
            }
            if change(entry, covered)? {
                memory[PAGE * pages.start..PAGE * pages.end].fill(0);
            }
            Ok(())
        });
        if let Err(refusal) = done {
            code = refusal;
            break;
        }
        index += 1;
    }
    memory[list + 2..list + 4].copy_from_slice(&(index as u16).to_le_bytes());
    if code == SUCCESS && index < count {
        INCOMPLETE
    } else {
        code
    }
}

/// Where the list is, its count and its next index.
fn head(memory: &[u8], table: &[u8], rcx: u64) -> Result<(usize, usize, usize), u32> {
    if !rcx.is_multiple_of(8) {
        return Err(PARAMETER);
    }
    let page = (rcx / PAGE as u64) as usize;
    let byte = *table.get(page).ok_or(ADDRESS)?;
    let list = rcx as usize;
    let offset = list % PAGE;
    let fit = byte & OWNER == 0 || (byte & OWNER == CALLING && offset != 0);
    if byte & VALID == 0 || !fit {
        return Err(ADDRESS);
    }
    let (count, next) = (number_2(memory, list), number_2(memory, list + 2));
    if count == 0 || offset + 8 + 8 * count > PAGE || next >= count {
        return Err(PARAMETER);
    }
    Ok((list, count, next))
}

fn pages(entry: u64, reserved: u64, list_page: usize) -> Result<Range<usize>, u32> {
    let first = (entry >> 12) as usize;
    let pages = match entry & 3 {
        0 => first..first + 1,
        1 if first.is_multiple_of(512) => first..first + 512,
        _ => return Err(PARAMETER),
    };
    if entry & reserved != 0 {
        return Err(PARAMETER);
    }
    if pages.contains(&list_page) {
        return Err(ADDRESS);
    }
    Ok(pages)
}

fn pvalidate(entry: u64, covered: &mut [u8], vmpl: u8) -> Result<bool, u32> {
    let wished = if entry & 4 != 0 { VALID } else { 0 };
    let found = covered[0] & VALID;
    if covered.iter().any(|byte| byte & VALID != found) {
        return Err(SIZE_MISMATCH);
    }
    if found == wished && entry & 8 == 0 {
        return Err(NO_CHANGE);
    }
    let granted = ((1 << vmpl) - 1) << 4;
    for byte in covered {
        *byte = if wished == 0 {
            *byte & !PERMISSIONS & !VALID
        } else {
            *byte | VALID | granted
        };
    }
    Ok(wished != 0)
}

fn deposit(covered: &mut [u8]) -> Result<bool, u32> {
    if covered.iter().any(|byte| byte & VALID == 0) {
        return Err(ADDRESS);
    }
    for byte in covered {
        *byte = *byte & !PERMISSIONS | POOL_FREE;
    }
    Ok(false)
}
