//! The calls about vCPUs: 0 Remap, 2 Create, 3 Delete.

use crate::answers::*;
use crate::machine::*;

fn is_page_multiple(gpa: u64) -> bool {
    gpa.is_multiple_of(PAGE as u64)
}

pub fn remap(machine: &mut Machine, caller: usize, rcx: u64) -> u32 {
    // "RCX not a multiple of 4,096: PARAMETER."
    if !is_page_multiple(rcx) {
        return PARAMETER;
    }
    // "Page not below N, not valid, or neither plain nor the caller's own calling page: ADDRESS."
    let Some(new) = machine.page_of(rcx) else {
        return ADDRESS;
    };
    let old = machine.calling_page(caller);
    let byte = machine.table[new];
    if !valid(byte) || (owner(byte) != PLAIN && new != old) {
        return ADDRESS;
    }
    // "Then the old page turns plain, the new one calling and named by the record, and byte 0 of each is 0. The same page again is success."
    machine.table[old] = with_owner(machine.table[old], PLAIN);
    machine.table[new] = with_owner(machine.table[new], CALLING);
    machine.put_field(caller, CALLING_PAGE, new as u64);
    machine.memory[PAGE * old] = 0;
    machine.memory[PAGE * new] = 0;
    SUCCESS
}

pub fn create(machine: &mut Machine, caller: usize, rcx: u64, rdx: u64, r8: u64) -> u32 {
    // "Either not a multiple of 4,096: PARAMETER."
    if !is_page_multiple(rcx) || !is_page_multiple(rdx) {
        return PARAMETER;
    }
    // "Either page not below N, not valid, not plain, or both the same: ADDRESS."
    let (Some(vmsa), Some(calling)) = (machine.page_of(rcx), machine.page_of(rdx)) else {
        return ADDRESS;
    };
    let fit = |page: usize| valid(machine.table[page]) && owner(machine.table[page]) == PLAIN;
    if !fit(vmsa) || !fit(calling) || vmsa == calling {
        return ADDRESS;
    }
    // "VMSA's VMPL 0, above 3, or below the caller's; EFER bit 12 clear; features unlike record 0's; APIC ID of a live record (house): PARAMETER."
    let vmpl = vmsa_vmpl(machine.memory, vmsa);
    let apic_id = r8 as u32; // "R8 bits 31:0"
    let apic_id_taken =
        (0..RECORDS).any(|record| machine.live(record) && machine.apic_id(record) == apic_id);
    if vmpl == 0
        || vmpl > 3
        || vmpl < machine.vmpl(caller)
        || !vmsa_svme(machine.memory, vmsa)
        || vmsa_features(machine.memory, vmsa) != machine.features(0)
        || apic_id_taken
    {
        return PARAMETER;
    }
    // "No free record: REQUEST. The lowest free record is used."
    let Some(record) = (0..RECORDS).find(|&record| !machine.live(record)) else {
        return REQUEST;
    };
    // "Records 4 to 15 also need the lowest free pool page (house); none free: 0x40000001."
    let mut held = None;
    if record >= 4 {
        held = machine.lowest_free_pool_page();
        if held.is_none() {
            return ONE_MORE_PAGE;
        }
    }
    // "Then revoke on the VMSA page, owners set, pool page in use, record filled, not running."
    machine.table[vmsa] = with_owner(revoked(machine.table[vmsa]), VMSA);
    machine.table[calling] = with_owner(machine.table[calling], CALLING);
    if let Some(page) = held {
        machine.table[page] = with_owner(machine.table[page], POOL_IN_USE);
    }
    machine.fill_record(record, apic_id, vmsa, calling, held);
    SUCCESS
}

pub fn delete(machine: &mut Machine, caller: usize, rcx: u64) -> Ended {
    // "RCX not a multiple of 4,096, no live record's VMSA (the lowest record counts, should two name it), the startup's, or of a record whose VMPL is below
    // the caller's: PARAMETER."
    if !is_page_multiple(rcx) {
        return Ended::With(PARAMETER);
    }
    let named = |record: usize| machine.vmsa_page(record) as u64 == rcx / PAGE as u64;
    let Some(record) = (0..RECORDS).find(|&record| machine.live(record) && named(record)) else {
        return Ended::With(PARAMETER);
    };
    let vmpl = machine.vmpl(caller);
    if record == 0 || machine.vmpl(record) < vmpl {
        return Ended::With(PARAMETER);
    }
    // "Another vCPU, and running: 0x80001003."
    if record != caller && machine.running(record) {
        return Ended::With(IN_USE);
    }
    // "Then EFER bit 12 in its VMSA page cleared, that page plain and granted to the caller's VMPL, calling page plain, pool page free if one is held, record
    // all zeros."
    let vmsa = machine.vmsa_page(record);
    let calling = machine.calling_page(record);
    clear_vmsa_svme(machine.memory, vmsa);
    machine.table[vmsa] = granted(with_owner(machine.table[vmsa], PLAIN), vmpl);
    machine.table[calling] = with_owner(machine.table[calling], PLAIN);
    if machine.holds(record) {
        let page = machine.pool_page(record);
        machine.table[page] = with_owner(machine.table[page], POOL_FREE);
    }
    machine.clear_record(record);
    if record == caller {
        Ended::Gone
    } else {
        Ended::With(SUCCESS)
    }
}
