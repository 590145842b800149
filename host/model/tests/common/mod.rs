//! A machine that owns its buffers, and the sixteen pages of document 01.

#![allow(dead_code)] // Each test file takes what it needs.

use model::answers::*;
use model::call::*;
use model::machine::{number, put_number, PAGE};

#[derive(Clone, Debug, PartialEq)]
pub struct Owned {
    pub memory: Vec<u8>,
    pub table: Vec<u8>,
    pub sheet: Vec<u8>,
    pub registers: Vec<u8>,
}

impl Owned {
    /// "Monitor 12 to 15, VMSA 11, calling 10, V 8, VMPL 1."
    pub fn sixteen() -> Owned {
        Owned::launched(16, 8, 1)
    }

    /// The last four pages are the monitor's, before them VMSA and calling page, as in the sixteen.
    pub fn launched(n: usize, valid_below: usize, vmpl: u8) -> Owned {
        let mut machine = Owned {
            memory: vec![0; PAGE * n],
            table: vec![0; n],
            sheet: vec![0; 512],
            registers: vec![0; 48],
        };
        machine.write_vmsa(n - 5, vmpl);
        let answer = model::launch(
            &mut machine.memory,
            &mut machine.table,
            &mut machine.sheet,
            n,
            n - 4,
            4,
            n - 5,
            n - 6,
            0,
            valid_below,
        );
        assert_eq!(answer, 0);
        assert!(machine.sound());
        machine
    }

    /// The bytes that make launch and Create take a page of zeros, and features that are not 0.
    pub fn write_vmsa(&mut self, page: usize, vmpl: u8) {
        self.memory[PAGE * page + 0xCA] = vmpl;
        self.memory[PAGE * page + 0xD1] = 0x10;
        self.memory[PAGE * page + 0x3B0] = 0x2D;
    }

    pub fn write(&mut self, gpa: usize, bytes: &[u8]) {
        self.memory[gpa..gpa + bytes.len()].copy_from_slice(bytes);
    }

    pub fn list(&mut self, gpa: usize, next: u16, entries: &[u64]) {
        self.write(gpa, &(entries.len() as u16).to_le_bytes());
        self.write(gpa + 2, &next.to_le_bytes());
        for (index, entry) in entries.iter().enumerate() {
            self.write(gpa + 8 + 8 * index, &entry.to_le_bytes());
        }
    }

    pub fn index(&self, gpa: usize) -> u64 {
        number(&self.memory, gpa + 2, 2)
    }

    pub fn call_raw(&mut self, caller: usize) -> u32 {
        model::call(
            &mut self.memory,
            &mut self.table,
            &mut self.sheet,
            &mut self.registers,
            caller,
        )
    }

    /// A call with the pending byte and the exit reason set, and its outcome.
    pub fn outcome(&mut self, caller: usize, rax: u64, rcx: u64, rdx: u64, r8: u64) -> u32 {
        for (index, value) in [rax, rcx, rdx, r8, 0, 0x403].iter().enumerate() {
            put_number(&mut self.registers, 8 * index, 8, *value);
        }
        let calling = self.calling_page(caller);
        self.memory[PAGE * calling] = 1;
        self.call_raw(caller)
    }

    /// The code of a call of record 0 that is handled.
    pub fn call(&mut self, rax: u64, rcx: u64) -> u32 {
        self.call_of(0, rax, rcx, 0, 0)
    }

    pub fn call_of(&mut self, caller: usize, rax: u64, rcx: u64, rdx: u64, r8: u64) -> u32 {
        assert_eq!(self.outcome(caller, rax, rcx, rdx, r8), HANDLED);
        assert_eq!(number(&self.registers, RAX, 8) >> 32, 0);
        let calling = self.calling_page(caller);
        assert_eq!(self.memory[PAGE * calling], 0);
        number(&self.registers, RAX, 8) as u32
    }

    /// Create by record 0, with the VMSA page written.
    pub fn create(&mut self, vmsa: usize, vmpl: u8, calling: usize, apic_id: u64) -> u32 {
        self.write_vmsa(vmsa, vmpl);
        self.call_of(0, 2, (PAGE * vmsa) as u64, (PAGE * calling) as u64, apic_id)
    }

    pub fn calling_page(&self, record: usize) -> usize {
        number(&self.sheet, 32 * record + 12, 4) as usize
    }

    pub fn rcx(&self) -> u64 {
        number(&self.registers, RCX, 8)
    }

    /// "byte 1 of the startup calling page".
    pub fn flag(&self) -> u8 {
        self.memory[PAGE * self.calling_page(0) + 1]
    }

    pub fn sound(&self) -> bool {
        model::sound(&self.memory, &self.table, &self.sheet)
    }
}
