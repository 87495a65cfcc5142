//! Stub of the object file: keeps the list of each function as records.

use std::sync::atomic::{AtomicBool, Ordering};

use super::instructions::Instruction;
use super::shdr::ElfShdr;
use crate::record::{Record, records};

/// Off in the benchmark, which times `generate` and not the records' making.
pub static KEEP: AtomicBool = AtomicBool::new(true);

#[derive(Default)]
pub struct ElfFile64 {
    /// One list of records a function; labels by their raw id.
    pub functions: Vec<Vec<Record>>,
}

impl ElfFile64 {
    pub fn add_section(&mut self, _name: String, _header: ElfShdr) -> usize {
        0
    }

    pub fn add_symbol_to_section_raw(
        &mut self,
        _section: usize,
        _name: String,
        _bytes: &[u8],
        _info: u8,
        _visibility: u8,
        _align: usize,
    ) {
    }

    pub fn add_symbol_to_section(
        &mut self,
        _section: usize,
        _name: String,
        code: &[Instruction],
        _info: u8,
        _visibility: u8,
    ) {
        if KEEP.load(Ordering::Relaxed) {
            self.functions.push(records(code));
        }
    }
}
