//! The oracle's own assembler text of lists of records, for tests/intel.py. Standard input: a list a line, eight numbers a record.

extern crate self as krc;

/// What the assembler text takes from the oracle's other crate.
pub mod record {
    pub type Record = [i64; 8];
}

#[path = "../oracle/src/processor/asm.rs"]
mod asm;

use std::io::{self, Read, Write};

fn list(line: &str) -> Vec<record::Record> {
    let cells: Vec<i64> = line.split(' ').map(|word| word.parse().expect("a number")).collect();
    cells.chunks(8).map(|record| record.try_into().expect("eight numbers")).collect()
}

fn main() -> io::Result<()> {
    let mut input = String::new();
    io::stdin().read_to_string(&mut input)?;
    let lists: Vec<Vec<record::Record>> = input.lines().map(list).collect();
    let lists: Vec<&[record::Record]> = lists.iter().map(Vec::as_slice).collect();
    io::stdout().write_all(asm::batch(&lists, false).as_bytes())
}
