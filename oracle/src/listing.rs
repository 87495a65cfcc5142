//! The listing program's answer: cells in, text out.

use std::fmt::Write;

use crate::cells::{CELL, cell_at};
use crate::lower::answer;
use crate::read::{BAD_TABLE, Refusal};

/// Bytes of the input and of the records.
const BUFFER: usize = 65_536;

pub fn listing(input: &[u8]) -> String {
    if input.len() > BUFFER {
        return "too long\n".to_string();
    }
    let Some((tables, sheet)) = split(input) else {
        return refused(Refusal { number: BAD_TABLE, place: 0 });
    };
    match answer(tables, sheet, BUFFER as u64).result {
        Err(refusal) => refused(refusal),
        Ok(records) => {
            let mut text = format!("ok {}\n", records.len());
            for record in records {
                let cells: Vec<String> = record.iter().map(i64::to_string).collect();
                writeln!(text, "{}", cells.join(" ")).expect("text grows");
            }
            text
        }
    }
}

/// Tables and sheet, by the first cell, which counts the cells of the tables.
fn split(input: &[u8]) -> Option<(&[u8], &[u8])> {
    let count = usize::try_from(cell_at(input, 0)?).ok()?;
    let rest = &input[CELL..];
    (count <= rest.len() / CELL).then(|| rest.split_at(count * CELL))
}

fn refused(refusal: Refusal) -> String {
    format!("refused {} {}\n", refusal.number, refusal.place)
}
