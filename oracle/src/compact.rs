//! Cases, calls and their compact form; vectors/README.md describes it.

use crate::calls::{Call, Export, Written};
use crate::cells::{to_bytes, torn_bytes, whole_cells};
use crate::lower::answer;
use crate::read::Refusal;
use krc::record::Record;

const MAGIC: &[u8; 8] = b"KRCVEC02";

/// What is lent, and the answer.
#[derive(Clone, PartialEq, Eq, Debug)]
pub struct Case {
    pub tables: Vec<u8>,
    pub sheet: Vec<u8>,
    pub out_len: u64,
    pub result: Result<Vec<Record>, Refusal>,
    pub faults: Vec<u64>,
}

impl Case {
    pub fn answered(tables: Vec<u8>, sheet: Vec<u8>, out_len: u64) -> Self {
        let answer = answer(&tables, &sheet, out_len);
        Self { tables, sheet, out_len, result: answer.result, faults: answer.faults }
    }
}

/// What a file begins with, before its cases.
pub fn head(count: usize) -> Vec<u8> {
    let mut out = MAGIC.to_vec();
    put_number(&mut out, count as u64);
    out
}

pub fn file(cases: &[Case], calls: &[Call]) -> Vec<u8> {
    let mut out = head(cases.len());
    cases.iter().for_each(|case| put_case(&mut out, case));
    put_number(&mut out, calls.len() as u64);
    calls.iter().for_each(|call| put_call(&mut out, call));
    out
}

/// What stands behind the cases of a file that has no calls.
pub fn put_no_calls(out: &mut Vec<u8>) {
    put_number(out, 0);
}

fn put_call(out: &mut Vec<u8>, call: &Call) {
    put_number(out, call.export as u64);
    call.reads.iter().for_each(|slice| put_slice(out, slice));
    call.takes.iter().for_each(|number| put_number(out, *number));
    for written in &call.writes {
        put_number(out, written.length as u64);
        put_slice(out, &written.before);
    }
    call.answers.iter().for_each(|number| put_number(out, *number));
    call.writes.iter().for_each(|written| put_slice(out, &written.after));
}

pub fn put_case(out: &mut Vec<u8>, case: &Case) {
    put_slice(out, &case.tables);
    put_slice(out, &case.sheet);
    put_number(out, case.out_len);
    match &case.result {
        Err(refusal) => {
            put_number(out, refusal.number);
            put_number(out, refusal.place);
        }
        Ok(records) => {
            put_number(out, 0);
            put_number(out, records.len() as u64);
            records.iter().flatten().for_each(|cell| put_cell(out, *cell));
        }
    }
    put_number(out, case.faults.len() as u64);
    case.faults.iter().for_each(|fault| put_number(out, *fault));
}

/// Whole cells, then the bytes of a torn one.
fn put_slice(out: &mut Vec<u8>, bytes: &[u8]) {
    let cells = whole_cells(bytes);
    put_number(out, cells.len() as u64);
    cells.iter().for_each(|cell| put_cell(out, *cell));
    let torn = torn_bytes(bytes);
    out.push(torn.len() as u8);
    out.extend(torn);
}

/// Unsigned LEB128.
fn put_number(out: &mut Vec<u8>, mut number: u64) {
    while number >= 0x80 {
        out.push(number as u8 | 0x80);
        number >>= 7;
    }
    out.push(number as u8);
}

/// Zigzag: 0, -1, 1, -2, ... become 0, 1, 2, 3, ...
fn put_cell(out: &mut Vec<u8>, cell: i64) {
    put_number(out, ((cell << 1) ^ (cell >> 63)) as u64);
}

/// The cases and calls of a file, or nothing when it is not one.
pub fn parse(bytes: &[u8]) -> Option<(Vec<Case>, Vec<Call>)> {
    let mut reader = Reader { rest: bytes.strip_prefix(MAGIC)? };
    let count = reader.number()?;
    let cases: Vec<Case> = (0..count).map(|_| reader.case()).collect::<Option<_>>()?;
    let count = reader.number()?;
    let calls: Vec<Call> = (0..count).map(|_| reader.call()).collect::<Option<_>>()?;
    reader.rest.is_empty().then_some((cases, calls))
}

/// Counted inputs without answers: tables, sheet, and the number of record bytes.
pub fn parse_inputs(bytes: &[u8]) -> Option<Vec<Case>> {
    let mut reader = Reader { rest: bytes };
    let count = reader.number()?;
    let cases: Vec<Case> = (0..count).map(|_| reader.input()).collect::<Option<_>>()?;
    reader.rest.is_empty().then_some(cases)
}

struct Reader<'a> {
    rest: &'a [u8],
}

impl Reader<'_> {
    fn byte(&mut self) -> Option<u8> {
        let (first, rest) = self.rest.split_first()?;
        self.rest = rest;
        Some(*first)
    }

    fn number(&mut self) -> Option<u64> {
        let mut number = 0;
        for shift in (0..64).step_by(7) {
            let byte = self.byte()?;
            number |= u64::from(byte & 0x7f) << shift;
            if byte < 0x80 {
                return Some(number);
            }
        }
        None
    }

    fn cell(&mut self) -> Option<i64> {
        let number = self.number()?;
        Some((number >> 1) as i64 ^ -((number & 1) as i64))
    }

    fn slice(&mut self) -> Option<Vec<u8>> {
        let count = self.number()?;
        let cells: Vec<i64> = (0..count).map(|_| self.cell()).collect::<Option<_>>()?;
        let mut bytes = to_bytes(&cells);
        let torn = self.byte()?;
        for _ in 0..torn {
            bytes.push(self.byte()?);
        }
        Some(bytes)
    }

    fn record(&mut self) -> Option<Record> {
        let mut record = [0; 8];
        for cell in &mut record {
            *cell = self.cell()?;
        }
        Some(record)
    }

    fn input(&mut self) -> Option<Case> {
        let (tables, sheet, out_len) = (self.slice()?, self.slice()?, self.number()?);
        Some(Case::answered(tables, sheet, out_len))
    }

    fn case(&mut self) -> Option<Case> {
        let (tables, sheet, out_len) = (self.slice()?, self.slice()?, self.number()?);
        let (number, place) = (self.number()?, self.number()?);
        let result = if number == 0 {
            Ok((0..place).map(|_| self.record()).collect::<Option<_>>()?)
        } else {
            Err(Refusal { number, place })
        };
        let count = self.number()?;
        let faults = (0..count).map(|_| self.number()).collect::<Option<_>>()?;
        Some(Case { tables, sheet, out_len, result, faults })
    }

    fn numbers(&mut self, count: usize) -> Option<Vec<u64>> {
        (0..count).map(|_| self.number()).collect()
    }

    fn slices(&mut self, count: usize) -> Option<Vec<Vec<u8>>> {
        (0..count).map(|_| self.slice()).collect()
    }

    fn call(&mut self) -> Option<Call> {
        let export = *Export::ALL.get(self.number()? as usize)?;
        let shape = export.shape();
        let (reads, takes) = (self.slices(shape.reads)?, self.numbers(shape.takes)?);
        let mut writes = Vec::new();
        for _ in 0..shape.writes {
            let (length, before) = (self.number()? as usize, self.slice()?);
            writes.push(Written { length, before, after: Vec::new() });
        }
        let answers = self.numbers(1 + shape.leaves)?;
        for written in &mut writes {
            written.after = self.slice()?;
        }
        Some(Call { export, reads, takes, writes, answers })
    }
}
