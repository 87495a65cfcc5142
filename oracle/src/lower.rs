//! The reference answer: Krc's own list, with what the rules of src/rules set, or the refusal.

use std::sync::Mutex;

use crate::panics::catch;
use crate::plain;
use crate::program::program;
use crate::read::{Refusal, read_sheet, read_tables};
use crate::rules;
use crate::sheet::{Sheet, Tables};
use krc::codegen::generation::generate;
use krc::elf::instructions::LabelId;
use krc::record::{DST, LABEL, Record, label_number};

pub const PAGE_FULL: u64 = 9;
/// Bytes of one record.
pub const RECORD: usize = 64;

pub struct Answer {
    /// The list, or refusals 1 to 7 and 9.
    pub result: Result<Vec<Record>, Refusal>,
    /// The plain test: all numbers at fault, ascending; it names the first.
    pub faults: Vec<u64>,
}

/// The answer for bytes as they are lent, with `out_len` bytes for records.
pub fn answer(tables: &[u8], sheet: &[u8], out_len: u64) -> Answer {
    let read = read_tables(tables).and_then(|tables| Ok((tables, read_sheet(sheet)?)));
    let (tables, sheet) = match read {
        Ok(both) => both,
        Err(refusal) => return Answer { result: Err(refusal), faults: vec![0] },
    };
    let list = lower(&tables, &sheet);
    let faults = plain::faults(&sheet, list.as_ref().err().copied());
    Answer { result: list.and_then(|list| fit(list, out_len)), faults }
}

fn fit(list: Vec<Record>, out_len: u64) -> Result<Vec<Record>, Refusal> {
    let needed = list.len() as u64;
    if out_len < needed * RECORD as u64 {
        return Err(Refusal { number: PAGE_FULL, place: needed });
    }
    Ok(list)
}

/// Krc's list with what the rules set, or refusals 4 to 7 with their place.
pub fn lower(tables: &Tables, sheet: &Sheet) -> Result<Vec<Record>, Refusal> {
    rules::excess::lower(tables, sheet, without_excess)
}

/// The same of a function whose arguments and parameters all have registers.
fn without_excess(tables: &Tables, sheet: &Sheet) -> Result<Vec<Record>, Refusal> {
    let mut list = krc_list(tables, sheet)?;
    rules::apply(tables, sheet, &mut list);
    Ok(list)
}

/// The requests whose rules alter Krc's answer; none where Krc refuses. Where there is excess the other rules are asked of the function without it.
pub fn held(tables: &[u8], sheet: &[u8], out_len: u64) -> Vec<&'static str> {
    let (Ok(tables), Ok(sheet)) = (read_tables(tables), read_sheet(sheet)) else {
        return Vec::new();
    };
    let without = rules::excess::without(&sheet);
    let kept = without.as_ref().unwrap_or(&sheet);
    let Ok(krc) = krc_list(&tables, kept) else { return Vec::new() };
    let answer = fit(krc.clone(), out_len);
    let altered = rules::alone(&tables, kept, &krc);
    let altered = altered.filter(|(_, list)| fit(list.clone(), out_len) != answer);
    altered.map(|(name, _)| name).chain(without.as_ref().map(|_| "M-112")).collect()
}

/// Krc's own list, or refusals 4 to 7 with their place.
pub fn krc_list(tables: &Tables, sheet: &Sheet) -> Result<Vec<Record>, Refusal> {
    let whole = sheet.body.len();
    run_krc(tables, sheet, whole).map_err(|number| {
        let refused = |length: &usize| run_krc(tables, sheet, *length).is_err();
        Refusal { number, place: first_refused(whole, refused) }
    })
}

/// The list of a function that is accepted.
pub fn list(tables: &Tables, sheet: &Sheet) -> Vec<Record> {
    lower(tables, sheet).expect("a plain function lowers")
}

/// The length of the shortest prefix that is refused, when the whole is.
fn first_refused(whole: usize, refused: impl Fn(&usize) -> bool) -> u64 {
    let (mut low, mut high) = (0, whole);
    while low < high {
        let middle = (low + high) / 2;
        if refused(&middle) {
            high = middle;
        } else {
            low = middle + 1;
        }
    }
    low as u64
}

/// Runs Krc's `generate` on the first `length` instructions.
fn run_krc(tables: &Tables, sheet: &Sheet, length: usize) -> Result<Vec<Record>, u64> {
    // Labels come from one counter in the process: no other run may draw between.
    static COUNTER: Mutex<()> = Mutex::new(());
    let program = program(tables, sheet, length);
    let _held = COUNTER.lock().expect("no panic leaves the lock");
    let last = label_number(LabelId::new());
    let mut file = catch(|| generate(&program))?;
    let list = file.functions.pop().expect("one function has a body");
    Ok(list.into_iter().map(|record| map_label(record, last)).collect())
}

/// A raw label id becomes the label's number in the function; `last` was drawn just before.
fn map_label(mut record: Record, last: u32) -> Record {
    if record[DST] == LABEL {
        let raw = record[DST + 1] as u32;
        record[DST + 1] = i64::from(raw.wrapping_sub(last).wrapping_sub(1));
    }
    record
}
