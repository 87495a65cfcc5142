//! M-100: dry runs. Written from the request; the run is src/emulator.rs.
//!
//! The request: "run the lowered list and report returned with its value, faulted, or allowance spent. The value is RAX, eight bytes; registers that carry no
//! argument start at 0 [..] The first frame bytes stand for RBP minus the frame up to RBP; those behind keep their content. Turned away: 10 not plain, with the plain
//! test's number; 11 parameter count differs or the last value is torn, with the sheet's count; 12 frame bytes fewer than the frame, with the frame; checked in
//! this order after 9, and no refusal writes either slice."

use super::{Call, Export, Family, Pool, Written};
use crate::cases::any;
use crate::cases::plain;
use crate::cells::{CELL, to_bytes, whole_cells};
use crate::compact::Case;
use crate::emulator::{End, Ran, run};
use crate::lower::RECORD;
use crate::read::{Refusal, read_sheet};
use crate::rng::Rng;
use krc::record::Record;

pub const FAMILY: Family = Family { name: "run", listed, draw };

const NOT_PLAIN: u64 = 10;
const WRONG_COUNT: u64 = 11;
const SHORT_FRAME: u64 = 12;
/// A run that is still going on after as many records is cut off somewhere before.
const MOST_RECORDS: u64 = 20_000;

/// What is lent to a dry run.
#[derive(Clone)]
struct Lent {
    tables: Vec<u8>,
    sheet: Vec<u8>,
    values: Vec<u8>,
    frame: Vec<u8>,
    room: usize,
    allowance: u64,
}

impl Lent {
    /// The list, or the refusal; and the bytes of the frame.
    fn list(&self) -> Result<(Vec<Record>, usize), Refusal> {
        let case = Case::answered(self.tables.clone(), self.sheet.clone(), self.room as u64);
        let list = case.result?;
        let sheet = read_sheet(&self.sheet).expect("a sheet that lowers");
        let refuse = |number, place| Err(Refusal { number, place });
        if let Some(first) = case.faults.first() {
            return refuse(NOT_PLAIN, *first);
        }
        if self.values.len() != CELL * sheet.parameters.len() {
            return refuse(WRONG_COUNT, sheet.parameters.len() as u64);
        }
        let frame = sheet.frame() as usize;
        if self.frame.len() < frame {
            return refuse(SHORT_FRAME, frame as u64);
        }
        Ok((list, frame))
    }

    fn ran(&self, rng: &mut Rng, list: &[Record], frame: usize, allowance: u64) -> Ran {
        let values: Vec<u64> =
            whole_cells(&self.values).into_iter().map(|cell| cell as u64).collect();
        run(rng, list, &self.frame[..frame], &values, allowance)
    }

    fn call(self, rng: &mut Rng) -> Call {
        let (answers, frame_after, records_after) = match self.list() {
            Err(refusal) => (vec![refusal.number, refusal.place, 0, 0], Vec::new(), Vec::new()),
            Ok((list, frame)) => {
                let ran = self.ran(rng, &list, frame, self.allowance);
                let (end, value) = match ran.end {
                    End::Returned(value) => (1, value),
                    End::Faulted => (2, 0),
                    End::Spent => (3, 0),
                };
                (vec![0, ran.count, end, value], ran.frame, to_bytes(list.as_flattened()))
            }
        };
        let frame = Written { length: self.frame.len(), before: self.frame, after: frame_after };
        Call {
            export: Export::Run,
            reads: vec![self.tables, self.sheet, self.values],
            takes: vec![self.allowance],
            writes: vec![frame, Written::new(self.room, records_after)],
            answers,
        }
    }
}

/// A plain function with random values and frame bytes, all that it asks for and some more.
fn plain_lent(rng: &mut Rng) -> Lent {
    let draft = plain::draft(rng);
    let input = draft.input();
    let values: Vec<i64> = draft.sheet.parameters.iter().map(|_| value(rng)).collect();
    let mut frame = vec![0; draft.sheet.frame() as usize + rng.pick(&[0, 0, 1, 8, 100])];
    rng.fill(&mut frame);
    let needed = Case::answered(input.tables.clone(), input.sheet.clone(), u64::MAX);
    let room = needed.result.map_or(0, |list| list.len() * RECORD) + rng.pick(&[0, 0, 1, 64]);
    Lent {
        tables: input.tables,
        sheet: input.sheet,
        values: to_bytes(&values),
        frame,
        room,
        allowance: 0,
    }
}

fn value(rng: &mut Rng) -> i64 {
    if rng.flag() { any::value(rng) } else { rng.next() as i64 }
}

/// Allowances around the end of a run, and any.
fn allowances(rng: &mut Rng, lent: &Lent) -> Vec<u64> {
    let Ok((list, frame)) = lent.list() else { return vec![0, 1, u64::MAX] };
    let ran = lent.ran(rng, &list, frame, MOST_RECORDS);
    if ran.end == End::Spent {
        return vec![0, 1, rng.next() % MOST_RECORDS];
    }
    vec![0, 1, ran.count - 1, ran.count, ran.count + 1, u64::MAX, rng.next() % ran.count]
}

fn listed() -> Vec<Call> {
    let mut rng = Rng::new(9);
    let mut calls = Vec::new();
    for _ in 0..40 {
        let lents = std::iter::repeat_with(|| plain_lent(&mut rng));
        let lent = lents.into_iter().find(|lent| lent.sheet.len() + lent.frame.len() < 1_500);
        let lent = lent.expect("a small one");
        for allowance in allowances(&mut rng, &lent) {
            calls.push(Lent { allowance, ..lent.clone() }.call(&mut rng));
        }
        let cut = |mut bytes: Vec<u8>| {
            bytes.pop();
            bytes
        };
        let allowance = 100;
        let (values, frame) = (cut(lent.values.clone()), cut(lent.frame.clone()));
        let longer = [lent.values.as_slice(), &[0; 8]].concat();
        let torn = [lent.values.as_slice(), &[0; 3]].concat();
        let room = lent.room.saturating_sub(RECORD + 64);
        calls.push(Lent { allowance, values, frame: frame.clone(), ..lent.clone() }.call(&mut rng));
        calls.push(Lent { allowance, values: longer, ..lent.clone() }.call(&mut rng));
        calls.push(Lent { allowance, values: torn, ..lent.clone() }.call(&mut rng));
        calls.push(Lent { allowance, frame, ..lent.clone() }.call(&mut rng));
        calls.push(Lent { allowance, frame: Vec::new(), room, ..lent }.call(&mut rng));
    }
    calls
}

/// Two of three are plain functions with all that they ask for.
fn draw(rng: &mut Rng, pool: &Pool) -> Call {
    let mut lent = plain_lent(rng);
    if rng.chance(1, 3) {
        let case = pool.case(rng);
        let parameters = read_sheet(&case.sheet).map_or(0, |sheet| sheet.parameters.len());
        let frame = read_sheet(&case.sheet).map_or(0, |sheet| sheet.frame() as usize).min(1 << 16);
        lent = Lent { tables: case.tables, sheet: case.sheet, room: case.out_len as usize, ..lent };
        lent.values = to_bytes(&(0..parameters).map(|_| value(rng)).collect::<Vec<_>>());
        lent.frame = vec![0; frame];
        rng.fill(&mut lent.frame);
    }
    match rng.below(16) {
        0 => lent.values.push(0),
        1 => lent.values.truncate(lent.values.len().saturating_sub(CELL)),
        2 => lent.frame.truncate(lent.frame.len().saturating_sub(1)),
        _ => {}
    }
    let choices = allowances(rng, &lent);
    lent.allowance = rng.pick(&choices);
    lent.call(rng)
}
