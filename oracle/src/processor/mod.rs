//! The processor test: lists of plain functions, run natively and held against the functions'
//! own steps.

mod asm;
mod batch;
pub mod calls;
pub mod trial;

use crate::rng::Rng;
use crate::sheet::{Instr, Sheet, binary};
use crate::steps::{End, divides_signed, ends_by_the_least};
use batch::{BuildFolder, Outcome};
use krc::record::Record;
use trial::{COUNTER, Entry, Lowering, POSITION, RBP, RSP, SAVED, Trial, excess, frame, slots};

/// Functions assembled together.
const BATCH: usize = 500;
const SIGFPE: u64 = 8;
const RAX: usize = 0;
/// Form and operation of records.
const DIV: [i64; 2] = [4, 3];
const IDIV: [i64; 2] = [4, 5];
const RET: [i64; 2] = [6, 2];

#[derive(Default)]
struct Totals {
    functions: usize,
    /// With parameters beyond the registers, and the most of these.
    excess: usize,
    most_excess: usize,
    runs: usize,
    values: usize,
    fell_off: usize,
    faults: usize,
    /// Of the faults, those of the least signed value by -1.
    least: usize,
    /// Functions with a signed division of four bytes, and of eight.
    signed: [usize; 2],
    records: u64,
    most_records: u64,
    steps: u64,
    most_steps: u64,
}

/// Runs the lists of `count` functions; an error tells the first difference.
pub fn test(seed: u64, count: usize, lowering: Lowering) -> Result<String, String> {
    let mut rng = Rng::new(seed);
    let mut totals = Totals::default();
    let folder = BuildFolder::open()?;
    while totals.functions < count {
        let size = BATCH.min(count - totals.functions);
        let trials: Vec<Trial> = (0..size).map(|_| trial::draw(&mut rng, lowering)).collect();
        test_batch(&folder, &trials, &mut totals)
            .map_err(|error| format!("{error}\nleft in {}", folder.place().display()))?;
    }
    folder.close();
    Ok(summary(&totals))
}

fn summary(totals: &Totals) -> String {
    format!(
        "{} functions, {} with a signed division of four bytes and {} of eight, {} with up to {} parameters \
         beyond the registers, {} runs: \
         {} returned a value, {} fell off the end, {} faulted, {} of them on the least value by -1; \
         {} steps (at most {} in a run), {} records run (at most {})\n",
        totals.functions,
        totals.signed[0],
        totals.signed[1],
        totals.excess,
        totals.most_excess,
        totals.runs,
        totals.values,
        totals.fell_off,
        totals.faults,
        totals.least,
        totals.steps,
        totals.most_steps,
        totals.records,
        totals.most_records,
    )
}

fn test_batch(folder: &BuildFolder, trials: &[Trial], totals: &mut Totals) -> Result<(), String> {
    for counting in [false, true] {
        let mut outcomes = folder.run(trials, counting)?.into_iter();
        for trial in trials {
            for (entry, outcome) in trial.entries.iter().zip(&mut outcomes) {
                compare(trial, entry, &outcome, counting)
                    .map_err(|difference| report(trial, entry, &difference))?;
                if counting {
                    totals.add(trial, entry, outcome.registers[COUNTER]);
                }
            }
        }
    }
    totals.functions += trials.len();
    for (total, width) in totals.signed.iter_mut().zip([4, 8]) {
        *total += trials.iter().filter(|trial| divides_signed_at(trial, width)).count();
    }
    for excess in trials.iter().map(|trial| excess(&trial.sheet)).filter(|excess| *excess > 0) {
        totals.excess += 1;
        totals.most_excess = totals.most_excess.max(excess);
    }
    Ok(())
}

impl Totals {
    fn add(&mut self, trial: &Trial, entry: &Entry, records: u64) {
        self.runs += 1;
        match entry.run.end {
            End::Value { .. } => self.values += 1,
            End::FellOff => self.fell_off += 1,
            _ => self.faults += 1,
        }
        self.least += usize::from(ends_by_the_least(&trial.sheet, &entry.run));
        self.records += records;
        self.most_records = self.most_records.max(records);
        self.steps += entry.run.steps;
        self.most_steps = self.most_steps.max(entry.run.steps);
    }
}

fn report(trial: &Trial, entry: &Entry, difference: &str) -> String {
    let list: Vec<String> = trial.list.iter().map(|record| format!("    {record:?}")).collect();
    let end = format!("steps {}, end {:?}", entry.run.steps, entry.run.end);
    let registers = format!("registers at entry {:x?}", entry.registers);
    format!("{difference}\n{}{}\n{registers}\n{end}", trial.sheet, list.join("\n"))
}

fn compare(trial: &Trial, entry: &Entry, outcome: &Outcome, counting: bool) -> Result<(), String> {
    compare_end(trial, entry, outcome)?;
    compare_saved(&entry.registers, outcome, counting)?;
    compare_addresses(trial, entry, outcome)?;
    let (sheet, variables) = (&trial.sheet, &entry.run.variables);
    let memory = Memory { sheet, below: entry.below, region: &entry.region, variables };
    memory.compare(entry.registers[RBP], outcome, 0)?;
    if counting {
        compare_count(trial, entry, outcome.registers[COUNTER])?;
        compare_position(trial, entry, outcome.registers[POSITION] as usize)?;
    }
    Ok(())
}

fn same<T: PartialEq + std::fmt::Debug>(what: &str, wanted: T, found: T) -> Result<(), String> {
    if wanted == found {
        return Ok(());
    }
    Err(format!("{what}: wanted {wanted:x?}, found {found:x?}"))
}

/// Return or fault, the value, RSP and RBP.
fn compare_end(trial: &Trial, entry: &Entry, outcome: &Outcome) -> Result<(), String> {
    let registers = &outcome.registers;
    if entry.run.end == End::Fault {
        same("signal", SIGFPE, outcome.signal)?;
        let bottom = outcome.base - frame(&trial.sheet) as u64;
        same("RSP at the fault", bottom, registers[RSP])?;
        return same("RBP at the fault", outcome.base, registers[RBP]);
    }
    same("signal", 0, outcome.signal)?;
    same("RSP", outcome.base + 16, registers[RSP])?;
    same("RBP", entry.registers[RBP], registers[RBP])?;
    if let End::Value { value, width } = entry.run.end {
        let low = registers[RAX] & (u64::MAX >> (64 - 8 * width));
        return same("value", value, low);
    }
    Ok(())
}

/// The callee-saved registers; the counting build uses two of them.
fn compare_saved(at_entry: &[u64; 17], outcome: &Outcome, counting: bool) -> Result<(), String> {
    for register in SAVED {
        if !(counting && [COUNTER, POSITION].contains(&register)) {
            let name = format!("saved register {register}");
            same(&name, at_entry[register], outcome.registers[register])?;
        }
    }
    Ok(())
}

/// Each slot, and each element of an array, lies at a multiple of its element's width.
fn compare_addresses(trial: &Trial, entry: &Entry, outcome: &Outcome) -> Result<(), String> {
    let first = outcome.base as usize - entry.below;
    for (slot, ty) in slots(&trial.sheet, entry.below).into_iter().zip(&trial.sheet.variables) {
        let width = ty.element_size().expect("a plain type") as usize;
        for at in std::iter::once(slot.start).chain(slot.step_by(width)) {
            same("an address modulo its width", 0, (first + at) % width)?;
        }
    }
    Ok(())
}

/// The region at entry, with `below` bytes under B, and the variables' bytes at the end.
struct Memory<'a> {
    sheet: &'a Sheet,
    below: usize,
    region: &'a [u8],
    variables: &'a [Vec<u8>],
}

impl Memory<'_> {
    /// Every byte from a place of the region on: slots, saved RBP, return address, all others as at entry.
    fn compare(&self, rbp: u64, outcome: &Outcome, from: usize) -> Result<(), String> {
        let Self { sheet, below, region, variables } = *self;
        let mut wanted = region.to_vec();
        let link = [rbp, outcome.back].map(u64::to_le_bytes).concat();
        wanted[below..below + link.len()].copy_from_slice(&link);
        for (slot, bytes) in slots(sheet, below).into_iter().zip(variables) {
            wanted[slot].copy_from_slice(bytes);
        }
        match (from..wanted.len()).find(|at| wanted[*at] != outcome.region[*at]) {
            None => Ok(()),
            Some(at) => {
                let name = format!("byte at B {:+}", at as i64 - below as i64);
                same(&name, wanted[at], outcome.region[at])
            }
        }
    }
}

/// At most 12 records, 2 for each parameter beyond the registers, and 5 for each step.
fn compare_count(trial: &Trial, entry: &Entry, records: u64) -> Result<(), String> {
    let bound = 12 + 2 * excess(&trial.sheet) as u64 + 5 * entry.run.steps;
    if records <= bound {
        return Ok(());
    }
    Err(format!("{records} records run, the bound is {bound}"))
}

/// The last record run belongs to the last instruction run: each Return makes one Ret, each
/// Div or Rem one Div or Idiv, in order; falling off the end leads to the last Ret.
fn compare_position(trial: &Trial, entry: &Entry, position: usize) -> Result<(), String> {
    let before = &trial.sheet.body[..entry.run.last];
    let (wanted, instructions): (&[[i64; 2]], usize) = match entry.run.end {
        End::Fault => (&[DIV, IDIV], before.iter().filter(|instr| divides(instr)).count()),
        End::FellOff => return same("last record", trial.list.len() - 1, position),
        _ => (&[RET], before.iter().filter(|instr| matches!(instr, Instr::Return(_))).count()),
    };
    let is_wanted = |record: &Record| wanted.iter().any(|form| record[..2] == *form);
    let places = trial.list.iter().enumerate().filter(|(_, record)| is_wanted(record));
    let place = places.map(|(place, _)| place).nth(instructions - 1);
    same("last record", place, Some(position))
}

fn divides(instr: &Instr) -> bool {
    matches!(instr, Instr::Binary { op, .. } if binary::is_division(*op))
}

/// Whether a function divides signed numbers of a width.
fn divides_signed_at(trial: &Trial, width: i64) -> bool {
    let at = |instr: &Instr| matches!(instr, Instr::Binary { dest, .. } if dest.ty.size() == Some(width));
    trial.sheet.body.iter().any(|instr| divides_signed(instr) && at(instr))
}
