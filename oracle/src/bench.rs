//! Times of the engine beside Krc's `generate` and a memcpy of the records, in one process.

use std::fmt::Write;
use std::hint::black_box;
use std::sync::atomic::Ordering;
use std::time::Instant;

use crate::cells::to_bytes;
use crate::engine::{lower_into, plain};
use crate::lower::RECORD;
use crate::program::program;
use crate::rng::Rng;
use crate::sheet::*;
use krc::codegen::generation::generate;
use krc::converter::ir::structs::Program;
use krc::elf::file::KEEP;

const LENGTHS: [usize; 4] = [10, 40, 400, 4_096];
const ROUNDS: usize = 41;
/// Instructions lowered in one measurement, about.
const WORK: usize = 40_960;
/// Instructions in all of the different sheets of one length, about.
const DIFFERENT: usize = 8_192;

/// The sheets of a row, which are lowered one after the other into the same bytes.
struct Row {
    length: usize,
    tables: Vec<u8>,
    sheets: Vec<(Vec<u8>, Program, usize)>,
    records: usize,
    out: Vec<u8>,
    from: Vec<u8>,
    /// Nanoseconds for all sheets: ours, ours with no room, Krc's, a memcpy's of the list, one's a record, the plain test's.
    rounds: [Vec<f64>; 6],
}

/// A table in Markdown for each sort of sheets.
pub fn table() -> String {
    let mut text = String::new();
    let sorts = [
        ("plain, one sheet", plain_templates(), false),
        ("floats and calls, one sheet", all_templates(), false),
        ("plain, different sheets", plain_templates(), true),
        ("floats and calls, different sheets", all_templates(), true),
    ];
    for (name, templates, different) in sorts {
        write!(text, "\n{name}:\n\n{HEAD}").expect("text grows");
        let mut rng = Rng::new(9);
        let mut rows = LENGTHS.map(|length| {
            let count = if different { DIFFERENT / length } else { 1 };
            Row::new(length, (0..count).map(|_| sheet(&templates, length, &mut rng)).collect())
        });
        KEEP.store(false, Ordering::Relaxed);
        for _ in 0..ROUNDS {
            rows.iter_mut().for_each(Row::measure);
        }
        KEEP.store(true, Ordering::Relaxed);
        rows.into_iter().for_each(|row| text.push_str(&row.line()));
    }
    text
}

const HEAD: &str = "| instructions | sheets | records | ours, ns a record | ours, ns an instruction \
    | ours / Krc | ours / memcpy | ours / memcpy a record | refusal 9 / ours | plain test / ours |\n\
    |---|---|---|---|---|---|---|---|---|---|\n";

impl Row {
    fn new(length: usize, sheets: Vec<Sheet>) -> Row {
        let tables = Tables { strings: 1, floats: vec![false, true] };
        let bytes = to_bytes(&tables.cells());
        let sheets: Vec<_> = sheets
            .into_iter()
            .map(|sheet| {
                let cells = to_bytes(&sheet.cells());
                let records = lower_into(&bytes, &cells, &mut []).place as usize;
                (cells, program(&tables, &sheet, sheet.body.len()), records)
            })
            .collect();
        let most = sheets.iter().map(|sheet| sheet.2).max().expect("a sheet");
        let mut out = vec![0; most * RECORD];
        for (cells, _, _) in &sheets {
            assert_eq!(lower_into(&bytes, cells, &mut out).number, 0, "the sheet is accepted");
        }
        let records = sheets.iter().map(|sheet| sheet.2).sum();
        let from = out.clone();
        Row { length, tables: bytes, sheets, records, out, from, rounds: Default::default() }
    }

    fn measure(&mut self) {
        let Row { length, tables, sheets, out, from, rounds, .. } = self;
        let passes = (WORK / (*length * sheets.len())).max(1);
        let mut push = |k: usize, call: &mut dyn FnMut(&(Vec<u8>, Program, usize))| {
            rounds[k].push(time(passes, || sheets.iter().for_each(&mut *call)));
        };
        push(0, &mut |(cells, _, _)| _ = black_box(lower_into(tables, cells, out)));
        push(1, &mut |(cells, _, _)| _ = black_box(lower_into(tables, cells, &mut [])));
        push(2, &mut |(_, program, _)| drop(black_box(generate(program))));
        push(3, &mut |(_, _, records)| {
            let bytes = records * RECORD;
            black_box(&mut out[..bytes]).copy_from_slice(black_box(&from[..bytes]));
        });
        push(4, &mut |(_, _, records)| copy_each(&mut out[..records * RECORD], from));
        push(5, &mut |(cells, _, _)| _ = black_box(plain(tables, cells)));
    }

    fn line(self) -> String {
        let (length, records, sheets) = (self.length, self.records, self.sheets.len());
        let [ours, refused, krc, copy, each, plain] = self.rounds.map(median);
        format!(
            "| {length} | {sheets} | {records} | {:.2} | {:.2} | {:.3} | {:.2} | {:.2} | {:.2} | {:.2} |\n",
            ours / records as f64,
            ours / (length * sheets) as f64,
            ours / krc,
            ours / copy,
            ours / each,
            refused / ours,
            plain / ours,
        )
    }
}

unsafe extern "C" {
    fn memcpy(to: *mut u8, from: *const u8, bytes: usize) -> *mut u8;
}

/// Copies records one by one, each by a call of C's memcpy.
fn copy_each(to: &mut [u8], from: &[u8]) {
    let copy = black_box(memcpy as unsafe extern "C" fn(*mut u8, *const u8, usize) -> *mut u8);
    for (to, from) in to.chunks_exact_mut(RECORD).zip(from.chunks_exact(RECORD)) {
        // SAFETY: both are RECORD bytes, of different buffers.
        unsafe { copy(to.as_mut_ptr(), from.as_ptr(), RECORD) };
    }
}

fn time(calls: usize, mut call: impl FnMut()) -> f64 {
    let start = Instant::now();
    (0..calls).for_each(|_| call());
    start.elapsed().as_nanos() as f64 / calls as f64
}

fn median(mut times: Vec<f64>) -> f64 {
    times.sort_by(f64::total_cmp);
    times[times.len() / 2]
}

fn variable(id: i64, code: i64) -> Variable {
    Variable { id, ty: Type::scalar(code) }
}

/// Two variables of each code from Long to Address.
fn own(code: i64, second: bool) -> Variable {
    variable(2 * (code - 1) + i64::from(second), code)
}

/// Instructions of all kinds that a plain function can have.
fn plain_templates() -> Vec<Instr> {
    let mut all = vec![Instr::Comment, Instr::Jump(0), Instr::Label(0)];
    for code in [LONG, UNSIGNED_LONG, SHORT, UNSIGNED_SHORT, CHAR, BYTE, ADDRESS] {
        let (dest, left, right) = (own(code, false), own(code, true), own(code, false));
        let (left, right) = (Operand::Var(left), Operand::Var(right));
        all.push(Instr::Copy { dest, src: left });
        all.push(Instr::Unary { op: unary::NEG, dest, src: left });
        all.push(Instr::Cast { dest, src: Operand::Var(own(UNSIGNED_SHORT, true)) });
        all.push(Instr::Zero(dest));
        for op in [binary::ADD, binary::SUB, binary::BIT_XOR, binary::SHL] {
            all.push(Instr::Binary { op, dest, left, right });
        }
        let truth = own(BOOL, false);
        all.push(Instr::Binary { op: binary::LT, dest: truth, left, right });
        all.push(Instr::JumpIfNot { cond: Operand::Var(truth), label: 0 });
    }
    let value = Operand::Int { value: 7, short: false, unsigned: false };
    all.push(Instr::Return(value));
    let (dest, right) = (own(UNSIGNED_LONG, false), Operand::Var(own(UNSIGNED_LONG, true)));
    all.push(Instr::Binary { op: binary::DIV, dest, left: value, right });
    all.push(Instr::Binary { op: binary::REM, dest, left: right, right: value });
    all
}

/// Those, and floats and calls.
fn all_templates() -> Vec<Instr> {
    let mut all = plain_templates();
    for code in [FLOAT, SHORT_FLOAT] {
        let (dest, left) = (own(code, false), Operand::Var(own(code, true)));
        for op in [binary::ADD, binary::MUL, binary::DIV] {
            all.push(Instr::Binary { op, dest, left, right: left });
        }
        all.push(Instr::Cast { dest, src: Operand::Var(own(LONG, true)) });
        let args = vec![left, Operand::Var(own(LONG, false)), Operand::DataAddress(0)];
        all.push(Instr::Call { dest: Some(own(LONG, false)), symbol: 0, args });
    }
    all
}

/// `length` instructions, drawn from the templates; each label stands once.
fn sheet(templates: &[Instr], length: usize, rng: &mut Rng) -> Sheet {
    let mut body: Vec<Instr> = (1..length)
        .map(|_| templates[rng.below(templates.len())].clone())
        .map(|instr| if matches!(instr, Instr::Label(_)) { Instr::Comment } else { instr })
        .collect();
    body.push(Instr::Label(0));
    let variables = (0..20).map(|id| Type::scalar(id / 2 + 1)).collect();
    let parameters = vec![own(LONG, false), own(BOOL, true)];
    Sheet { variables, parameters, labels: 1, return_type: Some(Type::scalar(LONG)), body }
}
