//! M-112: arguments and parameters beyond the registers.
//!
//! The request: "With k arguments beyond the registers, k at least 1, in list order from 0, the call first lowers RSP by the least
//! multiple of 16 not below 8k. Each such argument j is loaded into RAX by `load_operand` with no size given and stored, eight
//! bytes, at RSP plus 8j; tag 8 is an address from RSP. The register arguments follow as before, their panics too. RSP is raised
//! again after the call, before dest is stored. RSP is lowered by Sub and raised by Add, of an immediate with no size. The
//! prologue copies excess parameter j from RBP plus 16 plus 8j through RAX, at the parameter's size (one byte by the Movzx of
//! `load_operand`), after the register stores; on one such parameter 4 and 6 come before 5. [..] Only lists with excess are
//! held to these rules in place of the Rust."
//!
//! Krc lowers the function without its excess, and gives the loads and stores of what was taken out of it: a load into RAX with no
//! size given is the first record of a Return, a store from RAX the second of a Copy.

use crate::panics::{NO_ENTRY, NO_WIDTH, ODD_WIDTH};
use crate::read::Refusal;
use crate::sheet::{Instr, Operand, Sheet, Tables, Variable};
use krc::record::Record;

/// What lowers a function without excess.
pub type Lowering = fn(&Tables, &Sheet) -> Result<Vec<Record>, Refusal>;

/// Registers of a class: RDI, RSI, RDX, RCX, R8, R9; XMM0 to XMM7.
const GENERAL: usize = 6;
const FLOATS: usize = 8;
/// Records of a prologue without parameters, of a Copy, of a Return.
const PROLOGUE: usize = 3;
const COPY: usize = 2;
const RETURN: usize = 4;

const REGISTER: i64 = 1;
const IMMEDIATE: i64 = 2;
const RBP_PLUS: i64 = 5;
const RSP_PLUS: i64 = 8;
const RAX: i64 = 0;
const RSP: i64 = 4;
const MOV: [i64; 2] = [0, 0];
const ADD: [i64; 2] = [0, 2];
const SUB: [i64; 2] = [0, 3];
const CALL: [i64; 2] = [6, 1];
const MOVZX: [i64; 2] = [7, 2];

/// The answer for any function: `without` gives it where nothing is in excess.
pub fn lower(tables: &Tables, sheet: &Sheet, without: Lowering) -> Result<Vec<Record>, Refusal> {
    let split = Split::of(sheet);
    if !split.has_excess() {
        return without(tables, sheet);
    }
    let kept = without(tables, &split.kept);
    if let Err(refusal @ Refusal { place: 0, .. }) = kept {
        return Err(refusal);
    }
    split.parameters.iter().try_for_each(|parameter| check(sheet, *parameter))?;
    let loads = split.loads(tables, without);
    // at one instruction the arguments beyond the registers come first
    match (loads, kept) {
        (Err(load), Err(other)) if load.place <= other.place => Err(load),
        (_, Err(other)) => Err(other),
        (Err(load), _) => Err(load),
        (Ok(loads), Ok(kept)) => Ok(split.joined(&kept, split.stores(tables, without), loads)),
    }
}

/// The function without its excess, if it has any.
pub fn without(sheet: &Sheet) -> Option<Sheet> {
    let split = Split::of(sheet);
    split.has_excess().then_some(split.kept)
}

/// The class of a variable is by its own type.
fn is_float_operand(operand: &Operand) -> bool {
    match operand {
        Operand::Float(_) => true,
        Operand::Var(var) => var.ty.is_float(),
        _ => false,
    }
}

/// Those that find a register of their class, and the others, both in list order.
fn divide<T: Copy>(all: &[T], is_float: impl Fn(&T) -> bool) -> (Vec<T>, Vec<T>) {
    let (mut general, mut floats) = (0, 0);
    all.iter().partition(|one| {
        let (taken, registers) =
            if is_float(one) { (&mut floats, FLOATS) } else { (&mut general, GENERAL) };
        *taken += 1;
        *taken <= registers
    })
}

/// A call: its instruction's number, its arguments in registers, and the others.
struct Call {
    number: u64,
    registers: usize,
    excess: Vec<Operand>,
}

/// A function without its excess, and what was taken out of it.
struct Split {
    kept: Sheet,
    parameters: Vec<Variable>,
    calls: Vec<Call>,
}

impl Split {
    fn of(sheet: &Sheet) -> Self {
        let mut kept = sheet.clone();
        let (registers, parameters) = divide(&sheet.parameters, |param| param.ty.is_float());
        kept.parameters = registers;
        let mut calls = Vec::new();
        for (number, instr) in (1..).zip(&mut kept.body) {
            if let Instr::Call { args, .. } = instr {
                let (registers, excess) = divide(args, is_float_operand);
                calls.push(Call { number, registers: registers.len(), excess });
                *args = registers;
            }
        }
        Self { kept, parameters, calls }
    }

    fn has_excess(&self) -> bool {
        !self.parameters.is_empty() || self.calls.iter().any(|call| !call.excess.is_empty())
    }

    /// Another body in the same function, without parameters, behind whose prologue each instruction has its records.
    fn with_body(&self, body: Vec<Instr>) -> Sheet {
        let Sheet { variables, .. } = &self.kept;
        Sheet { variables: variables.clone(), body, ..Sheet::default() }
    }

    /// The loads of each call's arguments beyond the registers.
    fn loads(&self, tables: &Tables, without: Lowering) -> Result<Vec<Vec<Record>>, Refusal> {
        let of = |call: &Call| {
            let returns = self.with_body(call.excess.iter().copied().map(Instr::Return).collect());
            let list = without(tables, &returns)
                .map_err(|refusal| Refusal { place: call.number, ..refusal })?;
            let firsts = list[PROLOGUE..].iter().step_by(RETURN);
            Ok(firsts.take(call.excess.len()).copied().collect())
        };
        self.calls.iter().map(of).collect()
    }

    /// The store of each parameter beyond the registers.
    fn stores(&self, tables: &Tables, without: Lowering) -> Vec<Record> {
        let copy = |dest: &Variable| Instr::Copy { dest: *dest, src: Operand::Null };
        let copies = self.with_body(self.parameters.iter().map(copy).collect());
        let list = without(tables, &copies).expect("each parameter was checked");
        let behind = list[PROLOGUE..].chunks(COPY);
        behind.take(copies.body.len()).map(|records| records[1]).collect()
    }

    /// The list: what was taken out stands behind the prologue's register stores and around the calls.
    fn joined(&self, kept: &[Record], stores: Vec<Record>, loads: Vec<Vec<Record>>) -> Vec<Record> {
        let (prologue, mut rest) = kept.split_at(PROLOGUE + self.kept.parameters.len());
        let mut list = prologue.to_vec();
        list.extend((0..).zip(stores).flat_map(|(j, store)| received(j, store)));
        for (call, loads) in self.calls.iter().zip(loads) {
            let at = rest.iter().position(|record| record[..2] == CALL).expect("a call's record");
            let (before, block) = rest[..=at].split_at(at - 1 - call.registers);
            list.extend(before);
            list.extend(called(block, loads));
            rest = &rest[at + 1..];
        }
        list.extend(rest);
        list
    }
}

/// A parameter beyond the registers: 4 and 6 before 5, before the body.
fn check(sheet: &Sheet, parameter: Variable) -> Result<(), Refusal> {
    let number = match parameter.ty.size() {
        None => NO_WIDTH,
        Some(1 | 2 | 4 | 8) if sheet.entry(parameter.id).is_some() => return Ok(()),
        Some(1 | 2 | 4 | 8) => NO_ENTRY,
        Some(_) => ODD_WIDTH,
    };
    Err(Refusal { number, place: 0 })
}

/// Parameter j through RAX, at the size of its store.
fn received(j: i64, store: Record) -> [Record; 2] {
    let (from, size) = (16 + 8 * j, store[6]);
    let load = if size == 1 {
        record(MOVZX, [REGISTER, RAX], [RBP_PLUS, from], [8, 1])
    } else {
        record(MOV, [REGISTER, RAX], [RBP_PLUS, from], [size, 0])
    };
    [load, store]
}

/// The block of a call, from its register arguments to the call, with the others before it and RSP raised behind it.
fn called(block: &[Record], loads: Vec<Record>) -> Vec<Record> {
    if loads.is_empty() {
        return block.to_vec();
    }
    let area = (8 * loads.len() as i64 + 15) / 16 * 16;
    let moved = |operation| record(operation, [REGISTER, RSP], [IMMEDIATE, area], [0, 0]);
    let store = |j: i64| record(MOV, [RSP_PLUS, 8 * j], [REGISTER, RAX], [8, 0]);
    let mut list = vec![moved(SUB)];
    list.extend((0..).zip(loads).flat_map(|(j, load)| [load, store(j)]));
    list.extend(block);
    list.push(moved(ADD));
    list
}

fn record(operation: [i64; 2], dst: [i64; 2], src: [i64; 2], sizes: [i64; 2]) -> Record {
    [operation[0], operation[1], dst[0], dst[1], src[0], src[1], sizes[0], sizes[1]]
}
