//! The plain test: which instructions break a condition of plain integer functions.

use std::collections::{BTreeSet, HashSet};

use crate::read::Refusal;
use crate::sheet::*;

const SHORT_LOW: i64 = -(1 << 31);
const SHORT_HIGH: i64 = (1 << 32) - 1;
const IMMEDIATE_HIGH: i64 = (1 << 31) - 1;

/// All numbers at fault, ascending, so that the first is the plain test's answer: 0 for variables,
/// parameters and return type, else the instruction's number from 1. `refusal` is one of 4 to 7, a
/// fault at its place.
pub fn faults(sheet: &Sheet, refusal: Option<Refusal>) -> Vec<u64> {
    let mut faults: BTreeSet<u64> = refusal.iter().map(|refusal| refusal.place).collect();
    if !head_is_plain(sheet) {
        faults.insert(0);
    }
    let broken = sheet.body.iter().map(|instr| !instr_is_plain(sheet, instr));
    faults.extend((1..).zip(broken).filter(|(_, broken)| *broken).map(|(number, _)| number));
    faults.extend(label_faults(sheet));
    faults.into_iter().collect()
}

/// A label placed twice is charged to its second place, and to each later one; a jump to a label
/// that stands nowhere to the jump.
fn label_faults(sheet: &Sheet) -> Vec<u64> {
    let mut faults = Vec::new();
    let mut places = HashSet::new();
    let mut jumps = Vec::new();
    for (number, instr) in (1..).zip(&sheet.body) {
        match instr {
            Instr::Label(label) if !places.insert(*label) => faults.push(number),
            Instr::Jump(label) | Instr::JumpIfNot { label, .. } => jumps.push((number, *label)),
            _ => {}
        }
    }
    let lost = jumps.into_iter().filter(|(_, label)| !places.contains(label));
    faults.extend(lost.map(|(number, _)| number));
    faults
}

fn head_is_plain(sheet: &Sheet) -> bool {
    let mut ids: Vec<i64> = sheet.parameters.iter().map(|param| param.id).collect();
    ids.sort_unstable();
    ids.dedup();
    sheet.variables.iter().all(|ty| has_plain_code(*ty))
        && ids.len() == sheet.parameters.len()
        && sheet.parameters.iter().all(|param| is_plain_scalar(sheet, *param))
        && sheet.return_type.is_none_or(return_type_is_plain)
}

fn return_type_is_plain(ty: Type) -> bool {
    !ty.is_array() && (has_plain_code(ty) || ty.code == NULL)
}

fn has_plain_code(ty: Type) -> bool {
    !matches!(ty.code, FLOAT | SHORT_FLOAT | CUSTOM | NULL)
}

/// Own type and entry are the same, of a plain code.
fn is_plain_variable(sheet: &Sheet, var: Variable) -> bool {
    sheet.entry(var.id) == Some(var.ty) && has_plain_code(var.ty)
}

fn is_plain_scalar(sheet: &Sheet, var: Variable) -> bool {
    is_plain_variable(sheet, var) && !var.ty.is_array()
}

/// The width of a dest, if it is plain.
fn dest_width(sheet: &Sheet, dest: Variable) -> Option<i64> {
    is_plain_scalar(sheet, dest).then(|| dest.ty.size()).flatten()
}

/// The width of an operand, if it is plain.
fn operand_width(sheet: &Sheet, operand: Operand) -> Option<i64> {
    match operand {
        Operand::Var(var) => dest_width(sheet, var),
        Operand::Int { short: false, .. } => Some(8),
        Operand::Int { value, short: true, .. } => {
            (SHORT_LOW..=SHORT_HIGH).contains(&value).then_some(4)
        }
        Operand::Bool(_) => Some(1),
        Operand::Null => Some(8),
        Operand::Float(_) | Operand::Address(_) | Operand::DataAddress(_) => None,
    }
}

fn is_bool(operand: Operand) -> bool {
    match operand {
        Operand::Var(var) => var.ty == Type::scalar(BOOL),
        Operand::Bool(_) => true,
        _ => false,
    }
}

/// A long constant, if the operand is one.
fn long_constant(operand: Operand) -> Option<i64> {
    match operand {
        Operand::Int { value, short: false, .. } => Some(value),
        _ => None,
    }
}

fn instr_is_plain(sheet: &Sheet, instr: &Instr) -> bool {
    match instr {
        Instr::Copy { dest, src } | Instr::Unary { dest, src, .. } => {
            let width = dest_width(sheet, *dest);
            width.is_some() && width == operand_width(sheet, *src)
        }
        Instr::Binary { op, dest, left, right } => {
            binary_is_plain(sheet, *op, *dest, *left, *right)
        }
        Instr::Cast { dest, src } => cast_is_plain(sheet, *dest, *src),
        Instr::Zero(dest) => is_plain_variable(sheet, *dest),
        Instr::Call { .. } => false,
        Instr::JumpIfNot { cond, .. } => is_bool(*cond) && operand_width(sheet, *cond).is_some(),
        Instr::Return(value) => operand_width(sheet, *value).is_some(),
        Instr::Label(_) | Instr::Jump(_) | Instr::Comment => true,
    }
}

fn binary_is_plain(sheet: &Sheet, op: i64, dest: Variable, left: Operand, right: Operand) -> bool {
    let (Some(dest_width), Some(width)) = (dest_width(sheet, dest), operand_width(sheet, left))
    else {
        return false;
    };
    if operand_width(sheet, right) != Some(width) {
        return false;
    }
    if binary::is_comparison(op) {
        return dest.ty == Type::scalar(BOOL);
    }
    let in_range = long_constant(right).is_none_or(|v| (SHORT_LOW..=IMMEDIATE_HIGH).contains(&v));
    dest_width == width
        && (in_range || !binary::takes_immediate(op))
        && (width != 1 || !matches!(op, binary::MUL | binary::REM))
}

fn cast_is_plain(sheet: &Sheet, dest: Variable, src: Operand) -> bool {
    let (Some(to), Some(from)) = (dest_width(sheet, dest), operand_width(sheet, src)) else {
        return false;
    };
    let widens = from == 4 && to == 8;
    let in_range = long_constant(src).is_none_or(|v| (SHORT_LOW..=SHORT_HIGH).contains(&v));
    (!widens || matches!(dest.ty.code, LONG | UNSIGNED_LONG)) && (to >= from || in_range)
}
