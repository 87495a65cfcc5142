//! Functions of every kind: all types, instructions, operations and operands.

use super::Draft;
use crate::lower::lower;
use crate::rng::Rng;
use crate::sheet::*;

/// Most instructions lower, so that a refusal can stand anywhere.
pub fn draft(rng: &mut Rng) -> Draft {
    let mut draft = head(rng);
    let broken_head = lower(&draft.tables, &draft.sheet).is_err();
    // of ten refused instructions, how many stay
    let flaws = if broken_head { 10 } else { rng.pick(&[0, 0, 2, 6]) };
    let length = match rng.below(200) {
        0 => rng.between(200, 400),
        1..10 => rng.between(20, 60),
        _ => rng.below(14),
    };
    let mut body = Vec::new();
    for _ in 0..length {
        let instr = instr(rng, &draft);
        if rng.chance(flaws, 10) || lowers(&mut draft, &instr) {
            body.push(instr);
        }
    }
    draft.sheet.body = body;
    draft
}

/// Whether the instruction lowers alone.
fn lowers(draft: &mut Draft, instr: &Instr) -> bool {
    draft.sheet.body = vec![instr.clone()];
    lower(&draft.tables, &draft.sheet).is_ok()
}

fn head(rng: &mut Rng) -> Draft {
    let floats = (0..rng.below(4)).map(|_| rng.flag()).collect();
    let tables = Tables { strings: rng.below(4) as i64, floats };
    let count = if rng.chance(1, 15) { rng.between(10, 40) } else { rng.below(8) };
    let mut sheet = Sheet {
        variables: (0..count).map(|_| entry(rng)).collect(),
        labels: rng.below(6) as i64,
        return_type: rng.chance(3, 4).then(|| type_of(rng)),
        ..Sheet::default()
    };
    if rng.chance(1, 25) && count > 0 {
        sheet.variables[rng.below(count)].code = rng.pick(&[CUSTOM, NULL]);
    }
    if count > 0 || rng.chance(1, 10) {
        let parameters = if rng.chance(1, 8) { rng.between(6, 20) } else { rng.below(6) };
        sheet.parameters = (0..parameters).map(|_| parameter(rng, &sheet)).collect();
    }
    Draft { tables, sheet }
}

/// A type that a variable list can hold.
fn entry(rng: &mut Rng) -> Type {
    let code = rng.between(1, 10) as i64;
    let count = match rng.below(12) {
        0..8 => -1,
        8..11 => rng.pick(&[0, 1, 2, 3, 4, 8]),
        _ => rng.pick(&[5, 16, 100, 1_000, 4_000]),
    };
    Type { code, count }
}

/// Any type at all.
fn type_of(rng: &mut Rng) -> Type {
    let code = rng.between(1, 12) as i64;
    let count = match rng.below(10) {
        0..6 => -1,
        6..9 => rng.pick(&[0, 1, 2, 3, 4, 8]),
        _ => rng.pick(&[16, 100_000, MAX_COUNT]),
    };
    Type { code, count }
}

fn parameter(rng: &mut Rng, sheet: &Sheet) -> Variable {
    if sheet.variables.is_empty() || rng.chance(1, 40) {
        return Variable { id: beyond(rng, sheet.variables.len()), ty: type_of(rng) };
    }
    let var = sheet.variable(rng.below(sheet.variables.len()));
    let odd = var.ty.size().is_none_or(|size| ![1, 2, 4, 8].contains(&size));
    // an odd width would refuse nearly every head
    if odd && !rng.chance(1, 10) { Variable { ty: Type::scalar(LONG), ..var } } else { var }
}

/// A number at or beyond the end of its table.
pub fn beyond(rng: &mut Rng, end: usize) -> i64 {
    let end = end as i64;
    rng.pick(&[end, end, end + 1, 255, 256, 1 << 32, i64::MAX]).max(end)
}

/// Mostly a number inside its table.
fn index(rng: &mut Rng, end: usize) -> i64 {
    if end == 0 || rng.chance(1, 20) { beyond(rng, end) } else { rng.below(end) as i64 }
}

/// A variable, mostly with its entry as its own type.
fn variable(rng: &mut Rng, draft: &Draft) -> Variable {
    let id = index(rng, draft.sheet.variables.len());
    let own = draft.sheet.entry(id).filter(|_| !rng.chance(1, 8));
    Variable { id, ty: own.unwrap_or_else(|| type_of(rng)) }
}

/// Values at the edges of every range, and others.
pub fn value(rng: &mut Rng) -> i64 {
    let edge =
        rng.pick(&[0, 1, 7, 8, 31, 32, 63, 64, 127, 128, 255, 256, 1 << 31, 1 << 32, 1 << 63]);
    match rng.below(8) {
        0 => rng.next() as i64,
        1 => rng.next() as i64 >> rng.below(64),
        2 => -edge.max(i64::MIN + 1),
        3 => edge.wrapping_sub(1),
        4 => (-edge.max(i64::MIN + 1)).wrapping_sub(1),
        _ => edge,
    }
}

fn operand(rng: &mut Rng, draft: &Draft) -> Operand {
    match rng.below(24) {
        0..11 => Operand::Var(variable(rng, draft)),
        11..16 => Operand::Int { value: value(rng), short: rng.flag(), unsigned: rng.flag() },
        16..18 => Operand::Float(index(rng, draft.tables.floats.len())),
        18..20 => Operand::Bool(rng.flag()),
        20 => Operand::Address(variable(rng, draft)),
        21 => Operand::DataAddress(index(rng, draft.tables.strings as usize)),
        _ => Operand::Null,
    }
}

pub fn instr(rng: &mut Rng, draft: &Draft) -> Instr {
    match rng.below(26) {
        0 | 1 => Instr::Copy { dest: variable(rng, draft), src: operand(rng, draft) },
        2..5 => Instr::Unary {
            op: rng.below(3) as i64,
            dest: variable(rng, draft),
            src: operand(rng, draft),
        },
        5..13 => Instr::Binary {
            op: rng.below(18) as i64,
            dest: variable(rng, draft),
            left: operand(rng, draft),
            right: operand(rng, draft),
        },
        13..17 => Instr::Cast { dest: variable(rng, draft), src: operand(rng, draft) },
        17 => Instr::Zero(variable(rng, draft)),
        18..20 => call(rng, draft),
        20 => Instr::Label(index(rng, draft.sheet.labels as usize)),
        21 => Instr::Jump(index(rng, draft.sheet.labels as usize)),
        22 => Instr::JumpIfNot {
            cond: operand(rng, draft),
            label: index(rng, draft.sheet.labels as usize),
        },
        23 | 24 => Instr::Return(operand(rng, draft)),
        _ => Instr::Comment,
    }
}

fn call(rng: &mut Rng, draft: &Draft) -> Instr {
    let count = match rng.below(20) {
        0 => rng.between(20, 64),
        1..6 => rng.between(7, 20),
        _ => rng.below(7),
    };
    // many arguments: mostly such that only their number can refuse them
    let sound = count > 6 && rng.chance(3, 4);
    Instr::Call {
        dest: rng.flag().then(|| variable(rng, draft)),
        symbol: rng.pick(&[0, 1, 2, 255, 256, 1 << 40, i64::MAX]),
        args: (0..count).map(|_| argument(rng, draft, sound)).collect(),
    }
}

fn argument(rng: &mut Rng, draft: &Draft, sound: bool) -> Operand {
    loop {
        let arg = operand(rng, draft);
        let looked_up = match arg {
            Operand::Var(var) => draft.sheet.entry(var.id).is_some(),
            Operand::Float(index) => index < draft.tables.floats.len() as i64,
            Operand::DataAddress(index) => index < draft.tables.strings,
            Operand::Address(_) => false,
            _ => true,
        };
        if looked_up || !sound {
            return arg;
        }
    }
}
