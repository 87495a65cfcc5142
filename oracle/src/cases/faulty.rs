//! Plain functions with faults put in: labels, conditions and refusals mixed in one sheet.

use super::{Draft, any, plain};
use crate::rng::Rng;
use crate::sheet::*;

pub fn draft(rng: &mut Rng) -> Draft {
    let mut draft = plain::draft(rng);
    draft.tables = Tables { strings: 1, floats: vec![false, true] };
    for _ in 0..rng.between(1, 4) {
        match rng.below(12) {
            0..3 => label_again(rng, &mut draft.sheet),
            3..5 => jump_nowhere(rng, &mut draft.sheet),
            5 => lose_label(rng, &mut draft.sheet),
            6..8 => label_beyond(rng, &mut draft.sheet),
            8..11 => {
                let instr = any::instr(rng, &draft);
                put(rng, &mut draft.sheet, instr);
            }
            _ => break_head(rng, &mut draft.sheet),
        }
    }
    draft
}

fn put(rng: &mut Rng, sheet: &mut Sheet, instr: Instr) {
    let at = rng.below(sheet.body.len() + 1);
    sheet.body.insert(at, instr);
}

fn new_label(sheet: &mut Sheet) -> i64 {
    sheet.labels += 1;
    sheet.labels - 1
}

/// Where labels stand in the body.
fn label_places(sheet: &Sheet) -> Vec<(usize, i64)> {
    let labels = sheet.body.iter().enumerate().map(|(at, instr)| match instr {
        Instr::Label(label) => Some((at, *label)),
        _ => None,
    });
    labels.flatten().collect()
}

/// A label that stands is placed again, before or behind; where none does, a new one twice.
fn label_again(rng: &mut Rng, sheet: &mut Sheet) {
    let places = label_places(sheet);
    let label = if places.is_empty() { new_label(sheet) } else { rng.pick(&places).1 };
    if places.is_empty() {
        put(rng, sheet, Instr::Label(label));
    }
    put(rng, sheet, Instr::Label(label));
}

fn jump(rng: &mut Rng, label: i64) -> Instr {
    if rng.flag() {
        Instr::Jump(label)
    } else {
        Instr::JumpIfNot { cond: Operand::Bool(rng.flag()), label }
    }
}

fn jump_nowhere(rng: &mut Rng, sheet: &mut Sheet) {
    let label = new_label(sheet);
    let instr = jump(rng, label);
    put(rng, sheet, instr);
}

/// One place of a label becomes a comment, whether or not it is jumped to.
fn lose_label(rng: &mut Rng, sheet: &mut Sheet) {
    let places = label_places(sheet);
    if !places.is_empty() {
        sheet.body[rng.pick(&places).0] = Instr::Comment;
    }
}

/// A label at or beyond the label count, placed, jumped to, or both.
fn label_beyond(rng: &mut Rng, sheet: &mut Sheet) {
    let label = any::beyond(rng, sheet.labels as usize);
    for instr in [Instr::Label(label), jump(rng, label)] {
        if rng.chance(2, 3) {
            put(rng, sheet, instr);
        }
    }
}

fn break_head(rng: &mut Rng, sheet: &mut Sheet) {
    match rng.below(3) {
        0 => sheet.return_type = Some(Type::scalar(rng.pick(&[FLOAT, CUSTOM]))),
        1 => sheet.variables.push(Type::scalar(rng.pick(&[FLOAT, CUSTOM, NULL]))),
        _ => sheet.parameters.extend(sheet.parameters.first().copied()),
    }
}
