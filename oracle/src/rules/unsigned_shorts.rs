//! M-105: unsigned shorts widen with zeros.
//!
//! The request: "The rule language now says that an unsigned short, variable or constant, widens with zeros. The list is a four-byte load
//! into RAX and an eight-byte store. [..] these casts are held to the new rule in place of the Rust's Movsxd."

use crate::sheet::*;
use krc::record::Record;

/// Form and operation of Movsxd: a cast makes at most one, and nothing else makes any.
const MOVSXD: [i64; 2] = [7, 1];
const SRC: usize = 4;

/// Takes the Movsxd of an unsigned short out; of a variable a four-byte load stands in its place, and a constant has been loaded before it.
pub fn apply(_: &Tables, sheet: &Sheet, list: &mut Vec<Record>) {
    let mut casts = sheet.body.iter().filter_map(sign_extended);
    let mut altered = Vec::new();
    for record in list.drain(..) {
        if record[..2] != MOVSXD {
            altered.push(record);
            continue;
        }
        match casts.next().expect("a Movsxd is a cast's") {
            Operand::Var(var) if var.ty == Type::scalar(UNSIGNED_SHORT) => {
                altered.push([0, 0, 1, 0, record[SRC], record[SRC + 1], 4, 0]);
            }
            Operand::Int { unsigned: true, .. } => {}
            _ => altered.push(record),
        }
    }
    assert!(casts.next().is_none(), "such a cast has a Movsxd");
    *list = altered;
}

/// The source of a cast that Krc lowers by Movsxd: between integers, to more bytes, and from neither one byte nor eight.
fn sign_extended(instr: &Instr) -> Option<Operand> {
    let Instr::Cast { dest, src } = instr else { return None };
    let from = match src {
        Operand::Var(var) if !var.ty.is_float() => var.ty.size()?,
        Operand::Int { short: true, .. } => 4,
        _ => return None,
    };
    let widens = !dest.ty.is_float() && from < dest.ty.size()?;
    (widens && ![1, 8].contains(&from)).then_some(*src)
}
