//! M-102: a short float constant is read at its size.
//!
//! The request: "An operand that is a short float constant now has size 4 when none is given, in returns and in arguments. Against the
//! Rust, the size cell of these loads is left out and held to this rule instead."

use crate::sheet::{Instr, Operand, Sheet, Tables};
use krc::record::Record;

const FORM: usize = 0;
const OPERATION: usize = 1;
const SRC: usize = 4;
const SIZE: usize = 6;

/// `mov rsp, rbp`: only an epilogue has it, and the record before a Return's epilogue is the load of its value.
const LEAVE: Record = [0, 0, 1, 4, 1, 5, 0, 0];
const CTRL: i64 = 6;
const CALL: i64 = 1;
/// The tag of a float constant.
const FLOAT: i64 = 7;

/// Sets the size cell of these loads.
pub fn apply(tables: &Tables, sheet: &Sheet, list: &mut Vec<Record>) {
    returns(tables, list);
    arguments(tables, sheet, list);
}

fn is_short(tables: &Tables, id: i64) -> bool {
    tables.floats[id as usize]
}

/// No other instruction's last record has a float constant as its source: it is a store, a jump, a label or a call.
fn returns(tables: &Tables, list: &mut [Record]) {
    for k in 1..list.len() {
        let load = list[k - 1];
        if list[k] == LEAVE && load[SRC] == FLOAT && is_short(tables, load[SRC + 1]) {
            list[k - 1][SIZE] = 4;
        }
    }
}

/// The loads of a call's arguments stand one behind the other, then comes the number of floats, then the call.
fn arguments(tables: &Tables, sheet: &Sheet, list: &mut [Record]) {
    let calls: Vec<usize> =
        (0..list.len()).filter(|&k| list[k][FORM] == CTRL && list[k][OPERATION] == CALL).collect();
    let called = sheet.body.iter().filter_map(|instr| match instr {
        Instr::Call { args, .. } => Some(args),
        _ => None,
    });
    for (call, arguments) in calls.into_iter().zip(called) {
        let first = call - 1 - arguments.len();
        for (load, argument) in list[first..call - 1].iter_mut().zip(arguments) {
            if let Operand::Float(id) = argument {
                if is_short(tables, *id) {
                    load[SIZE] = 4;
                }
            }
        }
    }
}
