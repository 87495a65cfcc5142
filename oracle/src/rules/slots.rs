//! M-110: slots on their own width.
//!
//! The request: "A variable's offset is now the least multiple of its element's width not below the previous offset plus its size;
//! empty arrays follow the same rule, and a variable with no width keeps the previous offset." The frame "is the least
//! multiple of 16 not below the last offset". "Displacements and frame are held to this rule; all other cells as before."
//! The offsets and the frame are `Sheet::offsets` and `Sheet::frame`.

use crate::lower::krc_list;
use crate::sheet::{BYTE, Sheet, Tables, Type};
use krc::record::{DST, Record};

/// Place of the source tag in a record; its value follows.
const SRC: usize = 4;
/// The tag of an address from RBP.
const RBP_PLUS: i64 = 5;
/// `sub rsp, frame` is the third record.
const FRAME: usize = 2;

/// Sets the displacement of every address from RBP, and the frame.
pub fn apply(tables: &Tables, sheet: &Sheet, list: &mut Vec<Record>) {
    let offsets = sheet.offsets();
    for (record, named) in list.iter_mut().zip(named(tables, sheet)) {
        for tag in [DST, SRC] {
            if record[tag] == RBP_PLUS {
                let variable = (-named[tag + 1] - 1) as usize;
                record[tag + 1] = -offsets[variable];
            }
        }
    }
    list[FRAME][SRC + 1] = sheet.frame();
}

/// Krc's list of the same function with a byte for each entry: the address of variable k is RBP less k + 1, and so
/// names it. Of an entry Krc asks nothing but its size, for offsets and frame.
fn named(tables: &Tables, sheet: &Sheet) -> Vec<Record> {
    let variables = vec![Type::scalar(BYTE); sheet.variables.len()];
    krc_list(tables, &Sheet { variables, ..sheet.clone() })
        .expect("no instruction asks for an entry")
}
