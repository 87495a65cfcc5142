//! What requests (docs/landings) take from Krc's authority: each rule is a piece of its own, written from the request. `apply` sets cells in Krc's own
//! list; `excess` puts records around it.

pub mod excess;
mod short_floats;
mod slots;
mod unsigned_shorts;

use crate::sheet::{Sheet, Tables};
use krc::record::Record;

/// Sets what a rule says; all other cells stay Krc's.
type Rule = fn(&Tables, &Sheet, &mut Vec<Record>);

/// In the order in which they are applied: the one for slots goes record by record beside Krc's own list.
const RULES: [(&str, Rule); 3] =
    [("M-110", slots::apply), ("M-102", short_floats::apply), ("M-105", unsigned_shorts::apply)];

pub fn apply(tables: &Tables, sheet: &Sheet, list: &mut Vec<Record>) {
    for (_, rule) in RULES {
        rule(tables, sheet, list);
    }
}

/// Each request, and what its rule alone makes of Krc's own list.
pub fn alone(
    tables: &Tables,
    sheet: &Sheet,
    krc: &[Record],
) -> impl Iterator<Item = (&'static str, Vec<Record>)> {
    RULES.into_iter().map(|(request, rule)| {
        let mut list = krc.to_vec();
        rule(tables, sheet, &mut list);
        (request, list)
    })
}
