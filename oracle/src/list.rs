//! The fixed list of cases, the same on every run.

use std::collections::HashSet;

use crate::cases::{Draft, any, damaged, excess, faulty, limits, plain, plain_edges, systematic};
use crate::compact::{Case, parse_inputs};
use crate::rng::Rng;

/// Random functions of every kind, plain ones, damaged copies, and plain ones with faults put in.
const ANY: usize = 300;
const PLAIN: usize = 250;
const DAMAGED: usize = 250;
const FAULTY: usize = 120;
/// Random functions with arguments and parameters beyond the registers.
const EXCESS: usize = 40;

/// What the fuzzer found beyond the other cases (tests/fuzz/collect.py).
const FUZZED: &[u8] = include_bytes!("cases/fuzzed.bin");

pub fn cases() -> Vec<Case> {
    let mut rng = Rng::new(1);
    let limits = limits::cases();
    let small: Vec<Case> = limits.iter().filter(|case| case.sheet.len() < 8_000).cloned().collect();
    let listed = [systematic::drafts(), plain_edges::drafts()].concat();
    let mut all: Vec<Case> = listed.iter().map(|draft| draft.input().with_exact_room()).collect();
    all.extend((0..ANY).map(|_| any::draft(&mut rng).input().with_random_room(&mut rng)));
    all.extend((0..PLAIN).map(|_| plain::draft(&mut rng).input().with_random_room(&mut rng)));
    all.extend((0..DAMAGED).map(|_| damaged(&mut rng, &small)));
    all.extend(faulty_drafts(&mut rng).iter().map(|draft| draft.input().with_exact_room()));
    all.extend(limits);
    all.extend(excess::drafts().iter().map(|draft| draft.input().with_exact_room()));
    all.extend((0..EXCESS).map(|_| excess::draft(&mut rng).input().with_random_room(&mut rng)));
    all.extend(parse_inputs(FUZZED).expect("a file of inputs"));
    without_repeats(all)
}

/// Short ones, so that several faults stand close together.
fn faulty_drafts(rng: &mut Rng) -> Vec<Draft> {
    let drafts = std::iter::repeat_with(|| faulty::draft(rng));
    drafts.filter(|draft| draft.sheet.body.len() <= 12).take(FAULTY).collect()
}

fn without_repeats(cases: Vec<Case>) -> Vec<Case> {
    let mut seen = HashSet::new();
    let fresh = |case: &Case| seen.insert((case.tables.clone(), case.sheet.clone(), case.out_len));
    cases.into_iter().filter(fresh).collect()
}
