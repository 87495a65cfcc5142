//! Calls of the exports beside the lowering and the plain test: what is lent, and what must come back, in one form for all of them. The answers are by rules of
//! their own, a file for each request. vectors/README.md has the form in a file.

pub mod edition;
pub mod pack;
pub mod totals;

use crate::cases;
use crate::compact::Case;
use crate::rng::Rng;

/// An export, by its number in a file.
#[derive(Clone, Copy, PartialEq, Eq, Debug)]
pub enum Export {
    PackSheet,
    PackLower,
    PackTotals,
    ToEdition2,
    ToEdition1,
}

/// How many slices a call reads, numbers it takes, slices it writes, and numbers it leaves behind its answer.
pub struct Shape {
    pub reads: usize,
    pub takes: usize,
    pub writes: usize,
    pub leaves: usize,
}

impl Export {
    pub const ALL: [Export; 5] = [
        Export::PackSheet,
        Export::PackLower,
        Export::PackTotals,
        Export::ToEdition2,
        Export::ToEdition1,
    ];

    pub fn shape(self) -> Shape {
        let (reads, takes, writes, leaves) = match self {
            Export::PackSheet => (1, 1, 0, 3),
            Export::PackLower => (2, 1, 1, 1),
            Export::PackTotals => (2, 0, 0, 3),
            Export::ToEdition2 | Export::ToEdition1 => (1, 0, 1, 1),
        };
        Shape { reads, takes, writes, leaves }
    }
}

/// What is lent, and what must come back.
#[derive(Clone, PartialEq, Eq, Debug)]
pub struct Call {
    pub export: Export,
    pub reads: Vec<Vec<u8>>,
    pub takes: Vec<u64>,
    pub writes: Vec<Written>,
    /// The answer, then what is left at its pointers, in their order.
    pub answers: Vec<u64>,
}

/// A slice that is lent to be written.
#[derive(Clone, PartialEq, Eq, Debug)]
pub struct Written {
    pub length: usize,
    /// Its first bytes, where the answer depends on them; the others may be any.
    pub before: Vec<u8>,
    /// Its first bytes afterwards; those behind are as before.
    pub after: Vec<u8>,
}

impl Written {
    pub fn new(length: usize, after: Vec<u8>) -> Self {
        Self { length, before: Vec::new(), after }
    }
}

/// What a request tests: listed calls, and random ones.
pub struct Family {
    #[cfg_attr(not(any(feature = "engine", test)), expect(dead_code))]
    pub name: &'static str,
    pub listed: fn() -> Vec<Call>,
    pub draw: fn(&mut Rng, &Pool) -> Call,
}

pub const FAMILIES: [Family; 3] = [pack::FAMILY, totals::FAMILY, edition::FAMILY];

/// What random calls are made of.
pub struct Pool {
    limits: Vec<Case>,
}

impl Pool {
    pub fn new() -> Self {
        Self { limits: cases::limits::cases() }
    }

    /// One case of any sort.
    pub fn case(&self, rng: &mut Rng) -> Case {
        cases::draw(rng, &self.limits)
    }
}

/// Random calls in the fixed list, for each family.
const RANDOM: usize = 120;

/// The calls of the fixed list, family after family.
pub fn fixed() -> Vec<Call> {
    let pool = Pool::new();
    FAMILIES.iter().flat_map(|family| family_fixed(family, &pool)).collect()
}

fn family_fixed(family: &Family, pool: &Pool) -> Vec<Call> {
    let mut rng = Rng::new(3);
    let draws = std::iter::repeat_with(|| (family.draw)(&mut rng, pool));
    let small = draws.filter(|call| call.reads.iter().map(Vec::len).sum::<usize>() < 2_000);
    let mut calls = (family.listed)();
    calls.extend(small.take(RANDOM));
    calls
}

#[cfg(any(feature = "engine", test))]
pub fn family(name: &str) -> Option<&'static Family> {
    FAMILIES.iter().find(|family| family.name == name)
}
