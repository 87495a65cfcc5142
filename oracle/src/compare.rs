//! The engine's answers beside Krc's, on guarded slices.

use std::collections::BTreeMap;
use std::fmt::Write;

use crate::calls::{Call, Family, Pool};
use crate::cases;
use crate::cells::to_bytes;
use crate::compact::Case;
use crate::engine::{Said, call, lower_into, plain};
use crate::list;
use crate::rng::Rng;

/// Bytes watched before and behind each lent slice.
const GUARD: usize = 64;

#[derive(Default)]
struct Totals {
    cases: usize,
    /// By the answer's number, 0 for accepted.
    answers: BTreeMap<u64, u64>,
    records: u64,
    plain: u64,
}

/// The fixed list, the largest bodies and `count` random cases; an error tells the first difference.
pub fn test(seed: u64, count: usize) -> Result<String, String> {
    let mut rng = Rng::new(seed);
    let mut old = OldBytes::new(&mut rng);
    let mut totals = Totals::default();
    let listed = list::cases().into_iter().chain(cases::limits::largest());
    for case in listed.chain(cases::random(seed, count)) {
        compare(&case, &mut rng, &mut old).map_err(|difference| format!("{difference}\n{case}"))?;
        totals.add(&case);
    }
    Ok(totals.summary())
}

/// The listed calls of a family and `count` random ones; an error tells the first difference.
pub fn test_calls(family: &Family, seed: u64, count: usize) -> Result<String, String> {
    let mut rng = Rng::new(seed);
    let mut old = OldBytes::new(&mut rng);
    let (mut drawn, pool) = (Rng::new(seed), Pool::new());
    let mut totals: BTreeMap<(String, u64), u64> = BTreeMap::new();
    let draws = (0..count).map(|_| (family.draw)(&mut drawn, &pool));
    for call in (family.listed)().into_iter().chain(draws) {
        compare_call(&call, &mut rng, &mut old)
            .map_err(|difference| format!("{difference}\n{call:?}"))?;
        *totals.entry((format!("{:?}", call.export), call.answers[0])).or_insert(0) += 1;
    }
    let mut text =
        format!("{}: {} calls, no difference:", family.name, totals.values().sum::<u64>());
    for ((export, answer), count) in totals {
        write!(text, " {export} {answer} {count},").expect("text grows");
    }
    text.pop();
    Ok(text + "\n")
}

impl Totals {
    fn add(&mut self, case: &Case) {
        self.cases += 1;
        let number = case.result.as_ref().err().map_or(0, |refusal| refusal.number);
        *self.answers.entry(number).or_insert(0) += 1;
        self.records += case.result.as_ref().map_or(0, |list| list.len() as u64);
        self.plain += u64::from(case.faults.is_empty());
    }

    fn summary(&self) -> String {
        let mut text = format!(
            "{} cases, no difference: {} accepted with {} records",
            self.cases,
            self.answers.get(&0).unwrap_or(&0),
            self.records
        );
        for (number, count) in self.answers.range(1..) {
            write!(text, ", {count} refused {number}").expect("text grows");
        }
        writeln!(text, "; {} plain", self.plain).expect("text grows");
        text
    }
}

/// Random bytes that slices are lent in.
struct OldBytes(Vec<u8>);

impl OldBytes {
    const LENGTH: usize = 1 << 16;

    fn new(rng: &mut Rng) -> Self {
        let mut bytes = vec![0; Self::LENGTH];
        rng.fill(&mut bytes);
        Self(bytes)
    }

    /// `length` bytes from a random place on, over and over.
    fn take(&mut self, rng: &mut Rng, length: usize) -> Vec<u8> {
        let mut out = Vec::with_capacity(length);
        let mut from = rng.below(Self::LENGTH);
        while out.len() < length {
            let part = &self.0[from..];
            out.extend_from_slice(&part[..part.len().min(length - out.len())]);
            from = 0;
        }
        out
    }
}

/// A slice between guards, at any alignment.
struct Lent {
    bytes: Vec<u8>,
    start: usize,
    end: usize,
}

impl Lent {
    fn new(rng: &mut Rng, old: &mut OldBytes, length: usize) -> Self {
        let start = GUARD + rng.below(8);
        Self { bytes: old.take(rng, start + length + GUARD), start, end: start + length }
    }

    fn of(rng: &mut Rng, old: &mut OldBytes, content: &[u8]) -> Self {
        let mut lent = Self::new(rng, old, content.len());
        lent.slice_mut().copy_from_slice(content);
        lent
    }

    fn slice(&self) -> &[u8] {
        &self.bytes[self.start..self.end]
    }

    fn slice_mut(&mut self) -> &mut [u8] {
        &mut self.bytes[self.start..self.end]
    }
}

/// Slices of any alignment between guards: the answers, every byte that is lent and those around it.
fn compare_call(wanted: &Call, rng: &mut Rng, old: &mut OldBytes) -> Result<(), String> {
    let reads: Vec<Lent> = wanted.reads.iter().map(|content| Lent::of(rng, old, content)).collect();
    let before: Vec<Vec<u8>> = reads.iter().map(|lent| lent.bytes.clone()).collect();
    let mut writes: Vec<Lent> =
        wanted.writes.iter().map(|to| Lent::new(rng, old, to.length)).collect();
    let mut after = Vec::new();
    for (lent, to) in writes.iter_mut().zip(&wanted.writes) {
        lent.slice_mut()[..to.before.len()].copy_from_slice(&to.before);
        let mut bytes = lent.bytes.clone();
        bytes[lent.start..lent.start + to.after.len()].copy_from_slice(&to.after);
        after.push(bytes);
    }
    let lent: Vec<&[u8]> = reads.iter().map(Lent::slice).collect();
    let mut slices: Vec<&mut [u8]> = writes.iter_mut().map(Lent::slice_mut).collect();
    let found = call(wanted.export, &lent, &wanted.takes, &mut slices);
    if found != wanted.answers {
        return Err(format!("answer: wanted {:?}, found {found:?}", wanted.answers));
    }
    if writes.iter().map(|lent| &lent.bytes).ne(&after) {
        return Err("bytes that were lent to be written, or bytes around them, are not as wanted"
            .to_string());
    }
    if reads.iter().map(|lent| &lent.bytes).ne(&before) {
        return Err(
            "bytes that were lent to be read, or bytes around them, were written".to_string()
        );
    }
    Ok(())
}

fn compare(case: &Case, rng: &mut Rng, old: &mut OldBytes) -> Result<(), String> {
    let tables = Lent::of(rng, old, &case.tables);
    let sheet = Lent::of(rng, old, &case.sheet);
    let mut records = Lent::new(rng, old, case.out_len as usize);
    let before = [tables.bytes.clone(), sheet.bytes.clone()];
    let after = records_after(case, &records);

    let said = lower_into(tables.slice(), sheet.slice(), records.slice_mut());
    same("answer", wanted(case), said)?;
    if records.bytes != after {
        return Err("record bytes, or bytes around them, are not as wanted".to_string());
    }
    compare_plain(case, plain(tables.slice(), sheet.slice()))?;
    if before != [tables.bytes, sheet.bytes] {
        return Err("tables or sheet, or bytes around them, were written".to_string());
    }
    Ok(())
}

fn wanted(case: &Case) -> Said {
    match &case.result {
        Ok(list) => Said { number: 0, place: list.len() as u64 },
        Err(refusal) => Said { number: refusal.number, place: refusal.place },
    }
}

/// The list at the start of the lent bytes, all else as before.
fn records_after(case: &Case, records: &Lent) -> Vec<u8> {
    let mut after = records.bytes.clone();
    if let Ok(list) = &case.result {
        let bytes = to_bytes(list.as_flattened());
        after[records.start..records.start + bytes.len()].copy_from_slice(&bytes);
    }
    after
}

/// Yes with place 0, or no with the first number at fault.
fn compare_plain(case: &Case, said: Said) -> Result<(), String> {
    let wanted = match case.faults.first() {
        None => Said { number: 1, place: 0 },
        Some(first) => Said { number: 0, place: *first },
    };
    same("plain test", wanted, said)
}

fn same(what: &str, wanted: Said, found: Said) -> Result<(), String> {
    if wanted == found {
        return Ok(());
    }
    Err(format!("{what}: wanted {wanted:?}, found {found:?}"))
}
