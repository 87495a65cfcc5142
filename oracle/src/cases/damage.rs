//! Damaged copies: cells replaced, removed or inserted, slices cut or lengthened.

use super::Input;
use crate::cells::CELL;
use crate::rng::Rng;

pub fn damage(rng: &mut Rng, mut input: Input) -> Input {
    let times = if rng.chance(1, 5) { 2 } else { 1 };
    for _ in 0..times {
        let bytes = if rng.chance(1, 5) { &mut input.tables } else { &mut input.sheet };
        damage_slice(rng, bytes);
    }
    input
}

pub fn damage_slice(rng: &mut Rng, bytes: &mut Vec<u8>) {
    let cells = bytes.len() / CELL;
    match rng.below(12) {
        0 => bytes.truncate(rng.below(bytes.len() + 1)),
        1 => append(rng, bytes),
        2 | 3 if cells > 0 => remove(rng, bytes, cells),
        4 | 5 => insert(rng, bytes, cells),
        _ if cells > 0 => replace(rng, bytes, cells),
        _ => append(rng, bytes),
    }
}

/// Up to two cells of random or small bytes.
fn append(rng: &mut Rng, bytes: &mut Vec<u8>) {
    let zeros = rng.flag();
    for _ in 0..rng.between(1, 16) {
        bytes.push(if zeros { 0 } else { rng.next() as u8 });
    }
}

fn remove(rng: &mut Rng, bytes: &mut Vec<u8>, cells: usize) {
    let at = place(rng, cells) * CELL;
    bytes.drain(at..at + CELL);
}

fn insert(rng: &mut Rng, bytes: &mut Vec<u8>, cells: usize) {
    let at = place(rng, cells + 1) * CELL;
    bytes.splice(at..at, cell(rng, 0).to_le_bytes());
}

fn replace(rng: &mut Rng, bytes: &mut [u8], cells: usize) {
    let at = place(rng, cells) * CELL;
    let old = i64::from_le_bytes(bytes[at..at + CELL].try_into().expect("eight bytes"));
    bytes[at..at + CELL].copy_from_slice(&cell(rng, old).to_le_bytes());
}

/// Anywhere, but the first cells more often.
fn place(rng: &mut Rng, cells: usize) -> usize {
    if rng.chance(1, 4) { rng.below(cells.min(8)) } else { rng.below(cells) }
}

fn cell(rng: &mut Rng, old: i64) -> i64 {
    match rng.below(10) {
        0 => 0,
        1 => 1,
        2 => -1,
        3 => rng.between(2, 20) as i64,
        4 => i64::MAX,
        5 => i64::MIN,
        6 => rng.next() as i64,
        7 => old.wrapping_add(1),
        8 => old.wrapping_sub(1),
        _ => rng.pick(&[64, 65, 256, 257, 4_096, 4_097, 1_048_576, 1_048_577, 1 << 32]),
    }
}
