//! M-101: packs. Written from the request, apart from the code.
//!
//! The request: "A pack is a sheet count (1 to 256), then pairs of offset and length in cells, sorted by offset, then the sheets. The first offset follows the
//! last pair, each next one follows the sheet before, and the last sheet ends the file. [..] Turned away: 13 bad pack, with the first wrong cell (a length
//! negative or, with its offset, above the count of whole cells at its own cell, a missing or left cell at its place), before all others; a sheet number not
//! below the count is 5, place 0."

use super::{Call, Export, Family, Pool, Written};
use crate::cases::damage::damage_slice;
use crate::cells::{CELL, cell_at, to_bytes};
use crate::compact::Case;
use crate::lower::RECORD;
use crate::read::Refusal;
use crate::rng::Rng;

pub const FAMILY: Family = Family { name: "pack", listed, draw };

const BAD_PACK: u64 = 13;
const NO_ENTRY: u64 = 5;
const MOST_SHEETS: i64 = 256;

/// The sheets of a pack, each by its first byte and its bytes.
pub fn read(pack: &[u8]) -> Result<Vec<(usize, usize)>, Refusal> {
    let whole = (pack.len() / CELL) as i128;
    let cell = |at: i128| cell_at(pack, at as usize).map(i128::from);
    let bad = |at: i128| Refusal { number: BAD_PACK, place: at as u64 };
    let count = cell(0).filter(|n| (1..=i128::from(MOST_SHEETS)).contains(n)).ok_or(bad(0))?;
    let mut behind = 1 + 2 * count;
    let mut sheets = Vec::new();
    for pair in (1..).step_by(2).take(count as usize) {
        let offset = cell(pair).filter(|offset| *offset == behind).ok_or(bad(pair))?;
        let fits = |length: &i128| *length >= 0 && offset + length <= whole;
        let length = cell(pair + 1).filter(fits).ok_or(bad(pair + 1))?;
        sheets.push((offset as usize * CELL, length as usize * CELL));
        behind = offset + length;
    }
    if behind as usize * CELL < pack.len() { Err(bad(behind)) } else { Ok(sheets) }
}

/// The sheet of a number.
fn find(pack: &[u8], number: u64) -> Result<(usize, usize), Refusal> {
    let sheets = read(pack)?;
    let entry = usize::try_from(number).ok().and_then(|number| sheets.get(number));
    entry.copied().ok_or(Refusal { number: NO_ENTRY, place: 0 })
}

/// Sheets one behind the other, behind their pairs.
pub fn packed(sheets: &[Vec<u8>]) -> Vec<u8> {
    let mut cells = vec![sheets.len() as i64];
    let mut offset = 1 + 2 * sheets.len() as i64;
    for sheet in sheets {
        let length = (sheet.len() / CELL) as i64;
        cells.extend([offset, length]);
        offset += length;
    }
    let mut pack = to_bytes(&cells);
    sheets.iter().for_each(|sheet| pack.extend(sheet));
    pack
}

fn look_up(pack: Vec<u8>, number: u64) -> Call {
    let answers = match find(&pack, number) {
        Ok((from, length)) => vec![0, 0, from as u64, length as u64],
        Err(refusal) => vec![refusal.number, refusal.place, 0, 0],
    };
    Call {
        export: Export::PackSheet,
        reads: vec![pack],
        takes: vec![number],
        writes: vec![],
        answers,
    }
}

fn lower(tables: Vec<u8>, pack: Vec<u8>, number: u64, room: usize) -> Call {
    let found = find(&pack, number);
    let list = found.and_then(|(from, length)| {
        Case::answered(tables.clone(), pack[from..from + length].to_vec(), room as u64).result
    });
    let (answers, after) = match list {
        Ok(list) => (vec![0, list.len() as u64], to_bytes(list.as_flattened())),
        Err(refusal) => (vec![refusal.number, refusal.place], Vec::new()),
    };
    Call {
        export: Export::PackLower,
        reads: vec![tables, pack],
        takes: vec![number],
        writes: vec![Written::new(room, after)],
        answers,
    }
}

/// Packs of a few cells, by hand: each cell of the layout right and wrong.
fn listed() -> Vec<Call> {
    let empty = [0, 0, 0, 0, -1, 0];
    let good: [&[i64]; 4] =
        [&[1, 3, 0], &[1, 3, 1, 7], &[2, 5, 0, 5, 0], &[2, 5, 1, 6, 2, 7, 8, 9]];
    let mut cells: Vec<Vec<i64>> = good.iter().map(|pack| pack.to_vec()).collect();
    cells.push([[1, 3, 6].as_slice(), &empty].concat());
    cells.extend([
        vec![],
        vec![0],
        vec![257],
        vec![-1],
        vec![i64::MAX],
        vec![i64::MIN],
        vec![1],
        vec![1, 3],
    ]);
    for pack in good {
        for (at, old) in pack.iter().enumerate() {
            for new in [old - 1, old + 1, 0, -1, i64::MAX, i64::MIN, i64::MAX - old] {
                let mut wrong = pack.to_vec();
                wrong[at] = new;
                cells.push(wrong);
            }
        }
        cells.push([pack, &[0]].concat());
    }
    let mut packs: Vec<Vec<u8>> = cells.iter().map(|cells| to_bytes(cells)).collect();
    packs.extend(good.map(|pack| [to_bytes(pack), vec![0; 7]].concat()));
    packs.extend(good.map(|pack| to_bytes(pack)[..CELL * pack.len() - 1].to_vec()));
    let numbers = [0, 1, 2, u64::MAX];
    let look_ups =
        packs.iter().flat_map(|pack| numbers.map(|number| look_up(pack.clone(), number)));
    let tables = to_bytes(&[0]);
    let lowered = packs.iter().map(|pack| lower(tables.clone(), pack.clone(), 0, 6 * RECORD));
    look_ups.chain(lowered).chain([many(255), many(256), many(257)]).collect()
}

/// As many sheets of no cell, and the last looked up.
fn many(sheets: usize) -> Call {
    look_up(packed(&vec![Vec::new(); sheets]), sheets as u64 - 1)
}

/// The tables of one of its sheets, and a pack, one of four damaged.
pub fn random(rng: &mut Rng, pool: &Pool) -> (Vec<u8>, Vec<u8>) {
    let cases: Vec<Case> = (0..rng.between(1, 4)).map(|_| pool.case(rng)).collect();
    let sheets: Vec<Vec<u8>> = cases.iter().map(|case| whole(&case.sheet)).collect();
    let mut pack = packed(&sheets);
    if rng.chance(1, 4) {
        damage_slice(rng, &mut pack);
    }
    (cases[rng.below(cases.len())].tables.clone(), pack)
}

fn draw(rng: &mut Rng, pool: &Pool) -> Call {
    let (tables, pack) = random(rng, pool);
    let count = read(&pack).map_or(1, |sheets| sheets.len());
    let number = if rng.chance(1, 8) { rng.next() % 8 } else { rng.below(count) as u64 };
    if rng.chance(1, 3) {
        return look_up(pack, number);
    }
    let needed = lower(tables.clone(), pack.clone(), number, 1 << 20).answers[1] as usize * RECORD;
    let room = match rng.below(6) {
        0 => needed.saturating_sub(1),
        1 | 2 => needed,
        _ => rng.below(2 * needed + 200),
    };
    lower(tables, pack, number, room.min(1 << 16))
}

/// The whole cells of a sheet: a pack has no torn one inside.
fn whole(sheet: &[u8]) -> Vec<u8> {
    sheet[..sheet.len() / CELL * CELL].to_vec()
}
