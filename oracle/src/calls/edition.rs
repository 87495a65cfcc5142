//! M-109: the two editions of a sheet. Written from the request, with a reader of its own for both.
//!
//! The request: "In edition 2 a parameter is its id alone, one cell, and dest, Var and Address operands put 0 for the two type cells. Convert both ways; [..] Turned
//! away: 17 type differs from its entry or has no entry, with the cell of the first such id, after 2 and 3 (tables are not lent); a short output is 9 with the
//! cells needed, last."

use super::{Call, Export, Family, Pool, Written};
use crate::cases::damage::damage_slice;
use crate::cases::{excess, limits, plain};
use crate::cells::{CELL, cell_at, to_bytes};
use crate::lower::PAGE_FULL;
use crate::read::{OVERSIZE, Refusal, TORN_SHEET};
use crate::rng::Rng;
use crate::sheet::*;

pub const FAMILY: Family = Family { name: "edition", listed, draw };

const TYPE_DIFFERS: u64 = 17;

#[derive(Clone, Copy, PartialEq, Eq, Debug)]
pub enum Edition {
    First,
    Second,
}

/// What a sheet says, in reading order: its ids, and all cells but those of their types.
#[derive(Clone, Copy, PartialEq, Eq, Debug)]
enum Part {
    Cell(i64),
    /// An id at a cell, with the type that stands behind it in edition 1; a parameter's id stands alone in edition 2.
    Id {
        at: usize,
        id: i64,
        own: Option<Type>,
        alone: bool,
    },
}

struct Reader<'a> {
    bytes: &'a [u8],
    edition: Edition,
    at: usize,
    parts: Vec<Part>,
}

/// The parts of a sheet, or refusals 2 and 3.
fn read(bytes: &[u8], edition: Edition) -> Result<Vec<Part>, Refusal> {
    let mut reader = Reader { bytes, edition, at: 0, parts: Vec::new() };
    reader.sheet()?;
    if reader.at * CELL < bytes.len() {
        Err(reader.refusal(TORN_SHEET, reader.at))
    } else {
        Ok(reader.parts)
    }
}

impl Reader<'_> {
    fn refusal(&self, number: u64, cell: usize) -> Refusal {
        Refusal { number, place: cell as u64 }
    }

    /// A cell from `low` on; one above `limit` is oversize, one above `high` is off the layout whatever the limit is.
    fn bounded(&mut self, low: i64, high: i64, limit: i64) -> Result<i64, Refusal> {
        let at = self.at;
        let cell = cell_at(self.bytes, at).filter(|cell| (low..=high).contains(cell));
        let cell = cell.ok_or(self.refusal(TORN_SHEET, at))?;
        if cell > limit {
            return Err(self.refusal(OVERSIZE, at));
        }
        self.at += 1;
        Ok(cell)
    }

    fn kept(&mut self, low: i64, high: i64) -> Result<i64, Refusal> {
        self.limited(low, high, i64::MAX)
    }

    fn limited(&mut self, low: i64, high: i64, limit: i64) -> Result<i64, Refusal> {
        let cell = self.bounded(low, high, limit)?;
        self.parts.push(Part::Cell(cell));
        Ok(cell)
    }

    fn zeros(&mut self, count: usize) -> Result<(), Refusal> {
        (0..count).try_for_each(|_| self.kept(0, 0).map(|_| ()))
    }

    /// A code and a count that are not kept.
    fn own_type(&mut self) -> Result<Type, Refusal> {
        let code = self.bounded(LONG, NULL, i64::MAX)?;
        Ok(Type { code, count: self.bounded(-1, i64::MAX, MAX_COUNT)? })
    }

    /// A parameter stands alone in edition 2; elsewhere two zeros stand for the type.
    fn variable(&mut self, alone: bool) -> Result<(), Refusal> {
        let at = self.at;
        let id = self.bounded(0, i64::MAX, i64::MAX)?;
        let own = match self.edition {
            Edition::First => Some(self.own_type()?),
            Edition::Second => {
                let zeros = if alone { 0 } else { 2 };
                (0..zeros).try_for_each(|_| self.bounded(0, 0, 0).map(|_| ()))?;
                None
            }
        };
        self.parts.push(Part::Id { at, id, own, alone });
        Ok(())
    }

    fn operand(&mut self) -> Result<(), Refusal> {
        let kind = self.kept(0, 6)?;
        match kind {
            0 | 4 => return self.variable(false),
            1 => {
                self.kept(i64::MIN, i64::MAX)?;
                self.kept(0, 1)?;
                return self.kept(0, 1).map(|_| ());
            }
            2 | 5 => self.kept(0, i64::MAX)?,
            3 => self.kept(0, 1)?,
            _ => self.kept(0, 0)?,
        };
        self.zeros(2)
    }

    fn instruction(&mut self) -> Result<(), Refusal> {
        let kind = self.kept(0, 10)?;
        let most = match kind {
            1 => unary::NOT,
            2 => binary::REM,
            5 => 1,
            6..=8 => i64::MAX,
            _ => 0,
        };
        let operation = self.kept(0, most)?;
        if kind < 5 || (kind == 5 && operation == 1) {
            self.variable(false)?
        } else {
            self.zeros(3)?
        }
        match kind {
            2 => {
                self.operand()?;
                self.operand()
            }
            0 | 1 | 3 | 8 | 9 => {
                self.operand()?;
                self.zeros(4)
            }
            5 => {
                self.kept(0, i64::MAX)?;
                let arguments = self.limited(0, i64::MAX, MAX_ARGUMENTS)?;
                self.zeros(6)?;
                (0..arguments).try_for_each(|_| self.operand())
            }
            _ => self.zeros(8),
        }
    }

    fn entries(&mut self, count: i64) -> Result<(), Refusal> {
        let mut offset = 0;
        for _ in 0..count {
            let code = self.kept(LONG, NULL)?;
            let ty = Type { code, count: self.limited(-1, i64::MAX, MAX_COUNT)? };
            offset = ty.offset_behind(offset);
            if offset > MAX_OFFSET {
                return Err(self.refusal(OVERSIZE, self.at - 1));
            }
        }
        Ok(())
    }

    fn sheet(&mut self) -> Result<(), Refusal> {
        let variables = self.limited(0, i64::MAX, MAX_VARIABLES)?;
        let parameters = self.limited(0, i64::MAX, MAX_PARAMETERS)?;
        self.limited(0, i64::MAX, MAX_LABELS)?;
        if self.kept(0, NULL)? == 0 {
            self.kept(-1, -1)?
        } else {
            self.limited(-1, i64::MAX, MAX_COUNT)?
        };
        let instructions = self.limited(0, i64::MAX, MAX_INSTRUCTIONS)?;
        self.entries(variables)?;
        (0..parameters).try_for_each(|_| self.variable(true))?;
        (0..instructions).try_for_each(|_| self.instruction())
    }
}

/// The entry of an id: of cells 6 and on, two each.
fn entry(parts: &[Part], id: i64) -> Option<Type> {
    let cell = |at: usize| match parts.get(at) {
        Some(Part::Cell(cell)) => *cell,
        _ => unreachable!("the head has cells alone"),
    };
    let at = 6 + 2 * usize::try_from(id).ok()?;
    (id < cell(0)).then(|| Type { code: cell(at), count: cell(at + 1) })
}

/// The cells in the other edition, or refusals 2, 3 and 17.
pub fn converted(bytes: &[u8], from: Edition) -> Result<Vec<i64>, Refusal> {
    let parts = read(bytes, from)?;
    let mut cells = Vec::new();
    for part in &parts {
        match *part {
            Part::Cell(cell) => cells.push(cell),
            Part::Id { at, id, own, alone } => {
                let entry = entry(&parts, id).filter(|entry| own.is_none_or(|own| own == *entry));
                let differs = Refusal { number: TYPE_DIFFERS, place: at as u64 };
                let entry = entry.ok_or(differs)?;
                cells.push(id);
                match from {
                    Edition::First if alone => {}
                    Edition::First => cells.extend([0, 0]),
                    Edition::Second => cells.extend([entry.code, entry.count]),
                }
            }
        }
    }
    Ok(cells)
}

fn convert(sheet: Vec<u8>, from: Edition, room: usize) -> Call {
    let fits = |cells: Vec<i64>| {
        let needed = cells.len();
        let full = Refusal { number: PAGE_FULL, place: needed as u64 };
        if room < needed * CELL { Err(full) } else { Ok(cells) }
    };
    let (answers, after) = match converted(&sheet, from).and_then(fits) {
        Ok(cells) => (vec![0, cells.len() as u64], to_bytes(&cells)),
        Err(refusal) => (vec![refusal.number, refusal.place], Vec::new()),
    };
    let export = match from {
        Edition::First => Export::ToEdition2,
        Edition::Second => Export::ToEdition1,
    };
    Call {
        export,
        reads: vec![sheet],
        takes: vec![],
        writes: vec![Written::new(room, after)],
        answers,
    }
}

/// As many bytes as the result needs.
fn exact(sheet: &[u8], from: Edition) -> usize {
    converted(sheet, from).map_or(0, |cells| cells.len() * CELL)
}

fn both(sheet: &[u8], rooms: impl Fn(usize) -> Vec<usize>) -> Vec<Call> {
    let mut calls = Vec::new();
    for from in [Edition::First, Edition::Second] {
        let rooms = rooms(exact(sheet, from));
        calls.extend(rooms.into_iter().map(|room| convert(sheet.to_vec(), from, room)));
    }
    calls
}

/// A sheet with every use of a variable, in both editions: each of its cells altered; room to the byte; and the limits.
fn listed() -> Vec<Call> {
    let first = to_bytes(&every_use().cells());
    let second = to_bytes(&converted(&first, Edition::First).expect("it converts"));
    let mut calls = Vec::new();
    for (sheet, own) in [(&first, Edition::First), (&second, Edition::Second)] {
        calls.extend(both(sheet, |exact| {
            vec![0, exact.saturating_sub(1), exact, exact + 7, exact + 64]
        }));
        for cell in 0..sheet.len() / CELL {
            let old = cell_at(sheet, cell).expect("a whole cell");
            for new in [old + 1, old.wrapping_sub(1), 1 << 40] {
                let mut altered = sheet.clone();
                altered[cell * CELL..(cell + 1) * CELL].copy_from_slice(&new.to_le_bytes());
                let room = exact(&altered, own);
                calls.push(convert(altered, own, room));
            }
        }
        for length in [0, 1, 47, 48, sheet.len() - 8, sheet.len() - 1] {
            calls.extend(both(&sheet[..length], |exact| vec![exact]));
        }
        calls.extend(both(&[sheet.as_slice(), &[0; 8]].concat(), |exact| vec![exact]));
    }
    let small = limits::cases().into_iter().filter(|case| case.sheet.len() < 1_000);
    calls.extend(small.flat_map(|case| both(&case.sheet, |exact| vec![exact])));
    calls
}

/// Variables of several types and an array, two parameters, calls with and without dest, Address operands, unused dests.
fn every_use() -> Sheet {
    let mut sheet = Sheet {
        variables: vec![Type::scalar(LONG), Type::array(SHORT, 3), Type::scalar(FLOAT)],
        labels: 1,
        return_type: Some(Type::scalar(LONG)),
        ..Sheet::default()
    };
    let var = |id: usize| sheet.variable(id);
    let (long, array, float) = (var(0), var(1), var(2));
    let int = Operand::Int { value: -5, short: true, unsigned: false };
    sheet.parameters = vec![float, long];
    sheet.body = vec![
        Instr::Copy { dest: long, src: Operand::Var(long) },
        Instr::Binary { op: binary::ADD, dest: long, left: Operand::Var(long), right: int },
        Instr::Unary { op: unary::NEG, dest: float, src: Operand::Float(0) },
        Instr::Zero(array),
        Instr::Call {
            dest: Some(long),
            symbol: 2,
            args: vec![Operand::Address(array), Operand::Var(float), int],
        },
        Instr::Call { dest: None, symbol: 0, args: vec![] },
        Instr::Label(0),
        Instr::JumpIfNot { cond: Operand::Bool(true), label: 0 },
        Instr::Comment,
        Instr::Return(Operand::Var(long)),
    ];
    sheet
}

/// A sheet whose variables agree with their entries, or any; in either edition; one of three damaged.
fn draw(rng: &mut Rng, pool: &Pool) -> Call {
    let agrees = match rng.below(3) {
        0 => pool.case(rng).sheet,
        1 => excess::draft(rng).input().sheet,
        _ => plain::draft(rng).input().sheet,
    };
    let second = converted(&agrees, Edition::First).map(|cells| to_bytes(&cells));
    let (mut sheet, from) = match second {
        Ok(second) if rng.flag() => (second, Edition::Second),
        _ => (agrees, if rng.chance(1, 12) { Edition::Second } else { Edition::First }),
    };
    if rng.chance(1, 3) {
        damage_slice(rng, &mut sheet);
    }
    let exact = exact(&sheet, from);
    let room = match rng.below(6) {
        0 => exact.saturating_sub(1),
        1 => rng.below(exact + 1),
        2 | 3 => exact,
        _ => exact + rng.below(100),
    };
    convert(sheet, from, room)
}
