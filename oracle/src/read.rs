//! Reading of tables and sheet, with refusals 1 to 3.

use crate::cells::{CELL, cell_at};
use crate::sheet::*;

#[derive(Clone, Copy, PartialEq, Eq, Debug)]
pub struct Refusal {
    pub number: u64,
    pub place: u64,
}

pub const BAD_TABLE: u64 = 1;
pub const TORN_SHEET: u64 = 2;
pub const OVERSIZE: u64 = 3;

/// A string count, then one cell a float.
pub fn read_tables(bytes: &[u8]) -> Result<Tables, Refusal> {
    let mut cursor = Cursor { bytes, at: 0, wrong: BAD_TABLE };
    let strings = cursor.within(0, MAX_STRINGS)?;
    let mut floats = Vec::new();
    while !cursor.at_end() {
        if floats.len() == MAX_FLOATS {
            return Err(cursor.refuse(BAD_TABLE));
        }
        floats.push(cursor.flag()?);
    }
    Ok(Tables { strings, floats })
}

pub fn read_sheet(bytes: &[u8]) -> Result<Sheet, Refusal> {
    let mut cursor = Cursor { bytes, at: 0, wrong: TORN_SHEET };
    let variables = cursor.limited(0, MAX_VARIABLES)?;
    let parameters = cursor.limited(0, MAX_PARAMETERS)?;
    let labels = cursor.limited(0, MAX_LABELS)?;
    let return_type = cursor.return_type()?;
    let instructions = cursor.limited(0, MAX_INSTRUCTIONS)?;
    let sheet = Sheet {
        variables: cursor.variable_types(variables)?,
        parameters: (0..parameters).map(|_| cursor.variable()).collect::<Result<_, _>>()?,
        labels,
        return_type,
        body: (0..instructions).map(|_| cursor.instr()).collect::<Result<_, _>>()?,
    };
    if cursor.at_end() { Ok(sheet) } else { Err(cursor.refuse(TORN_SHEET)) }
}

struct Cursor<'a> {
    bytes: &'a [u8],
    /// The next cell.
    at: usize,
    /// The refusal for a cell off the layout.
    wrong: u64,
}

impl Cursor<'_> {
    fn at_end(&self) -> bool {
        self.at * CELL == self.bytes.len()
    }

    fn refuse(&self, number: u64) -> Refusal {
        Refusal { number, place: self.at as u64 }
    }

    /// A cell from `low` to `high`; anything else is off the layout.
    fn within(&mut self, low: i64, high: i64) -> Result<i64, Refusal> {
        match cell_at(self.bytes, self.at) {
            Some(cell) if (low..=high).contains(&cell) => {
                self.at += 1;
                Ok(cell)
            }
            _ => Err(self.refuse(self.wrong)),
        }
    }

    /// A cell of at least `low`; above `limit` it is oversize.
    fn limited(&mut self, low: i64, limit: i64) -> Result<i64, Refusal> {
        match cell_at(self.bytes, self.at) {
            Some(cell) if cell > limit => Err(self.refuse(OVERSIZE)),
            _ => self.within(low, limit),
        }
    }

    fn flag(&mut self) -> Result<bool, Refusal> {
        Ok(self.within(0, 1)? == 1)
    }

    fn number(&mut self) -> Result<i64, Refusal> {
        self.within(0, i64::MAX)
    }

    fn zeros(&mut self, count: usize) -> Result<(), Refusal> {
        (0..count).try_for_each(|_| self.within(0, 0).map(|_| ()))
    }

    fn return_type(&mut self) -> Result<Option<Type>, Refusal> {
        let code = self.within(0, NULL)?;
        if code == 0 {
            self.within(-1, -1)?;
            return Ok(None);
        }
        let count = self.limited(-1, MAX_COUNT)?;
        Ok(Some(Type { code, count }))
    }

    fn type_of(&mut self) -> Result<Type, Refusal> {
        let code = self.within(LONG, NULL)?;
        let count = self.limited(-1, MAX_COUNT)?;
        Ok(Type { code, count })
    }

    /// The variable list; the count cell of the variable whose offset first passes the limit is oversize.
    fn variable_types(&mut self, variables: i64) -> Result<Vec<Type>, Refusal> {
        let mut offset = 0;
        let mut types = Vec::new();
        for _ in 0..variables {
            let ty = self.type_of()?;
            offset = ty.offset_behind(offset);
            if offset > MAX_OFFSET {
                self.at -= 1;
                return Err(self.refuse(OVERSIZE));
            }
            types.push(ty);
        }
        Ok(types)
    }

    fn variable(&mut self) -> Result<Variable, Refusal> {
        Ok(Variable { id: self.number()?, ty: self.type_of()? })
    }

    fn operand(&mut self) -> Result<Operand, Refusal> {
        let operand = match self.within(0, 6)? {
            0 => return self.variable().map(Operand::Var),
            1 => return self.int(),
            2 => Operand::Float(self.number()?),
            3 => Operand::Bool(self.flag()?),
            4 => return self.variable().map(Operand::Address),
            5 => Operand::DataAddress(self.number()?),
            _ => {
                self.zeros(1)?;
                Operand::Null
            }
        };
        self.zeros(2)?;
        Ok(operand)
    }

    fn int(&mut self) -> Result<Operand, Refusal> {
        let value = self.within(i64::MIN, i64::MAX)?;
        Ok(Operand::Int { value, short: self.flag()?, unsigned: self.flag()? })
    }

    /// 13 cells, and the arguments of a Call.
    fn instr(&mut self) -> Result<Instr, Refusal> {
        match self.within(0, 10)? {
            0 => {
                let (dest, src) = self.dest_and_left()?;
                Ok(Instr::Copy { dest, src })
            }
            1 => {
                let op = self.within(unary::NEG, unary::NOT)?;
                let (dest, src) = (self.variable()?, self.only_left()?);
                Ok(Instr::Unary { op, dest, src })
            }
            2 => {
                let op = self.within(binary::OR, binary::REM)?;
                let (dest, left, right) = (self.variable()?, self.operand()?, self.operand()?);
                Ok(Instr::Binary { op, dest, left, right })
            }
            3 => {
                let (dest, src) = self.dest_and_left()?;
                Ok(Instr::Cast { dest, src })
            }
            4 => {
                self.zeros(1)?;
                let dest = self.variable()?;
                self.zeros(8)?;
                Ok(Instr::Zero(dest))
            }
            5 => self.call(),
            kind => self.without_dest(kind),
        }
    }

    /// Operation 0, a dest and left.
    fn dest_and_left(&mut self) -> Result<(Variable, Operand), Refusal> {
        self.zeros(1)?;
        Ok((self.variable()?, self.only_left()?))
    }

    fn only_left(&mut self) -> Result<Operand, Refusal> {
        let left = self.operand()?;
        self.zeros(4)?;
        Ok(left)
    }

    fn call(&mut self) -> Result<Instr, Refusal> {
        let dest = if self.flag()? {
            Some(self.variable()?)
        } else {
            self.zeros(3)?;
            None
        };
        let symbol = self.number()?;
        let count = self.limited(0, MAX_ARGUMENTS)?;
        self.zeros(6)?;
        let args = (0..count).map(|_| self.operand()).collect::<Result<_, _>>()?;
        Ok(Instr::Call { dest, symbol, args })
    }

    fn without_dest(&mut self, kind: i64) -> Result<Instr, Refusal> {
        let has_label = (6..=8).contains(&kind);
        let label = if has_label { self.number()? } else { self.within(0, 0)? };
        self.zeros(3)?;
        if kind == 8 || kind == 9 {
            let left = self.only_left()?;
            return Ok(if kind == 8 {
                Instr::JumpIfNot { cond: left, label }
            } else {
                Instr::Return(left)
            });
        }
        self.zeros(8)?;
        Ok(match kind {
            6 => Instr::Label(label),
            7 => Instr::Jump(label),
            _ => Instr::Comment,
        })
    }
}
