//! Tables and sheet: their contents, and how they are written as cells.

pub const MAX_VARIABLES: i64 = 256;
pub const MAX_PARAMETERS: i64 = 256;
pub const MAX_LABELS: i64 = 256;
pub const MAX_INSTRUCTIONS: i64 = 4_096;
pub const MAX_ARGUMENTS: i64 = 64;
pub const MAX_COUNT: i64 = 1_048_576;
/// For the last offset.
pub const MAX_OFFSET: i64 = 1_048_576;
pub const MAX_STRINGS: i64 = 256;
pub const MAX_FLOATS: usize = 256;

pub const LONG: i64 = 1;
pub const UNSIGNED_LONG: i64 = 2;
pub const SHORT: i64 = 3;
pub const UNSIGNED_SHORT: i64 = 4;
pub const FLOAT: i64 = 5;
pub const SHORT_FLOAT: i64 = 6;
pub const BOOL: i64 = 7;
pub const CHAR: i64 = 8;
pub const BYTE: i64 = 9;
pub const ADDRESS: i64 = 10;
pub const CUSTOM: i64 = 11;
pub const NULL: i64 = 12;

/// A code and a count, -1 when it is no array.
#[derive(Clone, Copy, PartialEq, Eq, Debug)]
pub struct Type {
    pub code: i64,
    pub count: i64,
}

impl Type {
    pub const fn scalar(code: i64) -> Self {
        Self { code, count: -1 }
    }

    pub const fn array(code: i64, count: i64) -> Self {
        Self { code, count }
    }

    pub fn is_array(self) -> bool {
        self.count != -1
    }

    /// An array of floats is none.
    pub fn is_float(self) -> bool {
        matches!(self.code, FLOAT | SHORT_FLOAT) && !self.is_array()
    }

    /// Bytes of the type, or of one element of an array.
    pub fn element_size(self) -> Option<i64> {
        match self.code {
            LONG | UNSIGNED_LONG | FLOAT | ADDRESS => Some(8),
            SHORT | UNSIGNED_SHORT | SHORT_FLOAT => Some(4),
            BOOL | CHAR | BYTE => Some(1),
            _ => None,
        }
    }

    pub fn size(self) -> Option<i64> {
        let elements = if self.is_array() { self.count } else { 1 };
        self.element_size().map(|size| size * elements)
    }

    /// A variable's offset behind one of offset `previous` (M-110): the least multiple of its element's width
    /// not below `previous` plus its size; with no width it keeps `previous`.
    pub fn offset_behind(self, previous: i64) -> i64 {
        match (self.size(), self.element_size()) {
            (Some(size), Some(width)) => {
                let mut offset = previous + size;
                while offset % width != 0 {
                    offset += 1;
                }
                offset
            }
            _ => previous,
        }
    }

    fn cells(self) -> [i64; 2] {
        [self.code, self.count]
    }
}

/// An id and its own type.
#[derive(Clone, Copy, PartialEq, Eq, Debug)]
pub struct Variable {
    pub id: i64,
    pub ty: Type,
}

impl Variable {
    fn cells(self) -> [i64; 3] {
        [self.id, self.ty.code, self.ty.count]
    }
}

#[derive(Clone, Copy, PartialEq, Eq, Debug)]
pub enum Operand {
    Var(Variable),
    Int { value: i64, short: bool, unsigned: bool },
    Float(i64),
    Bool(bool),
    Address(Variable),
    DataAddress(i64),
    Null,
}

impl Operand {
    fn cells(self) -> [i64; 4] {
        match self {
            Operand::Var(var) => [0, var.id, var.ty.code, var.ty.count],
            Operand::Int { value, short, unsigned } => {
                [1, value, i64::from(short), i64::from(unsigned)]
            }
            Operand::Float(index) => [2, index, 0, 0],
            Operand::Bool(value) => [3, i64::from(value), 0, 0],
            Operand::Address(var) => [4, var.id, var.ty.code, var.ty.count],
            Operand::DataAddress(index) => [5, index, 0, 0],
            Operand::Null => [6, 0, 0, 0],
        }
    }
}

/// Positions in `BinaryOp`.
pub mod binary {
    pub const OR: i64 = 0;
    pub const AND: i64 = 1;
    pub const BIT_OR: i64 = 2;
    pub const BIT_XOR: i64 = 3;
    pub const BIT_AND: i64 = 4;
    pub const EQ: i64 = 5;
    pub const NOT_EQ: i64 = 6;
    pub const LT: i64 = 7;
    pub const LE: i64 = 8;
    pub const GT: i64 = 9;
    pub const GE: i64 = 10;
    pub const SHL: i64 = 11;
    pub const SHR: i64 = 12;
    pub const ADD: i64 = 13;
    pub const SUB: i64 = 14;
    pub const MUL: i64 = 15;
    pub const DIV: i64 = 16;
    pub const REM: i64 = 17;

    pub fn is_comparison(op: i64) -> bool {
        (EQ..=GE).contains(&op)
    }

    pub fn is_division(op: i64) -> bool {
        matches!(op, DIV | REM)
    }

    /// Add, Sub and the three bit operations: right is taken as it is.
    pub fn takes_immediate(op: i64) -> bool {
        matches!(op, ADD | SUB | BIT_OR | BIT_XOR | BIT_AND)
    }
}

/// Positions in `UnaryOp`.
pub mod unary {
    pub const NEG: i64 = 0;
    pub const BIT_NOT: i64 = 1;
    pub const NOT: i64 = 2;
}

#[derive(Clone, PartialEq, Eq, Debug)]
pub enum Instr {
    Copy { dest: Variable, src: Operand },
    Unary { op: i64, dest: Variable, src: Operand },
    Binary { op: i64, dest: Variable, left: Operand, right: Operand },
    Cast { dest: Variable, src: Operand },
    Zero(Variable),
    Call { dest: Option<Variable>, symbol: i64, args: Vec<Operand> },
    Label(i64),
    Jump(i64),
    JumpIfNot { cond: Operand, label: i64 },
    Return(Operand),
    Comment,
}

/// Unused operand cells.
const UNUSED: [i64; 4] = [0; 4];

impl Instr {
    fn put(&self, out: &mut Vec<i64>) {
        let mut row = |kind, op, dest: Option<Variable>, left: [i64; 4], right: [i64; 4]| {
            out.extend([kind, op]);
            out.extend(dest.map_or([0; 3], Variable::cells));
            out.extend(left);
            out.extend(right);
        };
        match self {
            Instr::Copy { dest, src } => row(0, 0, Some(*dest), src.cells(), UNUSED),
            Instr::Unary { op, dest, src } => row(1, *op, Some(*dest), src.cells(), UNUSED),
            Instr::Binary { op, dest, left, right } => {
                row(2, *op, Some(*dest), left.cells(), right.cells())
            }
            Instr::Cast { dest, src } => row(3, 0, Some(*dest), src.cells(), UNUSED),
            Instr::Zero(dest) => row(4, 0, Some(*dest), UNUSED, UNUSED),
            Instr::Call { dest, symbol, args } => {
                let flag = i64::from(dest.is_some());
                row(5, flag, *dest, [*symbol, args.len() as i64, 0, 0], UNUSED);
                out.extend(args.iter().flat_map(|arg| arg.cells()));
            }
            Instr::Label(label) => row(6, *label, None, UNUSED, UNUSED),
            Instr::Jump(label) => row(7, *label, None, UNUSED, UNUSED),
            Instr::JumpIfNot { cond, label } => row(8, *label, None, cond.cells(), UNUSED),
            Instr::Return(value) => row(9, 0, None, value.cells(), UNUSED),
            Instr::Comment => row(10, 0, None, UNUSED, UNUSED),
        }
    }
}

#[derive(Clone, PartialEq, Eq, Debug, Default)]
pub struct Tables {
    pub strings: i64,
    /// True for a short one.
    pub floats: Vec<bool>,
}

impl Tables {
    pub fn cells(&self) -> Vec<i64> {
        let floats = self.floats.iter().map(|short| i64::from(*short));
        std::iter::once(self.strings).chain(floats).collect()
    }
}

#[derive(Clone, PartialEq, Eq, Debug, Default)]
pub struct Sheet {
    pub variables: Vec<Type>,
    pub parameters: Vec<Variable>,
    pub labels: i64,
    pub return_type: Option<Type>,
    pub body: Vec<Instr>,
}

impl Sheet {
    pub fn cells(&self) -> Vec<i64> {
        let return_type = self.return_type.unwrap_or(Type::scalar(0));
        let mut out = vec![self.variables.len() as i64, self.parameters.len() as i64, self.labels];
        out.extend(return_type.cells());
        out.push(self.body.len() as i64);
        out.extend(self.variables.iter().flat_map(|ty| ty.cells()));
        out.extend(self.parameters.iter().flat_map(|var| var.cells()));
        for instr in &self.body {
            instr.put(&mut out);
        }
        out
    }

    /// The variable `id` with its entry as its own type.
    pub fn variable(&self, id: usize) -> Variable {
        Variable { id: id as i64, ty: self.variables[id] }
    }

    /// The entry of a variable, if its id has one.
    pub fn entry(&self, id: i64) -> Option<Type> {
        self.variables.get(usize::try_from(id).ok()?).copied()
    }

    /// How far below the saved RBP each variable's slot starts, in sheet order.
    pub fn offsets(&self) -> Vec<i64> {
        let offsets = self.variables.iter().scan(0, |offset, ty| {
            *offset = ty.offset_behind(*offset);
            Some(*offset)
        });
        offsets.collect()
    }

    /// The least multiple of 16 not below the last offset.
    pub fn frame(&self) -> i64 {
        let last = self.offsets().last().copied().unwrap_or(0);
        (last + 15) / 16 * 16
    }
}
