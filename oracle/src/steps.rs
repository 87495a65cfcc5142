//! The steps of a plain integer function, over the bytes of its variables.

use crate::sheet::*;

#[derive(Clone, Copy, PartialEq, Eq, Debug)]
pub enum End {
    /// By a Return, with a value of `width` bytes.
    Value { value: u64, width: usize },
    /// With no instruction left.
    FellOff,
    /// Div or Rem by zero, or of the least signed value by -1.
    Fault,
    /// The bound on steps was reached.
    Unended,
}

pub struct Run {
    pub end: End,
    pub steps: u64,
    /// The bytes of each variable at the end.
    pub variables: Vec<Vec<u8>>,
    /// The number of the last instruction run, from 1; 0 when none was.
    pub last: usize,
}

/// Runs a plain sheet from the given bytes, at most `bound` steps.
pub fn run(sheet: &Sheet, variables: Vec<Vec<u8>>, bound: u64) -> Run {
    let mut run = Run { end: End::Unended, steps: 0, variables, last: 0 };
    let mut next = 0;
    while run.steps < bound || next >= sheet.body.len() {
        let Some(instr) = sheet.body.get(next) else {
            run.end = End::FellOff;
            return run;
        };
        run.steps += 1;
        run.last = next + 1;
        match step(sheet, instr, &mut run.variables) {
            Flow::Next => next += 1,
            Flow::To(label) => next = place_of(sheet, label),
            Flow::End(end) => {
                run.end = end;
                return run;
            }
        }
    }
    run
}

/// Whether an instruction divides signed numbers.
pub fn divides_signed(instr: &Instr) -> bool {
    matches!(instr, Instr::Binary { op, dest, .. } if binary::is_division(*op) && is_signed(dest.ty))
}

/// Whether a run ended by a fault of a divisor that is not zero: the least signed value by -1.
pub fn ends_by_the_least(sheet: &Sheet, run: &Run) -> bool {
    match sheet.body.get(run.last.wrapping_sub(1)) {
        Some(Instr::Binary { right, .. }) if run.end == End::Fault => {
            value(right, &run.variables).bits != 0
        }
        _ => false,
    }
}

enum Flow {
    Next,
    To(i64),
    End(End),
}

fn place_of(sheet: &Sheet, label: i64) -> usize {
    let place = sheet.body.iter().position(|instr| *instr == Instr::Label(label));
    place.expect("a plain jump has a label")
}

fn step(sheet: &Sheet, instr: &Instr, variables: &mut [Vec<u8>]) -> Flow {
    let of = |operand: &Operand| value(operand, variables);
    let (dest, result) = match instr {
        Instr::Copy { dest, src } => (dest, of(src).bits),
        Instr::Unary { op, dest, src } => (dest, unary_result(*op, of(src).bits)),
        Instr::Binary { op, dest, left, right } => {
            match binary_result(*op, dest.ty, of(left), of(right)) {
                Some(result) => (dest, result),
                None => return Flow::End(End::Fault),
            }
        }
        Instr::Cast { dest, src } => (dest, widened(of(src))),
        Instr::Zero(dest) => {
            variables[dest.id as usize].fill(0);
            return Flow::Next;
        }
        Instr::Jump(label) => return Flow::To(*label),
        Instr::JumpIfNot { cond, label } => {
            return if of(cond).bits == 0 { Flow::To(*label) } else { Flow::Next };
        }
        Instr::Return(operand) => {
            let Value { bits, width, .. } = of(operand);
            return Flow::End(End::Value { value: bits, width });
        }
        Instr::Label(_) | Instr::Comment => return Flow::Next,
        Instr::Call { .. } => panic!("a call is not plain on sheet {sheet:?}"),
    };
    let bytes = &mut variables[dest.id as usize];
    let width = bytes.len();
    bytes.copy_from_slice(&result.to_le_bytes()[..width]);
    Flow::Next
}

/// An operand's value: unsigned, below 2 to the width in bits.
#[derive(Clone, Copy)]
struct Value {
    bits: u64,
    width: usize,
    signed: bool,
}

impl Value {
    fn new(bits: u64, width: usize, signed: bool) -> Self {
        Self { bits: bits & mask(width), width, signed }
    }

    fn as_signed(self) -> i64 {
        let unused = 64 - 8 * self.width as u32;
        ((self.bits << unused) as i64) >> unused
    }

    fn is_least(self) -> bool {
        self.as_signed() == i64::MIN >> (64 - 8 * self.width)
    }
}

/// Shr copies the sign, and Div and Rem read both operands as signed, for a dest of these types.
fn is_signed(ty: Type) -> bool {
    matches!(ty.code, LONG | SHORT)
}

fn mask(width: usize) -> u64 {
    u64::MAX >> (64 - 8 * width)
}

fn value(operand: &Operand, variables: &[Vec<u8>]) -> Value {
    match operand {
        Operand::Var(var) => {
            let bytes = &variables[var.id as usize];
            let mut cell = [0; 8];
            cell[..bytes.len()].copy_from_slice(bytes);
            Value::new(u64::from_le_bytes(cell), bytes.len(), is_signed(var.ty))
        }
        Operand::Int { value, short, unsigned } => {
            Value::new(*value as u64, if *short { 4 } else { 8 }, !unsigned)
        }
        Operand::Bool(value) => Value::new(u64::from(*value), 1, false),
        Operand::Null => Value::new(0, 8, false),
        other => panic!("{other:?} is not plain"),
    }
}

/// One byte widens with zeros, four with the sign if the operand is signed, else with zeros (M-105); narrowing keeps the low bytes.
fn widened(value: Value) -> u64 {
    if value.width == 4 && value.signed { value.as_signed() as u64 } else { value.bits }
}

fn unary_result(op: i64, bits: u64) -> u64 {
    match op {
        unary::NEG => bits.wrapping_neg(),
        unary::BIT_NOT => !bits,
        _ => bits ^ 1,
    }
}

/// The result, of which dest keeps the low bytes; none where a division faults.
fn binary_result(op: i64, dest: Type, left: Value, right: Value) -> Option<u64> {
    let (a, b) = (left.bits, right.bits);
    if binary::is_comparison(op) {
        return Some(u64::from(compare(op, left, right)));
    }
    let count = b % if left.width == 8 { 64 } else { 32 };
    Some(match op {
        binary::BIT_OR => a | b,
        binary::BIT_XOR => a ^ b,
        binary::BIT_AND => a & b,
        binary::ADD => a.wrapping_add(b),
        binary::SUB => a.wrapping_sub(b),
        binary::MUL => a.wrapping_mul(b),
        binary::DIV => divided(is_signed(dest), left, right)?.0,
        binary::REM => divided(is_signed(dest), left, right)?.1,
        binary::SHL => a << count,
        binary::SHR if is_signed(dest) => (left.as_signed() >> count) as u64,
        binary::SHR => a >> count,
        op => panic!("operation {op} is not plain"),
    })
}

/// Quotient and remainder, the signed quotient toward zero and its remainder with the dividend's
/// sign; none for a zero divisor and for the least signed value by -1.
fn divided(signed: bool, left: Value, right: Value) -> Option<(u64, u64)> {
    if right.bits == 0 {
        return None;
    }
    if !signed {
        return Some((left.bits / right.bits, left.bits % right.bits));
    }
    let (a, b) = (left.as_signed(), right.as_signed());
    if left.is_least() && b == -1 {
        return None;
    }
    Some(((a / b) as u64, (a % b) as u64))
}

fn compare(op: i64, left: Value, right: Value) -> bool {
    let order = if left.signed {
        left.as_signed().cmp(&right.as_signed())
    } else {
        left.bits.cmp(&right.bits)
    };
    match op {
        binary::EQ => order.is_eq(),
        binary::NOT_EQ => order.is_ne(),
        binary::LT => order.is_lt(),
        binary::LE => order.is_le(),
        binary::GT => order.is_gt(),
        _ => order.is_ge(),
    }
}
