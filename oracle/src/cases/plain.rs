//! Plain integer functions, plain by construction, with branches and loops.

use super::{Draft, any};
use crate::rng::Rng;
use crate::sheet::*;

const CODES: [i64; 10] =
    [LONG, UNSIGNED_LONG, SHORT, UNSIGNED_SHORT, BOOL, BOOL, CHAR, BYTE, ADDRESS, LONG];
const SHORT_LOW: i64 = -(1 << 31);
const SHORT_HIGH: i64 = (1 << 32) - 1;
const IMMEDIATE_HIGH: i64 = (1 << 31) - 1;

pub fn draft(rng: &mut Rng) -> Draft {
    let divisors = rng.pick(&[Divisors::None, Divisors::NotZero, Divisors::Any, Divisors::Any]);
    let mut builder = Builder { sheet: head(rng), rng, locked: Vec::new(), divisors };
    match builder.rng.below(40) {
        0 => {}
        1..10 => builder.unstructured(),
        _ => builder.block(0),
    }
    builder.ending();
    let mut sheet = builder.sheet;
    number_labels(rng, &mut sheet);
    Draft { tables: Tables::default(), sheet }
}

fn head(rng: &mut Rng) -> Sheet {
    // a fifth has parameters beyond the six registers
    let many = rng.chance(1, 5);
    let count = match (many, rng.chance(1, 40)) {
        (true, _) if rng.chance(1, 4) => rng.between(20, 60),
        (true, _) => rng.between(8, 20),
        (_, true) => 0,
        _ => rng.between(1, 14),
    };
    let mut sheet = Sheet {
        variables: (0..count).map(|_| entry(rng)).collect(),
        return_type: rng.chance(3, 4).then(|| Type::scalar(rng.pick(&CODES))),
        ..Sheet::default()
    };
    if rng.chance(1, 10) {
        sheet.return_type = Some(Type::scalar(NULL));
    }
    if rng.chance(1, 400) && count > 0 {
        sheet.variables[0] = Type::array(BYTE, rng.between(100_000, 900_000) as i64);
    }
    let mut ids: Vec<usize> = (0..count).filter(|id| !sheet.variables[*id].is_array()).collect();
    rng.shuffle(&mut ids);
    ids.truncate(if many { rng.between(7, 40) } else { rng.below(7) });
    sheet.parameters = ids.into_iter().map(|id| sheet.variable(id)).collect();
    sheet
}

fn entry(rng: &mut Rng) -> Type {
    let code = rng.pick(&CODES);
    let count = match rng.below(60) {
        0..50 => -1,
        50..59 => rng.pick(&[0, 1, 2, 3, 5, 8, 16]),
        _ => rng.between(17, 1_500) as i64,
    };
    Type { code, count }
}

/// Gives the labels new numbers in random order, and at times room for more.
fn number_labels(rng: &mut Rng, sheet: &mut Sheet) {
    let spare = if rng.chance(1, 4) { rng.below(4) } else { 0 };
    let used = sheet.labels as usize;
    let mut numbers: Vec<i64> = (0..(used + spare) as i64).collect();
    rng.shuffle(&mut numbers);
    sheet.labels = numbers.len() as i64;
    for instr in &mut sheet.body {
        if let Instr::Label(label) | Instr::Jump(label) | Instr::JumpIfNot { label, .. } = instr {
            *label = numbers[*label as usize];
        }
    }
}

#[derive(Clone, Copy, PartialEq)]
enum Divisors {
    None,
    NotZero,
    Any,
}

struct Builder<'a> {
    rng: &'a mut Rng,
    sheet: Sheet,
    /// Counters of the loops around, which nothing else may change.
    locked: Vec<usize>,
    divisors: Divisors,
}

impl Builder<'_> {
    fn push(&mut self, instr: Instr) {
        self.sheet.body.push(instr);
    }

    fn new_label(&mut self) -> i64 {
        self.sheet.labels += 1;
        self.sheet.labels - 1
    }

    /// A variable that may be written and for which `keep` holds.
    fn dest(&mut self, keep: impl Fn(Type) -> bool) -> Option<Variable> {
        let ids: Vec<usize> = (0..self.sheet.variables.len())
            .filter(|id| !self.locked.contains(id) && keep(self.sheet.variables[*id]))
            .collect();
        (!ids.is_empty()).then(|| self.sheet.variable(self.rng.pick(&ids)))
    }

    fn scalar_dest(&mut self) -> Option<Variable> {
        self.dest(|ty| !ty.is_array())
    }

    fn bool_dest(&mut self) -> Option<Variable> {
        self.dest(|ty| ty == Type::scalar(BOOL))
    }

    /// A variable to read, of a width.
    fn source(&mut self, width: i64) -> Option<Variable> {
        let ids: Vec<usize> = (0..self.sheet.variables.len())
            .filter(|id| {
                let ty = self.sheet.variables[*id];
                !ty.is_array() && ty.size() == Some(width)
            })
            .collect();
        (!ids.is_empty()).then(|| self.sheet.variable(self.rng.pick(&ids)))
    }

    /// An operand of a width; a long constant lies from `low` to `high`.
    fn operand(&mut self, width: i64, low: i64, high: i64) -> Operand {
        match self.source(width) {
            Some(var) if self.rng.chance(2, 3) => Operand::Var(var),
            _ => self.constant(width, low, high),
        }
    }

    fn constant(&mut self, width: i64, low: i64, high: i64) -> Operand {
        let unsigned = self.rng.flag();
        match width {
            1 => Operand::Bool(unsigned),
            4 => {
                let value = self.within(SHORT_LOW, SHORT_HIGH);
                Operand::Int { value, short: true, unsigned }
            }
            _ if self.rng.chance(1, 6) => Operand::Null,
            _ => Operand::Int { value: self.within(low, high), short: false, unsigned },
        }
    }

    /// A value in a range, often at its edges.
    fn within(&mut self, low: i64, high: i64) -> i64 {
        match self.rng.below(8) {
            0 => low,
            1 => high,
            _ => loop {
                let value = any::value(self.rng);
                if (low..=high).contains(&value) {
                    return value;
                }
            },
        }
    }

    fn any_operand(&mut self, width: i64) -> Operand {
        self.operand(width, i64::MIN, i64::MAX)
    }

    fn condition(&mut self) -> Operand {
        match self.source_of(BOOL) {
            Some(var) if self.rng.chance(9, 10) => Operand::Var(var),
            _ => Operand::Bool(self.rng.flag()),
        }
    }

    /// A variable to read, of a code.
    fn source_of(&mut self, code: i64) -> Option<Variable> {
        let is_of = |id: &usize| self.sheet.variables[*id] == Type::scalar(code);
        let ids: Vec<usize> = (0..self.sheet.variables.len()).filter(is_of).collect();
        (!ids.is_empty()).then(|| self.sheet.variable(self.rng.pick(&ids)))
    }
}

/// Single instructions.
impl Builder<'_> {
    fn simple(&mut self) {
        let instr = match self.rng.below(14) {
            0 => self.copy(),
            1 | 2 => self.unary(),
            3..8 => self.arithmetic(),
            8 | 9 => self.comparison(),
            10..12 => self.cast(),
            12 => self.dest(|_| true).map(Instr::Zero),
            _ => Some(Instr::Comment),
        };
        self.push(instr.unwrap_or(Instr::Comment));
    }

    fn copy(&mut self) -> Option<Instr> {
        let dest = self.scalar_dest()?;
        let src = self.any_operand(dest.ty.size()?);
        Some(Instr::Copy { dest, src })
    }

    fn unary(&mut self) -> Option<Instr> {
        let dest = self.scalar_dest()?;
        let src = self.any_operand(dest.ty.size()?);
        Some(Instr::Unary { op: self.rng.below(3) as i64, dest, src })
    }

    fn arithmetic(&mut self) -> Option<Instr> {
        let dest = self.scalar_dest()?;
        let width = dest.ty.size()?;
        let op = self.operation(width);
        if binary::is_division(op) && matches!(dest.ty.code, LONG | SHORT) && self.rng.flag() {
            let (left, right) = self.signed_sides(width);
            return Some(Instr::Binary { op, dest, left, right });
        }
        let left = self.any_operand(width);
        let right = match op {
            _ if binary::is_division(op) && self.divisors == Divisors::NotZero => {
                self.not_zero(width)
            }
            _ if binary::takes_immediate(op) => self.operand(width, SHORT_LOW, IMMEDIATE_HIGH),
            _ => self.any_operand(width),
        };
        Some(Instr::Binary { op, dest, left, right })
    }

    /// An operation that is plain for a dest of the width.
    fn operation(&mut self, width: i64) -> i64 {
        use binary::*;
        let ops = [BIT_OR, BIT_XOR, BIT_AND, SHL, SHR, ADD, SUB, MUL, DIV, REM];
        loop {
            let op = self.rng.pick(&ops);
            let barred = is_division(op) && self.divisors == Divisors::None
                || width == 1 && matches!(op, MUL | REM);
            if !barred {
                return op;
            }
        }
    }

    /// Both sides of a signed division, at the ends of the range and around 0.
    fn signed_sides(&mut self, width: i64) -> (Operand, Operand) {
        let least = if width == 4 { SHORT_LOW } else { i64::MIN };
        let dividends = [least, least, least + 1, -7, -1, 7, -(least + 1)];
        let divisors = [-1, -1, -1, -2, 2, 1, least];
        let (left, right) = (self.rng.pick(&dividends), self.rng.pick(&divisors));
        (self.signed_side(width, left), self.signed_side(width, right))
    }

    /// A constant, a short one at times as its unsigned pattern; or a variable, unless no divisor
    /// may be 0.
    fn signed_side(&mut self, width: i64, value: i64) -> Operand {
        match self.source(width) {
            Some(var) if self.divisors == Divisors::Any && self.rng.chance(1, 3) => {
                Operand::Var(var)
            }
            _ => {
                let short = width == 4;
                let value = if short && self.rng.flag() { value & SHORT_HIGH } else { value };
                Operand::Int { value, short, unsigned: self.rng.flag() }
            }
        }
    }

    fn not_zero(&mut self, width: i64) -> Operand {
        loop {
            match self.constant(width, i64::MIN, i64::MAX) {
                Operand::Int { value: 0, .. } | Operand::Null | Operand::Bool(false) => continue,
                other => return other,
            }
        }
    }

    fn comparison(&mut self) -> Option<Instr> {
        let dest = self.bool_dest()?;
        let width = self.rng.pick(&[1, 4, 8]);
        let op = self.rng.between(binary::EQ as usize, binary::GE as usize) as i64;
        let left = self.any_operand(width);
        let right = if self.rng.chance(1, 8) { left } else { self.any_operand(width) };
        Some(Instr::Binary { op, dest, left, right })
    }

    fn cast(&mut self) -> Option<Instr> {
        if self.rng.chance(1, 3) {
            return self.page_number();
        }
        let dest = self.scalar_dest()?;
        let to = dest.ty.size()?;
        let wide = matches!(dest.ty.code, LONG | UNSIGNED_LONG);
        let from = self.rng.pick(&[1, 4, 8]);
        let from = if from == 4 && to == 8 && !wide { 1 } else { from };
        let src = if to < from {
            self.operand(from, SHORT_LOW, SHORT_HIGH)
        } else {
            self.any_operand(from)
        };
        Some(Instr::Cast { dest, src })
    }

    /// An unsigned short to eight bytes; of constants those that are negative as signed ones.
    fn page_number(&mut self) -> Option<Instr> {
        let is_long = |ty| [LONG, UNSIGNED_LONG].map(Type::scalar).contains(&ty);
        let dest = self.dest(is_long)?;
        let src = match self.source_of(UNSIGNED_SHORT) {
            Some(var) if self.rng.chance(2, 3) => Operand::Var(var),
            _ => {
                let value = self.within(IMMEDIATE_HIGH + 1, SHORT_HIGH);
                Operand::Int { value, short: true, unsigned: true }
            }
        };
        Some(Instr::Cast { dest, src })
    }

    fn return_value(&mut self) {
        let width = self.rng.pick(&[1, 4, 8]);
        let value = self.any_operand(width);
        self.push(Instr::Return(value));
    }
}

/// Branches and loops.
impl Builder<'_> {
    fn block(&mut self, depth: usize) {
        let most = if depth == 0 { 14 } else { 5 };
        for _ in 0..self.rng.between(1, most) {
            match self.rng.below(if depth < 3 { 20 } else { 14 }) {
                0..14 => self.simple(),
                14..17 => self.branch(depth),
                17 | 18 => self.counted(depth),
                _ => self.early_return(),
            }
        }
    }

    /// JumpIfNot over a block, at times with another block instead.
    fn branch(&mut self, depth: usize) {
        let (cond, label) = (self.condition(), self.new_label());
        self.push(Instr::JumpIfNot { cond, label });
        self.block(depth + 1);
        if self.rng.flag() {
            self.push(Instr::Label(label));
            return;
        }
        let end = self.new_label();
        self.push(Instr::Jump(end));
        self.push(Instr::Label(label));
        self.block(depth + 1);
        self.push(Instr::Label(end));
    }

    fn early_return(&mut self) {
        let (cond, label) = (self.condition(), self.new_label());
        self.push(Instr::JumpIfNot { cond, label });
        self.return_value();
        self.push(Instr::Label(label));
    }

    /// A loop with a counter of its own.
    fn counted(&mut self, depth: usize) {
        let (Some(counter), Some(_)) = (self.scalar_dest(), self.bool_dest()) else {
            return self.simple();
        };
        self.locked.push(counter.id as usize);
        if let Some(flag) = self.bool_dest() {
            self.start_counter(counter);
            if self.rng.flag() {
                self.while_loop(counter, flag, depth);
            } else {
                self.until_loop(counter, flag, depth);
            }
        }
        self.locked.pop();
    }

    fn start_counter(&mut self, counter: Variable) {
        let value = self.rng.between(1, 6) as i64;
        let short = counter.ty.size() == Some(4);
        let src = Operand::Int { value, short, unsigned: self.rng.flag() };
        self.push(if counter.ty.size() == Some(1) {
            Instr::Cast { dest: counter, src }
        } else {
            Instr::Copy { dest: counter, src }
        });
    }

    fn small(&self, counter: Variable, value: bool) -> Operand {
        match counter.ty.size() {
            Some(1) => Operand::Bool(value),
            size => Operand::Int { value: value.into(), short: size == Some(4), unsigned: false },
        }
    }

    fn while_loop(&mut self, counter: Variable, flag: Variable, depth: usize) {
        let (head, end) = (self.new_label(), self.new_label());
        let op = self.rng.pick(&[binary::GT, binary::NOT_EQ]);
        let (left, right) = (Operand::Var(counter), self.small(counter, false));
        self.push(Instr::Label(head));
        self.push(Instr::Binary { op, dest: flag, left, right });
        self.push(Instr::JumpIfNot { cond: Operand::Var(flag), label: end });
        self.block(depth + 1);
        self.count_down(counter);
        self.push(Instr::Jump(head));
        self.push(Instr::Label(end));
    }

    fn until_loop(&mut self, counter: Variable, flag: Variable, depth: usize) {
        let head = self.new_label();
        let op = self.rng.pick(&[binary::LE, binary::EQ]);
        let (left, right) = (Operand::Var(counter), self.small(counter, false));
        self.push(Instr::Label(head));
        self.block(depth + 1);
        self.count_down(counter);
        self.push(Instr::Binary { op, dest: flag, left, right });
        self.push(Instr::JumpIfNot { cond: Operand::Var(flag), label: head });
    }

    fn count_down(&mut self, counter: Variable) {
        let (left, right) = (Operand::Var(counter), self.small(counter, true));
        self.push(Instr::Binary { op: binary::SUB, dest: counter, left, right });
    }

    /// Jumps anywhere; it may not end.
    fn unstructured(&mut self) {
        let length = self.rng.between(2, 30);
        self.sheet.labels = self.rng.between(1, 6) as i64;
        for _ in 0..length {
            let label = self.rng.below(self.sheet.labels as usize) as i64;
            match self.rng.below(10) {
                0 => self.push(Instr::Jump(label)),
                1 | 2 => {
                    let cond = self.condition();
                    self.push(Instr::JumpIfNot { cond, label });
                }
                3 if self.rng.chance(1, 4) => self.return_value(),
                _ => self.simple(),
            }
        }
        for label in 0..self.sheet.labels {
            let at = self.rng.below(self.sheet.body.len() + 1);
            self.sheet.body.insert(at, Instr::Label(label));
        }
    }

    fn ending(&mut self) {
        match self.rng.below(8) {
            0 | 1 => {}
            2 => {
                self.return_value();
                self.push(Instr::Comment);
            }
            3 => {
                let label = self.new_label();
                self.return_value();
                self.push(Instr::Label(label));
            }
            _ => self.return_value(),
        }
    }
}
