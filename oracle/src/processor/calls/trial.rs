//! Functions that call, their entry, and what the callees are to find.

use std::fmt::Write;

use super::signature::{Given, Kind, Signature};
use crate::cases::any;
use crate::processor::trial::{
    FLAGS, LINK, Lowering, MARGIN, PARAMETERS, flags, frame, slots, stacked,
};
use crate::rng::Rng;
use crate::sheet::*;
use krc::record::Record;

/// XMM0 to XMM7.
const FLOATS: usize = 8;
const STRINGS: i64 = 3;

/// The callees of a batch: each signature has a symbol for each compiler.
pub struct Callees {
    pub signatures: Vec<Signature>,
    pub compilers: usize,
}

/// A constant of the tables.
#[derive(Clone, Copy)]
struct Float {
    short: bool,
    bits: u64,
}

pub struct Trial {
    pub sheet: Sheet,
    pub list: Vec<Record>,
    /// Strings and floats in the assembler's text.
    pub data: String,
    pub registers: [u64; 17],
    pub floats: [u64; 8],
    pub shift: u64,
    pub below: usize,
    pub region: Vec<u8>,
    pub script: Vec<u64>,
    /// The bytes of each variable at the end.
    pub variables: Vec<Vec<u8>>,
    /// The value returned, and its width.
    pub value: Option<(u64, usize)>,
}

/// The bytes of a string: eight, by its number in the batch.
fn string_bytes(function: usize, index: i64) -> [u8; 8] {
    let text = format!("{function:06}.{index}");
    text.into_bytes().try_into().expect("eight bytes")
}

/// A function with some calls; the script's words grow with them.
pub fn draw(rng: &mut Rng, function: usize, callees: &Callees, lowering: Lowering) -> Trial {
    let constants: Vec<Float> = (0..rng.between(2, 5)).map(|at| float(rng, at)).collect();
    let mut builder = Builder { sheet: head(rng), function, constants, rng };
    let mut trial = builder.entry();
    for _ in 0..builder.rng.between(1, 6) {
        let symbol = builder.rng.below(callees.signatures.len() * callees.compilers);
        let signature = &callees.signatures[symbol % callees.signatures.len()];
        builder.call(symbol, signature, &mut trial);
    }
    if builder.rng.flag() {
        builder.give_back(&mut trial);
    }
    let Builder { sheet, constants, .. } = builder;
    let floats = constants.iter().map(|float| float.short).collect();
    trial.list = lowering(&Tables { strings: STRINGS, floats }, &sheet);
    trial.data = data(function, &constants);
    trial.sheet = sheet;
    trial
}

fn float(rng: &mut Rng, at: usize) -> Float {
    // one of each at least
    let short = if at < 2 { at == 0 } else { rng.flag() };
    Float { short, bits: if short { rng.next() >> 32 } else { rng.next() } }
}

/// Behind a short float and behind a string stand bytes that nothing may read.
fn data(function: usize, floats: &[Float]) -> String {
    let mut text = String::new();
    for index in 0..STRINGS {
        let bytes = string_bytes(function, index);
        let word = std::str::from_utf8(&bytes).expect("digits");
        writeln!(text, "string_{function}_{index}: .asciz \"{word}\"").expect("text grows");
    }
    for (index, Float { short, bits }) in floats.iter().enumerate() {
        let cell = if *short { ".long 0x5a5a5a5a" } else { "" };
        let size = if *short { ".long" } else { ".quad" };
        writeln!(text, "float_{function}_{index}: {size} {bits}\n{cell}").expect("text grows");
    }
    text
}

/// One or more variables of each type, some arrays, in any order; up to 40 parameters.
fn head(rng: &mut Rng) -> Sheet {
    let mut variables: Vec<Type> = (LONG..=ADDRESS).map(Type::scalar).collect();
    variables.extend([(BYTE, 2), (LONG, 2), (CHAR, 9), (FLOAT, 1)].map(|(c, n)| Type::array(c, n)));
    let more = rng.between(4, 40);
    variables.extend((0..more).map(|_| Type::scalar(rng.between(1, 10) as i64)));
    rng.shuffle(&mut variables);
    let mut sheet = Sheet { variables, ..Sheet::default() };
    let mut ids: Vec<usize> = (0..sheet.variables.len()).collect();
    ids.retain(|id| sheet.variables[*id].size().is_some_and(|size| [1, 2, 4, 8].contains(&size)));
    rng.shuffle(&mut ids);
    ids.truncate(rng.pick(&[0, 4, 9, 20, 40]));
    sheet.parameters = ids.into_iter().map(|id| sheet.variable(id)).collect();
    sheet
}

fn number(bytes: &[u8]) -> u64 {
    let mut cell = [0; 8];
    let width = bytes.len().min(8);
    cell[..width].copy_from_slice(&bytes[..width]);
    u64::from_le_bytes(cell)
}

struct Builder<'a> {
    rng: &'a mut Rng,
    sheet: Sheet,
    function: usize,
    constants: Vec<Float>,
}

impl Builder<'_> {
    /// Random registers and bytes, each parameter where the ABI has it; without a list yet.
    fn entry(&mut self) -> Trial {
        let Self { rng, sheet, .. } = self;
        let below = frame(sheet) + MARGIN;
        let mut region = vec![0; below + LINK + MARGIN];
        rng.fill(&mut region);
        let mut registers = [0; 17].map(|_: u64| rng.next());
        let mut floats = [0; 8].map(|_: u64| rng.next());
        registers[FLAGS] = flags(rng);
        let mut variables: Vec<Vec<u8>> =
            slots(sheet, below).into_iter().map(|slot| region[slot].to_vec()).collect();
        let (mut general, mut float, mut excess) = (0, 0, 0);
        for parameter in &sheet.parameters {
            let cell = rng.next();
            let bytes = &mut variables[parameter.id as usize];
            let width = bytes.len();
            bytes.copy_from_slice(&cell.to_le_bytes()[..width]);
            if parameter.ty.is_float() && float < FLOATS {
                floats[float] = cell;
                float += 1;
            } else if !parameter.ty.is_float() && general < PARAMETERS.len() {
                registers[PARAMETERS[general]] = cell;
                general += 1;
            } else {
                region[stacked(below, excess)].copy_from_slice(&cell.to_le_bytes());
                excess += 1;
            }
        }
        Trial {
            sheet: Sheet::default(),
            list: Vec::new(),
            data: String::new(),
            registers,
            floats,
            shift: 16 * rng.below(256) as u64,
            below,
            region,
            script: Vec::new(),
            variables,
            value: None,
        }
    }

    /// A variable whose type is one of these.
    fn variable(&mut self, types: &[Type]) -> Variable {
        let ids: Vec<usize> = (0..self.sheet.variables.len())
            .filter(|id| types.contains(&self.sheet.variables[*id]))
            .collect();
        self.sheet.variable(self.rng.pick(&ids))
    }

    fn scalar(&mut self, codes: &[i64]) -> Variable {
        let types: Vec<Type> = codes.iter().map(|code| Type::scalar(*code)).collect();
        self.variable(&types)
    }

    /// A float constant that is short or not.
    fn constant(&mut self, short: bool) -> Operand {
        let ids: Vec<usize> =
            (0..self.constants.len()).filter(|id| self.constants[*id].short == short).collect();
        Operand::Float(self.rng.pick(&ids) as i64)
    }

    fn int(&mut self, short: bool) -> Operand {
        let value = any::value(self.rng);
        let value = if short { value % (1 << 31) } else { value };
        Operand::Int { value, short, unsigned: self.rng.flag() }
    }

    fn operand(&mut self, kind: Kind) -> Operand {
        let is_constant = self.rng.chance(1, 3);
        match kind {
            Kind::Text => Operand::DataAddress(self.rng.below(STRINGS as usize) as i64),
            Kind::Whole if is_constant && self.rng.chance(1, 4) => Operand::Null,
            Kind::Whole if is_constant => self.int(false),
            Kind::Short if is_constant => self.int(true),
            Kind::Byte if is_constant => Operand::Bool(self.rng.flag()),
            Kind::Real if is_constant => self.constant(false),
            Kind::ShortReal if is_constant => self.constant(true),
            Kind::Whole if self.rng.chance(1, 8) => {
                let arrays = [Type::array(LONG, 2), Type::array(CHAR, 9), Type::array(FLOAT, 1)];
                Operand::Var(self.variable(&arrays))
            }
            Kind::Whole => Operand::Var(self.scalar(&[LONG, UNSIGNED_LONG, ADDRESS])),
            Kind::Short => Operand::Var(self.scalar(&[SHORT, UNSIGNED_SHORT])),
            Kind::Byte => Operand::Var(self.scalar(&[BOOL, CHAR, BYTE])),
            Kind::Real => Operand::Var(self.scalar(&[FLOAT])),
            Kind::ShortReal => Operand::Var(self.scalar(&[SHORT_FLOAT])),
        }
    }

    /// What a callee finds of an operand: its bytes, zeros above them; of a string its text.
    fn value(&self, operand: Operand, variables: &[Vec<u8>]) -> u64 {
        match operand {
            Operand::Var(var) => number(&variables[var.id as usize]),
            Operand::Int { value, short: true, .. } => u64::from(value as u32),
            Operand::Int { value, .. } => value as u64,
            Operand::Float(index) => self.constants[index as usize].bits,
            Operand::Bool(value) => u64::from(value),
            Operand::DataAddress(index) => number(&string_bytes(self.function, index)),
            Operand::Null => 0,
            Operand::Address(_) => unreachable!("an address does not lower"),
        }
    }

    fn dest(&mut self, given: Given) -> Variable {
        match given {
            Given::Number(1) => self.scalar(&[BOOL, CHAR, BYTE]),
            Given::Number(2) => self.variable(&[Type::array(BYTE, 2)]),
            Given::Number(4) => self.scalar(&[SHORT, UNSIGNED_SHORT]),
            Given::Number(_) => self.scalar(&[LONG, UNSIGNED_LONG, ADDRESS]),
            Given::Real => self.scalar(&[FLOAT]),
            Given::ShortReal => self.scalar(&[SHORT_FLOAT]),
        }
    }

    /// A call of a signature, its part of the script, and what it does to dest.
    fn call(&mut self, symbol: usize, signature: &Signature, trial: &mut Trial) {
        let args: Vec<Operand> =
            signature.arguments.iter().map(|kind| self.operand(*kind)).collect();
        let values: Vec<u64> = args.iter().map(|arg| self.value(*arg, &trial.variables)).collect();
        let excess = beyond_registers(&signature.arguments);
        let area = (8 * excess.len()).next_multiple_of(16);
        let is_text = |at: usize| signature.arguments[at] == Kind::Text;
        let texts = (0..).zip(&excess).filter(|(_, at)| is_text(**at)).map(|(j, _)| 1u64 << j);
        let counts = [args.len() as u64, excess.len() as u64, texts.sum()];
        trial.script.extend([symbol as u64, (frame(&self.sheet) + area) as u64]);
        trial.script.extend(counts);
        trial.script.extend(excess.iter().map(|at| values[*at]));
        trial.script.extend(&values);
        let result = self.rng.next();
        trial.script.push(result);
        let dest = self.rng.chance(4, 5).then(|| self.dest(signature.given));
        if let Some(dest) = dest {
            let bytes = &mut trial.variables[dest.id as usize];
            let width = bytes.len();
            bytes.copy_from_slice(&result.to_le_bytes()[..width]);
        }
        self.sheet.body.push(Instr::Call { dest, symbol: symbol as i64, args });
    }

    fn give_back(&mut self, trial: &mut Trial) {
        let var = self.scalar(&[LONG, SHORT, BYTE, UNSIGNED_LONG]);
        let bytes = &trial.variables[var.id as usize];
        trial.value = Some((number(bytes), bytes.len()));
        self.sheet.body.push(Instr::Return(Operand::Var(var)));
    }
}

/// The arguments that find no register of their class, in list order.
pub fn beyond_registers(kinds: &[Kind]) -> Vec<usize> {
    let (mut general, mut floats) = (0, 0);
    let beyond = |kind: &Kind| {
        let (taken, most) =
            if kind.is_float() { (&mut floats, FLOATS) } else { (&mut general, PARAMETERS.len()) };
        *taken += 1;
        *taken > most
    };
    let found: Vec<bool> = kinds.iter().map(beyond).collect();
    (0..kinds.len()).filter(|at| found[*at]).collect()
}
