//! Cases in a readable form.

use std::collections::BTreeMap;
use std::fmt::{self, Display, Formatter, Write};

use crate::calls::{Call, Export};
use crate::compact::Case;
use crate::lower::held;
use crate::read::{read_sheet, read_tables};
use crate::sheet::*;

/// How many cases have each answer.
pub fn summary(cases: &[Case]) -> String {
    let mut answers = BTreeMap::new();
    for case in cases {
        let number = case.result.as_ref().err().map_or(0, |refusal| refusal.number);
        *answers.entry(number).or_insert(0) += 1;
    }
    let count = |keep: fn(&Case) -> bool| cases.iter().filter(|case| keep(case)).count();
    let mut text = format!("{} cases\n", cases.len());
    for (number, cases) in answers {
        let word = if number == 0 { "accepted".to_string() } else { format!("refused {number}") };
        writeln!(text, "{word}: {cases}").expect("text grows");
    }
    let records: usize = cases.iter().flat_map(|case| &case.result).map(Vec::len).sum();
    writeln!(text, "records: {records}").expect("text grows");
    writeln!(text, "plain: {}", count(|case| case.faults.is_empty())).expect("text grows");
    writeln!(text, "torn: {}", count(|case| case.sheet.len() % 8 + case.tables.len() % 8 > 0))
        .expect("text grows");
    text
}

/// How many calls of each export have each answer.
pub fn calls_summary(calls: &[Call]) -> String {
    let mut answers = BTreeMap::new();
    for call in calls {
        *answers.entry((call.export as usize, call.answers[0])).or_insert(0) += 1;
    }
    let mut text = format!("{} calls\n", calls.len());
    for ((export, answer), count) in answers {
        writeln!(text, "{:?}, answer {answer}: {count}", Export::ALL[export]).expect("text grows");
    }
    text
}

/// One case, or, behind the cases, one call.
pub fn one(cases: &[Case], calls: &[Call], number: usize) -> Option<String> {
    let case = cases.get(number).map(Case::to_string);
    case.or_else(|| calls.get(number.checked_sub(cases.len())?).map(|call| format!("{call:#?}\n")))
}

/// The cases whose answer each rule alters, by their numbers from 0.
pub fn held_cases(cases: &[Case]) -> String {
    let mut numbers: BTreeMap<&str, Vec<String>> = BTreeMap::new();
    for (number, case) in cases.iter().enumerate() {
        for request in held(&case.tables, &case.sheet, case.out_len) {
            numbers.entry(request).or_default().push(number.to_string());
        }
    }
    let line = |(request, numbers): (&str, Vec<String>)| {
        format!("{request}, {} cases: {}\n", numbers.len(), numbers.join(" "))
    };
    numbers.into_iter().map(line).collect()
}

impl Display for Case {
    fn fmt(&self, f: &mut Formatter) -> fmt::Result {
        match read_tables(&self.tables) {
            Ok(tables) => {
                writeln!(f, "strings {}, floats short {:?}", tables.strings, tables.floats)?
            }
            Err(_) => writeln!(f, "tables {:?}", crate::cells::whole_cells(&self.tables))?,
        }
        match read_sheet(&self.sheet) {
            Ok(sheet) => write!(f, "{sheet}")?,
            Err(_) => writeln!(f, "sheet {:?}", crate::cells::whole_cells(&self.sheet))?,
        }
        writeln!(
            f,
            "bytes: tables {}, sheet {}, records {}",
            self.tables.len(),
            self.sheet.len(),
            self.out_len
        )?;
        match &self.result {
            Ok(records) => {
                writeln!(f, "ok {}", records.len())?;
                records.iter().try_for_each(|record| writeln!(f, "    {record:?}"))?;
            }
            Err(refusal) => writeln!(f, "refused {} {}", refusal.number, refusal.place)?,
        }
        writeln!(f, "at fault for the plain test: {:?}", self.faults)
    }
}

const TYPES: [&str; 13] = [
    "none", "long", "ulong", "short", "ushort", "float", "sfloat", "bool", "char", "byte",
    "address", "custom", "null",
];
const BINARY: [&str; 18] = [
    "or", "and", "|", "^", "&", "==", "!=", "<", "<=", ">", ">=", "<<", ">>", "+", "-", "*", "/",
    "%",
];
const UNARY: [&str; 3] = ["-", "~", "not "];

impl Display for Type {
    fn fmt(&self, f: &mut Formatter) -> fmt::Result {
        write!(f, "{}", TYPES[self.code as usize])?;
        if self.is_array() { write!(f, "[{}]", self.count) } else { Ok(()) }
    }
}

impl Display for Variable {
    fn fmt(&self, f: &mut Formatter) -> fmt::Result {
        write!(f, "v{}:{}", self.id, self.ty)
    }
}

impl Display for Operand {
    fn fmt(&self, f: &mut Formatter) -> fmt::Result {
        match self {
            Operand::Var(var) => write!(f, "{var}"),
            Operand::Int { value, short, unsigned } => {
                write!(
                    f,
                    "{value}{}{}",
                    if *unsigned { "u" } else { "" },
                    if *short { "s" } else { "l" }
                )
            }
            Operand::Float(index) => write!(f, "float {index}"),
            Operand::Bool(value) => write!(f, "{value}"),
            Operand::Address(var) => write!(f, "address of {var}"),
            Operand::DataAddress(index) => write!(f, "string {index}"),
            Operand::Null => write!(f, "null"),
        }
    }
}

impl Display for Instr {
    fn fmt(&self, f: &mut Formatter) -> fmt::Result {
        match self {
            Instr::Copy { dest, src } => write!(f, "{dest} = {src}"),
            Instr::Unary { op, dest, src } => write!(f, "{dest} = {}{src}", UNARY[*op as usize]),
            Instr::Binary { op, dest, left, right } => {
                write!(f, "{dest} = {left} {} {right}", BINARY[*op as usize])
            }
            Instr::Cast { dest, src } => write!(f, "{dest} = cast {src}"),
            Instr::Zero(dest) => write!(f, "zero {dest}"),
            Instr::Call { dest, symbol, args } => {
                if let Some(dest) = dest {
                    write!(f, "{dest} = ")?;
                }
                let args: Vec<String> = args.iter().map(Operand::to_string).collect();
                write!(f, "call s{symbol}({})", args.join(", "))
            }
            Instr::Label(label) => write!(f, "L{label}:"),
            Instr::Jump(label) => write!(f, "jump L{label}"),
            Instr::JumpIfNot { cond, label } => write!(f, "jump L{label} unless {cond}"),
            Instr::Return(value) => write!(f, "return {value}"),
            Instr::Comment => write!(f, "comment"),
        }
    }
}

impl Display for Sheet {
    fn fmt(&self, f: &mut Formatter) -> fmt::Result {
        let list = |types: &[Type]| types.iter().map(Type::to_string).collect::<Vec<_>>().join(" ");
        let parameters: Vec<String> = self.parameters.iter().map(Variable::to_string).collect();
        writeln!(f, "variables {}", list(&self.variables))?;
        writeln!(f, "parameters {}", parameters.join(" "))?;
        writeln!(f, "labels {}", self.labels)?;
        writeln!(f, "returns {}", self.return_type.unwrap_or(Type::scalar(0)))?;
        let mut numbered = (1..).zip(&self.body);
        numbered.try_for_each(|(number, instr): (usize, _)| writeln!(f, "{number:4}  {instr}"))
    }
}
