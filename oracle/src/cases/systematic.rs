//! Every kind of instruction with every operand, operation and type of dest.
//! Instructions that lower are put together; refused ones stand alone.

use std::collections::HashSet;

use super::Draft;
use crate::lower::lower;
use crate::sheet::*;

/// Instructions in one function.
const GROUP: usize = 16;

pub fn drafts() -> Vec<Draft> {
    let mut all = grouped(&base(), &instrs());
    for return_type in return_types() {
        let mut draft = base();
        draft.sheet.return_type = return_type;
        let returns: Vec<Instr> = operands().into_iter().map(Instr::Return).collect();
        all.extend(grouped(&draft, &returns));
    }
    all.extend(parameters());
    all
}

/// Arrays of the variable list; the scalars of codes 1 to 10 stand before them.
const ARRAYS: [(i64, i64); 16] = [
    (BYTE, 0),
    (BYTE, 1),
    (BYTE, 2),
    (BYTE, 3),
    (CHAR, 4),
    (BOOL, 8),
    (SHORT, 0),
    (SHORT, 1),
    (SHORT, 2),
    (LONG, 1),
    (UNSIGNED_LONG, 2),
    (FLOAT, 1),
    (SHORT_FLOAT, 1),
    (SHORT_FLOAT, 2),
    (ADDRESS, 1),
    (UNSIGNED_SHORT, 3),
];

fn base() -> Draft {
    let scalars = (LONG..=ADDRESS).map(Type::scalar);
    let arrays = ARRAYS.iter().map(|(code, count)| Type::array(*code, *count));
    let tables = Tables { strings: 2, floats: vec![false, true] };
    let variables = scalars.chain(arrays).collect();
    Draft { tables, sheet: Sheet { variables, labels: 2, ..Sheet::default() } }
}

/// The scalar variable of a code, 1 to 10.
fn var(code: i64) -> Variable {
    Variable { id: code - 1, ty: Type::scalar(code) }
}

fn listed() -> Vec<Variable> {
    let sheet = base().sheet;
    (0..sheet.variables.len()).map(|id| sheet.variable(id)).collect()
}

/// Types that are not their entry, and ids without one.
fn unlisted() -> Vec<Variable> {
    let own = |code, count| Variable { id: 0, ty: Type { code, count } };
    let mut odd =
        vec![own(CUSTOM, -1), own(NULL, -1), own(CUSTOM, 0), own(CUSTOM, 2), own(NULL, 1)];
    odd.push(own(BYTE, -1));
    odd.push(Variable { id: 2, ty: Type::scalar(LONG) });
    for code in [LONG, BYTE, SHORT_FLOAT, CUSTOM] {
        odd.push(Variable { id: 26, ty: Type::scalar(code) });
    }
    odd.push(Variable { id: i64::MAX, ty: Type::array(BYTE, 3) });
    odd
}

fn dests() -> Vec<Variable> {
    [listed(), unlisted()].concat()
}

fn int(value: i64, short: bool, unsigned: bool) -> Operand {
    Operand::Int { value, short, unsigned }
}

fn constants() -> Vec<Operand> {
    vec![
        int(i64::MIN, false, false),
        int(7, false, true),
        int(-5, true, false),
        int((1 << 32) - 1, true, true),
        Operand::Float(0),
        Operand::Float(1),
        Operand::Float(2),
        Operand::Bool(false),
        Operand::Bool(true),
        Operand::Address(var(LONG)),
        Operand::DataAddress(1),
        Operand::DataAddress(2),
        Operand::Null,
    ]
}

/// Every operand kind, and variables of each width.
fn operands() -> Vec<Operand> {
    let scalars = [LONG, UNSIGNED_LONG, SHORT, CHAR, FLOAT, SHORT_FLOAT].map(var);
    let arrays = [10, 12, 13, 21].map(|id| listed()[id]);
    let odd = [0, 1, 7].map(|at| unlisted()[at]);
    let vars = scalars.into_iter().chain(arrays).chain(odd).map(Operand::Var);
    vars.chain(constants()).collect()
}

/// Every variable and every constant.
fn all_operands() -> Vec<Operand> {
    dests().into_iter().map(Operand::Var).chain(constants()).collect()
}

fn instrs() -> Vec<Instr> {
    let casts = [casts(), widening()].concat();
    [copies(), unaries(), binaries(), comparisons(), casts, calls(), others()].concat()
}

/// Dests that meet every operand.
fn chosen() -> [Variable; 6] {
    [LONG, UNSIGNED_SHORT, BYTE, FLOAT, SHORT_FLOAT, BOOL].map(var)
}

fn copies() -> Vec<Instr> {
    let mut all = Vec::new();
    for dest in dests() {
        for src in operands() {
            all.push(Instr::Copy { dest, src });
        }
    }
    all
}

fn unaries() -> Vec<Instr> {
    let mut all = Vec::new();
    for op in unary::NEG..=unary::NOT {
        for dest in dests() {
            all.push(Instr::Unary { op, dest, src: Operand::Var(dest) });
        }
        for dest in chosen() {
            for src in operands() {
                all.push(Instr::Unary { op, dest, src });
            }
        }
    }
    all
}

fn binaries() -> Vec<Instr> {
    let mut all = Vec::new();
    for op in binary::OR..=binary::REM {
        for dest in dests() {
            let same = Operand::Var(dest);
            all.push(Instr::Binary { op, dest, left: same, right: same });
        }
        // a bad operation on a float comes before any look-up
        let missing = Operand::Float(2);
        all.push(Instr::Binary { op, dest: var(FLOAT), left: missing, right: missing });
        let met = |dest: &Variable| dest.ty.code == LONG || has_lowering(op, dest.ty);
        for dest in chosen().into_iter().filter(met) {
            let same = Operand::Var(dest);
            for other in operands() {
                all.push(Instr::Binary { op, dest, left: same, right: other });
                all.push(Instr::Binary { op, dest, left: other, right: same });
            }
        }
    }
    all
}

/// The logical pair is never lowered, and a float dest has four operations.
fn has_lowering(op: i64, dest: Type) -> bool {
    use binary::{ADD, AND, DIV, MUL, OR, SUB};
    let is_float = matches!(dest.code, FLOAT | SHORT_FLOAT);
    !matches!(op, OR | AND) && (!is_float || matches!(op, ADD | SUB | MUL | DIV))
}

/// A comparison goes by its left, not by its dest.
fn comparisons() -> Vec<Instr> {
    let mut all = Vec::new();
    for op in binary::EQ..=binary::GE {
        for left in all_operands() {
            all.push(Instr::Binary { op, dest: var(BOOL), left, right: left });
        }
        for dest in dests() {
            let (left, right) = (Operand::Var(var(LONG)), Operand::Var(var(LONG)));
            all.push(Instr::Binary { op, dest, left, right });
        }
    }
    all
}

fn casts() -> Vec<Instr> {
    let mut all = Vec::new();
    for dest in dests() {
        for src in all_operands() {
            all.push(Instr::Cast { dest, src });
        }
    }
    all
}

/// Four bytes to every dest: unsigned shorts that are negative as signed ones, and what is none, signed ones and arrays.
fn widening() -> Vec<Instr> {
    let constants = [1 << 31, (1 << 32) - 1, -1].into_iter();
    let constants = constants.flat_map(|value| [true, false].map(|flag| int(value, true, flag)));
    let arrays = [(UNSIGNED_SHORT, 1), (SHORT, 1), (BYTE, 4)];
    let arrays = arrays.map(|(code, count)| Variable { id: 3, ty: Type::array(code, count) });
    let sources: Vec<Operand> = constants.chain(arrays.map(Operand::Var)).collect();
    let to = |dest: Variable| sources.iter().map(move |src| Instr::Cast { dest, src: *src });
    dests().into_iter().flat_map(to).collect()
}

fn calls() -> Vec<Instr> {
    let call = |dest, args| Instr::Call { dest, symbol: 3, args };
    let mut all = vec![call(None, vec![])];
    all.extend(dests().into_iter().map(|dest| call(Some(dest), vec![])));
    all.extend(all_operands().into_iter().map(|arg| call(None, vec![arg])));
    let (plain, float) = (Operand::Null, Operand::Float(0));
    for last in operands() {
        all.push(call(None, [vec![plain; 6], vec![last]].concat()));
        all.push(call(None, [vec![float; 8], vec![last]].concat()));
    }
    for (plains, floats) in [(5, 8), (6, 7), (6, 8), (7, 8), (6, 9), (7, 9)] {
        all.push(call(None, [vec![plain; plains], vec![float; floats]].concat()));
        all.push(call(None, [vec![float; floats], vec![plain; plains]].concat()));
    }
    all
}

fn others() -> Vec<Instr> {
    let mut all: Vec<Instr> = dests().into_iter().map(Instr::Zero).collect();
    for label in [0, 1, 2, i64::MAX] {
        all.extend([Instr::Label(label), Instr::Jump(label)]);
    }
    for cond in all_operands() {
        all.push(Instr::JumpIfNot { cond, label: 1 });
        all.push(Instr::JumpIfNot { cond, label: 2 });
    }
    all.push(Instr::Comment);
    all
}

fn return_types() -> Vec<Option<Type>> {
    let scalars = (LONG..=NULL).map(Type::scalar);
    let arrays = [Type::array(FLOAT, 1), Type::array(SHORT_FLOAT, 0), Type::array(CUSTOM, 3)];
    std::iter::once(None).chain(scalars.chain(arrays).map(Some)).collect()
}

/// Each variable as the only parameter, and before others.
fn parameters() -> Vec<Draft> {
    let mut all = Vec::new();
    for var in dests() {
        for parameters in [vec![var], vec![listed()[4], var, listed()[0]]] {
            let mut draft = base();
            draft.sheet.parameters = parameters;
            all.push(draft);
        }
    }
    all
}

/// Functions of instructions that lower, and one for each refused instruction that shows
/// something new.
fn grouped(base: &Draft, instrs: &[Instr]) -> Vec<Draft> {
    let with = |body: Vec<Instr>| {
        let mut draft = base.clone();
        draft.sheet.body = body;
        draft
    };
    let (mut all, mut group, mut seen) = (Vec::new(), Vec::new(), HashSet::new());
    for (number, instr) in instrs.iter().enumerate() {
        let draft = with(vec![instr.clone()]);
        match lower(&draft.tables, &draft.sheet) {
            Ok(_) => group.push(instr.clone()),
            Err(refusal) => {
                if is_new(&mut seen, instr, refusal.number) {
                    let mut body = vec![Instr::Comment; number % 3];
                    body.push(instr.clone());
                    all.push(with(body));
                }
            }
        }
        if group.len() == GROUP {
            all.push(with(std::mem::take(&mut group)));
        }
    }
    all.push(with(group));
    all
}

/// Whether the refusal is the first with this dest, or the first with these operands.
fn is_new(seen: &mut HashSet<String>, instr: &Instr, number: u64) -> bool {
    let key = match instr {
        Instr::Copy { dest, src } => [format!("c {dest:?}"), format!("c {src:?}")],
        Instr::Unary { op, dest, src } => [format!("u {op} {dest:?}"), format!("u {op} {src:?}")],
        Instr::Binary { op, dest, left, right } => {
            let sides = operand_kinds(*left, *right);
            [format!("b {op} {dest:?}"), format!("b {op} {sides}")]
        }
        Instr::Cast { dest, src } => [format!("t {dest:?}"), format!("t {src:?}")],
        other => [format!("{other:?}"), String::new()],
    };
    let fresh: Vec<bool> = key.iter().map(|key| seen.insert(format!("{number} {key}"))).collect();
    fresh.contains(&true)
}

/// The side that is no listed scalar tells operands apart.
fn operand_kinds(left: Operand, right: Operand) -> String {
    let plain = |operand: Operand| match operand {
        Operand::Var(var) => var.id < 10 && var.ty == Type::scalar(var.id + 1),
        _ => false,
    };
    match (plain(left), plain(right)) {
        (true, true) => "scalars".to_string(),
        (true, false) => format!("right {right:?}"),
        _ => format!("left {left:?}"),
    }
}
