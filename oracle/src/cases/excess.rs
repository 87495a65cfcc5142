//! Arguments and parameters beyond the registers (M-112): every kind, class and order, and what is refused among them.

use super::{Draft, any};
use crate::rng::Rng;
use crate::sheet::*;

/// Registers of the general class and of the floats'.
const GENERAL: usize = 6;
const FLOATS: usize = 8;

pub fn drafts() -> Vec<Draft> {
    let mut all = calls();
    all.extend(calls_in_one());
    all.extend(refused_calls());
    all.extend(parameters());
    all.extend(plain_heads());
    all
}

// ---- what stands in all of them

/// Scalars of codes 1 to 10, then arrays of each width.
const ARRAYS: [(i64, i64); 8] = [
    (BYTE, 0),
    (BYTE, 1),
    (BYTE, 2),
    (BYTE, 3),
    (CHAR, 4),
    (LONG, 1),
    (FLOAT, 1),
    (SHORT_FLOAT, 2),
];

fn base(parameters: Vec<Variable>, body: Vec<Instr>) -> Draft {
    let scalars = (LONG..=ADDRESS).map(Type::scalar);
    let arrays = ARRAYS.iter().map(|(code, count)| Type::array(*code, *count));
    let tables = Tables { strings: 1, floats: vec![false, true] };
    let variables = scalars.chain(arrays).collect();
    Draft { tables, sheet: Sheet { variables, parameters, body, ..Sheet::default() } }
}

/// The scalar of a code.
fn var(code: i64) -> Variable {
    Variable { id: code - 1, ty: Type::scalar(code) }
}

/// Every variable with its own entry.
fn listed() -> Vec<Variable> {
    let sheet = base(vec![], vec![]).sheet;
    (0..sheet.variables.len()).map(|id| sheet.variable(id)).collect()
}

/// Own types that are not the entry, and ids without one.
fn unlisted() -> Vec<Variable> {
    let own = |id, code, count| Variable { id, ty: Type { code, count } };
    vec![
        own(0, CUSTOM, -1),
        own(0, NULL, 2),
        own(0, FLOAT, -1),
        own(2, BYTE, -1),
        own(18, LONG, -1),
        own(18, FLOAT, -1),
        own(18, CUSTOM, -1),
        own(i64::MAX, BYTE, 3),
    ]
}

fn constants() -> Vec<Operand> {
    let int = |value, short, unsigned| Operand::Int { value, short, unsigned };
    vec![
        int(i64::MIN, false, false),
        int(7, false, true),
        int(-5, true, false),
        int((1 << 32) - 1, true, true),
        Operand::Float(0),
        Operand::Float(1),
        Operand::Float(2),
        Operand::Bool(false),
        Operand::Bool(true),
        Operand::Address(var(LONG)),
        Operand::DataAddress(0),
        Operand::DataAddress(1),
        Operand::Null,
    ]
}

fn operands() -> Vec<Operand> {
    let vars = [listed(), unlisted()].concat().into_iter().map(Operand::Var);
    vars.chain(constants()).collect()
}

/// Arguments that spend all registers of both classes.
fn registers() -> Vec<Operand> {
    [vec![Operand::Null; GENERAL], vec![Operand::Var(var(FLOAT)); FLOATS]].concat()
}

fn call(dest: Option<Variable>, args: Vec<Operand>) -> Instr {
    Instr::Call { dest, symbol: 3, args }
}

// ---- calls

/// Each operand as the only argument beyond the registers, then before and behind another one.
fn calls() -> Vec<Draft> {
    let other = Operand::Var(var(BYTE));
    let mut all = Vec::new();
    for operand in operands() {
        let args = [vec![operand], vec![operand, other], vec![other, operand, other]];
        let body = args.map(|excess| call(None, [registers(), excess].concat()));
        all.push(base(vec![], body.to_vec()));
    }
    all
}

/// Several calls in one body: numbers of arguments, classes in every order, with and without dest.
fn calls_in_one() -> Vec<Draft> {
    let (general, float) = (Operand::Var(var(SHORT)), Operand::Float(1));
    let mixed = |count: usize, period: usize| {
        let of = |k: usize| if k % period == 0 { float } else { general };
        (0..count).map(of).collect::<Vec<_>>()
    };
    let by_count = (5..=12).map(|count| call(None, vec![general; count])).collect();
    let by_class = (2..=6).map(|period| call(Some(var(FLOAT)), mixed(30, period))).collect();
    let by_dest = listed().into_iter().map(|dest| call(Some(dest), vec![float; 9]));
    let by_dest = by_dest.filter(|call| has_width(call)).collect();
    let full = vec![
        call(None, vec![general; 64]),
        Instr::Comment,
        call(Some(var(LONG)), vec![float; 64]),
        call(None, vec![]),
        call(None, mixed(64, 2)),
        Instr::Return(general),
    ];
    [by_count, by_class, by_dest, full].map(|body| base(vec![], body)).to_vec()
}

fn has_width(instr: &Instr) -> bool {
    let Instr::Call { dest: Some(dest), .. } = instr else { return true };
    dest.ty.size().is_some_and(|size| [1, 2, 4, 8].contains(&size))
}

/// What is refused beyond the registers, in registers and on dest, together; then on two calls.
fn refused_calls() -> Vec<Draft> {
    let address = Operand::Address(var(LONG));
    let lost = Operand::Var(Variable { id: 18, ty: Type::scalar(LONG) });
    let good = Operand::Bool(true);
    let dests = [None, Some(unlisted()[0]), Some(var(SHORT)), Some(unlisted()[6])];
    let kept = [(good, good), (good, address), (address, good), (address, lost), (lost, address)];
    let excess = [[good, good], [good, address], [lost, address], [address, lost], [good, good]];
    let mut all = Vec::new();
    for (k, (first, last)) in kept.into_iter().enumerate() {
        for (j, excess) in excess.into_iter().enumerate() {
            let between = vec![Operand::Null; GENERAL - 2];
            let args = [vec![first], between, vec![last], excess.to_vec()].concat();
            let dest = dests[(k + j) % dests.len()];
            all.push(base(vec![], vec![Instr::Comment, call(dest, args)]));
        }
    }
    let with =
        |first, last| call(None, [vec![first], vec![Operand::Null; GENERAL], vec![last]].concat());
    for (a, b) in [(with(address, good), with(good, lost)), (with(good, lost), with(address, good))]
    {
        all.push(base(vec![], vec![with(good, good), a.clone(), b.clone()]));
        all.push(base(vec![], vec![with(good, good), Instr::Label(0), a, b]));
    }
    all
}

// ---- parameters

/// Each variable as the only parameter beyond the registers, then among others; refused ones in every order.
fn parameters() -> Vec<Draft> {
    let registers = [vec![var(LONG); GENERAL], vec![var(FLOAT); FLOATS]].concat();
    let with = |excess: Vec<Variable>| base([registers.clone(), excess].concat(), vec![]);
    let mut all = Vec::new();
    for param in [listed(), unlisted()].concat() {
        all.push(with(vec![param]));
        all.push(with(vec![var(BYTE), param, var(SHORT_FLOAT)]));
    }
    let odd = [unlisted()[0], unlisted()[4], unlisted()[6], unlisted()[7], listed()[13]];
    for first in odd {
        for second in odd {
            all.push(with(vec![first, second]));
        }
        // in a register, before and behind one beyond them
        all.push(base([vec![first], vec![var(LONG); GENERAL], vec![odd[2]]].concat(), vec![]));
        all.push(base(
            [vec![var(LONG); GENERAL], vec![odd[2]], vec![var(FLOAT), first]].concat(),
            vec![],
        ));
    }
    // a refusal before the body comes before one in it
    let broken = vec![Instr::Return(Operand::Address(var(LONG)))];
    all.push(base([registers.clone(), vec![odd[1]]].concat(), broken.clone()));
    all.push(base([registers.clone(), vec![var(BOOL)]].concat(), broken));
    all
}

/// Heads of plain functions with more than six parameters, and of functions that are not plain.
fn plain_heads() -> Vec<Draft> {
    let codes = [LONG, UNSIGNED_LONG, SHORT, UNSIGNED_SHORT, BOOL, CHAR, BYTE, ADDRESS];
    let head = |count: usize| {
        let variables = (0..count).map(|k| Type::scalar(codes[k % codes.len()])).collect();
        let mut sheet = Sheet { variables, ..Sheet::default() };
        sheet.parameters = (0..count).map(|id| sheet.variable(id)).collect();
        sheet.body = vec![Instr::Return(Operand::Var(sheet.variable(count - 1)))];
        sheet
    };
    let mut sheets: Vec<Sheet> = [6, 7, 8, 9, 15, 40].map(head).to_vec();
    for (at, param) in [
        (7, Variable { id: 0, ty: Type::scalar(LONG) }),
        (8, Variable { id: 8, ty: Type::scalar(UNSIGNED_LONG) }),
        (8, Variable { id: 9, ty: Type::scalar(LONG) }),
    ] {
        let mut sheet = head(9);
        sheet.parameters[at] = param;
        sheets.push(sheet);
    }
    for ty in
        [Type::array(BYTE, 1), Type::array(BYTE, 2), Type::array(BYTE, 3), Type::scalar(FLOAT)]
    {
        let mut sheet = head(9);
        sheet.variables[7] = ty;
        sheet.parameters[7] = sheet.variable(7);
        sheets.push(sheet);
    }
    sheets.into_iter().map(|sheet| Draft { tables: Tables::default(), sheet }).collect()
}

// ---- at random

/// Up to 256 parameters and calls of up to 64 arguments, at times with something that is refused.
pub fn draft(rng: &mut Rng) -> Draft {
    let mut draft = base(vec![], vec![]);
    let flaws = rng.pick(&[0, 0, 0, 1, 10]);
    let count = match rng.below(20) {
        0 => rng.between(100, 256),
        1..6 => rng.between(10, 40),
        6..12 => rng.between(4, 12),
        _ => 0,
    };
    draft.sheet.parameters = (0..count).map(|_| parameter(rng, flaws)).collect();
    let most_calls = if count > 40 { 2 } else { 4 };
    let calls = rng.between(usize::from(count == 0), most_calls);
    for _ in 0..calls {
        let most = rng.pick(&[12, 20, 64]);
        let floats = rng.below(11);
        let args = (0..rng.below(most + 1)).map(|_| argument(rng, flaws, floats)).collect();
        let instr = call(rng.flag().then(|| parameter(rng, flaws)), args);
        draft.sheet.body.push(instr);
        if rng.chance(1, 4) {
            let other = any::instr(rng, &draft);
            draft.sheet.body.push(other);
        }
    }
    draft
}

/// A variable with a width that lowers, but for `flaws` in 200.
fn parameter(rng: &mut Rng, flaws: usize) -> Variable {
    if rng.chance(flaws, 200) {
        return rng.pick(&[unlisted(), listed()].concat());
    }
    let sound: Vec<Variable> = listed()
        .into_iter()
        .filter(|var| var.ty.size().is_some_and(|size| [1, 2, 4, 8].contains(&size)))
        .collect();
    rng.pick(&sound)
}

/// An operand that lowers, but for `flaws` in 200; of ten, `floats` are floats.
fn argument(rng: &mut Rng, flaws: usize, floats: usize) -> Operand {
    if rng.chance(flaws, 200) {
        return rng.pick(&operands());
    }
    if rng.chance(floats, 10) {
        let (short, long) = (Operand::Var(var(SHORT_FLOAT)), Operand::Var(var(FLOAT)));
        return rng.pick(&[short, long, Operand::Float(0), Operand::Float(1)]);
    }
    let value = any::value(rng);
    let general = rng.pick(&listed());
    rng.pick(&[
        Operand::Var(general),
        Operand::Var(general),
        Operand::Int { value, short: value % 2 == 0, unsigned: value % 3 == 0 },
        Operand::Bool(value % 2 == 0),
        Operand::DataAddress(0),
        Operand::Null,
    ])
}
