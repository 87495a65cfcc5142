//! One condition of plain functions at its edge or broken, all else plain.

use super::Draft;
use crate::sheet::*;

const SCALARS: [i64; 8] = [LONG, UNSIGNED_LONG, SHORT, UNSIGNED_SHORT, BOOL, CHAR, BYTE, ADDRESS];
/// Around the edges of every range for constants.
const EDGES: [i64; 8] = [
    i64::MIN,
    -(1 << 31) - 1,
    -(1 << 31),
    (1 << 31) - 1,
    1 << 31,
    (1 << 32) - 1,
    1 << 32,
    i64::MAX,
];
const ALL_OPS: std::ops::Range<i64> = 0..18;

pub fn drafts() -> Vec<Draft> {
    let instrs = [constants(), widths(), operations(), operands(), types(), divisions()].concat();
    let mut drafts: Vec<Draft> = instrs.into_iter().map(alone).collect();
    let bodies = [bodies(), mixed()].concat();
    drafts.extend(
        bodies.into_iter().map(|body| Draft { sheet: Sheet { body, ..base() }, ..tables() }),
    );
    drafts.extend(heads().into_iter().map(|sheet| Draft { sheet, ..tables() }));
    drafts.extend(page_numbers().into_iter().map(|sheet| Draft { sheet, ..Draft::default() }));
    drafts
}

/// Variables 0 to 7 are the plain scalars, 8 and 9 arrays.
fn base() -> Sheet {
    let mut variables: Vec<Type> = SCALARS.iter().map(|code| Type::scalar(*code)).collect();
    variables.extend([Type::array(BYTE, 4), Type::array(BOOL, 1)]);
    let mut sheet = Sheet { variables, labels: 2, ..Sheet::default() };
    sheet.parameters = vec![sheet.variable(0), sheet.variable(4)];
    sheet
}

fn tables() -> Draft {
    let tables = Tables { strings: 1, floats: vec![false, true] };
    Draft { tables, sheet: Sheet::default() }
}

fn alone(instr: Instr) -> Draft {
    let body = vec![Instr::Comment, instr, Instr::Label(0), Instr::Return(long(0))];
    Draft { sheet: Sheet { body, ..base() }, ..tables() }
}

/// The variable of a code, with its own entry.
fn var(code: i64) -> Variable {
    let id = SCALARS.iter().position(|other| *other == code).expect("a plain code");
    Variable { id: id as i64, ty: Type::scalar(code) }
}

fn read(code: i64) -> Operand {
    Operand::Var(var(code))
}

fn long(value: i64) -> Operand {
    Operand::Int { value, short: false, unsigned: false }
}

fn short(value: i64) -> Operand {
    Operand::Int { value, short: true, unsigned: false }
}

fn binary(op: i64, dest: i64, left: Operand, right: Operand) -> Instr {
    Instr::Binary { op, dest: var(dest), left, right }
}

fn constants() -> Vec<Instr> {
    use self::binary as make;
    use crate::sheet::binary::*;
    let mut all = Vec::new();
    for value in EDGES {
        let (long, short) = (long(value), short(value));
        for op in [ADD, SUB, BIT_OR, BIT_XOR, BIT_AND, MUL, SHL, LT] {
            let dest = if op == LT { BOOL } else { LONG };
            all.push(make(op, dest, read(LONG), long));
        }
        for op in [ADD, MUL, EQ] {
            let dest = if op == EQ { BOOL } else { UNSIGNED_SHORT };
            all.push(make(op, dest, read(SHORT), short));
            all.push(make(op, dest, short, read(SHORT)));
        }
        all.push(make(ADD, LONG, long, read(LONG)));
        all.push(Instr::Return(long));
        all.push(Instr::Return(short));
        all.push(Instr::Copy { dest: var(UNSIGNED_LONG), src: long });
        all.push(Instr::Copy { dest: var(SHORT), src: short });
        all.push(Instr::Unary { op: unary::NEG, dest: var(SHORT), src: short });
        for code in SCALARS {
            all.push(Instr::Cast { dest: var(code), src: long });
        }
        for code in [LONG, SHORT, CHAR] {
            all.push(Instr::Cast { dest: var(code), src: short });
        }
    }
    all
}

fn widths() -> Vec<Instr> {
    use crate::sheet::binary::{ADD, LE, SHR};
    let mut all = Vec::new();
    for dest in [LONG, UNSIGNED_SHORT, BYTE, ADDRESS] {
        for src in [LONG, SHORT, BOOL, ADDRESS] {
            all.push(Instr::Copy { dest: var(dest), src: read(src) });
            all.push(Instr::Unary { op: unary::NOT, dest: var(dest), src: read(src) });
            all.push(binary(ADD, dest, read(src), read(dest)));
            all.push(binary(ADD, dest, read(dest), read(src)));
            all.push(binary(SHR, dest, read(dest), read(src)));
            all.push(binary(LE, BOOL, read(dest), read(src)));
            all.push(Instr::Cast { dest: var(dest), src: read(src) });
        }
    }
    for dest in SCALARS {
        all.push(binary(LE, dest, read(LONG), read(LONG)));
        all.push(Instr::Cast { dest: var(dest), src: read(UNSIGNED_SHORT) });
        all.push(Instr::Cast { dest: var(dest), src: Operand::Bool(true) });
        all.push(Instr::Cast { dest: var(dest), src: Operand::Null });
    }
    all
}

/// Every operation on every scalar.
fn operations() -> Vec<Instr> {
    let each = |op| SCALARS.map(|code| binary(op, code, read(code), read(code)));
    let unary = |op| SCALARS.map(|code| Instr::Unary { op, dest: var(code), src: read(code) });
    ALL_OPS.flat_map(each).chain((0..3).flat_map(unary)).collect()
}

fn operands() -> Vec<Instr> {
    use crate::sheet::binary::{ADD, EQ};
    let mut all = vec![Instr::Call { dest: None, symbol: 0, args: vec![] }];
    let odd = [
        Operand::Float(0),
        Operand::Float(1),
        Operand::Address(var(LONG)),
        Operand::DataAddress(0),
        Operand::Null,
        Operand::Bool(true),
        Operand::Var(Variable { id: 8, ty: Type::array(BYTE, 4) }),
        Operand::Var(Variable { id: 9, ty: Type::array(BOOL, 1) }),
        Operand::Var(Variable { id: 10, ty: Type::scalar(LONG) }),
        Operand::Var(Variable { id: 0, ty: Type::scalar(UNSIGNED_LONG) }),
        Operand::Var(Variable { id: 0, ty: Type::scalar(FLOAT) }),
        Operand::Var(Variable { id: 0, ty: Type::scalar(CUSTOM) }),
        Operand::Var(Variable { id: 0, ty: Type::scalar(NULL) }),
        Operand::Var(Variable { id: 6, ty: Type::scalar(BOOL) }),
    ];
    for operand in odd {
        all.push(Instr::Copy { dest: var(LONG), src: operand });
        all.push(Instr::Cast { dest: var(LONG), src: operand });
        all.push(Instr::Return(operand));
        all.push(Instr::JumpIfNot { cond: operand, label: 0 });
        all.push(binary(EQ, BOOL, operand, read(LONG)));
        all.push(binary(ADD, LONG, operand, read(LONG)));
        all.push(binary(ADD, LONG, read(LONG), operand));
    }
    for cond in SCALARS.map(read).into_iter().chain([long(1), short(0)]) {
        all.push(Instr::JumpIfNot { cond, label: 0 });
    }
    all
}

/// Dests whose own type is not their entry, or that are arrays.
fn types() -> Vec<Instr> {
    let odd = [
        Variable { id: 0, ty: Type::scalar(UNSIGNED_LONG) },
        Variable { id: 0, ty: Type::scalar(FLOAT) },
        Variable { id: 0, ty: Type::scalar(CUSTOM) },
        Variable { id: 0, ty: Type::array(LONG, 1) },
        Variable { id: 10, ty: Type::scalar(LONG) },
        Variable { id: 8, ty: Type::array(BYTE, 4) },
        Variable { id: 8, ty: Type::array(BYTE, 3) },
        Variable { id: 8, ty: Type::array(CHAR, 4) },
        Variable { id: 9, ty: Type::array(BOOL, 1) },
        Variable { id: 6, ty: Type::scalar(BOOL) },
    ];
    let mut all: Vec<Instr> = SCALARS.map(|code| Instr::Zero(var(code))).to_vec();
    for dest in odd {
        all.push(Instr::Zero(dest));
        all.push(Instr::Copy { dest, src: read(LONG) });
        all.push(Instr::Cast { dest, src: read(BYTE) });
        all.push(Instr::Binary { op: binary::EQ, dest, left: read(LONG), right: long(0) });
    }
    all
}

/// Div and Rem of every pair of integer types, dest signed or not, and of the least values by -1.
fn divisions() -> Vec<Instr> {
    use crate::sheet::binary::{DIV, REM};
    const INTEGERS: [i64; 4] = [LONG, UNSIGNED_LONG, SHORT, UNSIGNED_SHORT];
    let mut all = Vec::new();
    for op in [DIV, REM] {
        for dest in INTEGERS {
            for side in INTEGERS {
                all.push(binary(op, dest, read(side), read(side)));
                all.push(binary(op, dest, read(dest), read(side)));
            }
            all.push(binary(op, dest, long(i64::MIN), long(-1)));
            all.push(binary(op, dest, short(-(1 << 31)), short((1 << 32) - 1)));
        }
        all.push(binary(op, BYTE, read(BYTE), read(BOOL)));
    }
    all
}

/// Labels: placed once, twice or nowhere, jumped to or not.
fn bodies() -> Vec<Vec<Instr>> {
    use Instr::{Comment, Jump, Label};
    let unless = |label| Instr::JumpIfNot { cond: Operand::Bool(false), label };
    vec![
        vec![],
        vec![Comment],
        vec![Label(0)],
        vec![Label(0), Comment, Label(0)],
        vec![Label(0), Label(0), Jump(0)],
        vec![Jump(0), Label(0), Label(1), Label(0), Label(0)],
        vec![Jump(1), Label(0)],
        vec![unless(1), Label(0)],
        vec![unless(0), Label(0), Jump(1), Label(1)],
        vec![Jump(1), unless(1), Jump(0)],
        vec![Jump(2), Label(2)],
        vec![Label(2), Jump(2)],
        vec![Label(0), Jump(0), Label(1), Label(1), Jump(2)],
        vec![Instr::Return(Operand::Null), Comment],
        vec![Instr::Return(Operand::Null), Label(1)],
        vec![Jump(0), Label(0), Label(0)],
        vec![Label(1), Label(0), Label(1), Jump(0), Label(0), Label(1)],
    ]
}

/// Bodies with more than one fault, refusals among them.
fn mixed() -> Vec<Vec<Instr>> {
    use Instr::{Comment, Jump, Label};
    let call = Instr::Call { dest: None, symbol: 0, args: vec![] };
    let refused = binary(binary::AND, BOOL, read(BOOL), read(BOOL));
    let lost = Instr::Return(Operand::Var(Variable { id: 10, ty: Type::scalar(LONG) }));
    vec![
        vec![Label(0), Label(0), Jump(2)],
        vec![Label(0), Jump(2), Label(0)],
        vec![Jump(1), Comment, refused.clone()],
        vec![refused.clone(), Jump(1)],
        vec![Comment, call.clone(), refused.clone(), call.clone()],
        vec![Comment, refused.clone(), call.clone(), lost.clone()],
        vec![Label(300), Label(300)],
        vec![Label(0), Label(0), Label(300), Jump(300)],
        vec![lost, Label(2), call],
        vec![Comment, Label(2), Label(2), refused],
    ]
}

/// A parameter or a constant of four bytes, signed or not, cast to a dest of eight: small functions, which the checker can evaluate.
fn page_numbers() -> Vec<Sheet> {
    let mut all = Vec::new();
    for (to, from) in [LONG, UNSIGNED_LONG, ADDRESS]
        .into_iter()
        .flat_map(|to| [SHORT, UNSIGNED_SHORT].map(|from| (to, from)))
    {
        let variables = [to, from].map(Type::scalar).to_vec();
        let sheet = Sheet { variables, ..Sheet::default() };
        let (dest, param) = (sheet.variable(0), sheet.variable(1));
        let constant =
            |value| Operand::Int { value, short: true, unsigned: from == UNSIGNED_SHORT };
        for src in [Operand::Var(param), constant(1 << 31), constant((1 << 32) - 1)] {
            let body = vec![Instr::Cast { dest, src }, Instr::Return(Operand::Var(dest))];
            all.push(Sheet { parameters: vec![param], body, ..sheet.clone() });
        }
    }
    all
}

fn heads() -> Vec<Sheet> {
    let mut all = Vec::new();
    let with_body = |mut sheet: Sheet| {
        sheet.body = vec![Instr::Return(long(1))];
        sheet
    };
    for code in 1..=12 {
        for ty in [Type::scalar(code), Type::array(code, 2), Type::array(code, 0)] {
            all.push(with_body(Sheet { return_type: Some(ty), ..base() }));
            let mut variables = base().variables;
            variables.push(ty);
            all.push(with_body(Sheet { variables: variables.clone(), ..base() }));
            let parameters = vec![Variable { id: 10, ty }];
            all.push(with_body(Sheet { variables, parameters, ..base() }));
        }
    }
    for ids in
        [vec![0, 1, 2, 3, 4, 5], vec![0, 1, 2, 3, 4, 5, 6], vec![0, 1, 0], vec![3, 3], vec![7]]
    {
        let parameters = ids.into_iter().map(|id| base().variable(id)).collect();
        all.push(with_body(Sheet { parameters, ..base() }));
    }
    for param in [
        Variable { id: 0, ty: Type::scalar(UNSIGNED_LONG) },
        Variable { id: 6, ty: Type::scalar(CHAR) },
        Variable { id: 10, ty: Type::scalar(LONG) },
        Variable { id: 8, ty: Type::array(BYTE, 4) },
        Variable { id: 0, ty: Type::scalar(FLOAT) },
        Variable { id: 0, ty: Type::scalar(NULL) },
    ] {
        all.push(with_body(Sheet { parameters: vec![param], ..base() }));
    }
    all
}
