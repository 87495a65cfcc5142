//! The boundaries of every limit, and the places of refusals around them.

use super::{Draft, Input};
use crate::cells::to_bytes;
use crate::compact::Case;
use crate::lower::RECORD;
use crate::sheet::*;

pub fn cases() -> Vec<Case> {
    let mut inputs = [counts(), type_counts(), offsets(), bodies(), arguments()].concat();
    inputs.extend([parameters(), tables(), slices(), layouts()].concat());
    let mut cases: Vec<Case> = inputs.into_iter().map(Input::with_exact_room).collect();
    cases.extend(record_lengths());
    cases
}

/// Tables `0`.
fn with_sheet(cells: &[i64]) -> Input {
    Input { tables: to_bytes(&[0]), sheet: to_bytes(cells) }
}

fn sheet_input(sheet: &Sheet) -> Input {
    with_sheet(&sheet.cells())
}

fn bytes(count: usize) -> Vec<Type> {
    vec![Type::scalar(BYTE); count]
}

fn var(id: i64, code: i64) -> Variable {
    Variable { id, ty: Type::scalar(code) }
}

/// The five counts of the head.
fn counts() -> Vec<Input> {
    let mut all = Vec::new();
    for count in [1, 255, 256, 257] {
        all.push(sheet_input(&Sheet { variables: bytes(count), ..Sheet::default() }));
        let parameters = (0..count as i64).map(|id| var(id, BYTE)).collect();
        all.push(sheet_input(&Sheet { variables: bytes(256), parameters, ..Sheet::default() }));
        let label = count as i64 - 1;
        for body in [vec![Instr::Label(label), Instr::Jump(label)], vec![Instr::Jump(label + 1)]] {
            all.push(sheet_input(&Sheet { labels: count as i64, body, ..Sheet::default() }));
        }
    }
    for count in [0, 1, 4_096] {
        all.push(sheet_input(&Sheet { body: vec![Instr::Comment; count], ..Sheet::default() }));
    }
    let jumps = vec![Instr::Jump(0); 1_025];
    all.push(sheet_input(&Sheet { labels: 1, body: jumps, ..Sheet::default() }));
    // the head alone: a count beyond its limit is seen before the missing cells
    for cell in [0, 1, 2, 5] {
        for count in [-1, 256, 257, 4_096, 4_097, i64::MAX, i64::MIN] {
            let mut head = vec![0, 0, 0, 0, -1, 0];
            head[cell] = count;
            all.push(with_sheet(&head));
        }
    }
    all
}

/// The count of a type, wherever one stands.
fn type_counts() -> Vec<Input> {
    let counts = [i64::MIN, -2, -1, 0, MAX_COUNT - 1, MAX_COUNT, MAX_COUNT + 1, i64::MAX];
    let mut all = Vec::new();
    for count in counts {
        for code in [0, 1, 9, CUSTOM, NULL, 13, -1] {
            all.push(with_sheet(&[0, 0, 0, code, count, 0]));
        }
        for code in [0, SHORT, BYTE, CUSTOM, 13] {
            all.push(with_sheet(&[1, 0, 0, 0, -1, 0, code, count]));
        }
        let ty = Type::array(BYTE, count);
        let own = Variable { id: 0, ty };
        let sheet = Sheet { variables: bytes(1), ..Sheet::default() };
        all.push(sheet_input(&Sheet { parameters: vec![own], ..sheet.clone() }));
        for instr in [
            Instr::Zero(own),
            Instr::Copy { dest: own, src: Operand::Null },
            Instr::Return(Operand::Var(own)),
            Instr::Return(Operand::Address(own)),
            Instr::Cast { dest: var(0, LONG), src: Operand::Var(own) },
            Instr::Call { dest: Some(own), symbol: 0, args: vec![] },
            Instr::Call { dest: None, symbol: 0, args: vec![Operand::Var(own)] },
        ] {
            all.push(sheet_input(&Sheet { body: vec![instr], ..sheet.clone() }));
        }
    }
    all
}

/// The offsets of the variables, and the limit on the last.
fn offsets() -> Vec<Input> {
    let full = Type::array(BYTE, MAX_OFFSET);
    let mut lists = vec![
        vec![full],
        vec![full, Type::scalar(BYTE)],
        vec![full, Type::scalar(LONG), Type::scalar(0)],
        vec![full, Type::array(LONG, 0), Type::array(BYTE, 0)],
        vec![full, Type::array(LONG, 0), Type::array(BYTE, 1)],
        vec![full, Type::array(CUSTOM, MAX_COUNT)],
        vec![full, Type::scalar(NULL), Type::scalar(BYTE)],
        vec![Type::array(CUSTOM, MAX_COUNT), Type::array(NULL, MAX_COUNT), full],
        vec![Type::array(BYTE, MAX_OFFSET - 1), Type::scalar(BYTE)],
        vec![Type::array(BYTE, MAX_OFFSET - 1), Type::scalar(BYTE), Type::scalar(BOOL)],
        vec![Type::array(BYTE, MAX_OFFSET - 1), Type::scalar(SHORT)],
        vec![Type::array(BYTE, MAX_OFFSET - 7), Type::scalar(FLOAT)],
        vec![Type::array(BYTE, MAX_OFFSET - 8), Type::scalar(FLOAT)],
        vec![Type::array(LONG, MAX_OFFSET / 8)],
        vec![Type::array(UNSIGNED_LONG, MAX_OFFSET / 8 + 1)],
        vec![Type::array(SHORT, MAX_OFFSET / 4)],
        vec![Type::array(SHORT_FLOAT, MAX_OFFSET / 4 + 1)],
        vec![Type::array(LONG, MAX_COUNT)],
        vec![Type::array(LONG, MAX_OFFSET / 16), Type::array(ADDRESS, MAX_OFFSET / 16)],
        vec![Type::array(LONG, MAX_OFFSET / 16), Type::array(ADDRESS, MAX_OFFSET / 16 + 1)],
        vec![Type::scalar(BYTE), Type::array(LONG, MAX_OFFSET / 8 - 1)],
        vec![Type::scalar(BYTE), Type::array(LONG, MAX_OFFSET / 8 - 1), Type::scalar(BYTE)],
    ];
    lists.extend(paddings_at_the_limit());
    let zero_of_the_last = |variables: Vec<Type>| {
        let last = Variable { id: variables.len() as i64 - 1, ty: variables[variables.len() - 1] };
        sheet_input(&Sheet { variables, body: vec![Instr::Zero(last)], ..Sheet::default() })
    };
    let mut all: Vec<Input> = lists.into_iter().map(zero_of_the_last).collect();
    all.extend(mixed_widths().into_iter().map(zero_of_each));
    all
}

/// Bytes up to just below the limit, and then a variable, an empty array or one of two elements, whose padding takes the offset up to the limit or leaves
/// no room for what follows.
fn paddings_at_the_limit() -> Vec<Vec<Type>> {
    let mut all = Vec::new();
    for below in [1, 3, 4, 5, 7, 8, 9] {
        let bytes = Type::array(BYTE, MAX_OFFSET - below);
        for code in [LONG, SHORT_FLOAT] {
            all.push(vec![bytes, Type::scalar(code)]);
            all.push(vec![bytes, Type::array(code, 0), Type::scalar(BYTE)]);
            all.push(vec![bytes, Type::array(code, 2)]);
        }
        // what has no width keeps the offset
        all.push(vec![bytes, Type::array(NULL, 0), Type::scalar(ADDRESS)]);
    }
    all
}

/// The scope's sizes; then a variable of every code, alone, as an empty array or with elements, behind a byte and behind another.
fn mixed_widths() -> Vec<Vec<Type>> {
    let sizes = [vec![4, 1, 8], vec![4, 4, 8, 1], vec![8, 8], vec![1; 17], vec![4, 0, 4], vec![]];
    let mut all: Vec<Vec<Type>> =
        sizes.into_iter().map(|sizes| sizes.into_iter().map(of_size).collect()).collect();
    let byte = Type::scalar(BYTE);
    for code in LONG..=ADDRESS {
        for count in [-1, 0, 3] {
            let ty = Type { code, count };
            all.push(vec![byte, ty, byte, ty, Type::scalar(SHORT)]);
        }
    }
    all
}

fn zero_of_each(variables: Vec<Type>) -> Input {
    let sheet = Sheet { variables, ..Sheet::default() };
    let body = (0..sheet.variables.len()).map(|id| Instr::Zero(sheet.variable(id))).collect();
    sheet_input(&Sheet { body, ..sheet })
}

fn of_size(size: i64) -> Type {
    match size {
        1 => Type::scalar(CHAR),
        0 => Type::array(SHORT, 0),
        4 => Type::scalar(SHORT),
        8 => Type::scalar(LONG),
        other => Type::array(BYTE, other),
    }
}

/// The end of the body and the epilogue.
fn bodies() -> Vec<Input> {
    let give = || Instr::Return(Operand::Bool(true));
    let bodies = vec![
        vec![give(), Instr::Comment],
        vec![give(), Instr::Label(0)],
        vec![Instr::Label(0), give()],
        vec![give(), give()],
        vec![Instr::Jump(0), give(), Instr::Comment, Instr::Comment],
        vec![Instr::Jump(1)],
        vec![Instr::Label(2), Instr::Jump(1)],
        vec![Instr::Jump(1), Instr::Label(i64::MAX)],
    ];
    let sheet = |body| sheet_input(&Sheet { labels: 2, body, ..Sheet::default() });
    bodies.into_iter().map(sheet).collect()
}

/// Arguments: their number, and the registers that they take.
fn arguments() -> Vec<Input> {
    let sheet =
        Sheet { variables: vec![Type::scalar(LONG), Type::scalar(FLOAT)], ..Sheet::default() };
    let (plain, float) = (Operand::Var(sheet.variable(0)), Operand::Var(sheet.variable(1)));
    let mut all = Vec::new();
    for (plains, floats) in [(6, 0), (7, 0), (0, 8), (0, 9), (6, 8), (6, 9), (7, 8)] {
        for reversed in [false, true] {
            let mut args = [vec![plain; plains], vec![float; floats]].concat();
            if reversed {
                args.reverse();
            }
            let call = Instr::Call { dest: None, symbol: 9, args };
            all.push(sheet_input(&Sheet { body: vec![Instr::Comment, call], ..sheet.clone() }));
        }
    }
    for count in [63, 64, 65] {
        let args = vec![plain; count];
        let call = Instr::Call { dest: Some(sheet.variable(1)), symbol: 0, args };
        all.push(sheet_input(&Sheet { body: vec![call], ..sheet.clone() }));
    }
    for count in [-1, 1, 64, 65, i64::MAX] {
        let mut cells = Sheet { body: vec![Instr::Comment; 2], ..Sheet::default() }.cells();
        cells[6] = 5;
        cells[6 + 6] = count;
        all.push(with_sheet(&cells));
    }
    all
}

/// As many calls as a body holds, each with as many arguments as a call takes: with room for the
/// records, with a byte too few, and with a refusal on the last argument. Too large for the list.
#[cfg(any(test, feature = "engine"))]
pub fn largest() -> Vec<Case> {
    let sheet = Sheet { variables: vec![Type::scalar(LONG)], ..Sheet::default() };
    let var = sheet.variable(0);
    let args = vec![Operand::Var(var); MAX_ARGUMENTS as usize];
    let call = Instr::Call { dest: Some(var), symbol: 0, args };
    let body = vec![call; MAX_INSTRUCTIONS as usize];
    let full = sheet_input(&Sheet { body: body.clone(), ..sheet.clone() }).with_exact_room();
    let tight =
        Case::answered(full.tables.clone(), full.sheet.clone(), full.out_len.saturating_sub(1));
    let mut refused = body;
    let Some(Instr::Call { args, .. }) = refused.last_mut() else { unreachable!("a call") };
    *args.last_mut().expect("an argument") = Operand::Address(var);
    let refused = sheet_input(&Sheet { body: refused, ..sheet }).with_exact_room();
    vec![full, tight, refused]
}

/// Parameters: registers taken, and those beyond them.
fn parameters() -> Vec<Input> {
    let variables: Vec<Type> =
        [vec![Type::scalar(SHORT); 8], vec![Type::scalar(FLOAT); 10]].concat();
    let plain = |count: i64| (0..count).map(|id| var(id, SHORT)).collect::<Vec<_>>();
    let float = |count: i64| (8..8 + count).map(|id| var(id, FLOAT)).collect::<Vec<_>>();
    let lists = vec![
        plain(6),
        plain(7),
        float(8),
        float(9),
        [float(8), plain(6)].concat(),
        [float(9), plain(7)].concat(),
        [plain(6), vec![var(18, SHORT)]].concat(),
        [plain(6), vec![var(i64::MAX, CUSTOM)]].concat(),
        [plain(5), vec![var(18, SHORT)]].concat(),
        [plain(5), vec![var(18, CUSTOM)]].concat(),
        [plain(5), vec![var(0, CUSTOM)]].concat(),
        [plain(5), vec![Variable { id: 0, ty: Type::array(BYTE, 3) }]].concat(),
        [vec![var(18, SHORT_FLOAT)], vec![var(0, NULL)]].concat(),
        [float(8), vec![var(18, FLOAT)]].concat(),
        [float(7), vec![var(18, FLOAT)]].concat(),
        vec![var(0, SHORT), var(0, SHORT)],
    ];
    let input = |parameters| Sheet { variables: variables.clone(), parameters, ..Sheet::default() };
    lists.into_iter().map(|list| sheet_input(&input(list))).collect()
}

/// Tables at and beyond their limits, and the numbers that look into them.
fn tables() -> Vec<Input> {
    let empty = Sheet::default().cells();
    let with_tables = |cells: &[i64]| Input { tables: to_bytes(cells), sheet: to_bytes(&empty) };
    let mut all: Vec<Input> = [i64::MIN, -1, 0, 1, 255, 256, 257, i64::MAX]
        .iter()
        .map(|strings| with_tables(&[*strings]))
        .collect();
    for floats in [1, 255, 256, 257, 258] {
        let mut cells = vec![256];
        cells.extend((0..floats).map(|float| float % 2));
        all.push(with_tables(&cells));
        *cells.last_mut().expect("a cell") = 2;
        all.push(with_tables(&cells));
        cells[floats as usize / 2] = -1;
        all.push(with_tables(&cells));
    }
    for count in [0, 1, 256] {
        for index in [0, count - 1, count, i64::MAX] {
            all.extend([Operand::DataAddress(index), Operand::Float(index)].map(|operand| {
                let floats = vec![true; count as usize];
                let body = vec![Instr::Comment, Instr::Return(operand)];
                let sheet = Sheet { body, ..Sheet::default() };
                Draft { tables: Tables { strings: count, floats }, sheet }.input()
            }));
        }
    }
    all
}

/// Empty, torn and lengthened slices.
fn slices() -> Vec<Input> {
    let tables = to_bytes(&[1, 0]);
    let sheet = to_bytes(&sample().cells());
    let mut all = Vec::new();
    for cut in [0, 1, 7, 8, 9, 15] {
        all.push(Input { tables: tables[..cut].to_vec(), sheet: sheet.clone() });
        all.push(Input { tables: tables[..cut].to_vec(), sheet: vec![] });
        all.push(Input { tables: tables.clone(), sheet: sheet[..cut].to_vec() });
    }
    for cut in (16..sheet.len()).step_by(29) {
        all.push(Input { tables: tables.clone(), sheet: sheet[..cut].to_vec() });
    }
    for extra in [1, 7, 8, 9, 16] {
        let longer = |slice: &[u8]| [slice, &vec![0; extra]].concat();
        all.push(Input { tables: longer(&tables), sheet: sheet.clone() });
        all.push(Input { tables: tables.clone(), sheet: longer(&sheet) });
    }
    all
}

/// A function with one instruction of each sort of layout.
fn sample() -> Sheet {
    let (a, b) = (var(0, LONG), var(1, BOOL));
    Sheet {
        variables: vec![a.ty, b.ty],
        parameters: vec![a],
        labels: 1,
        return_type: Some(a.ty),
        body: vec![
            Instr::Binary { op: binary::LT, dest: b, left: Operand::Var(a), right: Operand::Null },
            Instr::JumpIfNot { cond: Operand::Var(b), label: 0 },
            Instr::Call { dest: Some(a), symbol: 1, args: vec![Operand::Bool(true)] },
            Instr::Label(0),
            Instr::Unary { op: unary::NEG, dest: a, src: Operand::DataAddress(0) },
            Instr::Zero(b),
            Instr::Call { dest: None, symbol: 0, args: vec![] },
            Instr::Copy { dest: a, src: Operand::Int { value: -1, short: true, unsigned: true } },
            Instr::Cast { dest: a, src: Operand::Float(0) },
            Instr::Jump(0),
            Instr::Comment,
            Instr::Return(Operand::Var(a)),
        ],
    }
}

/// Every cell of the sample, one after the other, changed to two values of seven.
fn layouts() -> Vec<Input> {
    let cells = sample().cells();
    let mut all = Vec::new();
    for at in 0..cells.len() {
        let values = [i64::MIN, -2, cells[at] + 1, 13, -1, 18, i64::MAX];
        for value in [values[at % 7], values[(at + 3) % 7]] {
            let mut changed = cells.clone();
            changed[at] = value;
            all.push(Input { tables: to_bytes(&[1, 0]), sheet: to_bytes(&changed) });
        }
    }
    all
}

/// Record bytes around what is needed.
fn record_lengths() -> Vec<Case> {
    let empty = Sheet::default();
    let beyond = Sheet { body: vec![Instr::Jump(0)], ..Sheet::default() };
    let mut all = Vec::new();
    for sheet in [empty, sample(), beyond] {
        let input = Input { tables: to_bytes(&[1, 0]), sheet: to_bytes(&sheet.cells()) };
        let exact = input.clone().with_exact_room().out_len;
        let record = RECORD as u64;
        for out_len in [
            0,
            1,
            63,
            64,
            65,
            exact.saturating_sub(record),
            exact.saturating_sub(1),
            exact,
            exact + 1,
            65_536,
        ] {
            all.push(Case::answered(input.tables.clone(), input.sheet.clone(), out_len));
        }
    }
    all
}
