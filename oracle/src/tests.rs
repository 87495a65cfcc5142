//! The twelve cases, and the answers where Krc's order of evaluation decides.

use crate::calls;
use crate::cases::{Draft, any, limits, plain};
use crate::cells::to_bytes;
use crate::compact::{file, parse};
use crate::listing::listing;
use crate::lower::{answer, krc_list, lower};
use crate::plain::faults;
use crate::read::{Refusal, read_sheet, read_tables};
use crate::rng::Rng;
use crate::rules::{self, excess};
use crate::sheet::*;
use crate::steps::{End, run};
use crate::{list, steps};
use krc::record::Record;

const RBP_PLUS: i64 = 5;

fn var(id: i64, code: i64) -> Variable {
    Variable { id, ty: Type::scalar(code) }
}

fn array(id: i64, code: i64, count: i64) -> Variable {
    Variable { id, ty: Type::array(code, count) }
}

fn long(value: i64) -> Operand {
    Operand::Int { value, short: false, unsigned: false }
}

fn short(value: i64) -> Operand {
    Operand::Int { value, short: true, unsigned: false }
}

fn unsigned_short(value: i64) -> Operand {
    Operand::Int { value, short: true, unsigned: true }
}

/// Variable k has code k + 1, up to Address; then Byte[2], Byte[3] and Byte[0].
fn sheet(body: Vec<Instr>) -> Sheet {
    let mut variables: Vec<Type> = (LONG..=ADDRESS).map(Type::scalar).collect();
    variables.extend([2, 3, 0].map(|count| Type::array(BYTE, count)));
    Sheet { variables, labels: 1, body, ..Sheet::default() }
}

fn own(code: i64) -> Variable {
    var(code - 1, code)
}

fn read(code: i64) -> Operand {
    Operand::Var(own(code))
}

/// An id without an entry.
fn beyond(code: i64) -> Variable {
    var(13, code)
}

fn tables() -> Tables {
    Tables { strings: 1, floats: vec![false, true] }
}

fn lowered(sheet: &Sheet) -> Result<Vec<Record>, (u64, u64)> {
    lower(&tables(), sheet).map_err(|refusal| (refusal.number, refusal.place))
}

/// The records of one instruction, without prologue and epilogue.
fn block(instr: Instr) -> Vec<Record> {
    let list = lowered(&sheet(vec![instr])).expect("it lowers");
    list[3..list.len() - 3].to_vec()
}

/// The refusal of one instruction, which stands second.
fn refusal(instr: Instr) -> u64 {
    let (number, place) = lowered(&sheet(vec![Instr::Comment, instr])).expect_err("it is refused");
    assert_eq!(place, 2);
    number
}

fn binary(op: i64, dest: Variable, left: Operand, right: Operand) -> Instr {
    Instr::Binary { op, dest, left, right }
}

fn frame(list: &[Record]) -> i64 {
    assert_eq!(list[2][..5], [0, 3, 1, 4, 2]);
    list[2][5]
}

/// The displacements of all variables, seen by zeroing each.
fn displacements(variables: Vec<Type>) -> (Vec<i64>, i64) {
    let mut sheet = Sheet { variables, ..Sheet::default() };
    sheet.body = (0..sheet.variables.len()).map(|id| Instr::Zero(sheet.variable(id))).collect();
    let list = lowered(&sheet).expect("it lowers");
    let leas = list.iter().filter(|record| record[0] == 8 && record[4] == RBP_PLUS);
    (leas.map(|record| record[5]).collect(), frame(&list))
}

// ---- the twelve cases

const EXAMPLE: [i64; 24] =
    [1, 1, 0, 3, -1, 1, 3, -1, 0, 3, -1, 9, 0, 0, 0, 0, 0, 0, 3, -1, 0, 0, 0, 0];

#[test]
fn case_1_listing() {
    let cells = [vec![1, 0], EXAMPLE.to_vec()].concat();
    let text = "ok 8\n14 0 1 5 0 0 0 0\n0 0 1 5 1 4 0 0\n0 3 1 4 2 16 0 0\n0 0 5 -4 1 7 4 0\n\
                0 0 1 0 5 -4 4 0\n0 0 1 4 1 5 0 0\n14 1 1 5 0 0 0 0\n6 2 0 0 0 0 0 0\n";
    assert_eq!(listing(&to_bytes(&cells)), text);
}

#[test]
fn case_2_empty() {
    let list = lowered(&Sheet::default()).expect("it lowers");
    assert_eq!((list.len(), frame(&list)), (6, 0));
}

#[test]
fn case_3_to_5_offsets() {
    let (s, c, l) = (Type::scalar(SHORT), Type::scalar(CHAR), Type::scalar(LONG));
    assert_eq!(displacements(vec![s, c, l]), (vec![-4, -5, -16], 16));
    assert_eq!(displacements(vec![l, l, c]), (vec![-8, -16, -17], 32));
    assert_eq!(displacements(vec![s, Type::array(SHORT, 0), s]).0, vec![-4, -4, -8]);
    // an empty array moves the offset; an array lies on its element's width, not on its own size
    assert_eq!(displacements(vec![c, Type::array(LONG, 0), c]).0, vec![-1, -8, -9]);
    assert_eq!(displacements(vec![c, Type::array(SHORT, 2)]).0, vec![-1, -12]);
    assert_eq!(displacements(vec![c, Type::array(BYTE, 8)]).0, vec![-1, -9]);
}

#[test]
fn case_6_last_offset() {
    let answered = |variables| {
        let sheet = Sheet { variables, ..Sheet::default() };
        answer(&to_bytes(&[0]), &to_bytes(&sheet.cells()), 1_000).result.map(|list| frame(&list))
    };
    let full = |last| answered(vec![Type::array(LONG, 131_071), last]);
    assert_eq!(full(Type::scalar(LONG)), Ok(MAX_OFFSET));
    assert_eq!(full(Type::array(BYTE, 9)), Err(Refusal { number: 3, place: 9 }));
    // padding counts: the sizes alone are below the limit
    let (byte, longs) = (Type::scalar(BYTE), Type::array(LONG, 131_071));
    assert_eq!(answered(vec![byte, longs]), Ok(MAX_OFFSET));
    assert_eq!(answered(vec![byte, longs, byte]), Err(Refusal { number: 3, place: 11 }));
    let bytes = Type::array(BYTE, MAX_OFFSET - 7);
    let empty = Type::array(LONG, 0);
    assert_eq!(answered(vec![bytes, empty]), Ok(MAX_OFFSET));
    assert_eq!(answered(vec![bytes, empty, byte]), Err(Refusal { number: 3, place: 11 }));
    let custom = Type::scalar(CUSTOM);
    assert_eq!(answered(vec![bytes, empty, custom]), Err(Refusal { number: 4, place: 0 }));
}

/// Of Krc's own list M-110's rule sets displacements and the frame, and no other cell.
#[test]
fn all_other_cells_are_krcs() {
    let mut rng = Rng::new(9);
    for _ in 0..500 {
        let Draft { tables, sheet } = any::draft(&mut rng);
        if excess::without(&sheet).is_some() {
            continue;
        }
        let Ok(own) = krc_list(&tables, &sheet) else { continue };
        let mut alone = rules::alone(&tables, &sheet, &own);
        let (_, ruled) = alone.find(|(request, _)| *request == "M-110").expect("a rule for slots");
        assert_eq!(own.len(), ruled.len());
        for (k, (own, ruled)) in own.iter().zip(&ruled).enumerate() {
            let is_set = |cell: usize| match cell {
                3 => own[2] == RBP_PLUS,
                5 => own[4] == RBP_PLUS || k == 2,
                _ => false,
            };
            for cell in 0..8 {
                assert!(own[cell] == ruled[cell] || is_set(cell), "{own:?} {ruled:?}");
            }
        }
    }
}

#[test]
fn case_7_arguments() {
    let call = |plain: usize, float: usize| Instr::Call {
        dest: None,
        symbol: 0,
        args: [vec![read(LONG); plain], vec![read(FLOAT); float]].concat(),
    };
    assert_eq!(block(call(6, 8)).len(), 16);
    // M-112: Sub, load and store, Add
    assert_eq!(block(call(7, 8)).len(), 20);
    assert_eq!(block(call(6, 9)).len(), 20);
}

#[test]
fn case_8_logical_and() {
    assert_eq!(refusal(binary(binary::AND, own(BOOL), read(BOOL), read(BOOL))), 7);
    assert_eq!(refusal(binary(binary::OR, own(BOOL), read(BOOL), read(BOOL))), 7);
}

#[test]
fn case_9_condition_codes() {
    let code = |left| block(binary(binary::LT, own(BOOL), read(left), read(left)))[3][1];
    assert_eq!((code(UNSIGNED_LONG), code(LONG)), (8, 4));
}

/// The value that a body leaves in variable 0.
fn value(variable: Type, body: Vec<Instr>) -> u64 {
    let sheet = Sheet { variables: vec![variable], body, ..Sheet::default() };
    assert_eq!(faults(&sheet, None), []);
    let bytes = vec![0; variable.size().expect("a width") as usize];
    let mut run = run(&sheet, vec![bytes], 100);
    run.variables[0].resize(8, 0);
    u64::from_le_bytes(run.variables[0].clone().try_into().expect("eight bytes"))
}

#[test]
fn case_10_widening() {
    for code in [LONG, UNSIGNED_LONG] {
        let dest = var(0, code);
        let widened = |src| value(dest.ty, vec![Instr::Cast { dest, src }]);
        assert_eq!(widened(short(4_294_967_295)), u64::MAX);
        assert_eq!(widened(unsigned_short(4_294_967_295)), 4_294_967_295);
    }
}

#[test]
fn case_11_shift_counts() {
    let dest = var(0, SHORT);
    let shifted = |count| value(dest.ty, vec![binary(binary::SHL, dest, short(1), short(count))]);
    assert_eq!((shifted(32), shifted(33)), (1, 2));
}

#[test]
fn case_12_one_epilogue() {
    let give = || Instr::Return(Operand::Null);
    let once = lowered(&sheet(vec![give()])).expect("it lowers");
    assert_eq!(lowered(&sheet(vec![give(), Instr::Comment])), Ok(once.clone()));
    let labelled = lowered(&sheet(vec![give(), Instr::Label(0)])).expect("it lowers");
    assert_eq!(labelled.len(), once.len() + 4);
}

// ---- the order of refusals

#[test]
fn zero_asks_for_the_width_first() {
    assert_eq!(refusal(Instr::Zero(beyond(CUSTOM))), 4);
    assert_eq!(refusal(Instr::Zero(beyond(BYTE))), 5);
}

#[test]
fn stores_look_up_first() {
    let parameter = |param| lowered(&Sheet { parameters: vec![param], ..sheet(vec![]) });
    assert_eq!(parameter(beyond(CUSTOM)), Err((5, 0)));
    assert_eq!(parameter(var(0, CUSTOM)), Err((4, 0)));
    assert_eq!(parameter(array(0, BYTE, 3)), Err((6, 0)));
    for dest in [beyond(CUSTOM), array(13, BYTE, 3)] {
        assert_eq!(refusal(Instr::Copy { dest, src: Operand::Float(9) }), 5);
        assert_eq!(refusal(Instr::Call { dest: Some(dest), symbol: 0, args: vec![] }), 5);
    }
    assert_eq!(refusal(Instr::Copy { dest: array(0, BYTE, 3), src: Operand::Float(9) }), 6);
}

#[test]
fn arithmetic_asks_width_operands_dest() {
    let add = |dest, left, right| refusal(binary(binary::ADD, dest, left, right));
    assert_eq!(add(beyond(CUSTOM), Operand::Float(9), Operand::Null), 4);
    assert_eq!(add(array(13, BYTE, 3), Operand::Float(9), Operand::Null), 6);
    assert_eq!(add(beyond(LONG), Operand::Float(9), Operand::DataAddress(0)), 5);
    assert_eq!(add(beyond(LONG), Operand::Null, Operand::DataAddress(0)), 7);
    assert_eq!(add(beyond(LONG), Operand::Null, Operand::Null), 5);
}

#[test]
fn comparison_asks_left_first_and_dest_last() {
    let less = |dest, left, right| refusal(binary(binary::LT, dest, left, right));
    let odd = Operand::Var(array(0, BYTE, 3));
    let address = Operand::Address(own(LONG));
    assert_eq!(less(beyond(CUSTOM), Operand::Var(var(99, NULL)), address), 4);
    assert_eq!(less(beyond(CUSTOM), Operand::Float(2), address), 5);
    assert_eq!(less(beyond(CUSTOM), odd, address), 6);
    assert_eq!(less(beyond(CUSTOM), Operand::Null, address), 7);
    assert_eq!(less(beyond(CUSTOM), Operand::Null, Operand::Null), 5);
    assert_eq!(less(var(0, CUSTOM), Operand::Null, Operand::Null), 4);
    // on floats Lt loads right first, Gt loads left first
    let left = Operand::Var(var(99, FLOAT));
    assert_eq!(less(own(BOOL), left, address), 7);
    assert_eq!(refusal(binary(binary::GT, own(BOOL), left, address)), 5);
}

#[test]
fn arguments_beyond_the_registers_are_asked_first() {
    let call = |dest, first, last| Instr::Call {
        dest,
        symbol: 0,
        args: [vec![first], vec![Operand::Null; 5], vec![Operand::Null, last]].concat(),
    };
    let (address, lost) = (Operand::Address(own(LONG)), Operand::Var(beyond(LONG)));
    let null = Operand::Null;
    assert_eq!(refusal(call(None, null, address)), 7);
    assert_eq!(refusal(call(None, null, Operand::DataAddress(9))), 5);
    assert_eq!(refusal(call(None, null, Operand::Float(9))), 5);
    assert_eq!(refusal(call(None, lost, address)), 7);
    assert_eq!(refusal(call(None, address, lost)), 5);
    // dest comes last, and its look-up before its size
    assert_eq!(refusal(call(Some(beyond(CUSTOM)), address, null)), 7);
    assert_eq!(refusal(call(Some(beyond(CUSTOM)), null, address)), 7);
    assert_eq!(refusal(call(Some(beyond(CUSTOM)), null, null)), 5);
    assert_eq!(refusal(call(Some(var(0, CUSTOM)), null, null)), 4);
    // a float has the eight XMM registers
    assert_eq!(refusal(call(None, lost, Operand::Float(0))), 5);
    let args = [vec![lost], vec![Operand::Float(0); 8], vec![Operand::Float(9)]].concat();
    assert_eq!(refusal(Instr::Call { dest: None, symbol: 0, args }), 5);
    // the first refused call is the one that counts
    let body = vec![call(None, null, null), call(None, address, null), call(None, null, lost)];
    assert_eq!(lowered(&sheet(body)), Err((7, 2)));
    let body = vec![call(None, null, null), call(None, null, lost), call(None, address, null)];
    assert_eq!(lowered(&sheet(body)), Err((5, 2)));
}

#[test]
fn float_dest_and_conditions() {
    for op in (binary::OR..=binary::SHR).chain([binary::REM]) {
        assert_eq!(refusal(binary(op, beyond(FLOAT), Operand::Float(9), Operand::Null)), 7);
    }
    assert_eq!(refusal(Instr::JumpIfNot { cond: Operand::Address(own(LONG)), label: 1 }), 7);
    assert_eq!(refusal(Instr::JumpIfNot { cond: Operand::Null, label: 1 }), 5);
    assert_eq!(refusal(Instr::Label(1)), 5);
    assert_eq!(refusal(Instr::Jump(i64::MAX)), 5);
}

// ---- what lowers all the same

#[test]
fn casts_take_no_source_width() {
    for (id, count) in [(10, 2), (11, 3), (12, 0)] {
        let src = Operand::Var(array(id, BYTE, count));
        let list = block(Instr::Cast { dest: own(LONG), src });
        assert_eq!((list[0][..2].to_vec(), list[0][6..].to_vec()), (vec![7, 1], vec![8, 4]));
    }
    let two = Instr::Cast { dest: own(FLOAT), src: Operand::Var(array(10, BYTE, 2)) };
    assert_eq!(block(two)[0], [5, 2, 1, 16, 5, -50, 2, 0]);
}

#[test]
fn returns_and_arguments_take_no_width() {
    for code in [CUSTOM, NULL] {
        let value = Operand::Var(var(0, code));
        assert_eq!(lowered(&sheet(vec![Instr::Return(value)])).map(|list| list[3][6]), Ok(0));
        let call = Instr::Call { dest: None, symbol: 0, args: vec![value] };
        assert_eq!(block(call)[0], [0, 0, 1, 7, 5, -8, 0, 0]);
    }
    let value = Operand::Var(array(11, BYTE, 3));
    assert_eq!(lowered(&sheet(vec![Instr::Return(value)])).map(|list| list[3][6]), Ok(8));
    assert_eq!(block(Instr::Copy { dest: array(10, BYTE, 2), src: Operand::Null })[1][6], 2);
}

#[test]
fn short_floats_at_their_size() {
    // float 0 is long, float 1 short
    for (ret, load) in [(LONG, [0, 0, 1, 0]), (FLOAT, [0, 11, 1, 16])] {
        for (id, size) in [(0, 8), (1, 4)] {
            let body = vec![Instr::Return(Operand::Float(id))];
            let list = lowered(&Sheet { return_type: Some(Type::scalar(ret)), ..sheet(body) })
                .expect("it lowers");
            assert_eq!((&list[3][..4], &list[3][4..]), (&load[..], &[7, id, size, 0][..]));
        }
    }
    let args =
        vec![Operand::Float(1), short(5), Operand::Float(0), Operand::Float(1), read(SHORT_FLOAT)];
    let call = block(Instr::Call { dest: None, symbol: 0, args });
    let sizes: Vec<i64> = call.iter().map(|record| record[6]).collect();
    assert_eq!(sizes, [4, 4, 8, 4, 4, 0, 0]);
    // where a size is given it stays
    let copy = block(Instr::Copy { dest: own(FLOAT), src: Operand::Float(1) });
    assert_eq!(copy[0], [0, 0, 1, 0, 7, 1, 8, 0]);
    assert_eq!(lowered(&sheet(vec![Instr::Return(Operand::Float(2))])), Err((5, 1)));
}

#[test]
fn unsigned_shorts_widen_with_zeros() {
    let cast = |dest, src| block(Instr::Cast { dest, src });
    let slot = |var: Variable| -sheet(vec![]).offsets()[var.id as usize];
    let (constant, from) = (unsigned_short(-1), slot(own(UNSIGNED_SHORT)));
    // every dest of eight bytes that is no float
    for dest in [own(LONG), own(UNSIGNED_LONG), own(ADDRESS), array(0, UNSIGNED_SHORT, 2)] {
        let store = [0, 0, RBP_PLUS, slot(dest), 1, 0, 8, 0];
        let load = [0, 0, 1, 0, RBP_PLUS, from, 4, 0];
        assert_eq!(cast(dest, read(UNSIGNED_SHORT)), [load, store]);
        assert_eq!(cast(dest, constant), [[0, 0, 1, 0, 2, -1, 4, 0], store]);
        // what is no unsigned short stays Krc's: a signed one, an array of four bytes
        assert_eq!(cast(dest, read(SHORT))[0][..2], [7, 1]);
        assert_eq!(cast(dest, short(-1)).len(), 3);
        let one = Operand::Var(array(3, UNSIGNED_SHORT, 1));
        assert_eq!(cast(dest, one), [[7, 1, 1, 0, RBP_PLUS, from, 8, 4], store]);
    }
    // to a float, to four bytes and to fewer nothing alters
    let to_float = cast(own(FLOAT), read(UNSIGNED_SHORT));
    assert_eq!(to_float[0], [5, 2, 1, 16, RBP_PLUS, from, 4, 0]);
    assert_eq!(cast(own(FLOAT), constant).len(), 3);
    assert_eq!(cast(own(SHORT), read(UNSIGNED_SHORT))[1][6], 4);
    assert_eq!(cast(own(BYTE), constant)[1][6], 1);
    // the source is looked up before dest, and dest's width last
    let refused = |dest, src| refusal(Instr::Cast { dest, src });
    let lost = Operand::Var(beyond(UNSIGNED_SHORT));
    assert_eq!(refused(array(0, BYTE, 9), lost), 5);
    assert_eq!(refused(array(0, BYTE, 9), constant), 6);
    assert_eq!(refused(array(13, BYTE, 9), constant), 5);
    assert_eq!(refused(var(0, CUSTOM), lost), 4);
}

#[test]
fn strings_as_operands() {
    use binary::*;
    let string = Operand::DataAddress(0);
    for op in [ADD, SUB, BIT_OR, BIT_XOR, BIT_AND] {
        assert_eq!(refusal(super::tests::binary(op, own(LONG), Operand::Null, string)), 7);
    }
    for op in [MUL, DIV, REM, SHL, SHR, EQ, NOT_EQ, LT, LE, GT, GE] {
        let list = block(super::tests::binary(op, own(LONG), Operand::Null, string));
        assert_eq!(list[1], [8, 0, 1, 1, 6, 0, 0, 0]);
    }
    for op in BIT_OR..=REM {
        let list = block(super::tests::binary(op, own(LONG), string, Operand::Null));
        assert_eq!(list[0], [8, 0, 1, 0, 6, 0, 0, 0]);
    }
}

const SUB_RSP: [i64; 5] = [0, 3, 1, 4, 2];
const ADD_RSP: [i64; 5] = [0, 2, 1, 4, 2];

/// The records of a move of RSP.
fn moved(operation: [i64; 5], area: i64) -> Record {
    let [form, operation, tag, register, immediate] = operation;
    [form, operation, tag, register, immediate, area, 0, 0]
}

#[test]
fn calls_with_excess() {
    // six general and eight float registers are spent
    let registers = [vec![Operand::Null; 6], vec![read(FLOAT); 8]].concat();
    let excess = vec![
        read(BOOL),
        Operand::Float(1),
        Operand::DataAddress(0),
        read(SHORT_FLOAT),
        Operand::Bool(true),
        Operand::Var(array(11, BYTE, 3)),
        Operand::Var(var(0, NULL)),
        short(5),
        Operand::Float(0),
    ];
    let args = [registers.clone(), excess].concat();
    let list = block(Instr::Call { dest: Some(own(BYTE)), symbol: 7, args });
    let loads = [
        [7, 2, 1, 0, 5, -37, 8, 1],
        [0, 0, 1, 0, 7, 1, 4, 0],
        [8, 0, 1, 0, 6, 0, 0, 0],
        [0, 0, 1, 0, 5, -36, 4, 0],
        [0, 0, 1, 0, 2, 1, 4, 0],
        [0, 0, 1, 0, 5, -53, 8, 0],
        [0, 0, 1, 0, 5, -8, 0, 0],
        [0, 0, 1, 0, 2, 5, 4, 0],
        [0, 0, 1, 0, 7, 0, 8, 0],
    ];
    assert_eq!(list[0], moved(SUB_RSP, 80));
    for (j, load) in loads.into_iter().enumerate() {
        assert_eq!(list[1 + 2 * j], load);
        assert_eq!(list[2 + 2 * j], [0, 0, 8, 8 * j as i64, 1, 0, 8, 0]);
    }
    let kept = block(Instr::Call { dest: Some(own(BYTE)), symbol: 7, args: registers });
    assert_eq!(kept[14..16], [[0, 0, 1, 0, 2, 8, 0, 0], [6, 1, 3, 7, 0, 0, 0, 0]]);
    assert_eq!(list[19..35], kept[..16]);
    assert_eq!(list[35..], [moved(ADD_RSP, 80), kept[16]]);
}

#[test]
fn both_classes_in_one_sequence() {
    // a seventh general, a ninth float, then again a general, with arguments in registers between
    let args = [
        vec![Operand::Float(0); 8],
        vec![Operand::Float(0)],
        vec![long(1); 6],
        vec![long(2), Operand::Float(0), long(3)],
    ]
    .concat();
    let list = block(Instr::Call { dest: None, symbol: 0, args });
    assert_eq!(list[0], moved(SUB_RSP, 32));
    let loaded: Vec<[i64; 2]> = (0..4).map(|j| [list[1 + 2 * j][4], list[1 + 2 * j][5]]).collect();
    assert_eq!(loaded, [[7, 0], [2, 2], [7, 0], [2, 3]]);
    assert_eq!(list.len(), 1 + 8 + 14 + 2 + 1);
    // two calls, one without excess between them
    let call = |count| Instr::Call { dest: None, symbol: 0, args: vec![long(9); count] };
    let list = lowered(&sheet(vec![call(7), call(6), call(9)])).expect("it lowers");
    let areas: Vec<i64> = list.iter().filter(|r| r[..5] == SUB_RSP).map(|r| r[5]).collect();
    assert_eq!(areas[1..], [16, 32]);
    assert_eq!(list.len(), 3 + (2 + 2 + 8) + 8 + (2 + 6 + 8) + 3);
}

#[test]
fn the_largest_bodies() {
    // Sub, 58 loads and stores, 6 register arguments, the number of floats, Call, Add, dest
    let records = 6 + 4_096 * (1 + 2 * 58 + 6 + 4);
    let [full, tight, refused] = &limits::largest()[..] else { panic!("three cases") };
    assert_eq!(full.result.as_ref().map(Vec::len), Ok(records));
    assert_eq!(tight.result, Err(Refusal { number: 9, place: records as u64 }));
    assert_eq!(refused.result, Err(Refusal { number: 7, place: 4_096 }));
}

#[test]
fn parameters_beyond_the_registers() {
    let six = vec![own(LONG); 6];
    let lower = |excess: Vec<Variable>| {
        lowered(&Sheet { parameters: [six.clone(), excess].concat(), ..sheet(vec![]) })
    };
    let list = lower(vec![own(BYTE), own(FLOAT), own(SHORT), array(10, BYTE, 2), own(FLOAT)]);
    let list = list.expect("it lowers");
    // floats have registers of their own, and come behind the general ones
    assert_eq!(list[8], [0, 0, 5, -8, 1, 9, 8, 0]);
    assert_eq!(list[9][..6], [0, 12, 5, -32, 1, 16]);
    assert_eq!(list[10][..6], [0, 12, 5, -32, 1, 17]);
    assert_eq!(
        list[11..17],
        [
            [7, 2, 1, 0, 5, 16, 8, 1],
            [0, 0, 5, -39, 1, 0, 1, 0],
            [0, 0, 1, 0, 5, 24, 4, 0],
            [0, 0, 5, -20, 1, 0, 4, 0],
            [0, 0, 1, 0, 5, 32, 2, 0],
            [0, 0, 5, -50, 1, 0, 2, 0],
        ]
    );
    // a ninth float goes through RAX too
    let parameters = vec![own(SHORT_FLOAT); 9];
    let list = lowered(&Sheet { parameters, ..sheet(vec![]) }).expect("it lowers");
    assert_eq!(list[11..13], [[0, 0, 1, 0, 5, 16, 4, 0], [0, 0, 5, -36, 1, 0, 4, 0]]);
    // 4 and 6 before 5 on one of them, the other way round in registers
    assert_eq!(lower(vec![beyond(CUSTOM)]), Err((4, 0)));
    assert_eq!(lower(vec![array(13, BYTE, 3)]), Err((6, 0)));
    assert_eq!(lower(vec![beyond(LONG)]), Err((5, 0)));
    assert_eq!(lower(vec![beyond(LONG), var(0, CUSTOM)]), Err((5, 0)));
    assert_eq!(lower(vec![array(12, BYTE, 0)]), Err((6, 0)));
    // registers come first, whole ones before floats
    assert_eq!(lower(vec![var(0, CUSTOM), beyond(FLOAT)]), Err((5, 0)));
}

#[test]
fn lists_that_no_processor_takes() {
    let cast = |src| block(Instr::Cast { dest: own(FLOAT), src });
    assert_eq!(cast(Operand::Null)[0], [5, 2, 1, 16, 2, 0, 8, 0]);
    // a constant other than Null goes through RAX
    assert_eq!(cast(long(7))[..2], [[0, 0, 1, 0, 2, 7, 8, 0], [5, 2, 1, 16, 1, 0, 8, 0]]);
    let add = |left, right| block(binary(binary::ADD, own(FLOAT), left, right));
    assert_eq!(add(long(7), long(8))[0], [0, 11, 1, 16, 2, 7, 8, 0]);
    assert_eq!(add(long(7), long(8))[1], [0, 13, 1, 16, 2, 8, 8, 0]);
    assert_eq!(add(Operand::DataAddress(0), long(8))[0], [8, 0, 1, 16, 6, 0, 0, 0]);
    let less = block(binary(binary::LT, own(BOOL), read(FLOAT), long(7)));
    assert_eq!(less[0], [0, 11, 1, 16, 2, 7, 8, 0]);
}

#[test]
fn address_operand_always_panics() {
    let address = Operand::Address(own(LONG));
    assert_eq!(refusal(Instr::Return(address)), 7);
    assert_eq!(refusal(Instr::Copy { dest: own(LONG), src: address }), 7);
    assert_eq!(refusal(Instr::Cast { dest: own(FLOAT), src: address }), 7);
    assert_eq!(refusal(Instr::Unary { op: unary::NEG, dest: own(LONG), src: address }), 7);
}

// ---- layout

fn sheet_refusal(cells: &[i64]) -> Option<(u64, u64)> {
    read_sheet(&to_bytes(cells)).err().map(|refusal| (refusal.number, refusal.place))
}

#[test]
fn refusals_of_the_sheet() {
    assert_eq!(sheet_refusal(&EXAMPLE), None);
    assert_eq!(sheet_refusal(&[]), Some((2, 0)));
    assert_eq!(sheet_refusal(&[257]), Some((3, 0)));
    assert_eq!(sheet_refusal(&[0, 0, 0, 0, MAX_COUNT + 1]), Some((2, 4)));
    assert_eq!(sheet_refusal(&[0, 0, 0, 11, MAX_COUNT + 1]), Some((3, 4)));
    assert_eq!(sheet_refusal(&[0, 0, 0, 12, -2]), Some((2, 4)));
    assert_eq!(sheet_refusal(&[EXAMPLE.to_vec(), vec![0]].concat()), Some((2, 24)));
    for (at, value, number) in
        [(9, 0, 2), (10, MAX_COUNT + 1, 3), (12, 1, 2), (17, -1, 2), (23, 1, 2)]
    {
        let mut cells = EXAMPLE;
        cells[at] = value;
        assert_eq!(sheet_refusal(&cells), Some((number, at as u64)));
    }
    let bytes = to_bytes(&EXAMPLE);
    for length in 0..bytes.len() {
        let cut = read_sheet(&bytes[..length]);
        assert_eq!(cut, Err(Refusal { number: 2, place: length as u64 / 8 }));
    }
}

#[test]
fn refusals_of_the_tables() {
    let refused = |cells: &[i64]| read_tables(&to_bytes(cells)).err().map(|refusal| refusal.place);
    let floats = |count| [vec![256], vec![1; count]].concat();
    assert_eq!(refused(&[]), Some(0));
    assert_eq!(refused(&[257, 2]), Some(0));
    assert_eq!(refused(&floats(256)), None);
    assert_eq!(refused(&floats(258)), Some(257));
    assert_eq!(refused(&[0, 1, 2, 2]), Some(2));
    assert_eq!(read_tables(&[0; 9]), Err(Refusal { number: 1, place: 1 }));
}

#[test]
fn listing_of_other_inputs() {
    assert_eq!(listing(&[]), "refused 1 0\n");
    assert_eq!(listing(&[1, 0, 0, 0, 0, 0, 0]), "refused 1 0\n");
    assert_eq!(listing(&to_bytes(&[-1, 0])), "refused 1 0\n");
    assert_eq!(listing(&to_bytes(&[2, 0])), "refused 1 0\n");
    assert_eq!(listing(&to_bytes(&[0, 0])), "refused 1 0\n");
    assert_eq!(listing(&to_bytes(&[1, 0])), "refused 2 0\n");
    assert_eq!(listing(&[to_bytes(&[1, 0]), vec![0]].concat()), "refused 2 0\n");
    assert_eq!(listing(&[0; 65_536]), "refused 1 0\n");
    assert_eq!(listing(&[0; 65_537]), "too long\n");
    let jumps = Sheet { labels: 1, body: vec![Instr::Jump(0); 600], ..Sheet::default() };
    let cells = [vec![1, 0], jumps.cells()].concat();
    assert!(listing(&to_bytes(&cells)).starts_with("ok 606\n"));
}

// ---- the plain test and the steps

#[test]
fn faults_of_labels() {
    use Instr::{Comment, Jump, Label};
    let of = |body| {
        let sheet = Sheet { labels: 2, body, ..Sheet::default() };
        faults(&sheet, lower(&Tables::default(), &sheet).err())
    };
    assert_eq!(of(vec![Label(0), Comment, Label(0)]), [3]);
    assert_eq!(of(vec![Jump(1), Label(0), Jump(0)]), [1]);
    assert_eq!(of(vec![Comment, Label(2)]), [2]);
    assert_eq!(of(vec![Jump(0), Label(0), Label(0)]), [3]);
    assert_eq!(of(vec![Label(0), Label(1), Label(0), Label(0), Jump(0)]), [3, 4]);
}

#[test]
fn faults_of_refusals_and_conditions() {
    use Instr::{Comment, Jump, Label};
    let of = |sheet: Sheet| faults(&sheet, lower(&Tables::default(), &sheet).err());
    let body = |body| of(Sheet { labels: 2, body, ..Sheet::default() });
    let call = Instr::Call { dest: None, symbol: 0, args: vec![] };
    // a label beyond its table refuses at its first instruction; a second one is a second place
    assert_eq!(body(vec![Label(0), Label(0), Jump(2)]), [2, 3]);
    assert_eq!(body(vec![Label(0), Label(2), Label(0)]), [2, 3]);
    assert_eq!(body(vec![Comment, Label(2), Label(2)]), [2, 3]);
    assert_eq!(body(vec![call.clone(), Label(2), call.clone()]), [1, 2, 3]);
    assert_eq!(body(vec![Label(2), Jump(2)]), [1]);
    // before the body
    let variables = vec![Type::scalar(CUSTOM)];
    assert_eq!(of(Sheet { variables, body: vec![call], ..Sheet::default() }), [0, 1]);
}

#[test]
fn a_bool_may_hold_any_byte() {
    let flag = var(0, BOOL);
    let body = vec![
        Instr::JumpIfNot { cond: Operand::Var(flag), label: 0 },
        Instr::Unary { op: unary::NOT, dest: flag, src: Operand::Var(flag) },
        Instr::Label(0),
    ];
    let sheet = Sheet { variables: vec![flag.ty], labels: 1, body, ..Sheet::default() };
    let ends = |byte| run(&sheet, vec![vec![byte]], 10);
    assert_eq!((ends(0).steps, ends(0).variables), (2, vec![vec![0]]));
    assert_eq!((ends(0xfe).steps, ends(0xfe).variables), (3, vec![vec![0xff]]));
}

#[test]
fn division_by_zero_is_a_step() {
    let dest = var(0, UNSIGNED_LONG);
    let body = vec![Instr::Comment, binary(binary::REM, dest, Operand::Null, Operand::Null)];
    let sheet = Sheet { variables: vec![dest.ty], body, ..Sheet::default() };
    let run = run(&sheet, vec![vec![3; 8]], 10);
    assert_eq!((run.end, run.steps, run.variables), (End::Fault, 2, vec![vec![3; 8]]));
    let empty = steps::run(&Sheet::default(), vec![], 0);
    assert_eq!((empty.end, empty.steps), (End::FellOff, 0));
}

/// Where a division of two constants leads: the value of dest, or none by a fault that changes
/// nothing.
fn divided(op: i64, code: i64, left: i64, right: i64) -> Option<i64> {
    let dest = var(0, code);
    let constant = if dest.ty.size() == Some(4) { short } else { long };
    let body = vec![binary(op, dest, constant(left), constant(right))];
    let sheet = Sheet { variables: vec![dest.ty], body, ..Sheet::default() };
    assert_eq!(faults(&sheet, None), []);
    let before = vec![3; dest.ty.size().expect("a width") as usize];
    let run = run(&sheet, vec![before.clone()], 10);
    assert_eq!(run.steps, 1);
    if run.end == End::Fault {
        assert_eq!(run.variables[0], before);
        return None;
    }
    Some(match run.variables[0].as_slice().try_into() {
        Ok(bytes) => i64::from_le_bytes(bytes),
        Err(_) => {
            i32::from_le_bytes(run.variables[0].as_slice().try_into().expect("four bytes")).into()
        }
    })
}

#[test]
fn signed_quotients() {
    use binary::{DIV, REM};
    for (code, least) in [(SHORT, i64::from(i32::MIN)), (LONG, i64::MIN)] {
        let both = |a, b| (divided(DIV, code, a, b), divided(REM, code, a, b));
        assert_eq!(both(-7, 2), (Some(-3), Some(-1)));
        assert_eq!(both(7, -2), (Some(-3), Some(1)));
        assert_eq!(both(-7, -2), (Some(3), Some(-1)));
        assert_eq!(both(least, 1), (Some(least), Some(0)));
        assert_eq!(both(least, -2), (Some(-(least / 2)), Some(0)));
        assert_eq!(both(least + 1, -1), (Some(-(least + 1)), Some(0)));
        assert_eq!(both(-1, least), (Some(0), Some(-1)));
        assert_eq!(both(least, -1), (None, None));
        assert_eq!(both(-7, 0), (None, None));
    }
    // a short constant 4294967295 is -1 where dest is signed, and the least by it faults
    assert_eq!(divided(DIV, SHORT, 7, 4_294_967_295), Some(-7));
    assert_eq!(divided(REM, SHORT, 1 << 31, 4_294_967_295), None);
    // with an unsigned dest both are read as unsigned
    assert_eq!(divided(DIV, UNSIGNED_SHORT, 1 << 31, -1), Some(0));
    assert_eq!(divided(DIV, UNSIGNED_LONG, -1, 2), Some(i64::MAX));
}

#[test]
fn signed_division_extends_at_the_width_of_dest() {
    for (code, extend, size) in [(SHORT, 5, 4), (LONG, 6, 8)] {
        for (op, result) in [(binary::DIV, 0), (binary::REM, 2)] {
            let list = block(binary(op, own(code), read(code), read(code)));
            assert_eq!(
                list[2..4],
                [[17, extend, 0, 0, 0, 0, size, 0], [4, 5, 0, 0, 1, 1, size, 0]]
            );
            assert_eq!((list.len(), &list[4][4..7]), (5, &[1, result, size][..]));
        }
    }
}

// ---- the generators

#[test]
fn what_is_written_is_read() {
    let mut rng = Rng::new(7);
    for _ in 0..500 {
        for Draft { tables, sheet } in [any::draft(&mut rng), plain::draft(&mut rng)] {
            assert_eq!(read_tables(&to_bytes(&tables.cells())), Ok(tables));
            assert_eq!(read_sheet(&to_bytes(&sheet.cells())), Ok(sheet));
        }
    }
}

#[test]
fn plain_drafts_are_plain() {
    let mut rng = Rng::new(8);
    for _ in 0..2_000 {
        let Draft { tables, sheet } = plain::draft(&mut rng);
        assert!(lower(&tables, &sheet).is_ok());
        assert_eq!(faults(&sheet, None), [], "{sheet}");
    }
}

#[test]
fn the_compact_form_is_read_back() {
    let (cases, calls) = (limits::cases(), calls::fixed());
    assert_eq!(parse(&file(&cases, &calls)), Some((cases, calls)));
}

#[test]
fn the_list_has_every_refusal_and_no_repeats() {
    let cases = list::cases();
    assert!(cases.len() >= 2_000);
    for number in [1, 2, 3, 4, 5, 6, 7, 9] {
        let with = cases
            .iter()
            .filter(|case| case.result.as_ref().is_err_and(|refusal| refusal.number == number));
        assert!(with.count() >= 10, "refusal {number}");
    }
    let mut inputs: Vec<_> =
        cases.iter().map(|case| (&case.tables, &case.sheet, case.out_len)).collect();
    inputs.sort();
    inputs.dedup();
    assert_eq!(inputs.len(), cases.len());
}

#[test]
fn packs_by_the_request() {
    let read = |cells: &[i64]| {
        calls::pack::read(&to_bytes(cells)).map_err(|refusal| (refusal.number, refusal.place))
    };
    assert_eq!(read(&[1, 3, 1, 7]), Ok(vec![(24, 8)]));
    assert_eq!(read(&[2, 5, 0, 5, 0]), Ok(vec![(40, 0), (40, 0)]));
    assert_eq!(read(&[1, 4, 1, 7, 8]), Err((13, 1)));
    assert_eq!(read(&[2, 5, 1, 7, 1, 7, 8]), Err((13, 3)));
    assert_eq!(read(&[1, 3, 2, 7]), Err((13, 2)));
    assert_eq!(read(&[1, 3, -1, 7]), Err((13, 2)));
    assert_eq!(read(&[1, 3, i64::MAX, 7]), Err((13, 2)));
    assert_eq!(read(&[1, 3, 0, 7]), Err((13, 3)));
    assert_eq!(read(&[2, 5, 1, 6]), Err((13, 2)));
    assert_eq!(read(&[257]), Err((13, 0)));
    assert_eq!(read(&[0]), Err((13, 0)));
    assert_eq!(read(&[]), Err((13, 0)));
}

#[test]
fn totals_by_the_request() {
    let calls = (calls::family("totals").expect("a family").listed)();
    let empty = [0, 0, 0, 0, -1, 0];
    let pack = to_bytes(&[[3, 7, 6, 13, 0, 13, 6].as_slice(), &empty, &empty].concat());
    let with =
        |tables: &[i64]| calls.iter().find(|call| call.reads == [to_bytes(tables), pack.clone()]);
    assert_eq!(with(&[0]).map(|call| call.answers.as_slice()), Some([0, 0, 12, 1].as_slice()));
    assert_eq!(with(&[]).map(|call| call.answers.as_slice()), Some([0, 0, 0, 3].as_slice()));
}

#[test]
fn editions_by_the_request() {
    use calls::edition::{Edition, converted};
    let mut both_ways = 0;
    for case in limits::cases().into_iter().chain(crate::cases::random(5, 2_000)) {
        let second = converted(&case.sheet, Edition::First);
        let refused = second.as_ref().err().filter(|refusal| refusal.number <= 3).copied();
        assert_eq!(refused, read_sheet(&case.sheet).err(), "{case}");
        if let Ok(second) = second {
            let first = converted(&to_bytes(&second), Edition::Second);
            assert_eq!(first.map(|cells| to_bytes(&cells)), Ok(case.sheet));
            both_ways += 1;
        }
    }
    assert!(both_ways > 500);
}
