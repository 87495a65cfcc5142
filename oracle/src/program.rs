//! A sheet as Krc's own `Program`.

use crate::sheet::{Instr, Operand, Sheet, Tables, Type, Variable};
use krc::converter::ir::structs as ir;
use krc::parser::postparser::structs::{self as parser, BinaryOp, UnaryOp};

/// The program of one function with the first `length` instructions.
pub fn program(tables: &Tables, sheet: &Sheet, length: usize) -> ir::Program {
    let function = ir::Function {
        symbol: "function".to_string(),
        params: sheet.parameters.iter().map(variable).collect(),
        vars: sheet.variables.iter().map(type_of).collect(),
        labels: (0..sheet.labels).map(|label| label.to_string()).collect(),
        return_type: sheet.return_type.as_ref().map(type_of),
        body: Some(sheet.body[..length].iter().map(instr).collect()),
        variadic: false,
    };
    ir::Program {
        funcs: vec![function],
        strings: vec![String::new(); tables.strings as usize],
        floats: tables.floats.iter().map(|short| (0.0, *short)).collect(),
    }
}

fn type_of(ty: &Type) -> parser::Type {
    let element = match ty.code {
        1 => parser::Type::Int { short: false, unsigned: false },
        2 => parser::Type::Int { short: false, unsigned: true },
        3 => parser::Type::Int { short: true, unsigned: false },
        4 => parser::Type::Int { short: true, unsigned: true },
        5 => parser::Type::Float { short: false },
        6 => parser::Type::Float { short: true },
        7 => parser::Type::Bool,
        8 => parser::Type::Char,
        9 => parser::Type::Byte,
        10 => parser::Type::Address(Box::new(parser::Type::Byte)),
        11 => parser::Type::Custom("custom".to_string()),
        12 => parser::Type::Null,
        code => panic!("no type has code {code}"),
    };
    if ty.is_array() { parser::Type::Array(Box::new(element), ty.count as usize) } else { element }
}

fn variable(var: &Variable) -> ir::VarId {
    ir::VarId::new(var.id as usize, type_of(&var.ty))
}

fn operand(operand: &Operand) -> ir::Operand {
    match operand {
        Operand::Var(var) => ir::Operand::Var(variable(var)),
        Operand::Int { value, short, unsigned } => ir::Operand::Int(*value, *short, *unsigned),
        Operand::Float(index) => ir::Operand::Float(*index as usize),
        Operand::Bool(value) => ir::Operand::Bool(*value),
        Operand::Address(var) => ir::Operand::Address(variable(var)),
        Operand::DataAddress(index) => ir::Operand::DataAddress(*index as usize),
        Operand::Null => ir::Operand::Null,
    }
}

fn label(label: i64) -> ir::Label {
    ir::Label::new(label as usize)
}

fn instr(instr: &Instr) -> ir::Instr {
    match instr {
        Instr::Copy { dest, src } => ir::Instr::Copy { dest: variable(dest), src: operand(src) },
        Instr::Unary { op, dest, src } => {
            ir::Instr::Unary { dest: variable(dest), op: unary_op(*op), src: operand(src) }
        }
        Instr::Binary { op, dest, left, right } => ir::Instr::Binary {
            dest: variable(dest),
            op: binary_op(*op),
            left: operand(left),
            right: operand(right),
        },
        Instr::Cast { dest, src } => ir::Instr::Cast { dest: variable(dest), src: operand(src) },
        Instr::Zero(dest) => ir::Instr::Zero(variable(dest)),
        Instr::Call { dest, symbol, args } => ir::Instr::Call {
            dest: dest.as_ref().map(variable),
            symbol: symbol.to_string(),
            args: args.iter().map(operand).collect(),
        },
        Instr::Label(number) => ir::Instr::Label(label(*number)),
        Instr::Jump(number) => ir::Instr::Jump(label(*number)),
        Instr::JumpIfNot { cond, label: number } => {
            ir::Instr::JumpIfNot { cond: operand(cond), target: label(*number) }
        }
        Instr::Return(value) => ir::Instr::Return(operand(value)),
        Instr::Comment => ir::Instr::Comment(String::new()),
    }
}

fn unary_op(op: i64) -> UnaryOp {
    [UnaryOp::Neg, UnaryOp::BitNot, UnaryOp::Not][op as usize]
}

fn binary_op(op: i64) -> BinaryOp {
    use BinaryOp::*;
    let all = [
        Or, And, BitOr, BitXor, BitAnd, Eq, NotEq, Lt, Le, Gt, Ge, Shl, Shr, Add, Sub, Mul, Div,
        Rem,
    ];
    all[op as usize]
}
