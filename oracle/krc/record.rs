//! Krc's instructions as records of eight cells: form, operation, dst tag, dst value,
//! src tag, src value, size, source size.

use crate::elf::instructions::register::{RBP, Register, RegisterClass};
use crate::elf::instructions::{
    AddressingMode, ComplexBinOp, CtrlOp, Instruction, LabelId, MemAddress, MemDisplacement,
    Operand, Prefix, Size, StackOp, StringOp,
};

pub type Record = [i64; 8];

/// Place of the destination tag in a record; its value follows.
pub const DST: usize = 2;
/// Tag of a label, whose value is the raw id until it is mapped.
pub const LABEL: i64 = 4;

/// Tag and value.
type Cells = (i64, i64);
const NONE: Cells = (0, 0);

pub fn records(code: &[Instruction]) -> Vec<Record> {
    code.iter().map(record).collect()
}

/// The number that Krc's counter gave the label.
pub fn label_number(label: LabelId) -> u32 {
    let text = label.to_string();
    let digits = text.trim_start_matches(|c: char| !c.is_ascii_digit());
    digits.parse().expect("a label is shown with its number")
}

fn record(instruction: &Instruction) -> Record {
    use Instruction as I;
    match instruction {
        I::Binary { op, dst, src, size } => row(0, *op as i64, operand(dst), operand(src), size),
        I::ComplexBinary { op, dst, src, size, extra } => {
            assert!(extra.is_none(), "a record has no third operand");
            row(4, complex(op), operand(dst), operand(src), size)
        }
        I::Convert { op, dst, src, size } => row(5, *op as i64, register(dst), operand(src), size),
        I::Ctrl { op, target } => row(6, control(op), operand(target), NONE, &None),
        I::Extend { op, dst, src, src_size, size } => {
            let mut cells = row(7, *op as i64, register(dst), operand(src), size);
            cells[7] = width(src_size);
            cells
        }
        I::Lea { src, dst, size } => row(8, 0, register(dst), operand(src), size),
        I::Label(label) => row(9, 0, label_cells(*label), NONE, &None),
        I::Prefix { prefix, ins } => prefixed(prefix, ins),
        I::SetCC { op, dst } => row(12, *op as i64, operand(dst), NONE, &None),
        I::Shift { op, dst, src, size } => row(13, *op as i64, operand(dst), operand(src), size),
        I::Stack { op, value, size } => row(14, stack(op), operand(value), NONE, size),
        I::Unary { op, dst, size } => row(17, *op as i64, operand(dst), NONE, size),
        other => panic!("the lowering makes no {other:?}"),
    }
}

fn row(form: i64, operation: i64, dst: Cells, src: Cells, size: &Option<Size>) -> Record {
    [form, operation, dst.0, dst.1, src.0, src.1, width(size), 0]
}

fn width(size: &Option<Size>) -> i64 {
    size.map_or(0, |size| size as i64)
}

fn complex(op: &ComplexBinOp) -> i64 {
    match op {
        ComplexBinOp::Xadd => 0,
        ComplexBinOp::Cmpxchg => 1,
        ComplexBinOp::Mul => 2,
        ComplexBinOp::Div => 3,
        ComplexBinOp::Imul => 4,
        ComplexBinOp::Idiv => 5,
    }
}

fn control(op: &CtrlOp) -> i64 {
    match op {
        CtrlOp::Jmp => 0,
        CtrlOp::Call => 1,
        CtrlOp::Ret => 2,
        CtrlOp::IRet => 3,
        CtrlOp::JmpCC(condition) => 16 * 4 + *condition as i64,
        CtrlOp::Loop => 5,
        CtrlOp::Loope => 6,
        CtrlOp::Loopne => 7,
    }
}

fn stack(op: &StackOp) -> i64 {
    match op {
        StackOp::Push => 0,
        StackOp::Pop => 1,
        other => panic!("the lowering makes no {other:?}"),
    }
}

/// One prefix before a string operation: 16 times the prefix plus the operation.
fn prefixed(prefix: &[Prefix], inner: &Instruction) -> Record {
    let ([prefix], Instruction::String { op, size }) = (prefix, inner) else {
        panic!("the lowering makes no {prefix:?} {inner:?}");
    };
    let op = match op {
        StringOp::Movs => 0,
        StringOp::Cmps => 1,
        StringOp::Scas => 2,
        StringOp::Lods => 3,
        StringOp::Stos => 4,
    };
    row(11, 16 * (*prefix as i64) + op, NONE, NONE, size)
}

fn operand(operand: &Operand) -> Cells {
    match operand {
        Operand::NoOperand => NONE,
        Operand::Reg(reg) => register(reg),
        Operand::Imm(value) => (2, *value),
        Operand::Sym(name) => (3, index(name, "")),
        Operand::Label(label) => label_cells(*label),
        Operand::MemoryAddress(address) => memory(address),
    }
}

fn register(register: &Register) -> Cells {
    match register.class {
        RegisterClass::Gpr => (1, i64::from(register.index)),
        RegisterClass::Xmm => (1, 16 + i64::from(register.index)),
        other => panic!("the lowering uses no {other:?}"),
    }
}

fn label_cells(label: LabelId) -> Cells {
    (LABEL, i64::from(label_number(label)))
}

/// RBP plus a displacement, or a string or float by its number.
fn memory(address: &MemAddress) -> Cells {
    assert!(address.index.is_none(), "no index register");
    match (&address.disp, &address.mode, address.base) {
        (MemDisplacement::Imm(offset), AddressingMode::Default, Some(RBP)) => {
            (5, i64::from(*offset))
        }
        (MemDisplacement::Sym(name), AddressingMode::RipRelative, None) => {
            if name.starts_with(".dt.") {
                (6, index(name, ".dt."))
            } else {
                (7, index(name, ".float."))
            }
        }
        _ => panic!("the lowering makes no {address:?}"),
    }
}

fn index(name: &str, prefix: &str) -> i64 {
    let digits = name.strip_prefix(prefix);
    digits.and_then(|text| text.parse().ok()).expect("a name ends with its number")
}
