//! Records as GNU assembler text in Intel syntax, written from the cells.

use std::fmt::Write;

use krc::record::Record;

const SIZED: [[&str; 16]; 4] = [
    [
        "al", "cl", "dl", "bl", "spl", "bpl", "sil", "dil", "r8b", "r9b", "r10b", "r11b", "r12b",
        "r13b", "r14b", "r15b",
    ],
    [
        "ax", "cx", "dx", "bx", "sp", "bp", "si", "di", "r8w", "r9w", "r10w", "r11w", "r12w",
        "r13w", "r14w", "r15w",
    ],
    [
        "eax", "ecx", "edx", "ebx", "esp", "ebp", "esi", "edi", "r8d", "r9d", "r10d", "r11d",
        "r12d", "r13d", "r14d", "r15d",
    ],
    [
        "rax", "rcx", "rdx", "rbx", "rsp", "rbp", "rsi", "rdi", "r8", "r9", "r10", "r11", "r12",
        "r13", "r14", "r15",
    ],
];
/// By the position in `ConditionCode`.
const CONDITIONS: [&str; 16] =
    ["e", "ne", "g", "ge", "l", "le", "a", "ae", "b", "be", "s", "ns", "o", "no", "p", "np"];

/// The text of one batch: the functions and a table of their addresses. Strings and floats of a
/// function are named by its number and theirs, callees by their symbol's.
pub fn batch(lists: &[&[Record]], counting: bool) -> String {
    let mut text = ".intel_syntax noprefix\n.text\n".to_string();
    for (number, list) in lists.iter().enumerate() {
        writeln!(text, ".p2align 4\nfunction_{number}:").expect("text grows");
        for (index, record) in list.iter().enumerate() {
            let line = instruction(number, record);
            let count = if counting { counter(index) } else { String::new() };
            // a jump to a label runs the label, so the label is counted behind its place
            let is_label = record[0] == 9;
            let (first, second) = if is_label { (line, count) } else { (count, line) };
            writeln!(text, "{first}\n{second}").expect("text grows");
        }
    }
    text.push_str(".section .data.rel.ro,\"aw\"\n.globl functions\n.p2align 3\nfunctions:\n");
    for number in 0..lists.len() {
        writeln!(text, ".quad function_{number}").expect("text grows");
    }
    text.push_str(".section .note.GNU-stack,\"\",@progbits\n");
    text
}

/// R15 counts the records run, R14 holds the position of the last; no flag changes.
fn counter(index: usize) -> String {
    format!("lea r15, [r15 + 1]\nmov r14d, {index}")
}

fn instruction(function: usize, record: &Record) -> String {
    let [form, operation, dst_tag, dst, src_tag, src, size, source_size] = *record;
    let size = if size == 0 { 8 } else { size };
    let to = operand(function, dst_tag, dst, size);
    let from = operand(function, src_tag, src, size);
    match (form, operation) {
        (0, 11 | 12) => format!("movs{} {to}, {from}", if size == 4 { 's' } else { 'd' }),
        (0, _) => format!("{} {to}, {from}", binary(operation)),
        (4, 3) => format!("div {from}"),
        (4, 4) => format!("imul {to}, {from}"),
        (4, 5) => format!("idiv {from}"),
        (6, 0) => format!("jmp {to}"),
        (6, 1) => format!("call {to}"),
        (6, 2) => "ret".to_string(),
        (6, 64..80) => format!("j{} {to}", CONDITIONS[operation as usize - 64]),
        (7, 1) => format!("movsxd {to}, {}", operand(function, src_tag, src, source_size)),
        (7, 2) => format!("movzx {to}, {}", operand(function, src_tag, src, source_size)),
        (8, _) => format!("lea {to}, {from}"),
        (9, _) => format!("{to}:"),
        (11, 20) => "rep stosb".to_string(),
        (12, _) => {
            let to = operand(function, dst_tag, dst, 1);
            format!("set{} {to}", CONDITIONS[operation as usize])
        }
        // the count of a shift is always CL
        (13, _) => format!("{} {to}, {}", shift(operation), operand(function, src_tag, src, 1)),
        (14, 0) => format!("push {to}"),
        (14, 1) => format!("pop {to}"),
        (17, 0) => format!("neg {to}"),
        (17, 1) => format!("not {to}"),
        (17, 5) => "cdq".to_string(),
        (17, 6) => "cqo".to_string(),
        _ => panic!("these lists hold no {record:?}"),
    }
}

fn binary(operation: i64) -> &'static str {
    match operation {
        0 => "mov",
        2 => "add",
        3 => "sub",
        6 => "and",
        7 => "or",
        8 => "xor",
        9 => "cmp",
        other => panic!("these lists hold no binary operation {other}"),
    }
}

fn shift(operation: i64) -> &'static str {
    ["shl", "shr", "sar"][operation as usize]
}

fn operand(function: usize, tag: i64, value: i64, size: i64) -> String {
    match tag {
        0 => String::new(),
        1 if value >= 16 => format!("xmm{}", value - 16),
        1 => register(value, size).to_string(),
        2 => value.to_string(),
        3 => format!("symbol{value}"),
        4 => format!(".L{function}_{value}"),
        5 => format!("{} ptr [rbp {value:+}]", pointer(size)),
        6 => format!("[rip + string_{function}_{value}]"),
        7 => format!("{} ptr [rip + float_{function}_{value}]", pointer(size)),
        8 => format!("{} ptr [rsp {value:+}]", pointer(size)),
        other => panic!("these lists hold no operand of tag {other}"),
    }
}

fn register(index: i64, size: i64) -> &'static str {
    let row = match size {
        1 => 0,
        2 => 1,
        4 => 2,
        8 => 3,
        other => panic!("these lists hold no size {other}"),
    };
    SIZED[row][index as usize]
}

fn pointer(size: i64) -> &'static str {
    match size {
        1 => "byte",
        2 => "word",
        4 => "dword",
        8 => "qword",
        other => panic!("these lists hold no size {other}"),
    }
}
