//! Records run one by one, as Intel's manual, volume 2, has them; written apart from the code, for what a dry run must report (M-100). It knows the records that
//! lists of plain functions hold.

use krc::record::Record;

use crate::rng::Rng;

const RAX: usize = 0;
const RCX: usize = 1;
const RDX: usize = 2;
const RSP: usize = 4;
const RBP: usize = 5;
const RDI: usize = 7;
/// RDI, RSI, RDX, RCX, R8, R9.
const ARGUMENTS: [usize; 6] = [7, 6, 2, 1, 8, 9];
/// Bytes of other memory below the frame and above the arguments on the stack.
const AROUND: usize = 64;

#[derive(Clone, Copy, PartialEq, Eq, Debug)]
pub enum End {
    /// With RAX.
    Returned(u64),
    Faulted,
    Spent,
}

/// What a run came to: how it ended, how many records were run, and the bytes from RBP less the frame up to RBP.
#[derive(Clone, PartialEq, Eq, Debug)]
pub struct Ran {
    pub end: End,
    pub count: u64,
    pub frame: Vec<u8>,
}

#[derive(Clone, Copy, Default)]
struct Flags {
    carry: bool,
    parity: bool,
    zero: bool,
    sign: bool,
    overflow: bool,
}

struct Machine {
    registers: [u64; 16],
    flags: Flags,
    /// The address of the first byte, and the bytes from there on.
    first: u64,
    bytes: Vec<u8>,
}

/// What follows a record.
enum Next {
    On,
    To(i64),
    Return,
    Fault,
}

/// Runs a list from an entry with these frame bytes and arguments; all that the ABI leaves open is drawn.
pub fn run(rng: &mut Rng, list: &[Record], frame: &[u8], values: &[u64], allowance: u64) -> Ran {
    let (mut machine, base) = Machine::enter(rng, frame, values);
    let label = |wanted: i64| list.iter().position(|record| record[0] == 9 && record[3] == wanted);
    let (mut position, mut count, mut end) = (0, 0, End::Spent);
    while count < allowance && end == End::Spent {
        count += 1;
        position += 1;
        match machine.step(&list[position - 1]) {
            Next::On => {}
            Next::To(target) => position = label(target).expect("a label that is placed"),
            Next::Return => end = End::Returned(machine.registers[RAX]),
            Next::Fault => end = End::Faulted,
        }
    }
    let from = machine.place(base.wrapping_sub(frame.len() as u64));
    Ran { end, count, frame: machine.bytes[from..from + frame.len()].to_vec() }
}

fn bits(size: i64) -> u32 {
    8 * if size == 0 { 8 } else { size as u32 }
}

/// The low bits of a number.
fn low(value: u64, bits: u32) -> u64 {
    value & (u64::MAX >> (64 - bits))
}

fn is_negative(value: u64, bits: u32) -> bool {
    value >> (bits - 1) & 1 == 1
}

/// The low bits as a signed number.
fn signed(value: u64, bits: u32) -> i128 {
    let value = i128::from(low(value, bits));
    if value >> (bits - 1) & 1 == 1 { value - (1 << bits) } else { value }
}

impl Machine {
    /// The frame ends at B, which is returned; arguments beyond the registers stand from B + 16 on.
    fn enter(rng: &mut Rng, frame: &[u8], values: &[u64]) -> (Self, u64) {
        let base = rng.next() & !15;
        let stacked = values.get(ARGUMENTS.len()..).unwrap_or_default();
        let below = AROUND + frame.len();
        let mut bytes = vec![0; below + 16 + 8 * stacked.len() + AROUND];
        rng.fill(&mut bytes);
        bytes[AROUND..below].copy_from_slice(frame);
        for (slot, value) in bytes[below + 16..].chunks_exact_mut(8).zip(stacked) {
            slot.copy_from_slice(&value.to_le_bytes());
        }
        let mut registers = [0; 16];
        registers[RSP] = base.wrapping_add(8);
        ARGUMENTS.iter().zip(values).for_each(|(register, value)| registers[*register] = *value);
        let mut flag = || rng.flag();
        let flags =
            Flags { carry: flag(), parity: flag(), zero: flag(), sign: flag(), overflow: flag() };
        (Self { registers, flags, first: base.wrapping_sub(below as u64), bytes }, base)
    }

    fn place(&self, address: u64) -> usize {
        address.wrapping_sub(self.first) as usize
    }

    fn load(&self, address: u64, bits: u32) -> u64 {
        let at = self.place(address);
        let mut word = [0; 8];
        let bytes = bits as usize / 8;
        word[..bytes].copy_from_slice(&self.bytes[at..at + bytes]);
        u64::from_le_bytes(word)
    }

    fn store(&mut self, address: u64, value: u64, bits: u32) {
        let at = self.place(address);
        let bytes = bits as usize / 8;
        self.bytes[at..at + bytes].copy_from_slice(&value.to_le_bytes()[..bytes]);
    }

    fn address(&self, displacement: i64) -> u64 {
        self.registers[RBP].wrapping_add(displacement as u64)
    }

    fn read(&self, tag: i64, value: i64, bits: u32) -> u64 {
        match tag {
            1 => low(self.registers[value as usize], bits),
            2 => low(value as u64, bits),
            5 => self.load(self.address(value), bits),
            other => panic!("plain lists read no operand of tag {other}"),
        }
    }

    /// Four bytes clear the upper half of a register, one and two keep what is above them.
    fn set(&mut self, register: usize, value: u64, bits: u32) {
        let kept = if bits < 32 { self.registers[register] & (u64::MAX << bits) } else { 0 };
        self.registers[register] = kept | low(value, bits);
    }

    fn write(&mut self, tag: i64, to: i64, value: u64, bits: u32) {
        match tag {
            1 => self.set(to as usize, value, bits),
            5 => self.store(self.address(to), value, bits),
            other => panic!("plain lists write no operand of tag {other}"),
        }
    }

    fn step(&mut self, record: &Record) -> Next {
        let [form, operation, dst_tag, dst, src_tag, src, size, source_size] = *record;
        let width = bits(size);
        match form {
            0 => self.binary(operation, (dst_tag, dst), (src_tag, src), width),
            4 if operation == 4 => {
                let product = signed(self.read(dst_tag, dst, width), width)
                    * signed(self.read(src_tag, src, width), width);
                self.write(dst_tag, dst, product as u64, width);
            }
            4 => return self.divide(self.read(src_tag, src, width), width, operation == 5),
            6 => return self.control(operation, dst),
            7 => {
                let value = self.read(src_tag, src, bits(source_size));
                let wide =
                    if operation == 1 { signed(value, bits(source_size)) as u64 } else { value };
                self.write(dst_tag, dst, wide, width);
            }
            8 => self.write(dst_tag, dst, self.address(src), 64),
            9 => {}
            11 => self.fill(),
            12 => self.write(dst_tag, dst, u64::from(self.holds(operation)), 8),
            13 => self.shift(operation, (dst_tag, dst), self.read(src_tag, src, 8), width),
            14 => self.stack(operation, dst as usize),
            17 => self.unary(operation, (dst_tag, dst), width),
            other => panic!("plain lists hold no form {other}"),
        }
        Next::On
    }

    fn binary(&mut self, operation: i64, dst: (i64, i64), src: (i64, i64), bits: u32) {
        let b = self.read(src.0, src.1, bits);
        if operation == 0 {
            return self.write(dst.0, dst.1, b, bits);
        }
        let a = self.read(dst.0, dst.1, bits);
        let result = match operation {
            2 => self.add(a, b, bits),
            3 | 9 => self.subtract(a, b, bits),
            6 => self.logical(a & b, bits),
            7 => self.logical(a | b, bits),
            8 => self.logical(a ^ b, bits),
            other => panic!("plain lists hold no binary operation {other}"),
        };
        if operation != 9 {
            self.write(dst.0, dst.1, result, bits);
        }
    }

    fn judge(&mut self, result: u64, bits: u32, carry: bool, overflow: bool) -> u64 {
        let result = low(result, bits);
        self.flags = Flags {
            carry,
            parity: (result as u8).count_ones().is_multiple_of(2),
            zero: result == 0,
            sign: is_negative(result, bits),
            overflow,
        };
        result
    }

    fn add(&mut self, a: u64, b: u64, bits: u32) -> u64 {
        let result = a.wrapping_add(b);
        let carry = u128::from(a) + u128::from(b) >> bits != 0;
        let exact = signed(a, bits) + signed(b, bits);
        self.judge(result, bits, carry, exact != signed(result, bits))
    }

    fn subtract(&mut self, a: u64, b: u64, bits: u32) -> u64 {
        let result = a.wrapping_sub(b);
        let exact = signed(a, bits) - signed(b, bits);
        self.judge(result, bits, a < b, exact != signed(result, bits))
    }

    fn logical(&mut self, result: u64, bits: u32) -> u64 {
        self.judge(result, bits, false, false)
    }

    /// AX by one byte, else RDX and RAX together. A quotient that does not fit is a fault, as a zero divisor is.
    fn divide(&mut self, divisor: u64, bits: u32, is_signed: bool) -> Next {
        let rax = self.registers[RAX];
        let (high, bottom) = if bits == 8 {
            (low(rax >> 8, 8), low(rax, 8))
        } else {
            (low(self.registers[RDX], bits), low(rax, bits))
        };
        let (quotient, remainder) = if is_signed {
            let dividend = signed(high, bits) << bits | i128::from(bottom);
            let divisor = signed(divisor, bits);
            if divisor == 0 {
                return Next::Fault;
            }
            let (Some(quotient), Some(remainder)) =
                (dividend.checked_div(divisor), dividend.checked_rem(divisor))
            else {
                return Next::Fault;
            };
            if signed(quotient as u64, bits) != quotient {
                return Next::Fault;
            }
            (quotient as u64, remainder as u64)
        } else {
            let dividend = u128::from(high) << bits | u128::from(bottom);
            let divisor = u128::from(divisor);
            if divisor == 0 || dividend / divisor >> bits != 0 {
                return Next::Fault;
            }
            ((dividend / divisor) as u64, (dividend % divisor) as u64)
        };
        if bits == 8 {
            self.set(RAX, low(remainder, 8) << 8 | low(quotient, 8), 16);
        } else {
            self.set(RAX, quotient, bits);
            self.set(RDX, remainder, bits);
        }
        Next::On
    }

    fn control(&mut self, operation: i64, label: i64) -> Next {
        match operation {
            0 => Next::To(label),
            2 => Next::Return,
            64..80 if self.holds(operation - 64) => Next::To(label),
            64..80 => Next::On,
            other => panic!("plain lists hold no control operation {other}"),
        }
    }

    /// By the position in `ConditionCode`.
    fn holds(&self, code: i64) -> bool {
        let Flags { carry, parity, zero, sign, overflow } = self.flags;
        match code {
            0 => zero,
            1 => !zero,
            2 => !zero && sign == overflow,
            3 => sign == overflow,
            4 => sign != overflow,
            5 => zero || sign != overflow,
            6 => !carry && !zero,
            7 => !carry,
            8 => carry,
            9 => carry || zero,
            14 => parity,
            15 => !parity,
            other => panic!("plain lists hold no condition {other}"),
        }
    }

    /// REP STOSB with the direction flag clear.
    fn fill(&mut self) {
        let al = self.registers[RAX] as u8;
        let (at, count) = (self.place(self.registers[RDI]), self.registers[RCX] as usize);
        self.bytes[at..at + count].fill(al);
        self.registers[RDI] = self.registers[RDI].wrapping_add(count as u64);
        self.registers[RCX] = 0;
    }

    fn shift(&mut self, operation: i64, dst: (i64, i64), count: u64, bits: u32) {
        let count = (count % if bits == 64 { 64 } else { 32 }) as u32;
        let value = self.read(dst.0, dst.1, bits);
        let result = match operation {
            0 => value << count,
            1 => value >> count,
            _ => (signed(value, bits) >> count) as u64,
        };
        self.write(dst.0, dst.1, result, bits);
    }

    fn stack(&mut self, operation: i64, register: usize) {
        if operation == 0 {
            self.registers[RSP] = self.registers[RSP].wrapping_sub(8);
            self.store(self.registers[RSP], self.registers[register], 64);
        } else {
            self.registers[register] = self.load(self.registers[RSP], 64);
            self.registers[RSP] = self.registers[RSP].wrapping_add(8);
        }
    }

    fn unary(&mut self, operation: i64, dst: (i64, i64), bits: u32) {
        match operation {
            0 => {
                let result = 0u64.wrapping_sub(self.read(dst.0, dst.1, bits));
                self.write(dst.0, dst.1, result, bits);
            }
            1 => self.write(dst.0, dst.1, !self.read(dst.0, dst.1, bits), bits),
            5 | 6 => {
                let bits = if operation == 5 { 32 } else { 64 };
                let fill = if is_negative(self.registers[RAX], bits) { u64::MAX } else { 0 };
                self.set(RDX, fill, bits);
            }
            other => panic!("plain lists hold no unary operation {other}"),
        }
    }
}
