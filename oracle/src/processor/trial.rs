//! Plain functions with entry states, and what their steps lead to.

use crate::cases::{any, plain};
use crate::plain::faults;
use crate::rng::Rng;
use crate::sheet::{Sheet, Tables};
use crate::steps::{End, Run, run};
use krc::record::Record;

/// Runs of one function.
const ENTRIES: usize = 3;
/// A run with more steps is left out.
const MAX_STEPS: u64 = 2_000;
/// Bytes watched below the frame and above the return address.
pub const MARGIN: usize = 4_096;
/// The return address and the saved RBP.
pub const LINK: usize = 16;

pub const RSP: usize = 4;
pub const RBP: usize = 5;
/// RBX and R12 to R15.
pub const SAVED: [usize; 5] = [3, 12, 13, 14, 15];
pub const COUNTER: usize = 15;
pub const POSITION: usize = 14;
pub const FLAGS: usize = 16;
/// RDI, RSI, RDX, RCX, R8, R9.
pub const PARAMETERS: [usize; 6] = [7, 6, 2, 1, 8, 9];

pub struct Trial {
    pub sheet: Sheet,
    pub list: Vec<Record>,
    pub entries: Vec<Entry>,
}

/// The machine at entry, and the run of the function's steps from there.
pub struct Entry {
    pub registers: [u64; 17],
    /// How far B lies below its highest place.
    pub shift: u64,
    /// Bytes of the region below B.
    pub below: usize,
    pub region: Vec<u8>,
    pub run: Run,
}

/// What makes the lists that are run.
pub type Lowering = fn(&Tables, &Sheet) -> Vec<Record>;

/// A random plain function whose runs all end.
pub fn draw(rng: &mut Rng, lowering: Lowering) -> Trial {
    loop {
        let draft = plain::draft(rng);
        let list = lowering(&draft.tables, &draft.sheet);
        assert!(faults(&draft.sheet, None).is_empty(), "not plain:\n{}", draft.sheet);
        let entries: Vec<Entry> = (0..ENTRIES).map(|_| entry(rng, &draft.sheet)).collect();
        if entries.iter().all(|entry| entry.run.end != End::Unended) {
            return Trial { sheet: draft.sheet, list, entries };
        }
    }
}

pub fn frame(sheet: &Sheet) -> usize {
    sheet.frame() as usize
}

/// Where the slot of each variable lies in a region with `below` bytes under B.
pub fn slots(sheet: &Sheet, below: usize) -> Vec<std::ops::Range<usize>> {
    let sizes = sheet.variables.iter().map(|ty| ty.size().expect("a plain type") as usize);
    let starts = sheet.offsets().into_iter().map(|offset| below - offset as usize);
    starts.zip(sizes).map(|(start, size)| start..start + size).collect()
}

/// Where parameter `j` beyond the registers lies in such a region: at B + 16 + 8j.
pub fn stacked(below: usize, j: usize) -> std::ops::Range<usize> {
    let start = below + LINK + 8 * j;
    start..start + 8
}

/// How many parameters of a plain function lie beyond the registers.
pub fn excess(sheet: &Sheet) -> usize {
    sheet.parameters.len().saturating_sub(PARAMETERS.len())
}

fn entry(rng: &mut Rng, sheet: &Sheet) -> Entry {
    let below = frame(sheet) + MARGIN;
    let mut region = vec![0; below + LINK + MARGIN];
    rng.fill(&mut region);
    let mut registers = [0; 17].map(|_: u64| rng.next());
    registers[FLAGS] = flags(rng) | AC;
    let slots = slots(sheet, below);
    for slot in &slots {
        mix_in_edge_value(rng, &mut region[slot.clone()]);
    }
    let mut variables: Vec<Vec<u8>> = slots.into_iter().map(|slot| region[slot].to_vec()).collect();
    for (at, parameter) in sheet.parameters.iter().enumerate() {
        let bytes = &mut variables[parameter.id as usize];
        let width = bytes.len();
        let mut cell = rng.next().to_le_bytes();
        mix_in_edge_value(rng, &mut cell[..width]);
        bytes.copy_from_slice(&cell[..width]);
        match PARAMETERS.get(at) {
            Some(register) => registers[*register] = u64::from_le_bytes(cell),
            None => region[stacked(below, at - PARAMETERS.len())].copy_from_slice(&cell),
        }
    }
    let run = run(sheet, variables, MAX_STEPS);
    Entry { registers, shift: 16 * rng.below(256) as u64, below, region, run }
}

/// Puts a value at the edge of a range into random bytes, at times.
fn mix_in_edge_value(rng: &mut Rng, bytes: &mut [u8]) {
    if bytes.len() <= 8 && rng.chance(1, 2) {
        let value = any::value(rng).to_le_bytes();
        bytes.copy_from_slice(&value[..bytes.len()]);
    }
}

/// With AC set the processor itself raises SIGBUS where a record touches memory that does not lie on its own width.
const AC: u64 = 1 << 18;

/// The direction flag clear, the arithmetic flags at random.
pub fn flags(rng: &mut Rng) -> u64 {
    const ALWAYS: u64 = 0x202;
    const ARITHMETIC: u64 = 0x8d5;
    ALWAYS | rng.next() & ARITHMETIC
}
