//! Cases: what is drawn at random, and what is listed.

pub mod any;
pub mod damage;
pub mod excess;
pub mod faulty;
pub mod limits;
pub mod plain;
pub mod plain_edges;
pub mod systematic;

use crate::cells::to_bytes;
use crate::compact::Case;
use crate::lower::RECORD;
use crate::rng::Rng;
use crate::sheet::{Sheet, Tables};

/// Good tables and a sheet that can be read.
#[derive(Clone, Default)]
pub struct Draft {
    pub tables: Tables,
    pub sheet: Sheet,
}

impl Draft {
    pub fn input(&self) -> Input {
        Input { tables: to_bytes(&self.tables.cells()), sheet: to_bytes(&self.sheet.cells()) }
    }
}

/// Tables and sheet as lent.
#[derive(Clone)]
pub struct Input {
    pub tables: Vec<u8>,
    pub sheet: Vec<u8>,
}

impl Input {
    /// With just enough bytes for the records.
    pub fn with_exact_room(self) -> Case {
        let Input { tables, sheet } = self;
        let mut case = Case::answered(tables, sheet, u64::MAX);
        case.out_len = case.result.as_ref().map_or(0, |list| (list.len() * RECORD) as u64);
        case
    }

    /// With more bytes for the records than needed, just enough, or too few.
    pub fn with_random_room(self, rng: &mut Rng) -> Case {
        let case = self.with_exact_room();
        let exact = case.out_len as usize;
        let out_len = match rng.below(10) {
            0 if exact > 0 => exact - 1,
            1 => rng.below(exact + 1),
            2..=4 => exact,
            _ => exact + rng.below(200),
        };
        Case::answered(case.tables, case.sheet, out_len as u64)
    }
}

/// One case of any sort.
pub fn draw(rng: &mut Rng, limits: &[Case]) -> Case {
    match rng.below(20) {
        0..5 => any::draft(rng).input().with_random_room(rng),
        5 => excess::draft(rng).input().with_random_room(rng),
        6..10 => plain::draft(rng).input().with_random_room(rng),
        10..13 => faulty::draft(rng).input().with_random_room(rng),
        13 => limits[rng.below(limits.len())].clone(),
        _ => damaged(rng, limits),
    }
}

/// A damaged copy of a case.
pub fn damaged(rng: &mut Rng, limits: &[Case]) -> Case {
    let input = match rng.below(6) {
        0 | 1 => any::draft(rng).input(),
        4 => excess::draft(rng).input(),
        2 | 3 => plain::draft(rng).input(),
        _ => {
            let case = limits[rng.below(limits.len())].clone();
            Input { tables: case.tables, sheet: case.sheet }
        }
    };
    damage::damage(rng, input).with_random_room(rng)
}

/// `count` cases from a seed.
pub fn random(seed: u64, count: usize) -> impl Iterator<Item = Case> {
    let mut rng = Rng::new(seed);
    let limits = limits::cases();
    (0..count).map(move |_| draw(&mut rng, &limits))
}
