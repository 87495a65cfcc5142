//! Runs of small plain functions, as text: the entry state and what F's steps lead to.

use std::fmt::Write;

use crate::lower::list;
use crate::processor::trial::{Entry, Trial, draw, excess, frame, slots, stacked};
use crate::rng::Rng;
use crate::sheet::Sheet;
use crate::steps::{End, Run, divides_signed, ends_by_the_least};

/// Larger sheets and longer runs are left out: the checker evaluates each run by itself.
const MAX_CELLS: usize = 170;
const MAX_STEPS: u64 = 60;
const MANY_STEPS: u64 = 16;
const MAX_FRAME: usize = 64;

/// A line a run, `count` of them.
pub fn lines(seed: u64, count: usize) -> String {
    let mut rng = Rng::new(seed);
    let mut text = String::new();
    let mut done = 0;
    while done < count {
        let trial = draw(&mut rng, list);
        if trial.sheet.cells().len() > MAX_CELLS || frame(&trial.sheet) > MAX_FRAME {
            continue;
        }
        let has_excess = excess(&trial.sheet) > 0;
        if done % 8 == 4 && !has_excess {
            continue;
        }
        if let Some(entry) =
            trial.entries.iter().find(|entry| wanted(done, &trial.sheet, &entry.run))
        {
            line(&trial, entry, &mut text);
            done += 1;
        }
    }
    text
}

/// Of eight runs one ends by a fault, every second of these on the least value by -1, one with no
/// instruction left, one after many steps, and one ends by a Return in a function that divides
/// signed numbers; one is of a function with parameters beyond the registers.
fn wanted(k: usize, sheet: &Sheet, run: &Run) -> bool {
    run.steps <= MAX_STEPS
        && match k % 8 {
            0 if k % 16 == 0 => run.end == End::Fault,
            0 => ends_by_the_least(sheet, run),
            1 => run.end == End::FellOff,
            2 => run.steps > MANY_STEPS,
            3 => sheet.body.iter().any(divides_signed) && matches!(run.end, End::Value { .. }),
            _ => true,
        }
}

/// Counted lists of numbers: the sheet's cells, the general registers but RSP (given as 0), the frame's bytes, the bytes of the parameters beyond the
/// registers, eight each; then how the run ends (0 with no instruction left, 1 by a Return, 2 by a fault), its steps, width and value; then the variables'
/// bytes at the end, counted.
fn line(trial: &Trial, entry: &Entry, text: &mut String) {
    let below = entry.below;
    let bytes = &entry.region[below - frame(&trial.sheet)..below];
    let (end, width, value) = match entry.run.end {
        End::FellOff => (0, 0, 0),
        End::Value { value, width } => (1, width, value),
        End::Fault => (2, 0, 0),
        End::Unended => unreachable!("a trial's runs end"),
    };
    debug_assert_eq!(slots(&trial.sheet, below).len(), entry.run.variables.len());
    counted(text, trial.sheet.cells().iter());
    counted(
        text,
        entry.registers[..16].iter().enumerate().map(|(k, r)| if k == 4 { 0 } else { *r }),
    );
    counted(text, bytes.iter());
    let stacked = (0..excess(&trial.sheet)).flat_map(|j| entry.region[stacked(below, j)].iter());
    counted(text, stacked);
    write!(text, "{end} {} {width} {value} ", entry.run.steps).expect("a string takes text");
    counted(text, entry.run.variables.concat().iter());
    text.truncate(text.trim_end().len());
    text.push('\n');
}

fn counted<T: std::fmt::Display>(text: &mut String, numbers: impl Iterator<Item = T>) {
    let words: Vec<String> = numbers.map(|number| number.to_string()).collect();
    write!(text, "{} ", words.len()).expect("a string takes text");
    for word in words {
        text.push_str(&word);
        text.push(' ');
    }
}
