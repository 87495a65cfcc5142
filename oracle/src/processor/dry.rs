//! Dry runs beside the processor (M-100): the engine's run of a plain function, and its list entered natively with the same registers and frame bytes. Held to each
//! other: how it ends, RAX, every frame byte, and the number of records, which a second build of the list counts.

use super::batch::{BuildFolder, Outcome};
use super::trial::{self, COUNTER, Entry, FLAGS, PARAMETERS, Trial, frame, stacked};
use super::{BATCH, RAX, SIGFPE, same};
use crate::calls::Export;
use crate::cells::to_bytes;
use crate::engine;
use crate::lower::RECORD;
use crate::rng::Rng;
use crate::sheet::Tables;

const RETURNED: u64 = 1;
const FAULTED: u64 = 2;

/// `count` functions, each entered a few times; an error tells the first difference.
pub fn test(seed: u64, count: usize) -> Result<String, String> {
    let mut rng = Rng::new(seed);
    let folder = BuildFolder::open()?;
    let (mut functions, mut runs, mut faults, mut records) = (0, 0, 0, 0);
    while functions < count {
        let size = BATCH.min(count - functions);
        let trials: Vec<Trial> = (0..size).map(|_| draw(&mut rng)).collect();
        let plain = folder.run(&trials, false)?;
        let counting = folder.run(&trials, true)?;
        let entries =
            trials.iter().flat_map(|trial| trial.entries.iter().map(move |entry| (trial, entry)));
        for ((trial, entry), (ended, counted)) in entries.zip(plain.iter().zip(&counting)) {
            let count = counted.registers[COUNTER];
            compare(trial, entry, ended, count).map_err(|error| {
                format!("{error}\n{}\nleft in {}", trial.sheet, folder.place().display())
            })?;
            runs += 1;
            faults += usize::from(ended.signal == SIGFPE);
            records += count;
        }
        functions += size;
    }
    folder.close();
    Ok(format!(
        "{functions} functions, {runs} dry runs as on the processor, {faults} of them faulted; {records} records\n"
    ))
}

/// A plain function whose entries have 0 in every register that carries no argument.
fn draw(rng: &mut Rng) -> Trial {
    let mut trial = trial::draw(rng, engine::list);
    let carried = trial.sheet.parameters.len().min(PARAMETERS.len());
    for entry in &mut trial.entries {
        for register in 0..FLAGS {
            if !PARAMETERS[..carried].contains(&register) {
                entry.registers[register] = 0;
            }
        }
    }
    trial
}

/// The cell of each parameter.
fn values(trial: &Trial, entry: &Entry) -> Vec<u8> {
    let cell = |at: usize| match PARAMETERS.get(at) {
        Some(register) => entry.registers[*register].to_le_bytes().to_vec(),
        None => entry.region[stacked(entry.below, at - PARAMETERS.len())].to_vec(),
    };
    (0..trial.sheet.parameters.len()).flat_map(cell).collect()
}

fn compare(trial: &Trial, entry: &Entry, ended: &Outcome, count: u64) -> Result<(), String> {
    let (tables, sheet) = (to_bytes(&Tables::default().cells()), to_bytes(&trial.sheet.cells()));
    let slots = entry.below - frame(&trial.sheet)..entry.below;
    let mut bytes = entry.region[slots.clone()].to_vec();
    let mut records = vec![0; trial.list.len() * RECORD];
    let reads: [&[u8]; 3] = [&tables, &sheet, &values(trial, entry)];
    let said = engine::call(Export::Run, &reads, &[u64::MAX], &mut [&mut bytes, &mut records]);
    let wanted = match ended.signal {
        0 => vec![0, count, RETURNED, ended.registers[RAX]],
        _ => vec![0, count, FAULTED, 0],
    };
    same("signal", true, [0, SIGFPE].contains(&ended.signal))?;
    same("answer, count, end, value", wanted, said)?;
    same("frame bytes", &ended.region[slots], &bytes[..])
}
