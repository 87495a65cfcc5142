//! The test of calls: lists of functions that call C functions with 7 to 64 arguments, compiled by
//! gcc and by clang. Each callee holds all its arguments and RSP at its entry to what the caller's
//! variables and constants say; afterwards every slot and every other byte is held to what is wanted.

mod signature;
mod trial;

use std::fmt::Write;
use std::path::PathBuf;
use std::process::{Command, Stdio};

use super::asm;
use super::batch::{BuildFolder, Outcome, Request};
use super::trial::{Lowering, RBP, RSP, frame};
use super::{Memory, compare_saved, same};
use crate::rng::Rng;
use crate::sheet::Instr;
use krc::record::Record;
use signature::{Kind, Signature};
use trial::{Callees, Trial, beyond_registers};

const SHARED: &str = include_str!("callees.h");
/// Signatures and calls of one batch.
const SIGNATURES: usize = 80;
const BATCH: usize = 2_000;

#[derive(Default)]
struct Totals {
    functions: usize,
    calls: usize,
    arguments: usize,
    excess: usize,
    excess_floats: usize,
    /// By the number of the compiler.
    by_compiler: [usize; 2],
    variadic: usize,
}

/// At least `count` calls; an error tells the first difference.
pub fn test(seed: u64, count: usize, lowering: Lowering) -> Result<String, String> {
    let mut rng = Rng::new(seed);
    let mut totals = Totals::default();
    let compilers: Vec<&str> = ["gcc", "clang"].into_iter().filter(|name| is_there(name)).collect();
    let folder = BuildFolder::open()?;
    folder.write("callees.h", SHARED)?;
    while totals.calls < count {
        let calls = BATCH.min(count - totals.calls);
        test_batch(&folder, &mut rng, &compilers, calls, lowering, &mut totals)
            .map_err(|error| format!("{error}\nleft in {}", folder.place().display()))?;
    }
    folder.close();
    Ok(summary(&totals, &compilers))
}

fn is_there(compiler: &str) -> bool {
    let command = &mut Command::new(compiler);
    command.arg("--version").stdout(Stdio::null()).stderr(Stdio::null());
    command.status().is_ok_and(|status| status.success())
}

fn summary(totals: &Totals, compilers: &[&str]) -> String {
    let mut text = format!("{} calls in {} functions", totals.calls, totals.functions);
    for (name, calls) in compilers.iter().zip(totals.by_compiler) {
        write!(text, ", {calls} of callees by {name}").expect("text grows");
    }
    writeln!(
        text,
        "; {} calls of variadic callees; {} arguments, {} on the stack, {} of these floats",
        totals.variadic, totals.arguments, totals.excess, totals.excess_floats
    )
    .expect("text grows");
    if !compilers.contains(&"clang") {
        text.push_str("clang is not there: no callee was compiled by it\n");
    }
    text
}

fn test_batch(
    folder: &BuildFolder,
    rng: &mut Rng,
    compilers: &[&str],
    calls: usize,
    lowering: Lowering,
    totals: &mut Totals,
) -> Result<(), String> {
    let signatures: Vec<Signature> = (0..SIGNATURES).map(|_| Signature::draw(rng)).collect();
    let callees = Callees { signatures, compilers: compilers.len() };
    let objects = compile(folder, rng, compilers, &callees)?;
    let (mut trials, mut drawn) = (Vec::new(), 0);
    while drawn < calls {
        let trial = trial::draw(rng, trials.len(), &callees, lowering);
        drawn += symbols(&trial).count();
        trials.push(trial);
    }
    folder.link(&text(&trials), &objects)?;
    let requests: Vec<Request> = trials.iter().enumerate().map(request).collect();
    for (trial, outcome) in trials.iter().zip(folder.enter(&requests)?) {
        compare(trial, &outcome).map_err(|difference| report(trial, &difference))?;
        totals.add(trial, &callees);
    }
    Ok(())
}

/// All signatures by each compiler, with optimisations that change from batch to batch.
fn compile(
    folder: &BuildFolder,
    rng: &mut Rng,
    compilers: &[&str],
    callees: &Callees,
) -> Result<Vec<PathBuf>, String> {
    let mut objects = Vec::new();
    for (number, compiler) in compilers.iter().enumerate() {
        let mut text = "#include \"callees.h\"\n".to_string();
        for (at, signature) in callees.signatures.iter().enumerate() {
            text.push_str(&signature.text(number * callees.signatures.len() + at));
        }
        let name = format!("callees_{compiler}.c");
        folder.write(&name, &text)?;
        let optimised = rng.pick(&["-O0", "-O1", "-O2"]);
        objects.push(folder.compile(compiler, &[optimised, "-Wno-unused-function"], &name)?);
    }
    Ok(objects)
}

fn text(trials: &[Trial]) -> String {
    let lists: Vec<&[Record]> = trials.iter().map(|trial| &trial.list[..]).collect();
    let mut text = asm::batch(&lists, false);
    text.push_str(".section .rodata\n");
    trials.iter().for_each(|trial| text.push_str(&trial.data));
    text
}

fn request((function, trial): (usize, &Trial)) -> Request<'_> {
    let Trial { registers, floats, shift, below, region, script, .. } = trial;
    let (registers, floats, shift, below) = (*registers, *floats, *shift, *below);
    Request { function, registers, floats, shift, below, region, script }
}

/// The symbols of a function's calls.
fn symbols(trial: &Trial) -> impl Iterator<Item = usize> + '_ {
    trial.sheet.body.iter().filter_map(|instr| match instr {
        Instr::Call { symbol, .. } => Some(*symbol as usize),
        _ => None,
    })
}

impl Totals {
    fn add(&mut self, trial: &Trial, callees: &Callees) {
        self.functions += 1;
        for symbol in symbols(trial) {
            let signature = &callees.signatures[symbol % callees.signatures.len()];
            let excess = beyond_registers(&signature.arguments);
            let kinds = excess.iter().map(|at| signature.arguments[*at]);
            self.calls += 1;
            self.by_compiler[symbol / callees.signatures.len()] += 1;
            self.arguments += signature.arguments.len();
            self.excess += excess.len();
            self.excess_floats += kinds.filter(|kind: &Kind| kind.is_float()).count();
            self.variadic += usize::from(signature.variadic);
        }
    }
}

fn report(trial: &Trial, difference: &str) -> String {
    let list: Vec<String> = trial.list.iter().map(|record| format!("    {record:?}")).collect();
    format!("{difference}\n{}{}", trial.sheet, list.join("\n"))
}

fn compare(trial: &Trial, outcome: &Outcome) -> Result<(), String> {
    same("call, what differs (callees.h), wanted, found", [0; 4], outcome.difference)?;
    same("signal", 0, outcome.signal)?;
    same("calls", symbols(trial).count() as u64, outcome.calls)?;
    same("RSP", outcome.base + 16, outcome.registers[RSP])?;
    same("RBP", trial.registers[RBP], outcome.registers[RBP])?;
    compare_saved(&trial.registers, outcome, false)?;
    if let Some((value, width)) = trial.value {
        same("value", value, outcome.registers[0] & (u64::MAX >> (64 - 8 * width)))?;
    }
    // below the frame's end the callees have their own
    let Trial { sheet, below, region, variables, .. } = trial;
    let memory = Memory { sheet, below: *below, region, variables };
    memory.compare(trial.registers[RBP], outcome, below - frame(sheet))
}
