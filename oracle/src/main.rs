//! Reference answers for the lowering, from Krc's own code.

#[cfg(feature = "engine")]
mod bench;
mod calls;
mod cases;
mod cells;
mod compact;
#[cfg(feature = "engine")]
mod compare;
#[cfg(feature = "engine")]
mod engine;
mod list;
mod listing;
mod lower;
mod panics;
mod plain;
mod processor;
mod program;
mod read;
mod rng;
mod rules;
mod runs;
mod sheet;
mod show;
mod steps;
#[cfg(test)]
mod tests;

use std::io::{self, BufWriter, Read, Write};
use std::process::ExitCode;
use std::{env, fs};

const USAGE: &str = "usage: oracle answer < CELLS
       oracle cases SEED COUNT
       oracle list OUT
       oracle show FILE [N]
       oracle held FILE
       oracle processor SEED COUNT
       oracle calls SEED COUNT
       oracle runs SEED COUNT
with the engine linked in:
       oracle compare SEED COUNT
       oracle compare FAMILY SEED COUNT
       oracle engine-processor SEED COUNT
       oracle engine-calls SEED COUNT
       oracle bench";

fn main() -> ExitCode {
    let args: Vec<String> = env::args().skip(1).collect();
    let words: Vec<&str> = args.iter().map(String::as_str).collect();
    match command(&words) {
        Ok(()) => ExitCode::SUCCESS,
        Err(message) => {
            eprintln!("{message}");
            ExitCode::FAILURE
        }
    }
}

fn command(words: &[&str]) -> Result<(), String> {
    match words {
        ["answer"] => answer(),
        ["cases", seed, count] => random(number(seed)?, number(count)? as usize),
        ["list", out] => fs::write(out, compact::file(&list::cases(), &calls::fixed()))
            .map_err(|error| format!("{out}: {error}")),
        ["show", file] => {
            let (cases, calls) = parts_of(file)?;
            print((show::summary(&cases) + &show::calls_summary(&calls)).as_bytes())
        }
        ["show", file, n] => {
            let (cases, calls) = parts_of(file)?;
            print(show::one(&cases, &calls, number(n)? as usize).ok_or("no such case")?.as_bytes())
        }
        ["held", file] => print(show::held_cases(&parts_of(file)?.0).as_bytes()),
        ["processor", seed, count] => {
            let summary = processor::test(number(seed)?, number(count)? as usize, lower::list)?;
            print(summary.as_bytes())
        }
        ["calls", seed, count] => {
            let (seed, count) = (number(seed)?, number(count)? as usize);
            print(processor::calls::test(seed, count, lower::list)?.as_bytes())
        }
        ["runs", seed, count] => {
            print(runs::lines(number(seed)?, number(count)? as usize).as_bytes())
        }
        _ => engine_command(words),
    }
}

#[cfg(feature = "engine")]
fn engine_command(words: &[&str]) -> Result<(), String> {
    let summary = match words {
        ["compare", seed, count] => compare::test(number(seed)?, number(count)? as usize)?,
        ["compare", name, seed, count] => {
            let family = calls::family(name).ok_or(format!("{name} is no family of calls"))?;
            compare::test_calls(family, number(seed)?, number(count)? as usize)?
        }
        ["engine-processor", seed, count] => {
            processor::test(number(seed)?, number(count)? as usize, engine::list)?
        }
        ["engine-calls", seed, count] => {
            processor::calls::test(number(seed)?, number(count)? as usize, engine::list)?
        }
        ["bench"] => bench::table(),
        _ => return Err(USAGE.to_string()),
    };
    print(summary.as_bytes())
}

#[cfg(not(feature = "engine"))]
fn engine_command(_: &[&str]) -> Result<(), String> {
    Err(USAGE.to_string())
}

fn number(word: &str) -> Result<u64, String> {
    word.parse().map_err(|_| format!("{word} is no number"))
}

fn answer() -> Result<(), String> {
    let mut input = Vec::new();
    io::stdin().read_to_end(&mut input).map_err(|error| error.to_string())?;
    print(listing::listing(&input).as_bytes())
}

fn random(seed: u64, count: usize) -> Result<(), String> {
    let mut out = BufWriter::new(io::stdout().lock());
    let mut bytes = compact::head(count);
    for case in cases::random(seed, count) {
        compact::put_case(&mut bytes, &case);
        out.write_all(&bytes).map_err(|error| error.to_string())?;
        bytes.clear();
    }
    compact::put_no_calls(&mut bytes);
    out.write_all(&bytes).and_then(|()| out.flush()).map_err(|error| error.to_string())
}

fn parts_of(file: &str) -> Result<(Vec<compact::Case>, Vec<calls::Call>), String> {
    let bytes = fs::read(file).map_err(|error| format!("{file}: {error}"))?;
    compact::parse(&bytes).ok_or(format!("{file} is no file of cases"))
}

fn print(bytes: &[u8]) -> Result<(), String> {
    io::stdout().write_all(bytes).map_err(|error| error.to_string())
}
