//! Assembles a batch of functions, links the runner and runs it.

use std::fs::{self, File};
use std::io::{BufWriter, Write};
use std::path::{Path, PathBuf};
use std::process::Command;

use super::asm;
use super::trial::{Entry, Trial};
use krc::record::Record;

const RUNNER: &str = include_str!("runner.c");

/// A temporary folder with the compiled runner.
pub struct BuildFolder {
    place: PathBuf,
}

/// One run of a function.
pub struct Request<'a> {
    pub function: usize,
    pub registers: [u64; 17],
    /// The low eight bytes of XMM0 to XMM7.
    pub floats: [u64; 8],
    /// How far B lies below its highest place.
    pub shift: u64,
    /// Bytes of the region below B.
    pub below: usize,
    pub region: &'a [u8],
    /// What callees in C are to find.
    pub script: &'a [u64],
}

/// The machine when a run has ended.
pub struct Outcome {
    /// 0 when the function returned.
    pub signal: u64,
    pub base: u64,
    /// The address that the function returns to.
    pub back: u64,
    /// Calls of callees in C, and the first thing that they found otherwise.
    pub calls: u64,
    pub difference: [u64; 4],
    pub registers: [u64; 17],
    pub region: Vec<u8>,
}

impl BuildFolder {
    pub fn open() -> Result<Self, String> {
        let name = format!("oracle-processor-{}", std::process::id());
        let place = std::env::temp_dir().join(name);
        fs::create_dir_all(&place).map_err(|error| error.to_string())?;
        let folder = Self { place };
        let (source, object) = (folder.write("runner.c", RUNNER)?, folder.path("runner.o"));
        call(Command::new("gcc").args(["-O1", "-Wall", "-c", "-o"]).arg(object).arg(source))?;
        Ok(folder)
    }

    pub fn place(&self) -> &Path {
        &self.place
    }

    pub fn close(self) {
        let _ = fs::remove_dir_all(self.place);
    }

    fn path(&self, name: &str) -> PathBuf {
        self.place.join(name)
    }

    /// Runs every entry of every trial, in order.
    pub fn run(&self, trials: &[Trial], counting: bool) -> Result<Vec<Outcome>, String> {
        let lists: Vec<&[Record]> = trials.iter().map(|trial| &trial.list[..]).collect();
        self.link(&asm::batch(&lists, counting), &[])?;
        let numbered = trials.iter().enumerate();
        let requests: Vec<Request> = numbered
            .flat_map(|(function, trial)| {
                trial.entries.iter().map(move |entry| request(function, entry, counting))
            })
            .collect();
        self.enter(&requests)
    }

    /// Links the runner with the functions of an assembler text and with other objects.
    pub fn link(&self, text: &str, others: &[PathBuf]) -> Result<(), String> {
        let (source, object) = (self.write("batch.s", text)?, self.path("batch.o"));
        call(Command::new("as").args(["--64", "-o"]).arg(&object).arg(source))?;
        let (runner, program) = (self.path("runner.o"), self.path("runner"));
        call(Command::new("gcc").arg("-o").arg(program).arg(runner).arg(object).args(others))
    }

    /// Compiles a C file to an object.
    pub fn compile(&self, compiler: &str, options: &[&str], name: &str) -> Result<PathBuf, String> {
        let (source, object) = (self.path(name), self.path(&format!("{name}.{compiler}.o")));
        let command = &mut Command::new(compiler);
        call(command.args(options).args(["-Wall", "-c", "-o"]).arg(&object).arg(source))?;
        Ok(object)
    }

    pub fn write(&self, name: &str, text: &str) -> Result<PathBuf, String> {
        let path = self.path(name);
        fs::write(&path, text).map_err(|error| error.to_string())?;
        Ok(path)
    }

    /// The outcome of each request, in order.
    pub fn enter(&self, requests: &[Request]) -> Result<Vec<Outcome>, String> {
        self.write_requests(requests).map_err(|error| error.to_string())?;
        let input = File::open(self.path("requests")).map_err(|error| error.to_string())?;
        let output = File::create(self.path("results")).map_err(|error| error.to_string())?;
        call(Command::new(self.path("runner")).stdin(input).stdout(output))?;
        let bytes = fs::read(self.path("results")).map_err(|error| error.to_string())?;
        outcomes(&bytes, requests).ok_or("the runner's results are not whole".to_string())
    }

    fn write_requests(&self, requests: &[Request]) -> std::io::Result<()> {
        let mut out = BufWriter::new(File::create(self.path("requests"))?);
        for request in requests {
            let (below, script) = (request.below as u64, request.script.len() as u64);
            let above = request.region.len() as u64 - below;
            let head = [request.function as u64, request.shift, below, above, script];
            let words = head.iter().chain(&request.registers).chain(&request.floats);
            words.clone().try_for_each(|word| out.write_all(&word.to_ne_bytes()))?;
            out.write_all(request.region)?;
            request.script.iter().try_for_each(|word| out.write_all(&word.to_ne_bytes()))?;
        }
        out.flush()
    }
}

fn request(function: usize, entry: &Entry, counting: bool) -> Request<'_> {
    let mut registers = entry.registers;
    if counting {
        registers[super::trial::COUNTER] = 0;
    }
    let (shift, below, region) = (entry.shift, entry.below, &entry.region[..]);
    Request { function, registers, floats: [0; 8], shift, below, region, script: &[] }
}

/// Runs a command to its end; what it says is the error when it fails.
fn call(command: &mut Command) -> Result<(), String> {
    let name = command.get_program().to_string_lossy().into_owned();
    let output = command.output().map_err(|error| format!("{name}: {error}"))?;
    if output.status.success() {
        return Ok(());
    }
    let text = String::from_utf8_lossy(&output.stderr).into_owned();
    let first: Vec<&str> = text.lines().take(20).collect();
    Err(format!("{name}: {}\n{}", output.status, first.join("\n")))
}

fn outcomes(bytes: &[u8], requests: &[Request]) -> Option<Vec<Outcome>> {
    let mut rest = bytes;
    let [back] = words(&mut rest)?;
    let outcome = |request: &Request| {
        let [signal, _address, base, calls] = words(&mut rest)?;
        let (difference, registers) = (words(&mut rest)?, words(&mut rest)?);
        let (region, behind) = rest.split_at_checked(request.region.len())?;
        rest = behind;
        let region = region.to_vec();
        Some(Outcome { signal, base, back, calls, difference, registers, region })
    };
    requests.iter().map(outcome).collect()
}

fn words<const N: usize>(rest: &mut &[u8]) -> Option<[u64; N]> {
    let mut words = [0; N];
    for each in &mut words {
        *each = word(rest)?;
    }
    Some(words)
}

fn word(rest: &mut &[u8]) -> Option<u64> {
    let (word, behind) = rest.split_first_chunk::<8>()?;
    *rest = behind;
    Some(u64::from_ne_bytes(*word))
}
