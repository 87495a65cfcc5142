//! Krc's panics, caught and told apart as refusals 4 to 7.

use std::cell::{Cell, RefCell};
use std::ops::RangeInclusive;
use std::panic::{AssertUnwindSafe, PanicHookInfo, catch_unwind, set_hook, take_hook};
use std::sync::OnceLock;

pub const NO_WIDTH: u64 = 4;
pub const NO_ENTRY: u64 = 5;
pub const ODD_WIDTH: u64 = 6;
pub const NO_LOWERING: u64 = 7;

struct Panic {
    file: String,
    line: usize,
    message: String,
}

thread_local! {
    static CATCHING: Cell<bool> = const { Cell::new(false) };
    static LAST: RefCell<Option<Panic>> = const { RefCell::new(None) };
}

/// What `run` gives, or the refusal that its panic stands for.
pub fn catch<T>(run: impl FnOnce() -> T) -> Result<T, u64> {
    install();
    CATCHING.set(true);
    let result = catch_unwind(AssertUnwindSafe(run));
    CATCHING.set(false);
    result.map_err(|_| {
        let panic = LAST.take().expect("the hook saw the panic");
        refusal(&panic)
    })
}

/// Sets the hook once: it keeps the panics inside `catch` and prints none of them.
fn install() {
    static ONCE: OnceLock<()> = OnceLock::new();
    ONCE.get_or_init(|| {
        let usual = take_hook();
        set_hook(Box::new(move |info| {
            if CATCHING.get() {
                LAST.set(Some(read(info)));
            } else {
                usual(info);
            }
        }));
    });
}

fn read(info: &PanicHookInfo) -> Panic {
    let location = info.location().expect("a panic has a location");
    let payload = info.payload();
    let message = match (payload.downcast_ref::<&str>(), payload.downcast_ref::<String>()) {
        (Some(text), _) => text.to_string(),
        (_, Some(text)) => text.clone(),
        _ => String::new(),
    };
    Panic { file: location.file().to_string(), line: location.line() as usize, message }
}

fn refusal(panic: &Panic) -> u64 {
    let krc = sources();
    assert!(panic.file.contains("/krc/"), "a panic outside Krc: {}", panic.message);
    let excess = krc.float_parameter.holds(panic) || krc.normal_param.holds(panic);
    assert!(!excess, "Krc was handed an argument beyond the registers");
    if panic.message.starts_with("index out of bounds") {
        NO_ENTRY
    } else if krc.type_size.holds(panic) {
        NO_WIDTH
    } else if krc.size_from.holds(panic) {
        ODD_WIDTH
    } else {
        NO_LOWERING
    }
}

/// The lines of a function in one of Krc's files.
struct Lines {
    file: &'static str,
    lines: RangeInclusive<usize>,
}

impl Lines {
    fn holds(&self, panic: &Panic) -> bool {
        panic.file.ends_with(self.file) && self.lines.contains(&panic.line)
    }
}

struct Sources {
    type_size: Lines,
    size_from: Lines,
    float_parameter: Lines,
    normal_param: Lines,
}

/// Searches the text that was compiled, so that no line number is written here.
fn sources() -> &'static Sources {
    static SOURCES: OnceLock<Sources> = OnceLock::new();
    let types = include_str!("../target/krc/parser/postparser/structs.rs");
    let enums = include_str!("../target/krc/elf/instructions/enums.rs");
    let instructions = include_str!("../target/krc/codegen/instructions.rs");
    SOURCES.get_or_init(|| Sources {
        type_size: lines("postparser/structs.rs", types, "pub fn size(&self) -> usize"),
        size_from: lines("instructions/enums.rs", enums, "fn from(value: usize) -> Self"),
        float_parameter: lines("codegen/instructions.rs", instructions, "fn float_parameter("),
        normal_param: lines("codegen/instructions.rs", instructions, "fn normal_param("),
    })
}

/// From the function's head to the brace at the same indentation.
fn lines(file: &'static str, text: &str, head: &str) -> Lines {
    let rows: Vec<&str> = text.lines().collect();
    let start = rows.iter().position(|row| row.contains(head)).expect(head);
    let indent = rows[start].len() - rows[start].trim_start().len();
    let brace = format!("{}}}", " ".repeat(indent));
    let length = rows[start..].iter().position(|row| *row == brace).expect(head);
    Lines { file, lines: start + 1..=start + length + 1 }
}
