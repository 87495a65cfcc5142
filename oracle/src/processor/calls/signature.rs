//! Signatures of callees, and their text in C.

use std::fmt::Write;

use crate::rng::Rng;

/// How C sees an argument.
#[derive(Clone, Copy, PartialEq, Eq)]
pub enum Kind {
    /// Eight bytes, four, one.
    Whole,
    Short,
    Byte,
    /// Floats of eight bytes and of four.
    Real,
    ShortReal,
    /// The address of a string.
    Text,
}

impl Kind {
    pub fn is_float(self) -> bool {
        matches!(self, Kind::Real | Kind::ShortReal)
    }

    fn c_type(self) -> &'static str {
        match self {
            Kind::Whole => "uint64_t",
            Kind::Short => "uint32_t",
            Kind::Byte => "uint8_t",
            Kind::Real => "double",
            Kind::ShortReal => "float",
            Kind::Text => "const char *",
        }
    }

    /// The type of an argument behind the dots.
    fn promoted(self) -> &'static str {
        if self == Kind::Byte { "int" } else { self.c_type() }
    }

    fn check(self) -> &'static str {
        match self {
            Kind::Whole | Kind::Short | Kind::Byte => "whole",
            Kind::Real => "real",
            Kind::ShortReal => "short_real",
            Kind::Text => "text",
        }
    }
}

/// What a callee gives back: so many bytes of a number, or a float.
#[derive(Clone, Copy, PartialEq, Eq)]
pub enum Given {
    Number(i64),
    Real,
    ShortReal,
}

pub struct Signature {
    pub arguments: Vec<Kind>,
    pub given: Given,
    /// All arguments but the first are behind the dots.
    pub variadic: bool,
}

impl Signature {
    /// 7 to 64 arguments, of which some tenths are floats.
    pub fn draw(rng: &mut Rng) -> Self {
        let count = if rng.chance(1, 3) { rng.between(7, 16) } else { rng.between(7, 64) };
        let floats = rng.pick(&[0, 2, 4, 5, 6, 8, 10]);
        let variadic = rng.chance(1, 4);
        let mut arguments: Vec<Kind> = (0..count).map(|_| kind(rng, floats)).collect();
        if variadic {
            // C passes no float of four bytes there
            let long =
                |kind: &mut Kind| *kind = if *kind == Kind::ShortReal { Kind::Real } else { *kind };
            arguments.iter_mut().for_each(long);
        }
        let numbers = [1, 2, 4, 8].map(Given::Number);
        let given = if rng.chance(2, 3) {
            rng.pick(&numbers)
        } else {
            rng.pick(&[Given::Real, Given::ShortReal])
        };
        Self { arguments, given, variadic }
    }

    /// The function of a symbol.
    pub fn text(&self, symbol: usize) -> String {
        let (head, tail) =
            self.arguments.split_at(if self.variadic { 1 } else { self.arguments.len() });
        let named = |(at, kind): (usize, &Kind)| format!("{} a{at}", kind.c_type());
        let mut parameters: Vec<String> = head.iter().enumerate().map(named).collect();
        let mut body =
            format!("    enter({symbol}, __builtin_frame_address(0), {});\n", self.arguments.len());
        let mut line = |text: String| writeln!(body, "    {text}").expect("text grows");
        if self.variadic {
            parameters.push("...".to_string());
            line("va_list list;\n    va_start(list, a0);".to_string());
        }
        for (at, kind) in head.iter().enumerate() {
            line(format!("{}({at}, a{at});", kind.check()));
        }
        for (at, kind) in (1..).zip(tail) {
            line(format!("{}({at}, va_arg(list, {}));", kind.check(), kind.promoted()));
        }
        if self.variadic {
            line("va_end(list);".to_string());
        }
        let (ty, give) = match self.given {
            Given::Number(size) => (format!("uint{}_t", 8 * size), "result"),
            Given::Real => ("double".to_string(), "real_result"),
            Given::ShortReal => ("float".to_string(), "short_real_result"),
        };
        let declared = format!("{ty} symbol{symbol}({})", parameters.join(", "));
        format!("{declared};\n{declared} {{\n{body}    return {give}();\n}}\n")
    }
}

fn kind(rng: &mut Rng, floats: usize) -> Kind {
    if rng.chance(floats, 10) {
        rng.pick(&[Kind::Real, Kind::ShortReal])
    } else {
        rng.pick(&[Kind::Whole, Kind::Whole, Kind::Short, Kind::Byte, Kind::Text])
    }
}
