//! Stub: places in a source text, which the lowering does not read.

pub mod span {
    pub struct Span;
}
