pub mod postparser;

/// Stub: particles of the source language, which the lowering does not read.
pub mod parser_token {
    pub struct Particle;
}
