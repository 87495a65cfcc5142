#[rustfmt::skip]
#[path = "../target/krc/codegen/arithmetic.rs"]
pub mod arithmetic;
#[rustfmt::skip]
#[path = "../target/krc/codegen/generation.rs"]
pub mod generation;
#[rustfmt::skip]
#[path = "../target/krc/codegen/instructions.rs"]
pub mod instructions;
#[rustfmt::skip]
#[path = "../target/krc/codegen/utils.rs"]
pub mod utils;
