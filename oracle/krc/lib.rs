//! Krc's files, compiled unchanged, with the least around them that they need.
//! `generate` hands its list to the stub of `ElfFile64`, which keeps it as records.
#![allow(dead_code, unused_imports, clippy::all)]

pub mod codegen;
pub mod converter;
pub mod elf;
pub mod lexer;
pub mod parser;
pub mod record;
