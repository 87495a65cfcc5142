pub mod elfsym;
pub mod file;
pub mod instructions;
pub mod shdr;
