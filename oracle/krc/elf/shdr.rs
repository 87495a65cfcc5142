//! Stub: section headers, which the records do not hold.

#[derive(Default)]
pub struct ElfShdr {
    pub sh_type: u32,
    pub sh_flags: u64,
    pub sh_addralign: u64,
    pub sh_link: u32,
}

pub enum ShType {
    ProgBits = 1,
}

pub enum ShFlags {
    NoFlag = 0x0,
    Write = 0x1,
    Alloc = 0x2,
    ExecInstr = 0x4,
}

pub enum SectionName {
    Text,
    Data,
    Rodata,
}

impl SectionName {
    pub fn as_str(&self) -> &'static str {
        ""
    }
}
