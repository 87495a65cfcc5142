#[rustfmt::skip]
#[path = "../../target/krc/elf/instructions/enums.rs"]
pub mod enums;
#[rustfmt::skip]
#[path = "../../target/krc/elf/instructions/mem_address.rs"]
pub mod mem_address;
#[rustfmt::skip]
#[path = "../../target/krc/elf/instructions/register.rs"]
pub mod register;

pub use enums::*;
pub use mem_address::*;
