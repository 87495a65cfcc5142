#[rustfmt::skip]
#[path = "../../target/krc/converter/ir/structs.rs"]
pub mod structs;
