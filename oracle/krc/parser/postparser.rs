#[rustfmt::skip]
#[path = "../../target/krc/parser/postparser/structs.rs"]
pub mod structs;
