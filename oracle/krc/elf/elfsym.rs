//! Stub: symbol attributes, which the records do not hold.

pub enum StBind {
    Local,
    Global,
}

pub enum StType {
    Object,
    Func,
}

pub enum StVis {
    Default,
}

pub fn make_st_info(_bind: StBind, _typ: StType) -> u8 {
    0
}
