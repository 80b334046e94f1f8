//! Keys and flows.

/// A key's number.
pub type Key = u128;

#[derive(Clone, Copy, PartialEq)]
pub struct Record {
    pub teid: u32,
    pub base: u32,
}

#[derive(Clone, Copy)]
pub struct Flow {
    pub key: Key,
    pub node: u8,
    pub record: Record,
}
