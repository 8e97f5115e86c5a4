//! Where a program failed.

#[derive(Debug, Clone, Copy)]
pub struct Fault {
    pub address: usize,
    pub slot: Option<u32>,
}
