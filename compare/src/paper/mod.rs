//! A short reading of document 01 for what the Rust doesn't have: refusals and their order, and lent frame room.
pub mod check;
pub mod drives;
pub mod files;

/// Refusals: 0 stands for none.
pub const FINE: u32 = 0;
pub const TOO_LONG: u32 = 1;
pub const BAD_HEADER: u32 = 2;
pub const BAD_BODY: u32 = 3;
pub const BAD_ENTRY: u32 = 4;
pub const NO_ROOM: u32 = 5;
pub const BAD_BUFFER: u32 = 6;
pub const BAD_BUDGET: u32 = 7;
pub const BAD_SESSION: u32 = 8;
pub const NOT_ENCODABLE: u32 = 9;
pub const NOT_AN_ENTRY: u32 = 10;

/// The first refusal of several tests in their order.
pub fn first(tests: &[&dyn Fn() -> u32]) -> u32 {
    tests.iter().map(|test| test()).find(|&refusal| refusal != FINE).unwrap_or(FINE)
}

pub fn unless(fine: bool, refusal: u32) -> u32 {
    if fine { FINE } else { refusal }
}
