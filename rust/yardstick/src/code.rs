//! The control tokens, each a byte of its own.

pub const START_LIST: u8 = 0xF0;
pub const END_LIST: u8 = 0xF1;
pub const START_NAME: u8 = 0xF2;
pub const END_NAME: u8 = 0xF3;
pub const CALL: u8 = 0xF8;
pub const END_OF_DATA: u8 = 0xF9;
pub const END_OF_SESSION: u8 = 0xFA;
pub const START_TRANSACTION: u8 = 0xFB;
pub const END_TRANSACTION: u8 = 0xFC;
/// Skipped before and after any token.
pub const EMPTY: u8 = 0xFF;
