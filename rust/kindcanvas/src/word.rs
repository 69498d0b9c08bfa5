//! Kind and payload of a word.

pub const VARIABLE: u32 = 0;
pub const SYMBOL: u32 = 1;
pub const NUMBER: u32 = 2;
pub const EMPTY: u32 = 3;
pub const PAIR: u32 = 4;
pub const EQUAL: u32 = 5;
pub const DIFFER: u32 = 6;
pub const SYMBOLO: u32 = 7;
pub const NUMBERO: u32 = 8;
pub const ABSENTO: u32 = 9;
pub const CONJUNCTION: u32 = 10;
pub const DISJUNCTION: u32 = 11;
pub const CALL: u32 = 12;
pub const RELATION: u32 = 13;
pub const ANSWER: u32 = 15;

pub fn kind(word: u32) -> u32 {
    word >> 28
}

pub fn payload(word: u32) -> u32 {
    word & 0x0fff_ffff
}

/// The payload where it counts words.
pub fn count(word: u32) -> usize {
    payload(word) as usize
}
