//! Words k:p: the kind in the top four bits, the payload in the low 28.

pub const VARIABLE: u32 = 0;
pub const SYMBOL: u32 = 1;
pub const NUMBER: u32 = 2;
pub const EMPTY: u32 = 3;
pub const PAIR: u32 = 4;
pub const EQUAL: u32 = 5;
pub const DIFFER: u32 = 6;
pub const SYMBOLO: u32 = 7;
pub const NUMBERO: u32 = 8;
pub const ABSENTO: u32 = 9;
pub const CONJUNCTION: u32 = 10;
pub const DISJUNCTION: u32 = 11;
pub const CALL: u32 = 12;
pub const RELATION: u32 = 13;
pub const ANSWER: u32 = 15;

/// Payloads are below this.
pub const PAYLOADS: u32 = 1 << 28;

pub fn word(kind: u32, payload: u32) -> u32 {
    assert!(kind < 16 && payload < PAYLOADS, "no such word");
    kind << 28 | payload
}

pub fn kind(word: u32) -> u32 {
    word >> 28
}

pub fn payload(word: u32) -> u32 {
    word & (PAYLOADS - 1)
}

/// The words as `k:p` text, separated by blanks.
pub fn show(words: &[u32]) -> String {
    let shown: Vec<String> = words
        .iter()
        .map(|&w| format!("{}:{}", kind(w), payload(w)))
        .collect();
    shown.join(" ")
}
