//! Opening one answer of a page: the proved viewer beside a plain walk.

use crate::{best, median, missed, nanoseconds, TURNS};
use std::fmt::Write;
use std::hint::black_box;

/// The answers that are passed.
const PASSED: u32 = 4_096;

/// The same walk in Rust. Err: the place where it stopped.
fn plain(page: &[u32], answer: u32) -> Result<&[u32], usize> {
    let mut at = 0;
    let mut ahead = answer;
    loop {
        let Some(&header) = page.get(at) else {
            return Err(at);
        };
        let inside = (header & 0x0fff_ffff) as usize;
        if header >> 28 != 15 || page.len() - at - 1 < inside {
            return Err(at);
        }
        let end = at + 1 + inside;
        if ahead == 0 {
            return Ok(&page[at..end]);
        }
        ahead -= 1;
        at = end;
    }
}

/// A page with one answer more than are passed, each of so many words behind its header.
fn page(inside: usize) -> Vec<u32> {
    let answer: Vec<u32> = [15 << 28 | inside as u32]
        .into_iter()
        .chain((0..inside).map(|word| word as u32))
        .collect();
    answer.repeat(PASSED as usize + 1)
}

/// The table, and whether its goal is met.
pub fn table() -> (String, String) {
    let mut text = String::new();
    text += "| words behind a header | proved, ns an answer passed | plain | proved / plain |\n";
    text += "|--:|--:|--:|--:|\n";
    let mut misses = Vec::new();
    for inside in [0, 10, 300, 5_000] {
        let page = page(inside);
        let wanted = page.len() - inside - 1..page.len();
        assert_eq!(kindcanvas::view(&page, PASSED), Ok(&page[wanted.clone()]));
        assert_eq!(plain(&page, PASSED), Ok(&page[wanted]));
        assert_eq!(plain(&page, PASSED + 1), Err(page.len()));
        let mut least = [f64::INFINITY; 2];
        let mut ratios = Vec::new();
        for _ in 0..TURNS {
            let [proved, plain] = [
                best(|| _ = black_box(kindcanvas::view(black_box(&page), PASSED))),
                best(|| _ = black_box(plain(black_box(&page), PASSED))),
            ];
            least = [least[0].min(proved), least[1].min(plain)];
            ratios.push(proved / plain);
        }
        let [proved, plain] = least.map(|seconds| nanoseconds(seconds, PASSED));
        let ratio = median(ratios);
        if ratio > 1.3 {
            misses.push(inside.to_string());
        }
        writeln!(text, "| {inside} | {proved:.2} | {plain:.2} | {ratio:.2} |").unwrap();
    }
    let misses: Vec<&str> = misses.iter().map(String::as_str).collect();
    (text, missed(&misses))
}
