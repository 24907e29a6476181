//! The leaf, which counts the differing bits of two bodies, beside a loop in C.

use crate::entry;
use crate::measure::{side_by_side, Figures};
use crate::rows::{self, Row};
use crate::turns::over;

extern "C" {
    fn leaf_differing(a: *const u8, a_len: usize, b: *const u8, b_len: usize) -> u16;
    fn c_differing(a: *const u8, a_len: usize, b: *const u8, b_len: usize) -> u16;
    fn c_differing_popcnt(a: *const u8, a_len: usize, b: *const u8, b_len: usize) -> u16;
}

/// Of a first body of at most 40 bytes, as the entry asks.
pub fn proved(a: &[u8], b: &[u8]) -> u16 {
    entry::count(leaf_differing, a, b)
}

/// For the same processors as the proved code.
pub fn c_loop(a: &[u8], b: &[u8]) -> u16 {
    entry::count(c_differing, a, b)
}

/// With the processor's own count.
pub fn c_popcnt(a: &[u8], b: &[u8]) -> u16 {
    entry::count(c_differing_popcnt, a, b)
}

fn beside(row: &Row, c: impl Fn(&[u8], &[u8]) -> u16) -> Figures {
    let other = &row.inputs[0];
    side_by_side(
        |calls| over(&row.inputs, calls, |body| proved(body, other)),
        |calls| over(&row.inputs, calls, |body| c(body, other)),
    )
}

pub fn print() {
    println!("\n### Differing bits\n");
    let with_popcnt = ["C with -mpopcnt, ns", "proved / that"];
    crate::header(&[&["input", "proved, ns", "C loop, ns", "proved / C", "middle half"], &with_popcnt[..]].concat());
    for row in rows::leaf() {
        let Figures { proved, plain, ratio } = beside(&row, c_loop);
        let popcnt = beside(&row, c_popcnt);
        let last = format!("{:.1} | {:.2}", popcnt.plain, popcnt.ratio.median);
        println!("| {} | {proved:.1} | {plain:.1} | {ratio} | {last} |", row.input);
    }
}
