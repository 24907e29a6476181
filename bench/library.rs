//! The measured entries of the proved libraries, with the same signatures as the plain ones.

use crate::entry::{self, Changed, Counted, DistanceAnswer, Holder, Replayed, Written};
use crate::logs::Record;

extern "C" {
    fn iscc_intake(text: *const u8, text_len: usize, out: *mut u8, out_len: usize) -> Written;
    fn iscc_code(text: *const u8, text_len: usize, out: *mut u8, out_len: usize) -> Written;
    fn iscc_text(code: *const u8, code_len: usize, out: *mut u8, out_len: usize) -> Written;
    fn iscc_join(units: *const u8, units_len: usize, out: *mut u8, out_len: usize) -> Written;
    fn iscc_strict(text: *const u8, text_len: usize) -> u32;
    fn iscc_distance(a: *const u8, a_len: usize, b: *const u8, b_len: usize) -> DistanceAnswer;
    fn loans_issue(text: *const u8, text_len: usize, borrower: u32, area: *mut u8, area_len: usize) -> Changed;
    fn loans_return(text: *const u8, text_len: usize, area: *mut u8, area_len: usize) -> Changed;
    fn loans_ask(text: *const u8, text_len: usize, area: *const u8, area_len: usize) -> Holder;
    fn loans_counts(area: *const u8, area_len: usize) -> Counted;
    fn loans_log_issue(
        log: *mut u8,
        log_len: usize,
        position: usize,
        record_number: u32,
        code: *const u8,
        code_len: usize,
        borrower: u32,
    ) -> Written;
    fn loans_log_return(
        log: *mut u8,
        log_len: usize,
        position: usize,
        record_number: u32,
        code: *const u8,
        code_len: usize,
    ) -> Written;
    fn loans_replay(log: *const u8, log_len: usize, area: *mut u8, area_len: usize) -> Replayed;
    fn probe_base32_read(text: *const u8, text_len: usize, out: *mut u8, out_len: usize) -> Written;
    fn probe_base32_write(bytes: *const u8, bytes_len: usize, out: *mut u8, out_len: usize) -> Written;
}

macro_rules! writers {
    ($($name:ident = $entry:ident;)*) => {$(
        pub fn $name(bytes: &[u8], out: &mut [u8]) -> (u32, usize) {
            entry::write($entry, bytes, out)
        }
    )*};
}

writers! {
    intake = iscc_intake;
    base32_read = probe_base32_read;
    base32_write = probe_base32_write;
    code = iscc_code;
    text = iscc_text;
    join = iscc_join;
}

pub fn strict(text: &[u8]) -> u32 {
    entry::test(iscc_strict, text)
}

pub fn distance(a: &[u8], b: &[u8]) -> (u32, u32, u32, f32) {
    entry::measure(iscc_distance, a, b)
}

pub fn issue(text: &[u8], borrower: u32, area: &mut [u8]) -> (u32, u32) {
    entry::issue(loans_issue, text, borrower, area)
}

pub fn take_back(text: &[u8], area: &mut [u8]) -> (u32, u32) {
    entry::take_back(loans_return, text, area)
}

pub fn ask(text: &[u8], area: &[u8]) -> (u32, u32, u32) {
    entry::ask(loans_ask, text, area)
}

pub fn counts(area: &[u8]) -> (u32, [u32; 8]) {
    entry::counts(loans_counts, area)
}

pub fn append(log: &mut [u8], position: usize, record: &Record) -> (u32, usize) {
    entry::append(loans_log_issue, loans_log_return, log, position, record)
}

pub fn replay(log: &[u8], area: &mut [u8]) -> (u32, u32, usize) {
    entry::replay(loans_replay, log, area)
}
