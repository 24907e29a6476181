//! The kinds of C entries, and calls through them.

use crate::logs::Record;

#[repr(C)]
pub struct Written {
    pub number: u32,
    pub length: usize,
}

#[repr(C)]
pub struct DistanceAnswer {
    number: u32,
    d: u32,
    n: u32,
    ratio: f32,
}

#[repr(C)]
pub struct Changed {
    number: u32,
    record_number: u32,
}

#[repr(C)]
pub struct Holder {
    number: u32,
    borrower: u32,
    looks: u32,
}

/// Its counts are those of the header, one behind the other.
#[repr(C)]
pub struct Counted {
    number: u32,
    counts: [u32; 8],
}

#[repr(C)]
pub struct Replayed {
    number: u32,
    end: u32,
    offset: usize,
}

/// Reads one area and writes another.
pub type Writer = unsafe extern "C" fn(*const u8, usize, *mut u8, usize) -> Written;
/// Reads one area.
pub type Test = unsafe extern "C" fn(*const u8, usize) -> u32;
/// Reads two areas.
pub type Measure = unsafe extern "C" fn(*const u8, usize, *const u8, usize) -> DistanceAnswer;
/// Reads two areas: how many of their bits differ.
pub type Count = unsafe extern "C" fn(*const u8, usize, *const u8, usize) -> u16;

/// Reads one area, reads and writes another: a code goes out to a borrower.
pub type Issue = unsafe extern "C" fn(*const u8, usize, u32, *mut u8, usize) -> Changed;
/// Reads one area, reads and writes another: a code comes back.
pub type Return = unsafe extern "C" fn(*const u8, usize, *mut u8, usize) -> Changed;
/// Reads two areas: who has a code, and how many places were looked at.
pub type Ask = unsafe extern "C" fn(*const u8, usize, *const u8, usize) -> Holder;
/// Reads one area: how many codes are out.
pub type Counts = unsafe extern "C" fn(*const u8, usize) -> Counted;

/// Writes one area at a position, reads another: the record, with its number, of a code that goes out to a borrower.
pub type LogIssue = unsafe extern "C" fn(*mut u8, usize, usize, u32, *const u8, usize, u32) -> Written;
/// Writes one area at a position, reads another: the record, with its number, of a code that comes back.
pub type LogReturn = unsafe extern "C" fn(*mut u8, usize, usize, u32, *const u8, usize) -> Written;
/// Reads one area, reads and writes another.
pub type Replay = unsafe extern "C" fn(*const u8, usize, *mut u8, usize) -> Replayed;

pub fn write(entry: Writer, bytes: &[u8], out: &mut [u8]) -> (u32, usize) {
    // Both areas are as long as said, and a shared and a unique borrow cannot overlap.
    let answer = unsafe { entry(bytes.as_ptr(), bytes.len(), out.as_mut_ptr(), out.len()) };
    (answer.number, answer.length)
}

pub fn test(entry: Test, text: &[u8]) -> u32 {
    // The area is as long as said.
    unsafe { entry(text.as_ptr(), text.len()) }
}

pub fn measure(entry: Measure, a: &[u8], b: &[u8]) -> (u32, u32, u32, f32) {
    // The areas are as long as said.
    let answer = unsafe { entry(a.as_ptr(), a.len(), b.as_ptr(), b.len()) };
    (answer.number, answer.d, answer.n, answer.ratio)
}

pub fn count(entry: Count, a: &[u8], b: &[u8]) -> u16 {
    // The areas are as long as said.
    unsafe { entry(a.as_ptr(), a.len(), b.as_ptr(), b.len()) }
}

pub fn issue(entry: Issue, text: &[u8], borrower: u32, area: &mut [u8]) -> (u32, u32) {
    // As with write.
    let answer = unsafe { entry(text.as_ptr(), text.len(), borrower, area.as_mut_ptr(), area.len()) };
    (answer.number, answer.record_number)
}

pub fn take_back(entry: Return, text: &[u8], area: &mut [u8]) -> (u32, u32) {
    // As with write.
    let answer = unsafe { entry(text.as_ptr(), text.len(), area.as_mut_ptr(), area.len()) };
    (answer.number, answer.record_number)
}

pub fn ask(entry: Ask, text: &[u8], area: &[u8]) -> (u32, u32, u32) {
    // The areas are as long as said.
    let answer = unsafe { entry(text.as_ptr(), text.len(), area.as_ptr(), area.len()) };
    (answer.number, answer.borrower, answer.looks)
}

pub fn counts(entry: Counts, area: &[u8]) -> (u32, [u32; 8]) {
    // The area is as long as said.
    let answer = unsafe { entry(area.as_ptr(), area.len()) };
    (answer.number, answer.counts)
}

pub fn append(issue: LogIssue, take_back: LogReturn, log: &mut [u8], position: usize, record: &Record) -> (u32, usize) {
    let &Record { number, code, borrower } = record;
    // As with write.
    let answer = match borrower {
        Some(to) => unsafe { issue(log.as_mut_ptr(), log.len(), position, number, code.as_ptr(), code.len(), to) },
        None => unsafe { take_back(log.as_mut_ptr(), log.len(), position, number, code.as_ptr(), code.len()) },
    };
    (answer.number, answer.length)
}

pub fn replay(entry: Replay, log: &[u8], area: &mut [u8]) -> (u32, u32, usize) {
    // As with write.
    let answer = unsafe { entry(log.as_ptr(), log.len(), area.as_mut_ptr(), area.len()) };
    (answer.number, answer.end, answer.offset)
}
