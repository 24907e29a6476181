//! The pending issues log: numbered records of issues and returns, their writer, and their replay onto a register.

use crate::refusal::{AREA_TOO_SHORT, NOT_RECORD, NUMBER_GAP};
use crate::{demand, register, Answer};

/// The tags of the two records. Records of the first form, without a number, had 1 and 2.
pub const ISSUE: u8 = 3;
pub const RETURN: u8 = 4;

/// The bytes before a body: its tag, and its length in two bytes.
pub const HEAD: usize = 3;
/// The bytes of a record's number, which stands at the head of the body.
pub const NUMBER: usize = 4;
/// The bytes of a borrower.
pub const BORROWER: usize = 4;

/// How a replay ended, by its number.
#[derive(Clone, Copy, Debug, PartialEq, Eq)]
pub enum End {
    /// The area is no register: nothing was read of the log.
    NotBegun = 0,
    /// To the end of the log.
    Ran = 1,
    /// The rest of the log is no whole record.
    Torn = 2,
    /// A record could not be applied.
    Stopped = 3,
}

/// What a replay answers, and the register as it leaves it.
pub struct Replayed {
    pub number: u32,
    pub end: End,
    pub offset: usize,
    pub area: Vec<u8>,
}

/// A record, whatever its tag and its body.
pub fn record(tag: u8, body: &[u8]) -> Vec<u8> {
    let length = u16::try_from(body.len()).expect("a body of at most 65,535 bytes");
    [&[tag], &length.to_be_bytes()[..], body].concat()
}

pub fn issue_record(number: u32, code: &[u8], borrower: u32) -> Vec<u8> {
    record(ISSUE, &[&number.to_be_bytes(), &borrower.to_be_bytes(), code].concat())
}

pub fn return_record(number: u32, code: &[u8]) -> Vec<u8> {
    record(RETURN, &[&number.to_be_bytes(), code].concat())
}

/// 24 unless a record can be made: records are numbered from 1 up, and each has exactly one permitted unit or composite.
fn demand_record(number: u32, code: &[u8]) -> Answer<()> {
    demand(number != 0, NOT_RECORD)?;
    demand(register::is_one_code(code), NOT_RECORD)
}

/// 15 unless the record has room behind the position in a log's area of so many bytes.
fn appended(record: Vec<u8>, area: usize, position: usize) -> Answer<Vec<u8>> {
    let room = area.checked_sub(position).ok_or(AREA_TOO_SHORT)?;
    demand(record.len() <= room, AREA_TOO_SHORT)?;
    Ok(record)
}

/// What the writer puts at the position for an issue: 24, then 15.
pub fn issue(number: u32, code: &[u8], borrower: u32, area: usize, position: usize) -> Answer<Vec<u8>> {
    demand_record(number, code)?;
    appended(issue_record(number, code, borrower), area, position)
}

/// What the writer puts at the position for a return: 24, then 15.
pub fn take_back(number: u32, code: &[u8], area: usize, position: usize) -> Answer<Vec<u8>> {
    demand_record(number, code)?;
    appended(return_record(number, code), area, position)
}

/// The tag and the body of the record at the head of some bytes; nothing where it is not whole.
fn whole(bytes: &[u8]) -> Option<(u8, &[u8])> {
    let &[tag, high, low] = bytes.first_chunk()?;
    let length = usize::from(u16::from_be_bytes([high, low]));
    Some((tag, bytes[HEAD..].get(..length)?))
}

/// What a record asks for.
enum Change<'a> {
    Issue(&'a [u8], u32),
    Return(&'a [u8]),
}

/// The number of a whole record and what it asks for: 24.
fn read(tag: u8, body: &[u8]) -> Answer<(u32, Change<'_>)> {
    let (number, rest) = body.split_first_chunk::<NUMBER>().ok_or(NOT_RECORD)?;
    let number = u32::from_be_bytes(*number);
    match tag {
        ISSUE => {
            let (borrower, code) = rest.split_first_chunk::<BORROWER>().ok_or(NOT_RECORD)?;
            demand_record(number, code)?;
            Ok((number, Change::Issue(code, u32::from_be_bytes(*borrower))))
        }
        RETURN => {
            demand_record(number, rest)?;
            Ok((number, Change::Return(rest)))
        }
        _ => Err(NOT_RECORD),
    }
}

/// The register after a whole record: 24; as it was where the number was applied already; 25; then 20 and 21, or 22.
fn applied(tag: u8, body: &[u8], area: &[u8]) -> Answer<Vec<u8>> {
    let (number, change) = read(tag, body)?;
    let last = register::last_number(area)?;
    if number <= last {
        return Ok(area.to_vec());
    }
    demand(number - last == 1, NUMBER_GAP)?;
    match change {
        Change::Issue(code, borrower) => register::issue_code(code, borrower, number, area),
        Change::Return(code) => register::take_code_back(code, number, area),
    }
}

/// Replay: 23 before all else, then each record from the left.
pub fn replay(log: &[u8], area: &[u8]) -> Replayed {
    let (mut area, mut offset) = (area.to_vec(), 0);
    if let Err(number) = register::last_number(&area) {
        return Replayed { number, end: End::NotBegun, offset: 0, area };
    }
    while offset < log.len() {
        let Some((tag, body)) = whole(&log[offset..]) else {
            return Replayed { number: 0, end: End::Torn, offset, area };
        };
        match applied(tag, body, &area) {
            Err(number) => return Replayed { number, end: End::Stopped, offset, area },
            Ok(after) => area = after,
        }
        offset += HEAD + body.len();
    }
    Replayed { number: 0, end: End::Ran, offset: 0, area }
}
