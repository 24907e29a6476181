//! The pending issues log: records of a tag, a length in two bytes and a body that begins with the record number. A replay
//! tests the register once, then applies or skips the records one by one, and keeps along how many places are used and the last
//! number.

use crate::doors::{Code, LONGEST_CODE};
use crate::register::{is_code, Register};

const ISSUE: u8 = 3;
const RETURN: u8 = 4;
/// Tag and length.
const HEAD: usize = 3;

/// How a replay ended; 0 where it did not begin.
const RAN: u32 = 1;
const TORN: u32 = 2;
const STOPPED: u32 = 3;

/// Writes a whole record at the position, or nothing: 24, 15.
fn append(log: &mut [u8], position: usize, tag: u8, number: u32, borrower: &[u8], code: &[u8]) -> Result<usize, u32> {
    if number == 0 || !is_code(code) {
        return Err(24);
    }
    let length = size_of_val(&number) + borrower.len() + code.len();
    let room = log.get_mut(position..).and_then(|rest| rest.get_mut(..HEAD + length)).ok_or(15u32)?;
    let (head, body) = room.split_first_chunk_mut::<HEAD>().unwrap();
    let [high, low] = (length as u16).to_be_bytes();
    *head = [tag, high, low];
    let (first, rest) = body.split_first_chunk_mut().unwrap();
    *first = number.to_be_bytes();
    let (first, rest) = rest.split_at_mut(borrower.len());
    first.copy_from_slice(borrower);
    rest.copy_from_slice(code);
    Ok(HEAD + length)
}

fn answer(written: Result<usize, u32>) -> (u32, usize) {
    written.map_or_else(|number| (number, 0), |length| (0, length))
}

#[inline(never)]
pub fn log_issue(log: &mut [u8], position: usize, number: u32, code: &[u8], borrower: u32) -> (u32, usize) {
    answer(append(log, position, ISSUE, number, &borrower.to_be_bytes(), code))
}

#[inline(never)]
pub fn log_return(log: &mut [u8], position: usize, number: u32, code: &[u8]) -> (u32, usize) {
    answer(append(log, position, RETURN, number, &[], code))
}

/// What a record says.
struct Record<'a> {
    number: u32,
    /// Whom the code is issued to; none for a return.
    borrower: Option<u32>,
    code: &'a [u8],
}

/// The record that a whole one is, or 24.
fn read(tag: u8, body: &[u8]) -> Result<Record<'_>, u32> {
    let (number, rest) = body.split_first_chunk().ok_or(24u32)?;
    let number = u32::from_be_bytes(*number);
    let (borrower, code) = match tag {
        ISSUE => {
            let (borrower, code) = rest.split_first_chunk().ok_or(24u32)?;
            (Some(u32::from_be_bytes(*borrower)), code)
        }
        RETURN => (None, rest),
        _ => return Err(24),
    };
    if number == 0 || !is_code(code) {
        return Err(24);
    }
    Ok(Record { number, borrower, code })
}

/// 24; nothing where the number is applied already; 25; 20 to 22.
fn apply(tag: u8, body: &[u8], register: &mut Register) -> Result<(), u32> {
    let record = read(tag, body)?;
    if record.number <= register.last {
        return Ok(());
    }
    if record.number - register.last != 1 {
        return Err(25);
    }
    let mut code = Code { bytes: [0; LONGEST_CODE], length: record.code.len() };
    code.bytes[..record.code.len()].copy_from_slice(record.code);
    match record.borrower {
        Some(borrower) => register.put_out(&code, borrower)?,
        None => register.put_back(&code)?,
    }
    register.take(record.number);
    Ok(())
}

/// The tag and the body of the first record and what is behind it; none where it is not whole.
fn first_record(log: &[u8]) -> Option<(u8, &[u8], &[u8])> {
    let (&[tag, high, low], rest) = log.split_first_chunk()?;
    let (body, behind) = rest.split_at_checked(u16::from_be_bytes([high, low]) as usize)?;
    Some((tag, body, behind))
}

/// The number, how it ended, and where the record starts that is torn or was refused.
#[inline(never)]
pub fn replay(log: &[u8], area: &mut [u8]) -> (u32, u32, usize) {
    let mut register = match Register::of(area) {
        Err(number) => return (number, 0, 0),
        Ok(register) => register,
    };
    let mut rest = log;
    while !rest.is_empty() {
        let offset = log.len() - rest.len();
        let Some((tag, body, behind)) = first_record(rest) else { return (0, TORN, offset) };
        if let Err(number) = apply(tag, body, &mut register) {
            return (number, STOPPED, offset);
        }
        rest = behind;
    }
    (0, RAN, 0)
}
