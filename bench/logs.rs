//! Logs of the register's changes: those that are replayed, and the records of those that are appended.

use crate::inputs;
use crate::random::Random;
use crate::registers::{self, last_number, Codes, Register};
use crate::turns::time;
use std::hint::black_box;
use std::time::Duration;

#[derive(Clone, Copy)]
pub enum Kind {
    Issue,
    Return,
}

/// What is appended.
#[derive(Clone, Copy)]
pub struct Record<'a> {
    pub number: u32,
    pub code: &'a [u8],
    /// Whom it is issued to; none for a return.
    pub borrower: Option<u32>,
}

/// So many logs of one record are taken in turn. One that is long is enough.
const SINGLES: u64 = 16;
/// The codes that are out become so many more or fewer while a log is replayed.
const SPREAD: usize = 4;

fn random_of(count: usize, out: usize, case: u64) -> Random {
    Random::of_case(24, (count * 1000 + out) as u64, case)
}

fn record(number: u32, kind: Kind, code: &[u8], random: &mut Random) -> Vec<u8> {
    let (tag, borrower) = match kind {
        Kind::Issue => (3, random.bytes(4)),
        Kind::Return => (4, Vec::new()),
    };
    let length = (4 + borrower.len() + code.len()) as u16;
    [&[tag], &length.to_be_bytes()[..], &number.to_be_bytes(), &borrower, code].concat()
}

/// A log of so many records of these kinds, in any order. Whether it can be replayed is no matter for a writer.
pub fn listed(count: usize, kinds: &[Kind]) -> Vec<u8> {
    let random = &mut random_of(count, kinds.len(), 0);
    let mut log = Vec::new();
    for number in 1..=count {
        let (kind, code) = (random.pick(kinds), inputs::mixed(random));
        log.extend(record(number as u32, kind, &code, random));
    }
    log
}

/// A log that a replay takes to its end, and the register that it is for: its first number is the next one there. About so many
/// codes are out all the while: an issue is of one that is not out, a return of any that is.
fn replayable(count: usize, out: usize, random: &mut Random) -> (Vec<u8>, Register) {
    let mut held = registers::codes_in_order(Codes::Mixed, out, random);
    let area = registers::area_of(&held, random);
    let mut log = Vec::new();
    for number in (last_number(&area) + 1..).take(count) {
        let issue = held.len() + SPREAD <= out || held.len() < out + SPREAD && random.percent(50);
        if issue {
            let code = registers::another(&held, || inputs::mixed(random));
            log.extend(record(number, Kind::Issue, &code, random));
            held.push(code);
        } else {
            let code = held.swap_remove(random.below(held.len()));
            log.extend(record(number, Kind::Return, &code, random));
        }
    }
    (log, Register::whole(area))
}

pub fn made(count: usize, out: usize) -> (Vec<Vec<u8>>, Vec<Register>) {
    let cases = if count == 1 { SINGLES } else { 1 };
    (0..cases).map(|case| replayable(count, out, &mut random_of(count, out, case))).unzip()
}

/// The same, but the registers are those that the logs leave: every record is applied already.
pub fn applied(count: usize, out: usize) -> (Vec<Vec<u8>>, Vec<Register>) {
    let (logs, registers) = made(count, out);
    let after = |(log, Register { mut area, .. }): (&Vec<u8>, Register)| {
        assert_eq!(plain::replay(log, &mut area).0, 0);
        Register::whole(area)
    };
    let registers = logs.iter().zip(registers).map(after).collect();
    (logs, registers)
}

/// The first record of a log that has whole ones alone, and what is behind it.
pub fn first(log: &[u8]) -> Option<(&[u8], &[u8])> {
    let &[_, high, low, ..] = log else { return None };
    Some(log.split_at(3 + u16::from_be_bytes([high, low]) as usize))
}

/// The records of a log that has whole ones alone.
pub fn records(mut log: &[u8]) -> Vec<Record<'_>> {
    let mut all = Vec::new();
    while let Some((record, behind)) = first(log) {
        let (number, rest) = record[3..].split_first_chunk().unwrap();
        let (borrower, code) = match (record[0], rest) {
            (3, [a, b, c, d, code @ ..]) => (Some(u32::from_be_bytes([*a, *b, *c, *d])), code),
            _ => (None, rest),
        };
        all.push(Record { number: u32::from_be_bytes(*number), code, borrower });
        log = behind;
    }
    all
}

/// Appends the records one behind the other from a position on, up to one that is refused: its number or 0, and the
/// position then.
pub fn append(
    records: &[Record],
    log: &mut [u8],
    mut position: usize,
    write: impl Fn(&mut [u8], usize, &Record) -> (u32, usize),
) -> (u32, usize) {
    for record in records {
        let (number, length) = write(log, position, record);
        position += length;
        if number != 0 {
            return (number, position);
        }
    }
    (0, position)
}

/// Appends all records to the log from its start, so many times, and answers the time of it. What a call answers is used, so
/// that none can be left out.
pub fn over(
    records: &[Record],
    log: &mut [u8],
    times: usize,
    write: impl Fn(&mut [u8], usize, &Record) -> (u32, usize),
) -> Duration {
    time(|| {
        for _ in 0..times {
            black_box(append(black_box(records), black_box(log), 0, &write));
        }
    })
}
