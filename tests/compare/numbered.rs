//! What a case has of record numbers: cases that hardly bring one of these kinds out would test nothing of it.

use crate::areas::code_in;
use crate::records;
use harness::area::{last_number, places};
use harness::call::{Call, Request, Response};
use reference::log::{End, BORROWER, HEAD, ISSUE, NUMBER, RETURN};
use reference::refusal::{ALL_OUT, ALREADY_OUT, NOT_OUT, NOT_RECORD, NOT_REGISTER, NUMBERS_SPENT, NUMBER_GAP};
use reference::register::{PLACE, PLACES};
use reference::{doors, unit};
use std::collections::HashSet;

/// The kinds, in the order of their counts.
pub const KINDS: [&str; 29] = [
    "26 of a code that is out",
    "26 with 256 others out",
    "26 of a code that is not out",
    "26 of what could be done",
    "23 at the last number",
    "text refused at the last number",
    "last number taken",
    "number across bytes taken",
    "question at the last number",
    "record skipped",
    "skipped that would be 20",
    "skipped that would be 21",
    "skipped that would be 22",
    "applied behind skipped",
    "24 of an applied number",
    "24 of number 0",
    "24 of an old record",
    "24 behind a gap",
    "gap of one",
    "gap of more",
    "25 that would be 20",
    "25 that would be 21",
    "25 that would be 22",
    "all skipped at the last number",
    "last number applied",
    "number across bytes applied",
    "tear behind skipped",
    "number 0 to be written",
    "number 0 without room",
];
const SPENT_OUT: usize = 0;
const SPENT_ALL_OUT: usize = 1;
const SPENT_NOT_OUT: usize = 2;
const SPENT_ALONE: usize = 3;
const NO_REGISTER_AT_LAST: usize = 4;
const TEXT_AT_LAST: usize = 5;
const LAST_TAKEN: usize = 6;
const ACROSS_TAKEN: usize = 7;
const ASKED_AT_LAST: usize = 8;
const SKIPPED: usize = 9;
/// The first of three kinds, one for each of 20 to 22.
const SKIPPED_WOULD: usize = 10;
const BEHIND_SKIPPED: usize = 13;
const OLD_NUMBER: usize = 14;
const NUMBER_0: usize = 15;
const OLD_RECORD: usize = 16;
const BEHIND_GAP: usize = 17;
const GAP: usize = 18;
const WIDE_GAP: usize = 19;
/// The first of three kinds, as above.
const GAP_WOULD: usize = 20;
const ALL_SKIPPED_AT_LAST: usize = 23;
const LAST_APPLIED: usize = 24;
const ACROSS_APPLIED: usize = 25;
const TORN_BEHIND_SKIPPED: usize = 26;
const WRITER_0: usize = 27;
const WRITER_0_NO_ROOM: usize = 28;

/// What logs with all their cuts have to bring out.
pub const IN_LOGS: [usize; 10] = [
    SKIPPED,
    SKIPPED_WOULD,
    SKIPPED_WOULD + 2,
    BEHIND_SKIPPED,
    OLD_NUMBER,
    NUMBER_0,
    OLD_RECORD,
    GAP,
    WIDE_GAP,
    TORN_BEHIND_SKIPPED,
];

/// Whether a case has each kind.
pub type Found = [bool; KINDS.len()];

/// The kinds that a call's cases have to bring out.
pub fn kinds(call: Call) -> &'static [usize] {
    match call {
        Call::Issue => &[SPENT_OUT, SPENT_ALL_OUT, SPENT_ALONE, NO_REGISTER_AT_LAST, TEXT_AT_LAST, LAST_TAKEN, ACROSS_TAKEN],
        Call::TakeBack => &[SPENT_NOT_OUT, SPENT_ALONE, NO_REGISTER_AT_LAST, TEXT_AT_LAST, LAST_TAKEN, ACROSS_TAKEN],
        Call::Ask => &[ASKED_AT_LAST],
        // From the first kind of a replay to the last.
        Call::Replay => &[9, 10, 11, 12, 13, 14, 15, 16, 17, 18, 19, 20, 21, 22, 23, 24, 25, 26],
        Call::LogIssue | Call::LogReturn => &[WRITER_0, WRITER_0_NO_ROOM],
        _ => &[],
    }
}

fn is_code(bytes: &[u8]) -> bool {
    unit::read(bytes).is_ok_and(|(_, used)| used == bytes.len())
}

/// The codes out of an area that is a register.
fn out(area: &[u8]) -> HashSet<&[u8]> {
    places(area).chunks(PLACE).map(code_in).filter(|code| !code.is_empty()).collect()
}

/// What a change would be refused with, but for its number; 0 where it could be done.
fn would_be(issues: bool, code: &[u8], out: &HashSet<&[u8]>) -> u32 {
    match (issues, out.contains(code)) {
        (true, true) => ALREADY_OUT,
        (true, false) if out.len() == PLACES => ALL_OUT,
        (false, false) => NOT_OUT,
        _ => 0,
    }
}

/// The place of a refusal among 20 to 22.
fn own(number: u32) -> Option<usize> {
    (ALREADY_OUT..=NOT_OUT).contains(&number).then(|| (number - ALREADY_OUT) as usize)
}

/// A live issue or return.
fn of_live(request: &Request, due: &Response) -> Vec<usize> {
    let is_last = last_number(&request.second) == Some(u32::MAX);
    match due.number {
        0 => {
            let taken = due.values[0];
            let kinds = [(LAST_TAKEN, taken == u64::from(u32::MAX)), (ACROSS_TAKEN, taken & 0xff == 0)];
            kinds.into_iter().filter(|kind| kind.1).map(|kind| kind.0).collect()
        }
        NUMBERS_SPENT => {
            let code = doors::code(&request.first, doors::LONGEST_CODE).unwrap_or_default();
            vec![match would_be(request.call == Call::Issue, &code, &out(&request.second)) {
                ALREADY_OUT => SPENT_OUT,
                ALL_OUT => SPENT_ALL_OUT,
                NOT_OUT => SPENT_NOT_OUT,
                _ => SPENT_ALONE,
            }]
        }
        NOT_REGISTER if is_last => vec![NO_REGISTER_AT_LAST],
        1..=14 if is_last => vec![TEXT_AT_LAST],
        _ => Vec::new(),
    }
}

/// A record by its tag and its body: its number, whether it issues, and its code; nothing where it has no such parts.
fn parts(tag: u8, body: &[u8]) -> Option<(u32, bool, &[u8])> {
    let (number, rest) = body.split_first_chunk::<NUMBER>()?;
    let code = match tag {
        ISSUE => rest.get(BORROWER..)?,
        RETURN => rest,
        _ => return None,
    };
    Some((u32::from_be_bytes(*number), tag == ISSUE, code))
}

/// A record that stopped a replay with 24, behind this last number.
fn of_no_record(tag: u8, body: &[u8], last: u32) -> Vec<usize> {
    let is_old = match tag {
        1 => body.get(BORROWER..).is_some_and(is_code),
        2 => is_code(body),
        _ => false,
    };
    let kinds = match parts(tag, body) {
        None => [(OLD_RECORD, is_old), (NUMBER_0, false), (OLD_NUMBER, false), (BEHIND_GAP, false)],
        Some((number, _, code)) => [
            (OLD_RECORD, false),
            (NUMBER_0, number == 0 && is_code(code)),
            (OLD_NUMBER, (1..=last).contains(&number)),
            (BEHIND_GAP, number > last.saturating_add(1)),
        ],
    };
    kinds.into_iter().filter(|kind| kind.1).map(|kind| kind.0).collect()
}

/// The records that a replay came to, with the codes that were out at each.
fn of_replay(request: &Request, due: &Response) -> Vec<usize> {
    let (log, [end, offset, ..]) = (&request.first, due.values);
    let Some(first_last) = last_number(&request.second).filter(|_| due.number != NOT_REGISTER) else { return Vec::new() };
    let (mut out, mut last, mut kinds, mut skipped) = (out(&request.second), first_last, Vec::new(), 0);
    for start in records::starts(log) {
        let length = usize::from(u16::from_be_bytes([log[start + 1], log[start + 2]]));
        let Some(body) = log[start + HEAD..].get(..length) else { break };
        let stops = end == End::Stopped as u64 && start as u64 == offset;
        if stops && due.number == NOT_RECORD {
            kinds.extend(of_no_record(log[start], body, last));
        }
        let Some((number, issues, code)) = parts(log[start], body).filter(|_| !stops || due.number == NUMBER_GAP) else {
            break;
        };
        let refusal = own(would_be(issues, code, &out));
        if stops {
            kinds.push(if number == last + 2 { GAP } else { WIDE_GAP });
            kinds.extend(refusal.map(|refusal| GAP_WOULD + refusal));
            break;
        }
        if number <= last {
            skipped += 1;
            kinds.push(SKIPPED);
            kinds.extend(refusal.map(|refusal| SKIPPED_WOULD + refusal));
            continue;
        }
        last = number;
        match issues {
            true => drop(out.insert(code)),
            false => drop(out.remove(code)),
        }
        let more = [(BEHIND_SKIPPED, skipped > 0), (LAST_APPLIED, number == u32::MAX), (ACROSS_APPLIED, number & 0xff == 0)];
        kinds.extend(more.into_iter().filter(|kind| kind.1).map(|kind| kind.0));
    }
    if skipped > 0 && first_last == u32::MAX && end == End::Ran as u64 {
        kinds.push(ALL_SKIPPED_AT_LAST);
    }
    if skipped > 0 && end == End::Torn as u64 {
        kinds.push(TORN_BEHIND_SKIPPED);
    }
    kinds
}

/// A record of number 0 that is to be written.
fn of_writer(request: &Request) -> Vec<usize> {
    if request.record_number != 0 || !is_code(&request.first) {
        return Vec::new();
    }
    let need = HEAD + NUMBER + if request.call.lends() { BORROWER } else { 0 } + request.first.len();
    let room = request.second.len().saturating_sub(request.position);
    if need <= room {
        vec![WRITER_0]
    } else {
        vec![WRITER_0_NO_ROOM]
    }
}

pub fn found(request: &Request, due: &Response) -> Found {
    let kinds = match request.call {
        Call::Issue | Call::TakeBack => of_live(request, due),
        Call::Ask if matches!(due.number, 0 | NOT_OUT) && last_number(&request.second) == Some(u32::MAX) => {
            vec![ASKED_AT_LAST]
        }
        Call::Replay => of_replay(request, due),
        Call::LogIssue | Call::LogReturn => of_writer(request),
        _ => Vec::new(),
    };
    let mut found = [false; KINDS.len()];
    kinds.into_iter().for_each(|kind| found[kind] = true);
    found
}
