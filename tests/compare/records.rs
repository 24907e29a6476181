//! Random records of a log: issues and returns under their numbers, whole records that are none, and damaged logs.

use crate::areas::Filled;
use crate::random::Random;
use crate::{areas, cases, codes};
use harness::area::last_number;
use harness::call::{Call, Request};
use reference::log::{issue_record, record, return_record, BORROWER, HEAD, ISSUE, NUMBER, RETURN};
use reference::register::PLACES;

/// An issue, or a return.
#[derive(Clone)]
pub enum Change {
    Issue(Vec<u8>, u32),
    Return(Vec<u8>),
}

impl Change {
    pub fn new(random: &mut Random, issues: bool, code: &[u8]) -> Change {
        match issues {
            true => Change::Issue(code.to_vec(), areas::borrower(random)),
            false => Change::Return(code.to_vec()),
        }
    }

    pub fn any(random: &mut Random, code: &[u8]) -> Change {
        let issues = random.percent(50);
        Change::new(random, issues, code)
    }

    /// The return for an issue, the issue for a return.
    pub fn opposite(&self, random: &mut Random) -> Change {
        match self {
            Change::Issue(code, _) => Change::new(random, false, code),
            Change::Return(code) => Change::new(random, true, code),
        }
    }

    /// Its record in the first form, which had other tags and no number.
    pub fn old_bytes(&self) -> Vec<u8> {
        match self {
            Change::Issue(code, borrower) => record(1, &[&borrower.to_be_bytes(), &code[..]].concat()),
            Change::Return(code) => record(2, code),
        }
    }

    /// Its record, under a number.
    pub fn bytes(&self, number: u32) -> Vec<u8> {
        match self {
            Change::Issue(code, borrower) => issue_record(number, code, *borrower),
            Change::Return(code) => return_record(number, code),
        }
    }
}

/// A whole record that is no issue and no return, though it may have this number: by its tag, an old one among them, by too
/// short a body, by number 0, or by code bytes that are no code. Some bodies have one of these lengths.
pub fn no_record(random: &mut Random, lengths: &[usize], number: u32) -> Vec<u8> {
    let code = if random.percent(50) { codes::unit(random) } else { codes::composite(random) };
    let number = number.to_be_bytes();
    let head = [number, areas::borrower(random).to_be_bytes()].concat();
    let (issue, take_back) = ([&head[..], &code].concat(), [&number[..], &code].concat());
    let tag = random.pick(&[ISSUE, RETURN]);
    match random.below(20) {
        0 => record(random.pick(&[0, 1, 2, 5, 0x83, 0xff]), &issue),
        1 => record(random.pick(&[0, 1, 2, 5, 0x84, 0xff]), &take_back),
        // Records of the first form, which had no number.
        2 => record(1, &issue[NUMBER..]),
        3 => record(2, &code),
        4 => record(random.pick(&[0, 0, 1, 2, 3, 4, 255]), &[]),
        5 => record(ISSUE, &issue[..1 + random.below(head.len())]),
        6 => record(RETURN, &take_back[..1 + random.below(NUMBER)]),
        7 => record(tag, &[&issue[..], &[random.byte()]].concat()),
        8 => record(RETURN, &[&take_back[..], &[random.byte()]].concat()),
        9 => record(tag, &issue[..issue.len() - 1]),
        10 => record(RETURN, &[&number[..], &codes::units_of_composite(random).concat()].concat()),
        11 => record(ISSUE, &[&head[..], &codes::units_of_composite(random).concat()].concat()),
        12..=13 => record(RETURN, &[&number[..], &codes::nearly_wide(random)].concat()),
        14..=15 => record(ISSUE, &[&head[..], &codes::nearly_wide(random)].concat()),
        16..=17 => record(ISSUE, &[&[0; NUMBER], &issue[NUMBER..]].concat()),
        18 => record(RETURN, &[&[0; NUMBER], &code[..]].concat()),
        _ => {
            let length = random.pick(lengths);
            record(tag, &random.bytes(length))
        }
    }
}

/// Where the records of a log start, as far as they can be read.
pub fn starts(log: &[u8]) -> Vec<usize> {
    let (mut starts, mut at) = (Vec::new(), 0);
    while let Some(&[_, high, low]) = log.get(at..).and_then(<[u8]>::first_chunk) {
        starts.push(at);
        at += HEAD + usize::from(u16::from_be_bytes([high, low]));
    }
    starts
}

/// One fault: mostly in the tag, the length or the number of a record.
pub fn damage(random: &mut Random, log: &mut Vec<u8>) {
    let starts = starts(log);
    if starts.is_empty() || random.percent(20) {
        return codes::damage(random, log);
    }
    let at = random.pick(&starts);
    if let (true, Some(number)) = (random.percent(25), log.get_mut(at + HEAD..at + HEAD + NUMBER)) {
        return damage_number(random, number);
    }
    match random.below(8) {
        0 => log[at] = random.pick(&[0, 1, 2, 3, 4, 255]),
        1 => log[at] ^= 1 << random.below(8),
        2 => log[at + 1] = random.pick(&[1, 0x80, 255]),
        3 => log[at + 1..at + 3].reverse(),
        4 => log[at + 2] = log[at + 2].wrapping_add(1),
        5 => log[at + 2] = log[at + 2].wrapping_sub(1),
        6 => log[at + 2] = random.pick(&[0, 3, 4, 5, 255]),
        _ => log[at + 2] = random.byte(),
    }
}

/// One more, one less, 0, low byte first, or one with another byte.
fn damage_number(random: &mut Random, number: &mut [u8]) {
    match random.below(6) {
        0..=1 => number[3] = number[3].wrapping_add(1),
        2 => number[3] = number[3].wrapping_sub(1),
        3 => number.fill(0),
        4 => number.reverse(),
        _ => number[random.below(NUMBER)] = random.byte(),
    }
}

/// The number of a log's first record: mostly the next one, or one that was applied already, as in a log that is replayed
/// once more; some leave numbers out.
pub fn first_number(random: &mut Random, last: u32) -> u32 {
    let next = last.saturating_add(1);
    match random.below(20) {
        0..=10 => next,
        11..=15 => last.saturating_sub(random.below(6) as u32).max(1),
        16..=17 => 1,
        18 => next.saturating_add(1),
        _ => areas::last_number(random).max(1),
    }
}

/// The number of a record that would have this one: another in a few.
fn number_in_log(random: &mut Random, number: u32) -> u32 {
    match random.below(40) {
        0..=1 => number.saturating_add(1),
        2 => number.saturating_sub(1),
        3 => 0,
        4 => 1,
        5 => areas::last_number(random),
        _ => number,
    }
}

/// A log about the codes of a register: mostly changes that can be done. Some records are none, some logs are cut, some
/// damaged, and the numbers of some are applied already or leave others out.
pub fn log(random: &mut Random, filled: &Filled) -> Vec<u8> {
    let Filled { area, codes, used } = filled;
    let mut last = last_number(area).expect("a register");
    let mut out: Vec<bool> = (0..codes.len()).map(|code| code < *used).collect();
    let (mut log, mut number) = (Vec::new(), first_number(random, last));
    for _ in 0..random.below(8) {
        let own = number_in_log(random, number);
        // Where the number decides, the change may be one that cannot be done: an issue above all where no place is free.
        let is_next = own == last.saturating_add(1);
        let wants_room = !is_next && *used == PLACES && random.percent(70);
        let code = match random.percent(50) && *used > 0 && !wants_room {
            true => random.below(*used),
            false => used + random.below(codes.len() - used),
        };
        if random.percent(10) {
            log.extend(no_record(random, &[255, 256, 257, 1000, 65_535], own));
        } else {
            let issues = wants_room || out[code] != random.percent(if is_next { 90 } else { 50 });
            log.extend(Change::new(random, issues, &codes[code]).bytes(own));
            if own > last {
                (out[code], last) = (issues, own);
            }
        }
        number = own.max(number).saturating_add(1);
    }
    if random.percent(30) {
        damage(random, &mut log);
    }
    if random.percent(40) {
        log.truncate(random.below(log.len() + 1));
    }
    log
}

/// A record at a position: at the log's start or anywhere, with just its room, with less, with more; or past the end.
pub fn append(random: &mut Random, call: Call) -> Request {
    let first = match random.below(200) {
        0..=3 => Vec::new(),
        4 => {
            let more = random.pick(&[65_500, 65_535, 65_536, 65_542, 70_000]);
            [cases::one_code(random), random.bytes(more)].concat()
        }
        _ => cases::one_code(random),
    };
    let need = HEAD + NUMBER + if call.lends() { BORROWER } else { 0 } + first.len();
    let (any, far) = (random.below(300), random.pick(&[4000, 65_530, 65_536]));
    let before = random.pick(&[0, 0, 1, any, any, any, any, far]);
    let (less, more) = (random.below(need), random.below(300));
    let room = random.pick(&[need, need, need, need + 1, need + more, need - 1, less, 0, 1]);
    let length = before + room;
    let position = match random.percent(6) {
        true => random.pick(&[length, length + 1, length + need, 1 << 32, 1 << 63, usize::MAX - need + 1, usize::MAX]),
        false => before,
    };
    let borrower = if call.lends() { areas::borrower(random) } else { 0 };
    let record_number = if random.percent(8) { 0 } else { areas::last_number(random).max(1) };
    Request { first, second: random.bytes(length), borrower, record_number, position, ..Request::new(call) }
}
