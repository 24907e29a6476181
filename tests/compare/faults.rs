//! What makes an area no register: cases in which one of these is hardly all that is wrong would test nothing of it.

use crate::areas::{code_in, signed};
use crate::counts;
use harness::area::{numbers, places};
use harness::call::{Request, Response, Values};
use reference::refusal::NOT_REGISTER;
use reference::register::{CODE, COUNTS, LAST, LENGTH, PLACE, ZERO};
use reference::unit;
use std::collections::HashSet;

/// The kinds, in the order of their counts.
pub const KINDS: [&str; 43] = [
    "another length",
    "length above 42",
    "no code",
    "fill byte",
    "zero byte",
    "free place not zero",
    "one hole",
    "holes",
    "neighbours exchanged",
    "exchanged by the last byte",
    "code twice",
    "code twice, apart",
    "ordered by length",
    "ordered by signed bytes",
    "falling order",
    "no order",
    "places without counts",
    "a byte short",
    "a byte too long",
    "out too high",
    "meta too high",
    "semantic too high",
    "content too high",
    "data too high",
    "instance too high",
    "iscc too high",
    "id too high",
    "out too low",
    "meta too low",
    "semantic too low",
    "content too low",
    "data too low",
    "instance too low",
    "iscc too low",
    "id too low",
    "bytes of a count exchanged",
    "two counts exchanged",
    "counts of zeros",
    "code under another main type",
    "code too many",
    "code too few",
    "other counts",
    "no last number",
];
const OTHER_LENGTH: usize = 0;
const LONG: usize = 1;
const NO_CODE: usize = 2;
const FILL: usize = 3;
const ZERO_BYTE: usize = 4;
const NOT_FREE: usize = 5;
const HOLE: usize = 6;
const HOLES: usize = 7;
const EXCHANGED: usize = 8;
const LAST_BYTE: usize = 9;
const TWICE: usize = 10;
const TWICE_APART: usize = 11;
const BY_LENGTH: usize = 12;
const BY_SIGNED: usize = 13;
const FALLING: usize = 14;
const NO_ORDER: usize = 15;
const NO_COUNTS: usize = 16;
const BYTE_SHORT: usize = 17;
const BYTE_MORE: usize = 18;
/// The first of eight kinds, one for each number, and so the next.
const HIGH: usize = 19;
const LOW: usize = 27;
const BYTES: usize = 35;
const TWO_COUNTS: usize = 36;
const ZEROS: usize = 37;
const ELSEWHERE: usize = 38;
const TOO_MANY: usize = 39;
const TOO_FEW: usize = 40;
const OTHER_COUNTS: usize = 41;
const NO_LAST: usize = 42;

/// Whether a case has each kind.
pub type Found = [bool; KINDS.len()];

fn zeros(bytes: &[u8]) -> bool {
    bytes.iter().all(|&byte| byte == 0)
}

/// What is wrong with a place alone.
fn of_place(place: &[u8]) -> Vec<usize> {
    let length = place[0] as usize;
    if length == 0 {
        return if zeros(place) { Vec::new() } else { vec![NOT_FREE] };
    }
    if CODE + length > ZERO {
        return vec![LONG];
    }
    let is_code = unit::read(code_in(place)).is_ok_and(|(_, used)| used == length);
    let faults = [(NO_CODE, !is_code), (FILL, !zeros(&place[CODE + length..ZERO])), (ZERO_BYTE, place[ZERO] != 0)];
    faults.into_iter().filter(|fault| fault.1).map(|fault| fault.0).collect()
}

/// Whether each item is below the next.
fn rises<T: PartialOrd>(items: &[T]) -> bool {
    items.windows(2).all(|two| two[0] < two[1])
}

/// Whether two codes differ in their last byte alone.
fn differ_at_the_end(a: &[u8], b: &[u8]) -> bool {
    a.len() == b.len() && a != b && a[..a.len() - 1] == b[..b.len() - 1]
}

/// What is wrong with the order of codes.
fn of_codes(codes: &[&[u8]]) -> Vec<usize> {
    let falls: Vec<usize> = (1..codes.len()).filter(|&at| codes[at - 1] >= codes[at]).collect();
    let (is_exchanged, is_at_the_end, is_twice) = match falls[..] {
        [] => return Vec::new(),
        [at] => {
            let mut others = codes.to_vec();
            others.swap(at - 1, at);
            (rises(&others), differ_at_the_end(codes[at - 1], codes[at]), codes[at - 1] == codes[at])
        }
        _ => (false, false, false),
    };
    let different: HashSet<&[u8]> = codes.iter().copied().collect();
    let by_length: Vec<(usize, &[u8])> = codes.iter().map(|&code| (code.len(), code)).collect();
    let by_signed: Vec<Vec<i8>> = codes.iter().map(|code| signed(code)).collect();
    let kinds = [
        (EXCHANGED, is_exchanged),
        (LAST_BYTE, is_at_the_end),
        (TWICE, is_twice),
        (TWICE_APART, different.len() < codes.len() && codes.windows(2).all(|two| two[0] != two[1])),
        (BY_LENGTH, rises(&by_length)),
        (BY_SIGNED, rises(&by_signed)),
        (FALLING, falls.len() == codes.len() - 1 && different.len() == codes.len()),
    ];
    let found: Vec<usize> = kinds.into_iter().filter(|kind| kind.1).map(|kind| kind.0).collect();
    if found.is_empty() {
        vec![NO_ORDER]
    } else {
        found
    }
}

/// What is wrong with how the places stand, whatever each of them holds.
fn of_order(places: &[&[u8]]) -> Vec<usize> {
    let is_used = |place: &&&[u8]| place[0] != 0;
    let codes: Vec<&[u8]> = places.iter().filter(is_used).map(|place| code_in(place)).collect();
    let end = places.iter().rposition(|place| is_used(&place)).map_or(0, |last| last + 1);
    match (end - codes.len(), rises(&codes)) {
        (0, _) => of_codes(&codes),
        (1, true) => vec![HOLE],
        (_, true) => vec![HOLES],
        (_, false) => vec![NO_ORDER],
    }
}

/// What is wrong with the one number that is not as it is due.
fn of_number(at: usize, found: u64, due: u64) -> usize {
    match found {
        _ if found == due + 1 => HIGH + at,
        _ if found + 1 == due => LOW + at,
        _ if found == u64::from((due as u16).swap_bytes()) => BYTES,
        _ => OTHER_COUNTS,
    }
}

/// What is wrong with the counts.
fn of_counts(found: Values, due: Values) -> Vec<usize> {
    let wrong: Vec<usize> = (0..due.len()).filter(|&at| found[at] != due[at]).collect();
    let all_by = |step: u64, more: &Values, less: &Values| wrong.iter().all(|&at| more[at] == less[at] + step);
    let kind = match wrong[..] {
        [] => return Vec::new(),
        _ if found == Values::default() => ZEROS,
        [at] => of_number(at, found[at], due[at]),
        [0, _] if all_by(1, &found, &due) => TOO_MANY,
        [0, _] if all_by(1, &due, &found) => TOO_FEW,
        [one, other] if one > 0 && (found[one], found[other]) == (due[other], due[one]) => TWO_COUNTS,
        [one, other] if one > 0 && found[one] + found[other] == due[one] + due[other] => ELSEWHERE,
        _ => OTHER_COUNTS,
    };
    vec![kind]
}

/// What is wrong with the places one by one, with their order, and with the counts.
fn of_parts(area: &[u8]) -> [Vec<usize>; 3] {
    let places: Vec<&[u8]> = places(area).chunks(PLACE).collect();
    let of_places = places.iter().flat_map(|place| of_place(place)).collect();
    [of_places, of_order(&places), of_counts(numbers(area), counts::of_area(area).map(u64::from))]
}

/// What is wrong with an area of another length: the length by a byte, by the counts or by the last number, where with them
/// it is a register with codes out.
fn of_length(area: &[u8]) -> Vec<usize> {
    let (kind, mended) = match area.len() {
        length if length + COUNTS == LENGTH => {
            let mut mended = [&[0; COUNTS], area].concat();
            counts::put(&mut mended);
            (NO_COUNTS, mended)
        }
        LAST => (NO_LAST, [area, &[0; LENGTH - LAST]].concat()),
        length if length + 1 == LENGTH => (BYTE_SHORT, [area, &[0]].concat()),
        length if length == LENGTH + 1 => (BYTE_MORE, area[..LENGTH].to_vec()),
        _ => return vec![OTHER_LENGTH],
    };
    if mended[COUNTS] != 0 && of_parts(&mended).concat().is_empty() {
        vec![OTHER_LENGTH, kind]
    } else {
        vec![OTHER_LENGTH]
    }
}

/// What is wrong with an area; nothing where more than one thing is.
fn of_area(area: &[u8]) -> Vec<usize> {
    if area.len() != LENGTH {
        return of_length(area);
    }
    let [of_places, of_order, of_counts] = of_parts(area);
    match (&of_places[..], &of_order[..], &of_counts[..]) {
        ([], _, []) => of_order,
        ([_], [], []) => of_places,
        ([], [], _) => of_counts,
        _ => Vec::new(),
    }
}

pub fn found(request: &Request, due: &Response) -> Found {
    let mut found = [false; KINDS.len()];
    if due.number == NOT_REGISTER {
        of_area(&request.second).into_iter().for_each(|kind| found[kind] = true);
    }
    found
}
