//! What a case has of wide composites: cases that hardly bring one of these kinds out would test nothing of it.

use crate::{areas, records};
use harness::area::places;
use harness::call::{Call, Request, Response};
use reference::log::{End, BORROWER, HEAD, ISSUE, NUMBER};
use reference::refusal::{ALL_OUT, ALREADY_OUT, AREA_TOO_SHORT, LAST_NUMBERS_DIFFER, LOANS_DIFFER, NOT_OUT, NOT_RECORD};
use reference::refusal::{NOT_REGISTER, NUMBERS_SPENT, NUMBER_GAP};
use reference::register::PLACE;
use reference::{base32, header};

/// The kinds, in the order of their counts.
pub const KINDS: [&str; 7] = [
    "wide",
    "wide with bytes behind",
    "cut wide",
    "wide of another length",
    "units of a wide",
    "wide in a place",
    "spoilt wide in a place",
];
const ALONE: usize = 0;
const FOLLOWED: usize = 1;
const CUT: usize = 2;
const OTHER_LENGTH: usize = 3;
const UNITS: usize = 4;
const IN_PLACE: usize = 5;
const SPOILT_IN_PLACE: usize = 6;

/// What sequences of calls have to bring out too, where they are not too few for it.
pub fn in_sequences(count: u64) -> &'static [usize] {
    if count < 50 {
        &[]
    } else {
        &[ALONE, IN_PLACE]
    }
}

/// Whether a case has each kind.
pub type Found = [bool; KINDS.len()];

/// The kinds that a call's cases have to bring out.
pub fn kinds(call: Call) -> &'static [usize] {
    match call {
        Call::Base32Read | Call::Base32Write | Call::HeaderRead | Call::HeaderWrite => &[],
        Call::Intake | Call::Strict | Call::Code | Call::Join => &[ALONE, FOLLOWED, CUT, OTHER_LENGTH, UNITS],
        Call::Issue | Call::TakeBack | Call::Ask => &[ALONE, FOLLOWED, CUT, OTHER_LENGTH, UNITS, IN_PLACE, SPOILT_IN_PLACE],
        Call::Replay => &[ALONE, FOLLOWED, CUT, OTHER_LENGTH, IN_PLACE, SPOILT_IN_PLACE],
        Call::Promote => &[ALONE, IN_PLACE, SPOILT_IN_PLACE],
        Call::Counts => &[IN_PLACE, SPOILT_IN_PLACE],
        _ => &[ALONE, FOLLOWED, CUT, OTHER_LENGTH],
    }
}

/// What some bytes begin as.
fn kind_of(bytes: &[u8]) -> Option<usize> {
    match bytes {
        [0x57, 0, body @ ..] if body.len() < 32 => Some(CUT),
        [0x57, 0, body @ ..] if body.len() > 32 => Some(FOLLOWED),
        [0x57, 0, ..] => Some(ALONE),
        [0x57, 1..=7, ..] => Some(OTHER_LENGTH),
        [0x30, 3, rest @ ..] if rest.len() == 34 && rest[16..18] == [0x40, 3] => Some(UNITS),
        [0x40, 3, rest @ ..] if rest.len() == 34 && rest[16..18] == [0x30, 3] => Some(UNITS),
        _ => None,
    }
}

/// What a text spells that was read as base32. Other letters than K, G and I begin none of these kinds.
fn kind_of_text(text: &[u8]) -> Option<usize> {
    let run: Vec<u8> = text.iter().filter(|byte| !b" \t\r\n-".contains(byte)).map(u8::to_ascii_uppercase).collect();
    let run = run.strip_prefix(b"ISCC:").unwrap_or(&run);
    if !matches!(run.first()?, b'K' | b'G' | b'I') {
        return None;
    }
    kind_of(&base32::decode(run).ok()?)
}

/// The offset up to which a replay came, or a promotion's; none where it was not begun.
fn reached(request: &Request, due: &Response) -> Option<u64> {
    let [end, offset, ..] = due.values;
    match (request.call, due.number) {
        (Call::Promote, NOT_REGISTER | AREA_TOO_SHORT) => None,
        (Call::Promote, 0 | LOANS_DIFFER | LAST_NUMBERS_DIFFER) => Some(u64::MAX),
        (Call::Promote, _) => Some(due.values[0]),
        _ if end == End::NotBegun as u64 => None,
        _ if end == End::Ran as u64 => Some(u64::MAX),
        _ => Some(offset),
    }
}

/// The code bytes of the records that a replay came to.
fn replayed<'a>(request: &'a Request, due: &Response) -> Vec<&'a [u8]> {
    let (log, reached) = (&request.first, reached(request, due));
    let reached = |start: usize| reached.is_some_and(|offset| start as u64 <= offset);
    let code_at = |start: usize| {
        let length = usize::from(u16::from_be_bytes([log[start + 1], log[start + 2]]));
        let body = log[start + HEAD..].get(..length)?;
        body.get(if log[start] == ISSUE { NUMBER + BORROWER } else { NUMBER }..)
    };
    records::starts(log).into_iter().filter(|&start| reached(start)).filter_map(code_at).collect()
}

/// What a case asks about, but for the register.
fn asked(request: &Request, due: &Response) -> Vec<Option<usize>> {
    let is_read = !matches!(due.number, 1..=6 | 15);
    let is_header = request.header.iter().all(|&number| number < 8);
    match request.call {
        Call::Base32Read | Call::Base32Write | Call::HeaderRead | Call::HeaderWrite => Vec::new(),
        Call::Intake | Call::Strict | Call::Code | Call::Issue | Call::TakeBack | Call::Ask => {
            vec![if is_read { kind_of_text(&request.first) } else { None }]
        }
        Call::UnitWrite if is_header => vec![kind_of(&[header::encode(request.header), request.second.clone()].concat())],
        Call::UnitWrite => Vec::new(),
        Call::Distance => vec![kind_of(&request.first), kind_of(&request.second)],
        Call::Replay | Call::Promote => replayed(request, due).into_iter().map(kind_of).collect(),
        _ => vec![kind_of(&request.first)],
    }
}

/// What the places of a register hold, and of an area that is none, where the answer tells which it is.
fn in_places(request: &Request, due: &Response) -> Vec<Option<usize>> {
    let told = [0, ALREADY_OUT, ALL_OUT, NOT_OUT, NOT_RECORD, NUMBER_GAP, NUMBERS_SPENT];
    let is_register = told.contains(&due.number) || request.call.works() && due.number != NOT_REGISTER;
    let kind_in = |place: &[u8]| match kind_of(areas::code_in(place))? {
        ALONE if is_register => Some(IN_PLACE),
        FOLLOWED | CUT | OTHER_LENGTH if due.number == NOT_REGISTER => Some(SPOILT_IN_PLACE),
        _ => None,
    };
    match request.call.reads_register() {
        true => places(&request.second).chunks_exact(PLACE).map(kind_in).collect(),
        false => Vec::new(),
    }
}

pub fn found(request: &Request, due: &Response) -> Found {
    let mut found = Found::default();
    for kind in asked(request, due).into_iter().chain(in_places(request, due)).flatten() {
        found[kind] = true;
    }
    found
}
