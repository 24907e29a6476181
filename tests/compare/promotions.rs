//! Random promotions: a log from the empty register on, a replica that holds what the log leaves or nearly so, and a work area
//! about as long as a register. And what a case has of them: cases that hardly bring one of these kinds out would test nothing
//! of it.

use crate::areas::{self, loans_in, Loans};
use crate::codes;
use crate::random::Random;
use crate::records::{self, Change};
use harness::area::last_number;
use harness::call::{Call, Request, Response};
use reference::log::{self, End, Replayed};
use reference::refusal::{AREA_TOO_SHORT, LAST_NUMBERS_DIFFER, LOANS_DIFFER, LOG_TORN, NOT_RECORD, NOT_REGISTER};
use reference::register::{LENGTH, PLACES};

/// The log of a case, as it grows: mostly of changes that can be done. The loans and the number are what it leaves, as long as
/// every record of it can be applied.
struct Growing {
    log: Vec<u8>,
    loans: Loans,
    next: u32,
    all_good: bool,
}

impl Growing {
    fn push(&mut self, change: &Change) {
        self.log.extend(change.bytes(self.next));
        self.next += 1;
        match change {
            Change::Issue(code, borrower) => drop(self.loans.insert(code.clone(), *borrower)),
            Change::Return(code) => drop(self.loans.remove(code)),
        }
    }

    /// A record that stops a replay or is skipped: one behind a gap, one of number 0 or of a number that was applied already,
    /// one of the first form, no record at all, or a change that cannot be done.
    fn push_other(&mut self, random: &mut Random, code: &[u8]) {
        let is_out = self.loans.contains_key(code);
        let (good, bad) = (Change::new(random, !is_out, code), Change::new(random, is_out, code));
        let (next, gap) = (self.next, random.pick(&[1, 1, 2, 255, 1 << 31]));
        let record = match random.below(12) {
            0..=1 => good.bytes(next + gap),
            2 => good.bytes(0),
            3 => good.old_bytes(),
            4..=5 => bad.bytes(next),
            6..=7 => records::no_record(random, &[43, 255, 256], next),
            _ if next == 1 => bad.bytes(1),
            _ => Change::any(random, code).bytes(1 + random.below(next as usize - 1) as u32),
        };
        self.log.extend(record);
        self.all_good = false;
    }

    /// The register that the log leaves.
    fn left(&self) -> Vec<u8> {
        match self.all_good {
            true => areas::of_loans(&self.loans, self.next - 1),
            false => from_empty(&self.log),
        }
    }
}

/// What a replay of a log leaves of an empty register.
fn from_empty(log: &[u8]) -> Vec<u8> {
    log::replay(log, &[0; LENGTH]).area
}

/// A log of a few changes, or one of issues that fills the register, in some cases with one issue more.
fn grown(random: &mut Random, fills: bool) -> Growing {
    let mut growing = Growing { log: Vec::new(), loans: Loans::new(), next: 1, all_good: true };
    if fills {
        for code in codes::different(random, PLACES) {
            let issue = Change::new(random, true, &code);
            growing.push(&issue);
        }
        if random.percent(30) {
            let code = any_out(random, &growing.loans).expect("256 are out");
            growing.push_other(random, &code);
        }
        if random.percent(30) {
            // A code that is hardly among them.
            let issue = Change::new(random, true, &codes::greatest());
            growing.log.extend(issue.bytes(growing.next));
            growing.all_good = false;
        }
        return growing;
    }
    let (changes, count) = (random.pick(&[0, 1, 2, 4, 8, 12]), random.pick(&[1, 3, 6, 10]));
    let codes = codes::different(random, count);
    let others = random.pick(&[0, 0, 0, 8, 15]);
    for _ in 0..changes {
        let code = &codes[random.below(codes.len())];
        if random.percent(others) {
            growing.push_other(random, code);
        }
        let issues = !growing.loans.contains_key(code);
        let change = Change::new(random, issues, code);
        growing.push(&change);
    }
    if random.percent(others) {
        let code = &codes[random.below(codes.len())];
        growing.push_other(random, code);
    }
    growing
}

/// One of the codes out.
fn any_out(random: &mut Random, loans: &Loans) -> Option<Vec<u8>> {
    let (first, last) = (loans.keys().next()?, loans.keys().next_back()?);
    let any = loans.keys().nth(random.below(loans.len()))?;
    Some(random.pick(&[first, last, any, any]).clone())
}

/// One difference between two registers: a code less, a code more, another borrower by one bit or by any, or a code that
/// differs in its last byte alone.
fn differ(random: &mut Random, loans: &mut Loans) {
    let Some(code) = any_out(random, loans) else {
        loans.insert(codes::different(random, 1).remove(0), areas::borrower(random));
        return;
    };
    let borrower = loans[&code];
    match random.below(8) {
        0..=1 => drop(loans.remove(&code)),
        2..=3 if loans.len() < PLACES => {
            let ends = [codes::least(), codes::greatest(), codes::unit(random), codes::composite(random)];
            loans.insert(ends[random.below(4)].clone(), areas::borrower(random));
        }
        4 => drop(loans.insert(code, areas::borrower(random))),
        5..=6 => drop(loans.insert(code, borrower ^ random.pick(&[1, 1 << 31, 1 << 8, 1 << 16]))),
        _ => {
            loans.remove(&code);
            let mut other = code;
            *other.last_mut().expect("a code has bytes") ^= random.pick(&[1, 0x80, 0x80]);
            loans.insert(other, borrower);
        }
    }
}

/// Another last number: a bit or one away, or any.
fn other_last(random: &mut Random, last: u32) -> u32 {
    let bit = last ^ 1 << random.below(32);
    let any = areas::last_number(random);
    random.pick(&[last.wrapping_add(1), last.saturating_sub(1), bit, bit, any])
}

/// What a replica of this log may hold, when the log leaves so much: the same, other loans, another last number, both, or
/// what the log left at one of its records.
fn replica(random: &mut Random, log: &[u8], left: Vec<u8>) -> Vec<u8> {
    let (mut loans, mut last) = (loans_in(&left), last_number(&left).expect("a register"));
    match random.below(20) {
        0..=6 => return left,
        7..=12 => (0..random.pick(&[1, 1, 2, 3, 6])).for_each(|_| differ(random, &mut loans)),
        13..=14 => last = other_last(random, last),
        15..=16 => {
            (0..random.pick(&[1, 2, 3])).for_each(|_| differ(random, &mut loans));
            last = other_last(random, last);
        }
        17..=18 => {
            let starts = records::starts(log);
            let behind = if starts.is_empty() { 0 } else { random.pick(&starts) };
            return from_empty(&log[..behind]);
        }
        _ => {
            let used = random.pick(&[0, 1, 5, PLACES]);
            return areas::register_of(random, used).area;
        }
    }
    areas::of_loans(&loans, last)
}

/// The length of a work area: mostly a register's, or a little more; or too short.
fn work_length(random: &mut Random) -> usize {
    let (less, more) = (random.below(LENGTH), LENGTH + random.below(200));
    match random.below(10) {
        0 => random.pick(&[0, 1, less, LENGTH - 1, LENGTH - 1]),
        1..=2 => random.pick(&[LENGTH + 1, LENGTH + 1, more, 2 * LENGTH, 65_536]),
        _ => LENGTH,
    }
}

pub fn request(random: &mut Random) -> Request {
    let fills = random.percent(1);
    let growing = grown(random, fills);
    let (left, mut first) = (growing.left(), growing.log);
    let mut second = replica(random, &first, left);
    if random.percent(15) && !fills {
        first.truncate(random.below(first.len() + 1));
        // The replica may have come as far as the whole records, or as far as the whole log.
        if random.percent(50) {
            second = from_empty(&first);
        }
    }
    if random.percent(5) {
        records::damage(random, &mut first);
    }
    if random.percent(30) {
        areas::damage(random, &mut second);
    }
    Request { first, second, area: work_length(random), ..Request::new(Call::Promote) }
}

/// The kinds, in the order of their counts.
pub const KINDS: [&str; 46] = [
    "yes with codes out",
    "yes with 256 out",
    "yes of an empty log",
    "yes with all given back",
    "yes in a longer work area",
    "yes behind a skipped record",
    "23 with a short work area",
    "23 with a log that stops",
    "23 with a torn log",
    "15 of no byte",
    "15 by a byte",
    "15 with a log that stops",
    "15 with a torn log",
    "15 with loans that differ",
    "15 where all agrees",
    "stop at the start",
    "stop behind applied records",
    "stop where all agrees",
    "stop where loans differ",
    "stop where last numbers alone differ",
    "24 of an old tag",
    "tear at the start",
    "tear behind applied records",
    "tear where all agrees",
    "tear where loans differ",
    "tear where last numbers alone differ",
    "stop in a longer work area",
    "tear in a longer work area",
    "37 in a longer work area",
    "37 with other last numbers",
    "37 with equal last numbers",
    "37 of the replica alone",
    "37 of the log alone",
    "37 of a borrower alone",
    "37 by the first byte of a borrower",
    "37 by the last byte of a borrower",
    "37 by the last byte of a code",
    "37 of several, the least in the replica",
    "37 of several, the least in the log",
    "37 of several, the least by its borrower",
    "37 of several, a shorter one behind",
    "37 of several, another by signed bytes",
    "37 with 256 out",
    "27 of a replica behind",
    "27 of a replica ahead",
    "27 with no code out",
];

/// Whether a case has each kind.
pub type Found = [bool; KINDS.len()];

/// How two registers differ: the codes, from the least on.
fn differing(logged: &Loans, held: &Loans) -> Vec<Vec<u8>> {
    let others = held.keys().filter(|&code| !logged.contains_key(code));
    let mut codes: Vec<Vec<u8>> = logged.keys().filter(|&code| logged.get(code) != held.get(code)).cloned().collect();
    codes.extend(others.cloned());
    codes.sort();
    codes
}

/// What a promotion is about: both registers, and how the replay ended.
struct Pair {
    logged: Loans,
    held: Loans,
    lasts: (u32, u32),
    codes: Vec<Vec<u8>>,
    end: End,
    offset: usize,
}

impl Pair {
    /// Of most answers the work area has what the replay left; of the others it has to be found out.
    fn of(request: &Request, due: &Response) -> Pair {
        let (area, end, offset) = match due.number {
            NOT_REGISTER | AREA_TOO_SHORT => {
                let Replayed { area, end, offset, .. } = log::replay(&request.first, &[0; LENGTH]);
                (area, end, offset)
            }
            0 | LOANS_DIFFER | LAST_NUMBERS_DIFFER => (due.written.clone(), End::Ran, 0),
            LOG_TORN => (due.written.clone(), End::Torn, due.values[0] as usize),
            _ => (due.written.clone(), End::Stopped, due.values[0] as usize),
        };
        let (logged, held) = (loans_in(&area), loans_in(&request.second));
        let lasts = (last_number(&area).unwrap_or_default(), last_number(&request.second).unwrap_or_default());
        let codes = differing(&logged, &held);
        Pair { logged, held, lasts, codes, end, offset }
    }

    fn same_loans(&self) -> bool {
        self.codes.is_empty()
    }

    fn same_lasts(&self) -> bool {
        self.lasts.0 == self.lasts.1
    }

    fn many_out(&self) -> bool {
        self.logged.len() == PLACES || self.held.len() == PLACES
    }

    /// Which register holds a code that differs: the log's, the replica's, or both for different borrowers.
    fn holders(&self, code: &[u8]) -> (Option<u32>, Option<u32>) {
        (self.logged.get(code).copied(), self.held.get(code).copied())
    }

    /// Whether two codes differ in their last byte alone, and one register holds the one, the other the other.
    fn by_last_byte(&self) -> bool {
        match &self.codes[..] {
            [one, other] => {
                let (last, is_apart) = (one.len() - 1, self.logged.contains_key(one) != self.logged.contains_key(other));
                one.len() == other.len() && one[..last] == other[..last] && is_apart
            }
            _ => false,
        }
    }
}

fn kinds_of_yes(request: &Request, pair: &Pair) -> Vec<(&'static str, bool)> {
    let is_empty = pair.logged.is_empty();
    vec![
        ("yes with codes out", !is_empty),
        ("yes with 256 out", pair.many_out()),
        ("yes of an empty log", request.first.is_empty()),
        ("yes with all given back", is_empty && !request.first.is_empty()),
        ("yes in a longer work area", request.area > LENGTH),
        ("yes behind a skipped record", records::starts(&request.first).len() > pair.lasts.0 as usize),
    ]
}

fn kinds_of_areas(request: &Request, pair: &Pair, number: u32) -> Vec<(&'static str, bool)> {
    let (stops, torn) = (pair.end == End::Stopped, pair.end == End::Torn);
    match number {
        NOT_REGISTER => vec![
            ("23 with a short work area", request.area < LENGTH),
            ("23 with a log that stops", stops),
            ("23 with a torn log", torn),
        ],
        _ => vec![
            ("15 of no byte", request.area == 0),
            ("15 by a byte", request.area + 1 == LENGTH),
            ("15 with a log that stops", stops),
            ("15 with a torn log", torn),
            ("15 with loans that differ", pair.end == End::Ran && !pair.same_loans()),
            ("15 where all agrees", pair.end == End::Ran && pair.same_loans() && pair.same_lasts()),
        ],
    }
}

fn kinds_of_tear(request: &Request, pair: &Pair) -> Vec<(&'static str, bool)> {
    vec![
        ("tear at the start", pair.offset == 0),
        ("tear behind applied records", pair.lasts.0 > 0),
        ("tear where all agrees", pair.same_loans() && pair.same_lasts()),
        ("tear where loans differ", !pair.same_loans()),
        ("tear where last numbers alone differ", pair.same_loans() && !pair.same_lasts()),
        ("tear in a longer work area", request.area > LENGTH),
    ]
}

fn kinds_of_stop(request: &Request, pair: &Pair, number: u32) -> Vec<(&'static str, bool)> {
    vec![
        ("stop at the start", pair.offset == 0),
        ("stop behind applied records", pair.lasts.0 > 0),
        ("stop where all agrees", pair.same_loans() && pair.same_lasts()),
        ("stop where loans differ", !pair.same_loans()),
        ("stop where last numbers alone differ", pair.same_loans() && !pair.same_lasts()),
        ("24 of an old tag", number == NOT_RECORD && matches!(request.first[pair.offset], 1 | 2)),
        ("stop in a longer work area", request.area > LENGTH),
    ]
}

fn kinds_of_difference(request: &Request, pair: &Pair) -> Vec<(&'static str, bool)> {
    let (codes, least) = (&pair.codes, &pair.codes[0]);
    let (one, several) = (codes.len() == 1, codes.len() > 1);
    let (in_log, in_replica, other_borrower) = match pair.holders(least) {
        (Some(_), None) => (true, false, None),
        (None, Some(_)) => (false, true, None),
        (logged, held) => (false, false, logged.zip(held)),
    };
    let by_borrower = other_borrower.is_some();
    let differs_by = |bits: u32| other_borrower.is_some_and(|(logged, held)| (logged ^ held) & !bits == 0);
    vec![
        ("37 in a longer work area", request.area > LENGTH),
        ("37 with other last numbers", !pair.same_lasts()),
        ("37 with equal last numbers", pair.same_lasts()),
        ("37 of the replica alone", one && in_replica),
        ("37 of the log alone", one && in_log),
        ("37 of a borrower alone", one && by_borrower),
        ("37 by the first byte of a borrower", one && differs_by(0xff00_0000)),
        ("37 by the last byte of a borrower", one && differs_by(0x0000_00ff)),
        ("37 by the last byte of a code", pair.by_last_byte()),
        ("37 of several, the least in the replica", several && in_replica),
        ("37 of several, the least in the log", several && in_log),
        ("37 of several, the least by its borrower", several && by_borrower),
        ("37 of several, a shorter one behind", codes.iter().any(|code| code.len() < least.len())),
        ("37 of several, another by signed bytes", codes.iter().any(|code| areas::signed(code) < areas::signed(least))),
        ("37 with 256 out", pair.many_out()),
    ]
}

fn kinds_of_last(pair: &Pair) -> Vec<(&'static str, bool)> {
    vec![
        ("27 of a replica behind", pair.lasts.1 < pair.lasts.0),
        ("27 of a replica ahead", pair.lasts.1 > pair.lasts.0),
        ("27 with no code out", pair.logged.is_empty()),
    ]
}

pub fn found(request: &Request, due: &Response) -> Found {
    let mut found = [false; KINDS.len()];
    if request.call != Call::Promote {
        return found;
    }
    let pair = Pair::of(request, due);
    let kinds = match due.number {
        0 => kinds_of_yes(request, &pair),
        NOT_REGISTER | AREA_TOO_SHORT => kinds_of_areas(request, &pair, due.number),
        LOG_TORN => kinds_of_tear(request, &pair),
        LOANS_DIFFER => kinds_of_difference(request, &pair),
        LAST_NUMBERS_DIFFER => kinds_of_last(&pair),
        number => kinds_of_stop(request, &pair, number),
    };
    for (name, holds) in kinds {
        let kind = KINDS.iter().position(|kind| *kind == name).expect("one of the kinds");
        found[kind] |= holds;
    }
    found
}
