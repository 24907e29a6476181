//! Sequences of calls on one register, from the empty one on: after each the answer and the whole area are those of the
//! reference, and the answer and the counts are those of a plain map. In each fifth few record numbers are left.

use crate::counts::{self, Outs};
use crate::random::Random;
use crate::seen::Seen;
use crate::{areas, codes, texts, wide, MOST_DIFFERENCES};
use harness::call::{Call, Request, Response};
use harness::expected;
use harness::library::{Case, Library};
use harness::tally::Tally;
use reference::doors::{self, LONGEST_CODE};
use reference::refusal::{ALL_OUT, ALREADY_OUT, NOT_OUT, NUMBERS_SPENT};
use reference::register::{LENGTH, PLACES};
use std::collections::HashMap;
use std::ops::Range;

/// How many sequences there are for so many cases in all. Each has many calls, so under memcheck there are fewer.
pub fn count(cases: usize, memcheck: bool) -> u64 {
    cases.div_ceil(if memcheck { 5000 } else { 1000 }) as u64
}

/// Numbers that a sequence has to bring out for a call; the others come out by calls on one random area.
fn own_numbers(call: Call) -> &'static [u32] {
    match call {
        Call::Issue => &[0, ALREADY_OUT, ALL_OUT, NUMBERS_SPENT],
        Call::TakeBack => &[0, NOT_OUT, NUMBERS_SPENT],
        _ => &[0, NOT_OUT],
    }
}

/// The codes of one sequence and its calls by kind.
struct Plan {
    codes: Vec<Vec<u8>>,
    calls: Vec<Call>,
}

/// A few codes again and again; in every tenth sequence more than a register holds, issued one after the other first, in every
/// twentieth of one main type.
fn plan(random: &mut Random, number: u64) -> Plan {
    let fills = number % 10 == 0;
    let count = if fills { PLACES + 1 + random.below(8) } else { random.pick(&[1, 2, 4, 8, 20, 60]) };
    let mut calls = if fills { vec![Call::Issue; count] } else { Vec::new() };
    for _ in 0..2 + random.below(5) {
        let often = random.pick(&Call::REGISTER);
        calls.extend((0..20).map(|_| if random.percent(50) { often } else { random.pick(&Call::REGISTER) }));
    }
    let codes = if number % 20 == 0 { codes::with_one_header(random, count) } else { codes::different(random, count) };
    Plan { codes, calls }
}

/// The register as a plain map, and the last record number.
struct Map {
    codes: HashMap<Vec<u8>, u32>,
    last: u32,
}

/// What the map answers to a call, and what it is then: the borrower of a question, the number that another call takes.
fn by_map(map: &mut Map, request: &Request) -> Result<u32, u32> {
    let code = doors::code(&request.first, LONGEST_CODE)?;
    let Map { codes, last } = map;
    match request.call {
        Call::Ask => return codes.get(&code).copied().ok_or(NOT_OUT),
        _ if *last == u32::MAX => return Err(NUMBERS_SPENT),
        Call::Issue if codes.contains_key(&code) => return Err(ALREADY_OUT),
        Call::Issue if codes.len() == PLACES => return Err(ALL_OUT),
        Call::Issue => drop(codes.insert(code, request.borrower)),
        _ => drop(codes.remove(&code).ok_or(NOT_OUT)?),
    }
    *last += 1;
    Ok(*last)
}

/// The two answers, as far as a map has one: the number, and the borrower of a question or the record number.
fn agrees(map: Result<u32, u32>, due: &Response) -> bool {
    let (number, value) = map.map_or_else(|number| (number, 0), |value| (0, value));
    due.number == number && due.values[0] == u64::from(value)
}

/// What the question for the counts answers: the numbers of the map.
fn counts_of(map: &Map) -> Response {
    Response::told(0, counts::of_codes(map.codes.keys().map(Vec::as_slice)).map(u64::from))
}

/// What came out over some sequences: for each call, and of the counts.
#[derive(Default)]
struct Came {
    seen: [Seen; 3],
    outs: Outs,
}

/// Runs one sequence up to its first difference.
fn run(library: &mut Library, seed: u64, case: &Case, came: &mut Came) -> Result<(), String> {
    let mut random = Random::of_case(seed, u64::MAX - 2, case.number);
    let Plan { codes, calls } = plan(&mut random, case.number);
    let left = random.below(40) as u32;
    let last = if case.number % 5 == 1 { u32::MAX - random.pick(&[0, 1, 5, left]) } else { 0 };
    let (mut area, mut map) = (vec![0; LENGTH], Map { codes: HashMap::new(), last });
    areas::put_last(&mut area, last);
    for (index, &call) in calls.iter().enumerate() {
        let any = random.below(codes.len());
        let first = match index < codes.len() && codes.len() > PLACES {
            true => texts::of_code(&mut random, &codes[index]),
            false => texts::for_loan(&mut random, &codes[any]),
        };
        let borrower = if call == Call::Issue { areas::borrower(&mut random) } else { 0 };
        let request = Request { first, second: area, borrower, ..Request::new(call) };
        let due = expected::answer(&request);
        if !agrees(by_map(&mut map, &request), &due) {
            let again = library.again(case);
            return Err(format!(" call {index}: a plain map answers otherwise than the reference\n  {request}\n  {again}"));
        }
        if let Some(difference) = library.differs(case, &request, &due, &crate::setting(&mut random)) {
            return Err(format!(" call {index}:{difference}"));
        }
        let which = Call::REGISTER.iter().position(|&one| one == call).expect("a call on a register");
        came.seen[which].count(&request, &due);
        area = if call.changes() { due.written } else { request.second.clone() };
        came.outs.count(&request.second, &area);
        let question = Request { second: area.clone(), ..Request::new(Call::Counts) };
        if let Some(difference) = library.differs(case, &question, &counts_of(&map), &crate::setting(&mut random)) {
            return Err(format!(" counts behind call {index}:{difference}"));
        }
    }
    Ok(())
}

impl Came {
    /// The numbers, the kinds of wide composites and the counts that hardly came out, a line for each call.
    fn hardly(&self, sequences: u64) -> String {
        let kinds = wide::in_sequences(sequences);
        let few = |(call, seen): (Call, &Seen)| (call.name(), seen.few(call, own_numbers(call), kinds));
        let few = Call::REGISTER.into_iter().zip(&self.seen).map(few);
        let lines = few.chain([(Call::Counts.name(), self.outs.missing(sequences))]).filter(|(_, few)| !few.is_empty());
        lines.map(|(name, few)| format!("\n {name} hardly brings out {}", few.join(", "))).collect()
    }

    /// What came out, a line for each call.
    fn shown(&self) -> String {
        let shown =
            |(call, seen): (Call, &Seen)| format!("\n {} {} times; by number {}", call.name(), seen.all(), seen.shown(call));
        let calls: String = Call::REGISTER.into_iter().zip(&self.seen).map(shown).collect();
        format!("{calls}\n counts behind each; {}", self.outs.shown())
    }
}

/// Compares the sequences of a range; each that differs is told, with the command that runs it again.
pub fn check(tally: &mut Tally, library: &mut Library, seed: u64, range: Range<u64>) {
    let (mut came, mut differences, mut sequences) = (Came::default(), Vec::new(), 0);
    let is_one = range.end - range.start == 1;
    for number in range {
        sequences += 1;
        let found = run(library, seed, &Case { of: "register", number }, &mut came);
        differences.extend(found.err().map(|difference| format!("\n case {number},{difference}")));
        if differences.len() == MOST_DIFFERENCES {
            differences.push("\n and the others were not run".to_string());
            break;
        }
    }
    let hardly = if is_one { String::new() } else { came.hardly(sequences) };
    let detail = match (differences.is_empty(), hardly.is_empty()) {
        (true, true) => format!("{sequences} sequences, no difference{}", came.shown()),
        (true, false) => format!("{sequences} sequences{hardly}"),
        (false, _) => format!("{sequences} sequences run{}", differences.concat()),
    };
    tally.check("compare register", differences.is_empty() && hardly.is_empty(), detail);
}
