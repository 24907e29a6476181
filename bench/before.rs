//! Two revisions of the library through their C entries, in one process. `before check ROWS` says which rows are left out and
//! whether both answer alike on the others; `before measure ROWS` prints the figures of this process, a row a line, with tabs
//! between them. ROWS is `all`, or `register` for those of calls on a register.

mod entry;
mod inputs;
mod logs;
#[allow(dead_code)]
#[path = "../tests/compare/random.rs"]
mod random;
mod registers;
mod revisions;
mod rows;
mod turns;

use entry::{LogIssue, LogReturn};
use logs::Record;
use registers::{Register, BORROWER, COUNTS, LAST, PLACE};
use revisions::{Entries, Entry, LogIssueUnnumbered, LogReturnUnnumbered, Side};
use rows::{Call, Row};
use std::process::exit;
use std::time::Duration;
use turns::{calls_in, in_turns, over};

const ROUNDS: usize = 250;
/// Calls are doubled until they take longer than this, so that a turn takes some 300 microseconds.
const TURN: Duration = Duration::from_micros(200);

/// The records of the logs that are replayed. A turn of the longer log is one call, and takes longer than others.
const RECORDS: [usize; 2] = [1, 100_000];
/// The records that are appended: few, so that a cache can hold their log.
const APPENDED: usize = 1_000;

/// The entries of a row, before and after.
type Sides = [Side; 2];

#[derive(Debug, PartialEq)]
enum Answer {
    Written((u32, usize)),
    Tested(u32),
    Measured((u32, u32, u32, f32)),
    Counted(u16),
    /// With the record number, where both tell one.
    Changed(u32, Option<u32>),
    /// With the looks, where both tell them.
    Held((u32, u32), Option<u32>),
    Out((u32, [u32; 8])),
    Replayed((u32, u32, usize)),
}

impl Answer {
    fn number(&self) -> u32 {
        match *self {
            Answer::Written((number, _)) | Answer::Tested(number) => number,
            Answer::Measured((number, ..)) | Answer::Changed(number, _) | Answer::Held((number, _), _) => number,
            Answer::Out((number, _)) | Answer::Replayed((number, ..)) => number,
            Answer::Counted(_) => 0,
        }
    }
}

fn name_left_out(rows: &[Row]) {
    for row in rows {
        for (revision, entries) in [("before", Entries::before()), ("after", Entries::after())] {
            if entries.side(row.call).is_none() {
                eprintln!("left out: {row}: no such entry {revision}");
            }
        }
    }
}

fn writer(issue: LogIssue, take_back: LogReturn) -> impl Fn(&mut [u8], usize, &Record) -> (u32, usize) {
    move |log, position, record| entry::append(issue, take_back, log, position, record)
}

fn writer_unnumbered(
    issue: LogIssueUnnumbered,
    take_back: LogReturnUnnumbered,
) -> impl Fn(&mut [u8], usize, &Record) -> (u32, usize) {
    move |log, position, record| revisions::append_unnumbered(issue, take_back, log, position, record)
}

fn sorted(places: &[u8]) -> Vec<u8> {
    let mut places: Vec<&[u8]> = places.chunks(PLACE).collect();
    places.sort();
    places.concat()
}

/// What both revisions promise of a register that a call left. Where one has another order of places than the other, those of a
/// register that was changed are sorted: it is the same loans then, and not where each stands. Counts or a last number that one
/// alone keeps are left out.
fn promised(before: &[u8], after: &[u8]) -> Vec<u8> {
    let (counts, rest) = after.split_at(COUNTS);
    let (places, last) = rest.split_at(rest.len() - LAST);
    let places = if before != after && !Entries::order_alike() { sorted(places) } else { places.to_vec() };
    let counts = if Entries::counts_alike() { counts } else { &[] };
    let last = if Entries::numbers_alike() { last } else { &[] };
    [counts, &places, last].concat()
}

/// Where one revision alone gives records numbers, a log that was written is compared without them.
fn written(side: Side, (number, position): (u32, usize), log: &mut Vec<u8>) -> Answer {
    if !Entries::numbers_alike() {
        log.truncate(position);
        if side.numbered {
            *log = revisions::unnumbered(log);
        }
        return Answer::Written((number, log.len()));
    }
    Answer::Written((number, position))
}

/// With the record number, where both tell one.
fn changed((number, record_number): (u32, u32)) -> Answer {
    Answer::Changed(number, Entries::numbers_alike().then_some(record_number))
}

/// What the entry answers to an input, and what is to be compared of the area that it leaves.
fn answer(side: Side, row: &Row, case: usize, input: &[u8]) -> (Answer, Vec<u8>) {
    let mut area = row.registers.get(case).map_or_else(|| row.area(), |register| register.area.clone());
    let answer = match side.entry {
        Entry::Writer(entry) => Answer::Written(entry::write(entry, input, &mut area)),
        Entry::Test(entry) => Answer::Tested(entry::test(entry, input)),
        Entry::Measure(entry) => Answer::Measured(entry::measure(entry, input, &row.inputs[0])),
        Entry::Count(entry) => Answer::Counted(entry::count(entry, input, &row.inputs[0])),
        Entry::Issue(entry) => changed(entry::issue(entry, input, BORROWER, side.part(&mut area))),
        Entry::IssueUnnumbered(entry) => {
            Answer::Changed(revisions::issue_unnumbered(entry, input, BORROWER, side.part(&mut area)), None)
        }
        Entry::Return(entry) => changed(entry::take_back(entry, input, side.part(&mut area))),
        Entry::ReturnUnnumbered(entry) => {
            Answer::Changed(revisions::take_back_unnumbered(entry, input, side.part(&mut area)), None)
        }
        Entry::Ask(entry) => {
            let (number, borrower, looks) = entry::ask(entry, input, side.part(&mut area));
            Answer::Held((number, borrower), Entries::order_alike().then_some(looks))
        }
        Entry::AskHolder(entry) => Answer::Held(revisions::ask_holder(entry, input, side.part(&mut area)), None),
        Entry::Counts(entry) => Answer::Out(entry::counts(entry, side.part(&mut area))),
        Entry::Append(issue, take_back) => {
            let answer = logs::append(&logs::records(input), &mut area, 0, writer(issue, take_back));
            written(side, answer, &mut area)
        }
        Entry::AppendUnnumbered(issue, take_back) => {
            let answer = logs::append(&logs::records(input), &mut area, 0, writer_unnumbered(issue, take_back));
            written(side, answer, &mut area)
        }
        Entry::Replay(entry) => Answer::Replayed(entry::replay(entry, input, side.part(&mut area))),
    };
    match row.registers.get(case) {
        Some(register) => (answer, promised(&register.area, &area)),
        None => (answer, area),
    }
}

/// Whether both answer alike, and with the number that the row states.
fn alike(row: &Row, sides: Sides) -> bool {
    let inputs = sides.map(|side| side.inputs(row));
    row.inputs.iter().enumerate().all(|(case, input)| {
        let [before, after] = [0, 1].map(|side| answer(sides[side], row, case, &inputs[side][case]));
        let stated = after.0.number() == row.number;
        if !stated {
            eprintln!("not as stated: {row}: {:?} after", after.0);
        }
        if before != after {
            let start = input[..input.len().min(80)].escape_ascii();
            let areas = if before.1 == after.1 { "alike" } else { "not alike" };
            eprintln!("not alike: {row}, on {start}: {:?} before, {:?} after, areas {areas}", before.0, after.0);
        }
        before == after && stated
    })
}

/// What the calls of a row read and write beside the inputs of a side.
struct Areas<'a> {
    /// Those of the first input, where the call appends.
    records: Vec<Record<'a>>,
    /// Never cleared: each call writes over what the last one wrote.
    area: Vec<u8>,
    /// Put back behind the calls on them.
    registers: Vec<Register>,
}

/// Calls on the inputs in turn, and the time of them.
fn run(side: Side, inputs: &[Vec<u8>], Areas { records, area, registers }: &mut Areas, calls: usize) -> Duration {
    match side.entry {
        Entry::Writer(entry) => over(inputs, calls, |input| entry::write(entry, input, area)),
        Entry::Test(entry) => over(inputs, calls, |input| entry::test(entry, input)),
        Entry::Measure(entry) => over(inputs, calls, |input| entry::measure(entry, input, &inputs[0])),
        Entry::Count(entry) => over(inputs, calls, |input| entry::count(entry, input, &inputs[0])),
        Entry::Issue(entry) => {
            registers::over(inputs, registers, calls, |text, area| entry::issue(entry, text, BORROWER, side.part(area)))
        }
        Entry::IssueUnnumbered(entry) => registers::over(inputs, registers, calls, |text, area| {
            revisions::issue_unnumbered(entry, text, BORROWER, side.part(area))
        }),
        Entry::Return(entry) => {
            registers::over(inputs, registers, calls, |text, area| entry::take_back(entry, text, side.part(area)))
        }
        Entry::ReturnUnnumbered(entry) => registers::over(inputs, registers, calls, |text, area| {
            revisions::take_back_unnumbered(entry, text, side.part(area))
        }),
        Entry::Ask(entry) => {
            registers::over(inputs, registers, calls, |text, area| entry::ask(entry, text, side.part(area)))
        }
        Entry::AskHolder(entry) => {
            registers::over(inputs, registers, calls, |text, area| revisions::ask_holder(entry, text, side.part(area)))
        }
        Entry::Counts(entry) => registers::over(inputs, registers, calls, |_, area| entry::counts(entry, side.part(area))),
        Entry::Append(issue, take_back) => logs::over(records, area, calls, writer(issue, take_back)),
        Entry::AppendUnnumbered(issue, take_back) => logs::over(records, area, calls, writer_unnumbered(issue, take_back)),
        Entry::Replay(entry) => {
            registers::over(inputs, registers, calls, |log, area| entry::replay(entry, log, side.part(area)))
        }
    }
}

/// The mean of the fastest rounds, one in so many.
fn fastest(times: &[f64], one_in: usize) -> f64 {
    let count = (times.len() / one_in).max(1);
    times[..count].iter().sum::<f64>() / count as f64
}

fn measure(row: &Row, sides: Sides) {
    // The same areas for both sides, so that they differ in nothing but the entry; and the form of a log, where that differs.
    let records = if let Call::Append = row.call { logs::records(&row.inputs[0]) } else { Vec::new() };
    let mut areas = Areas { records, area: row.area(), registers: row.registers.clone() };
    let inputs = sides.map(|side| side.inputs(row));
    let calls = calls_in(TURN, |calls| run(sides[0], &inputs[0], &mut areas, calls));
    let mut times = in_turns(ROUNDS, [calls; 2], |side, calls| run(sides[side], &inputs[side], &mut areas, calls));
    times.iter_mut().for_each(|side| side.sort_by(f64::total_cmp));
    let [before, after] = &times;
    let ratio = fastest(after, 4) / fastest(before, 4);
    let [before, after] = [before, after].map(|times| fastest(times, 50) / row.records as f64);
    println!("{}\t{}\t{before}\t{after}\t{ratio}", row.call.name(), row.input);
}

fn main() {
    let words: Vec<String> = std::env::args().skip(1).collect();
    let [mode, which] = &words[..] else { exit(2) };
    let mut rows = rows::all();
    match which.as_str() {
        "all" => {}
        "register" => rows.retain(|row| !row.registers.is_empty()),
        _ => exit(2),
    }
    let both =
        rows.iter().filter_map(|row| Some((row, [Entries::before().side(row.call)?, Entries::after().side(row.call)?])));
    match mode.as_str() {
        "check" => {
            name_left_out(&rows);
            let differ = both.filter(|&(row, sides)| !alike(row, sides)).count();
            exit((differ > 0) as i32)
        }
        "measure" => both.for_each(|(row, sides)| measure(row, sides)),
        _ => exit(2),
    }
}
