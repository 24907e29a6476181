//! The vectors' sequences through the linked library: every call on what the one before it left.

use harness::call::{Call, Request, Response};
use harness::library::{Case, Library, Setting};
use harness::sequence::{self, Asked, Held, Step};
use harness::told::{self, Difference, Told};
use harness::{area, expected, table};

/// What the sequences have at least, as their README says, so that none is lost unseen: lines of each file, lines for success
/// and for each number of a call's own, questions that look at so many places, and counts that are spoilt.
pub const LEAST_OF_A_NUMBER: usize = 50;

fn least_lines(file: &str) -> usize {
    match file {
        sequence::REGISTER => 1839,
        sequence::LOG => 627,
        sequence::REPLAY => 1656,
        _ => 3131,
    }
}

/// The steps of a file with the numbers that are to stand there.
fn kinds(file: &str) -> &'static [(&'static str, &'static [&'static str])] {
    match file {
        sequence::REGISTER => {
            &[("issue", &["0", "20", "21", "23", "26"]), ("return", &["0", "22", "23", "26"]), ("ask", &["0", "22", "23"])]
        }
        sequence::LOG => &[("append", &["0", "15", "24"])],
        sequence::REPLAY => &[("replay", &["0", "torn", "20", "21", "22", "23", "24", "25"])],
        _ => &[("promote", &["0", "15", "20", "21", "22", "23", "24", "25", "27", "36", "37"])],
    }
}

/// How often a kind is to stand there. A log that fills the register is long: one of them is enough for a promotion.
fn least_of(kind: &str) -> usize {
    match kind {
        "promote 21" => 1,
        _ => LEAST_OF_A_NUMBER,
    }
}

/// The questions of a file that find a code, and those that do not, by the looks that are to stand there.
fn looks(file: &str) -> &'static [(&'static str, &'static [u32])] {
    match file {
        sequence::REGISTER => &[("ask 0", &[1, 2, 3, 4, 5, 6, 7, 8]), ("ask 22", &[1, 2, 3, 4, 5, 6, 8])],
        _ => &[],
    }
}

/// The lengths of work areas that a file has, each with at least so many lines as a number has.
fn work_areas(file: &str) -> &'static [usize] {
    match file {
        sequence::PROMOTE => &[0, 12_307, 12_308, 12_315],
        _ => &[],
    }
}

/// How many bytes of the counts a file spoils, each at least once.
fn spoilt_counts(file: &str) -> usize {
    match file {
        sequence::REGISTER => 16,
        _ => 0,
    }
}

/// Whether this byte of the area is overwritten, and one of the calls right behind it answers 23.
fn is_spoilt(steps: &[Step], byte: usize) -> bool {
    let is_call = |step: &&Step| matches!(step, Step::Call(_));
    let is_23 = |step: &Step| matches!(step, Step::Call(asked) if asked.due[0].1 == "23");
    (1..steps.len()).any(|behind| match &steps[behind - 1] {
        Step::Poke(offset, bytes) if (*offset..offset + bytes.len()).contains(&byte) => {
            steps[behind..].iter().take_while(is_call).any(is_23)
        }
        _ => false,
    })
}

/// What a file of sequences has too few of.
pub fn too_few(file: &str, text: &str) -> Vec<String> {
    let steps: Vec<Step> = table::lines(text).flat_map(|(_, line)| sequence::parse(line)).collect();
    let mut few = Vec::new();
    if steps.len() < least_lines(file) {
        few.push(format!("\n {file}: {} lines", steps.len()));
    }
    let calls = steps.iter().filter_map(|step| if let Step::Call(asked) = step { Some(asked) } else { None });
    let calls: Vec<&Asked> = calls.collect();
    for &(step, numbers) in kinds(file) {
        for number in numbers {
            let kind = format!("{step} {number}");
            let count = calls.iter().filter(|asked| asked.kind() == kind).count();
            if count < least_of(&kind) {
                few.push(format!("\n {file}: {kind} in {count} lines"));
            }
        }
    }
    for &(kind, all) in looks(file) {
        let found: Vec<u32> = calls.iter().filter(|asked| asked.kind() == kind).filter_map(|asked| asked.looks()).collect();
        let count = found.iter().filter(|&&looks| looks > 0).count();
        if count < LEAST_OF_A_NUMBER {
            few.push(format!("\n {file}: {kind} with looks in {count} lines"));
        }
        let missing = all.iter().filter(|looks| !found.contains(looks));
        few.extend(missing.map(|looks| format!("\n {file}: no {kind} with {looks} looks")));
    }
    for &length in work_areas(file) {
        let count = calls.iter().filter(|asked| asked.call() == Call::Promote && asked.work_length() == length).count();
        if count < LEAST_OF_A_NUMBER {
            few.push(format!("\n {file}: a work area of {length} bytes in {count} lines"));
        }
    }
    let kept = (0..spoilt_counts(file)).filter(|&byte| !is_spoilt(&steps, byte));
    few.extend(kept.map(|byte| format!("\n {file}: byte {byte} of the counts is never spoilt")));
    few
}

/// Whether this line is a call.
pub fn has_call(text: &str, line: u64) -> bool {
    let is_call = |line| matches!(sequence::parse(line), Ok(Step::Call(_)));
    table::lines(text).any(|(number, step)| number == line && is_call(step))
}

/// Runs all lines; tells how many calls, or all lines that differ. Of one line alone only that one is told, and those before
/// it run for what they leave.
pub fn run(
    file: &str,
    text: &str,
    only: Option<u64>,
    library: &mut Library,
    settings: &[Setting],
) -> Result<String, String> {
    let (mut calls, mut counts, mut replays, mut sequences) = (0, 0, 0, 0);
    let (mut held, mut bad) = (Held::default(), Vec::new());
    for (number, line) in table::lines(text).take_while(|(number, _)| *number <= only.unwrap_or(u64::MAX)) {
        let case = Case { of: file, number };
        let is_told = only.unwrap_or(number) == number;
        let told = match sequence::parse(line) {
            Ok(Step::Call(asked)) => {
                calls += usize::from(is_told);
                let found = differs(library, &case, &asked, &mut held, settings);
                counts += usize::from(is_told && asked.counts(&held.area).is_some());
                replays += usize::from(is_told && held.work.is_some());
                let found = found.or_else(|| counts_differ(library, &case, &asked, &held, settings));
                let found = found.or_else(|| work_differs(library, &case, &asked, &held, settings));
                found.map(|difference| (difference.to_string(), difference.brief()))
            }
            step => {
                sequences += usize::from(matches!(step, Ok(Step::Start)));
                let done = step.and_then(|step| sequence::prepared(&step, &mut held));
                done.err().map(|why| (format!(" {why}"), why))
            }
        };
        if let Some((whole, brief)) = told.filter(|_| is_told) {
            bad.push(Told { whole: format!("\n line {number}:{whole}"), brief: format!("\n line {number}: {brief}") });
        }
    }
    match (calls, bad.len()) {
        (0, _) => Err("no call".to_string()),
        (_, 0) => {
            let run = format!("{calls} calls in {sequences} sequences, the counts asked behind {counts}");
            let replayed = if replays == 0 { String::new() } else { format!(", the log replayed behind {replays}") };
            Ok(format!("{run}{replayed}, each under {} settings", settings.len()))
        }
        (_, count) => Err(format!("{count} lines differ, of {calls} calls{}", told::list(&bad))),
    }
}

/// Makes the call under every setting; what is held becomes what the call has to leave.
fn differs(library: &mut Library, case: &Case, asked: &Asked, held: &mut Held, settings: &[Setting]) -> Option<Difference> {
    let request = asked.request(held);
    let (mut first, mut found) = (None, None);
    // A work area may also hold a register, here the replica: nothing depends on what it holds.
    let replica = settings.first().filter(|_| asked.call().works() && !held.area.is_empty());
    let replica = replica.map(|setting| Setting { filling: held.area.clone(), ..setting.clone() });
    for setting in settings.iter().chain(&replica) {
        let answer = library.answer(case, &request, setting);
        let fields = (asked.due.clone(), asked.fields_of(&answer.response));
        let fault = answer.fault.or_else(|| asked.number_fault(&request.second, &answer.response));
        if fields.0.last() == fields.1.last() {
            found = Some(answer.response.written);
        }
        if fault.is_some() || fields.0 != fields.1 {
            first = first.or_else(|| Some(library.difference(case, &request, fields, fault)));
        }
    }
    // A hash does not tell the bytes: where no answer had it, the reference lets the lines behind this one be tested too.
    asked.take(held, found.unwrap_or_else(|| expected::answer(&request).written));
    first
}

/// Asks for the counts of the area that the call left, under every setting.
fn counts_differ(
    library: &mut Library,
    case: &Case,
    asked: &Asked,
    held: &Held,
    settings: &[Setting],
) -> Option<Difference> {
    let due = asked.counts(&held.area)?;
    let request = Request { second: held.area.clone(), ..Request::new(Call::Counts) };
    settings.iter().find_map(|setting| library.differs(case, &request, &due, setting))
}

/// The register that a promotion left in the work area is one, by its counts, and the one that a replay of the log leaves.
fn work_differs(library: &mut Library, case: &Case, asked: &Asked, held: &Held, settings: &[Setting]) -> Option<Difference> {
    let (replay, due) = asked.replay(held)?;
    let counts = Request { second: due.written.clone(), ..Request::new(Call::Counts) };
    let counted = Response::told(0, area::numbers(&due.written));
    [(counts, counted), (replay, due)]
        .into_iter()
        .find_map(|(request, due)| settings.iter().find_map(|setting| library.differs(case, &request, &due, setting)))
}
