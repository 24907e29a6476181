//! Compares the linked libraries with the reference on random cases.

mod areas;
mod cases;
mod codes;
mod counts;
mod days;
mod drills;
mod faults;
mod large;
mod lines;
mod log;
mod numbered;
mod pairs;
mod promotions;
mod random;
mod records;
mod register;
mod seen;
mod texts;
mod wide;

use harness::call::{Call, Request, Response};
use harness::expected;
use harness::fence::Side;
use harness::library::{Case, Library, Setting};
use harness::memcheck;
use harness::tally::Tally;
use harness::words::Words;
use random::Random;
use seen::Seen;
use std::ops::Range;
use std::process::ExitCode;

const USAGE: &str = "usage: compare [--seed N] [--cases N] [--lines PROGRAM] [--only CALL CASE] [--memcheck]
  --seed N          the seed of the cases (24138)
  --cases N         how many cases in all (1000000); those on a register or a log come on top
  --lines PROGRAM   the line program; without it no lines are compared
  --only CALL CASE  one case of one call, or of large, register, days, log, pairs, drills or lines, counted
                    from 0
  --memcheck        areas are heap blocks of just their length, for a run by tests/memcheck";

/// A call with so many differences is left there.
const MOST_DIFFERENCES: usize = 3;

/// The part of all cases that goes to a call, in hundredths; calls on a register or a log come on top.
fn share(call: Call) -> usize {
    match call {
        Call::Intake => 24,
        Call::Strict => 16,
        Call::Code => 6,
        Call::Text => 4,
        Call::Join => 12,
        Call::Split | Call::UnitRead | Call::UnitWrite => 6,
        Call::Distance | Call::HeaderRead => 5,
        Call::HeaderWrite | Call::Base32Read => 4,
        Call::Base32Write => 2,
        Call::Issue | Call::TakeBack | Call::Ask | Call::Replay | Call::Counts => 3,
        Call::Promote => 4,
        Call::LogIssue | Call::LogReturn => 2,
    }
}

/// What a call's cases came to.
struct Outcome {
    cases: usize,
    differences: Vec<String>,
    seen: Seen,
}

struct Options {
    seed: u64,
    cases: usize,
    lines: Option<String>,
    only: Option<(String, u64)>,
    memcheck: bool,
    /// The command that runs a case again, without the words that choose the case.
    again: String,
}

fn options() -> Options {
    let mut words = Words::new(USAGE);
    let again = String::new();
    let mut options = Options { seed: 24138, cases: 1_000_000, lines: None, only: None, memcheck: false, again };
    while let Some(word) = words.next_word() {
        match word.as_str() {
            "--seed" => options.seed = words.number(&word),
            "--cases" => options.cases = words.number(&word),
            "--lines" => options.lines = Some(words.value(&word)),
            "--only" => options.only = Some((words.value(&word), words.number(&word))),
            "--memcheck" => options.memcheck = true,
            _ => words.refuse(format!("no option is called '{word}'")),
        }
    }
    if let Some(why) = fault(&options) {
        words.refuse(why);
    }
    let by = if options.memcheck { "tests/memcheck " } else { "" };
    let memcheck = if options.memcheck { " --memcheck" } else { "" };
    let lines = options.lines.as_ref().map_or(String::new(), |program| format!(" --lines {program}"));
    options.again = format!("{by}{}{memcheck}{lines} --seed {} --only", words.program, options.seed);
    options
}

/// What is wrong with options that can be read.
fn fault(options: &Options) -> Option<String> {
    let calls = Call::ALL.map(Call::name).join(" ");
    let (name, case) = options.only.as_ref().map_or(("", 0), |(name, case)| (name.as_str(), *case));
    match name {
        _ if options.memcheck && !memcheck::runs() => Some("--memcheck is for a run by tests/memcheck".to_string()),
        _ if options.cases == 0 => Some("--cases wants at least 1".to_string()),
        "" if options.only.is_none() => None,
        "lines" if options.lines.is_none() => Some("--only lines wants --lines PROGRAM".to_string()),
        "lines" if case >= lines::INPUTS => Some(format!("there are {} inputs of lines, counted from 0", lines::INPUTS)),
        "large" if case >= large::COUNT => Some(format!("there are {} large inputs, counted from 0", large::COUNT)),
        "lines" | "large" => None,
        "register" | "log" | "days" | "pairs" | "drills" if case < u64::MAX => None,
        _ if case == u64::MAX => Some("--only wants a smaller number".to_string()),
        _ if Call::ALL.iter().any(|call| call.name() == name) => None,
        _ => {
            Some(format!("no call is called '{name}'; calls: {calls}, and large, register, days, log, pairs, drills, lines"))
        }
    }
}

fn main() -> ExitCode {
    let options = options();
    println!("seed {}", options.seed);
    let again = options.again.clone();
    let mut library = if options.memcheck { Library::on_heap(again) } else { Library::fenced(large::LONGEST, again) };
    let mut tally = Tally::default();
    for (index, call) in Call::ALL.into_iter().enumerate() {
        if let Some(range) = range(&options, call.name(), options.cases.saturating_mul(share(call)).div_ceil(100) as u64) {
            report(&mut tally, call, &compare(&mut library, options.seed, call, index, range));
        }
    }
    if let Some(range) = range(&options, "large", large::COUNT) {
        large(&mut tally, &mut library, options.seed, range);
    }
    if let Some(range) = range(&options, "register", register::count(options.cases, options.memcheck)) {
        register::check(&mut tally, &mut library, options.seed, range);
    }
    if let Some(range) = range(&options, "log", log::count(options.cases, options.memcheck)) {
        log::check(&mut tally, &mut library, options.seed, range);
    }
    if let Some(range) = range(&options, "days", days::count(options.cases, options.memcheck)) {
        days::check(&mut tally, &mut library, options.seed, range);
    }
    if let Some(range) = range(&options, "pairs", pairs::count(options.cases, options.memcheck)) {
        pairs::check(&mut tally, &mut library, options.seed, range);
    }
    if let Some(range) = range(&options, "drills", drills::count(options.cases, options.memcheck)) {
        drills::check(&mut tally, &mut library, options.seed, range);
    }
    match (range(&options, "lines", lines::INPUTS), &options.lines) {
        (Some(range), Some(program)) => lines::check(&mut tally, program, options.seed, range, &options.again),
        (Some(_), None) if !options.memcheck => println!("missing: the line program was not compared"),
        _ => (),
    }
    tally.finish()
}

/// The cases to run under a name, of which there are `count`.
fn range(options: &Options, name: &str, count: u64) -> Option<Range<u64>> {
    match &options.only {
        None => Some(0..count),
        Some((only, case)) => (only == name).then_some(*case..case + 1),
    }
}

fn compare(library: &mut Library, seed: u64, call: Call, index: usize, range: Range<u64>) -> Outcome {
    let mut outcome = Outcome { cases: 0, differences: Vec::new(), seen: Seen::default() };
    for number in range {
        let mut random = Random::of_case(seed, index as u64, number);
        let request = cases::request(&mut random, call);
        let setting = setting_for(&mut random, &request);
        match one(library, &Case { of: call.name(), number }, &request, &setting) {
            Ok(due) => outcome.seen.count(&request, &due),
            Err(difference) => outcome.differences.push(difference),
        }
        outcome.cases += 1;
        if outcome.differences.len() == MOST_DIFFERENCES {
            outcome.differences.push("\n and the others were not run".to_string());
            break;
        }
    }
    outcome
}

/// Inputs of a mebibyte, a few for each call.
fn large(tally: &mut Tally, library: &mut Library, seed: u64, range: Range<u64>) {
    let requests = large::requests(&mut Random::of_case(seed, u64::MAX, u64::MAX));
    assert_eq!(requests.len() as u64, large::COUNT);
    let cases = range.end - range.start;
    let differences: Vec<String> = range
        .filter_map(|number| {
            let setting = setting(&mut Random::of_case(seed, u64::MAX - 1, number));
            one(library, &Case { of: "large", number }, &requests[number as usize], &setting).err()
        })
        .collect();
    let detail = match differences.is_empty() {
        true => format!("{cases} cases, no difference"),
        false => format!("{} of {cases} cases{}", differences.len(), differences.concat()),
    };
    tally.check("compare large inputs", differences.is_empty(), detail);
}

fn setting(random: &mut Random) -> Setting {
    let side = if random.percent(50) { Side::Left } else { Side::Right };
    let length = 1 + random.below(16);
    Setting { side, null: random.percent(50), filling: random.bytes(length) }
}

/// The same, but a work area may hold the replica, as one that was used before may: nothing depends on what it holds.
fn setting_for(random: &mut Random, request: &Request) -> Setting {
    let setting = setting(random);
    match request.call.works() && !request.second.is_empty() && random.percent(30) {
        true => Setting { filling: request.second.clone(), ..setting },
        false => setting,
    }
}

/// The answer that the reference and the library agree on, or the case with both answers.
fn one(library: &mut Library, case: &Case, request: &Request, setting: &Setting) -> Result<Response, String> {
    let due = expected::answer(request);
    match library.differs(case, request, &due, setting) {
        None => Ok(due),
        Some(difference) => Err(format!("\n case {}:{difference}", case.number)),
    }
}

fn report(tally: &mut Tally, call: Call, outcome: &Outcome) {
    let name = format!("compare {}", call.name());
    if !outcome.differences.is_empty() {
        return tally.check(&name, false, format!("{} cases run{}", outcome.cases, outcome.differences.concat()));
    }
    let Outcome { seen, .. } = outcome;
    let few = [seen.few(call, &seen.due_numbers(call), wide::kinds(call)), seen.few_on_areas(call)];
    let few = [few.concat(), seen.few_numbered(numbered::kinds(call)), seen.few_promotions(call)].concat();
    if !few.is_empty() && outcome.cases > 1 {
        return tally.check(&name, false, format!("the cases hardly reach {}", few.join(", ")));
    }
    tally.check(&name, true, format!("{} cases, no difference; by number {}", outcome.cases, outcome.seen.shown(call)));
}
