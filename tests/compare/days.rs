//! Days of issues, returns and replays, from the empty register on: behind each of them the first number is the accepted
//! issues minus the accepted returns, those that replays applied among them, and the seven others sum to it; the last record
//! number has gone up by their sum. What was accepted and applied is counted here, by the answers; what was skipped is not.
//! At the end a log of all of it gives the day's register from the first one, and onto itself changes nothing.

use crate::counts::{Outs, MANY};
use crate::random::Random;
use crate::records::{self, Change};
use crate::{areas, codes, texts, MOST_DIFFERENCES};
use harness::area::{last_number, numbers};
use harness::call::{values, Call, Request, Response};
use harness::expected;
use harness::library::{Case, Library};
use harness::tally::Tally;
use reference::log::End;
use reference::refusal::{NUMBERS_SPENT, NUMBER_GAP};
use reference::register::{LENGTH, PLACES};
use std::collections::HashSet;
use std::ops::Range;

/// How many days there are for so many cases in all. Each has many calls, so under memcheck there are fewer.
pub fn count(cases: usize, memcheck: bool) -> u64 {
    cases.div_ceil(if memcheck { 5000 } else { 1000 }) as u64
}

/// What was done, over all days: accepted, and by replays of these.
#[derive(Default)]
struct Done {
    issues: u64,
    returns: u64,
    replayed_issues: u64,
    replayed_returns: u64,
    /// Records that replays skipped.
    skipped: u64,
    /// Replays that a gap stopped, and live calls for which no number was left.
    gaps: u64,
    spent: u64,
    /// Replays by their ends.
    ends: [u64; 4],
    outs: Outs,
}

/// One day under way.
struct Day<'a> {
    library: &'a mut Library,
    case: Case<'a>,
    random: Random,
    done: &'a mut Done,
    codes: Vec<Vec<u8>>,
    area: Vec<u8>,
    /// The codes that are out, for logs that go on for a while.
    out: HashSet<Vec<u8>>,
    issues: u64,
    returns: u64,
    /// The last record number at the start.
    start: u32,
    /// The records of all changes that were done, under the numbers that they took.
    history: Vec<u8>,
}

/// A record of a log: its bytes, its number, and the change that it stands for if it is one.
type Record = (Vec<u8>, u32, Option<Change>);

impl Day<'_> {
    /// The answer that the reference and the library agree on.
    fn agreed(&mut self, request: &Request) -> Result<Response, String> {
        let due = expected::answer(request);
        match self.library.differs(&self.case, request, &due, &crate::setting(&mut self.random)) {
            None => Ok(due),
            Some(difference) => Err(difference.to_string()),
        }
    }

    /// The last record number, by what was done.
    fn last(&self) -> u32 {
        self.start + (self.issues + self.returns) as u32
    }

    /// Counts an accepted change.
    fn accept(&mut self, change: &Change) {
        self.history.extend(change.bytes(self.last() + 1));
        match change {
            Change::Issue(code, _) => {
                self.issues += 1;
                self.out.insert(code.clone());
            }
            Change::Return(code) => {
                self.returns += 1;
                self.out.remove(code);
            }
        }
    }

    /// A change that can mostly be done.
    fn change(&mut self, out: &HashSet<Vec<u8>>) -> Change {
        let any = self.random.below(self.codes.len());
        let code = self.codes[any].clone();
        let issues = out.contains(&code) != self.random.percent(90);
        Change::new(&mut self.random, issues, &code)
    }

    /// An issue or a return of a typed text, some of them refused.
    fn live(&mut self) -> Result<(), String> {
        let change = self.change(&self.out.clone());
        let (call, code, borrower) = match &change {
            Change::Issue(code, borrower) => (Call::Issue, code, *borrower),
            Change::Return(code) => (Call::TakeBack, code, 0),
        };
        let first = texts::of_code(&mut self.random, code);
        let answer = self.agreed(&Request { first, second: self.area.clone(), borrower, ..Request::new(call) })?;
        if answer.number == 0 {
            self.accept(&change);
        }
        let taken = if answer.number == 0 { self.last() } else { 0 };
        if answer.values[0] != u64::from(taken) {
            return Err(self.wrong(&format!("record number {}, not {taken}", answer.values[0])));
        }
        self.done.spent += u64::from(answer.number == NUMBERS_SPENT);
        self.leave(answer.written)
    }

    /// The records of a log, mostly such as can be done, a few that cannot, and what is no record. Some logs begin with
    /// numbers that were applied already, some leave numbers out. Where it fills the register, more issues than there are
    /// places.
    fn log(&mut self, fills: bool) -> Vec<Record> {
        if fills {
            let (codes, next) = (self.codes.clone(), self.last() + 1);
            let issues = codes.iter().map(|code| Change::new(&mut self.random, true, code));
            return issues.zip(next..).map(|(issue, number)| (issue.bytes(number), number, Some(issue))).collect();
        }
        let (mut out, mut log, mut last) = (self.out.clone(), Vec::new(), self.last());
        let mut next = records::first_number(&mut self.random, last);
        for _ in 0..self.random.below(12) {
            let number = next.saturating_add(u32::from(self.random.percent(2)));
            next = number.saturating_add(1);
            if self.random.percent(4) {
                log.push((records::no_record(&mut self.random, &[43, 255], number), number, None));
                continue;
            }
            let change = self.change(&out);
            if number > last {
                last = number;
                match &change {
                    Change::Issue(code, _) => drop(out.insert(code.clone())),
                    Change::Return(code) => drop(out.remove(code)),
                }
            }
            log.push((change.bytes(number), number, Some(change)));
        }
        log
    }

    /// The replay of a log, some of them torn.
    fn replay(&mut self, fills: bool) -> Result<(), String> {
        let records = self.log(fills);
        let mut first: Vec<u8> = records.iter().flat_map(|(bytes, ..)| bytes.clone()).collect();
        if self.random.percent(30) && !fills {
            first.truncate(self.random.below(first.len() + 1));
        }
        let request = Request { first, second: self.area.clone(), ..Request::new(Call::Replay) };
        let answer = self.agreed(&request)?;
        let [end, offset, ..] = answer.values;
        self.done.ends[end as usize] += 1;
        self.done.gaps += u64::from(answer.number == NUMBER_GAP);
        self.apply(records, if end == End::Ran as u64 { request.first.len() } else { offset as usize })?;
        self.leave(answer.written)
    }

    /// Counts the records of a log that were applied: those before the place that was told, but for the numbers that were
    /// applied already.
    fn apply(&mut self, records: Vec<Record>, told: usize) -> Result<(), String> {
        let (before, mut end) = ((self.issues, self.returns), 0);
        for (bytes, number, change) in records {
            end += bytes.len();
            match change {
                _ if end > told => break,
                Some(_) if number <= self.last() => self.done.skipped += 1,
                Some(change) if number - self.last() == 1 => self.accept(&change),
                Some(_) => return Err(self.wrong("a replay went past a gap")),
                None => return Err(self.wrong("a replay went past what is no record")),
            }
        }
        self.done.replayed_issues += self.issues - before.0;
        self.done.replayed_returns += self.returns - before.1;
        Ok(())
    }

    /// The log of all that was done gives the day's register from the first one, and onto itself changes nothing.
    fn close(&mut self) -> Result<(), String> {
        let mut first = vec![0; LENGTH];
        areas::put_last(&mut first, self.start);
        let due = Response { values: values([End::Ran as u64]), written: self.area.clone(), ..Response::default() };
        for second in [first, self.area.clone()] {
            let request = Request { first: self.history.clone(), second, ..Request::new(Call::Replay) };
            if let Some(found) = self.library.differs(&self.case, &request, &due, &crate::setting(&mut self.random)) {
                return Err(format!(" the log of the day:{found}"));
            }
        }
        Ok(())
    }

    /// Takes over the area that a call left: its numbers have to be those of what was done.
    fn leave(&mut self, area: Vec<u8>) -> Result<(), String> {
        self.done.outs.count(&self.area, &area);
        self.area = area;
        let counts = self.agreed(&Request { second: self.area.clone(), ..Request::new(Call::Counts) })?;
        let [out, of_types @ ..] = counts.values;
        if counts.number != 0 || counts.values != numbers(&self.area) {
            return Err(self.wrong("the counts are not told as they stand"));
        }
        if out + self.returns != self.issues {
            return Err(self.wrong(&format!("{out} out after {} issues and {} returns", self.issues, self.returns)));
        }
        if last_number(&self.area) != Some(self.last()) {
            return Err(self.wrong(&format!("not last number {}, by all that was done", self.last())));
        }
        if of_types.iter().sum::<u64>() != out {
            return Err(self.wrong(&format!("{out} out, but by main type {of_types:?}")));
        }
        Ok(())
    }

    fn wrong(&self, what: &str) -> String {
        format!("\n  {what}: area={}\n  {}", harness::area::shown(&self.area), self.library.again(&self.case))
    }

    /// All of a day; each tenth fills the register by a replay first.
    fn all(&mut self) -> Result<(), String> {
        if self.case.number % 10 == 0 {
            self.replay(true)?;
        }
        for _ in 0..10 + self.random.below(30) {
            match self.random.percent(60) {
                true => self.live()?,
                false => self.replay(false)?,
            }
        }
        self.close()
    }
}

/// The codes of a day: a few; in each tenth day more than there are places, in each twentieth of one main type.
fn codes_of(random: &mut Random, number: u64) -> Vec<Vec<u8>> {
    match number % 20 {
        0 => codes::with_one_header(random, PLACES + 1),
        10 => codes::different(random, PLACES + 1),
        _ => {
            let count = random.pick(&[1, 2, 4, 8, 20]);
            codes::different(random, count)
        }
    }
}

/// The last record number at the start of a day: none; in each fifth day few are left, or it crosses a byte.
fn start_of(random: &mut Random, number: u64) -> u32 {
    match number % 5 {
        1 => u32::MAX - random.below(30) as u32,
        2 => random.pick(&[250, 65_530, (1 << 24) - 5]),
        _ => 0,
    }
}

impl Done {
    /// What never came, where the days are not too few for it.
    fn missing(&self, days: u64) -> Vec<String> {
        let Done { replayed_issues, replayed_returns, skipped, gaps, spent, ends, .. } = *self;
        let counts = [replayed_issues, replayed_returns, skipped, gaps, spent, ends[1], ends[2], ends[3]];
        let names = ["issues by replay", "returns by replay", "skipped", "25", "26", "to the end", "a tear", "a stop"];
        let few = names.iter().zip(counts).filter(|&(_, count)| count < days / 10 && days >= MANY);
        let missing = few.map(|(name, _)| name.to_string());
        missing.chain(self.outs.missing(days)).collect()
    }

    fn shown(&self) -> String {
        let Done { issues, returns, replayed_issues, replayed_returns, skipped, gaps, spent, .. } = self;
        let Done { ends: [_, ran, torn, stopped], outs, .. } = self;
        let changes =
            format!("{issues} issues, {replayed_issues} by replay, {returns} returns, {replayed_returns} by replay");
        let numbers = format!("{skipped} records skipped; 25:{gaps} 26:{spent}");
        format!("{changes}, {numbers}; replays ran:{ran} torn:{torn} stopped:{stopped}\n {}", outs.shown())
    }
}

/// Runs the days of a range; each in which a number is not as many as was done is told, with the command that runs it
/// again.
pub fn check(tally: &mut Tally, library: &mut Library, seed: u64, range: Range<u64>) {
    let (mut done, mut differences) = (Done::default(), Vec::new());
    let days = range.end - range.start;
    for number in range {
        let mut random = Random::of_case(seed, u64::MAX - 4, number);
        let (codes, case) = (codes_of(&mut random, number), Case { of: "days", number });
        let (mut area, out, history, start) = (vec![0; LENGTH], HashSet::new(), Vec::new(), start_of(&mut random, number));
        areas::put_last(&mut area, start);
        let (issues, returns) = (0, 0);
        let mut day = Day { library, case, random, done: &mut done, codes, area, out, issues, returns, start, history };
        differences.extend(day.all().err().map(|difference| format!("\n case {number}:{difference}")));
        let (issues, returns) = (day.issues, day.returns);
        (done.issues, done.returns) = (done.issues + issues, done.returns + returns);
        if differences.len() == MOST_DIFFERENCES {
            differences.push("\n and the others were not run".to_string());
            break;
        }
    }
    let missing = done.missing(days);
    let detail = match (differences.is_empty(), missing.is_empty()) {
        (true, true) => format!("{days} days, the counts are those of what was done: {}", done.shown()),
        (true, false) => format!("{days} days, which never reach {}", missing.join(", ")),
        (false, _) => format!("{days} days{}", differences.concat()),
    };
    tally.check("compare days", differences.is_empty() && missing.is_empty(), detail);
}
