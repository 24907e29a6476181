//! Logs torn off behind each of their bytes: each answer and each register is that of the reference, and, where the records
//! are known, the one that live calls give for the whole records before the tear. The whole log on what its first bytes left
//! gives what it gives alone; a log that ran to its end changes nothing the second time.

use crate::areas::{self, Filled};
use crate::random::Random;
use crate::records::{self, Change};
use crate::seen::Seen;
use crate::{codes, numbered, texts, wide, MOST_DIFFERENCES};
use harness::area::last_number;
use harness::call::{values, Call, Request, Response};
use harness::expected;
use harness::library::{Case, Library};
use harness::tally::Tally;
use reference::log::End;
use reference::refusal::{ALREADY_OUT, NOT_RECORD, NUMBER_GAP};
use reference::register::{LENGTH, PLACES};
use std::ops::Range;

/// How many cases there are for so many in all. Each has one to four logs with many cuts, so under memcheck there are fewer.
pub fn count(cases: usize, memcheck: bool) -> u64 {
    cases.div_ceil(if memcheck { 5000 } else { 1000 }) as u64
}

/// A log whose whole records are known.
struct Known {
    log: Vec<u8>,
    /// Where each record ends.
    ends: Vec<usize>,
    /// The register before the log, and after each record up to the one that stops a replay.
    registers: Vec<Vec<u8>>,
    /// The number of that one; 0 where there is none.
    stop: u32,
    /// The record number that comes next; past the last one there are applied ones alone.
    next: u32,
}

impl Known {
    fn empty(register: Vec<u8>) -> Known {
        let next = last_number(&register).expect("a register").saturating_add(1);
        Known { log: Vec::new(), ends: Vec::new(), registers: vec![register], stop: 0, next }
    }

    fn register(&self) -> &[u8] {
        self.registers.last().expect("the register before the log")
    }

    /// One more record, behind which this number comes next.
    fn push(&mut self, record: &[u8], next: u32) {
        self.log.extend(record);
        self.ends.push(self.log.len());
        self.next = next;
    }

    /// The same log on the register that its first records left: these are skipped.
    fn behind(mut self, records: usize) -> Known {
        let left = self.registers[records].clone();
        self.registers[..records].fill(left);
        self
    }

    /// What a replay of the log up to a cut has to answer.
    fn due(&self, cut: usize) -> Response {
        let whole = self.ends.iter().filter(|&&end| end <= cut).count();
        let applied = whole.min(self.registers.len() - 1);
        let next = if applied == 0 { 0 } else { self.ends[applied - 1] };
        let (number, end, offset) = if whole > applied {
            (self.stop, End::Stopped, next)
        } else if next < cut {
            (0, End::Torn, next)
        } else {
            (0, End::Ran, 0)
        };
        let values = values([end as u64, offset as u64]);
        Response { number, values, written: self.registers[applied].clone(), ..Response::default() }
    }
}

/// How often each thing that has to hold of any log was seen to hold.
#[derive(Default)]
struct Held {
    /// A log that ran to its end, replayed again, runs to its end and changes no byte.
    twice: usize,
    /// The first bytes of a log and then the whole one give what the whole one gives alone, by how the whole one ends: to its
    /// end, by a tear, or by each of 20 to 25.
    prefixes: [usize; 8],
    /// A live run's log gives the register after it, and onto that changes nothing.
    live: usize,
}

/// The ends of a whole log, in the order of their counts.
const ENDS: [&str; 8] = ["ran", "torn", "20", "21", "22", "23", "24", "25"];

impl Held {
    fn all(&self) -> Vec<(String, usize)> {
        let ends = ENDS.iter().zip(self.prefixes).filter(|(end, _)| **end != "23");
        let prefixes = ends.map(|(end, count)| (format!("a prefix and the whole, {end}"), count));
        let others = [("replay twice", self.twice), ("a live run's log", self.live)];
        others.into_iter().map(|(name, count)| (name.to_string(), count)).chain(prefixes).collect()
    }

    /// What was hardly seen over so many cases: each is to come once in ten of them.
    fn few(&self, cases: u64) -> Vec<String> {
        let few = self.all().into_iter().filter(|&(_, count)| (count as u64) < (cases / 10).max(1));
        few.filter(|_| cases >= MANY).map(|(name, _)| name).collect()
    }

    fn shown(&self) -> String {
        self.all().into_iter().map(|(name, count)| format!("{name}:{count}")).collect::<Vec<_>>().join(" ")
    }
}

/// From so many cases on, each of these and the kinds of record numbers have to come.
const MANY: u64 = 50;

/// One case under way.
struct Run<'a> {
    library: &'a mut Library,
    case: Case<'a>,
    random: Random,
    seen: &'a mut Seen,
    held: &'a mut Held,
    logs: usize,
    replays: usize,
}

impl Run<'_> {
    /// The answer that the reference and the library agree on.
    fn agreed(&mut self, request: &Request) -> Result<Response, String> {
        let due = expected::answer(request);
        match self.library.differs(&self.case, request, &due, &crate::setting(&mut self.random)) {
            None => Ok(due),
            Some(difference) => Err(difference.to_string()),
        }
    }

    /// A live call with one of the texts of the code.
    fn live(&mut self, change: &Change, area: &[u8]) -> Result<Response, String> {
        let (call, code, borrower) = match change {
            Change::Issue(code, borrower) => (Call::Issue, code, *borrower),
            Change::Return(code) => (Call::TakeBack, code, 0),
        };
        let first = texts::of_code(&mut self.random, code);
        self.agreed(&Request { first, second: area.to_vec(), borrower, ..Request::new(call) })
    }

    /// One more record under the number that comes next.
    fn add(&mut self, known: &mut Known, change: &Change) -> Result<(), String> {
        self.add_numbered(known, change, known.next)
    }

    /// One more record, and where no record before stops: what a live call makes of it where its number is the next one, and
    /// nothing where it was applied already.
    fn add_numbered(&mut self, known: &mut Known, change: &Change, number: u32) -> Result<(), String> {
        known.push(&change.bytes(number), number.saturating_add(1));
        let (register, last) = (known.register().to_vec(), last_number(known.register()).expect("a register"));
        if known.stop != 0 {
            return Ok(());
        }
        if number <= last {
            known.registers.push(register);
            return Ok(());
        }
        if number - last > 1 {
            known.stop = NUMBER_GAP;
            return Ok(());
        }
        let due = self.live(change, &register)?;
        match due.number {
            0 => known.registers.push(due.written),
            number => known.stop = number,
        }
        Ok(())
    }

    /// A whole record that is none. It may have the number that comes next, one that was applied already or one behind a gap.
    fn add_no_record(&mut self, known: &mut Known) {
        let next = known.next;
        let number = self.random.pick(&[next, next, next.saturating_sub(1), 1, next.saturating_add(1)]);
        let record = records::no_record(&mut self.random, &[43, 255, 256], number);
        self.add_stop(known, &record);
    }

    fn add_stop(&mut self, known: &mut Known, record: &[u8]) {
        known.push(record, known.next);
        if known.stop == 0 {
            known.stop = NOT_RECORD;
        }
    }

    /// A counter at work: typed texts, some of them refused, and a record written for each change, under the number that the
    /// live call answers.
    fn at_work(&mut self, filled: &Filled) -> Result<Known, String> {
        let mut known = Known::empty(filled.area.clone());
        let room = 53 * 10 + self.random.below(60);
        let mut log = self.random.bytes(room);
        for _ in 0..4 + self.random.below(7) {
            let call = self.random.pick(&[Call::Issue, Call::Issue, Call::TakeBack]);
            let any = self.random.below(filled.codes.len());
            let first = texts::for_loan(&mut self.random, &filled.codes[any]);
            let borrower = if call == Call::Issue { areas::borrower(&mut self.random) } else { 0 };
            let second = known.register().to_vec();
            let live = self.agreed(&Request { first: first.clone(), second, borrower, ..Request::new(call) })?;
            if live.number != 0 {
                continue;
            }
            let code = self.agreed(&Request { first, area: 42, ..Request::new(Call::Code) })?.written;
            let position = known.ends.last().map_or(0, |&end| end);
            let append = if call == Call::Issue { Call::LogIssue } else { Call::LogReturn };
            let record_number = live.values[0] as u32;
            let request = Request { first: code, second: log, borrower, record_number, position, ..Request::new(append) };
            let written = self.agreed(&request)?;
            let end = position + written.values[0] as usize;
            log = written.written;
            known.push(&log[position..end], record_number.saturating_add(1));
            known.registers.push(live.written);
        }
        Ok(known)
    }

    /// The log of a live run on the register before it gives the register after it, and on that one changes nothing.
    fn live_run(&mut self, known: &Known) -> Result<(), String> {
        let ran = Response { values: values([End::Ran as u64]), written: known.register().to_vec(), ..Response::default() };
        for register in [&known.registers[0], known.register()] {
            self.gives(&known.log, register, &ran, "the log of a live run, before it or after it")?;
        }
        self.held.live += usize::from(!known.ends.is_empty());
        Ok(())
    }

    /// The library's replay of a log has to answer and leave this.
    fn gives(&mut self, log: &[u8], register: &[u8], due: &Response, what: &str) -> Result<(), String> {
        let request = Request { first: log.to_vec(), second: register.to_vec(), ..Request::new(Call::Replay) };
        match self.library.differs(&self.case, &request, due, &crate::setting(&mut self.random)) {
            None => Ok(()),
            Some(difference) => Err(format!(" {what}:{difference}")),
        }
    }

    /// What was replayed of a log, all of it or up to a cut: the whole log then gives what it gives alone, and what ran to its
    /// end changes nothing the second time.
    fn again(&mut self, log: &[u8], cut: usize, first: &Response, whole: &Response) -> Result<(), String> {
        self.gives(log, &first.written, whole, &format!("the log up to {cut} and then all of it, not as all of it alone"))?;
        let end = match whole.number {
            0 => whole.values[0] as usize - End::Ran as usize,
            number => 2 + (number - ALREADY_OUT) as usize,
        };
        self.held.prefixes[end] += 1;
        if first.values[0] == End::Ran as u64 {
            self.gives(&log[..cut], &first.written, first, &format!("the log up to {cut} for the second time"))?;
            self.held.twice += usize::from(cut > 0);
        }
        Ok(())
    }

    /// Changes that can be done one after the other, as far as the register has room and numbers are left.
    fn good(&mut self, filled: &Filled, count: usize) -> Result<Vec<Change>, String> {
        let (mut changes, mut area) = (Vec::new(), filled.area.clone());
        for _ in 0..count {
            let any = self.random.below(filled.codes.len());
            let mut change = Change::any(&mut self.random, &filled.codes[any]);
            let mut due = self.live(&change, &area)?;
            if due.number != 0 {
                change = change.opposite(&mut self.random);
                due = self.live(&change, &area)?;
            }
            if due.number == 0 {
                area = due.written;
                changes.push(change);
            }
        }
        Ok(changes)
    }

    /// A log of good records, one that stops in their midst, and more behind it.
    fn stopped(&mut self, filled: &Filled, good: &[Change], stop: Stop) -> Result<Known, String> {
        let mut known = Known::empty(filled.area.clone());
        let before = self.random.below(good.len() + 1);
        for change in &good[..before] {
            self.add(&mut known, change)?;
        }
        match stop {
            Stop::None => (),
            Stop::NoRecord => self.add_no_record(&mut known),
            Stop::Unnumbered => {
                let change = self.any_change(filled);
                let record = match self.random.percent(50) {
                    true => change.bytes(0),
                    false => change.old_bytes(),
                };
                self.add_stop(&mut known, &record);
            }
            Stop::Gap => {
                let change = self.any_change(filled);
                let number = known.next.saturating_add(self.random.pick(&[1, 1, 1, 2, 255, 256, 1 << 31]));
                self.add_numbered(&mut known, &change, number)?;
            }
            // Once or twice: then it is out already, or out no more.
            Stop::Out | Stop::NotOut => {
                let any = self.random.below(filled.codes.len());
                let change = Change::new(&mut self.random, stop == Stop::Out, &filled.codes[any]);
                self.add(&mut known, &change)?;
                if known.stop == 0 {
                    self.add(&mut known, &change)?;
                }
            }
            Stop::Room => {
                for code in codes::different(&mut self.random, 4) {
                    let change = Change::new(&mut self.random, true, &code);
                    self.add(&mut known, &change)?;
                }
            }
        }
        for change in &good[before..] {
            self.add(&mut known, change)?;
        }
        Ok(known)
    }

    /// The replay of a log up to a cut.
    fn replay(&mut self, log: &[u8], cut: usize, register: &[u8], known: Option<&Known>) -> Result<Response, String> {
        let request = Request { first: log[..cut].to_vec(), second: register.to_vec(), ..Request::new(Call::Replay) };
        let due = self.agreed(&request)?;
        if let Some(live) = known.map(|known| known.due(cut)).filter(|live| *live != due) {
            let again = self.library.again(&self.case);
            let fields = live.fields(Call::Replay).into_iter().map(|(name, value)| format!(" {name}={value}"));
            let told: String = fields.collect();
            return Err(format!("\n  {request}\n  by live calls, but not by the reference:{told}\n  {again}"));
        }
        self.seen.count(&request, &due);
        self.replays += 1;
        Ok(due)
    }

    /// A log behind each of these bytes, and then all of it.
    fn cuts(&mut self, known: &Known, cuts: impl Iterator<Item = usize>) -> Result<(), String> {
        self.logs += 1;
        let whole = self.replay(&known.log, known.log.len(), &known.registers[0], Some(known))?;
        for cut in cuts {
            let first = self.replay(&known.log, cut, &known.registers[0], Some(known))?;
            self.again(&known.log, cut, &first, &whole)?;
        }
        Ok(())
    }

    /// A log behind each byte, and whole on a register with one fault, which is mostly 23.
    fn every_cut(&mut self, known: &Known) -> Result<(), String> {
        self.cuts(known, 0..known.log.len() + 1)?;
        let mut register = known.registers[0].clone();
        areas::damage(&mut self.random, &mut register);
        self.replay(&known.log, known.log.len(), &register, None).map(drop)
    }

    /// The log with one fault or two, behind each byte. Nothing is known of its records, but up to where it is torn or
    /// stops it gives the same register.
    fn every_cut_damaged(&mut self, known: &Known) -> Result<(), String> {
        let (mut log, register) = (known.log.clone(), &known.registers[0]);
        for _ in 0..1 + self.random.below(2) {
            records::damage(&mut self.random, &mut log);
        }
        self.logs += 1;
        let all = self.replay(&log, log.len(), register, None)?;
        for cut in 0..log.len() + 1 {
            let due = self.replay(&log, cut, register, None)?;
            self.again(&log, cut, &due, &all)?;
            let whole = if due.values[0] == End::Ran as u64 { cut } else { due.values[1] as usize };
            let again = self.replay(&log, whole, register, None)?;
            if (again.values[0], &again.written) != (End::Ran as u64, &due.written) {
                let again = self.library.again(&self.case);
                return Err(format!("\n  cut at {cut}: the log up to {whole} gives another register\n  {again}"));
            }
        }
        Ok(())
    }

    /// More issues than a register holds, from the empty one on; cuts at the ends of records and some others.
    fn long(&mut self) -> Result<(), String> {
        let mut register = vec![0; LENGTH];
        areas::put_last(&mut register, self.random.pick(&[0, 0, 65_300, (1 << 24) - 100]));
        let mut known = Known::empty(register);
        for code in codes::different(&mut self.random, PLACES + 2) {
            let change = Change::new(&mut self.random, true, &code);
            self.add(&mut known, &change)?;
        }
        let length = known.log.len();
        let near: Vec<usize> = known.ends[PLACES - 2..].iter().flat_map(|&end| [end - 1, end, end + 1]).collect();
        let any: Vec<usize> = (0..10).map(|_| self.random.below(length)).collect();
        self.cuts(&known, near.into_iter().chain(any).filter(|&cut| cut <= length))
    }

    /// The register that a log starts from: with few codes out.
    fn small(&mut self) -> Filled {
        let used = self.random.pick(&[0, 0, 1, 5]);
        areas::register_of(&mut self.random, used)
    }

    /// The same, with numbers left for a few records.
    fn small_with_numbers(&mut self) -> Filled {
        let mut filled = self.small();
        let last = last_number(&filled.area).expect("a register").min(u32::MAX - 8);
        areas::put_last(&mut filled.area, last);
        filled
    }

    /// A log whose first records were applied already: in one half the changes that gave the register, in the other any, of
    /// which some could not be done. Behind them come good ones, and in some logs one that may stop.
    fn overlapping(&mut self, filled: &Filled) -> Result<Known, String> {
        let good = self.good(filled, 6)?;
        let mut known = Known::empty(filled.area.clone());
        let others = if self.random.percent(50) { (self.random.below(4) as u32).min(known.next - 1) } else { 0 };
        known.next -= others;
        for _ in 0..others {
            let change = self.any_change(filled);
            self.add(&mut known, &change)?;
        }
        for change in &good {
            self.add(&mut known, change)?;
        }
        match self.random.below(4) {
            0 => self.add_no_record(&mut known),
            1 => {
                let change = self.any_change(filled);
                self.add(&mut known, &change)?;
            }
            _ => (),
        }
        let applied = self.random.below(known.registers.len());
        Ok(if others == 0 { known.behind(applied) } else { known })
    }

    fn any_change(&mut self, filled: &Filled) -> Change {
        let any = self.random.below(filled.codes.len());
        Change::any(&mut self.random, &filled.codes[any])
    }

    /// One case: each fifth is of a kind.
    fn all(&mut self) -> Result<(), String> {
        let number = self.case.number;
        match number % 5 {
            0 => {
                let filled = self.small();
                let known = self.at_work(&filled)?;
                self.live_run(&known)?;
                self.every_cut(&known)
            }
            1 => {
                let (filled, count) = (self.small_with_numbers(), 1 + self.random.below(5));
                let good = self.good(&filled, count)?;
                for stop in [Stop::None, Stop::Out, Stop::NotOut, Stop::NoRecord, Stop::Unnumbered, Stop::Gap] {
                    let known = self.stopped(&filled, &good, stop)?;
                    self.every_cut(&known)?;
                }
                Ok(())
            }
            2 => {
                if number % 100 == 2 {
                    self.long()?;
                }
                let used = PLACES - self.random.below(3);
                let mut filled = areas::register_of(&mut self.random, used);
                let last = last_number(&filled.area).expect("a register").min(u32::MAX - 8);
                areas::put_last(&mut filled.area, last);
                let good = self.good(&filled, 2)?;
                let known = self.stopped(&filled, &good, Stop::Room)?;
                self.every_cut(&known)
            }
            3 => {
                let filled = self.small();
                let known = self.overlapping(&filled)?;
                self.every_cut(&known)
            }
            _ => {
                let (filled, count) = (self.small(), 1 + self.random.below(5));
                let known = match self.random.percent(50) {
                    true => self.overlapping(&filled)?,
                    false => {
                        let good = self.good(&filled, count)?;
                        self.stopped(&filled, &good, Stop::None)?
                    }
                };
                self.every_cut_damaged(&known)
            }
        }
    }
}

/// What stops a replay.
#[derive(Clone, Copy, PartialEq)]
enum Stop {
    None,
    NoRecord,
    /// A record of number 0, or one of the first form.
    Unnumbered,
    /// The issue of a code that is out already.
    Out,
    /// The return of one that is not out.
    NotOut,
    /// All places are used.
    Room,
    /// Numbers are left out.
    Gap,
}

/// Compares the logs of a range; each case that differs is told, with the command that runs it again.
pub fn check(tally: &mut Tally, library: &mut Library, seed: u64, range: Range<u64>) {
    let (mut seen, mut held) = (Seen::default(), Held::default());
    let (mut differences, mut logs, mut replays) = (Vec::new(), 0, 0);
    let cases = range.end - range.start;
    for number in range {
        let random = Random::of_case(seed, u64::MAX - 3, number);
        let case = Case { of: "log", number };
        let mut run = Run { library, case, random, seen: &mut seen, held: &mut held, logs: 0, replays: 0 };
        differences.extend(run.all().err().map(|difference| format!("\n case {number}:{difference}")));
        (logs, replays) = (logs + run.logs, replays + run.replays);
        if differences.len() == MOST_DIFFERENCES {
            differences.push("\n and the others were not run".to_string());
            break;
        }
    }
    let few = match cases {
        1 => Vec::new(),
        _ => {
            let few = seen.few(Call::Replay, Call::Replay.numbers(), wide::in_sequences(cases));
            let kinds = if cases < MANY { &[][..] } else { &numbered::IN_LOGS };
            [few, seen.few_numbered(kinds), held.few(cases)].concat()
        }
    };
    let run = format!("{logs} logs, {replays} replays");
    let detail = match (differences.is_empty(), few.is_empty()) {
        (true, true) => {
            format!("{run}, no difference; by number and end {}\n holds: {}", seen.shown(Call::Replay), held.shown())
        }
        (true, false) => format!("{run}, which hardly reach {}", few.join(", ")),
        (false, _) => format!("{run}{}", differences.concat()),
    };
    tally.check("compare log", differences.is_empty() && few.is_empty(), detail);
}
