//! Pairs of histories: a counter's live calls, each logged, and a replica that follows its log or goes a way of its own. A plain
//! model, a map of loans and a last number without any area, says what a promotion has to answer. On yes the replica is byte for
//! byte what stands in the work area, and of the records that a replay applies the last one about a code decides whether the
//! replica has it out.

use crate::areas::Loans;
use crate::random::Random;
use crate::records::{self, Change};
use crate::{codes, texts, MOST_DIFFERENCES};
use harness::call::{keeps_work, values, Call, Request, Response};
use harness::library::{Case, Library};
use harness::tally::Tally;
use reference::doors::LONGEST_CODE;
use reference::refusal::{ALL_OUT, ALREADY_OUT, AREA_TOO_SHORT, LAST_NUMBERS_DIFFER, LOANS_DIFFER, LOG_TORN};
use reference::refusal::{NOT_OUT, NOT_RECORD, NOT_REGISTER, NUMBER_GAP};
use reference::register::{COUNTS, LENGTH, PLACES, ZERO};
use std::ops::Range;

/// How many cases there are for so many in all. Each has a counter and some replicas, so under memcheck there are fewer.
pub fn count(cases: usize, memcheck: bool) -> u64 {
    cases.div_ceil(if memcheck { 2500 } else { 500 }) as u64
}

/// The promotions of a case.
const PROMOTIONS: usize = 8;

/// Each 25th case fills the register, not the first: under memcheck it would take long.
fn fills(number: u64) -> bool {
    number % 25 == 24
}

/// From so many cases on, each number and each kind has to come, once in so many cases.
const MANY: u64 = 200;
const OF_A_KIND: u64 = 100;

/// Who has which code, and how many changes there were.
#[derive(Clone, Default, PartialEq)]
struct Model {
    loans: Loans,
    last: u32,
}

impl Model {
    /// What changes leave that were done one after the other from the start.
    fn after<'a>(changes: impl Iterator<Item = &'a Change>) -> Model {
        let mut model = Model::default();
        for change in changes {
            model.change(change).expect("a change that was done once");
        }
        model
    }

    /// The number that a change takes, or its refusal.
    fn change(&mut self, change: &Change) -> Result<u32, u32> {
        match change {
            Change::Issue(code, _) if self.loans.contains_key(code) => return Err(ALREADY_OUT),
            Change::Issue(..) if self.loans.len() == PLACES => return Err(ALL_OUT),
            Change::Issue(code, borrower) => drop(self.loans.insert(code.clone(), *borrower)),
            Change::Return(code) => drop(self.loans.remove(code).ok_or(NOT_OUT)?),
        }
        self.last += 1;
        Ok(self.last)
    }

    /// The least code that only one of both has, or each for another borrower.
    fn least_difference(&self, other: &Model) -> Option<Vec<u8>> {
        let codes = self.loans.keys().chain(other.loans.keys());
        codes.filter(|&code| self.loans.get(code) != other.loans.get(code)).min().cloned()
    }
}

/// A register, and what it has to hold.
#[derive(Clone)]
struct Hall {
    area: Vec<u8>,
    model: Model,
}

impl Hall {
    fn empty() -> Hall {
        Hall { area: vec![0; LENGTH], model: Model::default() }
    }
}

/// What a replay makes of a record.
#[derive(Clone)]
enum Effect {
    Applied(Change),
    Skipped,
    Stop(u32),
}

/// A log as its records, and behind how many bytes it is torn off, where it is.
#[derive(Clone)]
struct Offer {
    records: Vec<(Vec<u8>, Effect)>,
    torn: Option<usize>,
}

impl Offer {
    fn bytes(&self) -> Vec<u8> {
        let all: Vec<u8> = self.records.iter().flat_map(|(bytes, _)| bytes.clone()).collect();
        all[..self.torn.unwrap_or(all.len())].to_vec()
    }

    /// The changes that a replay applies, and the number and the offset with which it ends before the log's end.
    fn replayed(&self) -> (Vec<&Change>, Option<(u32, usize)>) {
        let (mut applied, mut offset) = (Vec::new(), 0);
        for (bytes, effect) in &self.records {
            match (self.torn, effect) {
                (Some(torn), _) if torn == offset => break,
                (Some(torn), _) if torn < offset + bytes.len() => return (applied, Some((LOG_TORN, offset))),
                (_, Effect::Stop(number)) => return (applied, Some((*number, offset))),
                (_, Effect::Applied(change)) => applied.push(change),
                (_, Effect::Skipped) => (),
            }
            offset += bytes.len();
        }
        (applied, None)
    }

    /// What the log leaves of an empty register.
    fn model(&self) -> Model {
        Model::after(self.replayed().0.into_iter())
    }
}

/// What a promotion has to tell: its number, an offset, a code.
#[derive(PartialEq)]
struct Due {
    number: u32,
    offset: usize,
    code: Vec<u8>,
}

impl Due {
    /// By the model alone: whether the replica is a register, what it holds, the log, and the length of the work area.
    fn of(is_register: bool, replica: &Model, offer: &Offer, work: usize) -> Due {
        let logged = offer.model();
        let told = |number, offset, code| Due { number, offset, code };
        match (offer.replayed().1, logged.least_difference(replica)) {
            _ if !is_register => told(NOT_REGISTER, 0, Vec::new()),
            _ if work < LENGTH => told(AREA_TOO_SHORT, 0, Vec::new()),
            (Some((number, offset)), _) => told(number, offset, Vec::new()),
            (None, Some(code)) => told(LOANS_DIFFER, 0, code),
            (None, None) if logged.last != replica.last => told(LAST_NUMBERS_DIFFER, 0, Vec::new()),
            (None, None) => told(0, 0, Vec::new()),
        }
    }

    /// The answer, with this in the work area.
    fn response(&self, written: Vec<u8>) -> Response {
        let mut code = self.code.clone();
        code.resize(LONGEST_CODE, 0);
        Response::judged(self.number, self.offset, self.code.len(), code, written)
    }
}

/// How a replica came to what it holds; and what a yes was asked about.
const KINDS: [&str; 15] = [
    "yes of one that followed",
    "yes of another history",
    "yes with records skipped",
    "lagging replica, 37",
    "lagging replica, 27",
    "lagging log, 37",
    "lagging log, 27",
    "own calls behind the log's, 37",
    "another history, 37",
    "another borrower, 37",
    "a pair more or less, 27",
    "a stop, the replica as the log left it",
    "a tear, the replica as the log left it",
    "asked: out by its last record",
    "asked: back by its last record",
];

/// What came out over some cases.
#[derive(Default)]
struct Came {
    numbers: [usize; NUMBERS.len()],
    kinds: [usize; KINDS.len()],
    calls: usize,
}

const NUMBERS: [u32; 11] = [
    0,
    AREA_TOO_SHORT,
    ALREADY_OUT,
    ALL_OUT,
    NOT_OUT,
    NOT_REGISTER,
    NOT_RECORD,
    NUMBER_GAP,
    LAST_NUMBERS_DIFFER,
    LOG_TORN,
    LOANS_DIFFER,
];

impl Came {
    fn kind(&mut self, name: &str) {
        self.kinds[KINDS.iter().position(|kind| *kind == name).expect("one of the kinds")] += 1;
    }

    fn number(&mut self, number: u32) {
        self.numbers[NUMBERS.iter().position(|one| *one == number).expect("one of the numbers")] += 1;
    }

    fn all(&self) -> Vec<(String, usize)> {
        let numbers = NUMBERS.iter().zip(self.numbers).map(|(number, count)| (number.to_string(), count));
        numbers.chain(KINDS.iter().zip(self.kinds).map(|(kind, count)| (kind.to_string(), count))).collect()
    }

    fn few(&self, cases: u64) -> Vec<String> {
        let few = self.all().into_iter().filter(|&(_, count)| cases >= MANY && (count as u64) < cases / OF_A_KIND);
        few.map(|(name, _)| name).collect()
    }

    fn shown(&self) -> String {
        self.all().into_iter().map(|(name, count)| format!("{name}:{count}")).collect::<Vec<_>>().join(" ")
    }
}

/// The ways of a replica.
#[derive(Clone, Copy, PartialEq)]
enum Way {
    /// It replayed the log, up to a record.
    Followed(usize),
    /// The same, and then made changes of its own.
    OwnCalls,
    /// The same loans by other calls, with as many changes.
    Another,
    /// The same with a code that came and went once more, or once less.
    Pair,
    /// The same, but one loan is another borrower's.
    Borrower,
    /// Calls of its own from the first one on.
    Own,
}

/// One case under way.
struct Run<'a> {
    library: &'a mut Library,
    case: Case<'a>,
    random: Random,
    came: &'a mut Came,
    codes: Vec<Vec<u8>>,
}

impl Run<'_> {
    /// The library's answer has to be this one.
    fn gives(&mut self, request: &Request, due: &Response, what: &str) -> Result<(), String> {
        self.came.calls += 1;
        match self.library.differs(&self.case, request, due, &crate::setting_for(&mut self.random, request)) {
            None => Ok(()),
            Some(difference) => Err(format!(" {what}:{difference}")),
        }
    }

    /// What the library answers, but for a byte that it may not change.
    fn answer(&mut self, request: &Request) -> Result<Response, String> {
        self.came.calls += 1;
        let answer = self.library.answer(&self.case, request, &crate::setting(&mut self.random));
        match answer.fault {
            None => Ok(answer.response),
            Some(fault) => Err(format!("\n  {request}\n  {fault}\n  {}", self.library.again(&self.case))),
        }
    }

    /// A live call with one of the texts of the code; the number that it took, where it was not refused.
    fn live(&mut self, hall: &mut Hall, change: &Change) -> Result<Option<u32>, String> {
        let (call, code, borrower) = match change {
            Change::Issue(code, borrower) => (Call::Issue, code, *borrower),
            Change::Return(code) => (Call::TakeBack, code, 0),
        };
        let first = texts::of_code(&mut self.random, code);
        let request = Request { first, second: hall.area.clone(), borrower, ..Request::new(call) };
        let answer = self.answer(&request)?;
        let due = hall.model.change(change);
        let (number, taken) = due.map_or_else(|number| (number, 0), |taken| (0, taken));
        if (answer.number, answer.values) != (number, values([u64::from(taken)])) {
            let told = format!("number {} and {:?}, the model {number} and {taken}", answer.number, answer.values);
            return Err(format!("\n  {request}\n  {told}\n  {}", self.library.again(&self.case)));
        }
        hall.area = answer.written;
        Ok(due.ok())
    }

    /// The record of a change that took this number, as the log's writer has it.
    fn record(&mut self, change: &Change, record_number: u32) -> Result<Vec<u8>, String> {
        let (call, code, borrower) = match change {
            Change::Issue(code, borrower) => (Call::LogIssue, code, *borrower),
            Change::Return(code) => (Call::LogReturn, code, 0),
        };
        let second = self.random.bytes(64);
        let request = Request { first: code.clone(), second, borrower, record_number, ..Request::new(call) };
        let answer = self.answer(&request)?;
        Ok(answer.written[..answer.values[0] as usize].to_vec())
    }

    fn any_change(&mut self) -> Change {
        let any = self.random.below(self.codes.len());
        let code = self.codes[any].clone();
        Change::any(&mut self.random, &code)
    }

    /// A counter's changes with their records, as many as could be done; where it fills, one issue for each code first.
    fn counter(&mut self, fills: bool) -> Result<(Hall, Vec<(Vec<u8>, Change)>), String> {
        let (mut hall, mut records) = (Hall::empty(), Vec::new());
        let issues: Vec<Vec<u8>> = if fills { self.codes.clone() } else { Vec::new() };
        let mut changes: Vec<Change> = issues.iter().map(|code| Change::new(&mut self.random, true, code)).collect();
        let more = if fills { 0 } else { self.random.pick(&[0, 1, 3, 8, 16]) };
        changes.extend((0..more).map(|_| self.any_change()));
        for change in changes {
            if let Some(taken) = self.live(&mut hall, &change)? {
                records.push((self.record(&change, taken)?, change));
            }
        }
        Ok((hall, records))
    }

    /// The issues that give these loans, in any order, behind so many codes that come and go.
    fn same_loans(&mut self, loans: &Loans, pairs: usize) -> Vec<Change> {
        let mut changes = Vec::new();
        for _ in 0..pairs {
            let any = self.random.below(self.codes.len());
            let code = self.codes[any].clone();
            changes.extend([true, false].map(|issues| Change::new(&mut self.random, issues, &code)));
        }
        let mut issues: Vec<Change> = loans.iter().map(|(code, &borrower)| Change::Issue(code.clone(), borrower)).collect();
        self.random.shuffle(&mut issues);
        [changes, issues].concat()
    }

    /// A replica, by its way.
    fn replica(&mut self, way: Way, counter: &Hall, records: &[(Vec<u8>, Change)]) -> Result<Hall, String> {
        let mut hall = Hall::empty();
        let Model { loans, last } = &counter.model;
        let pairs = (*last as usize - loans.len()) / 2;
        let changes: Vec<Change> = match way {
            Way::Followed(_) | Way::OwnCalls => {
                let any = self.random.below(records.len() + 1);
                let upto = if let Way::Followed(upto) = way { upto } else { any };
                let first: Vec<u8> = records[..upto].iter().flat_map(|(bytes, _)| bytes.clone()).collect();
                hall.model = Model::after(records[..upto].iter().map(|(_, change)| change));
                let request = Request { first, second: hall.area.clone(), ..Request::new(Call::Replay) };
                hall.area = self.answer(&request)?.written;
                let own = if way == Way::OwnCalls { 1 + self.random.below(3) } else { 0 };
                (0..own).map(|_| self.any_change()).collect()
            }
            Way::Another => self.same_loans(loans, pairs),
            Way::Pair if pairs > 0 && self.random.percent(50) => self.same_loans(loans, pairs - 1),
            Way::Pair => self.same_loans(loans, pairs + 1),
            Way::Borrower => {
                let mut loans = loans.clone();
                if let Some(code) = loans.keys().nth(self.random.below(loans.len().max(1))).cloned() {
                    loans.entry(code).and_modify(|borrower| *borrower ^= 1 << self.random.below(32));
                }
                self.same_loans(&loans, pairs)
            }
            Way::Own => (0..self.random.below(12)).map(|_| self.any_change()).collect(),
        };
        for change in &changes {
            self.live(&mut hall, change)?;
        }
        Ok(hall)
    }

    /// A record that stops a replay behind the first of these, and the number with which it does.
    fn stop(&mut self, before: &[(Vec<u8>, Change)]) -> (Vec<u8>, Effect) {
        let model = Model::after(before.iter().map(|(_, change)| change));
        let (next, change) = (model.last + 1, self.any_change());
        let cannot = |change: &Change| model.clone().change(change).err();
        let bad = match cannot(&change) {
            Some(_) => change.clone(),
            None => change.opposite(&mut self.random),
        };
        let (bytes, number) = match self.random.below(8) {
            0 => (change.bytes(0), NOT_RECORD),
            1 => (change.old_bytes(), NOT_RECORD),
            2 => (records::no_record(&mut self.random, &[43, 255], next), NOT_RECORD),
            3..=4 => (change.bytes(next + 1 + self.random.below(3) as u32), NUMBER_GAP),
            _ => (bad.bytes(next), cannot(&bad).expect("one of both cannot be done")),
        };
        (bytes, Effect::Stop(number))
    }

    /// A count of records from the first on: any, or one behind which the rest changes no loan in the end.
    fn some(&mut self, records: &[(Vec<u8>, Change)]) -> usize {
        let model = |count| Model::after(records[..count].iter().map(|(_, change)| change));
        let end = model(records.len());
        let quiet: Vec<usize> = (0..records.len().min(20)).filter(|&count| model(count).loans == end.loans).collect();
        let any = self.random.below(records.len() + 1);
        match quiet.is_empty() || self.random.percent(60) {
            true => any,
            false => self.random.pick(&quiet),
        }
    }

    /// What is offered of a log: all of it or up to a record, with some records twice, with one that stops, or torn off.
    fn offer(&mut self, records: &[(Vec<u8>, Change)], fills: bool) -> Offer {
        let all = records.iter().map(|(bytes, change)| (bytes.clone(), Effect::Applied(change.clone())));
        let mut offer = Offer { records: all.collect(), torn: None };
        let upto = self.some(records);
        match self.random.below(11) {
            0..=3 => (),
            4..=5 => offer.records.truncate(upto),
            6 => {
                let again = records[..upto].iter().map(|(bytes, _)| (bytes.clone(), Effect::Skipped));
                let behind = upto + self.random.below(records.len() - upto + 1);
                offer.records.splice(behind..behind, again.collect::<Vec<_>>());
            }
            7..=8 if fills => {
                let code = codes::unit(&mut self.random);
                let issue = Change::new(&mut self.random, true, &code);
                let number = offer.model().change(&issue).expect_err("256 are out");
                offer.records.push((issue.bytes(PLACES as u32 + 1), Effect::Stop(number)));
            }
            7..=8 => {
                let stop = self.stop(&records[..upto]);
                offer.records.insert(upto, stop);
            }
            _ => offer.torn = Some(self.random.below(offer.bytes().len() + 1)),
        }
        offer
    }

    /// A fault that makes an area no register.
    fn spoil(&mut self, area: &mut Vec<u8>) {
        match self.random.below(3) {
            0 => area.truncate(self.random.below(LENGTH)),
            1 => area.push(0),
            _ => area[COUNTS + ZERO] = 1 + self.random.below(255) as u8,
        }
    }

    /// One promotion: by the model, by a replay of the log, and on yes by the replica's bytes and by each code.
    fn promote(&mut self, way: Way, hall: &Hall, offer: &Offer) -> Result<(), String> {
        let (mut replica, log) = (hall.area.clone(), offer.bytes());
        let is_register = !self.random.percent(8);
        if !is_register {
            self.spoil(&mut replica);
        }
        let (less, more) = (self.random.below(LENGTH), LENGTH + self.random.below(100));
        let work = match self.random.below(10) {
            0 => self.random.pick(&[0, LENGTH - 1, less]),
            1..=2 => self.random.pick(&[LENGTH + 1, more]),
            _ => LENGTH,
        };
        let due = Due::of(is_register, &hall.model, offer, work);
        let on_empty = Request { first: log.clone(), second: vec![0; LENGTH], ..Request::new(Call::Replay) };
        let left = self.answer(&on_empty)?.written;
        let written = if keeps_work(due.number) { Vec::new() } else { left };
        let request = Request { first: log, second: replica, area: work, ..Request::new(Call::Promote) };
        self.gives(&request, &due.response(written.clone()), "a promotion, not as the model has it")?;
        if due.number == 0 {
            if written != request.second {
                let again = self.library.again(&self.case);
                return Err(format!("\n  {request}\n  yes, but the replica is not what the log left\n  {again}"));
            }
            self.ask_all(&request.second, offer)?;
        }
        self.tell(way, hall, offer, &due);
        Ok(())
    }

    /// Asks a replica about each code: out where the last record about it that a replay applies is an issue.
    fn ask_all(&mut self, replica: &[u8], offer: &Offer) -> Result<(), String> {
        let (applied, codes) = (offer.replayed().0, self.codes.clone());
        for code in codes.iter().take(12) {
            let about = |change: &&&Change| matches!(change, Change::Issue(own, _) | Change::Return(own) if own == code);
            let (number, borrower) = match applied.iter().rev().find(about) {
                Some(Change::Issue(_, borrower)) => (0, *borrower),
                _ => (NOT_OUT, 0),
            };
            let first = texts::of_code(&mut self.random, code);
            let request = Request { first, second: replica.to_vec(), ..Request::new(Call::Ask) };
            let answer = self.answer(&request)?;
            if (answer.number, answer.values[0]) != (number, u64::from(borrower)) {
                let told = format!("yes, but its last record says number {number}, borrower {borrower}");
                return Err(format!("\n  {request}\n  {told}\n  {}", self.library.again(&self.case)));
            }
            match applied.iter().rev().find(about) {
                Some(Change::Issue(..)) => self.came.kind("asked: out by its last record"),
                Some(Change::Return(_)) => self.came.kind("asked: back by its last record"),
                None => (),
            }
        }
        Ok(())
    }

    /// Counts what came.
    fn tell(&mut self, way: Way, hall: &Hall, offer: &Offer, due: &Due) {
        self.came.number(due.number);
        let (logged, is_skipping) =
            (offer.model(), offer.records.iter().any(|(_, effect)| matches!(effect, Effect::Skipped)));
        let (lags, leads) = (hall.model.last < logged.last, hall.model.last > logged.last);
        let followed = matches!(way, Way::Followed(_));
        let kinds = [
            ("yes of one that followed", due.number == 0 && followed),
            ("yes of another history", due.number == 0 && way == Way::Another && logged.last > 1),
            ("yes with records skipped", due.number == 0 && is_skipping),
            ("lagging replica, 37", due.number == LOANS_DIFFER && followed && lags),
            ("lagging replica, 27", due.number == LAST_NUMBERS_DIFFER && followed && lags),
            ("lagging log, 37", due.number == LOANS_DIFFER && followed && leads),
            ("lagging log, 27", due.number == LAST_NUMBERS_DIFFER && followed && leads),
            ("own calls behind the log's, 37", due.number == LOANS_DIFFER && way == Way::OwnCalls),
            ("another history, 37", due.number == LOANS_DIFFER && way == Way::Own),
            ("another borrower, 37", due.number == LOANS_DIFFER && way == Way::Borrower),
            ("a pair more or less, 27", due.number == LAST_NUMBERS_DIFFER && way == Way::Pair),
            ("a stop, the replica as the log left it", (20..=25).contains(&due.number) && hall.model == logged),
            ("a tear, the replica as the log left it", due.number == LOG_TORN && hall.model == logged),
        ];
        kinds.into_iter().filter(|kind| kind.1 && due.number != NOT_REGISTER).for_each(|kind| self.came.kind(kind.0));
    }

    /// All of a case.
    fn all(&mut self) -> Result<(), String> {
        let fills = fills(self.case.number);
        let (counter, records) = self.counter(fills)?;
        for _ in 0..PROMOTIONS {
            let (some, whole) = (self.some(&records), records.len());
            let way = match self.random.below(10) {
                0..=2 => Way::Followed(whole),
                3..=4 => Way::Followed(some),
                5 => Way::OwnCalls,
                6 => Way::Another,
                7 => Way::Pair,
                8 => Way::Borrower,
                _ => Way::Own,
            };
            let offer = self.offer(&records, fills);
            // Where it ends early, the replica may have come just as far.
            let way = match (offer.replayed(), way) {
                ((applied, Some(_)), Way::Followed(_)) if self.random.percent(50) => Way::Followed(applied.len()),
                (_, way) => way,
            };
            let hall = self.replica(way, &counter, &records)?;
            self.promote(way, &hall, &offer)?;
        }
        Ok(())
    }
}

/// Runs the cases of a range; each that differs is told, with the command that runs it again.
pub fn check(tally: &mut Tally, library: &mut Library, seed: u64, range: Range<u64>) {
    let (mut came, mut differences) = (Came::default(), Vec::new());
    let cases = range.end - range.start;
    for number in range {
        let mut random = Random::of_case(seed, u64::MAX - 5, number);
        let count = if fills(number) { PLACES } else { random.pick(&[1, 2, 4, 8]) };
        let codes = codes::different(&mut random, count);
        let mut run = Run { library, case: Case { of: "pairs", number }, random, came: &mut came, codes };
        differences.extend(run.all().err().map(|difference| format!("\n case {number}:{difference}")));
        if differences.len() == MOST_DIFFERENCES {
            differences.push("\n and the others were not run".to_string());
            break;
        }
    }
    let few = came.few(cases);
    let run = format!("{cases} pairs of histories, {} calls", came.calls);
    let detail = match (differences.is_empty(), few.is_empty()) {
        (true, true) => format!("{run}, as the model has it; by number and kind {}", came.shown()),
        (true, false) => format!("{run}, which hardly reach {}", few.join(", ")),
        (false, _) => format!("{run}{}", differences.concat()),
    };
    tally.check("compare pairs", differences.is_empty() && few.is_empty(), detail);
}
