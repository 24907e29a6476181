//! The drill that once failed: nine issues typed as unit lists in small letters, with hyphens between the units and the units
//! in any order, and logged; the standby's clerk types the same nine as composites. The replica may be promoted then. With some
//! of the nine still missing it may not, and the least of these is told; with the log torn off inside the ninth record, the
//! offset where that one starts.

use crate::random::Random;
use crate::records::Change;
use crate::{areas, codes, texts, MOST_DIFFERENCES};
use harness::call::{Call, Request, Response};
use harness::library::{Case, Library};
use harness::tally::Tally;
use reference::doors::LONGEST_CODE;
use reference::refusal::{LOANS_DIFFER, LOG_TORN};
use reference::register::LENGTH;
use std::ops::Range;

/// How many drills there are for so many cases in all. Each has many calls, so under memcheck there are fewer.
pub fn count(cases: usize, memcheck: bool) -> u64 {
    cases.div_ceil(if memcheck { 10_000 } else { 5000 }) as u64
}

const NINE: usize = 9;

/// The issue of a composite.
struct Issue {
    code: Vec<u8>,
    borrower: u32,
}

/// The counter's log and its register behind each record, the empty one first.
struct Counter {
    log: Vec<u8>,
    starts: Vec<usize>,
    registers: Vec<Vec<u8>>,
}

impl Counter {
    fn register(&self) -> &[u8] {
        self.registers.last().expect("the empty register")
    }
}

/// How often each was seen to hold.
#[derive(Default)]
struct Held {
    all_there: usize,
    another_order: usize,
    all_missing: usize,
    some_missing: usize,
    torn: usize,
    cut_before_the_ninth: usize,
}

struct Drill<'a> {
    library: &'a mut Library,
    case: Case<'a>,
    random: Random,
    held: &'a mut Held,
}

impl Drill<'_> {
    /// What the library writes or leaves, where it does not refuse.
    fn done(&mut self, request: &Request) -> Result<Response, String> {
        let answer = self.library.answer(&self.case, request, &crate::setting(&mut self.random));
        if answer.fault.is_none() && answer.response.number == 0 {
            return Ok(answer.response);
        }
        let told = format!("number {}, {}", answer.response.number, answer.fault.unwrap_or_default());
        Err(format!("\n  {request}\n  {told}\n  {}", self.library.again(&self.case)))
    }

    /// A live issue of a typed text: the register after it, and the record number.
    fn issue(&mut self, text: Vec<u8>, borrower: u32, area: &[u8]) -> Result<(Vec<u8>, u32), String> {
        let request = Request { first: text, second: area.to_vec(), borrower, ..Request::new(Call::Issue) };
        let answer = self.done(&request)?;
        Ok((answer.written, answer.values[0] as u32))
    }

    /// The counter issues a typed text and logs the code that it means.
    fn issue_and_log(&mut self, counter: &mut Counter, text: Vec<u8>, borrower: u32) -> Result<Vec<u8>, String> {
        let (area, record_number) = self.issue(text.clone(), borrower, counter.register())?;
        let code = self.done(&Request { first: text, area: LONGEST_CODE, ..Request::new(Call::Code) })?.written;
        let position = counter.log.len();
        let second = [&counter.log[..], &self.random.bytes(60)].concat();
        let request =
            Request { first: code.clone(), second, borrower, record_number, position, ..Request::new(Call::LogIssue) };
        let mut answer = self.done(&request)?;
        answer.written.truncate(position + answer.values[0] as usize);
        counter.starts.push(position);
        counter.log = answer.written;
        counter.registers.push(area);
        Ok(code)
    }

    /// The register with these issues behind it, each typed as a composite.
    fn typed_as_composites(&mut self, before: &[u8], issues: &[&Issue]) -> Result<Vec<u8>, String> {
        let mut area = before.to_vec();
        for issue in issues {
            let text = texts::as_composite(&mut self.random, &issue.code);
            area = self.issue(text, issue.borrower, &area)?.0;
        }
        Ok(area)
    }

    /// A promotion has to tell this, and to leave this register in the work area.
    fn tells(&mut self, log: &[u8], replica: &[u8], due: (u32, usize, &[u8]), left: &[u8]) -> Result<(), String> {
        let area = LENGTH + self.random.pick(&[0, 0, 0, 1, 50]);
        let request = Request { first: log.to_vec(), second: replica.to_vec(), area, ..Request::new(Call::Promote) };
        let (number, offset, told) = due;
        let mut code = told.to_vec();
        code.resize(LONGEST_CODE, 0);
        let due = Response::judged(number, offset, told.len(), code, left.to_vec());
        match self.library.differs(&self.case, &request, &due, &crate::setting_for(&mut self.random, &request)) {
            None => Ok(()),
            Some(difference) => Err(difference.to_string()),
        }
    }

    /// Nine composites, and borrowers for them.
    fn nine(&mut self) -> Vec<Issue> {
        let codes = codes::different_composites(&mut self.random, NINE);
        codes.into_iter().map(|code| Issue { code, borrower: areas::borrower(&mut self.random) }).collect()
    }

    fn all(&mut self) -> Result<(), String> {
        let mut counter = Counter { log: Vec::new(), starts: Vec::new(), registers: vec![vec![0; LENGTH]] };
        let nine = self.nine();
        // What both halls had before the drill.
        let before = self.random.below(4);
        for code in codes::different(&mut self.random, before) {
            if nine.iter().all(|issue| issue.code != code) {
                let (text, borrower) = (texts::of_code(&mut self.random, &code), areas::borrower(&mut self.random));
                self.issue_and_log(&mut counter, text, borrower)?;
            }
        }
        let early = counter.register().to_vec();
        for issue in &nine {
            let text = texts::as_unit_list(&mut self.random, &issue.code);
            let code = self.issue_and_log(&mut counter, text, issue.borrower)?;
            if code != issue.code {
                return Err(format!("\n  another code was logged\n  {}", self.library.again(&self.case)));
            }
        }
        let due_records = Change::Issue(nine[8].code.clone(), nine[8].borrower).bytes(counter.starts.len() as u32);
        let ninth = *counter.starts.last().expect("nine records");
        if counter.log[ninth..] != due_records {
            return Err(format!("\n  another ninth record was logged\n  {}", self.library.again(&self.case)));
        }
        self.promotions(&nine, &early, &counter, ninth)
    }

    fn promotions(&mut self, nine: &[Issue], early: &[u8], counter: &Counter, ninth: usize) -> Result<(), String> {
        let (log, left) = (&counter.log, counter.register());
        let least = |issues: &[&Issue]| issues.iter().map(|issue| issue.code.clone()).min().expect("some are missing");
        let mut issues: Vec<&Issue> = nine.iter().collect();
        let there = self.typed_as_composites(early, &issues)?;
        self.tells(log, &there, (0, 0, &[]), left)?;
        self.held.all_there += 1;

        self.tells(log, early, (LOANS_DIFFER, 0, &least(&issues)), left)?;
        self.held.all_missing += 1;

        let before_ninth = &counter.registers[counter.registers.len() - 2];
        for cut in ninth + 1..log.len() {
            for replica in [&there, early, before_ninth] {
                self.tells(&log[..cut], replica, (LOG_TORN, ninth, &[]), before_ninth)?;
                self.held.torn += 1;
            }
        }

        self.tells(&log[..ninth], &there, (LOANS_DIFFER, 0, &nine[8].code), before_ninth)?;
        self.tells(&log[..ninth], before_ninth, (0, 0, &[]), before_ninth)?;
        self.held.cut_before_the_ninth += 1;

        self.random.shuffle(&mut issues);
        let there = self.typed_as_composites(early, &issues)?;
        self.tells(log, &there, (0, 0, &[]), left)?;
        self.held.another_order += 1;

        let (typed, missing) = issues.split_at(1 + self.random.below(NINE - 1));
        let partly = self.typed_as_composites(early, typed)?;
        self.tells(log, &partly, (LOANS_DIFFER, 0, &least(missing)), left)?;
        self.held.some_missing += 1;
        Ok(())
    }
}

impl Held {
    fn shown(&self) -> String {
        let Held { all_there, another_order, all_missing, some_missing, torn, cut_before_the_ninth } = self;
        let yes = format!("all nine there:{all_there} in another order:{another_order}");
        let missing = format!("all missing:{all_missing} some missing:{some_missing}");
        format!("{yes} {missing} torn:{torn} cut before the ninth:{cut_before_the_ninth}")
    }
}

/// Runs the drills of a range; each that differs is told, with the command that runs it again.
pub fn check(tally: &mut Tally, library: &mut Library, seed: u64, range: Range<u64>) {
    let (mut held, mut differences) = (Held::default(), Vec::new());
    let drills = range.end - range.start;
    for number in range {
        let random = Random::of_case(seed, u64::MAX - 6, number);
        let mut drill = Drill { library, case: Case { of: "drills", number }, random, held: &mut held };
        differences.extend(drill.all().err().map(|difference| format!("\n case {number}:{difference}")));
        if differences.len() == MOST_DIFFERENCES {
            differences.push("\n and the others were not run".to_string());
            break;
        }
    }
    let detail = match differences.is_empty() {
        true => format!("{drills} drills, each as is due: {}", held.shown()),
        false => format!("{drills} drills{}", differences.concat()),
    };
    tally.check("compare drills", differences.is_empty(), detail);
}
