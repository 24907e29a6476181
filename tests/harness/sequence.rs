//! The vectors' sequences: steps on one register, one log and one work area in their order, with the answers that are due.

use crate::call::{values, Call, Fields, Request, Response};
use crate::table::Columns;
use crate::{area, hex};
use reference::log::End;
use reference::refusal::{LAST_NUMBERS_DIFFER, LOANS_DIFFER, LOG_TORN};
use reference::register::LENGTH;

/// The files of the sequences.
pub const REGISTER: &str = "register.txt";
pub const LOG: &str = "log.txt";
pub const REPLAY: &str = "replay.txt";
pub const PROMOTE: &str = "promote.txt";
pub const FILES: [&str; 4] = [REGISTER, LOG, REPLAY, PROMOTE];

/// What a log's area holds before anything is written.
const UNWRITTEN: u8 = 0xee;

/// What a work area holds before a promotion.
const UNWORKED: u8 = 0x5a;

/// What the steps of a sequence work on.
#[derive(Clone, Default)]
pub struct Held {
    /// The register, which is the replica of a promotion.
    pub area: Vec<u8>,
    /// The register that a promotion left in the work area, the last call alone; none where the area kept its bytes.
    pub work: Option<Vec<u8>>,
    pub log: Vec<u8>,
    /// Where the writer goes on in the log.
    pub position: usize,
}

/// A line of a sequence.
pub enum Step {
    /// A sequence starts, under a name.
    Start,
    /// The area is a register of zeros.
    New,
    /// The area is cut, or filled up with zeros.
    Length(usize),
    /// No call: bytes of the area are overwritten from an offset on.
    Poke(usize, Vec<u8>),
    /// A log of so many bytes with nothing written.
    Log(usize),
    Call(Asked),
}

/// A call, but for what it works on, and every column of the answer that is due.
pub struct Asked {
    request: Request,
    pub due: Fields,
}

impl Asked {
    pub fn call(&self) -> Call {
        self.request.call
    }

    pub fn request(&self, held: &Held) -> Request {
        match self.call().appends() {
            true => Request { second: held.log.clone(), position: held.position, ..self.request.clone() },
            false => Request { second: held.area.clone(), ..self.request.clone() },
        }
    }

    /// What the call is for the count of the sequences' lines: its step, and the number that is due; or that a tear is.
    pub fn kind(&self) -> String {
        let step = if self.call().appends() { "append" } else { self.call().name() };
        let torn = self.due.iter().any(|field| field.0 == "outcome" && field.1 == TORN);
        format!("{step} {}", if torn { "torn" } else { &self.due[0].1 })
    }

    /// The length of a promotion's work area.
    pub fn work_length(&self) -> usize {
        self.request.area
    }

    /// The looks that are due to a question.
    pub fn looks(&self) -> Option<u32> {
        let looks = self.due.iter().find(|field| field.0 == "looks")?;
        looks.1.parse().ok()
    }

    /// The same columns of a response. The C interface has no value for `told`, which is 0 throughout.
    pub fn fields_of(&self, response: &Response) -> Fields {
        let mut fields = response.fields(self.call());
        if self.call() == Call::Replay {
            fields.extend([("outcome", outcome(response)), ("place", response.values[1].to_string())]);
        }
        if self.call() == Call::Promote {
            return vec![
                ("number", response.number.to_string()),
                ("place", response.values[0].to_string()),
                ("code", told_code(response)),
                ("work", self.work_hash(&response.written)),
            ];
        }
        fields.push(("told", "0".to_string()));
        let value = |name| fields.iter().find(|field| field.0 == name).expect("a column of the answer").1.clone();
        self.due.iter().map(|&(name, _)| (name, value(name))).collect()
    }

    /// The hash of the work area behind a promotion that wrote these bytes. The library's call is made on other fillings too,
    /// and every byte that is not written is seen to be as it was: for the hash it is what the vectors have there.
    fn work_hash(&self, written: &[u8]) -> String {
        let mut work = written.to_vec();
        work.resize(self.request.area.max(written.len()), UNWORKED);
        area::hash(&work)
    }

    /// What the question for the counts has to answer on the area that the call left: 23 where the call did, and else the
    /// numbers that stand there. Other refusals do not tell which it is, but for a promotion's.
    pub fn counts(&self, area: &[u8]) -> Option<Response> {
        match self.due[0].1.as_str() {
            _ if !self.call().reads_register() => None,
            "23" => Some(Response::refused(23)),
            "0" | "20" | "21" | "22" | "24" | "25" | "26" => Some(Response::told(0, area::numbers(area))),
            _ if self.call() == Call::Promote => Some(Response::told(0, area::numbers(area))),
            _ => None,
        }
    }

    /// What a replay of the promotion's log has to answer on an empty register: the promotion's own number, or the end or the
    /// tear that it tells; and to leave: what it left in the work area.
    pub fn replay(&self, held: &Held) -> Option<(Request, Response)> {
        let (first, written) = (self.request.first.clone(), held.work.clone()?);
        let request = Request { first, second: vec![0; LENGTH], ..Request::new(Call::Replay) };
        let (number, offset) = (self.due[0].1.parse().ok()?, self.due[1].1.parse().ok()?);
        let (number, end) = match number {
            0 | LAST_NUMBERS_DIFFER | LOANS_DIFFER => (0, End::Ran),
            LOG_TORN => (0, End::Torn),
            _ => (number, End::Stopped),
        };
        Some((request, Response { number, values: values([end as u64, offset]), written, ..Response::default() }))
    }

    /// What is wrong with the record number of a live issue or return, which the vectors do not tell: an accepted one takes the
    /// number behind the last one and keeps it in the area, a refused one tells 0 and changes no byte.
    pub fn number_fault(&self, before: &[u8], response: &Response) -> Option<String> {
        if !matches!(self.call(), Call::Issue | Call::TakeBack) {
            return None;
        }
        let told = response.values[0];
        if response.number != 0 {
            let kept = told == 0 && response.written == before;
            return (!kept).then(|| format!("a refusal tells record number {told}, or changes the area"));
        }
        let numbers = [before, &response.written].map(|area| area::last_number(area).map(u64::from));
        let taken = numbers == [told.checked_sub(1), Some(told)];
        (!taken).then(|| format!("record number {told}, but last numbers {numbers:?} before and after"))
    }

    /// Takes over the register, the log or the work area as the call has to leave it.
    pub fn take(&self, held: &mut Held, after: Vec<u8>) {
        held.work = None;
        if self.call().works() {
            held.work = Some(after).filter(|after| !after.is_empty());
        } else if self.call().changes() {
            held.area = after;
        } else if self.call().appends() {
            held.log = after;
            held.position += self.due[1].1.parse::<usize>().expect("a length that was read");
        }
    }
}

/// The vectors' columns for how a replay ends. They have the same for one that was not begun as for one to the log's end.
const TO_THE_END: &str = "0";
const TORN: &str = "1";
const STOPPED: &str = "2";

/// The end of a replay as the vectors have it; in words where it does not go with the number.
fn outcome(response: &Response) -> String {
    let (end, number) = (response.values[0], response.number);
    let is = |due: End| end == due as u64;
    match number {
        23 if is(End::NotBegun) => TO_THE_END.to_string(),
        0 if is(End::Ran) => TO_THE_END.to_string(),
        0 if is(End::Torn) => TORN.to_string(),
        20..=22 | 24..=25 if is(End::Stopped) => STOPPED.to_string(),
        _ => format!("(end {end} with number {number})"),
    }
}

/// The code of a promotion as the vectors have it; in words where its area is not filled up with zeros.
fn told_code(response: &Response) -> String {
    let length = response.values[1] as usize;
    match response.code.get(length..) {
        Some(fill) if fill.iter().all(|&byte| byte == 0) => hex::encode(&response.code[..length]),
        _ => format!("(length {length} in {})", hex::encode(&response.code)),
    }
}

/// What a step that is no call makes of what it works on; an error tells why it cannot.
pub fn prepared(step: &Step, held: &mut Held) -> Result<(), String> {
    match step {
        Step::Start => *held = Held::default(),
        Step::New => held.area = vec![0; LENGTH],
        Step::Length(length) => held.area.resize(*length, 0),
        Step::Poke(offset, bytes) => match held.area.get_mut(*offset..).and_then(|behind| behind.get_mut(..bytes.len())) {
            Some(old) => old.copy_from_slice(bytes),
            None => return Err("the bytes do not fit into the area".to_string()),
        },
        Step::Log(length) => (held.log, held.position) = (vec![UNWRITTEN; *length], 0),
        Step::Call(_) => (),
    }
    Ok(())
}

/// A line of a file; an error tells what cannot be read.
pub fn parse(line: &str) -> Result<Step, String> {
    let mut columns = Columns::of(line);
    let step = match columns.as_it_stands("step")?.as_str() {
        "session" => columns.as_it_stands("name").map(|_| Step::Start),
        "new" => Ok(Step::New),
        "length" => columns.number("length").map(Step::Length),
        "poke" => Ok(Step::Poke(columns.number("offset")?, columns.bytes("bytes")?)),
        "log" => columns.number("length").map(Step::Log),
        "issue" => on_register(Call::Issue, &mut columns),
        "return" => on_register(Call::TakeBack, &mut columns),
        "ask" => on_register(Call::Ask, &mut columns),
        "append" => append(&mut columns),
        "replay" => replay(&mut columns),
        "promote" => promote(&mut columns),
        word => Err(format!("no step is called '{word}'")),
    }?;
    columns.end()?;
    Ok(step)
}

fn on_register(call: Call, columns: &mut Columns) -> Result<Step, String> {
    let mut request = Request { first: columns.bytes("text")?, ..Request::new(call) };
    if call == Call::Issue {
        request.borrower = columns.number("borrower")?;
    }
    asked(request, columns, if call.changes() { &["told", "area"] } else { &["borrower", "looks", "told"] })
}

/// A return has no borrower: this column is for the others.
fn append(columns: &mut Columns) -> Result<Step, String> {
    let call = match columns.as_it_stands("kind")?.as_str() {
        "issue" => Call::LogIssue,
        "return" => Call::LogReturn,
        word => return Err(format!("no record is called '{word}'")),
    };
    let record_number = columns.number("record number")?;
    let borrower: u32 = columns.number("borrower")?;
    let mut request = Request { first: columns.bytes("code")?, record_number, ..Request::new(call) };
    if call.lends() {
        request.borrower = borrower;
    }
    asked(request, columns, &["length", "log"])
}

fn replay(columns: &mut Columns) -> Result<Step, String> {
    let request = Request { first: columns.bytes("log")?, ..Request::new(Call::Replay) };
    asked(request, columns, &["outcome", "place", "area"])
}

fn promote(columns: &mut Columns) -> Result<Step, String> {
    let (first, area) = (columns.bytes("log")?, columns.number("work length")?);
    asked(Request { first, area, ..Request::new(Call::Promote) }, columns, &["place", "code", "work"])
}

/// A call with the number and the other columns that are due.
fn asked(request: Request, columns: &mut Columns, others: &[&'static str]) -> Result<Step, String> {
    let mut due = vec![("number", columns.number::<u32>("number")?.to_string())];
    for &name in others {
        let value = match name {
            "length" => columns.number::<usize>(name)?.to_string(),
            _ => columns.as_it_stands(name)?,
        };
        due.push((name, value));
    }
    Ok(Step::Call(Asked { request, due }))
}
