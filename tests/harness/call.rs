//! A public call with its arguments, and what it answers.

use crate::{area, hex};
use reference::refusal::{AREA_TOO_SHORT, NOT_REGISTER};
use std::fmt;

#[derive(Clone, Copy, Debug, PartialEq, Eq)]
pub enum Call {
    Intake,
    Strict,
    Code,
    Text,
    Distance,
    Base32Read,
    Base32Write,
    HeaderRead,
    HeaderWrite,
    UnitRead,
    UnitWrite,
    Join,
    Split,
    Issue,
    TakeBack,
    Ask,
    LogIssue,
    LogReturn,
    Replay,
    Counts,
    Promote,
}

impl Call {
    pub const ALL: [Call; 21] = [
        Call::Intake,
        Call::Strict,
        Call::Code,
        Call::Text,
        Call::Distance,
        Call::Base32Read,
        Call::Base32Write,
        Call::HeaderRead,
        Call::HeaderWrite,
        Call::UnitRead,
        Call::UnitWrite,
        Call::Join,
        Call::Split,
        Call::Issue,
        Call::TakeBack,
        Call::Ask,
        Call::LogIssue,
        Call::LogReturn,
        Call::Replay,
        Call::Counts,
        Call::Promote,
    ];

    /// The calls on the loans register with a typed text.
    pub const REGISTER: [Call; 3] = [Call::Issue, Call::TakeBack, Call::Ask];

    /// The calls on the pending issues log.
    pub const LOG: [Call; 3] = [Call::LogIssue, Call::LogReturn, Call::Replay];

    pub fn name(self) -> &'static str {
        match self {
            Call::Intake => "intake",
            Call::Strict => "strict",
            Call::Code => "code",
            Call::Text => "text",
            Call::Distance => "distance",
            Call::Base32Read => "base32_read",
            Call::Base32Write => "base32_write",
            Call::HeaderRead => "header_read",
            Call::HeaderWrite => "header_write",
            Call::UnitRead => "unit_read",
            Call::UnitWrite => "unit_write",
            Call::Join => "join",
            Call::Split => "split",
            Call::Issue => "issue",
            Call::TakeBack => "return",
            Call::Ask => "ask",
            Call::LogIssue => "log_issue",
            Call::LogReturn => "log_return",
            Call::Replay => "replay",
            Call::Counts => "counts",
            Call::Promote => "promote",
        }
    }

    /// What the call reads, by the names that the vectors' README has for it.
    pub fn reads(self) -> (Option<&'static str>, Option<&'static str>) {
        match self {
            Call::Intake | Call::Strict | Call::Code | Call::Base32Read => (Some("text"), None),
            Call::Text => (Some("code"), None),
            Call::Distance => (Some("a"), Some("b")),
            Call::HeaderWrite => (None, None),
            Call::UnitWrite => (None, Some("body")),
            Call::Base32Write | Call::HeaderRead | Call::UnitRead | Call::Join | Call::Split => (Some("bytes"), None),
            Call::Issue | Call::TakeBack | Call::Ask => (Some("text"), Some("area")),
            Call::LogIssue | Call::LogReturn => (Some("code"), Some("log")),
            Call::Replay => (Some("log"), Some("area")),
            Call::Counts => (None, Some("area")),
            Call::Promote => (Some("log"), Some("replica")),
        }
    }

    /// Whether the second thing that the call reads is a register.
    pub fn reads_register(self) -> bool {
        matches!(self.reads().1, Some("area" | "replica"))
    }

    /// Whether the call writes to the start of an output area.
    pub fn writes(self) -> bool {
        let reads_bytes = matches!(self, Call::Strict | Call::Distance | Call::HeaderRead | Call::UnitRead);
        let only_reads = reads_bytes || matches!(self, Call::Ask | Call::Counts);
        !only_reads && !self.changes() && !self.appends()
    }

    /// Whether the call changes an area that it also reads: the register.
    pub fn changes(self) -> bool {
        matches!(self, Call::Issue | Call::TakeBack | Call::Replay)
    }

    /// Whether the call writes a record to an area that holds others: the log.
    pub fn appends(self) -> bool {
        matches!(self, Call::LogIssue | Call::LogReturn)
    }

    /// Whether the call takes a borrower.
    pub fn lends(self) -> bool {
        matches!(self, Call::Issue | Call::LogIssue)
    }

    /// Whether the call leaves a register in its output area, with most refusals too: the work area.
    pub fn works(self) -> bool {
        self == Call::Promote
    }

    /// Whether the call belongs to the register or the log, whose vectors are sequences.
    pub fn in_sequences(self) -> bool {
        let others = [Call::Counts, Call::Promote];
        Call::REGISTER.contains(&self) || Call::LOG.contains(&self) || others.contains(&self)
    }

    /// Every number that the specification lets the call answer, success first.
    pub fn numbers(self) -> &'static [u32] {
        match self {
            Call::Intake => &[0, 1, 2, 3, 4, 5, 6, 7, 8, 9, 10, 11, 12, 13, 14, 15],
            Call::Strict => &[0, 1, 2, 3, 4, 5, 6, 7, 8, 9, 10, 11, 12, 13, 14, 16],
            Call::Code => &[0, 1, 2, 3, 4, 5, 6, 7, 8, 9, 10, 11, 12, 13, 14, 15],
            Call::Text => &[0, 7, 8, 9, 15, 19],
            Call::Distance => &[0, 7, 8, 9, 18, 19],
            Call::Base32Read => &[0, 4, 5, 6, 15],
            Call::Base32Write => &[0, 15],
            Call::HeaderRead => &[0, 7],
            Call::HeaderWrite => &[0, 15, 17],
            Call::UnitRead => &[0, 7, 8, 9],
            Call::UnitWrite => &[0, 8, 9, 15],
            Call::Join => &[0, 7, 8, 9, 10, 11, 12, 13, 14, 15],
            Call::Split => &[0, 7, 8, 9, 15, 19],
            Call::Issue => &[0, 1, 2, 3, 4, 5, 6, 7, 8, 9, 10, 11, 12, 13, 14, 20, 21, 23, 26],
            Call::TakeBack => &[0, 1, 2, 3, 4, 5, 6, 7, 8, 9, 10, 11, 12, 13, 14, 22, 23, 26],
            Call::Ask => &[0, 1, 2, 3, 4, 5, 6, 7, 8, 9, 10, 11, 12, 13, 14, 22, 23],
            Call::LogIssue | Call::LogReturn => &[0, 15, 24],
            Call::Replay => &[0, 20, 21, 22, 23, 24, 25],
            Call::Counts => &[0, 23],
            Call::Promote => &[0, 15, 20, 21, 22, 23, 24, 25, 27, 36, 37],
        }
    }
}

/// A call and its arguments; a call leaves those that it does not take empty.
#[derive(Clone, Debug, PartialEq, Eq)]
pub struct Request {
    pub call: Call,
    /// The text, the bytes or the log to read.
    pub first: Vec<u8>,
    /// The second unit of a distance, the body area of the unit writer, the register or the writer's log before the call, or
    /// the replica.
    pub second: Vec<u8>,
    /// Main type, subtype, version and length number of a writer.
    pub header: [u32; 4],
    /// To whom a code is issued.
    pub borrower: u32,
    /// The number that a record gets.
    pub record_number: u32,
    /// Where in the log a record is to be written.
    pub position: usize,
    /// The length of the output area or of the work area.
    pub area: usize,
}

impl Request {
    pub fn new(call: Call) -> Request {
        let (first, second) = (Vec::new(), Vec::new());
        Request { call, first, second, header: [0; 4], borrower: 0, record_number: 0, position: 0, area: 0 }
    }

    /// The second area where the call only reads it.
    pub fn only_read(&self) -> &[u8] {
        if self.call.changes() || self.call.appends() {
            &[]
        } else {
            &self.second
        }
    }
}

/// The arguments by name, as the vectors have them.
impl fmt::Display for Request {
    fn fmt(&self, f: &mut fmt::Formatter<'_>) -> fmt::Result {
        f.write_str(self.call.name())?;
        if self.call.writes() {
            write!(f, " {}={}", if self.call.works() { "work" } else { "area" }, self.area)?;
        }
        if matches!(self.call, Call::HeaderWrite | Call::UnitWrite) {
            let [main_type, subtype, version, length] = self.header;
            write!(f, " main_type={main_type} subtype={subtype} version={version} length={length}")?;
        }
        if self.call.appends() {
            write!(f, " position={} record_number={}", self.position, self.record_number)?;
        }
        if self.call.lends() {
            write!(f, " borrower={}", self.borrower)?;
        }
        let (first, second) = self.call.reads();
        for (name, bytes) in [(first, &self.first), (second, &self.second)] {
            match name {
                Some(name @ ("area" | "replica")) => write!(f, " {name}={}", area::shown(bytes))?,
                Some(name) => write!(f, " {name}={}", hex::shown(bytes))?,
                None => (),
            }
        }
        Ok(())
    }
}

/// The numbers of codes out by name: in all, then for main types 0 to 6.
pub const COUNTED: [&str; 8] = ["out", "meta", "semantic", "content", "data", "instance", "iscc", "id"];

/// Values by their names, in their order.
pub type Fields = Vec<(&'static str, String)>;

/// Numbers of an answer.
pub type Values = [u64; 8];

/// The values of a call that has fewer: the others are 0.
pub fn values<const OWN: usize>(own: [u64; OWN]) -> Values {
    let mut all = Values::default();
    all[..OWN].copy_from_slice(&own);
    all
}

/// Whether a promotion with this number leaves the work area as it was.
pub fn keeps_work(number: u32) -> bool {
    matches!(number, NOT_REGISTER | AREA_TOO_SHORT)
}

/// The number, the other numbers of the answer in the order of their C struct (a float by its bits), its code with all that it
/// is filled up with, and the written bytes: of a register or a log all its bytes, changed or not.
#[derive(Clone, Debug, Default, PartialEq, Eq)]
pub struct Response {
    pub number: u32,
    pub values: Values,
    pub code: Vec<u8>,
    pub written: Vec<u8>,
}

impl Response {
    pub fn refused(number: u32) -> Response {
        Response { number, ..Response::default() }
    }

    pub fn written(bytes: Vec<u8>) -> Response {
        Response { values: values([bytes.len() as u64]), written: bytes, ..Response::default() }
    }

    /// The answer of a call that only tells numbers.
    pub fn told<const OWN: usize>(number: u32, own: [u64; OWN]) -> Response {
        Response { number, values: values(own), ..Response::default() }
    }

    /// What a promotion tells, and the register that it leaves in the work area: none where the area keeps its bytes.
    pub fn judged(number: u32, offset: usize, code_length: usize, code: Vec<u8>, written: Vec<u8>) -> Response {
        Response { number, values: values([offset as u64, code_length as u64]), code, written }
    }

    /// The call's answer by name, as the vectors have it; the number comes first.
    pub fn fields(&self, call: Call) -> Fields {
        let names: &[&str] = match call {
            Call::Strict => &[],
            Call::Issue | Call::TakeBack => &["record_number"],
            Call::Ask => &["borrower", "looks"],
            Call::Replay => &["end", "offset"],
            Call::Promote => &["offset", "code_length"],
            Call::Counts => &COUNTED,
            Call::Distance => &["d", "n", "ratio"],
            Call::HeaderRead | Call::UnitRead => &["main_type", "subtype", "version", "length", "used"],
            _ => &["length"],
        };
        let mut fields = vec![("number", self.number.to_string())];
        for (&name, value) in names.iter().zip(self.values) {
            fields.push((name, if name == "ratio" { format!("{value:08x}") } else { value.to_string() }));
        }
        if call.works() {
            fields.extend([("code", hex::encode(&self.code)), ("work", area::hash(&self.written))]);
        } else if call.writes() {
            fields.push(("written", hex::shown(&self.written)));
        }
        if call.changes() {
            fields.push(("area", area::hash(&self.written)));
        }
        if call.appends() {
            fields.push(("log", area::hash(&self.written)));
        }
        fields
    }
}
