//! The rows of the tables: a call, and what it is measured on.

use crate::logs::{self, Kind};
use crate::registers::{self, Codes, Register, Wanted, PLACES};
use crate::{inputs, APPENDED, RECORDS};
use std::fmt::{Display, Formatter, Result};

#[derive(Clone, Copy)]
pub enum Call {
    Intake,
    Strict,
    Code,
    Text,
    Base32Read,
    Base32Write,
    Join,
    Split,
    /// To the first of the inputs.
    Distance,
    /// From the first of the inputs, bodies alone.
    Differing,
    Loan(Loan),
    /// How many codes are out; its inputs are empty.
    Counts,
    /// All records of a log, one by one.
    Append,
    Replay,
    /// A replay of records that are all applied already.
    Skip,
}

/// The calls on a register that take a text.
#[derive(Clone, Copy)]
pub enum Loan {
    Issue,
    Return,
    Ask,
}

pub struct Row {
    pub call: Call,
    /// The refusal that every input meets, or 0.
    pub number: u32,
    pub input: String,
    pub inputs: Vec<Vec<u8>>,
    /// One for each input, where the call is on a register.
    pub registers: Vec<Register>,
    /// How many records an input has, where it is a log; else 1. Times are divided by it.
    pub records: usize,
}

const KIB: usize = 1024;
/// Bits of a body.
const BITS: [usize; 8] = [32, 64, 96, 128, 160, 192, 224, 256];
/// Codes that are out.
const OUT: [usize; 5] = [0, 1, 16, 128, PLACES];
/// Codes that are out while a log is replayed, about so many.
const OUT_IN_REPLAY: [usize; 2] = [8, 200];
const GROWTH: [usize; 5] = [64, KIB, 16 * KIB, 256 * KIB, KIB * KIB];

impl Call {
    pub fn name(self) -> &'static str {
        match self {
            Call::Intake => "intake",
            Call::Strict => "strict",
            Call::Code => "code of a text",
            Call::Text => "text of a code",
            Call::Base32Read => "base32 reader",
            Call::Base32Write => "base32 writer",
            Call::Join => "join",
            Call::Split => "split",
            Call::Distance => "distance",
            Call::Differing => "differing bits",
            Call::Loan(Loan::Issue) => "issue",
            Call::Loan(Loan::Return) => "return",
            Call::Loan(Loan::Ask) => "ask",
            Call::Counts => "counts",
            Call::Append => "append",
            Call::Replay | Call::Skip => "replay",
        }
    }
}

impl Row {
    /// Bytes enough for whatever a call writes.
    pub fn area(&self) -> Vec<u8> {
        vec![0x5a; 2 * self.inputs[0].len() + 80]
    }
}

impl Display for Row {
    fn fmt(&self, text: &mut Formatter) -> Result {
        write!(text, "{}, {}", self.call.name(), self.input)
    }
}

fn row(call: Call, input: impl Into<String>, inputs: Vec<Vec<u8>>) -> Row {
    Row { call, number: 0, input: input.into(), inputs, registers: Vec::new(), records: 1 }
}

/// A row whose inputs are refused; the number stands behind their name, in brackets.
fn refused(number: u32, call: Call, input: impl Display, inputs: Vec<Vec<u8>>) -> Row {
    Row { number, ..row(call, format!("{input} ({number})"), inputs) }
}

fn size(bytes: usize) -> String {
    match bytes {
        0..KIB => format!("{bytes} B"),
        _ if bytes < KIB * KIB => format!("{} KiB", bytes / KIB),
        _ => format!("{} MiB", bytes / KIB / KIB),
    }
}

pub fn doors() -> Vec<Row> {
    vec![
        row(Call::Intake, "68 characters as written", inputs::written()),
        row(Call::Intake, "68 characters, small, with hyphens", inputs::typed()),
        row(Call::Intake, "five units, 80 characters", inputs::listed()),
        row(Call::Strict, "68 characters as written", inputs::written()),
        row(Call::Code, "68 characters as written", inputs::written()),
        row(Call::Code, "68 characters, small, with hyphens", inputs::typed()),
        row(Call::Code, "five units, 80 characters", inputs::listed()),
        row(Call::Text, "42 bytes", inputs::codes()),
    ]
}

pub fn refusals() -> Vec<Row> {
    let mut rows = Vec::new();
    for call in [Call::Intake, Call::Strict] {
        rows.push(refused(4, call, "68 characters, the first is 1", inputs::outside_first()));
        rows.push(refused(4, call, "68 characters, the last is 1", inputs::outside_last()));
        rows.push(refused(5, call, "67 characters", inputs::one_missing()));
        rows.push(refused(7, call, "68 characters, the first is 7", inputs::no_header()));
        rows.push(refused(12, call, "five units, DATA twice", inputs::data_twice()));
    }
    rows.push(refused(16, Call::Strict, "68 characters, small, with hyphens", inputs::typed()));
    rows
}

pub fn units() -> Vec<Row> {
    let mut rows = vec![
        row(Call::Join, "two units", inputs::units(2)),
        row(Call::Join, "five units", inputs::units(5)),
        row(Call::Split, "five units", inputs::codes()),
    ];
    for bits in BITS {
        rows.push(row(Call::Distance, format!("{bits} bits"), inputs::data_units(bits)));
    }
    rows
}

pub fn leaf() -> Vec<Row> {
    BITS.map(|bits| row(Call::Differing, format!("{bits} bits"), inputs::bytes(bits / 8))).into()
}

/// The inputs of a call are alike but for their length.
pub fn growth() -> Vec<Row> {
    let mut rows = Vec::new();
    for length in [64, 256, KIB] {
        let input = format!("{}, hyphens at the end", size(length));
        rows.push(row(Call::Intake, &input, inputs::stretched(length)));
        rows.push(refused(16, Call::Strict, &input, inputs::stretched(length)));
    }
    for call in [Call::Intake, Call::Strict] {
        rows.push(refused(2, call, "1 MiB of hyphens", vec![vec![b'-'; KIB * KIB]]));
    }
    for length in GROWTH {
        rows.push(row(Call::Base32Read, format!("the text of {}", size(length)), inputs::runs(length)));
    }
    for length in GROWTH {
        rows.push(row(Call::Base32Write, size(length), inputs::bytes(length)));
    }
    for length in GROWTH {
        let count = length / inputs::UNIT;
        rows.push(refused(12, Call::Join, format!("{count} DATA units"), inputs::long_list(count)));
    }
    rows
}

/// With so many codes out another is issued, or one of them returned or asked for; or it is refused, where that cannot be.
fn loan(call: Loan, codes: Codes, out: usize, input: impl Display) -> Row {
    let (number, wanted) = match call {
        Loan::Issue if out == PLACES => (21, Wanted::NotOut),
        Loan::Issue => (0, Wanted::NotOut),
        Loan::Return | Loan::Ask if out == 0 => (22, Wanted::NotOut),
        Loan::Return | Loan::Ask => (0, Wanted::Out),
    };
    let (texts, registers) = registers::made(codes, out, wanted);
    let row = match number {
        0 => row(Call::Loan(call), input.to_string(), texts),
        _ => refused(number, Call::Loan(call), input, texts),
    };
    Row { registers, ..row }
}

fn counts(codes: Codes, out: usize, input: impl Into<String>) -> Row {
    let (texts, registers) = registers::made(codes, out, Wanted::NotOut);
    Row { registers, ..row(Call::Counts, input, vec![Vec::new(); texts.len()]) }
}

pub fn register() -> Vec<Row> {
    let mut rows = Vec::new();
    for call in [Loan::Issue, Loan::Return, Loan::Ask] {
        for out in OUT {
            rows.push(loan(call, Codes::Random, out, format!("{out} out")));
        }
        rows.push(loan(call, Codes::Alike, PLACES, format!("{PLACES} out, alike but for four bytes")));
    }
    for out in OUT {
        rows.push(counts(Codes::Random, out, format!("{out} out")));
    }
    rows.push(counts(Codes::Mixed, PLACES, format!("{PLACES} out, of several main types")));
    rows
}

fn grouped(count: usize, name: &str) -> String {
    match (count / 1000, count % 1000) {
        (0, 1) => format!("1 {name}"),
        (0, rest) => format!("{rest} {name}s"),
        (thousands, rest) => format!("{thousands},{rest:03} {name}s"),
    }
}

pub fn log() -> Vec<Row> {
    let mut rows = Vec::new();
    for (name, kinds) in
        [("issue", &[Kind::Issue][..]), ("return", &[Kind::Return]), ("record", &[Kind::Issue, Kind::Return])]
    {
        let inputs = vec![logs::listed(APPENDED, kinds)];
        rows.push(Row { records: APPENDED, ..row(Call::Append, grouped(APPENDED, name), inputs) });
    }
    for out in OUT_IN_REPLAY {
        for records in RECORDS {
            let (inputs, registers) = logs::made(records, out);
            let input = format!("{}, about {out} out", grouped(records, "record"));
            rows.push(Row { registers, records, ..row(Call::Replay, input, inputs) });
        }
    }
    // Of the longest logs alone: the test for 23 weighs least in them.
    let records = RECORDS[RECORDS.len() - 1];
    for out in OUT_IN_REPLAY {
        let (inputs, registers) = logs::applied(records, out);
        let input = format!("{} applied already, about {out} out", grouped(records, "record"));
        rows.push(Row { registers, records, ..row(Call::Skip, input, inputs) });
    }
    rows
}

pub fn all() -> Vec<Row> {
    [doors(), refusals(), units(), leaf(), register(), log(), growth()].into_iter().flatten().collect()
}
