//! The labels of the specification and the published examples of the reference library, through the linked libraries.

use harness::call::{Call, Request, Response};
use harness::fence::Side;
use harness::hex;
use harness::library::{Case, Library, Setting};
use harness::tally::Tally;
use harness::words::Words;
use std::process::ExitCode;

const USAGE: &str = "usage: run_labels [--only BLOCK LABEL]
  --only BLOCK LABEL  one label of one block, counted from 1";

/// Runs requests and says what did not answer as written beside it.
struct Labels {
    library: Library,
    /// The block under way, and how many of its labels were met.
    block: &'static str,
    met: u64,
    only: Option<u64>,
    faults: Vec<String>,
}

impl Labels {
    fn new(program: String, only: Option<u64>) -> Labels {
        let library = Library::fenced(1 << 16, format!("{program} --only"));
        Labels { library, block: "", met: 0, only, faults: Vec::new() }
    }

    fn expect(&mut self, request: Request, due: Response) {
        self.met += 1;
        if self.only.is_some_and(|only| only != self.met) {
            return;
        }
        let case = Case { of: self.block, number: self.met };
        let setting = Setting { side: Side::Right, null: true, filling: vec![0xee] };
        let difference = self.library.differs(&case, &request, &due, &setting);
        self.faults.extend(difference.map(|difference| difference.to_string()));
    }

    /// Intake on an area of just 73 bytes writes this text.
    fn written(&mut self, text: &str, due: &str) {
        let request = Request { first: text.into(), area: 73, ..Request::new(Call::Intake) };
        self.expect(request, Response::written(due.into()));
    }

    /// Both doors refuse with this number.
    fn refused(&mut self, text: &str, number: u32) {
        let request = Request { first: text.into(), area: 73, ..Request::new(Call::Intake) };
        self.expect(request, Response::refused(number));
        self.expect(Request { first: text.into(), ..Request::new(Call::Strict) }, Response::refused(number));
    }

    fn strict(&mut self, text: &str, number: u32) {
        self.expect(Request { first: text.into(), ..Request::new(Call::Strict) }, Response::refused(number));
    }

    /// The raw header writer gives the bytes, and the reader the numbers back.
    fn header(&mut self, header: [u32; 4], bytes: &str) {
        let bytes = hex::decode(bytes).expect("hex");
        let [main_type, subtype, version, length] = header.map(u64::from);
        let values = [main_type, subtype, version, length, bytes.len() as u64];
        let read = Request { first: bytes.clone(), ..Request::new(Call::HeaderRead) };
        self.expect(read, Response::told(0, values));
        self.expect(Request { header, area: 8, ..Request::new(Call::HeaderWrite) }, Response::written(bytes));
    }

    fn read(&mut self, call: Call, bytes: &str, number: u32) {
        let request = Request { first: hex::decode(bytes).expect("hex"), area: 80, ..Request::new(call) };
        self.expect(request, Response::refused(number));
    }

    /// The reader of one unit uses so many of the bytes.
    fn used(&mut self, bytes: &str, header: [u64; 4], used: u64) {
        let [main_type, subtype, version, length] = header;
        let request = Request { first: hex::decode(bytes).expect("hex"), ..Request::new(Call::UnitRead) };
        self.expect(request, Response::told(0, [main_type, subtype, version, length, used]));
    }

    /// Bytes into bytes, on an area of just their length; 15 on one that is a byte shorter.
    fn gives(&mut self, call: Call, bytes: &str, due: &str) {
        let [first, due] = [bytes, due].map(|text| hex::decode(text).expect("hex"));
        let request = Request { first, area: due.len(), ..Request::new(call) };
        self.expect(Request { area: due.len() - 1, ..request.clone() }, Response::refused(15));
        self.expect(request, Response::written(due));
    }
}

fn varnibbles(labels: &mut Labels) {
    // Subtype, version and length 0 follow as three zero nibbles, and a pad nibble where they are odd in number.
    let table =
        [(7, "7000"), (8, "800000"), (71, "bf0000"), (72, "c00000"), (583, "dff000"), (584, "e0000000"), (4679, "efff0000")];
    for (number, bytes) in table {
        labels.header([number, 0, 0, 0], bytes);
    }
    for place in 0..4 {
        let mut header = [0; 4];
        header[place] = 4680;
        labels.expect(Request { header, area: 8, ..Request::new(Call::HeaderWrite) }, Response::refused(17));
    }
}

fn headers(labels: &mut Labels) {
    labels.header([5, 5, 0, 0], "5500");
    labels.header([8, 0, 0, 0], "800000");
    labels.read(Call::HeaderRead, "800001", 7);
}

/// Header 57 00 and zeros behind it; and subtype 7 with any other length.
fn header_5700(labels: &mut Labels) {
    let with_zeros = |header: &str, count| format!("{header}{}", "00".repeat(count));
    let whole = with_zeros("5700", 32);
    labels.header([5, 7, 0, 0], "5700");
    labels.read(Call::UnitRead, "5700", 9);
    labels.read(Call::UnitRead, &with_zeros("5700", 31), 9);
    labels.used(&whole, [5, 7, 0, 0], 34);
    labels.used(&with_zeros("5700", 40), [5, 7, 0, 0], 34);
    labels.read(Call::Join, &whole, 10);
    labels.read(Call::Join, &with_zeros("5700", 31), 9);
    labels.gives(Call::Split, &whole, &[with_zeros("3003", 16), with_zeros("4003", 16)].concat());
    labels.read(Call::Split, &with_zeros("5700", 31), 9);
    labels.read(Call::Split, &with_zeros("5700", 33), 19);
    let write = |header| Request { header, second: vec![0; 32], area: 80, ..Request::new(Call::UnitWrite) };
    labels.expect(write([5, 7, 0, 0]), Response::refused(8));
    for length in 1..8 {
        let bytes = with_zeros(&format!("570{length}"), 40);
        for call in [Call::UnitRead, Call::Join, Call::Split, Call::Text] {
            labels.read(call, &bytes, 8);
        }
    }
}

/// A wide composite, its text, and its two units of 128 bits, which are no list that makes it.
fn wide(labels: &mut Labels) {
    let text = "ISCC:K4AAAAICAMCAKBQHBAEQUCYMBUHA6EARCIJRIFIWC4MBSGQ3DQOR4HY";
    let small = " iscc:k4aaaaicamcakbqhbaeq-ucymbuha6-earcijrifiwc4mbsgq3dqor4hy-\n";
    let bytes = "5700000102030405060708090a0b0c0d0e0f101112131415161718191a1b1c1d1e1f";
    let (data, instance) = ("3003000102030405060708090a0b0c0d0e0f", "4003101112131415161718191a1b1c1d1e1f");
    labels.written(text, text);
    labels.written(&text[5..], text);
    labels.written(small, text);
    labels.strict(text, 0);
    labels.strict(small, 16);
    for typed in [text, small] {
        let request = Request { first: typed.into(), area: 42, ..Request::new(Call::Code) };
        labels.expect(request, Response::written(hex::decode(bytes).expect("hex")));
    }
    let request = Request { first: hex::decode(bytes).expect("hex"), area: 73, ..Request::new(Call::Text) };
    labels.expect(request, Response::written(text.into()));
    labels.gives(Call::Split, bytes, &[data, instance].concat());
    labels.read(Call::Join, &[data, instance].concat(), 11);
    labels.read(Call::Join, &[instance, data].concat(), 11);
    labels.read(Call::Join, &[bytes, data].concat(), 10);
    labels.read(Call::Join, &[data, bytes].concat(), 10);
    // Both units in one run, the wide composite with the DATA unit of the line case before it, and its first 33 bytes.
    labels.refused("GABQAAICAMCAKBQHBAEQUCYMBUHA6QADCAIREEYUCULBOGAZDINRYHI6D4", 11);
    labels.refused("GAAW2PRCRS5LNVZV-K4AAAAICAMCAKBQHBAEQUCYMBUHA6EARCIJRIFIWC4MBSGQ3DQOR4HY", 10);
    labels.refused("K4AAAAICAMCAKBQHBAEQUCYMBUHA6EARCIJRIFIWC4MBSGQ3DQOR4", 9);
    let both = hex::decode(bytes).expect("hex");
    let request = Request { first: both.clone(), second: both, ..Request::new(Call::Distance) };
    labels.expect(request, Response::refused(18));
}

fn line_case(labels: &mut Labels) {
    labels.written("GAAW2PRCRS5LNVZV-IAAUVACQKXE3V44W", "ISCC:KUAG2PRCRS5LNVZVJKAFAVOJXLZZM");
    labels.written("IAAUVACQKXE3V44W-GAAW2PRCRS5LNVZV", "ISCC:KUAG2PRCRS5LNVZVJKAFAVOJXLZZM");
    labels.written("iscc:maagztfqttvizpjr", "ISCC:MAAGZTFQTTVIZPJR");
    labels.written("Iscc:Maagztfqttvizpjr", "ISCC:MAAGZTFQTTVIZPJR");
    labels.refused("", 1);
    labels.strict("ISCC:KUAG2PRCRS5LNVZVJKAFAVOJXLZZM", 0);
    labels.strict("GAAW2PRCRS5LNVZV-IAAUVACQKXE3V44W", 16);
}

fn one_unit(labels: &mut Labels) {
    labels.written("GAAW2PRCRS5LNVZV", "ISCC:GAAW2PRCRS5LNVZV");
    labels.refused("GAAW2PRCRS5LNVZVGAAW2PRCRS5LNVZV", 12);
    labels.refused("GAAW2PRCRS5LNVZV-MAAGZTFQTTVIZPJR", 10);
    labels.strict("ISCC:GAAW2PRCRS5LNVZV", 0);
    labels.strict("ISCC:gAAW2PRCRS5LNVZV", 16);
}

fn short_texts(labels: &mut Labels) {
    for (text, number) in [("ISCC", 6), ("AB", 6), ("A", 5), ("A1", 4), ("AA", 7), ("ISCC:", 1), ("-", 1), ("   ", 1)] {
        labels.refused(text, number);
    }
}

fn distance(labels: &mut Labels) {
    let request = |a: &str, b: &str| {
        let [first, second] = [a, b].map(|text| hex::decode(text).expect("hex"));
        Request { first, second, ..Request::new(Call::Distance) }
    };
    let due = Response::told(0, [9, 32, 0.28125_f32.to_bits() as u64]);
    labels.expect(request("300000000000", "3000ff000001"), due);
    labels.expect(request("300000000000", "400000000000"), Response::refused(18));
    labels.expect(request("300000000000", "30000000000000"), Response::refused(19));
}

/// The test vectors of RFC 4648, section 10, without their padding: both ways, either case, and an area one byte short.
fn rfc_4648(labels: &mut Labels) {
    let table = ["", "MY", "MZXQ", "MZXW6", "MZXW6YQ", "MZXW6YTB", "MZXW6YTBOI"];
    for (length, text) in table.into_iter().enumerate() {
        let bytes = &b"foobar"[..length];
        let request = |call, first: &[u8], area| Request { first: first.into(), area, ..Request::new(call) };
        for spelt in [text.to_string(), text.to_lowercase()] {
            labels.expect(request(Call::Base32Read, spelt.as_bytes(), length), Response::written(bytes.into()));
        }
        labels.expect(request(Call::Base32Write, bytes, text.len()), Response::written(text.into()));
        if length > 0 {
            labels.expect(request(Call::Base32Read, text.as_bytes(), length - 1), Response::refused(15));
            labels.expect(request(Call::Base32Write, bytes, text.len() - 1), Response::refused(15));
        }
    }
}

/// What the reference library's documents print, as the specification reads it.
fn published(labels: &mut Labels) {
    labels.written("MEACB7X7777574L6", "ISCC:MEACB7X7777574L6");
    labels.written("ISCC:MEACB7X7777574L6", "ISCC:MEACB7X7777574L6");
    labels.written("iscc:maagztfqttvizpjr", "ISCC:MAAGZTFQTTVIZPJR");
    labels.written("GAAW2PRCRS5LNVZV-IAAUVACQKXE3V44W", "ISCC:KUAG2PRCRS5LNVZVJKAFAVOJXLZZM");
    labels.strict("ISCC:MEACB7X7777574L6", 0);
    // Base16 behind the letter f: 0 and 1 are outside the alphabet.
    labels.refused("fcc010001657fe7cafe9791bb", 4);
}

const BLOCKS: [(&str, fn(&mut Labels)); 10] = [
    ("varnibbles", varnibbles),
    ("headers", headers),
    ("header_5700", header_5700),
    ("wide", wide),
    ("line_case", line_case),
    ("one_unit", one_unit),
    ("short_texts", short_texts),
    ("distance", distance),
    ("rfc_4648", rfc_4648),
    ("published", published),
];

/// The program as it was called, and the one label to run.
fn options() -> (String, Option<(String, u64)>) {
    let mut words = Words::new(USAGE);
    let mut only = None;
    while let Some(word) = words.next_word() {
        match word.as_str() {
            "--only" => only = Some((words.value(&word), words.number(&word))),
            _ => words.refuse(format!("no option is called '{word}'")),
        }
    }
    if let Some(why) = only.as_ref().and_then(fault) {
        words.refuse(why);
    }
    (words.program, only)
}

/// What is wrong with the one label.
fn fault((name, label): &(String, u64)) -> Option<String> {
    let Some((_, block)) = BLOCKS.iter().find(|(known, _)| known == name) else {
        return Some(format!("no block is called '{name}'; blocks: {}", BLOCKS.map(|(name, _)| name).join(" ")));
    };
    // Label 0 is none: all are counted and none is run.
    let mut labels = Labels::new(String::new(), Some(0));
    block(&mut labels);
    let count = labels.met;
    (!(1..=count).contains(label)).then(|| format!("'{name}' has no label {label}; it has {count}, counted from 1"))
}

fn main() -> ExitCode {
    let (program, only) = options();
    let mut labels = Labels::new(program, only.as_ref().map(|only| only.1));
    let mut tally = Tally::default();
    for (name, block) in BLOCKS {
        if only.as_ref().is_some_and(|(only, _)| only != name) {
            continue;
        }
        (labels.block, labels.met) = (name, 0);
        block(&mut labels);
        let faults = std::mem::take(&mut labels.faults);
        let detail = match (labels.met, faults.is_empty()) {
            (0, _) => "no label".to_string(),
            (_, true) => "as written".to_string(),
            (met, false) => format!("{} of {met} labels{}", faults.len(), faults.concat()),
        };
        tally.check(&format!("labels, {name}"), labels.met > 0 && faults.is_empty(), detail);
    }
    tally.finish()
}
