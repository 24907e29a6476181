//! The vectors' tables: a line as a request and the answer that is due.

use crate::call::{values, Call, Fields, Request, Response};
use crate::hex;
use std::str::FromStr;

/// The code of a text and the text of a code have no table of their own: they are held against those of other calls. The
/// calls on the register and the log stand in sequences.
pub fn exists(call: Call) -> bool {
    !matches!(call, Call::Code | Call::Text) && !call.in_sequences()
}

pub fn name(call: Call) -> String {
    format!("{}.tsv", call.name())
}

/// The names of all tables.
pub fn names() -> Vec<String> {
    Call::ALL.into_iter().filter(|&call| exists(call)).map(name).collect()
}

/// The lines of a table that are no comments, with their numbers in the file.
pub fn lines(table: &str) -> impl Iterator<Item = (u64, &str)> {
    (1..).zip(table.lines()).filter(|(_, line)| !line.starts_with('#'))
}

pub struct Line {
    pub request: Request,
    pub due: Response,
    /// The columns of the answer that the C interface has no value for, as they stand.
    more: Fields,
}

impl Line {
    /// Every column of the answer.
    pub fn due_fields(&self) -> Fields {
        [self.due.fields(self.request.call), self.more.clone()].concat()
    }

    /// The same columns of a response. `told` is 0 throughout, and a reader's body is what it used behind the header.
    pub fn fields_of(&self, response: &Response) -> Fields {
        let more =
            self.more.iter().map(|&(name, _)| (name, if name == "told" { "0".to_string() } else { self.body(response) }));
        response.fields(self.request.call).into_iter().chain(more).collect()
    }

    /// Every permitted header is two bytes.
    fn body(&self, response: &Response) -> String {
        let used = if response.number == 0 { response.values[4] as usize } else { 0 };
        let body = if used == 0 { Some(&[][..]) } else { self.request.first.get(2..used) };
        body.map_or("outside the bytes".to_string(), hex::encode)
    }
}

/// The columns of a line from the left. An error names the column.
pub(crate) struct Columns<'a>(std::str::Split<'a, char>);

impl<'a> Columns<'a> {
    pub(crate) fn of(line: &'a str) -> Columns<'a> {
        Columns(line.split('\t'))
    }

    /// No column may be left over.
    pub(crate) fn end(&mut self) -> Result<(), String> {
        match self.0.next() {
            Some(column) => Err(format!("a column too many: '{column}'")),
            None => Ok(()),
        }
    }

    fn next<T>(&mut self, name: &str, read: impl Fn(&'a str) -> Option<T>) -> Result<T, String> {
        let column = self.0.next().ok_or(format!("the column {name} is missing"))?;
        read(column).ok_or(format!("the column {name} cannot be read: '{column}'"))
    }

    pub(crate) fn bytes(&mut self, name: &str) -> Result<Vec<u8>, String> {
        self.next(name, hex::decode)
    }

    pub(crate) fn number<T: FromStr>(&mut self, name: &str) -> Result<T, String> {
        self.next(name, |column| column.parse().ok())
    }

    fn header(&mut self) -> Result<[u32; 4], String> {
        Ok([self.number("main_type")?, self.number("subtype")?, self.number("version")?, self.number("length")?])
    }

    /// Bits of a float in hex.
    fn bits(&mut self, name: &str) -> Result<u64, String> {
        self.next(name, |column| u64::from_str_radix(column, 16).ok())
    }

    pub(crate) fn as_it_stands(&mut self, name: &str) -> Result<String, String> {
        self.next(name, |column| Some(column.to_string()))
    }
}

/// A line of a call's table; an error tells what cannot be read.
pub fn parse(call: Call, line: &str) -> Result<Line, String> {
    let mut columns = Columns::of(line);
    let request = parse_request(call, &mut columns)?;
    let (due, more) = parse_response(call, &mut columns)?;
    columns.end()?;
    Ok(Line { request, due, more })
}

fn parse_request(call: Call, columns: &mut Columns) -> Result<Request, String> {
    let mut request = Request::new(call);
    if call.writes() {
        request.area = columns.number("area")?;
    }
    if matches!(call, Call::HeaderWrite | Call::UnitWrite) {
        request.header = columns.header()?;
    }
    let (first, second) = call.reads();
    for (name, bytes) in [(first, &mut request.first), (second, &mut request.second)] {
        if let Some(name) = name {
            *bytes = columns.bytes(name)?;
        }
    }
    Ok(request)
}

fn parse_response(call: Call, columns: &mut Columns) -> Result<(Response, Fields), String> {
    let mut response = Response::refused(columns.number("number")?);
    let mut more = Vec::new();
    match call {
        Call::Strict => more.push(("told", columns.as_it_stands("told")?)),
        Call::Distance => response.values = values([columns.number("d")?, columns.number("n")?, columns.bits("ratio")?]),
        Call::HeaderRead | Call::UnitRead => {
            let [main_type, subtype, version, length] = columns.header()?.map(u64::from);
            response.values = values([main_type, subtype, version, length, columns.number("used")?]);
        }
        _ => response.values[0] = columns.number("length")?,
    }
    if matches!(call, Call::Intake | Call::Base32Read | Call::Join) {
        more.push(("told", columns.as_it_stands("told")?));
    }
    if call.writes() {
        response.written = columns.bytes("written")?;
    }
    if call == Call::UnitRead {
        more.push(("body", columns.as_it_stands("body")?));
    }
    Ok((response, more))
}
