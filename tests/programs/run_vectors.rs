//! Runs every vector file through the linked libraries, and the line files through the line program.

mod sequences;

use harness::call::{Call, Request, Response};
use harness::fence::Side;
use harness::library::{Case, Library, Setting};
use harness::lines;
use harness::sequence;
use harness::table::{self, Line};
use harness::tally::Tally;
use harness::told::{self, Difference, Told};
use harness::words::Words;
use std::collections::HashSet;
use std::fs::{self, File};
use std::io::{self, Write};
use std::path::{Path, PathBuf};
use std::process::{Command, ExitCode, Output, Stdio};

const USAGE: &str = "usage: run_vectors FOLDER --lines PROGRAM [--partial] [--only TABLE LINE | --only FILE.in]
  FOLDER              the folder of the vectors
  --lines PROGRAM     the line program
  --partial           for trials: tables, lines of tables, sequences, line files or the line program may be missing
  --only TABLE LINE   one line of a table, or one call of register, log, replay or promote, counted from 1; wants no
                      line program
  --only FILE.in      one line file";

/// The longest area of the vectors is far below this.
const LONGEST: usize = 1 << 20;

/// What the vectors have at least, as their README says, so that none is lost unseen: different lines in each table, lines
/// there for each number that the call can give, and line files.
fn least_lines(call: Call) -> usize {
    match call {
        Call::Base32Read | Call::Base32Write | Call::HeaderRead | Call::HeaderWrite => 2000,
        Call::Intake | Call::Strict => 1230,
        _ => 1000,
    }
}

const LEAST_OF_A_NUMBER: usize = 50;
const LEAST_LINE_FILES: usize = 14;

/// The one thing to run.
enum Only {
    Line(String, u64),
    File(String),
}

struct Options {
    folder: PathBuf,
    lines: Option<String>,
    partial: bool,
    only: Option<Only>,
    /// The command that runs a part of this again, without the words that choose the part.
    again: String,
}

fn options() -> Options {
    let mut words = Words::new(USAGE);
    let (mut folder, mut lines, mut only, mut partial) = (None, None, None, false);
    while let Some(word) = words.next_word() {
        match word.as_str() {
            "--lines" => lines = Some(words.value(&word)),
            "--partial" => partial = true,
            "--only" => only = Some(only_one(&mut words)),
            _ if word.starts_with('-') => words.refuse(format!("no option is called '{word}'")),
            _ if folder.is_some() => words.refuse(format!("one folder is enough: '{word}'")),
            _ => folder = Some(PathBuf::from(word)),
        }
    }
    let Some(folder) = folder.filter(|folder| folder.is_dir()) else { words.refuse("FOLDER is missing or no folder") };
    let with_lines = lines.as_ref().map_or(String::new(), |program| format!(" --lines {program}"));
    let again = format!("{} {}{with_lines} --only", words.program, folder.display());
    let options = Options { folder, lines, partial, only, again };
    if let Some(why) = fault(&options) {
        words.refuse(why);
    }
    options
}

/// What stands behind `--only`; a table and the sequences may go without their ending.
fn only_one(words: &mut Words) -> Only {
    let name = words.value("--only");
    if name.ends_with(".in") {
        return Only::File(name);
    }
    let is_named = |file: &&str| *file == name || file.strip_suffix(".txt") == Some(&name);
    let file = match sequence::FILES.into_iter().find(is_named) {
        Some(file) => file.to_string(),
        None => format!("{}.tsv", name.strip_suffix(".tsv").unwrap_or(&name)),
    };
    Only::Line(file, words.number("--only"))
}

/// What is wrong with options that can be read.
fn fault(options: &Options) -> Option<String> {
    match &options.only {
        Some(Only::Line(name, line)) if sequence::FILES.contains(&name.as_str()) => {
            let has_call = read(options, name).is_ok_and(|text| sequences::has_call(&text, *line));
            (!has_call).then(|| format!("'{name}' is missing, or its line {line} is, or is no call"))
        }
        Some(Only::Line(name, _)) if !table::names().contains(name) => {
            Some(format!("no table is called '{name}'; tables: {}", all_names().join(" ")))
        }
        Some(Only::Line(name, line)) if !has_line(&options.folder.join(name), *line) => {
            Some(format!("'{name}' is missing, or its line {line} is, or is a comment"))
        }
        Some(Only::Line(..)) => None,
        Some(Only::File(name)) if options.lines.is_none() => Some(format!("--only {name} wants --lines PROGRAM")),
        Some(Only::File(name)) if !names(&options.folder, ".in").contains(name) => Some(format!("no line file '{name}'")),
        None if options.lines.is_none() && !options.partial => Some("it wants --lines PROGRAM, or --partial".to_string()),
        _ => None,
    }
}

/// The tables and the sequences.
fn all_names() -> Vec<String> {
    table::names().into_iter().chain(sequence::FILES.map(String::from)).collect()
}

/// Whether a table has this line, and no comment there.
fn has_line(path: &Path, line: u64) -> bool {
    fs::read_to_string(path).is_ok_and(|table| table::lines(&table).any(|(number, _)| number == line))
}

fn read(options: &Options, name: &str) -> Result<String, String> {
    fs::read_to_string(options.folder.join(name)).map_err(|error| error.to_string())
}

fn main() -> ExitCode {
    let options = options();
    let mut tally = Tally::default();
    if !options.partial && options.only.is_none() {
        sizes(&options, &mut tally);
    }
    if !matches!(options.only, Some(Only::File(_))) {
        call_files(&options, &mut tally);
    }
    if !matches!(options.only, Some(Only::Line(..))) {
        line_files(&options, &mut tally);
    }
    tally.finish()
}

/// Checks that the vectors are all there.
fn sizes(options: &Options, tally: &mut Tally) {
    let calls: Vec<Call> = Call::ALL.into_iter().filter(|&call| table::exists(call)).collect();
    let few: Vec<String> = calls.iter().flat_map(|&call| too_few(call, read(options, &table::name(call)))).collect();
    let lines: usize = calls.iter().map(|&call| least_lines(call)).sum();
    let due = format!("{lines} different lines in all, {LEAST_OF_A_NUMBER} for each number");
    let detail = format!("{} tables, at least {due}{}", calls.len(), few.concat());
    tally.check("tables are whole", few.is_empty(), detail);
    let few = sequence::FILES.map(|file| match read(options, file) {
        Ok(text) => sequences::too_few(file, &text).concat(),
        Err(error) => format!("\n {file}: {error}"),
    });
    let due = format!("{} files, at least {} lines for each number", few.len(), sequences::LEAST_OF_A_NUMBER);
    tally.check("sequences are whole", few.concat().is_empty(), format!("{due}{}", few.concat()));
    let files = names(&options.folder, ".in").len();
    tally.check("line files are all there", files >= LEAST_LINE_FILES, format!("{files}, at least {LEAST_LINE_FILES}"));
}

/// What a table has too few of.
fn too_few(call: Call, table: Result<String, String>) -> Vec<String> {
    let name = table::name(call);
    let table = match table {
        Ok(table) => table,
        Err(error) => return vec![format!("\n {name}: {error}")],
    };
    let lines: HashSet<&str> = table::lines(&table).map(|(_, line)| line).collect();
    let numbers: Vec<u32> = lines.iter().flat_map(|line| table::parse(call, line)).map(|line| line.due.number).collect();
    let mut few = Vec::new();
    if lines.len() < least_lines(call) {
        few.push(format!("\n {name}: {} different lines", lines.len()));
    }
    for due in call.numbers() {
        let count = numbers.iter().filter(|&number| number == due).count();
        if count < LEAST_OF_A_NUMBER {
            few.push(format!("\n {name}: number {due} in {count} lines"));
        }
    }
    few
}

/// One check for each call's file and for each other use of a file, one for each file of sequences, and one that no other
/// table or sequence stands in the folder unread.
fn call_files(options: &Options, tally: &mut Tally) {
    let mut library = Library::fenced(LONGEST, options.again.clone());
    let own = Call::ALL.into_iter().filter(|&call| table::exists(call)).map(|call| (call, "", answers as Check));
    let others: [(Call, &str, Check); 2] =
        [(Call::Intake, " through the code", through_code), (Call::UnitRead, " as one code", as_one_code)];
    for (call, use_of, check) in own.chain(others) {
        file(options, tally, &table::name(call), use_of, |table, only| run_table(table, call, only, &mut library, check));
    }
    for name in sequence::FILES {
        file(options, tally, name, "", |text, only| sequences::run(name, text, only, &mut library, &settings()));
    }
    let files = [names(&options.folder, ".tsv"), names(&options.folder, ".txt")].concat();
    let unread: Vec<String> = files.into_iter().filter(|name| !all_names().contains(name)).collect();
    if !unread.is_empty() {
        tally.check("tables", false, format!("no call reads {}", unread.join(" ")));
    }
}

/// One check: a file or one line of it, where the options do not leave it out.
fn file(
    options: &Options,
    tally: &mut Tally,
    name: &str,
    use_of: &str,
    run: impl FnOnce(&str, Option<u64>) -> Result<String, String>,
) {
    let only = match &options.only {
        Some(Only::Line(table, _)) if table != name => return,
        Some(Only::Line(_, line)) => Some(*line),
        _ => None,
    };
    if options.partial && !options.folder.join(name).exists() {
        println!("missing: {name}{use_of}");
        return;
    }
    report(tally, &format!("{name}{use_of}"), read(options, name).and_then(|text| run(&text, only)));
}

fn report(tally: &mut Tally, name: &str, found: Result<String, String>) {
    match found {
        Ok(detail) => tally.check(name, true, detail),
        Err(detail) => tally.check(name, false, detail),
    }
}

fn names(folder: &Path, ending: &str) -> Vec<String> {
    let entries = fs::read_dir(folder).expect("the vectors' folder");
    let mut names: Vec<String> = entries
        .map(|entry| entry.expect("an entry").file_name().to_string_lossy().into_owned())
        .filter(|name| name.ends_with(ending))
        .collect();
    names.sort();
    names
}

/// What a line of a table asks of the library under one setting; something where it differs.
type Check = fn(&mut Library, &Case, &Line, &Setting) -> Option<Difference>;

fn answers(library: &mut Library, case: &Case, line: &Line, setting: &Setting) -> Option<Difference> {
    let answer = library.answer(case, &line.request, setting);
    let fields = (line.due_fields(), line.fields_of(&answer.response));
    if answer.fault.is_none() && answer.response == line.due && fields.0 == fields.1 {
        return None;
    }
    Some(library.difference(case, &line.request, fields, answer.fault))
}

/// The code of a text refuses as intake does but for the area, and the text of the code is what intake writes.
fn through_code(library: &mut Library, case: &Case, line: &Line, setting: &Setting) -> Option<Difference> {
    let (request, due) = (&line.request, &line.due);
    let code = |area| Request { first: request.first.clone(), area, ..Request::new(Call::Code) };
    let too_short = library.differs(case, &code(41), &Response::refused(15), setting);
    if too_short.is_some() || due.number == 15 {
        return too_short;
    }
    if due.number != 0 {
        return library.differs(case, &code(42), due, setting);
    }
    let found = match library.written(case, &code(42), setting) {
        Ok(found) => found,
        Err(difference) => return Some(difference),
    };
    let text = |area| Request { first: found.clone(), area, ..Request::new(Call::Text) };
    let too_short = library.differs(case, &text(72), &Response::refused(15), setting);
    too_short.or_else(|| library.differs(case, &text(73), due, setting))
}

/// The text of bytes is refused as the reader of one unit says, and with 19 where it leaves bytes over; else it reads back.
fn as_one_code(library: &mut Library, case: &Case, line: &Line, setting: &Setting) -> Option<Difference> {
    let (request, due) = (&line.request, &line.due);
    let text = Request { first: request.first.clone(), area: 73, ..Request::new(Call::Text) };
    let left = due.number == 0 && due.values[4] < request.first.len() as u64;
    if due.number != 0 || left {
        return library.differs(case, &text, &Response::refused(if left { 19 } else { due.number }), setting);
    }
    let found = match library.written(case, &text, setting) {
        Ok(found) => found,
        Err(difference) => return Some(difference),
    };
    let code = Request { first: found, area: 42, ..Request::new(Call::Code) };
    library.differs(case, &code, &Response::written(request.first.clone()), setting)
}

/// Runs each line of a table, or only one, under every setting; tells how many lines, or all that differ.
fn run_table(table: &str, call: Call, only: Option<u64>, library: &mut Library, check: Check) -> Result<String, String> {
    let (settings, name) = (settings(), table::name(call));
    let mut lines = 0;
    let mut bad = Vec::new();
    for (number, line) in table::lines(table).filter(|(number, _)| only.unwrap_or(*number) == *number) {
        lines += 1;
        let case = Case { of: &name, number };
        let (whole, brief) = match table::parse(call, line) {
            Err(why) => (format!(" {why}\n  {}", library.again(&case)), why),
            Ok(line) => match settings.iter().find_map(|setting| check(library, &case, &line, setting)) {
                None => continue,
                Some(difference) => (difference.to_string(), difference.brief()),
            },
        };
        bad.push(Told { whole: format!("\n line {number}:{whole}"), brief: format!("\n line {number}: {brief}") });
    }
    match (lines, bad.len()) {
        (0, _) => Err("no line".to_string()),
        (_, 0) => Ok(format!("{lines} lines, each under {} settings", settings.len())),
        (_, count) => Err(format!("{count} of {lines} lines differ{}", told::list(&bad))),
    }
}

/// Three fillings, both sides, and empty areas as null or not.
fn settings() -> Vec<Setting> {
    let setting = |byte, side, null| Setting { side, null, filling: vec![byte] };
    vec![setting(0x00, Side::Left, true), setting(0x5a, Side::Right, false), setting(0xff, Side::Right, true)]
}

/// One check for each pair of line files. Without a program none is counted, and the output says so.
fn line_files(options: &Options, tally: &mut Tally) {
    let mut inputs = names(&options.folder, ".in");
    let Some(program) = &options.lines else {
        println!("missing: the line program; {} line files were not run", inputs.len());
        return;
    };
    if let Some(Only::File(only)) = &options.only {
        inputs.retain(|name| name == only);
    }
    for name in inputs {
        let found = match run_lines(program, &options.folder.join(&name)) {
            Ok(found) => found,
            Err(error) => Err(format!("{program}: {error}")),
        };
        report(tally, &name, found.map_err(|why| format!("{why}\n  run again: {} {name}", options.again)));
    }
}

/// Hands a file over as it is, then through a pipe in pieces of several lengths. Tells every line that differs, of the
/// first way that does.
fn run_lines(program: &str, input: &Path) -> io::Result<Result<String, String>> {
    let bytes = fs::read(input)?;
    let due = fs::read(input.with_extension("out"))?;
    let whole = Command::new(program).stdin(File::open(input)?).output()?;
    let mut outputs = vec![("a file".to_string(), whole)];
    for piece in [1, 7, 4096, bytes.len().max(1)] {
        if bytes.len() / piece <= 60_000 {
            outputs.push((format!("pieces of {piece}"), piped(program, &bytes, piece)?));
        }
    }
    for (way, Output { status, stdout, .. }) in &outputs {
        if !status.success() || *stdout != due {
            let bad = lines::differences(&bytes, &due, stdout);
            return Ok(Err(format!("by {way}: {status}, {} lines differ{}", bad.len(), told::list(&bad))));
        }
    }
    Ok(Ok(format!("{} bytes, handed over in {} ways", bytes.len(), outputs.len())))
}

fn piped(program: &str, input: &[u8], piece: usize) -> io::Result<Output> {
    let mut child = Command::new(program).stdin(Stdio::piped()).stdout(Stdio::piped()).spawn()?;
    let mut stdin = child.stdin.take().expect("a pipe");
    let bytes = input.to_vec();
    // A program that stops reading breaks the pipe: its output then tells.
    let writer = std::thread::spawn(move || bytes.chunks(piece).try_for_each(|part| stdin.write_all(part)));
    let output = child.wait_with_output();
    let _ = writer.join();
    output
}
