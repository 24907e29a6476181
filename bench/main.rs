//! The proved libraries beside plain Rust of the same behaviour, as tables of ratios.

mod agree;
mod entry;
mod inputs;
mod leaf;
mod library;
mod lines;
mod logs;
mod measure;
#[allow(dead_code)]
#[path = "../tests/compare/random.rs"]
mod random;
mod registers;
mod rows;
mod turns;

use logs::Record;
use measure::{side_by_side, Figures};
use registers::BORROWER;
use rows::{Call, Loan, Row};
use turns::over;

type Writer = fn(&[u8], &mut [u8]) -> (u32, usize);
type OnRegister<T> = fn(&[u8], &mut [u8]) -> T;

/// The records of the logs that are replayed. The time of a single one is nearly that of the test for 23.
const RECORDS: [usize; 4] = [1, 25_000, 50_000, 100_000];
/// The records that are appended.
const APPENDED: usize = 100_000;

/// The proved and the plain side of a replay.
const REPLAYS: [OnRegister<(u32, u32, usize)>; 2] = [library::replay, plain::replay];

/// The proved and the plain side of the counts, which have no other input than the register.
const COUNTS: [OnRegister<(u32, [u32; 8])>; 2] = [|_, area| library::counts(area), |_, area| plain::counts(area)];

/// The answer of a change in as many numbers as that of a question.
fn change((number, record_number): (u32, u32)) -> (u32, u32, u32) {
    (number, record_number, 0)
}

/// The proved and the plain side of a call on a register: its number, and the record number of a change, or of a question the
/// borrower and the looks.
fn sides(call: Loan) -> [OnRegister<(u32, u32, u32)>; 2] {
    match call {
        Loan::Issue => [
            |text, area| change(library::issue(text, BORROWER, area)),
            |text, area| change(plain::issue(text, BORROWER, area)),
        ],
        Loan::Return => {
            [|text, area| change(library::take_back(text, area)), |text, area| change(plain::take_back(text, area))]
        }
        Loan::Ask => [|text, area| library::ask(text, area), |text, area| plain::ask(text, area)],
    }
}

fn writers(row: &Row, proved: Writer, plain: Writer) -> Figures {
    // One output area for each side, never cleared: each call writes over what the last one wrote.
    let (mut first, mut second) = (row.area(), row.area());
    side_by_side(
        |calls| over(&row.inputs, calls, |input| proved(input, &mut first)),
        |calls| over(&row.inputs, calls, |input| plain(input, &mut second)),
    )
}

fn strict(row: &Row) -> Figures {
    side_by_side(|calls| over(&row.inputs, calls, library::strict), |calls| over(&row.inputs, calls, plain::strict))
}

fn distance(row: &Row) -> Figures {
    let other = &row.inputs[0];
    side_by_side(
        |calls| over(&row.inputs, calls, |unit| library::distance(unit, other)),
        |calls| over(&row.inputs, calls, |unit| plain::distance(unit, other)),
    )
}

fn on_registers<T>(row: &Row, [proved, plain]: [OnRegister<T>; 2]) -> Figures {
    let (mut first, mut second) = (row.registers.clone(), row.registers.clone());
    side_by_side(
        |calls| registers::over(&row.inputs, &mut first, calls, proved),
        |calls| registers::over(&row.inputs, &mut second, calls, plain),
    )
}

fn plain_append(log: &mut [u8], position: usize, record: &Record) -> (u32, usize) {
    match record.borrower {
        Some(borrower) => plain::log_issue(log, position, record.number, record.code, borrower),
        None => plain::log_return(log, position, record.number, record.code),
    }
}

fn append(row: &Row) -> Figures {
    let records = logs::records(&row.inputs[0]);
    let (mut first, mut second) = (row.area(), row.area());
    side_by_side(
        |times| logs::over(&records, &mut first, times, library::append),
        |times| logs::over(&records, &mut second, times, plain_append),
    )
}

/// What one call reads, or what a record has, by the mean over the inputs.
fn bytes(row: &Row) -> f64 {
    let length = row.inputs.iter().map(Vec::len).sum::<usize>() as f64 / (row.inputs.len() * row.records) as f64;
    match row.call {
        Call::Distance => 2.0 * length,
        _ => length,
    }
}

/// None where the plain side has no such call, and of the leaf, which has a table of its own.
fn figures(row: &Row) -> Option<Figures> {
    Some(match row.call {
        Call::Intake => writers(row, library::intake, plain::intake),
        Call::Strict => strict(row),
        Call::Code => writers(row, library::code, plain::code),
        Call::Text => writers(row, library::text, plain::text),
        Call::Base32Read => writers(row, library::base32_read, plain::base32_read),
        Call::Base32Write => writers(row, library::base32_write, plain::base32_write),
        Call::Join => writers(row, library::join, plain::join),
        Call::Split | Call::Differing => return None,
        Call::Distance => distance(row),
        Call::Loan(call) => on_registers(row, sides(call)),
        Call::Counts => on_registers(row, COUNTS),
        Call::Append => append(row),
        Call::Replay | Call::Skip => on_registers(row, REPLAYS),
    })
}

fn header(names: &[&str]) {
    println!("| {} |", names.join(" | "));
    println!("{}|", "|---".repeat(names.len()));
}

const BY_CALL: [&str; 2] = ["proved, ns", "plain, ns"];
const BY_RECORD: [&str; 2] = ["proved, ns a record", "plain, ns a record"];

fn print(name: &str, rows: &[Row], times: [&str; 2], by_byte: bool) {
    println!("\n### {name}\n");
    let last: &[&str] = if by_byte { &["ns a byte"] } else { &[] };
    header(&[&["call", "input"], &times[..], &["proved / plain", "middle half"], last].concat());
    for row in rows {
        let Some(Figures { proved, plain, ratio }) = figures(row) else { continue };
        let [proved, plain] = [proved, plain].map(|time| time / row.records as f64);
        print!("| {} | {} | {proved:.1} | {plain:.1} | {ratio} |", row.call.name(), row.input);
        if by_byte {
            print!(" {:.3} |", proved / bytes(row));
        }
        println!();
    }
}

fn print_lines(program: &str, folder: &str) {
    let (whole, door, ratio) = lines::measure(program, folder);
    println!("\n### The line program\n");
    header(&["program", "input", "program, ns a line", "door alone, ns", "program / door", "middle half"]);
    println!("| intake_lines | a million lines of 73 characters | {whole:.1} | {door:.1} | {ratio} |");
}

/// `bench check` compares answers alone. `bench PROGRAM FOLDER` measures the leaf and the line program too; the input of the
/// latter goes to the folder.
fn main() {
    let words: Vec<String> = std::env::args().skip(1).collect();
    rows::all().iter().for_each(agree::check);
    agree::check_leaf();
    if words == ["check"] {
        return;
    }
    print("Codes and texts", &rows::doors(), BY_CALL, false);
    print("Refusals", &rows::refusals(), BY_CALL, false);
    print("Units", &rows::units(), BY_CALL, false);
    if words.len() == 2 {
        leaf::print();
    }
    print("The register", &rows::register(), BY_CALL, false);
    print("The log", &rows::log(), BY_RECORD, true);
    print("Growth", &rows::growth(), BY_CALL, true);
    if let [program, folder] = &words[..] {
        print_lines(program, folder);
    }
}
