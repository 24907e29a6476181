//! Both sides must answer alike, or their times say nothing: on every measured input, with the number that its row states; and
//! on what is near the first input of a row: its beginnings, and each change of one byte. Calls on a register must agree on
//! damaged ones too, on wrong counts, on codes near those that are out and where no record number is left, and change no more
//! than is put back behind a measured call. Logs are appended in areas of other lengths and at other positions too, and
//! replayed where they are torn, a record stops them, records are missing or all are applied already. The leaf and the loops in
//! C count alike on bodies of every length.

use crate::leaf;
use crate::logs::{self, Record};
use crate::registers::{count, last_number, used_places, Register, COUNTS, LAST, PLACE, PLACES};
use crate::rows::{Call, Loan, Row};
use crate::{inputs, library, plain_append, sides, OnRegister, Writer, REPLAYS};
use std::fmt::Debug;

/// Inputs up to this length have their neighbours tried too.
const SHORT: usize = 100;
/// Too short for every code and text of a row that is accepted.
const SHORT_AREA: usize = 9;
/// So many records of a log are appended by themselves too. Codes of each length are among them.
const RECORDS: usize = 64;
/// The leaf asks for no more bytes in a body.
const LONGEST: usize = 40;
/// How a replay ended.
const RAN: u32 = 1;
const TORN: u32 = 2;
const STOPPED: u32 = 3;

fn writing(calls: [Writer; 2], input: &[u8], area: usize) -> u32 {
    let [proved, plain] = calls.map(|call| {
        let mut area = vec![0x5a; area];
        (call(input, &mut area), area)
    });
    assert_eq!(proved, plain, "on {input:02x?}");
    proved.0 .0
}

/// The number that both sides answer, in an area that is long enough and in one that is not.
fn written(calls: [Writer; 2], row: &Row, input: &[u8]) -> u32 {
    writing(calls, input, SHORT_AREA);
    writing(calls, input, row.area().len())
}

fn measured(a: &[u8], b: &[u8]) -> u32 {
    let answer = library::distance(a, b);
    assert_eq!(answer, plain::distance(a, b), "on {a:02x?} and {b:02x?}");
    answer.0
}

/// What both sides answer to a text or a log, and the area that they leave.
fn called<T: Debug + PartialEq>(sides: [OnRegister<T>; 2], input: &[u8], area: &[u8]) -> (T, Vec<u8>) {
    let [proved, plain] = sides.map(|call| {
        let mut area = area.to_vec();
        (call(input, &mut area), area)
    });
    let start = &input[..input.len().min(SHORT)];
    assert_eq!(proved.0, plain.0, "on {start:02x?} and {area:02x?}");
    assert!(proved.1 == plain.1, "other areas are left, on {start:02x?} and {area:02x?}");
    proved
}

/// Both sides change nothing that is not put back behind a measured call.
fn check_put_back(call: Loan, text: &[u8], register: &Register) {
    let mut left = register.clone();
    left.area = called(sides(call), text, &register.area).1;
    left.put_back();
    assert!(left.area == register.area, "more is changed than is put back, on {text:02x?} and {:02x?}", register.area);
}

/// The number and the position that both sides answer where they append records to a log, and the log then.
fn appended(records: &[Record], position: usize, length: usize) -> ((u32, usize), Vec<u8>) {
    let [proved, plain] = [library::append, plain_append].map(|append| {
        let mut log = vec![0x5a; length];
        (logs::append(records, &mut log, position, append), log)
    });
    let code = records[0].code;
    assert_eq!(proved.0, plain.0, "at {position} of {length}, from {code:02x?} on");
    assert!(proved.1 == plain.1, "other logs are left, at {position} of {length}, from {code:02x?} on");
    proved
}

/// The number that both sides answer where they append the records of a log. What they write is this log.
fn written_again(log: &[u8]) -> u32 {
    let ((number, _), written) = appended(&logs::records(log), 0, log.len());
    assert!(written == log, "another log is written");
    number
}

/// The number that both sides answer, on the register of a case if the row has any. The plain side has no split and no leaf.
fn number(row: &Row, case: usize, input: &[u8]) -> u32 {
    match row.call {
        Call::Intake => written([library::intake, plain::intake], row, input),
        Call::Code => written([library::code, plain::code], row, input),
        Call::Text => written([library::text, plain::text], row, input),
        Call::Base32Read => written([library::base32_read, plain::base32_read], row, input),
        Call::Base32Write => written([library::base32_write, plain::base32_write], row, input),
        Call::Join => written([library::join, plain::join], row, input),
        Call::Split | Call::Differing => row.number,
        Call::Loan(call) => called(sides(call), input, &row.registers[case].area).0 .0,
        Call::Counts => called(crate::COUNTS, input, &row.registers[case].area).0 .0,
        Call::Append => written_again(input),
        Call::Replay | Call::Skip => called(REPLAYS, input, &row.registers[case].area).0 .0,
        Call::Distance => {
            measured(&row.inputs[0], input);
            measured(input, &row.inputs[0])
        }
        Call::Strict => {
            let answer = library::strict(input);
            assert_eq!(answer, plain::strict(input), "on {input:02x?}");
            answer
        }
    }
}

/// All beginnings of the input, and it with each byte in turn changed to every other.
fn neighbours(input: &[u8], mut check: impl FnMut(&[u8])) {
    (0..input.len()).for_each(|end| check(&input[..end]));
    let mut changed = input.to_vec();
    for offset in 0..input.len() {
        for byte in 0..=255 {
            changed[offset] = byte;
            check(&changed);
        }
        changed[offset] = input[offset];
    }
}

/// The area with each byte in turn changed.
fn damaged(area: &[u8], mut check: impl FnMut(&[u8])) {
    let mut changed = area.to_vec();
    for offset in 0..area.len() {
        changed[offset] ^= (1 + offset % 255) as u8;
        check(&changed);
        changed[offset] = area[offset];
    }
}

/// No registers, though each of their places is one and counted: each used place of a register exchanged with the one behind it,
/// or written over it; the first over each of the others; and each place freed that is before a used one.
fn out_of_order(area: &[u8], mut check: impl FnMut(&[u8])) {
    let places: Vec<&[u8]> = area[COUNTS..].chunks_exact(PLACE).collect();
    let is_used = |&place: &usize| places[place][0] != 0;
    let mut with = |changes: &[(usize, &[u8])]| {
        let mut changed = area.to_vec();
        for &(place, bytes) in changes {
            changed[COUNTS + PLACE * place..COUNTS + PLACE * (place + 1)].copy_from_slice(bytes);
        }
        count(&mut changed);
        check(&changed);
    };
    for place in (0..PLACES - 1).filter(is_used) {
        with(&[(place, places[place + 1]), (place + 1, places[place])]);
        with(&[(place + 1, places[place])]);
        if is_used(&(place + 1)) {
            with(&[(place, &[0; PLACE])]);
        }
    }
    if is_used(&0) {
        (1..PLACES).for_each(|place| with(&[(place, places[0])]));
    }
}

/// No registers, though their places are one's: each count one higher and one lower, alone, and together with each other one.
fn miscounted(area: &[u8], mut check: impl FnMut(&[u8])) {
    let changes = [1, u16::MAX]; // added without a carry: one more, one less
    let mut changed = area.to_vec();
    let change = |area: &mut [u8], index: usize, by: u16| {
        let bytes = area[2 * index..].first_chunk_mut().unwrap();
        *bytes = u16::from_be_bytes(*bytes).wrapping_add(by).to_be_bytes();
    };
    for (index, by) in (0..COUNTS / 2).flat_map(|index| changes.map(|by| (index, by))) {
        change(&mut changed, index, by);
        check(&changed);
        for (other, by) in (0..index).flat_map(|other| changes.map(|by| (other, by))) {
            change(&mut changed, other, by);
            check(&changed);
            change(&mut changed, other, by.wrapping_neg());
        }
        change(&mut changed, index, by.wrapping_neg());
    }
}

/// Areas that begin like this one, of other lengths, the one without the last number among them, and its places without the
/// counts.
fn other_lengths(area: &[u8], mut check: impl FnMut(&[u8])) {
    let longer = [area, &[0; PLACE]].concat();
    let near = [1, LAST, COUNTS, PLACE].map(|part| [part, area.len() - part, area.len() + part]);
    for length in near.concat().into_iter().chain([0]) {
        check(&longer[..length]);
    }
    check(&area[COUNTS..]);
    check(&area[COUNTS..area.len() - LAST]);
}

/// The area with this last number.
fn numbered(area: &[u8], last: u32) -> Vec<u8> {
    [&area[..area.len() - LAST], &last.to_be_bytes()].concat()
}

/// A code, and those right before and behind it of the same header; the last is followed by the first.
fn around(code: &[u8]) -> [Vec<u8>; 3] {
    let (head, last) = code.split_last_chunk().unwrap();
    let last = u32::from_be_bytes(*last);
    [last.wrapping_sub(1), last, last.wrapping_add(1)].map(|last| [head, &last.to_be_bytes()].concat())
}

/// Calls for each code that is out and for those around it.
fn check_codes(call: Loan, area: &[u8]) {
    for place in used_places(area) {
        for code in around(&place[1..=place[0] as usize]) {
            called(sides(call), &inputs::spelt(&code), area);
        }
    }
}

/// An issue and a return take the next number, whatever the last is, and tell it; where none is left they are refused with 26
/// before 20 to 22. A question is answered as before.
fn check_last_numbers(call: Loan, text: &[u8], area: &[u8], row: &Row) {
    let asked = called(sides(call), text, area).0;
    for last in [0, 1, 0xff, 0xffff, 0xff_ffff, 0x8000_0000, u32::MAX - 1, u32::MAX] {
        let (answer, after) = called(sides(call), text, &numbered(area, last));
        let (due, left) = match call {
            Loan::Ask => (asked, last),
            _ if last == u32::MAX => ((26, 0, 0), last),
            _ if row.number != 0 => ((row.number, 0, 0), last),
            _ => ((0, last + 1, 0), last + 1),
        };
        assert_eq!((answer, last_number(&after)), (due, left), "{row}: behind number {last}");
    }
}

/// Calls on the registers of a row, and on the first: for codes that are out or near one, and with the first text where the
/// register is damaged or has another length. A refused text is refused whatever the area.
fn check_register(call: Loan, row: &Row) {
    row.inputs.iter().zip(&row.registers).for_each(|(text, register)| check_put_back(call, text, register));
    let (text, area) = (&row.inputs[0], &row.registers[0].area);
    check_codes(call, area);
    check_last_numbers(call, text, area, row);
    damaged(area, |area| {
        called(sides(call), text, area);
    });
    out_of_order(area, |area| assert_eq!(called(sides(call), text, area).0, (23, 0, 0), "{row}: out of order"));
    miscounted(area, |area| assert_eq!(called(sides(call), text, area).0, (23, 0, 0), "{row}: miscounted"));
    other_lengths(area, |area| {
        let number = |text: &[u8]| called(sides(call), text, area).0 .0;
        assert_eq!([number(text), number(b"")], [23, 1], "{row}: on {} bytes", area.len());
    });
}

/// The counts of the registers of a row, and of the first where it is damaged, miscounted or has another length. They are those
/// that stand in the register, and nothing is changed.
fn check_counts(row: &Row) {
    let told = |area: &[u8]| {
        let (answer, after) = called(crate::COUNTS, b"", area);
        assert!(after == area, "{row}: another area is left");
        answer
    };
    for Register { area, .. } in &row.registers {
        let stand = area[..COUNTS].as_chunks().0.iter().map(|count| u16::from_be_bytes(*count) as u32);
        assert_eq!(told(area), (0, stand.collect::<Vec<_>>().try_into().unwrap()), "{row}");
    }
    let area = &row.registers[0].area;
    let refused = |area: &[u8]| assert_eq!(told(area), (23, [0; 8]), "{row}");
    damaged(area, |area| {
        told(area);
    });
    out_of_order(area, refused);
    miscounted(area, refused);
    other_lengths(area, refused);
}

/// The first records of a row once more: in every area and at every position about as long as they are, and with other bytes
/// as their codes.
fn check_append(row: &Row) {
    for record in logs::records(&row.inputs[0]).into_iter().take(RECORDS) {
        let whole = appended(&[record], 0, 2 * SHORT).0 .1;
        for length in 0..=whole + 2 {
            for position in 0..=length + 2 {
                let number = appended(&[record], position, length).0 .0;
                assert_eq!(number == 0, position + whole <= length, "{row}: at {position} of {length}");
            }
        }
        assert_eq!(appended(&[record], usize::MAX, 2 * SHORT).0, (15, usize::MAX), "{row}");
        for length in [0, whole - 1, whole] {
            assert_eq!(appended(&[Record { number: 0, ..record }], 0, length).0, (24, 0), "{row}: number 0");
        }
        appended(&[Record { number: u32::MAX, ..record }], 0, whole);
        neighbours(record.code, |code| {
            for (position, length, room) in [(SHORT, 2 * SHORT, 0), (SHORT, SHORT, 15), (SHORT + 1, SHORT, 15)] {
                let number = appended(&[Record { code, ..record }], position, length).0 .0;
                assert!([24, room].contains(&number), "{row}: {number} on {code:02x?}, at {position} of {length}");
            }
        });
    }
}

/// Those records of a log that a test takes, and no others, with the numbers that they have.
fn picked<'a>(log: &'a [u8], takes: impl Fn(&Record) -> bool) -> Vec<Record<'a>> {
    logs::records(log).into_iter().filter(takes).collect()
}

/// The log of these records, with the numbers that they have.
fn log_of(records: &[Record]) -> Vec<u8> {
    let ((number, position), mut log) = appended(records, 0, records.len() * SHORT);
    assert_eq!(number, 0);
    log.truncate(position);
    log
}

/// The same with numbers in a row, from the one behind this.
fn log_behind(last: u32, mut records: Vec<Record>) -> Vec<u8> {
    (last + 1..).zip(&mut records).for_each(|(number, record)| record.number = number);
    log_of(&records)
}

/// Replays on the first register of a row: of logs near the beginning of the first one, of logs that a record stops, and of
/// the beginning where the register is damaged or has another length. And the other calls: only here codes differ in length.
fn check_replay(row: &Row) {
    let (log, area) = (&row.inputs[0], &row.registers[0].area);
    [Loan::Issue, Loan::Return, Loan::Ask].into_iter().for_each(|call| check_codes(call, area));
    let replayed = |log: &[u8]| called(REPLAYS, log, area).0;
    let start = &log[..log.len().min(SHORT)];
    neighbours(start, |log| {
        replayed(log);
    });
    let (ran, after) = called(REPLAYS, log, area);
    assert_eq!(ran, (0, RAN, 0), "{row}: as it was made");
    assert_eq!(replayed(&log[..log.len() - 1]).1, TORN, "{row}: without its last byte");
    let last = last_number(area);
    assert_eq!(last_number(&after), last + row.records as u32, "{row}: the last number");
    assert!(called(REPLAYS, &[&log[..], log].concat(), area) == (ran, after), "{row}: twice");
    for last in [0, last.wrapping_sub(1), last + 1, u32::MAX] {
        called(REPLAYS, log, &numbered(area, last));
    }
    if row.records > PLACES {
        let issues = picked(log, |record| record.borrower.is_some());
        let returns = picked(log, |record| record.borrower.is_none());
        let missing = [&issues, &returns].map(|records| replayed(&log_of(records)).0);
        assert_eq!(missing, [25; 2], "{row}: issues alone, and returns, with their numbers");
        let stopped = [issues, returns].map(|records| replayed(&log_behind(last, records)).0);
        assert_eq!(stopped, [21, 22], "{row}: issues alone, and returns, with numbers in a row");
    }
    damaged(area, |area| {
        called(REPLAYS, start, area);
    });
    out_of_order(area, |area| assert_eq!(called(REPLAYS, start, area).0, (23, 0, 0), "{row}: out of order"));
    miscounted(area, |area| assert_eq!(called(REPLAYS, start, area).0, (23, 0, 0), "{row}: miscounted"));
    other_lengths(area, |area| assert_eq!(called(REPLAYS, log, area).0, (23, 0, 0), "{row}: on {} bytes", area.len()));
}

/// Every record is skipped, and nothing is changed. One that is damaged stops the replay all the same.
fn check_skip(row: &Row) {
    let (log, area) = (&row.inputs[0], &row.registers[0].area);
    let (ran, after) = called(REPLAYS, log, area);
    assert_eq!(ran, (0, RAN, 0), "{row}");
    assert!(after == *area, "{row}: another register is left");
    neighbours(&log[..SHORT], |log| {
        called(REPLAYS, log, area);
    });
    let mut damaged = log.clone();
    damaged[0] = 1;
    assert_eq!(called(REPLAYS, &damaged, area).0, (24, STOPPED, 0), "{row}: an older tag");
}

pub fn check(row: &Row) {
    for (case, input) in row.inputs.iter().enumerate() {
        assert_eq!(number(row, case, input), row.number, "{row}: on {input:02x?}");
    }
    let first = &row.inputs[0];
    if first.len() <= SHORT {
        neighbours(first, |input| {
            number(row, 0, input);
        });
    }
    match row.call {
        Call::Loan(call) => check_register(call, row),
        Call::Counts => check_counts(row),
        Call::Append => check_append(row),
        Call::Replay => check_replay(row),
        Call::Skip => check_skip(row),
        _ => {}
    }
}

/// The leaf and both loops in C, on bodies of every two lengths. All bits of the last body differ from those of the first.
pub fn check_leaf() {
    let mut bodies = inputs::bytes(LONGEST);
    let first = bodies[0].clone();
    bodies.push(first.iter().map(|byte| !byte).collect());
    for body in &bodies {
        for (a, b) in (0..=LONGEST).flat_map(|end| (0..=LONGEST).map(move |other| (end, other))) {
            let (a, b) = (&body[..a], &first[..b]);
            let bits = a.iter().zip(b).map(|(x, y)| (x ^ y).count_ones() as u16).sum();
            let counted = [leaf::proved, leaf::c_loop, leaf::c_popcnt].map(|count| count(a, b));
            assert_eq!(counted, [bits; 3], "on {a:02x?} and {b:02x?}");
        }
    }
}
