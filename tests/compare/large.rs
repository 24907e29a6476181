//! Inputs of about a mebibyte: no call may mind how much it is lent.

use crate::random::Random;
use crate::{areas, codes, texts};
use harness::call::{Call, Request};
use reference::{base32, log, register};

const MEBIBYTE: usize = 1 << 20;
/// The longest area of these requests, and of any other case.
pub const LONGEST: usize = 2 * MEBIBYTE;

/// A DATA unit again and again, with another item behind it.
fn list(random: &mut Random, last: Vec<u8>) -> Vec<u8> {
    let unit = [vec![0x30, 1], random.bytes(8)].concat();
    [unit.repeat(MEBIBYTE / unit.len()), last].concat()
}

/// How many requests there are.
pub const COUNT: u64 = 41;

pub fn requests(random: &mut Random) -> Vec<Request> {
    let mut requests = Vec::new();
    let mut add = |call, first: Vec<u8>| requests.push(Request { first, area: LONGEST, ..Request::new(call) });
    let bytes = random.bytes(MEBIBYTE + 3);
    let mut text = base32::encode(&bytes);
    add(Call::Base32Write, bytes);
    add(Call::Base32Read, text.clone());
    add(Call::Intake, text.clone());
    add(Call::Strict, text.clone());
    add(Call::Code, text.clone());
    *text.last_mut().unwrap() = b'1';
    add(Call::Base32Read, text);
    let ends = [vec![], vec![0x30], vec![0x70, 0], codes::composite(random), codes::unit(random)];
    for last in ends {
        add(Call::Join, list(random, last));
    }
    for head in [codes::unit(random), codes::composite(random)] {
        let long = [head, random.bytes(MEBIBYTE)].concat();
        for call in [Call::UnitRead, Call::HeaderRead, Call::Split, Call::Text, Call::Distance] {
            add(call, long.clone());
        }
    }
    let code = codes::unit(random);
    let typed = texts::of_code(random, &code);
    for call in Call::REGISTER {
        requests.push(on_register(call, vec![b'-'; MEBIBYTE], register::LENGTH));
        requests.push(on_register(call, typed.clone(), MEBIBYTE));
    }
    requests.push(on_register(Call::Counts, Vec::new(), MEBIBYTE));
    requests.extend(on_log(random));
    requests
}

/// The records of one code that comes and goes, one or the other by its number, up to this one.
fn comes_and_goes(code: &[u8], last: u32) -> Vec<u8> {
    let record = |number: u32| match number % 2 {
        1 => log::issue_record(number, code, 7),
        _ => log::return_record(number, code),
    };
    (1..=last).flat_map(record).collect()
}

/// Logs of a mebibyte, of one code that comes and goes, applied and skipped, of zeros and of the longest records; and records
/// far behind, or of far too long a code.
fn on_log(random: &mut Random) -> Vec<Request> {
    let code = [vec![0x50, 7], random.bytes(40)].concat();
    let pair = comes_and_goes(&code, 2);
    let long = comes_and_goes(&code, 2 * (MEBIBYTE / pair.len()) as u32);
    let longest = log::record(log::RETURN, &random.bytes(65_535));
    let mut skipping = on_register(Call::Replay, long.clone(), register::LENGTH);
    areas::put_last(&mut skipping.second, u32::MAX);
    let logs = [long, vec![0; MEBIBYTE], longest.repeat(16)];
    let mut requests: Vec<Request> = logs.into_iter().map(|log| on_register(Call::Replay, log, register::LENGTH)).collect();
    requests.push(skipping);
    requests.extend(promotions(&code));
    requests.push(on_register(Call::Replay, pair, MEBIBYTE));
    for call in [Call::LogIssue, Call::LogReturn] {
        let log = Request { second: vec![0; MEBIBYTE], record_number: 1, ..Request::new(call) };
        let append = |first, position| Request { first, position, ..log.clone() };
        requests.push(append(code.clone(), MEBIBYTE - 53));
        requests.push(append(vec![0; MEBIBYTE], 0));
    }
    requests
}

/// Promotions with a log, a replica or a work area of a mebibyte; and a yes to some thousand records, which leave no code out.
fn promotions(code: &[u8]) -> Vec<Request> {
    let promote = |log: &[u8], replica, area| Request { area, ..on_register(Call::Promote, log.to_vec(), replica) };
    let (pair, records) = (comes_and_goes(code, 2), 3000);
    let mut agrees = promote(&comes_and_goes(code, records), register::LENGTH, LONGEST);
    areas::put_last(&mut agrees.second, records);
    let no_log = promote(&vec![0; MEBIBYTE], register::LENGTH, register::LENGTH);
    vec![agrees, no_log, promote(&pair, MEBIBYTE, MEBIBYTE), promote(&pair, register::LENGTH, MEBIBYTE)]
}

/// A call on an area of zeros.
fn on_register(call: Call, first: Vec<u8>, length: usize) -> Request {
    Request { first, second: vec![0; length], ..Request::new(call) }
}
