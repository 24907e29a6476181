//! The reference's answer to a request.

use crate::call::{keeps_work, values, Call, Request, Response};
use reference::doors::LONGEST_CODE;
use reference::header::Header;
use reference::log::Replayed;
use reference::promotion::Verdict;
use reference::register::{Changed, Counts, Held, LENGTH};
use reference::{base32, composite, distance, doors, header, log, promotion, register, unit, Answer};

fn written(answer: Answer<Vec<u8>>) -> Response {
    answer.map_or_else(Response::refused, Response::written)
}

fn read(answer: Answer<(Header, usize)>) -> Response {
    match answer {
        Err(number) => Response::refused(number),
        Ok((header, used)) => {
            let [main_type, subtype, version, length] = header.map(u64::from);
            Response::told(0, [main_type, subtype, version, length, used as u64])
        }
    }
}

fn measured(answer: Answer<distance::Distance>) -> Response {
    match answer {
        Err(number) => Response::refused(number),
        Ok(found) => Response::told(0, [found.d as u64, found.n as u64, found.ratio.to_bits() as u64]),
    }
}

/// The register as the call leaves it and the record number that it took: on a refusal as it was, and 0.
fn changed(answer: Answer<Changed>, before: &[u8]) -> Response {
    match answer {
        Err(number) => Response { number, written: before.to_vec(), ..Response::default() },
        Ok(Changed { record_number, area }) => {
            Response { values: values([u64::from(record_number)]), written: area, ..Response::default() }
        }
    }
}

/// The log with the record at the position: on a refusal as it was.
fn appended(answer: Answer<Vec<u8>>, before: &[u8], position: usize) -> Response {
    let mut log = before.to_vec();
    let answer = answer.map(|record| {
        log[position..position + record.len()].copy_from_slice(&record);
        record.len()
    });
    let (number, length) = answer.map_or_else(|number| (number, 0), |length| (0, length as u64));
    Response { number, values: values([length]), written: log, ..Response::default() }
}

fn replayed(answer: Replayed) -> Response {
    let values = values([answer.end as u64, answer.offset as u64]);
    Response { number: answer.number, values, written: answer.area, ..Response::default() }
}

/// The code filled up with zeros, and of the work area what was written: the bytes behind it are none of the answer's.
fn judged(answer: (Verdict, Vec<u8>), before: usize) -> Response {
    let (Verdict { number, offset, code }, mut work) = answer;
    assert_eq!(work.len(), before, "the work area keeps its length");
    work.truncate(if keeps_work(number) { 0 } else { LENGTH });
    let code_length = code.len();
    let filled = [code, vec![0; LONGEST_CODE - code_length]].concat();
    Response::judged(number, offset, code_length, filled, work)
}

fn held(answer: Held) -> Response {
    Response::told(answer.number, [u64::from(answer.borrower), u64::from(answer.looks)])
}

fn counted(answer: Answer<Counts>) -> Response {
    answer.map_or_else(Response::refused, |counts| Response::told(0, counts.map(u64::from)))
}

pub fn answer(request: &Request) -> Response {
    let Request { call, first, second, header, borrower, record_number, position, area } = request;
    match call {
        Call::Intake => written(doors::intake(first, *area)),
        Call::Strict => written(doors::strict(first).map(|()| Vec::new())),
        Call::Code => written(doors::code(first, *area)),
        Call::Text => written(doors::text(first, *area)),
        Call::Distance => measured(distance::distance(first, second)),
        Call::Base32Read => written(base32::read(first, *area)),
        Call::Base32Write => written(base32::write(first, *area)),
        Call::HeaderRead => read(header::read(first)),
        Call::HeaderWrite => written(header::write(*header, *area)),
        Call::UnitRead => read(unit::read(first).map(|(item, used)| (item.header, used))),
        Call::UnitWrite => written(unit::write(*header, second, *area)),
        Call::Join => written(composite::join(first, *area)),
        Call::Split => written(composite::split(first, *area)),
        Call::Issue => changed(register::issue(first, *borrower, second), second),
        Call::TakeBack => changed(register::take_back(first, second), second),
        Call::Ask => held(register::ask(first, second)),
        Call::LogIssue => appended(log::issue(*record_number, first, *borrower, second.len(), *position), second, *position),
        Call::LogReturn => appended(log::take_back(*record_number, first, second.len(), *position), second, *position),
        Call::Replay => replayed(log::replay(first, second)),
        Call::Counts => counted(register::counts(second)),
        Call::Promote => judged(promotion::promote(first, second, &vec![0; *area]), *area),
    }
}
