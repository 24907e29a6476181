//! The C interface of the console and probe libraries over the reference. It stands in for the proved libraries to hold the
//! reference against the vectors, and, with a slip put into it, to see that the tests catch the slip.

use reference::distance::Distance;
use reference::doors::LONGEST_CODE;
use reference::header::Header;
use reference::log::Replayed;
use reference::promotion::Verdict;
use reference::register::{Changed, Held};
use reference::{base32, composite, distance, doors, header, log, promotion, register, unit, Answer};

#[repr(C)]
pub struct Written {
    number: u32,
    length: usize,
}

#[repr(C)]
pub struct DistanceAnswer {
    number: u32,
    d: u32,
    n: u32,
    ratio: f32,
}

#[repr(C)]
#[derive(Default)]
pub struct HeaderAnswer {
    number: u32,
    main_type: u32,
    subtype: u32,
    version: u32,
    length: u32,
    used: usize,
}

#[repr(C)]
pub struct ChangedAnswer {
    number: u32,
    record_number: u32,
}

#[repr(C)]
pub struct Holder {
    number: u32,
    borrower: u32,
    looks: u32,
}

#[repr(C)]
#[derive(Default)]
pub struct Counted {
    number: u32,
    out: u32,
    meta: u32,
    semantic: u32,
    content: u32,
    data: u32,
    instance: u32,
    iscc: u32,
    id: u32,
}

#[repr(C)]
pub struct ReplayAnswer {
    number: u32,
    end: u32,
    offset: usize,
}

#[repr(C)]
pub struct VerdictAnswer {
    number: u32,
    offset: usize,
    code_length: usize,
    code: [u8; LONGEST_CODE],
}

/// A lent area; null stands for an empty one.
unsafe fn lent<'a>(start: *const u8, length: usize) -> &'a [u8] {
    if length == 0 {
        &[]
    } else {
        std::slice::from_raw_parts(start, length)
    }
}

unsafe fn lent_out<'a>(start: *mut u8, length: usize) -> &'a mut [u8] {
    if length == 0 {
        &mut []
    } else {
        std::slice::from_raw_parts_mut(start, length)
    }
}

/// Copies what was written to the area, and on a refusal nothing.
fn written(answer: Answer<Vec<u8>>, area: &mut [u8]) -> Written {
    match answer {
        Err(number) => Written { number, length: 0 },
        Ok(bytes) => {
            area[..bytes.len()].copy_from_slice(&bytes);
            Written { number: 0, length: bytes.len() }
        }
    }
}

/// Copies a record to its position in the log, and on a refusal nothing.
fn appended(answer: Answer<Vec<u8>>, log: &mut [u8], position: usize) -> Written {
    written(answer, log.get_mut(position..).unwrap_or_default())
}

/// Copies the register as the call leaves it, and on a refusal nothing.
fn changed(answer: Answer<Changed>, area: &mut [u8]) -> ChangedAnswer {
    match answer {
        Err(number) => ChangedAnswer { number, record_number: 0 },
        Ok(Changed { record_number, area: left }) => {
            area.copy_from_slice(&left);
            ChangedAnswer { number: 0, record_number }
        }
    }
}

fn read(answer: Answer<(Header, usize)>) -> HeaderAnswer {
    match answer {
        Err(number) => HeaderAnswer { number, ..HeaderAnswer::default() },
        Ok(([main_type, subtype, version, length], used)) => {
            HeaderAnswer { number: 0, main_type, subtype, version, length, used }
        }
    }
}

macro_rules! writers {
    ($($name:ident = $call:path;)*) => {$(
        #[no_mangle]
        pub unsafe extern "C" fn $name(bytes: *const u8, bytes_len: usize, out: *mut u8, out_len: usize) -> Written {
            written($call(lent(bytes, bytes_len), out_len), lent_out(out, out_len))
        }
    )*};
}

writers! {
    iscc_intake = doors::intake;
    iscc_code = doors::code;
    iscc_text = doors::text;
    iscc_join = composite::join;
    iscc_split = composite::split;
    probe_base32_read = base32::read;
    probe_base32_write = base32::write;
}

#[no_mangle]
pub unsafe extern "C" fn iscc_strict(text: *const u8, text_len: usize) -> u32 {
    doors::strict(lent(text, text_len)).err().unwrap_or(0)
}

#[no_mangle]
pub unsafe extern "C" fn iscc_distance(a: *const u8, a_len: usize, b: *const u8, b_len: usize) -> DistanceAnswer {
    match distance::distance(lent(a, a_len), lent(b, b_len)) {
        Err(number) => DistanceAnswer { number, d: 0, n: 0, ratio: 0.0 },
        Ok(Distance { d, n, ratio }) => DistanceAnswer { number: 0, d, n, ratio },
    }
}

#[no_mangle]
pub unsafe extern "C" fn probe_header_read(bytes: *const u8, bytes_len: usize) -> HeaderAnswer {
    read(header::read(lent(bytes, bytes_len)))
}

#[no_mangle]
pub unsafe extern "C" fn probe_unit_read(bytes: *const u8, bytes_len: usize) -> HeaderAnswer {
    read(unit::read(lent(bytes, bytes_len)).map(|(item, used)| (item.header, used)))
}

#[no_mangle]
pub unsafe extern "C" fn probe_header_write(
    main_type: u32,
    subtype: u32,
    version: u32,
    length: u32,
    out: *mut u8,
    out_len: usize,
) -> Written {
    written(header::write([main_type, subtype, version, length], out_len), lent_out(out, out_len))
}

#[no_mangle]
pub unsafe extern "C" fn probe_unit_write(
    main_type: u32,
    subtype: u32,
    version: u32,
    length: u32,
    body: *const u8,
    body_len: usize,
    out: *mut u8,
    out_len: usize,
) -> Written {
    written(unit::write([main_type, subtype, version, length], lent(body, body_len), out_len), lent_out(out, out_len))
}

#[no_mangle]
pub unsafe extern "C" fn loans_issue(
    text: *const u8,
    text_len: usize,
    borrower: u32,
    area: *mut u8,
    area_len: usize,
) -> ChangedAnswer {
    let area = lent_out(area, area_len);
    changed(register::issue(lent(text, text_len), borrower, area), area)
}

#[no_mangle]
pub unsafe extern "C" fn loans_return(text: *const u8, text_len: usize, area: *mut u8, area_len: usize) -> ChangedAnswer {
    let area = lent_out(area, area_len);
    changed(register::take_back(lent(text, text_len), area), area)
}

#[no_mangle]
pub unsafe extern "C" fn loans_ask(text: *const u8, text_len: usize, area: *const u8, area_len: usize) -> Holder {
    let Held { number, borrower, looks } = register::ask(lent(text, text_len), lent(area, area_len));
    Holder { number, borrower, looks }
}

#[no_mangle]
pub unsafe extern "C" fn loans_counts(area: *const u8, area_len: usize) -> Counted {
    match register::counts(lent(area, area_len)) {
        Err(number) => Counted { number, ..Counted::default() },
        Ok([out, meta, semantic, content, data, instance, iscc, id]) => {
            Counted { number: 0, out, meta, semantic, content, data, instance, iscc, id }
        }
    }
}

#[no_mangle]
pub unsafe extern "C" fn loans_log_issue(
    log: *mut u8,
    log_len: usize,
    position: usize,
    record_number: u32,
    code: *const u8,
    code_len: usize,
    borrower: u32,
) -> Written {
    let record = log::issue(record_number, lent(code, code_len), borrower, log_len, position);
    appended(record, lent_out(log, log_len), position)
}

#[no_mangle]
pub unsafe extern "C" fn loans_log_return(
    log: *mut u8,
    log_len: usize,
    position: usize,
    record_number: u32,
    code: *const u8,
    code_len: usize,
) -> Written {
    let record = log::take_back(record_number, lent(code, code_len), log_len, position);
    appended(record, lent_out(log, log_len), position)
}

/// The register stays as the replay leaves it, on a refusal too.
#[no_mangle]
pub unsafe extern "C" fn loans_replay(log: *const u8, log_len: usize, area: *mut u8, area_len: usize) -> ReplayAnswer {
    let area = lent_out(area, area_len);
    let Replayed { number, end, offset, area: after } = log::replay(lent(log, log_len), area);
    area.copy_from_slice(&after);
    ReplayAnswer { number, end: end as u32, offset }
}

/// The work area stays as the checker leaves it, on a refusal too.
#[no_mangle]
pub unsafe extern "C" fn loans_promote(
    log: *const u8,
    log_len: usize,
    replica: *const u8,
    replica_len: usize,
    work: *mut u8,
    work_len: usize,
) -> VerdictAnswer {
    let work = lent_out(work, work_len);
    let (verdict, after) = promotion::promote(lent(log, log_len), lent(replica, replica_len), work);
    work.copy_from_slice(&after);
    let Verdict { number, offset, code: told } = verdict;
    let mut code = [0; LONGEST_CODE];
    code[..told.len()].copy_from_slice(&told);
    VerdictAnswer { number, offset, code_length: told.len(), code }
}
