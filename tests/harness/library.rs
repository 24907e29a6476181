//! The C entries of the linked libraries, called on areas of just their length; every byte that a call must keep is
//! looked at.

use crate::area;
use crate::call::{keeps_work, Call, Fields, Request, Response};
use crate::fence::{Fence, Side};
use crate::memcheck;
use crate::room::Room;
use crate::told::Difference;
use reference::doors::LONGEST_CODE;
use reference::register::LENGTH;
use std::fmt;
use std::sync::atomic::{AtomicPtr, Ordering};

#[repr(C)]
struct Written {
    number: u32,
    length: usize,
}

#[repr(C)]
struct DistanceAnswer {
    number: u32,
    d: u32,
    n: u32,
    ratio: f32,
}

#[repr(C)]
struct HeaderAnswer {
    number: u32,
    main_type: u32,
    subtype: u32,
    version: u32,
    length: u32,
    used: usize,
}

#[repr(C)]
struct Changed {
    number: u32,
    record_number: u32,
}

#[repr(C)]
struct Holder {
    number: u32,
    borrower: u32,
    looks: u32,
}

#[repr(C)]
struct Counted {
    number: u32,
    out: u32,
    meta: u32,
    semantic: u32,
    content: u32,
    data: u32,
    instance: u32,
    iscc: u32,
    id: u32,
}

#[repr(C)]
struct ReplayAnswer {
    number: u32,
    end: u32,
    offset: usize,
}

#[repr(C)]
struct Verdict {
    number: u32,
    offset: usize,
    code_length: usize,
    code: [u8; LONGEST_CODE],
}

type Writer = unsafe extern "C" fn(*const u8, usize, *mut u8, usize) -> Written;
type Reader = unsafe extern "C" fn(*const u8, usize) -> HeaderAnswer;

extern "C" {
    fn iscc_intake(text: *const u8, text_len: usize, out: *mut u8, out_len: usize) -> Written;
    fn iscc_strict(text: *const u8, text_len: usize) -> u32;
    fn iscc_code(text: *const u8, text_len: usize, out: *mut u8, out_len: usize) -> Written;
    fn iscc_text(code: *const u8, code_len: usize, out: *mut u8, out_len: usize) -> Written;
    fn iscc_join(units: *const u8, units_len: usize, out: *mut u8, out_len: usize) -> Written;
    fn iscc_split(code: *const u8, code_len: usize, out: *mut u8, out_len: usize) -> Written;
    fn iscc_distance(a: *const u8, a_len: usize, b: *const u8, b_len: usize) -> DistanceAnswer;
    fn loans_issue(text: *const u8, text_len: usize, borrower: u32, area: *mut u8, area_len: usize) -> Changed;
    fn loans_return(text: *const u8, text_len: usize, area: *mut u8, area_len: usize) -> Changed;
    fn loans_ask(text: *const u8, text_len: usize, area: *const u8, area_len: usize) -> Holder;
    fn loans_counts(area: *const u8, area_len: usize) -> Counted;
    fn loans_log_issue(
        log: *mut u8,
        log_len: usize,
        position: usize,
        record_number: u32,
        code: *const u8,
        code_len: usize,
        borrower: u32,
    ) -> Written;
    fn loans_log_return(
        log: *mut u8,
        log_len: usize,
        position: usize,
        record_number: u32,
        code: *const u8,
        code_len: usize,
    ) -> Written;
    fn loans_replay(log: *const u8, log_len: usize, area: *mut u8, area_len: usize) -> ReplayAnswer;
    fn loans_promote(
        log: *const u8,
        log_len: usize,
        replica: *const u8,
        replica_len: usize,
        work: *mut u8,
        work_len: usize,
    ) -> Verdict;
    fn probe_base32_read(text: *const u8, text_len: usize, out: *mut u8, out_len: usize) -> Written;
    fn probe_base32_write(bytes: *const u8, bytes_len: usize, out: *mut u8, out_len: usize) -> Written;
    fn probe_header_read(bytes: *const u8, bytes_len: usize) -> HeaderAnswer;
    fn probe_header_write(main_type: u32, subtype: u32, version: u32, length: u32, out: *mut u8, out_len: usize) -> Written;
    fn probe_unit_read(bytes: *const u8, bytes_len: usize) -> HeaderAnswer;
    fn probe_unit_write(
        main_type: u32,
        subtype: u32,
        version: u32,
        length: u32,
        body: *const u8,
        body_len: usize,
        out: *mut u8,
        out_len: usize,
    ) -> Written;
    fn signal(number: i32, handler: extern "C" fn(i32)) -> usize;
    fn _exit(status: i32) -> !;
}

const ILLEGAL: i32 = 4;
const ABORT: i32 = 6;
const BUS: i32 = 7;
const ARITHMETIC: i32 = 8;
const SEGMENT: i32 = 11;
const TERMINATE: i32 = 15;

/// What is under way, for the message where a call ends the program.
static UNDER_WAY: AtomicPtr<UnderWay<'static>> = AtomicPtr::new(std::ptr::null_mut());

struct UnderWay<'a> {
    request: &'a Request,
    case: &'a Case<'a>,
    again: &'a str,
}

extern "C" fn ended(signal: i32) {
    let what = match signal {
        BUS | SEGMENT => "memory outside the lent areas was touched".to_string(),
        TERMINATE => "the program was ended from outside, as where a call does not end".to_string(),
        _ => format!("a call ended the program by signal {signal}"),
    };
    println!("FAILED {what}");
    let under_way = UNDER_WAY.load(Ordering::Relaxed);
    // Set for each call, to what outlives it. The program ends here.
    unsafe {
        if let Some(UnderWay { request, case, again }) = under_way.as_ref() {
            println!("  {request}\n  run again: {again} {case}");
        }
        println!("0 passed, 1 failed");
        _exit(1)
    }
}

/// The words that choose one case: a table and its line, a call and its case, a block of labels and its label.
pub struct Case<'a> {
    pub of: &'a str,
    pub number: u64,
}

impl fmt::Display for Case<'_> {
    fn fmt(&self, f: &mut fmt::Formatter<'_>) -> fmt::Result {
        write!(f, "{} {}", self.of, self.number)
    }
}

/// How the areas are laid for one call.
#[derive(Clone)]
pub struct Setting {
    pub side: Side,
    /// Empty areas are handed over as null.
    pub null: bool,
    /// The bytes of the output area before the call, repeated to its length.
    pub filling: Vec<u8>,
}

/// What a call answers, and what it did that it must not.
pub struct Answer {
    pub response: Response,
    pub fault: Option<String>,
}

/// The linked libraries, with room for the areas of one call.
pub struct Library {
    first: Room,
    second: Room,
    out: Room,
    /// The command that runs a case again, without the words that choose the case.
    again: String,
}

impl Library {
    /// On fenced areas of up to `longest` bytes.
    pub fn fenced(longest: usize, again: String) -> Library {
        Library::over(|| Room::Fenced(Fence::new(longest)), again)
    }

    /// On heap blocks, for a run under memcheck.
    pub fn on_heap(again: String) -> Library {
        Library::over(|| Room::Heap(Box::default()), again)
    }

    fn over(room: impl Fn() -> Room, again: String) -> Library {
        for number in [ILLEGAL, ABORT, BUS, ARITHMETIC, SEGMENT, TERMINATE] {
            // The handler only prints and ends the program.
            unsafe { signal(number, ended) };
        }
        Library { first: room(), second: room(), out: room(), again }
    }

    /// The line that tells how to run a case again.
    pub fn again(&self, case: &Case) -> String {
        format!("run again: {} {case}", self.again)
    }

    /// Nothing where the call answers what is due.
    pub fn differs(&mut self, case: &Case, request: &Request, due: &Response, setting: &Setting) -> Option<Difference> {
        let answer = self.answer(case, request, setting);
        if answer.fault.is_none() && answer.response == *due {
            return None;
        }
        let found = answer.response.fields(request.call);
        let (after, written) = (&due.written, &answer.response.written);
        let part = || area::part_difference(after, written).filter(|_| request.call.changes() || request.call.works());
        let byte = || area::byte_difference(after, written).filter(|_| request.call.appends());
        let fault = answer.fault.or_else(part).or_else(byte);
        Some(self.difference(case, request, (due.fields(request.call), found), fault))
    }

    /// What the call writes, where it is not refused.
    pub fn written(&mut self, case: &Case, request: &Request, setting: &Setting) -> Result<Vec<u8>, Difference> {
        let answer = self.answer(case, request, setting);
        if answer.fault.is_none() && answer.response.number == 0 {
            return Ok(answer.response.written);
        }
        let fields = (vec![("number", "0".to_string())], answer.response.fields(request.call));
        Err(self.difference(case, request, fields, answer.fault))
    }

    /// The fields that are due beside those that were found.
    pub fn difference(&self, case: &Case, request: &Request, fields: (Fields, Fields), fault: Option<String>) -> Difference {
        let (due, found) = fields;
        Difference { request: request.to_string(), due, found, fault, again: self.again(case) }
    }

    /// Makes the call.
    pub fn answer(&mut self, case: &Case, request: &Request, setting: &Setting) -> Answer {
        let Setting { side, null, filling } = setting;
        let before: Vec<u8> = match request.call.changes() || request.call.appends() {
            true => request.second.clone(),
            false => filling.iter().copied().cycle().take(request.area).collect(),
        };
        let lend = |room: &mut Room, bytes: &[u8]| {
            let pointer = room.lay(bytes, *side);
            if *null && bytes.is_empty() {
                std::ptr::null_mut()
            } else {
                pointer
            }
        };
        let first = lend(&mut self.first, &request.first);
        let second = lend(&mut self.second, request.only_read());
        let out = lend(&mut self.out, &before);
        let errors = memcheck::errors();
        if !request.call.changes() {
            memcheck::make_undefined(self.out.area());
        }
        let mut under_way = UnderWay { request, case, again: &self.again };
        UNDER_WAY.store(std::ptr::from_mut(&mut under_way).cast(), Ordering::Relaxed);
        // The three areas are as long as said and do not overlap.
        let mut response = unsafe { enter(request, first, second, out) };
        UNDER_WAY.store(std::ptr::null_mut(), Ordering::Relaxed);
        let fault = self.look(request, &before, &mut response);
        let reported = || (memcheck::errors() != errors).then(|| "memcheck reports an error".to_string());
        Answer { response, fault: fault.or_else(reported) }
    }

    /// Takes the written bytes over into the response and sees that all others are as before.
    fn look(&mut self, request: &Request, before: &[u8], response: &mut Response) -> Option<String> {
        let (from, length) = match request.call {
            call if call.changes() => (0, before.len()),
            call if call.works() => (0, if keeps_work(response.number) { 0 } else { LENGTH }),
            call if call.writes() && response.number == 0 => (0, response.values[0] as usize),
            call if call.appends() && response.number == 0 => (request.position, response.values[0] as usize),
            _ => (0, 0),
        };
        let Some(end) = from.checked_add(length).filter(|&end| end <= before.len()) else {
            return Some("the length is beyond the area".to_string());
        };
        let after = self.out.area();
        memcheck::check_defined(&after[from..end]);
        memcheck::make_defined(after);
        response.written = if request.call.appends() { after.to_vec() } else { after[from..end].to_vec() };
        let changed = (0..from).chain(end..before.len()).find(|&at| after[at] != before[at]);
        if let Some(at) = changed {
            Some(format!("the byte at offset {at} of the output area was changed"))
        } else if self.first.area() != request.first || self.second.area() != request.only_read() {
            Some("an area lent for reading was changed".to_string())
        } else if !(self.first.kept() && self.second.kept() && self.out.kept()) {
            Some("a byte beside an area was changed".to_string())
        } else {
            None
        }
    }
}

/// One call on areas that stand at the pointers.
unsafe fn enter(request: &Request, first: *const u8, second: *const u8, out: *mut u8) -> Response {
    let Request { call, header: [main_type, subtype, version, length], record_number, position, area, .. } = *request;
    let (first_len, second_len) = (request.first.len(), request.second.len());
    let write = |writer: Writer| written(writer(first, first_len, out, area));
    let read = |reader: Reader| header(reader(first, first_len));
    match call {
        Call::Intake => write(iscc_intake),
        Call::Strict => Response::refused(iscc_strict(first, first_len)),
        Call::Code => write(iscc_code),
        Call::Text => write(iscc_text),
        Call::Distance => measured(iscc_distance(first, first_len, second, second_len)),
        Call::Base32Read => write(probe_base32_read),
        Call::Base32Write => write(probe_base32_write),
        Call::HeaderRead => read(probe_header_read),
        Call::HeaderWrite => written(probe_header_write(main_type, subtype, version, length, out, area)),
        Call::UnitRead => read(probe_unit_read),
        Call::UnitWrite => written(probe_unit_write(main_type, subtype, version, length, second, second_len, out, area)),
        Call::Join => write(iscc_join),
        Call::Split => write(iscc_split),
        Call::Issue => changed(loans_issue(first, first_len, request.borrower, out, second_len)),
        Call::TakeBack => changed(loans_return(first, first_len, out, second_len)),
        Call::Ask => held(loans_ask(first, first_len, second, second_len)),
        Call::LogIssue => {
            written(loans_log_issue(out, second_len, position, record_number, first, first_len, request.borrower))
        }
        Call::LogReturn => written(loans_log_return(out, second_len, position, record_number, first, first_len)),
        Call::Replay => replayed(loans_replay(first, first_len, out, second_len)),
        Call::Counts => counted(loans_counts(second, second_len)),
        Call::Promote => judged(loans_promote(first, first_len, second, second_len, out, area)),
    }
}

fn written(answer: Written) -> Response {
    Response::told(answer.number, [answer.length as u64])
}

fn header(answer: HeaderAnswer) -> Response {
    let [main_type, subtype, version, length] =
        [answer.main_type, answer.subtype, answer.version, answer.length].map(u64::from);
    Response::told(answer.number, [main_type, subtype, version, length, answer.used as u64])
}

fn changed(answer: Changed) -> Response {
    Response::told(answer.number, [u64::from(answer.record_number)])
}

fn held(answer: Holder) -> Response {
    Response::told(answer.number, [answer.borrower, answer.looks].map(u64::from))
}

fn replayed(answer: ReplayAnswer) -> Response {
    Response::told(answer.number, [u64::from(answer.end), answer.offset as u64])
}

fn judged(answer: Verdict) -> Response {
    Response::judged(answer.number, answer.offset, answer.code_length, answer.code.to_vec(), Vec::new())
}

fn counted(answer: Counted) -> Response {
    let Counted { number, out, meta, semantic, content, data, instance, iscc, id } = answer;
    Response::told(number, [out, meta, semantic, content, data, instance, iscc, id].map(u64::from))
}

fn measured(answer: DistanceAnswer) -> Response {
    Response::told(answer.number, [answer.d as u64, answer.n as u64, answer.ratio.to_bits() as u64])
}
