//! One random request for each call.

use crate::random::Random;
use crate::{areas, codes, promotions, records, texts};
use harness::call::{Call, Request};
use harness::expected;

/// Longer than anything that a case writes.
const AMPLE: usize = 1 << 18;

pub fn request(random: &mut Random, call: Call) -> Request {
    let mut request = Request::new(call);
    match call {
        Call::Intake | Call::Code => request.first = texts::text(random),
        Call::Strict => request.first = texts::nearly_written(random),
        Call::Text => request.first = one_code(random),
        Call::Distance => (request.first, request.second) = two_units(random),
        Call::Base32Read => {
            let bytes = plain_bytes(random);
            request.first = texts::base32_run(random, &bytes);
        }
        Call::Base32Write => request.first = plain_bytes(random),
        Call::HeaderRead => request.first = raw_header(random),
        Call::HeaderWrite => request.header = numbers(random),
        Call::UnitRead => request.first = codes::items(random),
        Call::UnitWrite => (request.header, request.second) = header_and_body(random),
        Call::Join => request.first = to_join(random),
        Call::Split => request.first = composite_bytes(random),
        Call::Issue | Call::TakeBack | Call::Ask | Call::Replay | Call::Counts => return areas::request(random, call),
        Call::LogIssue | Call::LogReturn => return records::append(random, call),
        Call::Promote => return promotions::request(random),
    }
    request.area = area(random, &request);
    request
}

/// Mostly a list, sometimes a long one; or one item that is no unit, or not quite one.
fn to_join(random: &mut Random) -> Vec<u8> {
    match random.below(50) {
        0 => codes::long_list(random),
        1 => codes::composite(random),
        2 => codes::nearly_wide(random),
        _ => codes::list(random),
    }
}

/// An area about as long as what is written, or of a boundary length.
fn area(random: &mut Random, request: &Request) -> usize {
    match request.call {
        call if !call.writes() => 0,
        Call::Intake | Call::Text if random.percent(90) => random.pick(&[73, 73, 74, 80, 100, 1024]),
        Call::Intake | Call::Text => random.pick(&[0, 1, 20, 71, 72, 73]),
        Call::Code if random.percent(90) => random.pick(&[42, 42, 43, 50, 73, 1024]),
        Call::Code => random.pick(&[0, 1, 18, 40, 41, 42]),
        _ => {
            let ample = Request { area: AMPLE, ..request.clone() };
            let need = expected::answer(&ample).written.len();
            let other = random.below(200);
            random.pick(&[need, need, need + 1, need + 7, need.saturating_sub(1), 0, 1, other])
        }
    }
}

/// Bytes for base32: mostly short, of every length over a group of five, sometimes long.
fn plain_bytes(random: &mut Random) -> Vec<u8> {
    let length = match random.below(200) {
        0 => random.pick(&[639, 640, 641, 1023, 1024, 1025, 4096, 40_000]),
        1..=9 => random.below(1000),
        _ => random.below(60),
    };
    random.bytes(length)
}

/// A number about the borders of the varnibble table, or any.
fn number(random: &mut Random) -> u32 {
    match random.below(20) {
        0..=8 => random.below(9) as u32,
        9..=14 => random.pick(&[7, 8, 71, 72, 583, 584, 4679]),
        15..=17 => random.below(4680) as u32,
        18 => random.pick(&[4680, 4681, 65_535, 65_536, 1 << 31, u32::MAX]),
        _ => random.next() as u32,
    }
}

fn numbers(random: &mut Random) -> [u32; 4] {
    [number(random), number(random), number(random), number(random)]
}

/// A written header with bytes behind it, cut, with a bit flipped, or no header at all.
fn raw_header(random: &mut Random) -> Vec<u8> {
    if random.percent(25) {
        let length = random.below(12);
        return random.bytes(length);
    }
    let mut bytes = reference::header::encode(numbers(random).map(|number| number % 4680));
    match random.below(4) {
        0 => bytes.truncate(random.below(bytes.len() + 1)),
        1 => codes::damage(random, &mut bytes),
        2 => {
            let more = random.below(20);
            bytes.extend(random.bytes(more));
        }
        _ => (),
    }
    bytes
}

/// Mostly a permitted header with a body area about as long as it says.
fn header_and_body(random: &mut Random) -> ([u32; 4], Vec<u8>) {
    let item = match random.below(30) {
        0 => codes::wide(random),
        1 => codes::nearly_wide(random),
        2 => codes::composite(random),
        _ => codes::unit(random),
    };
    let mut header = [(item[0] >> 4) as u32, (item[0] & 15) as u32, 0, item[1] as u32];
    if random.percent(30) {
        let place = random.below(4);
        header[place] = number(random);
    }
    let mut body = item[2..].to_vec();
    match random.below(4) {
        0 => body.truncate(random.below(body.len() + 1)),
        1 => body.extend(random.bytes(3)),
        _ => (),
    }
    (header, body)
}

/// Mostly one unit or composite; else with a byte changed, cut or behind it, or any items.
pub fn one_code(random: &mut Random) -> Vec<u8> {
    let mut bytes = match random.below(10) {
        0..=4 => codes::composite(random),
        5..=7 => codes::unit(random),
        8 => codes::nearly_wide(random),
        _ => codes::items(random),
    };
    if random.percent(30) {
        codes::damage(random, &mut bytes);
    }
    bytes
}

fn composite_bytes(random: &mut Random) -> Vec<u8> {
    let mut bytes = match random.below(20) {
        0..=16 => codes::composite(random),
        17 => codes::nearly_wide(random),
        _ => codes::items(random),
    };
    if random.percent(30) {
        codes::damage(random, &mut bytes);
    }
    bytes
}

/// Two units that mostly have a distance; a few bits or all differ, and the lengths may.
fn two_units(random: &mut Random) -> (Vec<u8>, Vec<u8>) {
    let mut a = match random.below(20) {
        0 => codes::wide(random),
        1 => codes::items(random),
        _ => codes::unit(random),
    };
    let mut b = a.clone();
    match random.below(5) {
        0 => b = codes::unit(random),
        1 if random.percent(30) => b = codes::nearly_wide(random),
        1 => b = codes::items(random),
        _ if b.len() > 2 && b[0] >> 4 < 5 => {
            b[1] = random.below(8) as u8;
            let body = 4 * (b[1] as usize + 1);
            b.resize(2, 0);
            b.extend(random.bytes(body));
        }
        _ => (),
    }
    if random.percent(15) {
        codes::damage(random, &mut b);
    }
    if random.percent(15) {
        codes::damage(random, &mut a);
    }
    (a, b)
}
