//! Random registers, and areas that are none by one fault.

use crate::random::Random;
use crate::{codes, counts, records, texts};
use harness::area::places;
use harness::call::{Call, Request};
use reference::register::{place_of, BORROWER, CODE, COUNTS, LAST, LENGTH, PLACE, PLACES, ZERO};
use std::collections::BTreeMap;

/// Who has which code.
pub type Loans = BTreeMap<Vec<u8>, u32>;

/// Any borrower; those at the ends of a byte or a sign more often.
pub fn borrower(random: &mut Random) -> u32 {
    let any = random.next() as u32;
    random.pick(&[any, any, any, 0, 1, 255, 256, 1 << 31, u32::MAX])
}

/// Any number of a last record: none yet, those at the ends of a byte, and those about the greatest more often.
pub fn last_number(random: &mut Random) -> u32 {
    let any = random.next() as u32;
    let borders = [1, 254, 255, 256, 65_534, 65_535, 65_536, (1 << 24) - 1, 1 << 24, (1 << 31) - 1, 1 << 31];
    let border = random.pick(&borders);
    random.pick(&[0, 0, 0, border, border, border, any, any, u32::MAX - 3, u32::MAX - 2, u32::MAX - 1, u32::MAX, u32::MAX])
}

/// Makes this the number of the last record.
pub fn put_last(area: &mut [u8], number: u32) {
    area[LAST..LENGTH].copy_from_slice(&number.to_be_bytes());
}

/// A register, and codes of which so many as are out come first, in their order.
pub struct Filled {
    pub area: Vec<u8>,
    pub codes: Vec<Vec<u8>>,
    pub used: usize,
}

/// A register of random codes: few, all, nearly all, or as many as bring a question one look more.
fn register(random: &mut Random) -> Filled {
    let used = match random.below(10) {
        0..=5 => random.below(9),
        6 => random.pick(&[15, 16, 17, 31, 32, 33, 63, 64, 65, 127, 128, 129]),
        7 => random.below(PLACES),
        8 => PLACES - random.below(4),
        _ => PLACES,
    };
    register_of(random, used)
}

/// The same with so many codes out, and a few others in the list; some have codes of one main type alone.
pub fn register_of(random: &mut Random, used: usize) -> Filled {
    let mut codes = match random.percent(5) {
        true => codes::with_one_header(random, used + 4),
        false => codes::different(random, used + 4),
    };
    codes[..used].sort();
    let mut area = vec![0; LENGTH];
    for (place, code) in codes[..used].iter().enumerate() {
        let borrower = borrower(random);
        bytes_of(&mut area, place).copy_from_slice(&place_of(code, borrower));
    }
    counts::put(&mut area);
    put_last(&mut area, last_number(random));
    Filled { area, codes, used }
}

/// The register of these loans.
pub fn of_loans(loans: &Loans, last: u32) -> Vec<u8> {
    let mut area = vec![0; LENGTH];
    for (place, (code, &borrower)) in loans.iter().enumerate() {
        bytes_of(&mut area, place).copy_from_slice(&place_of(code, borrower));
    }
    counts::put(&mut area);
    put_last(&mut area, last);
    area
}

/// The loans of an area, which is mostly a register.
pub fn loans_in(area: &[u8]) -> Loans {
    let used = places(area).chunks_exact(PLACE).filter(|place| place[0] != 0);
    let borrower = |place: &[u8]| place[BORROWER..].iter().fold(0, |number, &byte| number << 8 | u32::from(byte));
    used.map(|place| (code_in(place).to_vec(), borrower(place))).collect()
}

/// A code that is out, the first and the last of them more often; or one that is mostly not, the least and the greatest of
/// all codes among them.
fn chosen(random: &mut Random, filled: &Filled) -> Vec<u8> {
    let Filled { codes, used, .. } = filled;
    match random.below(20) {
        0..=6 if *used > 0 => codes[random.below(*used)].clone(),
        7..=8 if *used > 0 => codes[0].clone(),
        9 if *used > 0 => codes[used - 1].clone(),
        10..=12 => codes::least(),
        13 => codes::greatest(),
        _ => codes[used + random.below(codes.len() - used)].clone(),
    }
}

/// A call on a register or on a damaged one, mostly about a code that is out or could be.
pub fn request(random: &mut Random, call: Call) -> Request {
    let filled = register(random);
    let mut second = filled.area.clone();
    if call == Call::Issue && filled.used == PLACES && random.percent(30) {
        put_last(&mut second, u32::MAX);
    }
    if random.percent(55) {
        damage(random, &mut second);
    }
    if call == Call::Counts {
        return Request { second, ..Request::new(call) };
    }
    if call == Call::Replay {
        return Request { first: records::log(random, &filled), second, ..Request::new(call) };
    }
    let code = chosen(random, &filled);
    let borrower = if call == Call::Issue { borrower(random) } else { 0 };
    Request { first: texts::for_loan(random, &code), second, borrower, ..Request::new(call) }
}

fn bytes_of(area: &mut [u8], place: usize) -> &mut [u8] {
    &mut area[COUNTS + place * PLACE..][..PLACE]
}

/// The bytes of a place that are its code by its length.
pub fn code_in(place: &[u8]) -> &[u8] {
    &place[CODE..ZERO.min(CODE + place[0] as usize)]
}

/// One of the places that are used, or of those that are free: the first, the last or any.
fn choose(random: &mut Random, area: &[u8], used: bool) -> Option<usize> {
    let places: Vec<usize> = (0..PLACES).filter(|place| (area[COUNTS + place * PLACE] != 0) == used).collect();
    let (first, last) = (*places.first()?, *places.last()?);
    let any = random.pick(&places);
    Some(random.pick(&[first, last, any]))
}

/// A place at an end or anywhere.
fn any_place(random: &mut Random) -> usize {
    let any = random.below(PLACES);
    random.pick(&[0, PLACES - 1, any, any])
}

/// A used place; where there is none, the first gets a code.
fn used_place(random: &mut Random, area: &mut [u8]) -> usize {
    choose(random, area, true).unwrap_or_else(|| {
        bytes_of(area, 0).copy_from_slice(&place_of(&codes::composite(random), 7));
        0
    })
}

/// A free place; where there is none, the last is freed.
fn free_place(random: &mut Random, area: &mut [u8]) -> usize {
    choose(random, area, false).unwrap_or_else(|| {
        bytes_of(area, PLACES - 1).fill(0);
        PLACES - 1
    })
}

/// One fault, of each kind that makes an area no register: of its length, of its counts, or of its places, which are counted
/// as they then are. A few of them leave a register, only another one.
pub fn damage(random: &mut Random, area: &mut Vec<u8>) {
    match random.below(40) {
        0..=2 => other_length(random, area),
        3..=17 => counts::spoil(random, area),
        _ => {
            spoil_places(random, area);
            counts::put(area);
        }
    }
}

fn spoil_places(random: &mut Random, area: &mut [u8]) {
    match random.below(19) {
        0 => {
            let place = any_place(random);
            bytes_of(area, place).copy_from_slice(&random.bytes(PLACE));
        }
        1 => {
            let at = COUNTS + random.below(LAST - COUNTS);
            area[at] ^= 1 << random.below(8);
        }
        2..=3 => {
            let place = free_place(random, area);
            spoil_free(random, bytes_of(area, place));
        }
        4..=9 => {
            let place = used_place(random, area);
            spoil_used(random, bytes_of(area, place));
            if random.percent(80) {
                put_in_order(area);
            }
        }
        _ => disorder(random, area),
    }
}

/// The used places first, in order by what their lengths say, so that what else is wrong with one is all that is.
fn put_in_order(area: &mut [u8]) {
    let mut places: Vec<Vec<u8>> = places(area).chunks(PLACE).map(<[u8]>::to_vec).collect();
    places.sort_by_cached_key(|place| (place[0] == 0, code_in(place).to_vec()));
    area[COUNTS..LAST].copy_from_slice(&places.concat());
}

/// Without its counts or its last number, cut, or longer by zeros.
fn other_length(random: &mut Random, area: &mut Vec<u8>) {
    let any = random.below(2 * LENGTH);
    let lengths =
        [0, 1, COUNTS, PLACE, LENGTH - PLACE, LENGTH - COUNTS, LENGTH + COUNTS, LENGTH + PLACE, 2 * LENGTH, 65_536];
    match random.below(8) {
        0..=1 => drop(area.drain(..COUNTS)),
        2..=3 => area.truncate(LAST),
        4 => area.truncate(LENGTH - 1),
        5 => area.push(0),
        6 => area.resize(any, 0),
        _ => area.resize(random.pick(&lengths), 0),
    }
}

/// The used places of an area, as they stand.
fn used_places(area: &[u8]) -> Vec<Vec<u8>> {
    places(area).chunks(PLACE).filter(|place| place[0] != 0).map(<[u8]>::to_vec).collect()
}

/// Places that are good one by one: in another order, with a code twice, or with free ones before used ones.
fn disorder(random: &mut Random, area: &mut [u8]) {
    let mut places = used_places(area);
    if places.len() < 3 {
        places = used_places(&register_of(random, 3).area);
    }
    // Room for one more.
    places.truncate(PLACES - 1);
    let last = places.len() - 1;
    let (any, any_before) = (random.below(last), random.below(last + 1));
    // The first of two neighbours, where a copy of it does not stand beside it, and where free places come before used ones.
    let at = random.pick(&[0, last - 1, any, any]);
    let far = if at < places.len() / 2 { places.len() } else { 0 };
    let before = random.pick(&[0, last, any_before]);
    match random.below(12) {
        0 => places.swap(at, at + 1),
        1 => {
            let neighbour = other_last_byte(&places[at], 1);
            let is_behind = code_in(&neighbour) > code_in(&places[at]);
            places.insert(if is_behind { at } else { at + 1 }, neighbour);
        }
        2 => places.insert(at + 1, for_another(random, &places[at])),
        3 => places.insert(far, for_another(random, &places[at])),
        4 => places.insert(before, vec![0; PLACE]),
        5..=6 => {
            let most = PLACES - places.len();
            let any = 1 + random.below(most);
            let count = random.pick(&[2, most, any, any]).min(most);
            places.splice(before..before, vec![vec![0; PLACE]; count]);
        }
        7..=8 => places.sort_by_cached_key(|place| place[..ZERO].to_vec()),
        9 => places.reverse(),
        10 => {
            places.push(other_last_byte(&places[at], 0x80));
            places.sort_by_cached_key(|place| signed(code_in(place)));
        }
        _ => random.shuffle(&mut places),
    }
    area[..LAST].fill(0);
    area[COUNTS..][..places.len() * PLACE].copy_from_slice(&places.concat());
}

/// Bytes as a careless order might take them.
pub fn signed(code: &[u8]) -> Vec<i8> {
    code.iter().map(|&byte| byte as i8).collect()
}

/// A place with a code that differs in this bit of its last byte alone.
fn other_last_byte(place: &[u8], bit: u8) -> Vec<u8> {
    let mut other = place.to_vec();
    other[CODE + place[0] as usize - 1] ^= bit;
    other
}

/// A copy of a place, for the same borrower or another.
fn for_another(random: &mut Random, place: &[u8]) -> Vec<u8> {
    let mut copy = place.to_vec();
    if random.percent(50) {
        copy[BORROWER] ^= 1;
    }
    copy
}

/// A byte of a free place is not zero: any, the zero byte, one of the borrower, or the length alone.
fn spoil_free(random: &mut Random, place: &mut [u8]) {
    let any = random.below(PLACE);
    let at = random.pick(&[0, CODE, ZERO, BORROWER, PLACE - 1, any]);
    place[at] = 1 + random.below(255) as u8;
}

fn spoil_used(random: &mut Random, place: &mut [u8]) {
    let length = place[0];
    let fill = CODE + length as usize;
    match random.below(11) {
        0 => {
            // Of the longest code more bytes could be meant.
            place.copy_from_slice(&place_of(&longest(random), 7));
            place[0] = 43 + random.below(213) as u8;
        }
        1 => place[0] = random.pick(&[length + 64, length + 128, length + 192, 255]),
        2 => {
            let any = 1 + random.below(42) as u8;
            place[0] = random.pick(&[length - 1, length + 1, any]);
        }
        3 => place[CODE + random.below(2)] = random.byte(),
        4 => place[CODE + random.below(2)] ^= 1 << random.below(8),
        5 => {
            let units: Vec<Vec<u8>> = codes::units_of_composite(random).into_iter().take(4).collect();
            place.copy_from_slice(&place_of(&units.concat(), 7));
        }
        6 if fill < ZERO => {
            let any = fill + random.below(ZERO - fill);
            place[random.pick(&[fill, ZERO - 1, any])] = random.byte() | 1;
        }
        7 => place[0] = 0,
        8..=9 => {
            let mut bytes = codes::nearly_wide(random);
            bytes.truncate(42);
            place.copy_from_slice(&place_of(&bytes, 7));
        }
        _ => place[ZERO] = 1 + random.below(255) as u8,
    }
}

/// A composite of all five units.
fn longest(random: &mut Random) -> Vec<u8> {
    [vec![0x50 | random.below(5) as u8, 7], random.bytes(40)].concat()
}
