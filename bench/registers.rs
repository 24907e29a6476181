//! Registers with codes out, and calls on them. Each call meets its register as it was made.

use crate::inputs;
use crate::random::Random;
use crate::turns::time;
use std::hint::black_box;
use std::ops::Range;
use std::time::Duration;

pub const PLACE: usize = 48;
pub const PLACES: usize = 256;
/// Bytes before the places: eight counts.
pub const COUNTS: usize = 16;
/// Bytes behind the places: the last number, high byte first.
pub const LAST: usize = 4;
/// So many different registers are taken in turn, each with a text of its own. A cache can hold them.
const REGISTERS: usize = 16;
/// Whom a code is issued to.
pub const BORROWER: u32 = 0x0102_0304;

/// A register, and the part of it that the measured call may change.
#[derive(Clone)]
pub struct Register {
    pub area: Vec<u8>,
    /// As they were made: the counts, the last number, and the bytes of some places from an offset on.
    counts: [u8; COUNTS],
    last: [u8; LAST],
    offset: usize,
    part: Vec<u8>,
}

impl Register {
    /// The call may change the counts, the last number and these places.
    fn new(area: Vec<u8>, places: Range<usize>) -> Register {
        let [offset, end] = [places.start, places.end].map(|place| COUNTS + PLACE * place);
        let part = area[offset..end].to_vec();
        Register { counts: *area.first_chunk().unwrap(), last: *area.last_chunk().unwrap(), area, offset, part }
    }

    /// A replay may change every place.
    pub fn whole(area: Vec<u8>) -> Register {
        Register::new(area, 0..PLACES)
    }

    /// Undoes what the measured call changed.
    pub fn put_back(&mut self) {
        self.area[..COUNTS].copy_from_slice(&self.counts);
        *self.area.last_chunk_mut().unwrap() = self.last;
        self.area[self.offset..self.offset + self.part.len()].copy_from_slice(&self.part);
    }
}

/// How the codes of a register differ.
#[derive(Clone, Copy)]
pub enum Codes {
    /// Random composites of all five units.
    Random,
    /// The same, alike but for the last four bytes.
    Alike,
    /// Random units and composites of several lengths.
    Mixed,
}

/// Which code a text holds.
#[derive(Clone, Copy, PartialEq)]
pub enum Wanted {
    Out,
    NotOut,
}

/// The next code that is none of these.
pub fn another(held: &[Vec<u8>], mut next: impl FnMut() -> Vec<u8>) -> Vec<u8> {
    loop {
        let code = next();
        if !held.contains(&code) {
            return code;
        }
    }
}

/// So many codes in rising order, none of them twice.
pub fn codes_in_order(codes: Codes, count: usize, random: &mut Random) -> Vec<Vec<u8>> {
    let like = inputs::composite(random);
    let mut all = Vec::new();
    while all.len() < count {
        all.push(another(&all, || match codes {
            Codes::Random => inputs::composite(random),
            Codes::Alike => [&like[..like.len() - 4], &random.bytes(4)].concat(),
            Codes::Mixed => inputs::mixed(random),
        }));
    }
    all.sort();
    all
}

/// The places that are not free.
pub fn used_places(area: &[u8]) -> impl Iterator<Item = &[u8]> {
    area[COUNTS..].chunks_exact(PLACE).filter(|place| place[0] != 0)
}

/// Writes the counts of the places that are not free: all of them, and those of each main type, which is in the first four bits
/// of a code.
pub fn count(area: &mut [u8]) {
    let mut counts = [0u16; COUNTS / 2];
    for place in used_places(area) {
        counts[0] += 1;
        counts[1 + (place[1] >> 4) as usize] += 1;
    }
    area[..COUNTS].copy_from_slice(&counts.map(u16::to_be_bytes).concat());
}

pub fn last_number(area: &[u8]) -> u32 {
    u32::from_be_bytes(*area.last_chunk().unwrap())
}

/// The register of these codes, which are in order. Its last number is any of the lower half, so that many are left.
pub fn area_of(codes: &[Vec<u8>], random: &mut Random) -> Vec<u8> {
    let mut area = vec![0; COUNTS + PLACES * PLACE + LAST];
    for (place, code) in area[COUNTS..].chunks_exact_mut(PLACE).zip(codes) {
        place[0] = code.len() as u8;
        place[1..=code.len()].copy_from_slice(code);
        place[PLACE - 4..].copy_from_slice(&random.bytes(4));
    }
    area[COUNTS + PLACES * PLACE..].copy_from_slice(&random.bytes(LAST));
    area[COUNTS + PLACES * PLACE] &= 0x7f;
    count(&mut area);
    area
}

/// A place of the part that belongs to a register by its number, where all places are parted evenly among the registers. Places
/// at even distances would not do: a search that halves is sooner at such ones than at most others.
fn place_in_part(number: usize, places: usize, random: &mut Random) -> usize {
    let [start, end] = [number, number + 1].map(|number| number * places / REGISTERS);
    start + random.below((end - start).max(1))
}

/// Texts as they are written, and a register for each, with so many codes out. Wanted are codes from all parts of the order.
pub fn made(codes: Codes, out: usize, wanted: Wanted) -> (Vec<Vec<u8>>, Vec<Register>) {
    let case = |number: usize| {
        let random = &mut Random::of_case(20, out as u64, number as u64);
        let count = if wanted == Wanted::Out { out } else { out + 1 };
        let mut all = codes_in_order(codes, count, random);
        let place = place_in_part(number, count, random);
        let code = if wanted == Wanted::Out { all[place].clone() } else { all.remove(place) };
        let area = area_of(&all, random);
        // From its place on, up to and with the first that is free.
        let changed = place.min(PLACES)..(out + 1).min(PLACES);
        (inputs::spelt(&code), Register::new(area, changed))
    };
    (0..REGISTERS).map(case).unzip()
}

/// Calls with the texts in turn, each on its register, and the time of them. The clock stands still while registers are put
/// back. What a call answers is used, so that none can be left out.
pub fn over<T>(
    texts: &[Vec<u8>],
    registers: &mut [Register],
    calls: usize,
    mut call: impl FnMut(&[u8], &mut [u8]) -> T,
) -> Duration {
    let mut taken = Duration::ZERO;
    for done in (0..calls).step_by(texts.len()) {
        let registers = &mut registers[..texts.len().min(calls - done)];
        taken += time(|| {
            for (text, register) in texts.iter().zip(&mut *registers) {
                black_box(call(black_box(text), black_box(&mut register.area)));
            }
        });
        registers.iter_mut().for_each(Register::put_back);
    }
    taken
}
