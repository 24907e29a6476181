//! The register of loans: counts of the codes that are out, then the used places, in rising order of their codes, and at the
//! end the last number. Every call tests the whole area before it reads or writes a place.

use crate::doors::{code_of, Code, LONGEST_CODE};
use crate::items;
use std::cmp::Ordering;

const PLACES: usize = 256;
const PLACE: usize = 48;
/// In a place: the length of the code, its bytes filled up with zeros, a zero byte, the borrower.
const ZERO: usize = 1 + LONGEST_CODE;
const BORROWER: usize = ZERO + 1;

/// In front of the places: the codes that are out, and those of each main type.
const COUNTS: usize = 8;

type Place = [u8; PLACE];
/// A number, high byte first.
type Count = [u8; 2];
/// The record number of the last change, high byte first.
type LastNumber = [u8; 4];

/// The parts of a register, how many of its places are used, and the record number of the last change.
pub struct Register<'a> {
    counts: &'a mut [Count],
    places: &'a mut [Place],
    last_number: &'a mut LastNumber,
    used: usize,
    pub last: u32,
}

pub fn is_code(bytes: &[u8]) -> bool {
    items::read(bytes).is_ok_and(|item| item.used() == bytes.len())
}

fn are_zeros(bytes: &[u8]) -> bool {
    bytes.iter().fold(0, |all, byte| all | byte) == 0
}

/// With its fill: no code is the beginning of another, so that codes compare as without it, but in one known length.
fn code_in(place: &Place) -> &[u8; LONGEST_CODE] {
    place[1..].first_chunk().unwrap()
}

/// It is in the first four bits of a code.
fn main_type(code: &[u8; LONGEST_CODE]) -> usize {
    (code[0] >> 4) as usize
}

/// Whether a place that is not free holds a code.
fn is_loan(place: &Place) -> bool {
    let length = place[0] as usize;
    length <= LONGEST_CODE && is_code(&place[1..=length]) && are_zeros(&place[1 + length..BORROWER])
}

/// Whether places are all zeros. No byte ends the loop, so that it goes many at a time.
fn are_free(places: &[Place]) -> bool {
    let mut all = [0; PLACE];
    for place in places {
        all.iter_mut().zip(place).for_each(|(all, byte)| *all |= byte);
    }
    all == [0; PLACE]
}

/// The counts of the places, if each used one holds a code behind the one before it and all the others are free.
fn count(places: &[Place]) -> Option<[u16; COUNTS]> {
    let mut counts = [0; COUNTS];
    let mut before = None;
    for (used, place) in places.iter().enumerate() {
        if place[0] == 0 {
            return are_free(&places[used..]).then_some(counts);
        }
        if !is_loan(place) || before.is_some_and(|before| before >= code_in(place)) {
            return None;
        }
        before = Some(code_in(place));
        counts[0] += 1;
        counts[1 + main_type(code_in(place))] += 1;
    }
    Some(counts)
}

/// The counts and the places of an area that has the length of a register.
fn parts(area: &[u8]) -> Option<(&[Count], &[Place])> {
    let (counts, rest) = area.split_at_checked(COUNTS * size_of::<Count>())?;
    let (places, last_number) = rest.as_chunks();
    let whole = places.len() == PLACES && last_number.len() == size_of::<LastNumber>();
    whole.then_some((counts.as_chunks().0, places))
}

/// The counts of an area that is a register, and its used places, or 23.
fn read(area: &[u8]) -> Result<([u16; COUNTS], &[Place]), u32> {
    let (stated, places) = parts(area).ok_or(23u32)?;
    let counts = count(places).ok_or(23u32)?;
    if stated != counts.map(u16::to_be_bytes) {
        return Err(23);
    }
    Ok((counts, &places[..counts[0] as usize]))
}

/// Halves the used places: where the code stands, or else where it would, and how many of them were looked at.
fn search(used: &[Place], code: &Code) -> (Result<usize, usize>, u32) {
    let (mut first, mut count, mut looks) = (0, used.len(), 0);
    while count > 0 {
        let half = count / 2;
        looks += 1;
        match code.bytes.cmp(code_in(&used[first + half])) {
            Ordering::Equal => return (Ok(first + half), looks),
            Ordering::Less => count = half,
            Ordering::Greater => {
                first += half + 1;
                count -= half + 1;
            }
        }
    }
    (Err(first), looks)
}

fn place_of(code: &Code, borrower: u32) -> Place {
    let mut place = [0; PLACE];
    place[0] = code.length as u8;
    place[1..ZERO].copy_from_slice(&code.bytes);
    place[BORROWER..].copy_from_slice(&borrower.to_be_bytes());
    place
}

impl Register<'_> {
    /// Of an area that is a register, or 23.
    pub fn of(area: &mut [u8]) -> Result<Register<'_>, u32> {
        let used = read(area)?.1.len();
        let (counts, rest) = area.split_at_mut(COUNTS * size_of::<Count>());
        let (places, last_number) = rest.split_last_chunk_mut().unwrap();
        let last = u32::from_be_bytes(*last_number);
        Ok(Register { counts: counts.as_chunks_mut().0, places: places.as_chunks_mut().0, last_number, used, last })
    }

    /// The number that the next change takes, or 26.
    fn next(&self) -> Result<u32, u32> {
        self.last.checked_add(1).ok_or(26)
    }

    /// A change has taken this number.
    pub fn take(&mut self, number: u32) {
        self.last = number;
        *self.last_number = number.to_be_bytes();
    }

    /// The count of all codes and that of this one's main type change.
    fn recount(&mut self, code: &Code, change: impl Fn(u16) -> u16) {
        for at in [0, 1 + main_type(&code.bytes)] {
            self.counts[at] = change(u16::from_be_bytes(self.counts[at])).to_be_bytes();
        }
    }

    fn find(&self, code: &Code) -> Result<usize, usize> {
        search(&self.places[..self.used], code).0
    }

    /// The code goes to the borrower, and those behind it one place up: 20, 21.
    pub fn put_out(&mut self, code: &Code, borrower: u32) -> Result<(), u32> {
        let Err(at) = self.find(code) else { return Err(20) };
        if self.used == PLACES {
            return Err(21);
        }
        self.places.copy_within(at..self.used, at + 1);
        self.places[at] = place_of(code, borrower);
        self.used += 1;
        self.recount(code, |count| count + 1);
        Ok(())
    }

    /// The code comes back, and those behind it go one place down: 22.
    pub fn put_back(&mut self, code: &Code) -> Result<(), u32> {
        let Ok(at) = self.find(code) else { return Err(22) };
        self.places.copy_within(at + 1..self.used, at);
        self.used -= 1;
        self.places[self.used] = [0; PLACE];
        self.recount(code, |count| count - 1);
        Ok(())
    }
}

fn issued(text: &[u8], borrower: u32, area: &mut [u8]) -> Result<u32, u32> {
    let code = code_of(text)?;
    let mut register = Register::of(area)?;
    let number = register.next()?;
    register.put_out(&code, borrower)?;
    register.take(number);
    Ok(number)
}

fn taken_back(text: &[u8], area: &mut [u8]) -> Result<u32, u32> {
    let code = code_of(text)?;
    let mut register = Register::of(area)?;
    let number = register.next()?;
    register.put_back(&code)?;
    register.take(number);
    Ok(number)
}

fn changed(answer: Result<u32, u32>) -> (u32, u32) {
    answer.map_or_else(|number| (number, 0), |taken| (0, taken))
}

/// Who has the code, if it is out, and how many places were looked at.
fn asked(text: &[u8], area: &[u8]) -> Result<(Option<u32>, u32), u32> {
    let code = code_of(text)?;
    let (_, used) = read(area)?;
    let (place, looks) = search(used, &code);
    Ok((place.ok().map(|at| u32::from_be_bytes(*used[at].last_chunk().unwrap())), looks))
}

/// The number, the record number that the change took.
#[inline(never)]
pub fn issue(text: &[u8], borrower: u32, area: &mut [u8]) -> (u32, u32) {
    changed(issued(text, borrower, area))
}

/// The number, the record number that the change took.
#[inline(never)]
pub fn take_back(text: &[u8], area: &mut [u8]) -> (u32, u32) {
    changed(taken_back(text, area))
}

/// The number, the borrower, the looks.
#[inline(never)]
pub fn ask(text: &[u8], area: &[u8]) -> (u32, u32, u32) {
    match asked(text, area) {
        Err(number) => (number, 0, 0),
        Ok((None, looks)) => (22, 0, looks),
        Ok((Some(borrower), looks)) => (0, borrower, looks),
    }
}

/// The number, the counts.
#[inline(never)]
pub fn counts(area: &[u8]) -> (u32, [u32; COUNTS]) {
    read(area).map_or_else(|number| (number, [0; COUNTS]), |(counts, _)| (0, counts.map(u32::from)))
}
