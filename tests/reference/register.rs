//! The loans register: who has which code, in one area of counts, 256 places and the number of the last record. The used
//! places come first, in rising order of their code bytes; the others are free.

use crate::doors::{code_bytes, LONGEST_CODE};
use crate::refusal::{ALL_OUT, ALREADY_OUT, NOT_OUT, NOT_REGISTER, NUMBERS_SPENT};
use crate::unit::{self, CONTENT, DATA, ID, INSTANCE, ISCC, META, SEMANTIC};
use crate::{demand, Answer};
use std::cmp::Ordering;
use std::collections::BTreeMap;

/// The bytes of the counts, which stand before the places; the places of a register, and the bytes of each.
pub const COUNTS: usize = 16;
pub const PLACES: usize = 256;
pub const PLACE: usize = 48;
/// Where the last number stands, behind the places: four bytes, high byte first.
pub const LAST: usize = COUNTS + PLACES * PLACE;
pub const LENGTH: usize = LAST + 4;

/// Where the parts of a place start: behind its length byte the code, filled up with zeros, then a zero byte.
pub const CODE: usize = 1;
pub const ZERO: usize = 43;
pub const BORROWER: usize = 44;

/// A code that is out, and who has it.
struct Loan {
    code: Vec<u8>,
    borrower: u32,
}

/// What stands in a register: its loans in their order, and the number of the last record that was applied or taken by a
/// live call, 0 where there was none.
struct Register {
    loans: Vec<Loan>,
    last: u32,
}

/// What an accepted issue or return leaves, and the record number that it took.
pub struct Changed {
    pub record_number: u32,
    pub area: Vec<u8>,
}

/// What a question answers. A refusal has borrower 0; of all refusals 22 alone has looks.
pub struct Held {
    pub number: u32,
    pub borrower: u32,
    pub looks: u32,
}

/// How many codes are out: in all, then for main types 0 to 6.
pub type Counts = [u32; 8];

/// Who has which code, as a plain map.
pub type Loans = BTreeMap<Vec<u8>, u32>;

fn zeros(bytes: &[u8]) -> bool {
    bytes.iter().all(|&byte| byte == 0)
}

/// The number that some bytes are, high byte first.
fn four_bytes(bytes: &[u8]) -> u32 {
    bytes.iter().fold(0, |number, &byte| number << 8 | byte as u32)
}

/// Whether the bytes are one permitted unit or composite, and nothing behind it.
pub(crate) fn is_one_code(bytes: &[u8]) -> bool {
    unit::read(bytes).is_ok_and(|(_, used)| used == bytes.len())
}

/// What one place holds, nothing where it is free; 23 where it is neither.
fn loan_at(place: &[u8]) -> Answer<Option<Loan>> {
    let length = place[0] as usize;
    if length == 0 {
        demand(zeros(place), NOT_REGISTER)?;
        return Ok(None);
    }
    demand(length <= LONGEST_CODE, NOT_REGISTER)?;
    let (code, fill) = place[CODE..ZERO].split_at(length);
    demand(is_one_code(code), NOT_REGISTER)?;
    demand(zeros(fill), NOT_REGISTER)?;
    demand(place[ZERO] == 0, NOT_REGISTER)?;
    let borrower = four_bytes(&place[BORROWER..]);
    Ok(Some(Loan { code: code.to_vec(), borrower }))
}

/// The main type of the unit or composite that a code is, which no bytes have that are no code.
fn main_type(code: &[u8]) -> Option<u32> {
    unit::read(code).ok().map(|(item, _)| item.main_type())
}

/// The codes out, and the codes out for each main type.
fn counted(loans: &[Loan]) -> Counts {
    let types: Vec<Option<u32>> = loans.iter().map(|loan| main_type(&loan.code)).collect();
    let of = |one| types.iter().filter(|&&found| found == Some(one)).count() as u32;
    [loans.len() as u32, of(META), of(SEMANTIC), of(CONTENT), of(DATA), of(INSTANCE), of(ISCC), of(ID)]
}

/// The counts as they stand before the places: two bytes each, high byte first.
pub fn counts_bytes(counts: Counts) -> Vec<u8> {
    counts.into_iter().flat_map(|count| [(count >> 8) as u8, count as u8]).collect()
}

/// Which of two codes comes first: byte by byte, and a beginning of the other before it.
fn order(one: &[u8], other: &[u8]) -> Ordering {
    one.cmp(other)
}

/// Whether the first of two neighbours comes before the second; equal codes do not.
fn rises(two: &[Loan]) -> bool {
    order(&two[0].code, &two[1].code).is_lt()
}

/// What stands in an area; 23 where it is no register. Every last number is good.
fn register(area: &[u8]) -> Answer<Register> {
    demand(area.len() == LENGTH, NOT_REGISTER)?;
    let (counts, places, last) = (&area[..COUNTS], &area[COUNTS..LAST], &area[LAST..]);
    let places = places.chunks(PLACE).map(loan_at).collect::<Answer<Vec<_>>>()?;
    demand(places.iter().skip_while(|place| place.is_some()).all(Option::is_none), NOT_REGISTER)?;
    let loans: Vec<Loan> = places.into_iter().flatten().collect();
    demand(loans.windows(2).all(rises), NOT_REGISTER)?;
    demand(counts == counts_bytes(counted(&loans)), NOT_REGISTER)?;
    Ok(Register { loans, last: four_bytes(last) })
}

/// The bytes of a place that holds this loan.
pub fn place_of(code: &[u8], borrower: u32) -> Vec<u8> {
    let mut place = vec![code.len() as u8];
    place.extend(code);
    place.resize(BORROWER, 0);
    place.extend(borrower.to_be_bytes());
    place
}

/// The register of some loans in their order: all of them counted, then their places, free ones behind, and the last number.
fn area_of(loans: &[Loan], last: u32) -> Vec<u8> {
    let mut area = counts_bytes(counted(loans));
    area.extend(loans.iter().flat_map(|loan| place_of(&loan.code, loan.borrower)));
    area.resize(LAST, 0);
    area.extend(last.to_be_bytes());
    area
}

/// What a register holds, wherever it stands there, and the number of the last record: 23.
pub(crate) fn held(area: &[u8]) -> Answer<(Loans, u32)> {
    let Register { loans, last } = register(area)?;
    Ok((loans.into_iter().map(|loan| (loan.code, loan.borrower)).collect(), last))
}

/// The number of the last record: 23.
pub(crate) fn last_number(area: &[u8]) -> Answer<u32> {
    Ok(register(area)?.last)
}

/// The number that a live change takes: 23, 26.
fn next_number(area: &[u8]) -> Answer<u32> {
    last_number(area)?.checked_add(1).ok_or(NUMBERS_SPENT)
}

/// The register after the issue of a code under a record number: 23, 20, 21. The new loan stands behind all whose codes come
/// before it.
pub(crate) fn issue_code(code: &[u8], borrower: u32, number: u32, area: &[u8]) -> Answer<Vec<u8>> {
    let mut loans = register(area)?.loans;
    demand(!loans.iter().any(|loan| loan.code == code), ALREADY_OUT)?;
    demand(loans.len() < PLACES, ALL_OUT)?;
    let place = loans.iter().filter(|loan| order(&loan.code, code).is_lt()).count();
    loans.insert(place, Loan { code: code.to_vec(), borrower });
    Ok(area_of(&loans, number))
}

/// The register after the return of a code under a record number: 23, 22. The loans behind it close the gap.
pub(crate) fn take_code_back(code: &[u8], number: u32, area: &[u8]) -> Answer<Vec<u8>> {
    let mut loans = register(area)?.loans;
    let place = loans.iter().position(|loan| loan.code == code).ok_or(NOT_OUT)?;
    loans.remove(place);
    Ok(area_of(&loans, number))
}

/// A code among loans in their order: its borrower, if it is out, and how many of them were looked at. Each look is at the
/// middle of those that remain, the first of them plus half their count, rounded down; then only the part before it or the
/// part behind it remains.
fn searched(loans: &[Loan], code: &[u8]) -> (Option<u32>, u32) {
    let (mut remaining, mut looks) = (loans, 0);
    while !remaining.is_empty() {
        let half = remaining.len() / 2;
        let middle = &remaining[half];
        looks += 1;
        match order(code, &middle.code) {
            Ordering::Equal => return (Some(middle.borrower), looks),
            Ordering::Less => remaining = &remaining[..half],
            Ordering::Greater => remaining = &remaining[half + 1..],
        }
    }
    (None, looks)
}

/// An issue: intake's numbers, then 23, 26, 20, 21.
pub fn issue(text: &[u8], borrower: u32, area: &[u8]) -> Answer<Changed> {
    let code = code_bytes(text)?;
    let record_number = next_number(area)?;
    let area = issue_code(&code, borrower, record_number, area)?;
    Ok(Changed { record_number, area })
}

/// A return: intake's numbers, then 23, 26, 22.
pub fn take_back(text: &[u8], area: &[u8]) -> Answer<Changed> {
    let code = code_bytes(text)?;
    let record_number = next_number(area)?;
    let area = take_code_back(&code, record_number, area)?;
    Ok(Changed { record_number, area })
}

/// Who has a code: intake's numbers, then 23, 22. It takes no number, so it needs none.
pub fn ask(text: &[u8], area: &[u8]) -> Held {
    let found = code_bytes(text).and_then(|code| Ok(searched(&register(area)?.loans, &code)));
    match found {
        Err(number) => Held { number, borrower: 0, looks: 0 },
        Ok((None, looks)) => Held { number: NOT_OUT, borrower: 0, looks },
        Ok((Some(borrower), looks)) => Held { number: 0, borrower, looks },
    }
}

/// How many codes are out: 23.
pub fn counts(area: &[u8]) -> Answer<Counts> {
    Ok(counted(&register(area)?.loans))
}
