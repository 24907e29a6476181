//! May a replica be promoted? The log is replayed from an empty register in a work area, and what it leaves there has to hold
//! what the replica holds: the same codes, borrowers and last number.

use crate::log::{self, End, Replayed};
use crate::refusal::{AREA_TOO_SHORT, LAST_NUMBERS_DIFFER, LOANS_DIFFER, LOG_TORN};
use crate::register::{self, Loans, LENGTH};
use crate::{demand, Answer};
use std::collections::BTreeSet;

/// What the checker answers; number 0 is yes. The offset in the log is that of the record that stops the replay or is torn,
/// the code is that of 37; else they are 0 and empty.
#[derive(Default)]
pub struct Verdict {
    pub number: u32,
    pub offset: usize,
    pub code: Vec<u8>,
}

/// What is asked of both areas before anything is written: 23 for the replica, then 15 for the work area.
fn demand_areas(replica: &[u8], work: &[u8]) -> Answer<()> {
    register::held(replica)?;
    demand(work.len() >= LENGTH, AREA_TOO_SHORT)
}

/// The least code, in byte order, that one register alone holds, or both with different borrowers.
fn least_difference(one: &Loans, other: &Loans) -> Option<Vec<u8>> {
    let codes: BTreeSet<&Vec<u8>> = one.keys().chain(other.keys()).collect();
    codes.into_iter().find(|&code| one.get(code) != other.get(code)).cloned()
}

/// Both registers against each other: 37, then 27.
fn compared(logged: &[u8], replica: &[u8]) -> Answer<Verdict> {
    let ((logged, logged_last), (held, held_last)) = (register::held(logged)?, register::held(replica)?);
    if let Some(code) = least_difference(&logged, &held) {
        return Ok(Verdict { number: LOANS_DIFFER, offset: 0, code });
    }
    demand(logged_last == held_last, LAST_NUMBERS_DIFFER)?;
    Ok(Verdict::default())
}

/// What the replay from empty says of the replica: its own number or 36, each with its offset, else what the registers say.
fn judged(replayed: &Replayed, replica: &[u8]) -> Verdict {
    let offset = replayed.offset;
    match replayed.end {
        End::Stopped => Verdict { number: replayed.number, offset, code: Vec::new() },
        End::Torn => Verdict { number: LOG_TORN, offset, code: Vec::new() },
        _ => compared(&replayed.area, replica).unwrap_or_else(|number| Verdict { number, ..Verdict::default() }),
    }
}

/// The checker: 23, 15, the replay's own numbers, 36, 37, 27. Beside the answer stands the work area afterwards: as it was on
/// 23 and 15, else what the replay left, and behind it what stood there.
pub fn promote(log: &[u8], replica: &[u8], work: &[u8]) -> (Verdict, Vec<u8>) {
    if let Err(number) = demand_areas(replica, work) {
        return (Verdict { number, ..Verdict::default() }, work.to_vec());
    }
    let replayed = log::replay(log, &[0; LENGTH]);
    let verdict = judged(&replayed, replica);
    (verdict, [&replayed.area, &work[LENGTH..]].concat())
}
