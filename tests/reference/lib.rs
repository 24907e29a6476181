//! What the specification asks, in plain Rust: written a second time from the requirements, not from our code, to hold the
//! proved code against.
//!
//! It shares nothing with the definitions or the code under `crates/`. It is written to be read beside the specification and
//! not to be fast: bits are lists of booleans, and every call hands back what it would write.

pub mod base32;
pub mod composite;
pub mod distance;
pub mod doors;
pub mod header;
pub mod lines;
pub mod log;
pub mod promotion;
pub mod refusal;
pub mod register;
pub mod unit;

/// What a call answers: its value, or the number of its refusal.
pub type Answer<T> = Result<T, u32>;

/// Refuses with `number` unless the test holds.
pub(crate) fn demand(test: bool, number: u32) -> Answer<()> {
    if test {
        Ok(())
    } else {
        Err(number)
    }
}

/// What a writer writes into an area of `area` bytes.
pub(crate) fn fitted(bytes: Vec<u8>, area: usize) -> Answer<Vec<u8>> {
    demand(bytes.len() <= area, refusal::AREA_TOO_SHORT)?;
    Ok(bytes)
}
