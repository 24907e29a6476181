//! What the outside tests share: the public calls as data, the library's answer to one, and the reference's.

pub mod area;
pub mod call;
pub mod expected;
pub mod fence;
pub mod hex;
pub mod library;
pub mod lines;
pub mod memcheck;
pub mod room;
pub mod sequence;
pub mod table;
pub mod tally;
pub mod told;
pub mod words;
