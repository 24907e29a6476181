//! What is measured: random codes, spelt in several ways.

use crate::random::Random;

/// So many different inputs are taken in turn, so that no branch can be learnt by heart.
const VARIANTS: u64 = 64;

fn case_of(number: u64) -> Random {
    Random::of_case(68, 0, number)
}

fn variants(make: impl Fn(&mut Random) -> Vec<u8>) -> Vec<Vec<u8>> {
    (0..VARIANTS).map(|number| make(&mut case_of(number))).collect()
}

/// Large ones are few, together not above a MiB, so that a cache can hold them.
pub fn bytes(length: usize) -> Vec<Vec<u8>> {
    let count = (1024 * 1024 / length as u64).clamp(1, VARIANTS);
    (0..count).map(|number| case_of(number).bytes(length)).collect()
}

fn encoded(bytes: &[u8]) -> Vec<u8> {
    let mut text = vec![0; 2 * bytes.len()];
    let (number, length) = plain::base32_write(bytes, &mut text);
    assert_eq!(number, 0);
    text.truncate(length);
    text
}

/// Text of so many random bytes.
pub fn runs(length: usize) -> Vec<Vec<u8>> {
    bytes(length).iter().map(|bytes| encoded(bytes)).collect()
}

/// A composite of all five units: 42 bytes, 68 characters.
pub fn composite(random: &mut Random) -> Vec<u8> {
    [vec![0x50 | random.below(5) as u8, 7], random.bytes(40)].concat()
}

/// Headers and the bytes behind them: units of 32 and of 64 bits, composites of two to five units.
const HEADS: [([u8; 2], usize); 6] =
    [([0x30, 0], 4), ([0x40, 1], 8), ([0x55, 0], 16), ([0x56, 4], 24), ([0x50, 6], 32), ([0x50, 7], 40)];

/// A code of any of six lengths, from 6 to 42 bytes.
pub fn mixed(random: &mut Random) -> Vec<u8> {
    let (head, body) = random.pick(&HEADS);
    [head.to_vec(), random.bytes(body)].concat()
}

pub fn codes() -> Vec<Vec<u8>> {
    variants(composite)
}

/// A code as it is written.
pub fn spelt(code: &[u8]) -> Vec<u8> {
    [b"ISCC:".to_vec(), encoded(code)].concat()
}

pub fn written() -> Vec<Vec<u8>> {
    variants(|random| spelt(&composite(random)))
}

fn changed(mut texts: Vec<Vec<u8>>, change: impl Fn(&mut Vec<u8>)) -> Vec<Vec<u8>> {
    texts.iter_mut().for_each(change);
    texts
}

/// Refused with 4 for the first character behind the scheme.
pub fn outside_first() -> Vec<Vec<u8>> {
    changed(written(), |text| text[5] = b'1')
}

/// Refused with 4 for the last character.
pub fn outside_last() -> Vec<Vec<u8>> {
    changed(written(), |text| *text.last_mut().unwrap() = b'1')
}

/// Refused with 5: 67 characters are 3 over a multiple of 8.
pub fn one_missing() -> Vec<Vec<u8>> {
    changed(written(), |text| text.truncate(text.len() - 1))
}

/// Refused with 7: the first nibble is 1111.
pub fn no_header() -> Vec<Vec<u8>> {
    changed(written(), |text| text[5] = b'7')
}

/// The 68 characters alone, in small letters and in groups of eight.
pub fn typed() -> Vec<Vec<u8>> {
    variants(|random| encoded(&composite(random)).chunks(8).collect::<Vec<_>>().join(&b'-').to_ascii_lowercase())
}

/// So many units of one composite, in any order; two are DATA and INSTANCE.
pub fn units(count: usize) -> Vec<Vec<u8>> {
    variants(|random| {
        let subtype = random.below(5) as u8;
        shuffled(random, &[0x30, 0x40, 0x00, 0x10 | subtype, 0x20 | subtype][..count])
    })
}

/// Units of 64 bits with these first bytes, in any order.
fn shuffled(random: &mut Random, heads: &[u8]) -> Vec<u8> {
    let mut units: Vec<Vec<u8>> = heads.iter().map(|&head| random.unit(head, 1)).collect();
    random.shuffle(&mut units);
    units.concat()
}

/// Refused with 12: DATA is in it twice, SEMANTIC is not.
pub fn data_twice() -> Vec<Vec<u8>> {
    variants(|random| encoded(&shuffled(random, &[0x30, 0x30, 0x40, 0x00, 0x20])))
}

pub fn listed() -> Vec<Vec<u8>> {
    units(5).iter().map(|bytes| encoded(bytes)).collect()
}

/// A written text with hyphens behind it up to a length.
pub fn stretched(length: usize) -> Vec<Vec<u8>> {
    let mut texts = variants(|random| spelt(&random.unit(0x30, 7)));
    texts.iter_mut().for_each(|text| text.resize(length, b'-'));
    texts
}

/// Bytes of a unit of 64 bits.
pub const UNIT: usize = 10;

/// So many DATA units end to end: read to the last, then refused with 12.
pub fn long_list(count: usize) -> Vec<Vec<u8>> {
    (0..4).map(|case| Random::of_case(12, count as u64, case).unit(0x30, 1).repeat(count)).collect()
}

/// DATA units with bodies of so many bits.
pub fn data_units(bits: usize) -> Vec<Vec<u8>> {
    variants(|random| random.unit(0x30, (bits / 32 - 1) as u8))
}

trait Units {
    /// The body of a unit with this length number is random.
    fn unit(&mut self, head: u8, length: u8) -> Vec<u8>;
}

impl Units for Random {
    fn unit(&mut self, head: u8, length: u8) -> Vec<u8> {
        [vec![head, length], self.bytes(4 * (length as usize + 1))].concat()
    }
}
