//! Random texts for the doors: written, respelt, damaged, of boundary lengths, and anything at all.

use crate::codes;
use crate::random::Random;
use reference::{base32, composite, doors};

const BLANKS: &[u8] = b" \t\r\n";
/// Bytes that a careless door might drop, fold or read: other blanks, digits, signs, bytes past ASCII.
const STRANGE: &[u8] = b"\0\x0b\x0c\x7f\x80\xa0\xff0189=_:+/.@[`{ -ISCC";

fn insert_anywhere(random: &mut Random, text: &mut Vec<u8>, byte: u8) {
    text.insert(random.below(text.len() + 1), byte);
}

fn blanks(random: &mut Random) -> Vec<u8> {
    (0..random.below(4)).map(|_| random.pick(BLANKS)).collect()
}

/// Any letter case, hyphens, scheme and blanks at the ends: the meaning stays.
fn respell(random: &mut Random, run: &[u8]) -> Vec<u8> {
    let mut text = run.to_vec();
    for _ in 0..random.below(6) {
        insert_anywhere(random, &mut text, b'-');
    }
    if random.percent(50) {
        text.splice(0..0, *b"ISCC:");
    }
    let lower = random.pick(&[0, 50, 100]);
    for byte in &mut text {
        if random.percent(lower) {
            byte.make_ascii_lowercase();
        }
    }
    [blanks(random), text, blanks(random)].concat()
}

/// One fault in the text itself.
fn damage(random: &mut Random, text: &mut Vec<u8>) {
    let at = random.below(text.len() + 1);
    let inside = at < text.len();
    match random.below(8) {
        0 if inside => text[at] = random.pick(STRANGE),
        1 if inside => drop(text.remove(at)),
        2 if inside => text[at] ^= 1 << random.below(8),
        3 => text.insert(at, random.pick(BLANKS)),
        4 => text.splice(0..0, *b"ISCC:").for_each(drop),
        5 => text.insert(0, b'-'),
        6 => text.insert(at, random.pick(STRANGE)),
        _ => text.insert(at, b'A' + random.below(26) as u8),
    }
}

/// Fills up to a length at a limit, with blanks at the ends or hyphens anywhere.
fn stretch(random: &mut Random, text: &mut Vec<u8>) {
    let length = random.pick(&[72, 73, 74, 80, 81, 1023, 1024, 1025, 1026, 2000]);
    let hyphens = random.percent(50);
    while text.len() < length {
        match (hyphens, random.percent(50)) {
            (true, _) => text.push(b'-'),
            (false, true) => text.push(b' '),
            (false, false) => text.insert(0, b'\t'),
        }
    }
}

/// A run of the alphabet of a length at a limit, or of bytes that are mostly no characters.
fn arbitrary(random: &mut Random) -> Vec<u8> {
    let length = random.pick(&[0, 1, 2, 3, 4, 5, 6, 7, 8, 16, 72, 73, 74, 79, 80, 81, 82, 1023, 1024, 1025]);
    match random.below(4) {
        0 => random.bytes(length),
        1 => (0..length).map(|_| random.pick(BLANKS)).collect(),
        2 => (0..length).map(|_| random.pick(STRANGE)).collect(),
        _ => (0..length).map(|_| random.pick(b"ABCGIKMQYZabyz234567")).collect(),
    }
}

/// The texts of the intake door.
pub fn text(random: &mut Random) -> Vec<u8> {
    let mut text = if random.percent(8) {
        arbitrary(random)
    } else {
        let bytes = codes::items(random);
        respell(random, &base32::encode(&bytes))
    };
    while random.percent(15) {
        damage(random, &mut text);
    }
    if random.percent(8) {
        stretch(random, &mut text);
    }
    text
}

/// The texts of the strict door: more of those that intake writes, and of their neighbours.
pub fn nearly_written(random: &mut Random) -> Vec<u8> {
    let typed = text(random);
    if random.percent(30) {
        return typed;
    }
    let Ok(mut written) = doors::intake(&typed, doors::LONGEST_WRITTEN) else {
        return typed;
    };
    match random.below(6) {
        0 => damage(random, &mut written),
        1 => {
            let at = random.below(written.len());
            written[at].make_ascii_lowercase();
        }
        2 => drop(written.drain(..5)),
        _ => (),
    }
    written
}

/// Text for the base32 reader, which knows no scheme, blank or hyphen.
pub fn base32_run(random: &mut Random, bytes: &[u8]) -> Vec<u8> {
    let mut text = base32::encode(bytes);
    let lower = random.pick(&[0, 50]);
    for byte in &mut text {
        if random.percent(lower) {
            byte.make_ascii_lowercase();
        }
    }
    while random.percent(30) {
        damage(random, &mut text);
    }
    text
}

/// One of the many texts of a code; the units of a composite may stand one by one, in any order, but not those of a wide one.
pub fn of_code(random: &mut Random, code: &[u8]) -> Vec<u8> {
    let mut units: Vec<Vec<u8>> = match composite::split(code, usize::MAX) {
        Ok(units) if code[0] != 0x57 => units.chunks(10).map(<[u8]>::to_vec).collect(),
        _ => Vec::new(),
    };
    random.shuffle(&mut units);
    let bytes = if units.is_empty() || random.percent(50) { code.to_vec() } else { units.concat() };
    respell(random, &base32::encode(&bytes))
}

/// A composite typed by its units in small letters, in any order, with hyphens between them.
pub fn as_unit_list(random: &mut Random, code: &[u8]) -> Vec<u8> {
    let units = composite::split(code, usize::MAX).expect("a composite");
    let mut texts: Vec<Vec<u8>> = units.chunks(10).map(|unit| base32::encode(unit).to_ascii_lowercase()).collect();
    random.shuffle(&mut texts);
    let list = texts.join(&b'-');
    if random.percent(50) {
        [&b"iscc:"[..], &list].concat()
    } else {
        list
    }
}

/// A composite typed as one, in any spelling.
pub fn as_composite(random: &mut Random, code: &[u8]) -> Vec<u8> {
    respell(random, &base32::encode(code))
}

/// A text that intake refuses, each number about as often as any other.
fn refused(random: &mut Random) -> Vec<u8> {
    let mut run = base32::encode(&codes::unit(random));
    match random.below(14) {
        0 => run.clear(),
        1 => run.resize(1025 + random.below(100), b'-'),
        2 => run.resize(81 + random.below(3), b'A'),
        3 => {
            let at = random.below(run.len());
            run[at] = random.pick(b"0189=@");
        }
        4 => run.resize(random.pick(&[1, 3, 6, 9, 17, 65, 73]), b'A'),
        5 => {
            let length = 5 * random.below(9) + 1 + random.below(4);
            run = base32::encode(&random.bytes(length));
            // Its spare bits are zero, so the next letter or digit has the lowest of them set.
            run.last_mut().into_iter().for_each(|character| *character += 1);
        }
        _ => run = base32::encode(&codes::refused(random)),
    }
    respell(random, &run)
}

/// The texts of the calls on a register: mostly this code's.
pub fn for_loan(random: &mut Random, code: &[u8]) -> Vec<u8> {
    match random.below(20) {
        0..=4 => refused(random),
        5 => text(random),
        6 => {
            let mut text = of_code(random, code);
            stretch(random, &mut text);
            text
        }
        7 => {
            let mut text = of_code(random, code);
            damage(random, &mut text);
            text
        }
        8..=9 => {
            let run = base32::encode(&codes::refused_wide(random));
            respell(random, &run)
        }
        _ => of_code(random, code),
    }
}
