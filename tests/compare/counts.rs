//! The numbers of codes out before the places: counted over an area, spoilt, and what they came to in sequences.

use crate::areas;
use crate::random::Random;
use harness::area::{numbers, places};
use harness::call::{Values, COUNTED};
use reference::register::{counts_bytes, Counts, CODE, COUNTS, PLACE, PLACES};

/// The counts of codes: all of them, then by the first four bits of each, which are its main type. Bytes that are no code may
/// have another number there.
pub fn of_codes<'a>(codes: impl Iterator<Item = &'a [u8]>) -> Counts {
    let mut counts = Counts::default();
    for code in codes {
        counts[0] += 1;
        if let Some(count) = counts.get_mut(1 + usize::from(code[0] >> 4)) {
            *count += 1;
        }
    }
    counts
}

/// The counts of the used places, whatever else is wrong with them.
pub fn of_area(area: &[u8]) -> Counts {
    of_codes(places(area).chunks(PLACE).filter(|place| place[0] != 0).map(|place| &place[CODE..]))
}

/// Makes the counts those of the used places.
pub fn put(area: &mut [u8]) {
    let counts = of_area(area);
    area[..COUNTS].copy_from_slice(&counts_bytes(counts));
}

/// One fault in the counts. A number that is not just made one more has to be above 0: where it is not, the area becomes a
/// register of many codes.
pub fn spoil(random: &mut Random, area: &mut Vec<u8>) {
    let (any, one, other) = (random.below(8), 1 + random.below(7), 1 + random.below(7));
    let (mut counts, kind) = (of_area(area), random.below(16));
    if kind > 3 && (counts[any] == 0 || counts[one] == 0) {
        let used = random.pick(&[40, 80, 120, PLACES]);
        *area = areas::register_of(random, used).area;
        counts = of_area(area);
    }
    match kind {
        0..=3 => counts[any] += 1,
        4..=7 => counts[any] = counts[any].wrapping_sub(1),
        8 => counts[any] = u32::from((counts[any] as u16).swap_bytes()),
        9 => counts.swap(one, other),
        10 => counts = Counts::default(),
        11 => {
            counts[one] = counts[one].wrapping_sub(1);
            counts[other] += 1;
        }
        12 => [0, one].into_iter().for_each(|at| counts[at] += 1),
        13 => [0, one].into_iter().for_each(|at| counts[at] = counts[at].wrapping_sub(1)),
        14 => counts[any] ^= 1 << random.below(16),
        _ => counts[any] = random.next() as u32,
    }
    area[..COUNTS].copy_from_slice(&counts_bytes(counts));
}

/// From so many sequences on everything has to come.
pub const MANY: u64 = 50;

/// What the numbers came to over sequences of calls: of each how often it was above 0, and how often it fell back to 0.
#[derive(Default)]
pub struct Outs {
    above: [usize; COUNTED.len()],
    back: [usize; COUNTED.len()],
    wide: usize,
    all_places: usize,
    all_of_one_type: usize,
}

impl Outs {
    /// An area before a call, and after it.
    pub fn count(&mut self, before: &[u8], after: &[u8]) {
        let (old, new): (Values, Values) = (numbers(before), numbers(after));
        for at in 0..COUNTED.len() {
            self.above[at] += usize::from(new[at] > 0);
            self.back[at] += usize::from(old[at] > 0 && new[at] == 0);
        }
        let is_wide = |place: &[u8]| place[0] == 34 && place[CODE] == 0x57;
        self.wide += usize::from(places(after).chunks(PLACE).any(is_wide));
        self.all_places += usize::from(new[0] == PLACES as u64);
        self.all_of_one_type += usize::from(new[1..].contains(&(PLACES as u64)));
    }

    fn all(&self) -> Vec<(String, usize)> {
        let above = COUNTED.iter().zip(self.above).map(|(name, count)| (format!("{name} above 0"), count));
        let back = COUNTED.iter().zip(self.back).map(|(name, count)| (format!("{name} back to 0"), count));
        let wide = ("a wide composite out", self.wide);
        let all = [("256 out", self.all_places), ("256 of a main type out", self.all_of_one_type)];
        let others = [wide].into_iter().chain(all).map(|(name, count)| (name.to_string(), count));
        above.chain(back).chain(others).collect()
    }

    /// What never came, where the sequences are not too few for it.
    pub fn missing(&self, sequences: u64) -> Vec<String> {
        let missing = self.all().into_iter().filter(|&(_, count)| count == 0 && sequences >= MANY);
        missing.map(|(name, _)| name).collect()
    }

    pub fn shown(&self) -> String {
        self.all().into_iter().map(|(name, count)| format!("{name}:{count}")).collect::<Vec<_>>().join(" ")
    }
}
