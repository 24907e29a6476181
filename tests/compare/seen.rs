//! How often each number was the right answer, each end of a replay, and each count of looks; how often wide composites came,
//! record numbers that decide, promotions of each kind, and areas with each fault.

use crate::{faults, numbered, promotions, wide};
use harness::call::{Call, Request, Response};
use reference::refusal::{ALL_OUT, NOT_OUT};

/// The ends of a replay, in the order of their numbers.
const ENDS: [&str; 4] = ["not begun", "ran", "torn", "stopped"];

/// The most looks of a question.
const MOST_LOOKS: usize = 9;

/// From so many cases on, looks and faults have to come out: there are too many of them for fewer.
const MANY: usize = 3000;

/// Of so many cases one at least has each kind of record numbers, and of promotions.
const OF_NUMBERED: usize = 1500;

#[derive(Default)]
pub struct Seen {
    numbers: Counts<38>,
    ends: [usize; ENDS.len()],
    /// Of questions by their looks: those that find the code, and those that do not.
    found: [usize; MOST_LOOKS + 1],
    not_found: [usize; MOST_LOOKS + 1],
    wide: [usize; wide::KINDS.len()],
    numbered: [usize; numbered::KINDS.len()],
    promotions: Counts<{ promotions::KINDS.len() }>,
    faults: Counts<{ faults::KINDS.len() }>,
}

/// How often each of many kinds came.
struct Counts<const KINDS: usize>([usize; KINDS]);

impl<const KINDS: usize> Default for Counts<KINDS> {
    fn default() -> Self {
        Counts([0; KINDS])
    }
}

impl Seen {
    pub fn count(&mut self, request: &Request, due: &Response) {
        self.numbers.0[due.number as usize] += 1;
        if request.call == Call::Replay {
            self.ends[due.values[0] as usize] += 1;
        }
        match (request.call, due.number) {
            (Call::Ask, 0) => self.found[due.values[1] as usize] += 1,
            (Call::Ask, NOT_OUT) => self.not_found[due.values[1] as usize] += 1,
            _ => (),
        }
        for (count, found) in self.wide.iter_mut().zip(wide::found(request, due)) {
            *count += usize::from(found);
        }
        for (count, found) in self.numbered.iter_mut().zip(numbered::found(request, due)) {
            *count += usize::from(found);
        }
        for (count, found) in self.promotions.0.iter_mut().zip(promotions::found(request, due)) {
            *count += usize::from(found);
        }
        for (count, found) in self.faults.0.iter_mut().zip(faults::found(request, due)) {
            *count += usize::from(found);
        }
    }

    pub fn all(&self) -> usize {
        self.numbers.0.iter().sum()
    }

    /// The numbers that a call's cases have to bring out. A promotion's 21 needs a log of 257 records, which are few.
    pub fn due_numbers(&self, call: Call) -> Vec<u32> {
        let is_due = |number: &u32| self.all() >= MANY || (call, *number) != (Call::Promote, ALL_OUT);
        call.numbers().iter().copied().filter(is_due).collect()
    }

    fn is_rare(&self, count: usize) -> bool {
        count * 100_000 < self.all().max(1)
    }

    /// Those of the numbers and of the kinds of wide composites, and for a replay those of the ends, that the cases hardly
    /// bring out: such cases would test nothing of them.
    pub fn few(&self, call: Call, numbers: &[u32], kinds: &[usize]) -> Vec<String> {
        let rare = numbers.iter().filter(|&&number| self.is_rare(self.numbers.0[number as usize])).map(u32::to_string);
        let ends = ENDS.iter().zip(self.ends).filter(|&(_, count)| call == Call::Replay && self.is_rare(count));
        let wide = kinds.iter().filter(|&&kind| self.is_rare(self.wide[kind])).map(|&kind| wide::KINDS[kind].to_string());
        rare.chain(ends.map(|(end, _)| end.to_string())).chain(wide).collect()
    }

    /// Those of the kinds of record numbers that the cases bring out too seldom.
    pub fn few_numbered(&self, kinds: &[usize]) -> Vec<String> {
        let few = kinds.iter().filter(|&&kind| self.numbered[kind] < (self.all() / OF_NUMBERED).max(1));
        few.filter(|_| self.all() >= MANY).map(|&kind| numbered::KINDS[kind].to_string()).collect()
    }

    /// The same of the kinds of promotions.
    pub fn few_promotions(&self, call: Call) -> Vec<String> {
        let few = self.of_promotions(call).into_iter().filter(|&(_, count)| count < (self.all() / OF_NUMBERED).max(1));
        few.filter(|_| self.all() >= MANY).map(|(kind, _)| kind.to_string()).collect()
    }

    fn of_promotions(&self, call: Call) -> Vec<(&'static str, usize)> {
        promotions::KINDS.into_iter().zip(self.promotions.0).filter(|_| call == Call::Promote).collect()
    }

    /// The same of what a call can meet in any area.
    pub fn few_on_areas(&self, call: Call) -> Vec<String> {
        let few = self.on_areas(call).into_iter().filter(|&(_, count)| self.all() >= MANY && self.is_rare(count));
        few.map(|(name, _)| name).collect()
    }

    /// The looks of a question, and the faults of an area.
    fn on_areas(&self, call: Call) -> Vec<(String, usize)> {
        let by_looks = |what: &'static str, counts: [usize; MOST_LOOKS + 1]| {
            counts.into_iter().enumerate().map(move |(looks, count)| (format!("{what} by {looks} looks"), count))
        };
        // What is found takes a look.
        let looks = by_looks("found", self.found).skip(1).chain(by_looks("not found", self.not_found));
        let faults = faults::KINDS.iter().zip(self.faults.0).map(|(kind, count)| (kind.to_string(), count));
        let of_area = call.reads_register();
        looks.filter(|_| call == Call::Ask).chain(faults.filter(|_| of_area)).collect()
    }

    /// The count for each number that the call can answer, for a replay for each end, for each kind of wide composites, of
    /// record numbers and of promotions that the call can meet, and for the looks and faults that it met.
    pub fn shown(&self, call: Call) -> String {
        let numbers = call.numbers().iter().map(|&number| format!("{number}:{}", self.numbers.0[number as usize]));
        let ends = ENDS.iter().zip(self.ends).filter(|_| call == Call::Replay);
        let wide = wide::kinds(call).iter().map(|&kind| format!("{}:{}", wide::KINDS[kind], self.wide[kind]));
        let on_areas = self.on_areas(call).into_iter().filter(|&(_, count)| count > 0);
        let numbered = numbered::kinds(call).iter();
        let numbered = numbered.map(|&kind| format!("{}:{}", numbered::KINDS[kind], self.numbered[kind]));
        let promotions = self.of_promotions(call).into_iter().map(|(kind, count)| format!("{kind}:{count}"));
        let named = ends.map(|(end, count)| format!("{end}:{count}")).chain(wide).chain(numbered).chain(promotions);
        let named = named.chain(on_areas.map(|(name, count)| format!("{name}:{count}")));
        numbers.chain(named).collect::<Vec<_>>().join(" ")
    }
}
