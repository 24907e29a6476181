//! The entries of both revisions. `bench/before` has named them before_NAME and after_NAME.

use crate::entry::{Ask, Count, Counts, Issue, LogIssue, LogReturn, Measure, Replay, Return, Test, Writer, Written};
use crate::logs::{self, Record};
use crate::registers::{COUNTS, LAST};
use crate::rows::{Call, Loan, Row};
use std::arch::global_asm;

#[repr(C)]
pub struct HolderAlone {
    number: u32,
    borrower: u32,
}

/// Reads two areas: who has a code. So a question was while places were in no order: it told no looks.
pub type AskHolder = unsafe extern "C" fn(*const u8, usize, *const u8, usize) -> HolderAlone;

pub fn ask_holder(entry: AskHolder, text: &[u8], area: &[u8]) -> (u32, u32) {
    // The areas are as long as said.
    let answer = unsafe { entry(text.as_ptr(), text.len(), area.as_ptr(), area.len()) };
    (answer.number, answer.borrower)
}

/// An issue, a return and their records while records had no numbers: a change told none, and the writer took none.
pub type IssueUnnumbered = unsafe extern "C" fn(*const u8, usize, u32, *mut u8, usize) -> u32;
pub type ReturnUnnumbered = unsafe extern "C" fn(*const u8, usize, *mut u8, usize) -> u32;
pub type LogIssueUnnumbered = unsafe extern "C" fn(*mut u8, usize, usize, *const u8, usize, u32) -> Written;
pub type LogReturnUnnumbered = unsafe extern "C" fn(*mut u8, usize, usize, *const u8, usize) -> Written;

pub fn issue_unnumbered(entry: IssueUnnumbered, text: &[u8], borrower: u32, area: &mut [u8]) -> u32 {
    // Both areas are as long as said, and a shared and a unique borrow cannot overlap.
    unsafe { entry(text.as_ptr(), text.len(), borrower, area.as_mut_ptr(), area.len()) }
}

pub fn take_back_unnumbered(entry: ReturnUnnumbered, text: &[u8], area: &mut [u8]) -> u32 {
    // As with an issue.
    unsafe { entry(text.as_ptr(), text.len(), area.as_mut_ptr(), area.len()) }
}

pub fn append_unnumbered(
    issue: LogIssueUnnumbered,
    take_back: LogReturnUnnumbered,
    log: &mut [u8],
    position: usize,
    record: &Record,
) -> (u32, usize) {
    let code = record.code;
    // As with an issue.
    let answer = match record.borrower {
        Some(borrower) => unsafe { issue(log.as_mut_ptr(), log.len(), position, code.as_ptr(), code.len(), borrower) },
        None => unsafe { take_back(log.as_mut_ptr(), log.len(), position, code.as_ptr(), code.len()) },
    };
    (answer.number, answer.length)
}

/// The same records as they were before they had numbers: of tags 1 and 2.
pub fn unnumbered(log: &[u8]) -> Vec<u8> {
    let mut all = Vec::new();
    for Record { code, borrower, .. } in logs::records(log) {
        let (tag, borrower) = borrower.map_or((2, Vec::new()), |borrower| (1, borrower.to_be_bytes().to_vec()));
        all.push(tag);
        all.extend(((borrower.len() + code.len()) as u16).to_be_bytes());
        all.extend(borrower);
        all.extend(code);
    }
    all
}

#[derive(Clone, Copy)]
pub enum Entry {
    Writer(Writer),
    Test(Test),
    Measure(Measure),
    Count(Count),
    Issue(Issue),
    IssueUnnumbered(IssueUnnumbered),
    Return(Return),
    ReturnUnnumbered(ReturnUnnumbered),
    Ask(Ask),
    AskHolder(AskHolder),
    Counts(Counts),
    Append(LogIssue, LogReturn),
    AppendUnnumbered(LogIssueUnnumbered, LogReturnUnnumbered),
    Replay(Replay),
}

/// An entry of one revision.
#[derive(Clone, Copy)]
pub struct Side {
    pub entry: Entry,
    /// Bytes of a row's register that this revision does not know, and so is not lent: at the start, and at the end.
    start: usize,
    end: usize,
    /// Whether its records have numbers.
    pub numbered: bool,
}

impl Side {
    /// The part of a row's register that this revision is lent.
    pub fn part<'a>(&self, area: &'a mut [u8]) -> &'a mut [u8] {
        let end = area.len() - self.end;
        &mut area[self.start..end]
    }

    /// What the calls of a row are given: a log that is replayed is in this revision's own form.
    pub fn inputs(&self, row: &Row) -> Vec<Vec<u8>> {
        match self.entry {
            Entry::Replay(_) if !self.numbered => row.inputs.iter().map(|log| unnumbered(log)).collect(),
            _ => row.inputs.clone(),
        }
    }
}

// A table of addresses for each revision. The names are weak: one that a revision lacks is a null address, which is None.
macro_rules! table {
    ($revision:literal, $($name:ident)*) => {
        global_asm!(
            ".pushsection .data.rel.ro, \"aw\"",
            ".balign 8",
            concat!(".globl ", $revision, "_entries"),
            concat!($revision, "_entries:"),
            $(
                concat!(".weak ", $revision, "_", stringify!($name)),
                concat!(".quad ", $revision, "_", stringify!($name)),
            )*
            ".popsection",
        );
    };
}

macro_rules! entries {
    ($($name:ident: $kind:ty,)*) => {
        #[repr(C)]
        pub struct Entries {
            $($name: Option<$kind>,)*
        }

        table!("before", $($name)*);
        table!("after", $($name)*);
    };
}

entries! {
    intake: Writer,
    strict: Test,
    code: Writer,
    text: Writer,
    base32_read: Writer,
    base32_write: Writer,
    join: Writer,
    split: Writer,
    distance: Measure,
    differing: Count,
    loans_issue: Issue,
    loans_issue_unnumbered: IssueUnnumbered,
    loans_return: Return,
    loans_return_unnumbered: ReturnUnnumbered,
    loans_ask: Ask,
    loans_ask_holder: AskHolder,
    loans_counts: Counts,
    loans_log_issue: LogIssue,
    loans_log_issue_unnumbered: LogIssueUnnumbered,
    loans_log_return: LogReturn,
    loans_log_return_unnumbered: LogReturnUnnumbered,
    loans_replay: Replay,
}

extern "C" {
    static before_entries: Entries;
    static after_entries: Entries;
}

impl Entries {
    pub fn before() -> &'static Entries {
        // The table above has an address or null for each name, and never changes.
        unsafe { &before_entries }
    }

    pub fn after() -> &'static Entries {
        // As before.
        unsafe { &after_entries }
    }

    /// Whether both keep the places of a register in the same order, or both in none: one that has an order tells looks.
    pub fn order_alike() -> bool {
        Entries::before().loans_ask.is_some() == Entries::after().loans_ask.is_some()
    }

    /// Whether both keep counts before the places of a register, or both keep none: one that keeps them tells them.
    pub fn counts_alike() -> bool {
        Entries::before().start() == Entries::after().start()
    }

    /// Whether both give records numbers, and keep the last one behind the places of a register, or neither does.
    pub fn numbers_alike() -> bool {
        Entries::before().numbered() == Entries::after().numbered()
    }

    /// Whether records have numbers: `bench/before` has given the entries of a revision without them names of their own.
    fn numbered(&self) -> bool {
        self.loans_issue.is_some()
    }

    /// A register without counts begins with its places. So both revisions have the same places, at the same addresses.
    fn start(&self) -> usize {
        match self.loans_counts {
            Some(_) => 0,
            None => COUNTS,
        }
    }

    pub fn side(&self, call: Call) -> Option<Side> {
        let numbered = self.numbered();
        let end = if numbered { 0 } else { LAST };
        self.of(call).map(|entry| Side { entry, start: self.start(), end, numbered })
    }

    fn append(&self) -> Option<Entry> {
        if self.numbered() {
            Some(Entry::Append(self.loans_log_issue?, self.loans_log_return?))
        } else {
            Some(Entry::AppendUnnumbered(self.loans_log_issue_unnumbered?, self.loans_log_return_unnumbered?))
        }
    }

    fn of(&self, call: Call) -> Option<Entry> {
        match call {
            Call::Intake => self.intake.map(Entry::Writer),
            Call::Strict => self.strict.map(Entry::Test),
            Call::Code => self.code.map(Entry::Writer),
            Call::Text => self.text.map(Entry::Writer),
            Call::Base32Read => self.base32_read.map(Entry::Writer),
            Call::Base32Write => self.base32_write.map(Entry::Writer),
            Call::Join => self.join.map(Entry::Writer),
            Call::Split => self.split.map(Entry::Writer),
            Call::Distance => self.distance.map(Entry::Measure),
            Call::Differing => self.differing.map(Entry::Count),
            Call::Loan(Loan::Issue) => {
                self.loans_issue.map(Entry::Issue).or(self.loans_issue_unnumbered.map(Entry::IssueUnnumbered))
            }
            Call::Loan(Loan::Return) => {
                self.loans_return.map(Entry::Return).or(self.loans_return_unnumbered.map(Entry::ReturnUnnumbered))
            }
            Call::Loan(Loan::Ask) => self.loans_ask.map(Entry::Ask).or(self.loans_ask_holder.map(Entry::AskHolder)),
            Call::Counts => self.loans_counts.map(Entry::Counts),
            Call::Append => self.append(),
            Call::Replay => self.loans_replay.map(Entry::Replay),
            // Without numbers no record is known to be applied already.
            Call::Skip => self.loans_replay.filter(|_| self.numbered()).map(Entry::Replay),
        }
    }
}
