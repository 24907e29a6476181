//! What did not answer as is due, in two lengths: whole for the first, one short line for each of the others.

use crate::call::Fields;
use std::fmt;

/// So many are told whole.
const MOST_WHOLE: usize = 20;

/// One bad line of a file. Both texts start on a new line.
pub struct Told {
    pub whole: String,
    pub brief: String,
}

/// Every one of them; none is left out.
pub fn list(bad: &[Told]) -> String {
    let texts = bad.iter().enumerate().map(|(index, told)| if index < MOST_WHOLE { &told.whole } else { &told.brief });
    texts.map(String::as_str).collect()
}

/// A case whose answer is not the due one.
pub struct Difference {
    /// The call with its arguments.
    pub request: String,
    pub due: Fields,
    pub found: Fields,
    /// What else the call did that it must not.
    pub fault: Option<String>,
    /// The line that tells how to run the case again.
    pub again: String,
}

impl Difference {
    /// Both numbers and what differs, in one line.
    pub fn brief(&self) -> String {
        format!("expected {}, found {}; {}", joined(&self.due[..1]), joined(&self.found[..1]), self.what())
    }

    /// The fields that differ by their names, and the fault.
    fn what(&self) -> String {
        let names: Vec<&str> = self.due.iter().filter(|field| !self.found.contains(field)).map(|field| field.0).collect();
        let fields = (!names.is_empty()).then(|| format!("differs in {}", names.join(", ")));
        let parts: Vec<String> = fields.into_iter().chain(self.fault.clone()).collect();
        // Of long bytes only the beginning is shown.
        if parts.is_empty() {
            "differs behind what is shown".to_string()
        } else {
            parts.join("; ")
        }
    }
}

fn joined(fields: &[(&str, String)]) -> String {
    fields.iter().map(|(name, value)| format!("{name}={value}")).collect::<Vec<_>>().join(" ")
}

impl fmt::Display for Difference {
    fn fmt(&self, f: &mut fmt::Formatter<'_>) -> fmt::Result {
        let (due, found) = (joined(&self.due), joined(&self.found));
        write!(f, "\n  {}\n  expected {due}\n  found    {found}\n  {}\n  {}", self.request, self.what(), self.again)
    }
}
