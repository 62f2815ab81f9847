//! Counts of the kinds of answer seen.

use crate::reading::Stop;
use std::collections::BTreeMap;
use std::fmt::{self, Display, Formatter};

/// How often each kind of answer was seen.
#[derive(Clone, Debug, Default, PartialEq, Eq)]
pub struct Tally {
    seen: BTreeMap<String, u64>,
}

impl Tally {
    /// Counts one line of an answer.
    pub fn count(&mut self, answer: &str) {
        *self.seen.entry(kind_of(answer)).or_insert(0) += 1;
    }

    /// How often a refusal of this number was seen.
    pub fn refused(&self, number: u32) -> u64 {
        self.seen(&format!("refused {number}"))
    }

    /// How often this reason for stopping was seen, in feeds and reads, with
    /// moves told or not.
    pub fn stopped(&self, stop: Stop) -> u64 {
        let kind = format!("stop {}", stop.name());
        let told = ["", " still", " moved"].map(|moves| self.seen(&format!("{kind}{moves}")));
        told.iter().sum()
    }

    /// How many lines were no call.
    pub fn not_calls(&self) -> u64 {
        self.seen("not a call")
    }

    fn seen(&self, kind: &str) -> u64 {
        self.seen.get(kind).copied().unwrap_or(0)
    }
}

/// The refusal's number, the reason for stopping (and of a bitmap reading
/// whether it made failure moves), a ticket's state, or the first word.
pub fn kind_of(answer: &str) -> String {
    let words: Vec<&str> = answer.split(' ').take(8).collect();
    match words[..] {
        ["refused", number, ..] => format!("refused {number}"),
        ["taken", _, "stop", why, _, _, "moves", "0"] => format!("stop {why} still"),
        ["taken", _, "stop", why, _, _, "moves", _] => format!("stop {why} moved"),
        ["taken", _, "stop", why, ..] => format!("stop {why}"),
        ["state", _, state, ..] => format!("state {state}"),
        ["line", ..] => "not a call".to_string(),
        [word, ..] => word.to_string(),
        [] => String::new(),
    }
}

impl Display for Tally {
    fn fmt(&self, f: &mut Formatter) -> fmt::Result {
        write!(f, "refusals")?;
        for number in 1..=16 {
            write!(f, " {number}:{}", self.refused(number))?;
        }
        write!(f, "; stops")?;
        for stop in [Stop::All, Stop::Full, Stop::Damaged] {
            write!(f, " {}:{}", stop.name(), self.stopped(stop))?;
        }
        write!(f, "; not a call: {}", self.not_calls())
    }
}
