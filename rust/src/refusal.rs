//! Refusals, with their numbers and what is returned with them.

use crate::numbers::Edition;
use crate::raw::Answer;
use std::fmt::{self, Display, Formatter};

/// Why a call was refused. A refused call changes nothing. It displays itself in words that say what
/// to do.
#[derive(Clone, Copy, Debug, PartialEq, Eq, Hash)]
#[non_exhaustive]
pub enum Refusal {
    /// 1: an entry of the set isn't whole.
    Cut {
        /// The entry, counted from 0.
        entry: usize,
    },
    /// 2: a 17th entry begins.
    Many {
        /// The entry, counted from 0.
        entry: usize,
    },
    /// 3: an entry's kind isn't taken. Gates, desks and split tables take 1, exact, and 2, folded;
    /// whole-byte and bitmap tables take 1 alone.
    Kind {
        /// The entry, counted from 0.
        entry: usize,
    },
    /// 4: a length of 0 or above 32.
    Length {
        /// The entry, counted from 0.
        entry: usize,
    },
    /// 5: the set has no bytes; the entry is 0.
    Empty {
        /// The entry, counted from 0.
        entry: usize,
    },
    /// 6: a tag equals an earlier one of its kind, folded ones after folding; [`Entry`](crate::Entry)
    /// compares so.
    Repeat {
        /// The entry, counted from 0.
        entry: usize,
    },
    /// 7: a table is too short for the set.
    Table {
        /// The lowest machine that lacks slots: 0 to 7 of the first split table, for exact tags, 8 to 15
        /// of the second, for folded ones; 254 for a whole-byte table, 253 for a bitmap table.
        machine: usize,
        /// The states that it needs.
        states: usize,
    },
    /// 8: the edition is the largest there is.
    Edition,
    /// 9: no replacement was accepted yet.
    NoSet,
    /// 10: the last serial is the largest there is.
    Serial,
    /// 11: 16 tickets are open or stale; on a gate, 16 approvals are not yet decided.
    NoRoom,
    /// 12: the serial was never given, or its ticket is closed; on a gate, its approval is decided.
    NoTicket,
    /// 13: the ticket is older than the set.
    Stale {
        /// The edition under which it was opened.
        edition: Edition,
    },
    /// 14: bytes taken and the piece pass 4,294,967,295.
    Long,
    /// 15: a read outside the desk begins at a state that isn't below its table's slot count. Over a
    /// table without a slot every place does.
    Place,
    /// 16: no record is held.
    Nothing,
}

impl Refusal {
    /// The answer where it is accepted, or its refusal.
    pub(crate) fn or(answer: Answer) -> Result<Answer, Refusal> {
        let entry = answer.a as usize;
        Err(match answer.refusal {
            0 => return Ok(answer),
            1 => Refusal::Cut { entry },
            2 => Refusal::Many { entry },
            3 => Refusal::Kind { entry },
            4 => Refusal::Length { entry },
            5 => Refusal::Empty { entry },
            6 => Refusal::Repeat { entry },
            7 => Refusal::Table {
                machine: answer.a as usize,
                states: answer.b as usize,
            },
            8 => Refusal::Edition,
            9 => Refusal::NoSet,
            10 => Refusal::Serial,
            11 => Refusal::NoRoom,
            12 => Refusal::NoTicket,
            13 => Refusal::Stale {
                edition: Edition(answer.a as u32),
            },
            14 => Refusal::Long,
            15 => Refusal::Place,
            16 => Refusal::Nothing,
            other => panic!("the archive isn't the one this crate is for: it refused with {other}"),
        })
    }

    /// Its number, 1 to 16.
    pub fn number(self) -> u32 {
        match self {
            Refusal::Cut { .. } => 1,
            Refusal::Many { .. } => 2,
            Refusal::Kind { .. } => 3,
            Refusal::Length { .. } => 4,
            Refusal::Empty { .. } => 5,
            Refusal::Repeat { .. } => 6,
            Refusal::Table { .. } => 7,
            Refusal::Edition => 8,
            Refusal::NoSet => 9,
            Refusal::Serial => 10,
            Refusal::NoRoom => 11,
            Refusal::NoTicket => 12,
            Refusal::Stale { .. } => 13,
            Refusal::Long => 14,
            Refusal::Place => 15,
            Refusal::Nothing => 16,
        }
    }

    /// Its name in capitals.
    pub fn name(self) -> &'static str {
        const NAMES: [&str; 16] = [
            "CUT",
            "MANY",
            "KIND",
            "LENGTH",
            "EMPTY",
            "REPEAT",
            "TABLE",
            "EDITION",
            "NO SET",
            "SERIAL",
            "NO ROOM",
            "NO TICKET",
            "STALE",
            "LONG",
            "PLACE",
            "NOTHING",
        ];
        NAMES[self.number() as usize - 1]
    }

    /// The values returned with it, in their order.
    pub fn values(self) -> Vec<u64> {
        match self {
            Refusal::Cut { entry }
            | Refusal::Many { entry }
            | Refusal::Kind { entry }
            | Refusal::Length { entry }
            | Refusal::Empty { entry }
            | Refusal::Repeat { entry } => vec![entry as u64],
            Refusal::Table { machine, states } => vec![machine as u64, states as u64],
            Refusal::Stale { edition } => vec![u64::from(edition.0)],
            _ => vec![],
        }
    }
}

impl Display for Refusal {
    fn fmt(&self, f: &mut Formatter) -> fmt::Result {
        write!(f, "refused with {}, {}: ", self.number(), self.name())?;
        match *self {
            Refusal::Cut { entry }
            | Refusal::Many { entry }
            | Refusal::Kind { entry }
            | Refusal::Length { entry }
            | Refusal::Empty { entry }
            | Refusal::Repeat { entry } => self.say_of_the_set(entry, f),
            Refusal::Table { machine, states } => say_of_a_table(machine, states, f),
            _ => self.say_of_the_call(f),
        }
    }
}

impl Refusal {
    /// What is wrong with a set, at its entry.
    fn say_of_the_set(&self, entry: usize, f: &mut Formatter) -> fmt::Result {
        match self {
            Refusal::Cut { .. } => write!(f, "entry {entry} of the set isn't whole"),
            Refusal::Many { .. } => write!(f, "the set goes on with an entry {entry}"),
            Refusal::Kind { .. } => write!(
                f,
                "the kind of entry {entry} isn't taken: gates, desks and split tables take 1, \
                 exact, and 2, folded; whole-byte and bitmap tables take 1 alone"
            ),
            Refusal::Length { .. } => {
                write!(f, "the tag of entry {entry} has no byte, or over 32")
            }
            Refusal::Repeat { .. } => write!(
                f,
                "the tag of entry {entry} equals an earlier one of its kind; folded tags are \
                 compared without regard to letter case, of A to Z alone"
            ),
            _ => write!(f, "the set has no bytes"),
        }
    }

    /// What stands against a call with a lawful set, or with none.
    fn say_of_the_call(&self, f: &mut Formatter) -> fmt::Result {
        match self {
            Refusal::Edition => write!(
                f,
                "no edition is left, and the set isn't in force: hold all approvals until the \
                 process is restarted with this list in force"
            ),
            Refusal::NoSet => write!(f, "no set is in force yet: replace one first"),
            Refusal::Serial => write!(
                f,
                "no serial is left: hold all approvals until the process is restarted with the \
                 list in force"
            ),
            Refusal::NoRoom => {
                let words = "16 tickets are in use: close or decide one, open or stale, first";
                f.write_str(words)
            }
            Refusal::NoTicket => {
                let words = "the serial was never given, or its ticket is closed or decided";
                f.write_str(words)
            }
            Refusal::Stale { edition } => write!(
                f,
                "the ticket was opened under edition {edition}, which was replaced: \
                 open another and read from the first byte"
            ),
            Refusal::Long => write!(f, "the bytes taken and the piece pass 4294967295"),
            Refusal::Place => write!(
                f,
                "a state of the place isn't below the slots of its table: it is another table's \
                 place, or the table has no slot"
            ),
            _ => write!(f, "no record is held"),
        }
    }
}

/// Which table is too short, by the machine that lacks slots in it.
fn say_of_a_table(machine: usize, states: usize, f: &mut Formatter) -> fmt::Result {
    let table = match machine {
        0..=7 => "the first table, for exact tags,",
        8..=15 => "the second table, for folded tags,",
        _ => "the table",
    };
    match states {
        1 => write!(
            f,
            "machine {machine} needs a slot, also where no tag is its own, and {table} has none"
        ),
        _ => write!(
            f,
            "machine {machine} needs {states} slots, and {table} has fewer"
        ),
    }
}

impl std::error::Error for Refusal {}
