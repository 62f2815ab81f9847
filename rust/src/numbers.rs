//! Serials, editions and tag numbers, and what the calls give.

use crate::raw;
use std::fmt::{self, Display, Formatter};

/// A ticket's number on its desk or gate, given when it is opened: 1, 2, 3, .. It means nothing on
/// another desk or gate.
#[derive(Clone, Copy, Debug, PartialEq, Eq, PartialOrd, Ord, Hash)]
pub struct Serial(pub u32);

/// The number of an accepted replacement on its desk or gate: 1, 2, 3, .. Before the first it is 0.
#[derive(Clone, Copy, Debug, PartialEq, Eq, PartialOrd, Ord, Hash)]
pub struct Edition(pub u32);

/// A tag's number in its set, from 0. It means nothing without the edition of that set.
#[derive(Clone, Copy, Debug, PartialEq, Eq, PartialOrd, Ord, Hash)]
pub struct Tag(pub u8);

impl Display for Serial {
    fn fmt(&self, f: &mut Formatter) -> fmt::Result {
        self.0.fmt(f)
    }
}

impl Display for Edition {
    fn fmt(&self, f: &mut Formatter) -> fmt::Result {
        self.0.fmt(f)
    }
}

impl Display for Tag {
    fn fmt(&self, f: &mut Formatter) -> fmt::Result {
        self.0.fmt(f)
    }
}

/// What an accepted replacement gives.
#[derive(Clone, Copy, Debug, PartialEq, Eq, Hash)]
pub struct Replaced {
    /// The edition of the set that is in force now.
    pub edition: Edition,
    /// How many tags it has.
    pub tags: usize,
}

impl Replaced {
    pub(crate) fn of(answer: raw::Answer) -> Replaced {
        Replaced {
            edition: Edition(answer.a as u32),
            tags: answer.b as usize,
        }
    }
}

/// Why a reading stopped. None of these is a refusal: bytes taken before it stay taken.
#[derive(Clone, Copy, Debug, PartialEq, Eq, Hash)]
pub enum Stop {
    /// Every byte of the piece was taken.
    All,
    /// The next byte's matches don't all fit: take records out, then feed the rest.
    Full,
    /// A table isn't as building left it. A [`Desk`](crate::Desk), which owns its tables, never says
    /// so.
    Damaged,
}

impl Stop {
    /// ALL, FULL or DAMAGED.
    pub fn name(self) -> &'static str {
        match self {
            Stop::All => "ALL",
            Stop::Full => "FULL",
            Stop::Damaged => "DAMAGED",
        }
    }

    pub(crate) fn of(number: u64) -> Stop {
        match number {
            0 => Stop::All,
            1 => Stop::Full,
            2 => Stop::Damaged,
            other => panic!("the archive isn't the one this crate is for: it stopped with {other}"),
        }
    }
}

impl Display for Stop {
    fn fmt(&self, f: &mut Formatter) -> fmt::Result {
        f.pad(self.name())
    }
}

/// What an accepted feed gives.
#[derive(Clone, Copy, Debug, PartialEq, Eq, Hash)]
#[must_use = "a feed may take fewer bytes than the piece has"]
pub struct Fed {
    /// How many bytes of the piece were taken.
    pub taken: usize,
    /// Why it stopped.
    pub stop: Stop,
    /// How many records were added to those that the desk holds.
    pub records: usize,
}

impl Fed {
    pub(crate) fn of(answer: raw::Answer) -> Fed {
        Fed {
            taken: answer.a as usize,
            stop: Stop::of(answer.b),
            records: answer.c as usize,
        }
    }
}

/// One occurrence of a tag in a ticket's bytes, as take hands it out.
#[derive(Clone, Copy, Debug, PartialEq, Eq, Hash)]
pub struct Record {
    /// The ticket in whose bytes it stands.
    pub serial: Serial,
    /// The edition under which the ticket was opened; `tag` is a number of that set.
    pub edition: Edition,
    /// The ticket's bytes up to and including the occurrence's last.
    pub end: u32,
    /// The tag's number in the set of that edition; [`Desk::tag`](crate::Desk::tag) has its bytes and
    /// its kind.
    pub tag: Tag,
}

/// A ticket that isn't closed.
#[derive(Clone, Copy, Debug, PartialEq, Eq, Hash)]
pub struct Ticket {
    /// Its number.
    pub serial: Serial,
    /// The edition under which it was opened.
    pub edition: Edition,
    /// How many bytes were taken for it.
    pub taken: u32,
    /// Whether a replacement came after its opening: then it can only be closed.
    pub stale: bool,
}

/// What a serial stands for; see [`Desk::state`](crate::Desk::state).
#[derive(Clone, Copy, Debug, PartialEq, Eq, Hash)]
#[must_use = "a stale ticket's bytes were not read under the set in force"]
pub enum TicketState {
    /// No ticket was ever given this serial.
    Never,
    /// Its ticket is closed; the serial is never given again.
    Closed,
    /// A replacement was accepted after it was opened: nothing is known of it under the set in
    /// force, and it takes no byte more.
    Stale {
        /// The edition under which it was opened.
        edition: Edition,
        /// How many bytes were taken for it.
        taken: u32,
    },
    /// It is of the set in force.
    Open {
        /// The edition under which it was opened: the one in force.
        edition: Edition,
        /// How many bytes were taken for it.
        taken: u32,
    },
}

impl TicketState {
    pub(crate) fn of(answer: raw::Answer) -> TicketState {
        let (edition, taken) = (Edition(answer.b as u32), answer.c as u32);
        match answer.a {
            0 => TicketState::Never,
            1 => TicketState::Closed,
            2 => TicketState::Stale { edition, taken },
            3 => TicketState::Open { edition, taken },
            other => panic!("the archive isn't the one this crate is for: a state of {other}"),
        }
    }
}

/// One occurrence found by a read outside the desk.
#[derive(Clone, Copy, Debug, PartialEq, Eq, Hash)]
pub struct Found {
    /// The count of bytes up to and including the occurrence's last.
    pub end: u32,
    /// The tag's number in the set of the table or tables.
    pub tag: Tag,
}
