//! The layouts of tables: docs/RULES.md, 3.1 to 3.4.

use crate::bitmap;
use crate::kind::Kind;
use crate::refusal::{BITMAP_MACHINE, WHOLE_BYTE_MACHINE};

/// s is at most 513 in every layout.
pub const MOST_SLOTS: usize = 513;

/// The layouts of the lent runs of 16-bit numbers.
#[derive(Clone, Copy, Debug, PartialEq, Eq)]
pub enum Layout {
    /// Two tables of eight machines each, 0 to 7 and 8 to 15; each machine has
    /// s slots of next on 0, next on 1, vector.
    Split,
    /// One machine with s slots of 256 nexts, then the vector.
    Whole,
    /// One machine with s slots of 16 numbers of map, the first child, the
    /// failure state, then the vector.
    Bitmap,
}

impl Layout {
    /// The kinds of tag that the layout takes.
    pub fn kinds(self) -> &'static [Kind] {
        match self {
            Layout::Split => &[Kind::Exact, Kind::Folded],
            Layout::Whole | Layout::Bitmap => &[Kind::Exact],
        }
    }

    /// How many tables the layout has.
    pub fn tables(self) -> usize {
        match self {
            Layout::Split => 2,
            Layout::Whole | Layout::Bitmap => 1,
        }
    }

    /// How many machines stand one behind the other in a table.
    pub fn machines_a_table(self) -> usize {
        match self {
            Layout::Split => 8,
            Layout::Whole | Layout::Bitmap => 1,
        }
    }

    /// How many machines the layout has, and so how many states a place has.
    pub fn machines(self) -> usize {
        self.tables() * self.machines_a_table()
    }

    /// The table that a machine stands in, and its place there.
    pub fn home_of(self, machine: usize) -> (usize, usize) {
        let a_table = self.machines_a_table();
        (machine / a_table, machine % a_table)
    }

    /// How many numbers of a slot stand before its vector, which is the last.
    pub fn before_vector(self) -> usize {
        match self {
            Layout::Split => 2,
            Layout::Whole => 256,
            Layout::Bitmap => bitmap::VECTOR,
        }
    }

    /// How many numbers a slot has.
    pub fn slot_length(self) -> usize {
        self.before_vector() + 1
    }

    /// How many numbers of a table make one slot for each of its machines: 24,
    /// 257 or 19.
    pub fn a_slot_each(self) -> usize {
        self.machines_a_table() * self.slot_length()
    }

    /// s of a table: its length over 24 (or 257, or 19), rounded down, at most
    /// 513.
    pub fn slots(self, length: usize) -> usize {
        (length / self.a_slot_each()).min(MOST_SLOTS)
    }

    /// Where the slot of a state begins in a table of s slots a machine; the
    /// machine is counted in its table.
    pub fn slot_at(self, s: usize, in_table: usize, state: usize) -> usize {
        (in_table * s + state) * self.slot_length()
    }

    /// The number by which TABLE names a machine.
    pub fn name_of(self, machine: usize) -> usize {
        match self {
            Layout::Split => machine,
            Layout::Whole => WHOLE_BYTE_MACHINE,
            Layout::Bitmap => BITMAP_MACHINE,
        }
    }
}
