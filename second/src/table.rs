//! Walking lent tables of any origin: docs/RULES.md, 4.3, 4.5 and 4.6.

use crate::bitmap;
use crate::layout::Layout;
use crate::machine::letter_of;

/// Where a byte leads.
#[derive(Clone, Copy, Debug, PartialEq, Eq)]
pub struct Next {
    pub state: u16,
    /// The failure moves made on the way; only a bitmap table has any.
    pub moves: u64,
}

/// A layout's lent tables, to be walked exactly as their numbers say. Machines
/// are counted over all of them.
#[derive(Clone, Copy)]
pub struct Tables<'a> {
    layout: Layout,
    lent: &'a [&'a [u16]],
}

impl<'a> Tables<'a> {
    /// As many runs as the layout has tables.
    pub fn lent(layout: Layout, lent: &'a [&'a [u16]]) -> Tables<'a> {
        Tables { layout, lent }
    }

    /// Whether a state of a machine is below its table's s.
    pub fn has(&self, machine: usize, state: u16) -> bool {
        let (table, _) = self.layout.home_of(machine);
        usize::from(state) < self.layout.slots(self.lent[table].len())
    }

    /// Where a byte leads in a machine, or nothing where a number read on the
    /// way isn't below what it must be below.
    pub fn next(&self, machine: usize, state: u16, byte: u8) -> Option<Next> {
        match self.layout {
            Layout::Split => self.next_at(machine, state, letter_of(machine, byte)),
            Layout::Whole => self.next_at(machine, state, byte),
            Layout::Bitmap => self.next_by_map(machine, state, byte),
        }
    }

    /// The next number that stands in a slot for a letter.
    fn next_at(&self, machine: usize, state: u16, letter: u8) -> Option<Next> {
        let state = self.slot(machine, state)?[usize::from(letter)];
        let next = Next { state, moves: 0 };
        self.has(machine, state).then_some(next)
    }

    /// By the map of the first state on the failure way that has the byte;
    /// where none has it, state 0 keeps it. Each move goes down, so that the
    /// way has an end whatever the numbers are.
    fn next_by_map(&self, machine: usize, mut state: u16, byte: u8) -> Option<Next> {
        let mut moves = 0;
        loop {
            let slot = self.slot(machine, state)?;
            if bitmap::has(slot, byte) {
                // Not in 16 bits, for the sum may pass what they hold.
                let first = usize::from(slot[bitmap::FIRST_CHILD]);
                let next = first + bitmap::ones_below(slot, byte);
                let next = u16::try_from(next).ok();
                let state = next.filter(|next| self.has(machine, *next))?;
                return Some(Next { state, moves });
            }
            if state == 0 {
                return Some(Next { state, moves });
            }
            let failure = slot[bitmap::FAILURE];
            if failure >= state {
                return None;
            }
            state = failure;
            moves += 1;
        }
    }

    /// The tags found at a place, a state for each machine: those that any of
    /// the tables flags, each once.
    pub fn found(&self, place: &[u16]) -> Option<u16> {
        let mut found = 0;
        for table in 0..self.layout.tables() {
            found |= self.flagged(table, place)?;
        }
        Some(found)
    }

    /// The tags that a table flags at a place: the vectors of its machines,
    /// ANDed.
    pub fn flagged(&self, table: usize, place: &[u16]) -> Option<u16> {
        let mut left = u16::MAX;
        for (machine, state) in place.iter().enumerate() {
            if self.layout.home_of(machine).0 == table {
                left &= self.vector(machine, *state)?;
            }
        }
        Some(left)
    }

    /// The vector of a state.
    pub fn vector(&self, machine: usize, state: u16) -> Option<u16> {
        self.slot(machine, state)?.last().copied()
    }

    /// The numbers of a slot; always there for a state below s.
    fn slot(&self, machine: usize, state: u16) -> Option<&'a [u16]> {
        let (table, in_table) = self.layout.home_of(machine);
        let numbers = self.lent[table];
        let s = self.layout.slots(numbers.len());
        let at = self.layout.slot_at(s, in_table, usize::from(state));
        numbers.get(at..at + self.layout.slot_length())
    }
}
