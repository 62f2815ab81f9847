//! The refusals of docs/RULES.md, 7.

use crate::desk::Edition;

/// The machine number that TABLE names for the whole-byte machine.
pub const WHOLE_BYTE_MACHINE: usize = 254;
/// The one that it names for the bitmap machine.
pub const BITMAP_MACHINE: usize = 253;

/// One refusal, with the values returned with it.
#[derive(Clone, Copy, Debug, PartialEq, Eq)]
pub enum Refusal {
    Cut { entry: usize },
    Many { entry: usize },
    Kind { entry: usize },
    Length { entry: usize },
    Empty { entry: usize },
    Repeat { entry: usize },
    Table { machine: usize, states: usize },
    Edition,
    NoSet,
    Serial,
    NoRoom,
    NoTicket,
    Stale { edition: Edition },
    Long,
    Place,
    Nothing,
}

impl Refusal {
    /// Its row in the table of docs/RULES.md, 7: the number in front, and what
    /// stands in the column "with it".
    fn row(self) -> (u32, Vec<usize>) {
        match self {
            Refusal::Cut { entry } => (1, vec![entry]),
            Refusal::Many { entry } => (2, vec![entry]),
            Refusal::Kind { entry } => (3, vec![entry]),
            Refusal::Length { entry } => (4, vec![entry]),
            Refusal::Empty { entry } => (5, vec![entry]),
            Refusal::Repeat { entry } => (6, vec![entry]),
            Refusal::Table { machine, states } => (7, vec![machine, states]),
            Refusal::Edition => (8, vec![]),
            Refusal::NoSet => (9, vec![]),
            Refusal::Serial => (10, vec![]),
            Refusal::NoRoom => (11, vec![]),
            Refusal::NoTicket => (12, vec![]),
            Refusal::Stale { edition } => (13, vec![edition.0 as usize]),
            Refusal::Long => (14, vec![]),
            Refusal::Place => (15, vec![]),
            Refusal::Nothing => (16, vec![]),
        }
    }

    pub fn number(self) -> u32 {
        self.row().0
    }

    pub fn values(self) -> Vec<u64> {
        let (_, with) = self.row();
        with.into_iter().map(|value| value as u64).collect()
    }
}
