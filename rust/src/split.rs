//! The two tables of the split layout, owned.

use crate::lent::SPLIT_SLOT;

/// Slots beyond these are never used.
const MOST_SLOTS: usize = 513;

/// The numbers of both tables: the first for exact tags, the second for folded ones.
#[derive(Clone, Debug, PartialEq, Eq)]
pub(crate) struct SplitNumbers {
    pub first: Box<[u16]>,
    pub second: Box<[u16]>,
}

impl SplitNumbers {
    /// Zeros for so many slots of the first and of the second table. Even a table without tags needs a
    /// slot, so fewer than 1 would make tables that no set fits.
    pub fn with_slots(slots: [usize; 2]) -> SplitNumbers {
        let [first, second] =
            slots.map(|slots| vec![0; slots.clamp(1, MOST_SLOTS) * SPLIT_SLOT].into());
        SplitNumbers { first, second }
    }

    pub fn slots(&self) -> [usize; 2] {
        self.both().map(|numbers| numbers.len() / SPLIT_SLOT)
    }

    pub fn both(&self) -> [&[u16]; 2] {
        [&self.first, &self.second]
    }
}
