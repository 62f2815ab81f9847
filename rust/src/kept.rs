//! The sets of the editions that may still be named.

use crate::entry::Entry;
use crate::numbers::{Edition, Replaced, Tag};
use crate::set::TagSet;

/// Sets by their edition, oldest first.
#[derive(Clone, Default)]
pub(crate) struct Kept {
    sets: Vec<(Edition, TagSet)>,
}

impl Kept {
    /// After an accepted replacement: keeps its set, and of the others those still wanted.
    pub fn put(&mut self, replaced: Replaced, set: TagSet, wanted: impl Fn(Edition) -> bool) {
        self.sets.retain(|(edition, _)| wanted(*edition));
        self.sets.push((replaced.edition, set));
    }

    pub fn set(&self, edition: Edition) -> Option<&TagSet> {
        let mut newest_first = self.sets.iter().rev();
        let (_, set) = newest_first.find(|(of, _)| *of == edition)?;
        Some(set)
    }

    pub fn tag(&self, edition: Edition, tag: Tag) -> Option<Entry<'_>> {
        self.set(edition)?.tag(tag)
    }
}
