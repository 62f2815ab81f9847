//! Sets in scripts: good ones, and faulty ones with the buildings they meet.

use super::lend_calls::Needed;
use super::{bad_sets, odd, pieces, sets, Generator};
use crate::layout::Layout;
use crate::set::{write_tags, Tag};

impl Generator {
    /// Gives the set of new tags, of one kind or of both.
    pub(super) fn good_set(&mut self) {
        let tags = sets::good_tags(&mut self.rng);
        self.use_tags(tags);
        self.set_of_tags();
    }

    /// Gives a set for a layout: the last one again where it may be, or new
    /// tags, most often of the kinds that the layout takes.
    pub(super) fn set_for(&mut self, layout: Layout) {
        if self.takes_the_tags(layout) && self.rng.once_in(3) {
            return self.set_of_tags();
        }
        if layout == Layout::Split || self.rng.once_in(8) {
            return self.good_set();
        }
        let tags = sets::exact_tags(&mut self.rng);
        self.use_tags(tags);
        self.set_of_tags();
    }

    /// Gives a set for a layout, or leaves the one there is, if it may be.
    pub(super) fn set_for_at_times(&mut self, layout: Layout) {
        if !self.takes_the_tags(layout) || self.rng.once_in(2) {
            self.set_for(layout);
        }
    }

    /// Whether a layout takes the kinds of all tags of the last good set.
    fn takes_the_tags(&self, layout: Layout) -> bool {
        let taken = |tag: &Tag| layout.kinds().contains(&tag.kind);
        self.tags.iter().all(taken)
    }

    /// A set for a layout in which as many tags end at a byte as there are.
    pub(super) fn nested_set(&mut self, layout: Layout) {
        let tags = sets::nested(&mut self.rng, layout.kinds());
        self.use_tags(tags);
        self.set_of_tags();
    }

    /// Makes these the tags of which pieces are made.
    fn use_tags(&mut self, tags: Vec<Tag>) {
        self.needed = Needed::by(&tags);
        self.tags = tags;
    }

    /// Gives the set of the tags, most often by quoted words where they can be.
    pub(super) fn set_of_tags(&mut self) {
        let tags = self.tags.clone();
        let quotable = tags.iter().all(|tag| pieces::can_be_quoted(&tag.bytes));
        if quotable && !self.rng.once_in(3) {
            self.set_quoted(&tags);
        } else {
            let word = pieces::hexadecimal(&write_tags(&tags));
            self.line(&[b"set ", word.as_slice()].concat());
        }
    }

    fn set_quoted(&mut self, tags: &[Tag]) {
        let words: Vec<Vec<u8>> = tags.iter().map(pieces::tag_word).collect();
        self.line(&[b"set ", words.join(&b' ').as_slice()].concat());
    }

    /// A faulty set, given to one building, to two, or to all that there are.
    pub(super) fn faulty_set(&mut self) {
        match self.rng.below(24) {
            0 => {
                let line = odd::long_set(&mut self.rng);
                self.line(&line);
            }
            1..=4 => {
                let tags = bad_sets::bad_tags(&mut self.rng);
                self.set_quoted(&tags);
            }
            _ => self.bad_set(),
        }
        let buildings = ["build split", "build whole", "build bitmap", "replace"];
        match self.rng.once_in(3) {
            true => buildings.iter().for_each(|call| drop(self.say(call))),
            false => {
                for _ in 0..self.rng.between(1, 2) {
                    let call = self.rng.pick(&buildings).unwrap_or("replace");
                    self.say(call);
                }
            }
        }
        if self.rng.once_in(2) {
            self.good_set();
        }
    }

    fn bad_set(&mut self) {
        let set = bad_sets::bad_set(&mut self.rng);
        let word = match set.is_empty() {
            // A quoted word would be an entry of no length here.
            true => self.rng.pick(&[b"-", b"x"]).unwrap_or(b"-").to_vec(),
            false => pieces::hexadecimal(&set),
        };
        self.line(&[b"set ", word.as_slice()].concat());
    }
}
