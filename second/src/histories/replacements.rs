//! The sets of a history, and when they are replaced.

use super::maker::Maker;
use super::Call;
use crate::generate::bad_sets::{bad_set, either};
use crate::generate::cases::recased;
use crate::generate::{pieces, sets};
use crate::layout::Layout;
use crate::set::{write_tags, Tag};

impl Maker {
    /// Puts tags in force that have nothing to do with those before.
    pub(super) fn new_tags(&mut self) {
        self.tags = match self.rng.below(3) {
            0 => self.inside_one_another(),
            1 => sets::nested(&mut self.rng, Layout::Split.kinds()),
            _ => sets::good_tags(&mut self.rng),
        };
        self.call(Call::Replace(write_tags(&self.tags)));
    }

    /// A word, and parts of it.
    fn inside_one_another(&mut self) -> Vec<Tag> {
        let length = self.rng.between(3, 32);
        let word = sets::word(&mut self.rng, b"abc", length);
        let mut words = vec![word.clone()];
        for _ in 0..self.rng.between(1, 15) {
            let from = self.rng.below(length);
            let to = self.rng.between(from + 1, length);
            words.push(word[from..to].to_vec());
        }
        let tags = sets::with_kinds(&mut self.rng, words, true);
        sets::lawful(tags)
    }

    /// Another set: the same again, with a tag withdrawn or given back, or a wholly new one. A tag
    /// that is withdrawn is often one that an approval carries.
    pub(super) fn replace(&mut self) {
        match self.rng.below(6) {
            0 => {}
            1 => {
                self.tags.pop();
            }
            2 => self.tags.reverse(),
            3 => return self.new_tags(),
            _ => {
                let carried = self.carried();
                self.tags.retain(|tag| !tag.repeats(&carried));
                self.tags.truncate(15);
                let at = self.rng.between(0, self.tags.len());
                self.tags.insert(at, carried);
            }
        }
        if self.tags.is_empty() {
            self.tags.push(Tag::exact("a"));
        }
        self.call(Call::Replace(write_tags(&self.tags)));
    }

    /// A tag of either kind: some bytes of an approval that isn't decided, or others, in other letter
    /// cases at times.
    fn carried(&mut self) -> Tag {
        let mut bytes = match self.rng.pick(self.gate.approvals()) {
            Some(one) => one.bytes(),
            None => vec![],
        };
        if bytes.is_empty() {
            bytes.push(self.rng.byte());
        }
        let from = self.rng.below(bytes.len());
        let to = self.rng.between(from + 1, bytes.len().min(from + 32));
        let bytes = match self.rng.once_in(3) {
            true => recased(&mut self.rng, &bytes[from..to]),
            false => bytes[from..to].to_vec(),
        };
        let kind = either(&mut self.rng);
        Tag { kind, bytes }
    }

    pub(super) fn faulty_set(&mut self) {
        let set = bad_set(&mut self.rng);
        self.call(Call::Replace(set));
        // It may have been lawful after all.
        if !self.gate.tags().is_empty() {
            self.tags = self.gate.tags().to_vec();
        }
    }

    /// The set is replaced, once or twice, between the last piece and the decision.
    pub(super) fn replace_before_decision(&mut self) {
        let serial = self.open_approval();
        let piece = match self.rng.once_in(2) {
            true => self.clean(),
            false => pieces::piece(&mut self.rng, &self.tags),
        };
        self.call(Call::Piece(serial, piece));
        for _ in 0..self.rng.between(1, 2) {
            self.replace();
        }
        self.call(Call::Decide(serial));
    }
}
