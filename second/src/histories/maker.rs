//! Making a history from its seed.

use super::{answer, Call};
use crate::gate::Gate;
use crate::generate::cases::recased;
use crate::generate::{pieces, sets};
use crate::rng::Rng;
use crate::set::Tag;

pub(super) struct Maker {
    pub(super) rng: Rng,
    pub(super) gate: Gate,
    /// The tags of which pieces are made: most often those in force.
    pub(super) tags: Vec<Tag>,
    history: Vec<(Call, String)>,
}

type Action = fn(&mut Maker);

/// What a history is made of, with the share of each.
const ACTIONS: &[(usize, Action)] = &[
    (6, Maker::begin),
    (8, Maker::piece),
    (4, Maker::cut_tag),
    (4, Maker::nearly),
    (4, Maker::in_other_cases),
    (2, Maker::flood),
    (4, Maker::decide),
    (3, Maker::replace),
    (4, Maker::replace_before_decision),
    (1, Maker::crowd),
    (2, Maker::faulty_set),
    (2, Maker::no_approval),
    (2, Maker::decide_twice),
];

impl Maker {
    pub(super) fn new(seed: u64) -> Maker {
        Maker {
            rng: Rng::new(seed),
            gate: Gate::new(),
            tags: Vec::new(),
            history: Vec::new(),
        }
    }

    pub(super) fn made(mut self) -> Vec<(Call, String)> {
        self.make();
        self.history
    }

    fn make(&mut self) {
        self.call(Call::Gate);
        if self.rng.once_in(4) {
            self.without_a_set();
        }
        self.new_tags();
        let mut menu: Vec<Action> = vec![Maker::piece];
        for (share, action) in ACTIONS {
            let times = share * self.rng.below(3);
            menu.extend(std::iter::repeat(*action).take(times));
        }
        for _ in 0..self.rng.between(3, 16) {
            if let Some(action) = self.rng.pick(&menu) {
                action(self);
            }
        }
        // Most often every approval that is left is decided, in any order.
        while let Some(serial) = self.any_approval().filter(|_| !self.rng.once_in(40)) {
            self.call(Call::Decide(serial));
        }
    }

    pub(super) fn call(&mut self, call: Call) {
        let answer = answer(&mut self.gate, &call);
        self.history.push((call, answer));
    }

    fn without_a_set(&mut self) {
        for _ in 0..self.rng.between(1, 4) {
            match self.rng.below(4) {
                0 => self.call(Call::Piece(1, b"he".to_vec())),
                1 => self.call(Call::Decide(1)),
                2 => self.faulty_set(),
                _ => self.call(Call::Begin),
            }
        }
    }

    fn begin(&mut self) {
        self.call(Call::Begin);
    }

    fn any_approval(&mut self) -> Option<u32> {
        let one = self.rng.pick(self.gate.approvals())?;
        Some(one.serial.0)
    }

    /// An approval that isn't stale; a new one where there is none.
    pub(super) fn open_approval(&mut self) -> u32 {
        let edition = self.gate.edition();
        let open = |gate: &Gate| -> Vec<u32> {
            let open = gate.approvals().iter();
            let open = open.filter(|one| one.edition == edition);
            open.map(|one| one.serial.0).collect()
        };
        if open(&self.gate).is_empty() {
            self.call(Call::Begin);
        }
        self.rng.pick(&open(&self.gate)).unwrap_or(0)
    }

    /// A piece for any approval, a stale one too.
    fn piece(&mut self) {
        let serial = match self.any_approval() {
            Some(serial) if self.rng.once_in(3) => serial,
            _ => self.open_approval(),
        };
        let piece = match self.rng.once_in(3) {
            true => self.clean(),
            false => pieces::piece(&mut self.rng, &self.tags),
        };
        self.call(Call::Piece(serial, piece));
    }

    /// Bytes that have little to do with the tags.
    pub(super) fn clean(&mut self) -> Vec<u8> {
        let length = self.rng.between(1, 30);
        sets::word(&mut self.rng, b"wxyz 0123", length)
    }

    /// The bytes of some tag.
    fn any_tag(&mut self) -> Vec<u8> {
        let tag = self.rng.pick(&self.tags);
        tag.unwrap_or(Tag::exact("a")).bytes
    }

    fn tag_in_other_cases(&mut self) -> Vec<u8> {
        let tag = self.any_tag();
        recased(&mut self.rng, &tag)
    }

    /// A tag cut into two pieces or three, with a piece of another approval between them.
    fn cut_tag(&mut self) {
        let serial = self.open_approval();
        let tag = match self.rng.once_in(3) {
            true => self.tag_in_other_cases(),
            false => self.any_tag(),
        };
        let first = self.rng.between(0, tag.len());
        let second = self.rng.between(first, tag.len());
        let parts = [&tag[..first], &tag[first..second], &tag[second..]];
        for part in parts {
            if part.is_empty() && !self.rng.once_in(3) {
                continue;
            }
            self.call(Call::Piece(serial, part.to_vec()));
            if self.rng.once_in(2) {
                self.piece();
            }
        }
    }

    /// An approval that nearly carries tags, each but for its last byte, and is often decided.
    fn nearly(&mut self) {
        self.call(Call::Begin);
        let serial = self.open_approval();
        for _ in 0..self.rng.between(1, 3) {
            let mut piece = self.clean();
            if let Some((_, front)) = self.any_tag().split_last() {
                piece.extend_from_slice(front);
                piece.extend(self.clean());
            }
            self.call(Call::Piece(serial, piece));
        }
        if self.rng.once_in(2) {
            self.call(Call::Decide(serial));
        }
    }

    /// An approval that carries tags in other letter cases alone: where they are exact it may pass.
    fn in_other_cases(&mut self) {
        self.call(Call::Begin);
        let serial = self.open_approval();
        for _ in 0..self.rng.between(1, 2) {
            let tag = self.tag_in_other_cases();
            let piece = [self.clean(), tag, self.clean()].concat();
            self.call(Call::Piece(serial, piece));
        }
        if self.rng.once_in(2) {
            self.call(Call::Decide(serial));
        }
    }

    /// A piece with more records than a desk holds, if the tags are so; then one of another.
    fn flood(&mut self) {
        let serial = self.open_approval();
        let tags = self.tags.iter().map(|tag| tag.bytes.clone());
        let mut tag = tags.max_by_key(Vec::len).unwrap_or_default();
        if self.rng.once_in(3) {
            tag = recased(&mut self.rng, &tag);
        }
        let length = self.rng.between(40, 400);
        let piece: Vec<u8> = tag.into_iter().cycle().take(length).collect();
        self.call(Call::Piece(serial, piece));
        self.call(Call::Begin);
        self.piece();
    }

    fn decide(&mut self) {
        if let Some(serial) = self.any_approval() {
            self.call(Call::Decide(serial));
        }
    }

    /// Sixteen approvals at once and a seventeenth, with pieces for some of them.
    fn crowd(&mut self) {
        while self.gate.approvals().len() < 16 && self.gate.edition().0 > 0 {
            self.call(Call::Begin);
        }
        self.call(Call::Begin);
        for _ in 0..self.rng.between(1, 6) {
            self.piece();
        }
        if self.rng.once_in(3) {
            self.replace();
            self.call(Call::Begin);
        }
    }

    /// A serial that was never given, or is decided.
    fn no_approval(&mut self) {
        let last = self.gate.serial().0;
        let decided = self.rng.between(1, last.max(1) as usize) as u32;
        let choices = [0, last + 1, last + 17, u32::MAX, decided];
        let serial = self.rng.pick(&choices).unwrap_or(0);
        let piece = self.clean();
        match self.rng.once_in(2) {
            true => self.call(Call::Piece(serial, piece)),
            false => self.call(Call::Decide(serial)),
        }
    }

    fn decide_twice(&mut self) {
        let serial = self.open_approval();
        let piece = pieces::piece(&mut self.rng, &self.tags);
        self.call(Call::Piece(serial, piece));
        for _ in 0..2 {
            self.call(Call::Decide(serial));
        }
        if self.rng.once_in(2) {
            self.call(Call::Piece(serial, b"a".to_vec()));
        }
    }
}
