//! The desk's calls in scripts.

use super::cases::recased;
use super::{pieces, Generator};
use crate::desk::MOST_RECORDS;
use crate::layout::Layout;

impl Generator {
    /// A ticket that is open and not stale.
    pub(super) fn live(&mut self) -> Option<u32> {
        let desk = self.replay.desk();
        let live = desk.tickets().iter().filter(|t| !desk.is_stale(t));
        let live: Vec<u32> = live.map(|ticket| ticket.serial.0).collect();
        self.rng.pick(&live)
    }

    /// Most often a live ticket's serial; else a stale, closed or never given.
    pub(super) fn serial(&mut self) -> u32 {
        let last = self.replay.desk().serial().0;
        let tickets = self.replay.desk().tickets().iter();
        let not_closed: Vec<u32> = tickets.map(|ticket| ticket.serial.0).collect();
        let ever = self.rng.below(last as usize + 2) as u32;
        match self.rng.below(12) {
            0 => self.rng.pick(&[0, last.saturating_add(1), u32::MAX]),
            1 => Some(ever),
            2 => self.rng.pick(&not_closed),
            _ => self.live().or_else(|| self.rng.pick(&not_closed)),
        }
        .unwrap_or(ever)
    }

    /// Sees to it that there is a live ticket over tables of its slot counts.
    pub(super) fn make_ready(&mut self) {
        if self.replay.desk().edition().0 == 0 {
            self.good_set();
            self.lend_enough(Layout::Split);
            self.say("replace");
        }
        let slots = self.replay.desk().slots();
        for (table, slots) in slots.into_iter().enumerate() {
            if self.slots(Layout::Split, table) != slots {
                let odd = self.rng.below(24);
                self.lend_of(24 * slots + odd, table);
            }
        }
        if self.live().is_none() {
            let tickets = self.replay.desk().tickets();
            if let (16, Some(oldest)) = (tickets.len(), tickets.first()) {
                let line = format!("close {}", oldest.serial.0);
                self.say(&line);
            }
            self.say("open");
        }
    }

    pub(super) fn feed_to(&mut self, serial: u32, piece: &[u8]) -> Vec<String> {
        let serial = self.number(u64::from(serial));
        self.say_with(&format!("feed {serial}"), piece)
    }

    /// A piece for some ticket, most often a live one.
    pub(super) fn feed(&mut self) {
        if !self.rng.once_in(8) {
            self.make_ready();
        }
        let serial = self.serial();
        let piece = pieces::piece(&mut self.rng, &self.tags);
        self.feed_to(serial, &piece);
    }

    /// One run of bytes in several pieces, with other tickets between them.
    pub(super) fn feed_cut(&mut self) {
        self.make_ready();
        let Some(serial) = self.live() else {
            return;
        };
        let length = self.rng.between(4, 90);
        let run = pieces::of_length(&mut self.rng, &self.tags, length);
        let mut rest = run.as_slice();
        while !rest.is_empty() {
            let (piece, after) = rest.split_at(self.rng.between(1, rest.len()));
            self.feed_to(serial, piece);
            rest = after;
            if self.rng.once_in(3) {
                let other = self.serial();
                let piece = pieces::piece(&mut self.rng, &self.tags);
                self.feed_to(other, &piece);
            }
        }
    }

    /// A piece over tables of other slot counts than those of the replacement,
    /// in one of them or in both; at times the counts are the other table's.
    pub(super) fn feed_over_other_slots(&mut self) {
        self.make_ready();
        let [first, second] = self.replay.desk().slots();
        let which = self.rng.below(3);
        for (table, own, other) in [(0, first, second), (1, second, first)] {
            if which == 2 || which == table {
                let slots = [own + 1, own.saturating_sub(1), other, 0];
                let lent = 24 * self.rng.one_of(&slots);
                let odd = self.rng.below(24);
                self.lend_of(lent + odd, table);
            }
        }
        let serial = self.serial();
        let piece = pieces::piece(&mut self.rng, &self.tags);
        self.feed_to(serial, &piece);
    }

    pub(super) fn take(&mut self) {
        let all = self.replay.desk().held() + 1;
        let some = self.rng.one_of(&[1, 1, 2, 3, 8, 17, 40, all]);
        for _ in 0..some.min(all) {
            self.say("take");
        }
    }

    pub(super) fn open(&mut self) {
        for _ in 0..self.rng.one_of(&[1, 1, 1, 1, 1, 2, 3, 4, 17]) {
            self.say("open");
        }
    }

    pub(super) fn close(&mut self) {
        for _ in 0..self.rng.one_of(&[1, 1, 1, 1, 1, 2, 3, 16]) {
            let serial = self.serial();
            let again = self.rng.once_in(4);
            let number = self.number(u64::from(serial));
            self.say(&format!("close {number}"));
            if again {
                self.feed_to(serial, b"a");
            }
        }
    }

    /// The state of some serials: live, not closed, ever given, and never given.
    pub(super) fn state(&mut self) {
        for _ in 0..self.rng.one_of(&[1, 1, 2, 5]) {
            let last = self.replay.desk().serial().0;
            let tickets = self.replay.desk().tickets().iter();
            let not_closed: Vec<u32> = tickets.map(|ticket| ticket.serial.0).collect();
            let ever = self.rng.below(last as usize + 2) as u32;
            let serial = match self.rng.below(6) {
                0 => self.rng.pick(&[0, last.saturating_add(1), u32::MAX]),
                1 | 2 => Some(ever),
                3 => self.rng.pick(&not_closed),
                _ => Some(self.serial()),
            };
            let number = self.number(u64::from(serial.unwrap_or(ever)));
            self.say(&format!("state {number}"));
        }
    }

    pub(super) fn show(&mut self) {
        self.say("show");
    }

    /// A replacement by new tags, the same again, or what the set now is.
    pub(super) fn replace(&mut self) {
        match self.rng.below(4) {
            0 => self.set_of_tags(),
            1 => {}
            _ => self.good_set(),
        }
        if !self.rng.once_in(3) {
            self.lend_enough(Layout::Split);
        }
        self.say("replace");
        if self.rng.once_in(2) {
            let stale = self.serial();
            let piece = self.tags[0].bytes.clone();
            self.feed_to(stale, &piece);
        }
    }

    /// Fills the list with matches of nested tags, then goes on at its brink.
    pub(super) fn fill_list(&mut self) {
        self.nested_set(Layout::Split);
        self.lend_enough(Layout::Split);
        self.say("replace");
        self.make_ready();
        let letter = self.first_byte();
        for _ in 0..self.rng.between(1, 4) {
            let serial = self.serial();
            let length = self.rng.between(1, 300);
            self.feed_to(serial, &vec![letter; length]);
        }
        for _ in 0..self.rng.between(2, 12) {
            self.feed_at_brink(letter);
        }
        self.say("show");
    }

    /// Takes records until there is room for so many, or as many as there are.
    pub(super) fn take_for_room(&mut self, room: usize) {
        let room_now = MOST_RECORDS - self.replay.desk().held();
        for _ in room_now..room {
            self.say("take");
        }
    }

    /// Every count of matches meets just too little room, just enough, or any.
    fn feed_at_brink(&mut self, letter: u8) {
        let matches = self.tags.len();
        let any = self.rng.below(18);
        let room = self.rng.one_of(&[matches - 1, matches - 1, matches, any]);
        self.take_for_room(room);
        let serial = self.serial();
        let length = self.rng.one_of(&[0, 1, 1, 1, 2, 3]);
        let mut piece = vec![letter; length];
        // Another letter parts them; in the other case the folded tags go on.
        match self.rng.below(8) {
            0 => piece.insert(0, letter ^ 1),
            1 => piece = recased(&mut self.rng, &piece),
            _ => {}
        }
        self.feed_to(serial, &piece);
    }
}
