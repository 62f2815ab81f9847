//! The split layout's own damage in scripts: both tables damaged, at one byte or
//! at two, and both flagging the same tags.

use super::{pieces, Generator};
use crate::layout::Layout;
use crate::machine::letter_of;
use crate::reading::{read_outside, Reading};
use crate::set::Tag;
use crate::table::Tables;

const SPLIT: Layout = Layout::Split;

impl Generator {
    /// Tables as building left them, most often, and a short piece for them.
    fn built_and_piece(&mut self) -> Vec<u8> {
        if !self.rng.once_in(4) {
            self.set_for_at_times(SPLIT);
            self.lend_enough(SPLIT);
            self.say("build split");
        }
        let length = self.rng.between(1, 6);
        match self.rng.once_in(2) {
            true => pieces::of_length(&mut self.rng, &self.tags, length),
            // A tag's last byte is one with a match.
            false => {
                let tag = self.rng.pick(&self.tags);
                tag.unwrap_or(Tag::exact("a")).bytes
            }
        }
    }

    /// Damages one table at a byte of a piece, or both, at one byte or at two;
    /// then reads the piece with a list that is often too short for the matches
    /// of the byte that it stops before.
    pub(super) fn damage_ahead(&mut self) {
        let piece = self.built_and_piece();
        let (last, any) = (piece.len() - 1, self.rng.below(piece.len()));
        let first_at = self.rng.one_of(&[last, last, any]);
        let second_at = self.rng.one_of(&[first_at, first_at, last, any]);
        let at = [first_at, second_at];
        self.poke_in_some(|generator, table| {
            if let Some(before) = generator.read_ahead(&piece[..at[table]]) {
                generator.poke_next(table, &before.place, piece[at[table]]);
            }
        });
        self.read_with_little_room(&piece);
        for _ in 0..self.rng.below(3) {
            self.make_ready();
            let serial = self.serial();
            self.feed_to(serial, &piece);
        }
        self.mend_at_times();
    }

    /// Feeds until a byte's matches find no room, then damages one table or both
    /// at that very byte, and feeds it again.
    pub(super) fn damage_when_full(&mut self) {
        match self.rng.once_in(2) {
            true => self.nested_set(SPLIT),
            false => self.set_for(SPLIT),
        }
        self.lend_enough(SPLIT);
        self.say("replace");
        self.make_ready();
        let tag = self.rng.pick(&self.tags).unwrap_or(Tag::exact("a")).bytes;
        let run = tag.repeat((4_000 / tag.len()).min(300));
        let Some(serial) = self.live() else {
            return;
        };
        let answer = self.feed_to(serial, &run);
        let mut tickets = self.replay.desk().tickets().iter();
        let ticket = tickets.find(|ticket| ticket.serial.0 == serial);
        let (Some(ticket), Some(taken)) = (ticket, taken_by(&answer)) else {
            return;
        };
        let (place, rest) = (ticket.place.clone(), &run[taken..]);
        if let Some(byte) = rest.first() {
            self.poke_in_some(|generator, table| generator.poke_next(table, &place, *byte));
            self.feed_to(serial, rest);
            self.mend_at_times();
            self.feed_to(serial, rest);
        }
    }

    /// Pokes into one table, or into both.
    fn poke_in_some(&mut self, mut poke: impl FnMut(&mut Generator, usize)) {
        let tables = self.rng.below(4);
        if tables != 0 {
            poke(self, 0);
        }
        if tables != 1 {
            poke(self, 1);
        }
    }

    /// Makes both tables flag the same tags behind a piece, as no building
    /// does, and reads it with a list that has room for them once, or not.
    pub(super) fn flag_in_both(&mut self) {
        let piece = self.built_and_piece();
        let Some(reading) = self.read_ahead(&piece) else {
            return;
        };
        let both = self.rng.once_in(3);
        let table = self.rng.below(2);
        let flagged = self.flagged(1 - table, &reading.place);
        let random = self.rng.below(65_536);
        let value = match both || flagged == 0 {
            true => self.rng.one_of(&[0xffff, 0x8001, 1, random]),
            false => self
                .rng
                .one_of(&[flagged, flagged, flagged | random, 0xffff]),
        };
        for machine in 0..SPLIT.machines() {
            let (home, in_table) = SPLIT.home_of(machine);
            if both || home == table {
                let state = usize::from(reading.place[machine]);
                let slot = SPLIT.slot_at(self.slots(SPLIT, home), in_table, state);
                self.poke_at(slot + SPLIT.before_vector(), value, home);
            }
        }
        for _ in 0..self.rng.between(1, 3) {
            self.read_with_little_room(&piece);
        }
        self.feed_with_little_room(&piece);
        self.mend_at_times();
    }

    /// Fills the list with the records of a piece, again and again, then feeds
    /// it with room for its last byte's matches, each once, or for one less or
    /// more.
    fn feed_with_little_room(&mut self, piece: &[u8]) {
        self.make_ready();
        let (Some(serial), Some(reading)) = (self.live(), self.read_ahead(piece)) else {
            return;
        };
        let times = (4_000 / piece.len()).min(300);
        self.feed_to(serial, &piece.repeat(times));
        let [first, second] = [0, 1].map(|table| self.flagged(table, &reading.place));
        let matches = (first | second).count_ones() as usize;
        for _ in 0..self.rng.between(1, 3) {
            let room = self.rng.one_of(&[matches, matches, matches + 1]);
            let room = room.saturating_sub(self.rng.below(2));
            self.take_for_room(room);
            self.feed_to(serial, piece);
        }
    }

    /// The damage is built over, or left.
    fn mend_at_times(&mut self) {
        match self.rng.below(3) {
            0 => self.say("replace"),
            1 => self.say("build split"),
            _ => vec![],
        };
    }

    /// What reading a piece from the start would give now, with all the room it
    /// may need; nothing where a table has no slot.
    fn read_ahead(&self, piece: &[u8]) -> Option<Reading> {
        let lent = self.replay.lent_tables();
        let mut list = vec![0; 2 * 16 * piece.len()];
        let start = vec![0; SPLIT.machines()];
        read_outside(Tables::lent(SPLIT, &lent), &start, 0, piece, &mut list).ok()
    }

    /// The tags that a table flags at a place of its own.
    fn flagged(&self, table: usize, place: &[u16]) -> usize {
        let lent = self.replay.lent_tables();
        let flagged = Tables::lent(SPLIT, &lent).flagged(table, place);
        usize::from(flagged.unwrap_or(0))
    }

    /// Puts a number that is not below s, or any, where some machine of a table
    /// looks for its next state when a byte comes at a place.
    fn poke_next(&mut self, table: usize, place: &[u16], byte: u8) {
        let in_table = self.rng.below(SPLIT.machines_a_table());
        let machine = table * SPLIT.machines_a_table() + in_table;
        let letter = usize::from(letter_of(machine, byte));
        let s = self.slots(SPLIT, table);
        let slot = SPLIT.slot_at(s, in_table, usize::from(place[machine]));
        let random = self.rng.below(65_536);
        let value = self.rng.one_of(&[s, s, s + 1, 65_535, random]);
        self.poke_at(slot + letter, value, table);
    }

    /// Reads a piece from the start, with room for the records that come before
    /// its stop, or its end, and few more or less.
    fn read_with_little_room(&mut self, piece: &[u8]) {
        let records = self.read_ahead(piece).map_or(0, |reading| reading.records);
        let room = (2 * records + self.rng.below(5)).saturating_sub(2);
        let count = self.count(piece.len());
        self.read_into(room, SPLIT, count, &[0; 16], piece);
    }
}

/// The number taken of a feed's answer, where it has one.
fn taken_by(answer: &[String]) -> Option<usize> {
    let taken = answer.first()?.strip_prefix("taken ")?;
    taken.split(' ').next()?.parse().ok()
}
