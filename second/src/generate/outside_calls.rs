//! Building and reading outside the desk in scripts.

use super::{pieces, Generator};
use crate::layout::Layout;
use crate::occurrences::occurrences;
use crate::script::TABLE_BUFFERS;

/// The largest count of bytes taken.
const LARGEST: u64 = 4_294_967_295;

impl Generator {
    pub(super) fn layout(&mut self) -> Layout {
        match self.rng.below(3) {
            0 => Layout::Split,
            1 => Layout::Whole,
            _ => Layout::Bitmap,
        }
    }

    /// Rooms of 0, 1, few, odd and all numbers.
    fn room(&mut self) -> usize {
        match self.rng.below(12) {
            0 => self.rng.one_of(&[2_046, 2_047, 2_048, 2_049]),
            1 => self.rng.between(0, 2_048),
            2..=4 => self.rng.one_of(&[0, 1, 2, 3]),
            _ => self.rng.between(2, 70),
        }
    }

    /// A count of bytes already taken: small, or at the very edge of LONG for
    /// a piece of this length.
    pub(super) fn count(&mut self, length: usize) -> u64 {
        let edge = LARGEST - length as u64;
        match self.rng.below(8) {
            0 => edge,
            1 => (edge + 1).min(LARGEST),
            2 => edge - self.rng.below(3) as u64,
            3 => (edge + self.rng.below(4) as u64).min(LARGEST),
            4 => self.rng.below(1_000_000) as u64,
            _ => 0,
        }
    }

    pub(super) fn read(
        &mut self,
        layout: Layout,
        count: u64,
        place: &[usize],
        piece: &[u8],
    ) -> Vec<String> {
        let room = self.room();
        self.read_into(room, layout, count, place, piece)
    }

    pub(super) fn read_into(
        &mut self,
        room: usize,
        layout: Layout,
        count: u64,
        place: &[usize],
        piece: &[u8],
    ) -> Vec<String> {
        let name = name_of(layout);
        let count = self.number(count);
        let mut front = format!("read {name} {count} {room}");
        for state in place {
            let state = self.number(*state as u64);
            front.push(' ');
            front.push_str(&state);
        }
        self.say_with(&front, piece)
    }

    /// Builds, then reads one run of bytes in several pieces, each from the
    /// place that the reading before it left.
    pub(super) fn build_and_read(&mut self) {
        let layout = self.layout();
        self.set_for(layout);
        if !self.rng.once_in(6) {
            self.lend_enough(layout);
        }
        self.say(&format!("build {}", name_of(layout)));
        if self.rng.once_in(3) {
            self.peek_at(layout);
        }
        let length = self.rng.between(1, 120);
        let run = pieces::of_length(&mut self.rng, &self.tags, length);
        let mut count = self.count(run.len());
        let mut place = vec![0; layout.machines()];
        let mut rest = run.as_slice();
        for _ in 0..self.rng.between(1, 6) {
            let (piece, _) = rest.split_at(self.rng.between(0, rest.len()));
            let answer = self.read(layout, count, &place, piece);
            let Some((taken, new_place)) = answer.first().and_then(|line| left_by(line)) else {
                break;
            };
            place = new_place;
            count = (count + taken as u64).min(LARGEST);
            rest = rest.get(taken..).unwrap_or(&[]);
        }
    }

    /// Reads nested tags with a list that is just too short, or just long
    /// enough, for the matches of one byte.
    pub(super) fn read_at_brink(&mut self) {
        let layout = self.layout();
        self.nested_set(layout);
        self.lend_enough(layout);
        self.say(&format!("build {}", name_of(layout)));
        let letter = self.first_byte();
        for _ in 0..self.rng.between(2, 8) {
            let k = self.rng.between(1, self.tags.len());
            let records = occurrences(&self.tags, &vec![letter; k]).len();
            let room = (2 * records + self.rng.below(5)).saturating_sub(3);
            let more = self.rng.one_of(&[0, 0, 1, 2]);
            let piece = vec![letter; k + more];
            let count = self.count(piece.len());
            self.read_into(room, layout, count, &vec![0; layout.machines()], &piece);
        }
    }

    /// A read of whatever the tables hold, from any place; at times one state,
    /// of any machine, is about its table's s.
    pub(super) fn read_anywhere(&mut self) {
        let layout = self.layout();
        let mut place = Vec::new();
        for machine in 0..layout.machines() {
            let s = self.slots(layout, layout.home_of(machine).0);
            place.push(match self.rng.below(3) {
                0 => 0,
                1 => self.rng.below(s.min(12)),
                _ => self.rng.below(s),
            });
        }
        if self.rng.once_in(4) {
            let machine = self.rng.below(place.len());
            let s = self.slots(layout, layout.home_of(machine).0);
            let edges = [s.saturating_sub(1), s, s + 1, 65_535, 0, 1];
            place[machine] = self.rng.one_of(&edges);
        }
        let piece = pieces::piece(&mut self.rng, &self.tags);
        let count = self.count(piece.len());
        self.read(layout, count, &place, &piece);
    }

    /// Reads a piece of the tags, from the start or from any used state.
    pub(super) fn read_a_piece(&mut self, layout: Layout) {
        let mut place = Vec::new();
        for machine in 0..layout.machines() {
            let used = self.needed(layout, layout.home_of(machine).0);
            place.push(match self.rng.below(4) {
                0 => self.rng.below(used),
                1 => self.rng.below(used.min(8)),
                _ => 0,
            });
        }
        let piece = pieces::piece(&mut self.rng, &self.tags);
        let count = self.count(piece.len());
        self.read(layout, count, &place, &piece);
    }

    pub(super) fn peek(&mut self) {
        let layout = self.layout();
        self.peek_at(layout);
    }

    /// Shows some of a table: slots that are likely used, the end of the lent
    /// run, anywhere.
    pub(super) fn peek_at(&mut self, layout: Layout) {
        let machine = self.rng.below(layout.machines());
        let (table, in_table) = layout.home_of(machine);
        let state = self.rng.below(self.needed(layout, table));
        let used = layout.slot_at(self.slots(layout, table), in_table, state);
        let count = self.rng.one_of(&[0, 1, 24, 100, 255, 256]);
        let any = self.rng.below(TABLE_BUFFERS[table] + 1);
        let about_the_end = self.replay.lent()[table].saturating_sub(count / 2);
        let at = self.rng.one_of(&[used, used, used, any, about_the_end]);
        let (at, count) = (self.number(at as u64), self.number(count as u64));
        self.say_of_table(&format!("peek {at} {count}"), table);
    }
}

pub(super) fn name_of(layout: Layout) -> &'static str {
    match layout {
        Layout::Split => "split",
        Layout::Whole => "whole",
        Layout::Bitmap => "bitmap",
    }
}

/// The number taken and the new place of a read's answer, where it has them.
fn left_by(answer: &str) -> Option<(usize, Vec<usize>)> {
    let (front, place) = answer.split_once(" place ")?;
    let taken = front.split(' ').nth(1)?.parse().ok()?;
    let place: Result<Vec<usize>, _> = place.split(' ').map(str::parse).collect();
    Some((taken, place.ok()?))
}
