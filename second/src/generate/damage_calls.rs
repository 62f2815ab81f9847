//! Damage to lent tables in scripts, and readings over it.

use super::{pieces, Generator};
use crate::layout::Layout;
use crate::machine::letter_of;

impl Generator {
    /// Pokes numbers into the lent tables' slots and reads over them.
    pub(super) fn damage(&mut self) {
        let layout = self.layout();
        for _ in 0..self.rng.between(1, 4) {
            match layout {
                Layout::Bitmap => self.poke_bitmap(self.slots(layout, 0)),
                Layout::Split | Layout::Whole => self.poke(layout),
            }
        }
        for _ in 0..self.rng.between(1, 3) {
            match (layout, self.rng.below(3)) {
                (Layout::Split, 0..=1) => self.feed(),
                _ => {
                    let piece = pieces::piece(&mut self.rng, &self.tags);
                    let count = self.count(piece.len());
                    self.read(layout, count, &vec![0; layout.machines()], &piece);
                }
            }
        }
        // The damage is left, or built over.
        match self.rng.below(4) {
            0 => self.say("replace"),
            1 => self.say("build split"),
            _ => vec![],
        };
    }

    /// Most often a next number or vector near the front, where readings come
    /// past.
    fn poke(&mut self, layout: Layout) {
        let machine = self.rng.below(layout.machines());
        let (table, in_table) = layout.home_of(machine);
        let s = self.slots(layout, table);
        let few = self.rng.between(1, 6);
        let state = self.rng.below(s.min(few));
        let letter = match layout {
            Layout::Split => letter_of(machine, self.first_byte()),
            Layout::Whole | Layout::Bitmap => self.first_byte(),
        };
        let vector = layout.before_vector();
        let any = self.rng.below(vector);
        let column = self.rng.one_of(&[usize::from(letter), any, vector]);
        let random = self.rng.below(65_536);
        let value = match column == vector {
            true => self.rng.one_of(&[0xffff, 0x8000, 0x7fff, 0xff00, random]),
            false => {
                let below_s = self.rng.below(s);
                let choices = [s.saturating_sub(1), s, s + 1, 65_535, below_s, random];
                self.rng.one_of(&choices)
            }
        };
        let at = layout.slot_at(s, in_table, state) + column;
        self.poke_at(at, value, table);
    }

    pub(super) fn poke_at(&mut self, at: usize, value: usize, table: usize) {
        let (at, value) = (self.number(at as u64), self.number(value as u64));
        self.say_of_table(&format!("poke {at} {value}"), table);
    }
}
