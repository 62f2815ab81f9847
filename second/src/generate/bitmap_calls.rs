//! The bitmap layout's own calls in scripts: tables of just too few slots,
//! damage that readings come past, and tables of another layout.

use super::outside_calls::name_of;
use super::Generator;
use crate::bitmap::{FAILURE, FIRST_CHILD, VECTOR};
use crate::layout::Layout;

impl Generator {
    /// Lends just too little, just enough, or about as much, and builds.
    pub(super) fn bitmap_short(&mut self) {
        self.set_for_at_times(Layout::Bitmap);
        let exact = 19 * self.needed(Layout::Bitmap, 0);
        let odd = self.rng.below(19);
        let lengths = [exact - 1, exact - 19, exact - 1 - odd, exact, exact + odd];
        for _ in 0..self.rng.between(1, 3) {
            let lent = self.rng.one_of(&lengths);
            self.lend_of(lent, 0);
            self.say("build bitmap");
            self.peek_at(Layout::Bitmap);
            self.read_a_piece(Layout::Bitmap);
        }
    }

    /// Pokes numbers into a bitmap table as building left it, and reads over
    /// them, from the start and from any state.
    pub(super) fn bitmap_damage(&mut self) {
        self.set_for_at_times(Layout::Bitmap);
        self.lend_enough(Layout::Bitmap);
        self.say("build bitmap");
        let s = self.slots(Layout::Bitmap, 0);
        for _ in 0..self.rng.between(1, 4) {
            match self.rng.once_in(8) {
                true => self.poke_past_16_bits(s),
                false => self.poke_bitmap(s),
            }
        }
        for _ in 0..self.rng.between(1, 4) {
            self.read_a_piece(Layout::Bitmap);
        }
    }

    /// Builds in one layout and reads in another, from anywhere.
    pub(super) fn read_across(&mut self) {
        let (built, read) = (self.layout(), self.layout());
        self.set_for_at_times(built);
        self.lend_enough(built);
        self.say(&format!("build {}", name_of(built)));
        for _ in 0..self.rng.between(1, 4) {
            self.read_a_piece(read);
        }
    }

    /// One number of a slot of the bitmap layout, near the front most often,
    /// where readings come past.
    pub(super) fn poke_bitmap(&mut self, s: usize) {
        let few = self.rng.between(1, 6);
        let most = self
            .rng
            .one_of(&[few, few, few, self.needed(Layout::Bitmap, 0)]);
        let state = self.rng.below(s.min(most));
        let first = self.first_byte();
        let byte = match self.rng.once_in(3) {
            true => self.rng.byte(),
            false => first,
        };
        let map = usize::from(byte / 16);
        let columns = [map, FIRST_CHILD, FIRST_CHILD, FAILURE, FAILURE, VECTOR];
        let column = self.rng.one_of(&columns);
        let value = match column {
            FIRST_CHILD => self.child_value(s),
            FAILURE => self.failure_value(s, state),
            VECTOR => {
                let random = self.rng.below(65_536);
                self.rng.one_of(&[0xffff, 0x8000, 0x7fff, random])
            }
            _ => self.map_value(byte),
        };
        let at = Layout::Bitmap.slot_at(s, 0, state) + column;
        self.poke_at(at, value, 0);
    }

    /// Sixteen ones below nearly every byte, and a first child so large that
    /// with them it would be below s again in 16 bits.
    fn poke_past_16_bits(&mut self, s: usize) {
        let state = self.rng.below(s.min(3));
        let at = Layout::Bitmap.slot_at(s, 0, state);
        let large = 65_536 - self.rng.between(1, 16);
        self.poke_at(at, 65_535, 0);
        self.poke_at(at + FIRST_CHILD, large, 0);
    }

    /// A number of a map: one byte alone, all, none, all below it, or any.
    fn map_value(&mut self, byte: u8) -> usize {
        let bit = 1 << (byte % 16);
        let random = self.rng.below(65_536);
        self.rng.one_of(&[bit, 0xffff, 0, bit * 2 - 1, random])
    }

    /// A first child on either side of s, or so large that with some ones it
    /// passes 16 bits.
    fn child_value(&mut self, s: usize) -> usize {
        let below = self.rng.below(s);
        let large = 65_536 - self.rng.between(1, 16);
        let random = self.rng.below(65_536);
        let near = [s.saturating_sub(1), s, s.saturating_sub(2)];
        let near = self.rng.one_of(&near);
        self.rng.one_of(&[near, near, below, below, large, random])
    }

    /// A failure state below its own, its own, or above it, on either side of s.
    fn failure_value(&mut self, s: usize, state: usize) -> usize {
        let below = self.rng.below(state);
        let above = self.rng.between(state + 1, s.max(state + 1));
        let random = self.rng.below(65_536);
        let less = state.saturating_sub(1);
        self.rng
            .one_of(&[state, state, state + 1, above, below, less, 65_535, random])
    }
}
