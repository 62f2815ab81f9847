//! What is lent in scripts: of each table too little, just enough, odd lengths
//! and too much.

use super::Generator;
use crate::layout::Layout;
use crate::machine::Machine;
use crate::script::TABLE_BUFFERS;
use crate::set::{read_set, write_tags, Tag};

/// The slots that the tags of a set need.
pub(super) struct Needed {
    /// In the first and the second table of the split layout.
    split: [usize; 2],
    /// In the whole-byte layout, for the exact tags, and in the bitmap layout,
    /// which has as many states in another order.
    whole: usize,
}

impl Needed {
    pub(super) fn by(tags: &[Tag]) -> Needed {
        let mut needed = Needed {
            split: [1, 1],
            whole: 1,
        };
        if let Ok(set) = read_set(&write_tags(tags), Layout::Split.kinds()) {
            for machine in 0..Layout::Split.machines() {
                let (table, _) = Layout::Split.home_of(machine);
                let states = Machine::bit(&set, machine).states();
                needed.split[table] = needed.split[table].max(states);
            }
            needed.whole = Machine::whole_byte(&set).states();
        }
        needed
    }
}

/// Lengths about the edges of one slot and of 513, in each layout.
const LENGTHS: &[usize] = &[
    0, 1, 18, 19, 20, 23, 24, 25, 256, 257, 258, 9_746, 9_747, 9_766, 12_311, 12_312, 12_336,
];

impl Generator {
    /// The slots a table of a layout needs for the last good set.
    pub(super) fn needed(&self, layout: Layout, table: usize) -> usize {
        match layout {
            Layout::Split => self.needed.split[table],
            Layout::Whole | Layout::Bitmap => self.needed.whole,
        }
    }

    /// s of a lent table.
    pub(super) fn slots(&self, layout: Layout, table: usize) -> usize {
        layout.slots(self.replay.lent()[table])
    }

    /// Lends so many numbers of a table, if it has them.
    pub(super) fn lend_of(&mut self, lent: usize, table: usize) {
        let lent = self.number(lent.min(TABLE_BUFFERS[table]) as u64);
        self.say_of_table(&format!("lend {lent}"), table);
    }

    /// Lends of each of a layout's tables as many numbers as the last good set
    /// needs, or more.
    pub(super) fn lend_enough(&mut self, layout: Layout) {
        for table in 0..layout.tables() {
            // Where there is enough of the second it is often left.
            let enough = self.slots(layout, table) >= self.needed(layout, table);
            if table == 0 || !enough || self.rng.once_in(3) {
                let lent = self.enough_of(layout, table);
                self.lend_of(lent, table);
            }
        }
    }

    /// As many numbers as the last good set needs of a table, or more.
    fn enough_of(&mut self, layout: Layout, table: usize) -> usize {
        let a_slot = layout.a_slot_each();
        let exact = self.needed(layout, table) * a_slot;
        let (greatest, all) = (513 * a_slot, TABLE_BUFFERS[table]);
        let odd = exact + self.rng.below(a_slot);
        let more = self.rng.between(exact, greatest);
        let beyond = self.rng.between(greatest, all);
        self.rng.one_of(&[exact, odd, more, beyond, all])
    }

    /// Lends anything of either table: too short, exact, odd and too long.
    pub(super) fn lend(&mut self) {
        match self.rng.below(3) {
            0 => self.lend_second(),
            _ => self.lend_first(),
        }
        match self.rng.below(5) {
            0 => self.say("build split"),
            1 => self.say("build whole"),
            2 => self.say("build bitmap"),
            3 => self.say("replace"),
            _ => vec![],
        };
    }

    fn lend_first(&mut self) {
        let whole = 257 * self.needed(Layout::Whole, 0);
        let bitmap = 19 * self.needed(Layout::Bitmap, 0);
        let lent = match self.rng.below(7) {
            0 => self.rng.one_of(&[131_583, 131_584, 131_840, 131_841]),
            1 => self.rng.below(131_842),
            2 => self.rng.one_of(&[whole, whole - 1, whole + 256]),
            3 => self.rng.one_of(&[bitmap, bitmap - 1, bitmap + 18]),
            _ => self.about_split(0),
        };
        self.lend_of(lent, 0);
    }

    fn lend_second(&mut self) {
        let lent = match self.rng.below(5) {
            0 => self.rng.one_of(&[16_383, 16_384, 12_311, 12_312]),
            1 => self.rng.below(16_385),
            _ => self.about_split(1),
        };
        self.lend_of(lent, 1);
    }

    /// A length about what a table of the split layout needs, or at an edge.
    fn about_split(&mut self, table: usize) -> usize {
        let split = 24 * self.needed(Layout::Split, table);
        let some = 24 * self.rng.between(0, split / 24);
        match self.rng.below(5) {
            0 => self.rng.one_of(LENGTHS),
            1 => some,
            _ => self.rng.one_of(&[split, split - 1, split + 23, split - 24]),
        }
    }

    /// Lends just too little, just enough, or about as much, of both tables,
    /// and builds: one of them is short, or both are.
    pub(super) fn split_short(&mut self) {
        self.set_for_at_times(Layout::Split);
        for _ in 0..self.rng.between(1, 3) {
            for table in 0..2 {
                let exact = 24 * self.needed(Layout::Split, table);
                let odd = self.rng.below(24);
                let short = [exact - 1, exact - 24, exact - 1 - odd];
                let enough = [exact, exact, exact + odd];
                let lent = self.rng.one_of(&[short, enough].concat());
                self.lend_of(lent, table);
            }
            let call = self.rng.pick(&["build split", "replace"]);
            self.say(call.unwrap_or("replace"));
            self.peek_at(Layout::Split);
            self.read_a_piece(Layout::Split);
        }
    }
}
