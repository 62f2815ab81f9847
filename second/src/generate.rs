//! A seeded generator of replay scripts.
//!
//! The calls are made on a desk of this program while the script is written,
//! so that the generator can see which tickets are open and what is lent.
//! Refusals 8 (EDITION) and 10 (SERIAL) can't be reached by a script: they
//! need 4,294,967,295 replacements or openings.

pub(crate) mod bad_sets;
mod bitmap_calls;
pub(crate) mod cases;
mod damage_calls;
mod desk_calls;
mod edge_lines;
mod lend_calls;
mod odd;
mod outside_calls;
pub(crate) mod pieces;
mod set_calls;
pub(crate) mod sets;
mod split_calls;

use crate::replay::Replay;
use crate::rng::Rng;
use crate::set::Tag;
use lend_calls::Needed;

/// The script of a seed, with exactly this many calls (lines that are
/// answered); empty lines and comments come in addition.
pub fn script(seed: u64, calls: usize) -> Vec<u8> {
    let tags = vec![Tag::exact("a")];
    let mut generator = Generator {
        rng: Rng::new(seed),
        replay: Replay::new(),
        script: Vec::new(),
        calls: 0,
        most: calls,
        needed: Needed::by(&tags),
        tags,
    };
    let menu = generator.menu();
    generator.begin();
    while generator.calls < generator.most {
        if let Some(action) = generator.rng.pick(&menu) {
            action(&mut generator);
        }
    }
    // A last line without its end counts as a line.
    if generator.rng.once_in(4) {
        generator.script.pop();
    }
    generator.script
}

struct Generator {
    rng: Rng,
    replay: Replay,
    script: Vec<u8>,
    /// The calls written, and how many are asked for.
    calls: usize,
    most: usize,
    /// The tags of the last good set, of which pieces are made.
    tags: Vec<Tag>,
    /// The slots that they need.
    needed: Needed,
}

type Action = fn(&mut Generator);

/// What a script is made of, with the usual share of each.
const ACTIONS: &[(usize, Action)] = &[
    (8, Generator::feed),
    (4, Generator::feed_cut),
    (1, Generator::feed_over_other_slots),
    (4, Generator::take),
    (3, Generator::open),
    (2, Generator::close),
    (3, Generator::state),
    (4, Generator::show),
    (3, Generator::replace),
    (1, Generator::fill_list),
    (3, Generator::damage),
    (2, Generator::damage_ahead),
    (1, Generator::damage_when_full),
    (1, Generator::flag_in_both),
    (5, Generator::faulty_set),
    (3, Generator::lend),
    (1, Generator::split_short),
    (4, Generator::build_and_read),
    (4, Generator::read_anywhere),
    (1, Generator::read_at_brink),
    (1, Generator::bitmap_short),
    (2, Generator::bitmap_damage),
    (1, Generator::read_across),
    (3, Generator::peek),
    (5, Generator::odd_line),
    (1, Generator::silent_line),
];

impl Generator {
    /// The actions of this script: some lie near to hand, some are left out,
    /// so that scripts differ in kind.
    fn menu(&mut self) -> Vec<Action> {
        let mut menu: Vec<Action> = vec![Generator::feed];
        for (share, action) in ACTIONS {
            let times = share * self.rng.below(3);
            menu.extend(std::iter::repeat(*action).take(times));
        }
        menu
    }

    /// Calls on a desk without a set now and then; then most often a set.
    fn begin(&mut self) {
        if self.rng.once_in(2) {
            let calls = [
                "open", "open", "feed 1 -", "close 1", "state 1", "take", "show", "replace",
            ];
            for _ in 0..self.rng.between(1, 4) {
                let call = self.rng.pick(&calls).unwrap_or("open");
                self.say(call);
            }
        }
        if !self.rng.once_in(5) {
            self.good_set();
            self.say("replace");
        }
    }

    /// Writes a line and makes its call; gives the answer. Once the script has
    /// its calls nothing more is written.
    fn line(&mut self, line: &[u8]) -> Vec<String> {
        if self.calls >= self.most || line.contains(&b'\n') {
            return vec![];
        }
        self.script.extend_from_slice(line);
        self.script.push(b'\n');
        let answer = self.replay.line(line);
        if !answer.is_empty() {
            self.calls += 1;
        }
        answer
    }

    fn say(&mut self, line: &str) -> Vec<String> {
        self.line(line.as_bytes())
    }

    /// A line that ends with a BYTES word.
    fn say_with(&mut self, front: &str, bytes: &[u8]) -> Vec<String> {
        let word = pieces::bytes_word(&mut self.rng, bytes);
        self.line(&[front.as_bytes(), b" ", &word].concat())
    }

    /// A line that ends with a table's number, which table 0 most often lacks.
    /// Now and then a line comes before it with the number of no table.
    fn say_of_table(&mut self, front: &str, table: usize) -> Vec<String> {
        if self.rng.once_in(90) {
            let none = self.rng.pick(&["2", "3", "02", "10", "4294967297"]);
            self.say(&format!("{front} {}", none.unwrap_or("2")));
        }
        if table == 0 && !self.rng.once_in(4) {
            return self.say(front);
        }
        let table = self.number(table as u64);
        self.say(&format!("{front} {table}"))
    }

    /// A number, with leading zeros now and then.
    fn number(&mut self, number: u64) -> String {
        let width = match self.rng.once_in(24) {
            true => self.rng.between(2, 14),
            false => 1,
        };
        format!("{number:0>width$}")
    }

    /// The first byte of the first tag: most readings come past it.
    fn first_byte(&self) -> u8 {
        self.tags[0].bytes[0]
    }

    fn odd_line(&mut self) {
        let line = match self.rng.once_in(16) {
            true => {
                let serial = self.serial();
                let letter = Some(self.first_byte());
                let filling = letter.filter(|byte| !b"\"\n".contains(byte));
                odd::long(&mut self.rng, serial, filling.unwrap_or(b'a'))
            }
            false => odd::line(&mut self.rng, &self.script),
        };
        self.line(&line);
    }

    fn silent_line(&mut self) {
        let line = odd::silent(&mut self.rng);
        self.line(&line);
    }
}
