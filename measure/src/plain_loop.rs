// The plain loops over an array of states: what the engines would be without blocks and without passing over quiet bytes.
use crate::engine::{Engine, Out};
use crate::ours::{self, SplitTables, WHOLE_SLOT};
use crate::tags::Tag;

pub struct PlainOneBit {
    tables: SplitTables,
    /// The states over the first table, and over the second.
    places: [[usize; 8]; 2],
}

impl PlainOneBit {
    pub fn new(tags: &[Tag]) -> PlainOneBit {
        PlainOneBit {
            tables: SplitTables::built(tags),
            places: [[0; 8]; 2],
        }
    }
}

/// The vectors ANDed after a step of all machines of a table.
#[inline(always)]
fn step(table: &[u16], s: usize, place: &mut [usize; 8], c: u8) -> u16 {
    let mut hits = 65535;
    for (m, state) in place.iter_mut().enumerate() {
        let slot = (m * s + *state) * 3;
        *state = usize::from(table[slot + usize::from(c >> m & 1)]);
        assert!(*state < s, "the table was built");
        hits &= table[(m * s + *state) * 3 + 2];
    }
    hits
}

impl Engine for PlainOneBit {
    fn begin(&mut self) {
        self.places = [[0; 8]; 2];
    }

    fn piece(&mut self, input: &[u8], from: usize, to: usize, out: &mut Out) {
        let [s, of_second] = self.tables.slots();
        let [exact, folded] = &mut self.places;
        for i in from..to {
            let c = input[i];
            let mut hits = step(&self.tables.first, s, exact, c);
            // A second table of one slot has no tags: the engines leave it out too.
            if of_second > 1 {
                let c = c.to_ascii_lowercase();
                hits |= step(&self.tables.second, of_second, folded, c);
            }
            if hits != 0 {
                push_all(hits, i + 1, out);
            }
        }
        out.empty();
    }
}

pub struct PlainWholeByte {
    table: Vec<u16>,
    state: usize,
}

impl PlainWholeByte {
    pub fn new(tags: &[Tag]) -> PlainWholeByte {
        PlainWholeByte {
            table: ours::whole_table(tags),
            state: 0,
        }
    }
}

impl Engine for PlainWholeByte {
    fn begin(&mut self) {
        self.state = 0;
    }

    fn piece(&mut self, input: &[u8], from: usize, to: usize, out: &mut Out) {
        let s = self.table.len() / WHOLE_SLOT;
        for i in from..to {
            self.state = usize::from(self.table[self.state * 257 + usize::from(input[i])]);
            assert!(self.state < s, "the table was built");
            let hits = self.table[self.state * 257 + 256];
            if hits != 0 {
                push_all(hits, i + 1, out);
            }
        }
        out.empty();
    }
}

/// A record for each bit of hits, the lowest first. Out of line, which makes the loops that call it a third shorter.
#[inline(never)]
fn push_all(hits: u16, end: usize, out: &mut Out) {
    let mut rest = hits;
    while rest != 0 {
        out.push(end as u32, rest.trailing_zeros());
        rest &= rest - 1;
    }
}
