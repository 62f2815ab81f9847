// Our builder of bitmap tables, its shape written in Rust: in place, slot by slot. A slot that waits holds what is known of its
// state before its map is made: the bytes of its prefix in the first word, its failure state, and in the vector's place the mask
// of the tags that begin with its prefix.
use crate::tags::Tag;

const SLOT: usize = 19;
const CHILD: usize = 16;
const FAILURE: usize = 17;
const VECTOR: usize = 18;

/// The first states of a table that are settled, and the next number that no state has yet.
struct Growing<'a> {
    tags: &'a [Tag],
    table: &'a mut [u16],
    states: usize,
}

/// Fills a table of exact tags that has a slot for each state.
pub fn build(tags: &[Tag], table: &mut [u16]) {
    table.fill(0);
    table[VECTOR] = ((1u32 << tags.len()) - 1) as u16;
    let mut growing = Growing {
        tags,
        table,
        states: 1,
    };
    let mut q = 0;
    while q < growing.states {
        growing.settle(q);
        q += 1;
    }
}

impl Growing<'_> {
    fn number(&self, q: usize, j: usize) -> usize {
        usize::from(self.table[q * SLOT + j])
    }

    fn has(&self, q: usize, c: u8) -> bool {
        self.number(q, usize::from(c / 16)) >> (c % 16) & 1 != 0
    }

    fn ones_below(&self, q: usize, c: u8) -> usize {
        let whole = usize::from(c / 16);
        let map = &self.table[q * SLOT..][..16];
        let below: u32 = map[..whole].iter().map(|word| word.count_ones()).sum();
        (below + (map[whole] & ((1u16 << (c % 16)) - 1)).count_ones()) as usize
    }

    /// Where a byte leads from a state, over the slots that are settled.
    fn step(&self, start: usize, c: u8) -> usize {
        let mut q = start;
        while !self.has(q, c) {
            if q == 0 {
                return 0;
            }
            q = self.number(q, FAILURE);
        }
        self.number(q, CHILD) + self.ones_below(q, c)
    }

    /// Makes of a slot that waits a state's slot, and of its children slots that wait.
    fn settle(&mut self, q: usize) {
        let (depth, failure) = (self.number(q, 0), self.number(q, FAILURE));
        let mask = self.table[q * SLOT + VECTOR];
        self.table[q * SLOT] = 0;
        let mut ending = 0;
        for u in (0..self.tags.len()).filter(|u| mask >> u & 1 != 0) {
            match self.tags[u].bytes.get(depth) {
                Some(c) => self.table[q * SLOT + usize::from(c / 16)] |= 1 << (c % 16),
                None => ending |= 1 << u,
            }
        }
        let children = self.plant(q, depth, failure, mask);
        self.table[q * SLOT + CHILD] = if children == 0 { 0 } else { self.states as u16 };
        let known = if q == 0 {
            0
        } else {
            self.table[failure * SLOT + VECTOR]
        };
        self.table[q * SLOT + VECTOR] = known | ending;
        self.states += children;
    }

    /// The waiting slots of a state's children. Gives their number.
    fn plant(&mut self, q: usize, depth: usize, failure: usize, mask: u16) -> usize {
        let tags = self.tags;
        let mut children = 0;
        for (u, tag) in tags.iter().map(|tag| &tag.bytes).enumerate() {
            if mask >> u & 1 == 0 || tag.len() <= depth {
                continue;
            }
            let below = self.ones_below(q, tag[depth]);
            let falls = if q == 0 {
                0
            } else {
                self.step(failure, tag[depth])
            };
            let child = (self.states + below) * SLOT;
            self.table[child] = depth as u16 + 1;
            self.table[child + FAILURE] = falls as u16;
            self.table[child + VECTOR] |= 1 << u;
            children = children.max(below + 1);
        }
        children
    }
}
