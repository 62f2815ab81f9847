// Our builder's shape written in Rust: each machine's states are counted, its tree of prefixes is planted, and its slots are
// made level by level along failure links. Vectors come by a test of tags' ends, as ours do, or along the links: what the test
// costs, and what is left without it, is the difference.
use crate::ours::SplitTables;
use crate::tags::{of_kind, Tag};

/// How the vectors are made.
#[derive(Clone, Copy, PartialEq)]
pub enum Vectors {
    /// Each tag held against each state's word: none ends a shorter one; else letter by letter from the end, up to the first
    /// difference.
    ByTest,
    /// A state's own tags, and those of the state that it fails to.
    ByLinks,
}

/// So many bits for each of the machines.
#[derive(Clone, Copy)]
struct Slicing {
    bits: usize,
    machines: usize,
}

const SPLIT: Slicing = Slicing {
    bits: 1,
    machines: 8,
};
const WHOLE: Slicing = Slicing {
    bits: 8,
    machines: 1,
};

/// What one machine reads of at most 16 tags of one kind, of at most 32 bytes, and their numbers in the whole set.
struct Words {
    letters: [[u8; 32]; 16],
    lengths: [usize; 16],
    numbers: [usize; 16],
    count: usize,
}

impl Words {
    fn spelled(tags: &[Tag], folded: bool, bits: usize, machine: usize) -> Words {
        let mask = ((1u16 << bits) - 1) as u8;
        let mut words = Words {
            letters: [[0; 32]; 16],
            lengths: [0; 16],
            numbers: [0; 16],
            count: 0,
        };
        for (t, (number, tag)) in of_kind(tags, folded).enumerate() {
            words.lengths[t] = tag.bytes.len();
            words.numbers[t] = number;
            words.count = t + 1;
            for (letter, byte) in words.letters[t].iter_mut().zip(&tag.bytes) {
                let read = if folded {
                    byte.to_ascii_lowercase()
                } else {
                    *byte
                };
                *letter = read >> (machine * bits) & mask;
            }
        }
        words
    }

    fn word(&self, t: usize) -> &[u8] {
        &self.letters[t][..self.lengths[t]]
    }

    /// The letters that tag t shares with a tag before it.
    fn known_front(&self, t: usize) -> usize {
        let shared = |i| {
            let pairs = self.word(t).iter().zip(self.word(i));
            pairs.take_while(|(a, b)| a == b).count()
        };
        (0..t).map(shared).max().unwrap_or(0)
    }

    fn states(&self) -> usize {
        let new = |t: usize| self.lengths[t] - self.known_front(t);
        1 + (0..self.count).map(new).sum::<usize>()
    }
}

/// Fills the two split tables, if they have slots enough for every machine.
pub fn build_split(tags: &[Tag], vectors: Vectors, tables: &mut SplitTables) -> bool {
    build(tags, false, SPLIT, vectors, &mut tables.first)
        && build(tags, true, SPLIT, vectors, &mut tables.second)
}

/// The same for a whole-byte table, of exact tags.
pub fn build_whole(tags: &[Tag], vectors: Vectors, table: &mut [u16]) -> bool {
    build(tags, false, WHOLE, vectors, table)
}

/// A table of the tags of one kind.
fn build(
    tags: &[Tag],
    folded: bool,
    slicing: Slicing,
    vectors: Vectors,
    table: &mut [u16],
) -> bool {
    let size = table.len() / slicing.machines;
    let width = (1 << slicing.bits) + 1;
    let words = |m| Words::spelled(tags, folded, slicing.bits, m);
    if (0..slicing.machines).any(|m| size / width < words(m).states()) {
        return false;
    }
    for (m, part) in table.chunks_exact_mut(size).enumerate() {
        fill(&words(m), width, vectors, part);
    }
    true
}

fn fill(words: &Words, width: usize, vectors: Vectors, part: &mut [u16]) {
    part.fill(0);
    plant(words, width, vectors, part);
    let mut level = Level {
        fronts: std::array::from_fn(|t| {
            if t < words.count {
                words.known_front(t)
            } else {
                0
            }
        }),
        at: [0; 16],
        fail: [0; 16],
    };
    for d in 0..32 {
        for t in 0..words.count {
            level.deepen(words, t, d, width, vectors, part);
        }
    }
}

/// The tree: children in the nexts, 0 where there is none. Along the links, each tag's own bit is set at its end.
fn plant(words: &Words, width: usize, vectors: Vectors, part: &mut [u16]) {
    let mut states = 1;
    for t in 0..words.count {
        let mut q = 0;
        for c in words.word(t) {
            let next = &mut part[q * width + usize::from(*c)];
            if *next == 0 {
                *next = states;
                states += 1;
            }
            q = usize::from(*next);
        }
        if vectors == Vectors::ByLinks {
            part[q * width + width - 1] |= 1 << words.numbers[t];
        }
    }
}

/// For each tag, the letters known from tags before it, the state of its first d letters, and where that fails to.
struct Level {
    fronts: [usize; 16],
    at: [usize; 16],
    fail: [usize; 16],
}

impl Level {
    /// The slot of the first d + 1 letters of tag t, unless a tag before it has these too.
    fn deepen(
        &mut self,
        words: &Words,
        t: usize,
        d: usize,
        width: usize,
        vectors: Vectors,
        part: &mut [u16],
    ) {
        let word = words.word(t);
        if word.len() <= d {
            return;
        }
        let c = usize::from(word[d]);
        let q = usize::from(part[self.at[t] * width + c]);
        let x = if d == 0 {
            0
        } else {
            usize::from(part[self.fail[t] * width + c])
        };
        (self.at[t], self.fail[t]) = (q, x);
        if d < self.fronts[t] {
            return;
        }
        let vector = match vectors {
            Vectors::ByTest => vector_of(&word[..d + 1], words),
            Vectors::ByLinks => part[q * width + width - 1] | part[x * width + width - 1],
        };
        make_slot(q, x, width, vector, part);
    }
}

/// Slot q, with its children kept and the other nexts from slot x, and its vector.
fn make_slot(q: usize, x: usize, width: usize, vector: u16, part: &mut [u16]) {
    for c in 0..width - 1 {
        if part[q * width + c] == 0 {
            part[q * width + c] = part[x * width + c];
        }
    }
    part[q * width + width - 1] = vector;
}

fn tag_ends(word: &[u8], tag: &[u8]) -> bool {
    if word.len() < tag.len() {
        return false;
    }
    for i in 0..tag.len() {
        if word[word.len() - 1 - i] != tag[tag.len() - 1 - i] {
            return false;
        }
    }
    true
}

fn vector_of(word: &[u8], words: &Words) -> u16 {
    let bit = |t| u16::from(tag_ends(word, words.word(t))) << words.numbers[t];
    (0..words.count).fold(0, |vector, t| vector | bit(t))
}
