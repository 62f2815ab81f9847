//! The machines: docs/RULES.md, 2, from the definition.

use crate::kind::Kind;
use crate::set::TagSet;

/// A machine of the tags of one kind. A letter is a whole byte or one bit.
pub struct Machine {
    /// The prefix each state stands for, by state number.
    prefixes: Vec<Vec<u8>>,
    /// For each state, the next state on each letter.
    next: Vec<Vec<u16>>,
    /// For each state, bit i set exactly if tag i of the whole set is one of
    /// the machine's own and a suffix of its prefix.
    vector: Vec<u16>,
}

/// A tag as its machine has it.
#[derive(Clone, Debug, PartialEq, Eq)]
pub struct OwnTag {
    /// Its number in the whole set.
    pub number: usize,
    /// What the machine reads for its bytes.
    pub letters: Vec<u8>,
}

/// The tags of a machine: those of one kind, reduced to the letters it reads.
pub fn own_tags(set: &TagSet, kind: Kind, letter: impl Fn(u8) -> u8) -> Vec<OwnTag> {
    let numbered = set.tags().iter().enumerate();
    let own = numbered.filter(|(_, tag)| tag.kind == kind);
    own.map(|(number, tag)| OwnTag {
        number,
        letters: tag.bytes.iter().map(|byte| letter(*byte)).collect(),
    })
    .collect()
}

/// The kind of the tags that a bit machine has.
pub fn kind_of(machine: usize) -> Kind {
    match machine {
        0..=7 => Kind::Exact,
        _ => Kind::Folded,
    }
}

/// What a bit machine reads for a byte: machine b its bit b, machine 8 + b bit
/// b of the byte folded.
pub fn letter_of(machine: usize, byte: u8) -> u8 {
    bit_of(kind_of(machine).reads(byte), machine % 8)
}

/// Bit b of a byte, 0 or 1; b from 0 (least bit) to 7.
pub fn bit_of(byte: u8, b: usize) -> u8 {
    u8::from(byte & (1 << b) != 0)
}

impl Machine {
    /// The whole-byte machine, which has tags of kind 1 and reads bytes.
    pub fn whole_byte(set: &TagSet) -> Machine {
        Machine::of(&own_tags(set, Kind::Exact, |byte| byte), 256)
    }

    /// A bit machine, 0 to 15.
    pub fn bit(set: &TagSet, machine: usize) -> Machine {
        let letter = |byte| letter_of(machine, byte);
        Machine::of(&own_tags(set, kind_of(machine), letter), 2)
    }

    /// At most 16 tags of at most 32 letters, so at most 513 states: state
    /// numbers fit 16 bits, and so does a vector. Without tags there is the
    /// empty prefix alone, one state.
    fn of(tags: &[OwnTag], letters: usize) -> Machine {
        let distinct = Prefixes::of(tags, letters);
        let prefixes = &distinct.prefixes;
        let next = prefixes.iter().map(|p| distinct.nexts_of(p)).collect();
        let vector = prefixes.iter().map(|p| vector_of(p, tags)).collect();
        Machine {
            next,
            vector,
            prefixes: distinct.prefixes,
        }
    }

    /// How many states the machine needs.
    pub fn states(&self) -> usize {
        self.prefixes.len()
    }

    /// The prefixes by state number.
    pub fn prefixes(&self) -> &[Vec<u8>] {
        &self.prefixes
    }

    /// For each state its next states and its vector, by state number.
    pub fn slots(&self) -> impl Iterator<Item = (&[u16], u16)> {
        let next = self.next.iter().map(Vec::as_slice);
        next.zip(self.vector.iter().copied())
    }
}

/// Bit i set exactly if tag i of the whole set is one of these and a suffix of p.
pub fn vector_of(p: &[u8], tags: &[OwnTag]) -> u16 {
    let mut vector = 0u16;
    for tag in tags {
        if p.ends_with(&tag.letters) {
            vector |= 1 << tag.number;
        }
    }
    vector
}

/// The distinct prefixes of the tags.
struct Prefixes {
    /// The empty one, then each other where it is met first when the tags are
    /// gone through in their order, letter by letter.
    prefixes: Vec<Vec<u8>>,
    /// For each prefix q and letter c, the number of the prefix "q followed by
    /// c", or 0 where that is none (the empty prefix follows no letter).
    longer: Vec<Vec<u16>>,
}

impl Prefixes {
    fn of(tags: &[OwnTag], letters: usize) -> Prefixes {
        let mut distinct = Prefixes {
            prefixes: vec![vec![]],
            longer: vec![vec![0; letters]],
        };
        for tag in tags {
            let mut q = 0;
            for (before, c) in tag.letters.iter().enumerate() {
                if distinct.longer[q][usize::from(*c)] == 0 {
                    distinct.longer[q][usize::from(*c)] = distinct.prefixes.len() as u16;
                    distinct.prefixes.push(tag.letters[..=before].to_vec());
                    distinct.longer.push(vec![0; letters]);
                }
                q = usize::from(distinct.longer[q][usize::from(*c)]);
            }
        }
        distinct
    }

    /// The number of a prefix; nothing where the letters are no prefix.
    fn number_of(&self, letters: &[u8]) -> Option<usize> {
        let mut q = 0;
        for c in letters {
            q = match self.longer[q][usize::from(*c)] {
                0 => return None,
                longer => usize::from(longer),
            };
        }
        Some(q)
    }

    /// For prefix p, where each letter c leads: to the longest suffix of "p
    /// followed by c" that is a prefix too.
    ///
    /// Such a suffix is empty (state 0), or it is q followed by c, where q is
    /// a suffix of p and, being the front of a prefix, a prefix too. So the
    /// suffixes q of p that are prefixes are gone through from the shortest to
    /// the longest, and each prefix "q followed by c" overwrites a shorter one.
    fn nexts_of(&self, p: &[u8]) -> Vec<u16> {
        let mut nexts = vec![0; self.longer[0].len()];
        for from in (0..=p.len()).rev() {
            let Some(q) = self.number_of(&p[from..]) else {
                continue;
            };
            for (next, longer) in nexts.iter_mut().zip(&self.longer[q]) {
                if *longer != 0 {
                    *next = *longer;
                }
            }
        }
        nexts
    }
}
