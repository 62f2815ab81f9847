//! The bitmap machine and its slots: docs/RULES.md, 2.7 and 3.4, from the
//! definition.

use crate::kind::Kind;
use crate::machine::{own_tags, vector_of, OwnTag};
use crate::set::TagSet;
use std::collections::{BTreeSet, HashMap};

/// A slot begins with 16 numbers of map; these follow.
pub const FIRST_CHILD: usize = 16;
pub const FAILURE: usize = 17;
pub const VECTOR: usize = 18;

/// The tags of the whole-byte machine, and so of this one: those of kind 1.
fn tags_of(set: &TagSet) -> Vec<OwnTag> {
    own_tags(set, Kind::Exact, |byte| byte)
}

/// The prefix each state stands for, by state number.
pub fn prefixes(set: &TagSet) -> Vec<Vec<u8>> {
    Prefixes::of(&tags_of(set)).in_order
}

/// For each state its slot, by state number.
pub fn slots(set: &TagSet) -> Vec<Vec<u16>> {
    let tags = tags_of(set);
    let prefixes = Prefixes::of(&tags);
    let slot = |p: &Vec<u8>| slot_of(p, &prefixes, &tags);
    prefixes.in_order.iter().map(slot).collect()
}

fn slot_of(p: &[u8], prefixes: &Prefixes, tags: &[OwnTag]) -> Vec<u16> {
    let mut slot = vec![0; VECTOR + 1];
    let followers = followers_of(p, tags);
    for c in &followers {
        slot[usize::from(c / 16)] |= 1 << (c % 16);
    }
    if let Some(lowest) = followers.first() {
        let child = [p, &[*lowest]].concat();
        slot[FIRST_CHILD] = prefixes.number_of(&child).unwrap_or(0);
    }
    slot[FAILURE] = failure_of(p, prefixes);
    slot[VECTOR] = vector_of(p, tags);
    slot
}

/// The bytes c such that p followed by c is a prefix of some tag: the tag
/// begins with p, and goes on with c.
fn followers_of(p: &[u8], tags: &[OwnTag]) -> BTreeSet<u8> {
    let rests = tags.iter().filter_map(|tag| tag.letters.strip_prefix(p));
    rests.filter_map(|rest| rest.first().copied()).collect()
}

/// The state of the longest proper suffix of p that is a prefix; 0 for the
/// empty prefix, which has no proper suffix.
fn failure_of(p: &[u8], prefixes: &Prefixes) -> u16 {
    let proper = (1..=p.len()).map(|from| &p[from..]);
    let mut numbers = proper.filter_map(|suffix| prefixes.number_of(suffix));
    numbers.next().unwrap_or(0)
}

/// The distinct prefixes of the tags.
struct Prefixes {
    /// The empty one, then level by level, each level by the number of the
    /// prefix without its last byte, then by the last byte.
    in_order: Vec<Vec<u8>>,
    /// The number of each. There are at most 513, so that 16 bits hold it.
    numbers: HashMap<Vec<u8>, u16>,
}

impl Prefixes {
    fn of(tags: &[OwnTag]) -> Prefixes {
        let mut prefixes = Prefixes {
            in_order: vec![],
            numbers: HashMap::new(),
        };
        prefixes.add(vec![]);
        let longest = tags.iter().map(|tag| tag.letters.len()).max();
        for length in 1..=longest.unwrap_or(0) {
            let of_length = tags.iter().filter_map(|tag| tag.letters.get(..length));
            let mut level: Vec<Vec<u8>> = of_length.map(<[u8]>::to_vec).collect();
            // Without its last byte it is one of the level before, which has
            // its numbers already.
            level.sort_by_key(|p| (prefixes.number_of(&p[..length - 1]), p[length - 1]));
            level.dedup();
            level.into_iter().for_each(|p| prefixes.add(p));
        }
        prefixes
    }

    fn add(&mut self, prefix: Vec<u8>) {
        let number = self.in_order.len() as u16;
        self.numbers.insert(prefix.clone(), number);
        self.in_order.push(prefix);
    }

    /// The number of a prefix; nothing where the bytes are no prefix.
    fn number_of(&self, bytes: &[u8]) -> Option<u16> {
        self.numbers.get(bytes).copied()
    }
}

/// Whether a byte is in the map of a slot, whatever its numbers.
pub fn has(slot: &[u16], byte: u8) -> bool {
    slot[usize::from(byte / 16)] >> (byte % 16) & 1 == 1
}

/// How many ones of the map are below a byte's bit.
pub fn ones_below(slot: &[u16], byte: u8) -> usize {
    (0..byte).filter(|lower| has(slot, *lower)).count()
}
