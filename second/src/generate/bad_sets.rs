//! Faulty sets for scripts.

use super::cases::recased;
use super::sets::{good_tags, lawful, word};
use crate::kind::Kind;
use crate::rng::Rng;
use crate::set::{write_entry, write_tags, Tag};

/// Kinds that no layout takes: beside the two numbers, and with these in the
/// wrong byte or in both.
const OTHER_KINDS: &[usize] = &[0, 3, 256, 257, 258, 512, 513, 514, 65_535];

/// The bytes of a set that is faulty, or was meant to be.
pub fn bad_set(rng: &mut Rng) -> Vec<u8> {
    match rng.below(12) {
        0 => vec![],
        1 => cut(rng),
        2..=4 => crowded(rng),
        5 => wrong_entry(rng, true),
        6 => wrong_entry(rng, false),
        7 => repeating(rng),
        8 | 9 => repeating_in_other_cases(rng),
        10 => {
            let length = rng.between(1, 40);
            word(rng, &[0, 1, 2, 33], length)
        }
        _ => {
            let mut set = wrong_entry(rng, false);
            set.extend(wrong_entry(rng, true));
            set
        }
    }
}

/// Tags for quoted words: of any length, often the same, sometimes 17.
pub fn bad_tags(rng: &mut Rng) -> Vec<Tag> {
    let count = rng.one_of(&[1, 1, 2, 3, 16, 17, 18]);
    (0..count)
        .map(|_| {
            let length = rng.one_of(&[0, 1, 2, 3, 4, 31, 32, 32, 33]);
            let bytes = word(rng, b"abB c", length);
            let kind = either(rng);
            Tag { kind, bytes }
        })
        .collect()
}

/// Either kind, the exact one more often.
pub fn either(rng: &mut Rng) -> Kind {
    match rng.below(3) {
        0 => Kind::Folded,
        _ => Kind::Exact,
    }
}

/// A good set cut anywhere, most often inside its last entry.
fn cut(rng: &mut Rng) -> Vec<u8> {
    let mut set = write_tags(&good_tags(rng));
    let off = match rng.once_in(3) {
        true => rng.between(1, set.len()),
        false => rng.between(1, 6),
    };
    set.truncate(set.len().saturating_sub(off));
    set
}

/// 16 entries (15 or 17 too), of one kind or of both, and what follows: 0 to 5
/// bytes, or an entry of any kind.
fn crowded(rng: &mut Rng) -> Vec<u8> {
    let count = rng.one_of(&[15, 16, 16, 16, 16, 16, 17]);
    let all_exact = !rng.once_in(3);
    let tag = |rng: &mut Rng, k: usize| Tag {
        kind: if all_exact { Kind::Exact } else { either(rng) },
        bytes: vec![b'A' + k as u8, b'x'],
    };
    let mut tags: Vec<Tag> = (0..count).map(|k| tag(rng, k)).collect();
    if rng.once_in(4) {
        tags[1] = tags[0].clone();
    }
    let mut set = write_tags(&tags);
    if rng.once_in(2) {
        let kind = rng.one_of(&[1, 2, 2, 2, 3, 512]) as u16;
        set.extend(write_entry(kind, b"last"));
    } else {
        let following = rng.below(6);
        set.extend(word(rng, &[0, 1, 2, 33], following));
    }
    set
}

/// Good entries, then one of a wrong kind or a wrong length, its payload whole
/// or cut, then good entries again.
fn wrong_entry(rng: &mut Rng, kind_too: bool) -> Vec<u8> {
    let tags = good_tags(rng);
    let before = rng.below(tags.len() + 1);
    let kind = match kind_too {
        true => rng.one_of(OTHER_KINDS) as u16,
        false => either(rng).number(),
    };
    let length = match kind_too && rng.once_in(2) {
        true => rng.between(1, 32),
        false => rng.one_of(&[0, 33, 34, 256, 257, 288, 65_535]),
    };
    let mut entry = write_entry(kind, &[]);
    entry[..2].copy_from_slice(&(length as u16).to_le_bytes());
    let payload = match rng.once_in(2) {
        true => length.min(300),
        false => rng.below(length.min(40) + 1),
    };
    entry.extend(word(rng, b"ab", payload));
    let after = match rng.once_in(2) {
        true => write_tags(&tags[before..]),
        false => vec![],
    };
    [write_tags(&tags[..before]), entry, after].concat()
}

/// A set in which one tag or more equals an earlier one.
fn repeating(rng: &mut Rng) -> Vec<u8> {
    let mut tags = good_tags(rng);
    for _ in 0..rng.between(1, 3) {
        let again = rng.pick(&tags).unwrap_or(Tag::exact("a"));
        let at = rng.between(0, tags.len());
        tags.insert(at, again);
    }
    tags.truncate(rng.one_of(&[16, 16, 16, 17]));
    write_tags(&tags)
}

/// Words with letters, one or more of them again in other letter cases, and of
/// either kind: a repetition only where both are folded, or the bytes and the
/// kinds are the same.
fn repeating_in_other_cases(rng: &mut Rng) -> Vec<u8> {
    let all_folded = rng.once_in(2);
    let kind = |rng: &mut Rng| {
        if all_folded {
            Kind::Folded
        } else {
            either(rng)
        }
    };
    let count = rng.between(1, 6);
    let tag = |rng: &mut Rng| {
        let length = rng.between(1, 4);
        let (kind, bytes) = (kind(rng), word(rng, b"abBzZ[@", length));
        Tag { kind, bytes }
    };
    let mut tags = lawful((0..count).map(|_| tag(rng)).collect());
    for _ in 0..rng.between(1, 2) {
        let mut again = rng.pick(&tags).unwrap_or(Tag::exact("a"));
        again.bytes = recased(rng, &again.bytes);
        if rng.once_in(3) {
            again.kind = kind(rng);
        }
        let at = rng.between(0, tags.len());
        tags.insert(at, again);
    }
    write_tags(&tags)
}
