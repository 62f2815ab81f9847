//! Good sets for scripts: tags of both kinds.

use super::cases::{recased, EDGES};
use crate::kind::Kind;
use crate::rng::Rng;
use crate::set::{Tag, MOST_TAGS};

/// Tags of a good set: 1 to 16 of 1 to 32 bytes, of one kind or of both, none
/// repeating another.
pub fn good_tags(rng: &mut Rng) -> Vec<Tag> {
    let words = words(rng);
    let tags = with_kinds(rng, words, true);
    lawful(tags)
}

/// Tags of kind 1 alone, as every layout takes them.
pub fn exact_tags(rng: &mut Rng) -> Vec<Tag> {
    let words = words(rng);
    lawful(words.into_iter().map(Tag::exact).collect())
}

/// Those of the tags that make a good set.
pub fn lawful(tags: Vec<Tag>) -> Vec<Tag> {
    let mut kept: Vec<Tag> = Vec::new();
    for tag in tags {
        let repeats = kept.iter().any(|earlier| tag.repeats(earlier));
        let allowed = tag.kind.row().allows(tag.bytes.len());
        if kept.len() < MOST_TAGS && allowed && !repeats {
            kept.push(tag);
        }
    }
    if kept.is_empty() {
        kept.push(Tag::exact("a"));
    }
    kept
}

/// The words as tags: all of one kind, each of either, or each of both; some of
/// the folded ones in other letter cases, where that may be.
pub fn with_kinds(rng: &mut Rng, words: Vec<Vec<u8>>, in_other_cases: bool) -> Vec<Tag> {
    let how = rng.below(7);
    let mut tags = Vec::new();
    for word in words {
        let folded = Tag::folded(match in_other_cases && rng.once_in(2) {
            true => recased(rng, &word),
            false => word.clone(),
        });
        match how {
            0 | 1 => tags.push(Tag::exact(word)),
            2 => tags.push(folded),
            3 | 4 if rng.once_in(2) => tags.push(Tag::exact(word)),
            3 | 4 => tags.push(folded),
            5 => tags.extend([Tag::exact(word), folded]),
            _ => tags.extend([folded, Tag::exact(word)]),
        }
    }
    tags
}

/// The bytes of tags; some may be the same, or too many.
fn words(rng: &mut Rng) -> Vec<Vec<u8>> {
    match rng.below(13) {
        0 => vec![b"he".to_vec(), b"she".into(), b"his".into(), b"hers".into()],
        1 => same_letter(rng),
        2 => sharing(rng, true),
        3 => sharing(rng, false),
        4 => drawn(rng, &[0, 255], 6),
        5 => {
            let every: Vec<u8> = (0..=255).collect();
            drawn(rng, &every, 32)
        }
        6 => greatest(rng),
        7 => of_lengths(rng, &[1, 31, 32]),
        8 => drawn(rng, b"aA", 4),
        9 => drawn(rng, b"hHeEsSiIrR", 5),
        10 => drawn(rng, &EDGES, 1),
        11 => drawn(rng, &EDGES, 4),
        _ => drawn(rng, b"ab", 5),
    }
}

/// A word of a length over an alphabet.
pub fn word(rng: &mut Rng, alphabet: &[u8], length: usize) -> Vec<u8> {
    (0..length)
        .map(|_| rng.pick(alphabet).unwrap_or(b'a'))
        .collect()
}

fn drawn(rng: &mut Rng, alphabet: &[u8], longest: usize) -> Vec<Vec<u8>> {
    let count = rng.between(1, 16);
    (0..count)
        .map(|_| {
            let length = rng.between(1, longest);
            word(rng, alphabet, length)
        })
        .collect()
}

/// a, aa, aaa ...
fn same_letter(rng: &mut Rng) -> Vec<Vec<u8>> {
    let any = rng.between(1, 16);
    // Only 16 tags stop FULL with room for 15.
    let count = rng.one_of(&[any, any, any, 16]);
    let letter = rng.pick(b"aaAZz\x00\xff\x80").unwrap_or(b'a');
    let mut words: Vec<Vec<u8>> = (1..=count).map(|length| vec![letter; length]).collect();
    if rng.once_in(2) {
        words.reverse();
    }
    words
}

/// Tags a, aa, aaa ..., of the kinds that are taken: as many matches at a byte
/// as there are tags, of both tables where both kinds are among them.
pub fn nested(rng: &mut Rng, taken: &[Kind]) -> Vec<Tag> {
    let words = same_letter(rng);
    if !taken.contains(&Kind::Folded) {
        return words.into_iter().map(Tag::exact).collect();
    }
    // In other cases not every letter is matched by all.
    let in_other_cases = rng.once_in(4);
    let tags = with_kinds(rng, words, in_other_cases);
    lawful(tags)
}

/// Tags with one front, or one end, in common.
fn sharing(rng: &mut Rng, front: bool) -> Vec<Vec<u8>> {
    let length = rng.between(1, 24);
    let shared = word(rng, b"abc", length);
    let count = rng.between(2, 16);
    let tag = |rng: &mut Rng| {
        let part = rng.between(1, shared.len());
        let length = rng.below(6);
        let own = word(rng, b"abcd", length);
        if front {
            [&shared[..part], &own].concat()
        } else {
            [&own, &shared[shared.len() - part..]].concat()
        }
    };
    (0..count).map(|_| tag(rng)).collect()
}

fn of_lengths(rng: &mut Rng, lengths: &[usize]) -> Vec<Vec<u8>> {
    let count = rng.one_of(&[1, 2, 15, 16]);
    (0..count)
        .map(|_| {
            let length = rng.one_of(lengths);
            word(rng, b"abcdefgh", length)
        })
        .collect()
}

/// 16 tags of 32 bytes for which the whole-byte machine needs 513 states and
/// each bit machine 479: bit b of the bytes 0 to 3 spells the tag's number, in
/// an order of b's own, or so that no letter comes up and folding changes none.
fn greatest(rng: &mut Rng) -> Vec<Vec<u8>> {
    let turned = rng.once_in(2);
    let spelt = |tag: usize, byte: usize| {
        let digit = |b: usize| if turned { (byte + b) % 4 } else { byte };
        let bit = |b: usize| ((tag >> digit(b) & 1) << b) as u8;
        (0..8).map(bit).sum()
    };
    let every: Vec<u8> = (0..=255).collect();
    (0..16)
        .map(|tag| {
            let mut bytes: Vec<u8> = (0..4).map(|byte| spelt(tag, byte)).collect();
            bytes.extend(word(rng, &every, 28));
            bytes
        })
        .collect()
}
