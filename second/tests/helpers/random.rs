//! Random tags and inputs for the property tests.

use second::kind::Kind;
use second::rng::Rng;
use second::set::Tag;

/// Letters of which the first three differ in few bits, and the others stand at
/// the edges of a map's numbers.
pub const LETTERS: [u8; 9] = [0x61, 0x63, 0xe1, 0x60, 0x00, 0x0f, 0x10, 0xf0, 0xff];

/// Letters in both cases, then bytes that differ from these in the same bit or
/// in the highest, and the neighbours of A, Z, a and z.
pub const CASES: [u8; 14] = [
    b'a', b'A', b'z', b'Z', b'm', b'M', 0xe1, 0xc1, b'@', b'`', b'[', b'{', 0xda, 0xfa,
];

pub fn random_bytes(rng: &mut Rng, alphabet: &[u8], length: usize) -> Vec<u8> {
    let letter = |_| alphabet[rng.below(alphabet.len())];
    (0..length).map(letter).collect()
}

fn random_word(rng: &mut Rng, alphabet: &[u8]) -> Vec<u8> {
    let longest = rng.one_of(&[2, 4, 8, 32]);
    let length = rng.between(1, longest);
    random_bytes(rng, alphabet, length)
}

/// Distinct tags of kind 1 over an alphabet.
pub fn random_words(rng: &mut Rng, alphabet: &[u8]) -> Vec<Vec<u8>> {
    let mut words: Vec<Vec<u8>> = Vec::new();
    for _ in 0..rng.between(1, 16) {
        let word = random_word(rng, alphabet);
        if !words.contains(&word) {
            words.push(word);
        }
    }
    words
}

/// Tags of both kinds over an alphabet, which make a good set.
pub fn random_tags(rng: &mut Rng, alphabet: &[u8]) -> Vec<Tag> {
    let mut tags: Vec<Tag> = Vec::new();
    for _ in 0..rng.between(1, 16) {
        let bytes = random_word(rng, alphabet);
        let kind = rng.pick(&[Kind::Exact, Kind::Folded]).expect("two kinds");
        let same = |tag: &Tag| kind == tag.kind && found_as(kind, &tag.bytes, &bytes);
        if !tags.iter().any(same) {
            tags.push(Tag { kind, bytes });
        }
    }
    tags
}

/// The kinds once more, by the standard library's comparison without regard to
/// the case of A to Z.
fn found_as(kind: Kind, bytes: &[u8], others: &[u8]) -> bool {
    match kind {
        Kind::Exact => bytes == others,
        Kind::Folded => bytes.eq_ignore_ascii_case(others),
    }
}

/// The occurrences, from another side than the program finds them: where each
/// tag begins.
pub fn occurrences_by_beginning(tags: &[Tag], input: &[u8]) -> Vec<(usize, usize)> {
    let mut found = Vec::new();
    for (number, tag) in tags.iter().enumerate() {
        for (begin, bytes) in input.windows(tag.bytes.len()).enumerate() {
            if found_as(tag.kind, bytes, &tag.bytes) {
                found.push((begin + tag.bytes.len(), number));
            }
        }
    }
    found.sort();
    found
}

/// Bytes in which whole words stand among random letters.
pub fn random_input(rng: &mut Rng, alphabet: &[u8], words: &[Vec<u8>]) -> Vec<u8> {
    let mut input = Vec::new();
    for _ in 0..rng.between(1, 12) {
        input.extend(rng.pick(words).unwrap_or_default());
        let length = rng.below(4);
        input.extend(random_bytes(rng, alphabet, length));
    }
    input
}

/// The same for tags, each at times with its letters in other cases.
pub fn random_input_of(rng: &mut Rng, alphabet: &[u8], tags: &[Tag]) -> Vec<u8> {
    let word = |tag: &Tag| match rng.below(4) {
        0 => tag.bytes.to_ascii_uppercase(),
        1 => tag.bytes.to_ascii_lowercase(),
        _ => tag.bytes.clone(),
    };
    let words: Vec<Vec<u8>> = tags.iter().map(word).collect();
    random_input(rng, alphabet, &words)
}
