// What is read: six kinds of input for exact tags, and two for sets in which every second tag is folded, each with the tags that
// are looked for in it.
use crate::english;
use crate::random::Random;
use crate::tags::{exact, half_folded, Tag};

pub const SHORTEST: usize = 8;
pub const LONGEST: usize = 32;
// One whole tag is put into so many bytes of an input with few matches, so that there is something to agree on.
const FAR_APART: usize = 16 * 1024;

#[derive(Clone, Copy, PartialEq, Eq, Debug)]
pub enum Kind {
    Random,
    English,
    Near,
    NearRuns,
    Many,
    Dense,
    EnglishEither,
    NearEither,
}

/// Those with exact tags alone.
pub const KINDS: [Kind; 6] = [
    Kind::Random,
    Kind::English,
    Kind::Near,
    Kind::NearRuns,
    Kind::Many,
    Kind::Dense,
];
/// Those with tags of both kinds, in letters of either case.
pub const IN_EITHER_CASE: [Kind; 2] = [Kind::EnglishEither, Kind::NearEither];
/// Each of them, and what it is like but for its kinds of tags.
pub const ALIKE: [(Kind, Kind); 2] = [
    (Kind::EnglishEither, Kind::English),
    (Kind::NearEither, Kind::Near),
];
pub const WITH_FEW_MATCHES: [Kind; 4] = [Kind::Random, Kind::English, Kind::Near, Kind::NearRuns];

impl Kind {
    pub fn name(self) -> &'static str {
        match self {
            Kind::Random => "random",
            Kind::English => "English",
            Kind::Near => "near-matches",
            Kind::NearRuns => "near-matches in runs",
            Kind::Many => "many matches",
            Kind::Dense => "dense matches",
            Kind::EnglishEither => "English in either case",
            Kind::NearEither => "near-matches in either case",
        }
    }

    pub fn by_name(name: &str) -> Option<Kind> {
        all().find(|kind| kind.name() == name)
    }
}

/// All of them, in the order of the tables.
pub fn all() -> impl Iterator<Item = Kind> {
    KINDS.into_iter().chain(IN_EITHER_CASE)
}

pub struct Case {
    pub kind: Kind,
    pub tags: Vec<Tag>,
    pub input: Vec<u8>,
}

pub fn case(kind: Kind, tag_count: usize, size: usize) -> Case {
    let mut random = Random::new(kind as u64 * 100 + tag_count as u64);
    let (tags, mut input) = match kind {
        Kind::Random => random_bytes(&mut random, tag_count, size),
        Kind::English => english_text(&mut random, tag_count, size),
        Kind::Near => near_matches(&mut random, tag_count, size),
        Kind::NearRuns => near_matches_in_runs(&mut random, tag_count, size),
        Kind::Many => many_matches(&mut random, tag_count, size),
        Kind::Dense => dense_matches(&mut random, tag_count, size),
        Kind::EnglishEither => english_in_either_case(&mut random, tag_count, size),
        Kind::NearEither => near_matches_in_either_case(&mut random, tag_count, size),
    };
    input.truncate(size);
    Case { kind, tags, input }
}

/// Lengths from 8 to 32, evenly apart.
pub fn lengths(tag_count: usize) -> impl Iterator<Item = usize> {
    let steps = (tag_count - 1).max(1);
    (0..tag_count).map(move |i| SHORTEST + (LONGEST - SHORTEST) * i / steps)
}

fn random_tags(random: &mut Random, tag_count: usize) -> Vec<Tag> {
    exact(lengths(tag_count).map(|length| random.bytes(length)))
}

/// A tag as an input has it: a folded one with each letter in either case.
fn typed(random: &mut Random, tag: &Tag) -> Vec<u8> {
    let mut bytes = tag.bytes.clone();
    if tag.folded {
        bytes
            .iter_mut()
            .for_each(|byte| *byte = in_a_case(random, *byte));
    }
    bytes
}

/// A letter in either case; what is no letter stays.
fn in_a_case(random: &mut Random, byte: u8) -> u8 {
    match random.below(2) {
        0 => byte.to_ascii_lowercase(),
        _ => byte.to_ascii_uppercase(),
    }
}

/// Puts whole tags into an input, far apart.
fn plant(random: &mut Random, tags: &[Tag], input: &mut [u8]) {
    for part in input.chunks_exact_mut(FAR_APART) {
        let tag = &tags[random.below(tags.len())];
        let at = random.below(part.len() - tag.bytes.len());
        part[at..at + tag.bytes.len()].copy_from_slice(&typed(random, tag));
    }
}

fn random_bytes(random: &mut Random, tag_count: usize, size: usize) -> (Vec<Tag>, Vec<u8>) {
    let tags = random_tags(random, tag_count);
    let mut input = random.bytes(size);
    plant(random, &tags, &mut input);
    (tags, input)
}

/// Tags cut out of the text where a word begins, of those that stand in it now and then.
fn english_text(random: &mut Random, tag_count: usize, size: usize) -> (Vec<Tag>, Vec<u8>) {
    let text = english::text(size);
    let mut tags: Vec<Vec<u8>> = Vec::new();
    for length in lengths(tag_count) {
        tags.push(rare_phrase(random, &text, length, &tags));
    }
    (exact(tags), text)
}

/// The same with every second tag folded, and one word in four in capitals, as phones write them.
fn english_in_either_case(
    random: &mut Random,
    tag_count: usize,
    size: usize,
) -> (Vec<Tag>, Vec<u8>) {
    let (tags, mut text) = english_text(random, tag_count, size);
    for word in text.split_mut(|byte| *byte == b' ') {
        if random.below(4) == 0 {
            word.make_ascii_uppercase();
        }
    }
    (half_folded(tags), text)
}

fn rare_phrase(random: &mut Random, text: &[u8], length: usize, others: &[Vec<u8>]) -> Vec<u8> {
    let most = text.len() / FAR_APART + 1;
    loop {
        let at = random.below(text.len() - length - 1);
        let phrase = &text[at + 1..at + 1 + length];
        let begins_a_word = text[at] == b' ' && phrase[0].is_ascii_alphabetic();
        if begins_a_word
            && !others.iter().any(|other| other == phrase)
            && count(text, phrase) <= most
        {
            return phrase.to_vec();
        }
    }
}

fn count(text: &[u8], phrase: &[u8]) -> usize {
    text.windows(phrase.len())
        .filter(|window| *window == phrase)
        .count()
}

/// At least half of a tag, then a byte that isn't the tag's next.
fn near_matches(random: &mut Random, tag_count: usize, size: usize) -> (Vec<Tag>, Vec<u8>) {
    let tags = random_tags(random, tag_count);
    let mut input = Vec::with_capacity(size + LONGEST);
    while input.len() < size {
        let tag = &tags[random.below(tag_count)].bytes;
        let front = tag.len() / 2 + random.below(tag.len() / 2);
        input.extend_from_slice(&tag[..front]);
        input.push(tag[front] ^ (1 + random.below(255) as u8));
    }
    plant(random, &tags, &mut input[..size]);
    (tags, input)
}

/// The same of tags of letters, every second of them folded and typed in either case: at least half of a tag, then what is no
/// letter.
fn near_matches_in_either_case(
    random: &mut Random,
    tag_count: usize,
    size: usize,
) -> (Vec<Tag>, Vec<u8>) {
    let mut letters = |length| (0..length).map(|_| b'a' + random.below(26) as u8).collect();
    let tags = half_folded(exact(lengths(tag_count).map(&mut letters)));
    let mut input = Vec::with_capacity(size + LONGEST);
    while input.len() < size {
        let tag = &tags[random.below(tag_count)];
        let half = tag.bytes.len() / 2;
        let front = half + random.below(half);
        input.extend_from_slice(&typed(random, tag)[..front]);
        input.push(b' ' + random.below(16) as u8);
    }
    plant(random, &tags, &mut input[..size]);
    (tags, input)
}

/// Each tag is a run of one letter, and the input is runs of these letters that are too short, each then broken off. Such a
/// front of a tag is also an end of it, so engines that look for ends get no rest either.
fn near_matches_in_runs(random: &mut Random, tag_count: usize, size: usize) -> (Vec<Tag>, Vec<u8>) {
    let tags = runs(tag_count);
    let mut input = Vec::with_capacity(size + LONGEST);
    while input.len() < size {
        let tag = &tags[random.below(tag_count)].bytes;
        let front = tag.len() - 1 - random.below(tag.len() / 4);
        input.extend_from_slice(&tag[..front]);
        input.push(b' ');
    }
    plant(random, &tags, &mut input[..size]);
    (tags, input)
}

fn runs(tag_count: usize) -> Vec<Tag> {
    let lengths = lengths(tag_count).zip(b'a'..);
    exact(lengths.map(|(length, letter)| vec![letter; length]))
}

/// Tags back to back.
fn many_matches(random: &mut Random, tag_count: usize, size: usize) -> (Vec<Tag>, Vec<u8>) {
    let tags = random_tags(random, tag_count);
    let mut input = Vec::with_capacity(size + LONGEST);
    while input.len() < size {
        input.extend_from_slice(&tags[random.below(tag_count)].bytes);
    }
    (tags, input)
}

/// Each tag is a run of one letter, and the input is longer runs of them: more than half of the bytes end a tag.
fn dense_matches(random: &mut Random, tag_count: usize, size: usize) -> (Vec<Tag>, Vec<u8>) {
    let tags = runs(tag_count);
    let mut input = Vec::with_capacity(size + 4 * LONGEST);
    while input.len() < size {
        let tag = &tags[random.below(tag_count)].bytes;
        let run = tag.len() + random.below(2 * LONGEST);
        input.resize(input.len() + run, tag[0]);
    }
    (tags, input)
}
