//! Readings over built tables are the occurrences, for random sets over small
//! alphabets, random cuts and room limits.

mod helpers;

use helpers::random::*;
use helpers::*;
use second::desk::{Desk, Record, Serial, MOST_RECORDS};
use second::kind::Kind;
use second::layout::Layout;
use second::machine::{Machine, OwnTag};
use second::occurrences::occurrences;
use second::reading::{read_outside, Reading, Stop};
use second::replay::Replay;
use second::rng::Rng;
use second::set::{read_set, write_tags, Tag, TagSet};
use second::table::Tables;

/// Built tables, and the input read over them.
struct Case {
    layout: Layout,
    tables: Vec<Vec<u16>>,
    input: Vec<u8>,
    all: Vec<(usize, usize)>,
}

impl Case {
    fn random(rng: &mut Rng, layout: Layout) -> Case {
        let alphabet = alphabet(rng);
        let mut tags = random_tags(rng, alphabet);
        if layout != Layout::Split {
            let words = random_words(rng, alphabet);
            tags = words.into_iter().map(Tag::exact).collect();
        }
        let input = random_input_of(rng, alphabet, &tags);
        let length = |rng: &mut Rng| 513 * layout.a_slot_each() + rng.below(30);
        let table = |_| vec![9; length(rng)];
        let mut tables: Vec<Vec<u16>> = (0..layout.tables()).map(table).collect();
        let built = build_in(layout, &write_tags(&tags), &mut tables);
        assert_eq!(built, Ok(tags.len()));
        let all = occurrences_by_beginning(&tags, &input);
        assert_eq!(occurrences(&tags, &input), all);
        Case {
            layout,
            tables,
            input,
            all,
        }
    }

    /// Reads the bytes from `at` to `end` into a list of so many numbers and
    /// compares with the occurrences among them.
    fn check(&self, place: &[u16], at: usize, end: usize, list: usize) -> Reading {
        let mut list = vec![7; list];
        let here = |(e, _): &&(usize, usize)| at < *e && *e <= end;
        let here: Vec<(usize, usize)> = self.all.iter().filter(here).copied().collect();
        // The first record without room stops the whole of its byte.
        let stopped = here.get(list.len() / 2).map(|(e, _)| e - 1);
        let lent = lent(&self.tables);
        let tables = Tables::lent(self.layout, &lent);
        let piece = &self.input[at..end];
        let reading = read_outside(tables, place, at as u32, piece, &mut list);
        let reading = reading.expect("no refusal");
        assert_eq!(at + reading.taken, stopped.unwrap_or(end));
        let stop = match stopped {
            Some(_) => Stop::Full,
            None => Stop::All,
        };
        assert_eq!(reading.stop, stop);
        let written = here.iter().filter(|(e, _)| *e <= at + reading.taken);
        let mut expected: Vec<u32> = written.flat_map(|(e, t)| [*e as u32, *t as u32]).collect();
        assert_eq!(reading.records, expected.len() / 2);
        expected.resize(list.len(), 7);
        assert_eq!(list, expected);
        reading
    }
}

/// One letter, two, letters in both cases, or the bytes beside them too.
fn alphabet(rng: &mut Rng) -> &'static [u8] {
    let letters = rng.between(1, 3);
    let cases = rng.one_of(&[2, 4, CASES.len()]);
    match rng.once_in(2) {
        true => &LETTERS[..letters],
        false => &CASES[..cases],
    }
}

fn check_layout(layout: Layout, cases: u64) {
    for seed in 0..cases {
        let mut rng = Rng::new(seed);
        let case = Case::random(&mut rng, layout);
        let mut place = vec![0; layout.machines()];
        let mut at = 0;
        while at < case.input.len() {
            let end = rng.between(at, case.input.len());
            let list = rng.one_of(&[0, 1, 2, 3, 9, 31, 32, 33, 400]);
            let reading = case.check(&place, at, end, list);
            at += reading.taken;
            place = reading.place;
        }
    }
}

#[test]
fn split_readings_are_the_occurrences() {
    check_layout(Layout::Split, 400);
}

#[test]
fn whole_byte_readings_are_the_occurrences() {
    check_layout(Layout::Whole, 150);
}

#[test]
fn bitmap_readings_are_the_occurrences() {
    check_layout(Layout::Bitmap, 300);
}

/// The next state by the words of the definition and nothing else.
fn next_by_definition(prefixes: &[Vec<u8>], p: &[u8], c: u8) -> usize {
    let followed = [p, &[c]].concat();
    (0..=followed.len())
        .find_map(|from| prefixes.iter().position(|q| *q == followed[from..]))
        .expect("the empty prefix is a suffix")
}

/// The distinct prefixes in order of first appearance.
fn prefixes_by_definition(tags: &[OwnTag]) -> Vec<Vec<u8>> {
    let mut prefixes = vec![vec![]];
    for tag in tags {
        for length in 1..=tag.letters.len() {
            let prefix = tag.letters[..length].to_vec();
            if !prefixes.contains(&prefix) {
                prefixes.push(prefix);
            }
        }
    }
    prefixes
}

fn check_machine(machine: &Machine, tags: &[OwnTag], letters: &[u8]) {
    let prefixes = prefixes_by_definition(tags);
    assert_eq!(machine.prefixes(), prefixes);
    for (p, (next, vector)) in prefixes.iter().zip(machine.slots()) {
        for c in letters {
            let defined = next_by_definition(&prefixes, p, *c);
            assert_eq!(usize::from(next[usize::from(*c)]), defined);
        }
        for i in 0..16 {
            let mut own = tags.iter().filter(|tag| tag.number == i);
            let flagged = own.any(|tag| p.ends_with(&tag.letters));
            assert_eq!(vector >> i & 1 == 1, flagged);
        }
    }
}

/// The tags of a kind, by their numbers in the whole set, each byte as its
/// machine reads it.
fn own(set: &TagSet, kind: Kind, letter: impl Fn(u8) -> u8) -> Vec<OwnTag> {
    let mut own = Vec::new();
    for (number, tag) in set.tags().iter().enumerate() {
        if tag.kind == kind {
            let letters = tag.bytes.iter().map(|byte| letter(*byte)).collect();
            own.push(OwnTag { number, letters });
        }
    }
    own
}

#[test]
fn machines_are_as_defined() {
    for seed in 0..24 {
        let mut rng = Rng::new(seed);
        let alphabet = alphabet(&mut rng);
        let tags = random_tags(&mut rng, alphabet);
        let set = read_set(&write_tags(&tags), Layout::Split.kinds()).expect("a good set");
        assert_eq!(set.tags(), tags);
        let letters = [0x61, 0x63, 0xe1, 0, 0x62, 255, 0x41];
        let exact = own(&set, Kind::Exact, |byte| byte);
        check_machine(&Machine::whole_byte(&set), &exact, &letters);
        for b in 0..8 {
            let exact = own(&set, Kind::Exact, |byte| byte >> b & 1);
            check_machine(&Machine::bit(&set, b), &exact, &[0, 1]);
            let folded = own(&set, Kind::Folded, |byte| {
                byte.to_ascii_lowercase() >> b & 1
            });
            check_machine(&Machine::bit(&set, 8 + b), &folded, &[0, 1]);
        }
    }
}

/// The records of a ticket are the occurrences in the bytes it took, whatever
/// the other tickets do, and the list never holds more than 256.
fn check_desk(seed: u64) {
    let mut rng = Rng::new(seed);
    let alphabet = alphabet(&mut rng);
    let tags = random_tags(&mut rng, alphabet);
    let mut desk = Desk::new();
    let (mut first, mut second) = (vec![0; 11_496], vec![0; 11_496]);
    let replaced = desk.replace(&write_tags(&tags), [&mut first, &mut second]);
    assert!(replaced.is_ok());
    let mut taken: Vec<Vec<u8>> = vec![vec![]; 3];
    let mut records: Vec<Vec<(usize, usize)>> = vec![vec![]; 3];
    let mut hand_out = |record: Record| {
        let found = (record.end as usize, usize::from(record.tag.0));
        records[record.serial.0 as usize - 1].push(found);
    };
    for serial in 1..=3 {
        assert_eq!(desk.open(), Ok(Serial(serial)));
    }
    for _ in 0..120 {
        let ticket = rng.below(3);
        let piece = random_input_of(&mut rng, alphabet, &tags);
        let fed = desk.feed(Serial(ticket as u32 + 1), &piece, [&first, &second]);
        let fed = fed.expect("no refusal");
        assert_eq!(fed.stop == Stop::All, fed.taken == piece.len());
        taken[ticket].extend(&piece[..fed.taken]);
        assert!(desk.held() <= MOST_RECORDS);
        for _ in 0..rng.below(200) {
            desk.take().map(&mut hand_out).unwrap_or(());
        }
    }
    while let Ok(record) = desk.take() {
        hand_out(record);
    }
    for (bytes, records) in taken.iter().zip(&records) {
        assert_eq!(*records, occurrences_by_beginning(&tags, bytes));
    }
}

#[test]
fn desk_records_are_the_occurrences() {
    for seed in 0..40 {
        check_desk(seed);
    }
}

/// Lines of random pieces of calls: each is answered, and none does harm.
#[test]
fn any_line_is_answered() {
    let parts: [&[u8]; 24] = [
        b" ",
        b" ",
        b" ",
        b"set",
        b"feed",
        b"read",
        b"split",
        b"whole",
        b"bitmap",
        b"peek",
        b"poke",
        b"lend",
        b"1",
        b"0",
        b"65535",
        b"4294967295",
        b"131841",
        b"16384",
        b"2",
        b"~",
        b"\"",
        b"x",
        b"-",
        b"\0",
    ];
    let mut rng = Rng::new(9);
    let mut replay = Replay::new();
    for _ in 0..20_000 {
        let line: Vec<&[u8]> = (0..rng.between(1, 24))
            .map(|_| rng.pick(&parts).unwrap_or(b" "))
            .collect();
        assert!(!replay.line(&line.concat()).is_empty());
    }
}

#[test]
fn direct_comparison_finds_what_stands_there() {
    let tags = ["aa", "b", "ab"].map(Tag::exact);
    let found = [(2, 0), (3, 0), (4, 1), (4, 2)];
    assert_eq!(occurrences(&tags, b"aaab"), found);
    assert_eq!(occurrences(&tags, b""), []);
    assert_eq!(occurrences(&tags, b"aAAB"), []);
    let tags = [Tag::folded("aA"), Tag::exact("aA"), Tag::folded("[")];
    let found = [(2, 0), (3, 0), (4, 0), (4, 1), (6, 2)];
    assert_eq!(occurrences(&tags, b"aaaA{["), found);
}
