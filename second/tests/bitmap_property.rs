//! The bitmap layout over random sets, inputs, cuts and rooms: readings are
//! those of the whole-byte machine and of the direct comparison, failure moves
//! are counted once more without a table, and any numbers are walked as said.

mod helpers;

use helpers::random::*;
use second::bitmap;
use second::build::build;
use second::layout::Layout;
use second::machine::Machine;
use second::reading::{read_outside, Reading, Stop};
use second::rng::Rng;
use second::set::{read_set, write_set, Tag};
use second::table::Tables;

fn is_prefix(tags: &[Vec<u8>], bytes: &[u8]) -> bool {
    tags.iter().any(|tag| tag.starts_with(bytes))
}

/// The suffixes of some bytes that are prefixes of tags, the longest first; the
/// empty one is the last.
fn suffixes<'a>(tags: &[Vec<u8>], bytes: &'a [u8]) -> Vec<&'a [u8]> {
    let suffixes = (0..=bytes.len()).map(|from| &bytes[from..]);
    suffixes.filter(|suffix| is_prefix(tags, suffix)).collect()
}

/// How many failure moves the last of some bytes makes, by prefixes and
/// suffixes alone. The states on its way are the suffixes of the bytes before
/// it that are prefixes, and the way ends at the first that can be followed by
/// it, or at the empty one.
fn moves_of_last(tags: &[Vec<u8>], bytes: &[u8]) -> u64 {
    let Some((last, before)) = bytes.split_last() else {
        return 0;
    };
    let way = suffixes(tags, before);
    let ends = |q: &&[u8]| is_prefix(tags, &[*q, &[*last]].concat());
    let moves = way.iter().position(ends).unwrap_or(way.len() - 1);
    moves as u64
}

/// A set's tables in both layouts and their states.
struct Case {
    tags: Vec<Vec<u8>>,
    whole: Vec<u16>,
    bitmap: Vec<u16>,
    whole_states: Vec<Vec<u8>>,
    bitmap_states: Vec<Vec<u8>>,
}

fn built(layout: Layout, tags: &[Vec<u8>], odd: usize) -> Vec<u16> {
    let mut table = vec![9; 513 * layout.slot_length() + odd];
    let built = build(layout, &write_set(tags), &mut [&mut table]);
    assert_eq!(built, Ok(tags.len()));
    table
}

impl Case {
    fn random(rng: &mut Rng, letters: usize) -> Case {
        let tags = random_words(rng, &LETTERS[..letters]);
        let set = read_set(&write_set(&tags), Layout::Bitmap.kinds()).expect("a good set");
        Case {
            whole: built(Layout::Whole, &tags, rng.below(30)),
            bitmap: built(Layout::Bitmap, &tags, rng.below(30)),
            whole_states: Machine::whole_byte(&set).prefixes().to_vec(),
            bitmap_states: bitmap::prefixes(&set),
            tags,
        }
    }

    /// The place of a prefix in each layout.
    fn places(&self, prefix: &[u8]) -> [Vec<u16>; 2] {
        [&self.whole_states, &self.bitmap_states].map(|states| {
            let state = states.iter().position(|p| p == prefix);
            vec![state.expect("a prefix") as u16]
        })
    }

    /// Reads a piece from the place of a prefix in both layouts, which must
    /// agree in all but the number of the place; gives the bitmap's answer, its
    /// list and the prefix of its place.
    fn read_both(&self, prefix: &[u8], at: usize, piece: &[u8], room: usize) -> Read {
        let [whole_place, bitmap_place] = self.places(prefix);
        let (mut whole_list, mut list) = (vec![7; room], vec![7; room]);
        let lent = [self.whole.as_slice()];
        let table = Tables::lent(Layout::Whole, &lent);
        let whole = read_outside(table, &whole_place, at as u32, piece, &mut whole_list);
        let lent = [self.bitmap.as_slice()];
        let table = Tables::lent(Layout::Bitmap, &lent);
        let reading = read_outside(table, &bitmap_place, at as u32, piece, &mut list);
        let (whole, reading) = (whole.expect("no refusal"), reading.expect("no refusal"));
        assert_eq!(list, whole_list);
        let told = |r: &Reading| (r.taken, r.stop, r.records);
        assert_eq!(told(&reading), told(&whole));
        assert_eq!(whole.moves, 0);
        let prefix = self.bitmap_states[usize::from(reading.place[0])].clone();
        assert_eq!(prefix, self.whole_states[usize::from(whole.place[0])]);
        Read {
            reading,
            list,
            prefix,
        }
    }

    /// The moves of the bytes of a run behind the first so many.
    fn moves(&self, run: &[u8], from: usize) -> u64 {
        let ends = from + 1..=run.len();
        ends.map(|end| moves_of_last(&self.tags, &run[..end])).sum()
    }
}

struct Read {
    reading: Reading,
    list: Vec<u32>,
    prefix: Vec<u8>,
}

/// One input from the start, cut and with rooms at random.
fn check_cuts(seed: u64) {
    let mut rng = Rng::new(seed);
    let letters = rng.between(1, LETTERS.len());
    let case = Case::random(&mut rng, letters);
    let input = random_input(&mut rng, &LETTERS[..letters], &case.tags);
    let (mut at, mut moves, mut prefix) = (0, 0, vec![]);
    let mut records: Vec<(usize, usize)> = vec![];
    while at < input.len() {
        let end = rng.between(at, input.len());
        let room = rng.one_of(&[0, 1, 2, 3, 9, 31, 32, 33, 400]);
        let read = case.read_both(&prefix, at, &input[at..end], room);
        let written = read.list.chunks_exact(2).take(read.reading.records);
        records.extend(written.map(|record| (record[0] as usize, record[1] as usize)));
        let before = at;
        at += read.reading.taken;
        assert_eq!(read.reading.stop == Stop::All, at == end);
        assert_eq!(read.reading.moves, case.moves(&input[..at], before));
        assert_eq!(read.prefix, suffixes(&case.tags, &input[..at])[0]);
        moves += read.reading.moves;
        assert!(moves <= at as u64, "{moves} moves of {at} bytes");
        prefix = read.prefix;
    }
    let tags: Vec<Tag> = case.tags.iter().cloned().map(Tag::exact).collect();
    assert_eq!(records, occurrences_by_beginning(&tags, &input));
}

#[test]
fn readings_are_those_of_the_whole_byte_machine_and_the_occurrences() {
    for seed in 0..300 {
        check_cuts(seed);
    }
}

/// From a state the moves are those behind the bytes of its prefix.
#[test]
fn moves_from_any_state_are_as_defined() {
    for seed in 0..40 {
        let mut rng = Rng::new(seed);
        let letters = rng.between(1, LETTERS.len());
        let case = Case::random(&mut rng, letters);
        for prefix in &case.bitmap_states {
            let length = rng.between(1, 6);
            let piece = random_bytes(&mut rng, &LETTERS[..letters], length);
            let read = case.read_both(prefix, 0, &piece, 400);
            assert_eq!(read.reading.taken, piece.len());
            let run = [prefix.as_slice(), &piece].concat();
            assert_eq!(read.reading.moves, case.moves(&run, prefix.len()));
        }
    }
}

/// A built slot, each number from another side than the building has it.
fn check_slot(case: &Case, state: usize) {
    let states = &case.bitmap_states;
    let p = &states[state];
    let slot = &case.bitmap[19 * state..19 * (state + 1)];
    let mut children = 0;
    for c in 0..=255u8 {
        let followed = [p.as_slice(), &[c]].concat();
        let bit = slot[usize::from(c) / 16] >> (c % 16) & 1;
        assert_eq!(bit == 1, states.contains(&followed));
        if bit == 1 {
            assert_eq!(states[usize::from(slot[16]) + children], followed);
            children += 1;
        }
    }
    assert!(children > 0 || slot[16] == 0);
    let proper = p.get(1..).unwrap_or(&[]);
    assert_eq!(
        states[usize::from(slot[17])],
        suffixes(&case.tags, proper)[0]
    );
    let whole = usize::from(case.places(p)[0][0]);
    assert_eq!(slot[18], case.whole[257 * whole + 256]);
}

#[test]
fn slots_are_as_defined() {
    for seed in 0..40 {
        let mut rng = Rng::new(seed);
        let letters = rng.between(1, LETTERS.len());
        let case = Case::random(&mut rng, letters);
        // Level by level, and each level in the order of its bytes: so say the
        // levels before it.
        let mut ordered = case.whole_states.clone();
        ordered.sort_by_key(|p| (p.len(), p.clone()));
        assert_eq!(case.bitmap_states, ordered);
        for state in 0..ordered.len() {
            check_slot(&case, state);
        }
    }
}

/// Where a byte goes from state q over any numbers, and the moves it makes;
/// nothing where a number isn't below what it must be below.
fn goes(numbers: &[u16], s: usize, q: usize, c: u8) -> Option<(usize, u64)> {
    let slot = &numbers[19 * q..];
    let is_one = |c: &u8| slot[usize::from(*c) / 16] & (1 << (c % 16)) != 0;
    let mut ones = (0..=255).filter(is_one);
    if let Some(below) = ones.position(|one| one == c) {
        let next = usize::from(slot[16]) + below;
        return (next < s).then_some((next, 0));
    }
    let failure = usize::from(slot[17]);
    match q {
        0 => Some((0, 0)),
        _ if failure < q => goes(numbers, s, failure, c).map(|(next, moves)| (next, moves + 1)),
        _ => None,
    }
}

/// A reading over any numbers, and the records.
fn walked(numbers: &[u16], place: usize, piece: &[u8], room: usize) -> (Reading, Vec<u32>) {
    let s = (numbers.len() / 19).min(513);
    let (mut q, mut taken, mut moves, mut list) = (place, 0, 0, vec![]);
    let mut stop = Stop::All;
    for c in piece {
        let Some((next, made)) = goes(numbers, s, q, *c) else {
            stop = Stop::Damaged;
            break;
        };
        let vector = numbers[19 * next + 18];
        if list.len() + 2 * vector.count_ones() as usize > room {
            stop = Stop::Full;
            break;
        }
        (q, taken, moves) = (next, taken + 1, moves + made);
        let tags = (0..16).filter(|tag| vector & (1 << tag) != 0);
        list.extend(tags.flat_map(|tag| [taken as u32, tag]));
    }
    let reading = Reading {
        taken,
        place: vec![q as u16],
        stop,
        records: list.len() / 2,
        moves,
    };
    (reading, list)
}

/// Numbers that often lead on, and sometimes don't.
fn random_slot(rng: &mut Rng, s: usize, state: usize) -> Vec<u16> {
    let mut slot = vec![0; 19];
    for _ in 0..rng.below(6) {
        let c = LETTERS[rng.below(LETTERS.len())];
        slot[usize::from(c) / 16] |= 1 << (c % 16);
    }
    let (next, below) = (rng.below(s), rng.below(state));
    let large = 65_536 - rng.between(1, 4);
    slot[16] = rng.one_of(&[next, next, next, next, s, large]) as u16;
    let bad = rng.one_of(&[state, state + 1, s, large]);
    slot[17] = rng.one_of(&[below, below, below, below, state.saturating_sub(1), bad]) as u16;
    slot[18] = rng.one_of(&[0, 0, 0, 1, 0x8002, 0xffff]) as u16;
    slot
}

#[test]
fn any_numbers_are_walked_as_said() {
    let mut stops = [0; 3];
    let mut moved = 0;
    for seed in 0..4_000 {
        let mut rng = Rng::new(seed);
        let s = rng.between(1, 12);
        let slots = (0..s).map(|state| random_slot(&mut rng, s, state));
        let mut numbers = slots.collect::<Vec<Vec<u16>>>().concat();
        numbers.extend(vec![3; rng.below(19)]);
        let length = rng.between(0, 40);
        let piece = random_bytes(&mut rng, &LETTERS, length);
        let (place, room) = (rng.below(s), rng.between(0, 200));
        let (expected, mut records) = walked(&numbers, place, &piece, room);
        let mut list = vec![7; room];
        let lent = [numbers.as_slice()];
        let table = Tables::lent(Layout::Bitmap, &lent);
        let reading = read_outside(table, &[place as u16], 0, &piece, &mut list);
        assert_eq!(reading.as_ref(), Ok(&expected), "seed {seed}");
        records.resize(room, 7);
        assert_eq!(list, records, "seed {seed}");
        stops[expected.stop as usize] += 1;
        moved += u64::from(expected.moves > 0);
    }
    // Each is seen often enough to mean something.
    assert!(stops.iter().all(|times| *times > 300), "{stops:?}");
    assert!(moved > 1_000, "{moved}");
}
