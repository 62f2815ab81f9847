//! The split layout over tables of any numbers: read once more from the numbers
//! alone, table by table and machine by machine.

mod helpers;

use helpers::random::*;
use second::layout::Layout;
use second::reading::{read_outside, Reading, Stop};
use second::rng::Rng;
use second::table::Tables;

/// The letter case of A to Z is passed over, by the standard library.
fn as_read(table: usize, byte: u8) -> u8 {
    match table {
        0 => byte,
        _ => byte.to_ascii_lowercase(),
    }
}

/// What a table does with a byte at a place of eight states: the states then and
/// the tags that all eight flag, or nothing where a next number isn't below s.
fn stepped(table: usize, numbers: &[u16], place: &[u16], byte: u8) -> Option<(Vec<u16>, u16)> {
    let s = (numbers.len() / 24).min(513);
    let byte = as_read(table, byte);
    let slot = |b: usize, state: u16| (b * s + usize::from(state)) * 3;
    let mut states = Vec::new();
    for b in 0..8 {
        let bit = usize::from(byte >> b & 1);
        states.push(numbers[slot(b, place[b]) + bit]);
    }
    if states.iter().any(|state| usize::from(*state) >= s) {
        return None;
    }
    let vectors = (0..8).map(|b| numbers[slot(b, states[b]) + 2]);
    let flagged = vectors.fold(u16::MAX, |flagged, vector| flagged & vector);
    Some((states, flagged))
}

/// A reading over any numbers, and the records.
fn walked(tables: [&[u16]; 2], place: &[u16], piece: &[u8], room: usize) -> (Reading, Vec<u32>) {
    let (mut place, mut list) = (place.to_vec(), vec![]);
    let (mut taken, mut stop) = (0, Stop::All);
    for byte in piece {
        let first = stepped(0, tables[0], &place[..8], *byte);
        let second = stepped(1, tables[1], &place[8..], *byte);
        let (Some(first), Some(second)) = (first, second) else {
            stop = Stop::Damaged;
            break;
        };
        let is_found = |tag: &u32| first.1 >> tag & 1 == 1 || second.1 >> tag & 1 == 1;
        let found: Vec<u32> = (0..16).filter(is_found).collect();
        if list.len() + 2 * found.len() > room {
            stop = Stop::Full;
            break;
        }
        taken += 1;
        place = [first.0, second.0].concat();
        list.extend(found.iter().flat_map(|tag| [taken as u32, *tag]));
    }
    let reading = Reading {
        taken,
        place,
        stop,
        records: list.len() / 2,
        moves: 0,
    };
    (reading, list)
}

/// Numbers that often lead on, and sometimes don't; vectors that often leave
/// some tags.
fn random_table(rng: &mut Rng, s: usize, damage: usize) -> Vec<u16> {
    let mut numbers = Vec::new();
    for _ in 0..8 * s {
        for _ in 0..2 {
            let state = match rng.once_in(damage) {
                true => rng.one_of(&[s, s + 1, 65_535]),
                false => rng.below(s),
            };
            numbers.push(state as u16);
        }
        let few = rng.below(65_536);
        let vector = rng.one_of(&[0xffff, 0xffff, 0xffff, 0xfff1, 0x801f, few]);
        numbers.push(vector as u16);
    }
    numbers.extend(vec![3; rng.below(24)]);
    numbers
}

#[test]
fn any_numbers_are_walked_as_said() {
    let mut stops = [0; 3];
    for seed in 0..6_000 {
        let mut rng = Rng::new(seed);
        let slots = [rng.between(1, 6), rng.between(1, 6)];
        let damage = rng.one_of(&[20, 100, 400]);
        let [first, second] = slots.map(|s| random_table(&mut rng, s, damage));
        let place: Vec<u16> = (0..16)
            .map(|machine| rng.below(slots[machine / 8]) as u16)
            .collect();
        let length = rng.between(0, 20);
        let piece = random_bytes(&mut rng, &CASES, length);
        let room = rng.between(0, 250);
        let (expected, mut records) = walked([&first, &second], &place, &piece, room);
        let mut list = vec![7; room];
        let lent = [first.as_slice(), second.as_slice()];
        let tables = Tables::lent(Layout::Split, &lent);
        let reading = read_outside(tables, &place, 0, &piece, &mut list);
        assert_eq!(reading.as_ref(), Ok(&expected), "seed {seed}");
        records.resize(room, 7);
        assert_eq!(list, records, "seed {seed}");
        stops[expected.stop as usize] += 1;
    }
    // Each is seen often enough to mean something.
    assert!(stops.iter().all(|times| *times > 500), "{stops:?}");
}
