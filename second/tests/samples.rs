//! The samples of docs/RULES.md, 10, by their numbers.

mod helpers;

use helpers::*;
use second::bitmap;
use second::layout::Layout;
use second::machine::Machine;
use second::reading::Stop;
use second::set::{read_set, write_set, write_tags, Tag, TagSet};
use second::table::Tables;

/// The set of most samples.
fn hers() -> TagSet {
    read_set(&write_set(&HERS), Layout::Whole.kinds()).expect("a good set")
}

#[test]
fn sample_1_whole_byte_machine() {
    assert_eq!(Machine::whole_byte(&hers()).states(), 10);
    let tables = tables_of(Layout::Whole, &HERS, 10);
    let input = b"hxhe";
    let path: Vec<u16> = (0..=input.len())
        .map(|n| read_from_start(Layout::Whole, &tables, &input[..n]).0.place[0])
        .collect();
    assert_eq!(path, [0, 1, 0, 1, 2]);
}

/// The states of eight bit machines from one on.
fn states_of_bit_machines(set: &TagSet, first: usize) -> Vec<usize> {
    let machines = first..first + 8;
    machines
        .map(|machine| Machine::bit(set, machine).states())
        .collect()
}

#[test]
fn sample_2_states_of_the_bit_machines() {
    assert_eq!(
        states_of_bit_machines(&hers(), 0),
        [9, 8, 8, 10, 8, 5, 5, 5]
    );
    assert_eq!(states_of_bit_machines(&hers(), 8), [1; 8]);
}

#[test]
fn sample_3_hishers() {
    let records = records_of(&HERS, "hishers");
    assert_eq!(records, [(3, 2), (5, 0), (5, 1), (7, 3)]);
}

#[test]
fn sample_4_one_machine_alone_flags_a_tag() {
    let tables = tables_of(Layout::Split, &HERS, 10);
    let (reading, records) = read_from_start(Layout::Split, &tables, b"hx");
    let lent = lent(&tables);
    let tables = Tables::lent(Layout::Split, &lent);
    let vectors: Vec<u16> = reading.place[..8]
        .iter()
        .enumerate()
        .map(|(b, state)| tables.vector(b, *state).expect("a state below s"))
        .collect();
    assert_eq!(vectors[7] & 1, 1);
    assert_eq!(vectors[3] & 1, 0);
    assert_eq!(vectors.iter().fold(u16::MAX, |and, vector| and & vector), 0);
    assert_eq!(records, []);
}

#[test]
fn sample_5_a_and_aa() {
    assert_eq!(records_of(&["a", "aa"], "aa"), [(1, 0), (2, 0), (2, 1)]);
}

#[test]
fn sample_6_overlapping_ends() {
    assert_eq!(records_of(&["aa"], "aaaa"), [(2, 0), (3, 0), (4, 0)]);
}

#[test]
fn sample_7_an_empty_piece() {
    for layout in LAYOUTS {
        let tables = tables_of(layout, &HERS, 10);
        let (reading, records) = read_from_start(layout, &tables, b"");
        assert_eq!((reading.taken, reading.stop), (0, Stop::All));
        assert_eq!(records, []);
    }
    check(&[
        ("set \"he\"", "set 6"),
        ("replace", "edition 1 tags 1"),
        ("open", "serial 1"),
        ("feed 1 -", "taken 0 stop ALL"),
    ]);
}

#[test]
fn sample_8_nine_slots_and_ten() {
    check(&[
        ("set \"he\" \"she\" \"his\" \"hers\"", "set 28"),
        ("lend 216", "lent 216"),
        ("replace", "refused 7 3 10"),
        ("build split", "refused 7 3 10"),
        ("lend 239", "lent 239"),
        ("replace", "refused 7 3 10"),
        ("lend 240", "lent 240"),
        ("replace", "edition 1 tags 4"),
    ]);
}

/// A desk with tags a, aa, one open ticket and so many records held.
fn desk_holding(records: usize) -> Vec<(String, String)> {
    // Each ticket's first byte a gives one record; b parts the a's.
    let piece = "ab".repeat(records);
    let taken = format!("taken {} stop ALL", 2 * records);
    [
        ("set \"a\" \"aa\"".to_string(), "set 11".to_string()),
        ("replace".into(), "edition 1 tags 2".into()),
        ("open".into(), "serial 1".into()),
        (format!("feed 1 \"{piece}\""), taken),
    ]
    .to_vec()
}

fn check_holding(records: usize, calls: &[(&str, &str)]) {
    let before = desk_holding(records);
    let before = before
        .iter()
        .map(|(line, answer)| (line.as_str(), answer.as_str()));
    let calls: Vec<(&str, &str)> = before.chain(calls.iter().copied()).collect();
    check(&calls);
}

#[test]
fn sample_9_254_held() {
    check_holding(254, &[("feed 1 \"aa\"", "taken 1 stop FULL")]);
}

#[test]
fn sample_10_255_held() {
    check_holding(
        255,
        &[
            ("feed 1 \"a\"", "taken 1 stop ALL"),
            ("feed 1 \"a\"", "taken 0 stop FULL"),
        ],
    );
    check_holding(
        254,
        &[
            ("feed 1 \"a\"", "taken 1 stop ALL"),
            ("feed 1 \"a\"", "taken 0 stop FULL"),
            ("take", "record 1 1 1 0"),
            ("feed 1 \"a\"", "taken 1 stop ALL"),
        ],
    );
}

#[test]
fn sample_11_counts_and_lengths() {
    let tags = |count: usize| -> String {
        let words: Vec<String> = (0..count).map(|k| format!("\"{k:02}\"")).collect();
        format!("set {}", words.join(" "))
    };
    let long = |length: usize| format!("set \"{}\"", "a".repeat(length));
    check(&[
        (&tags(16), "set 96"),
        ("replace", "edition 1 tags 16"),
        (&tags(17), "set 102"),
        ("replace", "refused 2 16"),
        (&long(32), "set 36"),
        ("replace", "edition 2 tags 1"),
        (&long(33), "set 37"),
        ("replace", "refused 4 0"),
    ]);
}

#[test]
fn sample_12_a_cut_input() {
    check(&[
        ("set \"he\" \"she\" \"his\" \"hers\"", "set 28"),
        ("replace", "edition 1 tags 4"),
        ("open", "serial 1"),
        ("feed 1 \"ush\"", "taken 3 stop ALL"),
        ("feed 1 \"ers\"", "taken 3 stop ALL"),
        ("take", "record 1 1 4 0"),
        ("take", "record 1 1 4 1"),
        ("take", "record 1 1 6 3"),
        ("take", "refused 16"),
    ]);
}

#[test]
fn sample_13_the_same_set_again() {
    check(&[
        ("set \"he\"", "set 6"),
        ("replace", "edition 1 tags 1"),
        ("open", "serial 1"),
        ("replace", "edition 2 tags 1"),
        ("feed 1 \"he\"", "refused 13 1"),
    ]);
}

#[test]
fn sample_14_a_closed_serial() {
    let mut calls = vec![("set \"he\"", "set 6"), ("replace", "edition 1 tags 1")];
    let serials: Vec<String> = (1..=16).map(|n| format!("serial {n}")).collect();
    calls.extend(serials.iter().map(|serial| ("open", serial.as_str())));
    calls.extend([
        ("open", "refused 11"),
        ("close 5", "closed 5"),
        ("close 5", "refused 12"),
        ("feed 5 -", "refused 12"),
        ("open", "serial 17"),
        ("open", "refused 11"),
        ("feed 5 \"he\"", "refused 12"),
        ("close 5", "refused 12"),
        ("feed 17 \"he\"", "taken 2 stop ALL"),
        ("take", "record 17 1 2 0"),
    ]);
    check(&calls);
}

#[test]
fn sample_15_bitmap_machine() {
    let states = ["", "h", "s", "he", "hi", "sh", "her", "his", "she", "hers"];
    assert_eq!(bitmap::prefixes(&hers()), states.map(str::as_bytes));
    let tables = tables_of(Layout::Bitmap, &HERS, 10);
    let paths: [(&[u8], &[u16]); 2] = [
        (b"hxhe", &[0, 1, 0, 1, 3]),
        (b"ushers", &[0, 0, 2, 5, 8, 6, 9]),
    ];
    for (input, path) in paths {
        for (n, state) in path.iter().enumerate() {
            let (reading, _) = read_from_start(Layout::Bitmap, &tables, &input[..n]);
            assert_eq!((reading.taken, reading.place), (n, vec![*state]));
        }
        let (reading, _) = read_from_start(Layout::Bitmap, &tables, input);
        assert_eq!(reading.moves, 1);
    }
}

#[test]
fn sample_16_the_same_bytes_of_both_kinds() {
    let tags = [Tag::folded("He"), Tag::exact("He")];
    let set = read_set(&write_tags(&tags), Layout::Split.kinds()).expect("a good set");
    for first in [0, 8] {
        assert_eq!(states_of_bit_machines(&set, first), [3; 8]);
    }
    let tables = tables_of_tags(Layout::Split, &tags, &[3, 3]);
    let (reading, records) = read_from_start(Layout::Split, &tables, b"hehEHe");
    assert_eq!((reading.taken, reading.stop), (6, Stop::All));
    assert_eq!(records, [(2, 0), (4, 0), (6, 0), (6, 1)]);
    check(&[
        ("set ~\"He\" \"He\"", "set 12"),
        ("replace", "edition 1 tags 2"),
        ("open", "serial 1"),
        ("feed 1 \"hehEHe\"", "taken 6 stop ALL"),
        ("take", "record 1 1 2 0"),
        ("take", "record 1 1 4 0"),
        ("take", "record 1 1 6 0"),
        ("take", "record 1 1 6 1"),
        ("take", "refused 16"),
    ]);
}

#[test]
fn sample_17_slots_of_the_second_table() {
    check(&[
        ("set ~\"He\" \"He\"", "set 12"),
        ("lend 48 1", "lent 48"),
        ("replace", "refused 7 8 3"),
        ("build split", "refused 7 8 3"),
        ("lend 72 1", "lent 72"),
        ("replace", "edition 1 tags 2"),
        ("set \"he\" \"she\" \"his\" \"hers\"", "set 28"),
        ("lend 23 1", "lent 23"),
        ("replace", "refused 7 8 1"),
        ("lend 0 1", "lent 0"),
        ("build split", "refused 7 8 1"),
        ("lend 24 1", "lent 24"),
        ("replace", "edition 2 tags 4"),
    ]);
}

#[test]
fn sample_18_repeats_and_the_bytes_beside_the_letters() {
    check(&[
        ("set ~\"he\" ~\"HE\"", "set 12"),
        ("replace", "refused 6 1"),
        ("set ~\"he\" \"he\"", "set 12"),
        ("replace", "edition 1 tags 2"),
    ]);
    let tags = [Tag::folded("@"), Tag::folded("[")];
    let tables = tables_of_tags(Layout::Split, &tags, &[479, 479]);
    let found = |input: &[u8]| read_from_start(Layout::Split, &tables, input).1;
    assert_eq!(found(b"`{"), []);
    assert_eq!(found(b"@["), [(1, 0), (2, 1)]);
}

#[test]
fn sample_19_kinds_lengths_and_the_machines_named() {
    check(&[
        ("set x0100000068", "set 5"),
        ("replace", "refused 3 0"),
        ("set x0100030068", "set 5"),
        ("replace", "refused 3 0"),
        ("set x0100010168", "set 5"),
        ("replace", "refused 3 0"),
        ("set x010101006865", "set 6"),
        ("replace", "refused 4 0"),
        ("set \"He\" \"he\"", "set 12"),
        ("replace", "edition 1 tags 2"),
        ("set \"he\" \"she\" \"his\" \"hers\"", "set 28"),
        ("lend 2313", "lent 2313"),
        ("build whole", "refused 7 254 10"),
        ("set ~\"He\" \"He\"", "set 12"),
        ("lend 48", "lent 48"),
        ("lend 48 1", "lent 48"),
        ("build split", "refused 7 0 3"),
    ]);
    let tags = [Tag::folded("a"), Tag::folded("{")];
    let set = read_set(&write_tags(&tags), Layout::Split.kinds()).expect("a good set");
    assert_eq!(Machine::bit(&set, 13).states(), 2);
}

#[test]
fn the_bench_example() {
    assert_eq!(records_of(&HERS, "ushers"), [(4, 0), (4, 1), (6, 3)]);
}
