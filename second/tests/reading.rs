//! Tables of any origin, the order of the stops, and what stays unchanged.

mod helpers;

use helpers::*;
use second::layout::Layout;
use second::reading::{read_outside, Stop};
use second::table::Tables;

#[test]
fn slots_are_rounded_down_and_at_most_513() {
    for (length, split) in [(0, 0), (23, 0), (24, 1), (47, 1), (48, 2)] {
        assert_eq!(Layout::Split.slots(length), split);
    }
    for (length, split) in [(12_311, 512), (12_312, 513), (12_336, 513), (131_841, 513)] {
        assert_eq!(Layout::Split.slots(length), split);
    }
    for (length, whole) in [
        (256, 0),
        (257, 1),
        (131_840, 512),
        (131_841, 513),
        (200_000, 513),
    ] {
        assert_eq!(Layout::Whole.slots(length), whole);
    }
}

#[test]
fn a_built_table_is_as_the_document_numbers_it() {
    // Tag "a" is 0x61: bits 0, 5 and 6 are ones.
    let tables = tables_of(Layout::Split, &["a"], 3);
    for (b, machine) in tables[0].chunks_exact(9).enumerate() {
        let expected: [u16; 9] = match b {
            0 | 5 | 6 => [0, 1, 0, 0, 1, 1, 0, 0, 0],
            _ => [1, 0, 0, 1, 0, 1, 0, 0, 0],
        };
        assert_eq!(machine, expected, "machine {b}");
    }
    // No tag of kind 2: one state, which both letters keep.
    assert_eq!(tables[1], [0; 72]);
    let tables = tables_of(Layout::Whole, &["a"], 3);
    for (at, number) in tables[0].iter().enumerate() {
        let next_on_a = at == 0x61 || at == 257 + 0x61;
        let vector = at == 257 + 256;
        assert_eq!(*number, u16::from(next_on_a || vector), "number {at}");
    }
}

#[test]
fn building_over_a_used_table_leaves_no_trace() {
    check(&[
        ("set \"abc\"", "set 7"),
        ("lend 120", "lent 120"),
        ("build split", "tags 1"),
        ("set \"a\"", "set 5"),
        ("poke 14 9", "poked 14"),
        ("poke 120 65535", "poked 120"),
        ("poke 119 8", "poked 119"),
        ("build split", "tags 1"),
        ("peek 0 15", "numbers 0 1 0 0 1 1 0 0 0 0 0 0 0 0 0"),
        ("peek 114 7", "numbers 0 0 0 0 0 0 65535"),
        // 119 numbers are 4 slots: 96 numbers, and 23 beyond the last slot.
        ("lend 119", "lent 119"),
        ("poke 96 5", "poked 96"),
        ("build split", "tags 1"),
        ("peek 95 3", "numbers 0 5 0"),
    ]);
}

#[test]
fn a_next_number_not_below_s_is_damage() {
    let split = "read split 0 2 0 0 0 0 0 0 0 0 0 0 0 0 0 0 0 0 \"a\"";
    let damaged = "taken 0 stop DAMAGED records 0 place 0 0 0 0 0 0 0 0 0 0 0 0 0 0 0 0|list 7 7";
    let unused = "taken 1 stop ALL records 0 place 1 1 1 1 1 1 1 2 0 0 0 0 0 0 0 0|list 7 7";
    check(&[
        ("set \"a\"", "set 5"),
        ("lend 72", "lent 72"),
        ("build split", "tags 1"),
        // Machine 7 begins at 63; its next on 0 leads to s - 1, s, 65535.
        ("poke 63 2", "poked 63"),
        (split, unused),
        ("poke 63 3", "poked 63"),
        (split, damaged),
        ("poke 63 65535", "poked 63"),
        (split, damaged),
        // What isn't read does no harm.
        ("poke 63 1", "poked 63"),
        ("poke 64 65535", "poked 64"),
        (
            split,
            "taken 1 stop ALL records 1 place 1 1 1 1 1 1 1 1 0 0 0 0 0 0 0 0|list 1 0",
        ),
    ]);
}

#[test]
fn damage_is_asked_before_room() {
    // One slot; on 0 it stays and has all 16 matches, on 255 it is damaged.
    let mut table = [0u16; 257];
    table[255] = 1;
    table[256] = u16::MAX;
    let lent = [table.as_slice()];
    let table = Tables::lent(Layout::Whole, &lent);
    let mut list = [7; 33];
    let reading = read_outside(table, &[0], 5, &[0, 255], &mut list).expect("no refusal");
    assert_eq!(
        (reading.taken, reading.stop, reading.records),
        (1, Stop::Damaged, 16)
    );
    for (tag, record) in list.chunks_exact(2).enumerate() {
        assert_eq!(record, [6, tag as u32]);
    }
    assert_eq!(list[32], 7);
    let reading = read_outside(table, &[0], 5, &[0, 0], &mut list).expect("no refusal");
    assert_eq!((reading.taken, reading.stop), (1, Stop::Full));
    let mut short = [7; 31];
    let reading = read_outside(table, &[0], 5, &[0], &mut short).expect("no refusal");
    assert_eq!(
        (reading.taken, reading.stop, reading.records),
        (0, Stop::Full, 0)
    );
    assert_eq!(short, [7; 31]);
}

#[test]
fn a_list_too_short_for_one_byte_stays_full() {
    check(&[
        ("set \"a\" \"aa\"", "set 11"),
        ("lend 771", "lent 771"),
        ("build whole", "tags 2"),
        (
            "read whole 9 0 0 \"ba\"",
            "taken 1 stop FULL records 0 place 0|list",
        ),
        (
            "read whole 9 1 0 \"ba\"",
            "taken 1 stop FULL records 0 place 0|list 7",
        ),
        (
            "read whole 9 3 1 \"a\"",
            "taken 0 stop FULL records 0 place 1|list 7 7 7",
        ),
        (
            "read whole 9 4 1 \"a\"",
            "taken 1 stop ALL records 2 place 2|list 10 0 10 1",
        ),
        (
            "read whole 9 5 0 \"aa\"",
            "taken 1 stop FULL records 1 place 1|list 10 0 7 7 7",
        ),
        (
            "read whole 9 7 0 \"aa\"",
            "taken 2 stop ALL records 3 place 2|list 10 0 11 0 11 1 7",
        ),
    ]);
}

/// Tag a in a desk's table of 2 slots, a ticket, then these calls.
fn check_desk(calls: &[(&str, &str)]) {
    let mut all = vec![("set \"a\"", "set 5"), ("lend 48", "lent 48")];
    all.extend([("replace", "edition 1 tags 1"), ("open", "serial 1")]);
    all.extend_from_slice(calls);
    check(&all);
}

#[test]
fn the_desk_reports_vector_bits_as_the_numbers_say() {
    // State 1 of each machine gets tag 15, of which the set knows nothing.
    let pokes: Vec<(String, String)> = (0..8)
        .map(|b| 6 * b + 5)
        .map(|at| (format!("poke {at} 32769"), format!("poked {at}")))
        .collect();
    let mut calls = vec![("feed 1 \"a\"", "taken 1 stop ALL")];
    let (last, others) = pokes.split_last().expect("eight machines");
    calls.extend(
        others
            .iter()
            .map(|(line, answer)| (line.as_str(), answer.as_str())),
    );
    // Seven of eight flag it: no record.
    calls.push(("feed 1 \"a\"", "taken 1 stop ALL"));
    calls.push((&last.0, &last.1));
    calls.extend([
        ("feed 1 \"a\"", "taken 1 stop ALL"),
        ("take", "record 1 1 1 0"),
        ("take", "record 1 1 2 0"),
        ("take", "record 1 1 3 0"),
        ("take", "record 1 1 3 15"),
        ("take", "refused 16"),
    ]);
    check_desk(&calls);
}

#[test]
fn the_desk_stops_at_damage_and_keeps_what_was_taken() {
    let shown = "desk edition 1 serial 1 held 3 tickets 1|ticket 1 edition 1 taken 6 open";
    check_desk(&[
        ("feed 1 \"a\"", "taken 1 stop ALL"),
        // The next on 1 of machine 0's state 1 leads out of the table.
        ("poke 4 2", "poked 4"),
        ("feed 1 \"a\"", "taken 0 stop DAMAGED"),
        ("feed 1 \"``a\"", "taken 3 stop ALL"),
        ("feed 1 \"`aa\"", "taken 2 stop DAMAGED"),
        ("show", shown),
        ("take", "record 1 1 1 0"),
        ("take", "record 1 1 4 0"),
        ("take", "record 1 1 6 0"),
        ("take", "refused 16"),
    ]);
}
