//! The two tables of the split layout: slots worked out by hand, how many are
//! needed, and which calls are lent which.

mod helpers;

use helpers::split::*;
use helpers::*;
use second::layout::Layout;
use second::set::{write_tags, Tag};

#[test]
fn each_table_has_the_tags_of_its_kind_by_their_numbers_in_the_whole_set() {
    let tags = [Tag::exact("b"), Tag::folded("A")];
    let tables = tables_of_tags(Layout::Split, &tags, &[3, 2]);
    // b is 0x62: bits 1, 5 and 6 are ones. It is tag 0.
    for (b, machine) in tables[0].chunks_exact(9).enumerate() {
        let expected: [u16; 9] = match b {
            1 | 5 | 6 => [0, 1, 0, 0, 1, 1, 0, 0, 0],
            _ => [1, 0, 0, 1, 0, 1, 0, 0, 0],
        };
        assert_eq!(machine, expected, "machine {b}");
    }
    // A folded is a, 0x61: bits 0, 5 and 6 are ones. It is tag 1.
    for (b, machine) in tables[1].chunks_exact(6).enumerate() {
        let expected: [u16; 6] = match b {
            0 | 5 | 6 => [0, 1, 0, 0, 1, 2],
            _ => [1, 0, 0, 1, 0, 2],
        };
        assert_eq!(machine, expected, "machine {}", 8 + b);
    }
}

#[test]
fn a_table_without_tags_of_its_kind_has_one_state() {
    let tables = tables_of_tags(Layout::Split, &[Tag::folded("ab")], &[2, 3]);
    assert_eq!(tables[0], [0; 48]);
    let tables = tables_of_tags(Layout::Split, &[Tag::exact("ab")], &[3, 1]);
    assert_eq!(tables[1], [0; 24]);
}

#[test]
fn the_desk_asks_for_both_slot_counts() {
    let mut calls = built("\"a\" ~\"A\"", 2, [4, 3]);
    calls.push(call("replace", "edition 1 tags 2"));
    calls.push(call("open", "serial 1"));
    let lent = |lent: usize, table: usize| {
        let line = format!("lend {lent} {table}");
        call(&line, &format!("lent {lent}"))
    };
    let damaged = call("feed 1 \"a\"", "taken 0 stop DAMAGED");
    let all = call("feed 1 \"a\"", "taken 1 stop ALL");
    calls.push(all.clone());
    for (first, second, answer) in [
        (95, 72, &damaged),
        (96, 71, &damaged),
        (120, 72, &damaged),
        (96, 96, &damaged),
        // As if they were one for the other.
        (72, 96, &damaged),
        (119, 95, &all),
    ] {
        calls.extend([lent(first, 0), lent(second, 1), answer.clone()]);
    }
    // A stop and no refusal, for no byte too; STALE comes before it.
    calls.extend([lent(24, 1), call("feed 1 -", "taken 0 stop DAMAGED")]);
    calls.extend([lent(72, 1), call("replace", "edition 2 tags 2")]);
    calls.extend([lent(24, 1), call("feed 1 -", "refused 13 1")]);
    calls.push(call("feed 2 -", "refused 12"));
    check_calls(&calls);
}

#[test]
fn table_7_names_the_lowest_machine_and_writes_in_neither_table() {
    let short = |machine: usize, states: usize| format!("refused 7 {machine} {states}");
    let (first, second) = (short(0, 3), short(8, 3));
    // bb and ~"BB" need 3 slots each.
    let mut calls = built("\"bb\" ~\"BB\"", 2, [3, 3]);
    calls.push(call("poke 0 9", "poked 0"));
    calls.push(call("poke 0 9 1", "poked 0"));
    let lengths = [
        (71, 72, &first),
        (72, 71, &second),
        (71, 71, &first),
        (48, 24, &first),
        (72, 0, &second),
        (0, 0, &first),
    ];
    for (first, second, refused) in lengths {
        calls.push(call(&format!("lend {first}"), &format!("lent {first}")));
        calls.push(call(&format!("lend {second} 1"), &format!("lent {second}")));
        calls.push(call("build split", refused));
        calls.push(call("replace", refused));
    }
    for table in 0..2 {
        calls.push(call(&format!("peek 0 4 {table}"), "numbers 9 0 0 2"));
    }
    check_calls(&calls);
}

#[test]
fn the_lowest_machine_short_is_named_in_the_second_table_too() {
    // Of kind 2 they are as in samples 2 and 8, eight machines on.
    check(&[
        ("set ~\"He\" ~\"ShE\" ~\"HIS\" ~\"hers\"", "set 28"),
        ("lend 24", "lent 24"),
        ("lend 216 1", "lent 216"),
        ("replace", "refused 7 11 10"),
        ("lend 192 1", "lent 192"),
        ("replace", "refused 7 8 9"),
        ("lend 240 1", "lent 240"),
        ("replace", "edition 1 tags 4"),
        ("lend 23", "lent 23"),
        ("replace", "refused 7 0 1"),
    ]);
}

#[test]
fn the_greatest_sets_need_479_slots_in_either_table() {
    // Bit i of a tag's number is spelt by byte i in all its bits.
    let spelt = |tag: usize| (0..4).map(move |i| if tag >> i & 1 == 1 { 255 } else { 0 });
    let bytes = |tag: usize| spelt(tag).chain([b'Q'; 28]).collect::<Vec<u8>>();
    let makers: [fn(Vec<u8>) -> Tag; 2] = [Tag::exact, Tag::folded];
    for (table, maker) in makers.into_iter().enumerate() {
        let tags: Vec<Tag> = (0..16).map(|tag| maker(bytes(tag))).collect();
        let set = write_tags(&tags);
        let mut slots = [1, 1];
        slots[table] = 479;
        let mut tables = slots.map(|s| vec![0; 24 * s]);
        assert_eq!(build_in(Layout::Split, &set, &mut tables), Ok(16));
        tables[table].pop();
        let refused = Err((7, vec![8 * table as u64, 479]));
        assert_eq!(build_in(Layout::Split, &set, &mut tables), refused);
    }
}

#[test]
fn unused_slots_and_numbers_behind_the_last_in_both_tables() {
    let mut calls = built("\"abc\" ~\"abc\"", 2, [4, 4]);
    calls.push(call("set \"a\" ~\"a\"", "set 10"));
    // 71 numbers are 2 slots: 48 numbers, and 23 beyond the last slot.
    for table in 0..2 {
        calls.push(call(&format!("lend 71 {table}"), "lent 71"));
        calls.push(call(&format!("poke 48 5 {table}"), "poked 48"));
        calls.push(call(&format!("poke 70 6 {table}"), "poked 70"));
        calls.push(call(&format!("poke 71 7 {table}"), "poked 71"));
    }
    calls.push(call("build split", "tags 2"));
    for (table, vector) in [(0, 1), (1, 2)] {
        let numbers = format!("numbers 1 0 0 1 0 {vector} 5");
        calls.push(call(&format!("peek 42 7 {table}"), &numbers));
        calls.push(call(&format!("peek 70 2 {table}"), "numbers 6 7"));
    }
    // A table of four slots again: two of them unused.
    calls.push(call("lend 96 1", "lent 96"));
    calls.push(call("build split", "tags 2"));
    let numbers = "numbers 0 1 0 0 1 2 0 0 0 0 0 0 1";
    calls.push(call("peek 0 13 1", numbers));
    calls.push(call("peek 84 12 1", "numbers 1 0 0 1 0 2 0 0 0 0 0 0"));
    check_calls(&calls);
}

#[test]
fn whole_and_bitmap_have_table_0_alone() {
    check(&[
        ("set \"a\"", "set 5"),
        ("poke 0 9 1", "poked 0"),
        ("lend 0 1", "lent 0"),
        ("lend 771", "lent 771"),
        ("build bitmap", "tags 1"),
        (
            "read bitmap 0 2 0 \"a\"",
            "taken 1 stop ALL records 1 moves 0 place 1|list 1 0",
        ),
        ("build whole", "tags 1"),
        (
            "read whole 0 2 0 \"A\"",
            "taken 1 stop ALL records 0 place 0|list 7 7",
        ),
        ("peek 0 2 1", "numbers 9 0"),
        ("build split", "refused 7 8 1"),
        // What is lent of table 0 is no matter to table 1.
        ("lend 24 1", "lent 24"),
        ("lend 0", "lent 0"),
        ("build whole", "refused 7 254 2"),
        ("build split", "refused 7 0 2"),
    ]);
}
