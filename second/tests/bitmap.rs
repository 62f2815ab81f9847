//! The bitmap layout: slots worked out by hand, refusals, stops, and tables of
//! any numbers.

mod helpers;

use helpers::*;
use second::bitmap::{prefixes, FAILURE, FIRST_CHILD, VECTOR};
use second::build::build;
use second::layout::Layout;
use second::reading::{read_outside, Stop};
use second::refusal::Refusal;
use second::set::{read_set, write_set};
use second::table::Tables;

/// Builds over one table.
fn build_over<P: AsRef<[u8]>>(tags: &[P], table: &mut [u16]) -> Result<usize, Refusal> {
    build(Layout::Bitmap, &write_set(tags), &mut [table])
}

/// The numbers of a slot: some of its map by their places, and the last three.
fn slot(map: &[(usize, u16)], child: u16, failure: u16, vector: u16) -> Vec<u16> {
    let mut slot = vec![0; 19];
    for (at, number) in map {
        slot[*at] = *number;
    }
    slot[FIRST_CHILD] = child;
    slot[FAILURE] = failure;
    slot[VECTOR] = vector;
    slot
}

/// he, she, his, hers, by hand. The bytes e, h and i (101, 104 and 105) are
/// bits 5, 8 and 9 of number 6; r and s (114, 115) bits 2 and 3 of number 7.
fn hers_by_hand() -> Vec<u16> {
    [
        slot(&[(6, 256), (7, 8)], 1, 0, 0),
        // h: he and hi.
        slot(&[(6, 32 + 512)], 3, 0, 0),
        // s: sh.
        slot(&[(6, 256)], 5, 0, 0),
        // he, tag 0: her.
        slot(&[(7, 4)], 6, 0, 1),
        // hi: his.
        slot(&[(7, 8)], 7, 0, 0),
        // sh fails to h: she.
        slot(&[(6, 32)], 8, 1, 0),
        // her: hers.
        slot(&[(7, 8)], 9, 0, 0),
        // his, tag 2, fails to s.
        slot(&[], 0, 2, 4),
        // she, tag 1, fails to he, so that tag 0 ends here too.
        slot(&[], 0, 3, 3),
        // hers, tag 3, fails to s.
        slot(&[], 0, 2, 8),
    ]
    .concat()
}

#[test]
fn slots_are_rounded_down_and_at_most_513() {
    for (length, s) in [(0, 0), (18, 0), (19, 1), (37, 1), (38, 2)] {
        assert_eq!(Layout::Bitmap.slots(length), s);
    }
    for (length, s) in [(9_746, 512), (9_747, 513), (9_766, 513), (131_841, 513)] {
        assert_eq!(Layout::Bitmap.slots(length), s);
    }
}

#[test]
fn the_slots_of_hers_are_those_worked_out_by_hand() {
    assert_eq!(tables_of(Layout::Bitmap, &HERS, 10), [hers_by_hand()]);
    // Unused slots are set to 0, numbers behind the last slot stay.
    let mut table = vec![9; 12 * 19 + 18];
    assert_eq!(build_over(&HERS, &mut table), Ok(4));
    let unused = vec![0; 2 * 19];
    assert_eq!(table, [hers_by_hand(), unused, vec![9; 18]].concat());
}

#[test]
fn a_map_has_all_256_bytes() {
    // The bytes at the edges of the map's numbers, in an order of their own.
    let tags: [&[u8]; 6] = [&[255], &[16], &[0], &[15, 240], &[15, 3], &[239]];
    let mut table = vec![9; 9 * 19];
    assert_eq!(build_over(&tags, &mut table), Ok(6));
    // States 1 to 6 are 0, 15, 16, 239 and 255; then 15 3 and 15 240.
    let map = [(0, 0x8001), (1, 1), (14, 0x8000), (15, 0x8000)];
    let by_hand = [
        slot(&map, 1, 0, 0),
        slot(&[], 0, 0, 4),
        slot(&[(0, 8), (15, 1)], 6, 0, 0),
        slot(&[], 0, 0, 2),
        slot(&[], 0, 0, 32),
        slot(&[], 0, 0, 1),
        slot(&[], 0, 0, 16),
        slot(&[], 0, 0, 8),
        slot(&[], 0, 0, 0),
    ];
    assert_eq!(table, by_hand.concat());
    let input = [255, 15, 240, 14, 239];
    let (reading, records) = read_from_start(Layout::Bitmap, &[table], &input);
    assert_eq!((reading.stop, reading.place), (Stop::All, vec![4]));
    assert_eq!(records, [(1, 0), (3, 3), (5, 5)]);
    // 255, and 15 240, have no child: each is left by a move to 0.
    assert_eq!(reading.moves, 2);
}

#[test]
fn the_greatest_set_has_513_states() {
    let tags: Vec<Vec<u8>> = (0..16u8).map(|tag| vec![tag; 32]).collect();
    let set = read_set(&write_set(&tags), Layout::Bitmap.kinds()).expect("a good set");
    let prefixes = prefixes(&set);
    assert_eq!(prefixes.len(), 513);
    assert_eq!(prefixes[17..19], [vec![0, 0], vec![1, 1]]);
    assert_eq!(prefixes[512], vec![15; 32]);
    let mut table = vec![9; 9_747];
    let refused = build_over(&tags, &mut table[..9_746]);
    let (machine, states) = (253, 513);
    assert_eq!(refused, Err(Refusal::Table { machine, states }));
    assert!(table.iter().all(|number| *number == 9));
    assert_eq!(build_over(&tags, &mut table), Ok(16));
}

/// he, she, his, hers in a bitmap table of 10 slots, then these calls.
fn check_hers(calls: &[(&str, &str)]) {
    let mut all = vec![("set \"he\" \"she\" \"his\" \"hers\"", "set 28")];
    all.extend([("lend 208", "lent 208"), ("build bitmap", "tags 4")]);
    all.extend_from_slice(calls);
    check(&all);
}

#[test]
fn reads_of_a_script() {
    let whole = "taken 6 stop ALL records 3 moves 1 place 9|list 4 0 4 1 6 3 7 7";
    // The last byte has a match and finds no room.
    let full = "taken 2 stop FULL records 2 moves 1 place 6|list 11 0 11 1 7";
    let to_sh = "taken 1 stop ALL records 0 moves 1 place 5|list";
    let to_0 = "taken 2 stop ALL records 0 moves 2 place 0|list 7";
    check_hers(&[
        ("read bitmap 0 8 0 \"ushers\"", whole),
        ("read bitmap 10 5 5 \"ers\"", full),
        // From hers to s, where h leads to sh.
        ("read bitmap 0 0 9 \"h\"", to_sh),
        // From she to he and to the start, which keeps both bytes.
        ("read bitmap 0 1 8 \"xx\"", to_0),
        (
            "read bitmap 0 0 8 -",
            "taken 0 stop ALL records 0 moves 0 place 8|list",
        ),
    ]);
}

#[test]
fn moves_are_those_of_the_bytes_taken() {
    check(&[
        ("set \"a\" \"aa\"", "set 11"),
        ("lend 57", "lent 57"),
        ("build bitmap", "tags 2"),
        // The third byte makes a move, and has two matches.
        (
            "read bitmap 0 10 0 \"aaa\"",
            "taken 3 stop ALL records 5 moves 1 place 2|list 1 0 2 0 2 1 3 0 3 1",
        ),
        (
            "read bitmap 0 9 0 \"aaa\"",
            "taken 2 stop FULL records 3 moves 0 place 2|list 1 0 2 0 2 1 7 7 7",
        ),
        (
            "read bitmap 0 1 2 \"ba\"",
            "taken 1 stop FULL records 0 moves 2 place 0|list 7",
        ),
    ]);
}

#[test]
fn table_7_names_machine_253() {
    check_hers(&[
        ("lend 189", "lent 189"),
        ("poke 188 5", "poked 188"),
        ("build bitmap", "refused 7 253 10"),
        ("peek 188 1", "numbers 5"),
        ("lend 0", "lent 0"),
        ("build bitmap", "refused 7 253 10"),
        // Set faults come first.
        ("set -", "set 0"),
        ("build bitmap", "refused 5 0"),
        ("set \"he\" \"he\"", "set 12"),
        ("build bitmap", "refused 6 1"),
    ]);
}

#[test]
fn place_15_then_long_14() {
    check_hers(&[
        // 208 numbers are 10 slots and 18 numbers behind them.
        ("read bitmap 0 0 10 -", "refused 15"),
        ("read bitmap 0 0 65535 -", "refused 15"),
        ("read bitmap 4294967295 0 10 \"x\"", "refused 15"),
        ("read bitmap 4294967295 0 9 \"x\"", "refused 14"),
        (
            "read bitmap 4294967295 0 9 -",
            "taken 0 stop ALL records 0 moves 0 place 9|list",
        ),
        (
            "read bitmap 4294967294 2 1 \"e\"",
            "taken 1 stop ALL records 1 moves 0 place 3|list 4294967295 0",
        ),
        // No slot: every place is PLACE.
        ("lend 18", "lent 18"),
        ("read bitmap 0 0 0 -", "refused 15"),
        ("lend 19", "lent 19"),
        (
            "read bitmap 0 0 0 -",
            "taken 0 stop ALL records 0 moves 0 place 0|list",
        ),
    ]);
}

/// Tag a in a bitmap table of 3 slots, then these calls. State 0 has a (97,
/// bit 1 of number 6) and the first child 1; state 1 begins at number 19.
fn check_a(calls: &[(&str, &str)]) {
    let mut all = vec![("set \"a\"", "set 5"), ("lend 57", "lent 57")];
    all.push(("build bitmap", "tags 1"));
    all.extend_from_slice(calls);
    check(&all);
}

const A: &str = "read bitmap 0 2 0 \"a\"";
const DAMAGED: &str = "taken 0 stop DAMAGED records 0 moves 0 place 0|list 7 7";
const FOUND: &str = "taken 1 stop ALL records 1 moves 0 place 1|list 1 0";
const UNUSED: &str = "taken 1 stop ALL records 0 moves 0 place 2|list 7 7";

#[test]
fn a_next_number_not_below_s_is_damage() {
    check_a(&[
        (A, FOUND),
        ("poke 16 2", "poked 16"),
        (A, UNUSED),
        ("poke 16 3", "poked 16"),
        (A, DAMAGED),
        ("poke 16 65535", "poked 16"),
        (A, DAMAGED),
        // With a one below, the sum is 65,536; in 16 bits it would be 0.
        ("poke 0 1", "poked 0"),
        (A, DAMAGED),
        // A byte that isn't in the map needs no child.
        (
            "read bitmap 0 2 0 \"b\"",
            "taken 1 stop ALL records 0 moves 0 place 0|list 7 7",
        ),
    ]);
}

#[test]
fn numbers_behind_513_slots_are_no_slot() {
    // There is room for 600 slots, of which 513 are used.
    let last = "taken 1 stop ALL records 0 moves 0 place 512|list 7 7";
    check(&[
        ("set \"a\"", "set 5"),
        ("lend 11400", "lent 11400"),
        ("poke 9746 5", "poked 9746"),
        ("poke 9747 5", "poked 9747"),
        ("build bitmap", "tags 1"),
        ("peek 9746 2", "numbers 0 5"),
        ("poke 16 512", "poked 16"),
        (A, last),
        ("poke 16 513", "poked 16"),
        (A, DAMAGED),
        (
            "read bitmap 0 0 512 \"b\"",
            "taken 1 stop ALL records 0 moves 1 place 0|list",
        ),
        ("read bitmap 0 0 513 \"b\"", "refused 15"),
    ]);
}

#[test]
fn the_ones_below_count_and_the_others_do_not() {
    check_a(&[
        // Bit 0 of number 6 is the byte before a.
        ("poke 6 3", "poked 6"),
        (A, UNUSED),
        ("poke 6 2", "poked 6"),
        ("poke 0 32768", "poked 0"),
        (A, UNUSED),
        ("poke 5 256", "poked 5"),
        (A, DAMAGED),
        ("poke 0 0", "poked 0"),
        ("poke 5 0", "poked 5"),
        ("poke 6 65534", "poked 6"),
        ("poke 7 65535", "poked 7"),
        ("poke 15 65535", "poked 15"),
        (A, FOUND),
        // The first child may be 0, which is no failure move.
        ("poke 16 0", "poked 16"),
        (
            "read bitmap 0 2 0 \"a\"",
            "taken 1 stop ALL records 0 moves 0 place 0|list 7 7",
        ),
    ]);
}

#[test]
fn a_failure_state_not_below_its_own_is_damage() {
    let read = "read bitmap 5 2 0 \"abb\"";
    let damaged = "taken 1 stop DAMAGED records 1 moves 0 place 1|list 6 0";
    check_a(&[
        (read, "taken 3 stop ALL records 1 moves 1 place 0|list 6 0"),
        // Its own; above it, and below s; above s.
        ("poke 36 1", "poked 36"),
        (read, damaged),
        ("poke 36 2", "poked 36"),
        (read, damaged),
        ("poke 36 65535", "poked 36"),
        (read, damaged),
        // It isn't asked where the byte is in the map: a leads to 1 again.
        ("poke 25 2", "poked 25"),
        ("poke 35 1", "poked 35"),
        (
            "read bitmap 0 4 0 \"aa\"",
            "taken 2 stop ALL records 2 moves 0 place 1|list 1 0 2 0",
        ),
        // That of state 0 is never followed.
        ("poke 17 65535", "poked 17"),
        (
            "read bitmap 0 0 0 \"bb\"",
            "taken 2 stop ALL records 0 moves 0 place 0|list",
        ),
    ]);
}

#[test]
fn damage_behind_moves_takes_neither_byte_nor_moves() {
    let read = "read bitmap 0 6 5 \"ex\"";
    let damaged = "taken 1 stop DAMAGED records 2 moves 0 place 8|list 1 0 1 1 7 7";
    check_hers(&[
        // she fails to he, which fails to itself.
        ("poke 74 3", "poked 74"),
        (read, damaged),
        // r leads from he out of the table.
        ("poke 74 0", "poked 74"),
        ("poke 73 10", "poked 73"),
        (
            read,
            "taken 2 stop ALL records 2 moves 2 place 0|list 1 0 1 1 7 7",
        ),
        ("read bitmap 0 6 5 \"er\"", damaged),
    ]);
}

#[test]
fn damage_is_asked_before_room() {
    // State 0 has the bytes 0 and 1, with children 1 and 2; s is 2. State 1
    // has all 16 matches, and fails to itself.
    let numbers = [slot(&[(0, 3)], 1, 0, 0), slot(&[], 0, 1, u16::MAX)].concat();
    let lent = [numbers.as_slice()];
    let table = Tables::lent(Layout::Bitmap, &lent);
    let stops = [
        (0, 0, Stop::Full),
        (0, 1, Stop::Damaged),
        (1, 9, Stop::Damaged),
    ];
    for (place, byte, stop) in stops {
        let mut list = [7; 31];
        let reading = read_outside(table, &[place], 0, &[byte], &mut list).expect("no refusal");
        assert_eq!((reading.taken, reading.stop), (0, stop));
        assert_eq!(list, [7; 31]);
    }
}

#[test]
fn vectors_are_reported_as_the_numbers_say() {
    check_a(&[
        // State 0 has tags 0 and 15 now, and staying there finds them.
        ("poke 18 32769", "poked 18"),
        (
            "read bitmap 0 5 0 \"bb\"",
            "taken 1 stop FULL records 2 moves 0 place 0|list 1 0 1 15 7",
        ),
        ("poke 37 2", "poked 37"),
        (
            "read bitmap 0 6 0 \"ab\"",
            "taken 2 stop ALL records 3 moves 1 place 0|list 1 1 2 0 2 15",
        ),
    ]);
}

#[test]
fn a_table_of_another_layout_is_walked_as_its_numbers_say() {
    // The whole-byte slot 0 of "a" has its 1 at number 97, so slot 5 of the
    // bitmap layout has bit 0 of its number 2, which is byte 32.
    check(&[
        ("set \"a\"", "set 5"),
        ("lend 771", "lent 771"),
        ("build whole", "tags 1"),
        (
            "read bitmap 0 0 5 x20",
            "taken 1 stop ALL records 0 moves 0 place 0|list",
        ),
        (
            "read bitmap 0 0 5 x2120",
            "taken 2 stop ALL records 0 moves 1 place 0|list",
        ),
        // Number 354 = 18 * 19 + 12 is the next on a of slot 1.
        (
            "read bitmap 0 0 18 xc0c1",
            "taken 2 stop ALL records 0 moves 0 place 0|list",
        ),
        // The vector of slot 1, number 513 = 27 * 19, is map again.
        ("peek 513 1", "numbers 1"),
        (
            "read bitmap 0 0 27 x0100",
            "taken 2 stop ALL records 0 moves 1 place 0|list",
        ),
    ]);
}
