//! Each refusal by its exact condition and its nearest non-condition.
//! EDITION (8), SERIAL (10) and the desk's LONG (14) are tested beside the
//! desk, where its counters can be set.

mod helpers;

use helpers::*;
use second::layout::Layout;
use second::set::{read_set, write_entry, write_set};

/// What reading the set of these parts, one after another, gives in a layout:
/// the number of tags, or the refusal's number and values.
fn read_in(layout: Layout, parts: &[&[u8]]) -> Result<usize, (u32, Vec<u64>)> {
    let set = read_set(&parts.concat(), layout.kinds()).map_err(told)?;
    Ok(set.tags().len())
}

/// The same where every layout says the same.
fn read(parts: &[&[u8]]) -> Result<usize, (u32, Vec<u64>)> {
    let said = read_in(Layout::Split, parts);
    for layout in [Layout::Whole, Layout::Bitmap] {
        assert_eq!(read_in(layout, parts), said, "{layout:?}");
    }
    said
}

fn refused(number: u32, entry: u64) -> Result<usize, (u32, Vec<u64>)> {
    Err((number, vec![entry]))
}

/// 16 good entries.
fn sixteen() -> Vec<u8> {
    let tags: Vec<Vec<u8>> = (0..16).map(|k| vec![k, 255]).collect();
    write_set(&tags)
}

const HE: &[u8] = &[2, 0, 1, 0, 0x68, 0x65];

#[test]
fn cut_1() {
    assert_eq!(read(&[HE]), Ok(1));
    for kept in 1..HE.len() {
        assert_eq!(read(&[&HE[..kept]]), refused(1, 0), "{kept} bytes");
        let first = write_entry(1, b"x");
        assert_eq!(read(&[&first, &HE[..kept]]), refused(1, 1), "{kept} bytes");
    }
    assert_eq!(read(&[HE, &[0]]), refused(1, 1));
    // A whole length and kind that say 32, and 31 bytes.
    assert_eq!(read(&[&[32, 0, 1, 0], &[9; 31]]), refused(1, 0));
    assert_eq!(read(&[&[32, 0, 1, 0], &[9; 32]]), Ok(1));
}

#[test]
fn many_2() {
    let full = sixteen();
    assert_eq!(read(&[&full]), Ok(16));
    for following in 1..4 {
        assert_eq!(read(&[&full, &HE[..following]]), refused(1, 16));
    }
    for following in 4..=HE.len() {
        assert_eq!(read(&[&full, &HE[..following]]), refused(2, 16));
    }
    // MANY before KIND and LENGTH, and before a repeated tag.
    assert_eq!(read(&[&full, &[0, 0, 0, 0]]), refused(2, 16));
    assert_eq!(read(&[&full, &full[..6]]), refused(2, 16));
}

#[test]
fn kind_3() {
    for kind in [0, 3, 256, 257, 258, 512, 513, 514, 65_535] {
        assert_eq!(read(&[&write_entry(kind, b"he")]), refused(3, 0));
    }
    assert_eq!(read(&[&write_entry(1, b"he")]), Ok(1));
    // KIND before LENGTH and before a cut payload.
    assert_eq!(read(&[HE, &[0, 0, 3, 0]]), refused(3, 1));
    assert_eq!(read(&[HE, &[33, 0, 3, 0]]), refused(3, 1));
    assert_eq!(read(&[HE, &[5, 0, 0, 1, 1]]), refused(3, 1));
    // The first faulty entry decides, whatever follows.
    assert_eq!(read(&[&write_entry(3, b"a"), &[0]]), refused(3, 0));
}

#[test]
fn length_4() {
    for length in [0, 33, 256] {
        let entry = write_entry(1, &vec![b'a'; length]);
        assert_eq!(read(&[&entry]), refused(4, 0), "length {length}");
    }
    for length in [1, 32] {
        let entry = write_entry(1, &vec![b'a'; length]);
        assert_eq!(read(&[&entry]), Ok(1), "length {length}");
    }
    // LENGTH before a cut payload; both bytes of the length count.
    assert_eq!(read(&[HE, &[33, 0, 1, 0]]), refused(4, 1));
    assert_eq!(read(&[HE, &[1, 1, 1, 0, 9]]), refused(4, 1));
    assert_eq!(read(&[HE, &[0, 0, 1, 0], &[1]]), refused(4, 1));
}

#[test]
fn empty_5() {
    assert_eq!(read(&[]), refused(5, 0));
    assert_eq!(read(&[&[0]]), refused(1, 0));
    check(&[
        ("replace", "refused 5 0"),
        ("build split", "refused 5 0"),
        ("build whole", "refused 5 0"),
        ("build bitmap", "refused 5 0"),
        ("set \"\"", "set 4"),
        ("replace", "refused 4 0"),
    ]);
}

#[test]
fn repeat_6() {
    let set = |tags: &[&str]| read(&[&write_set(tags)]);
    assert_eq!(set(&["a", "b", "a"]), refused(6, 2));
    assert_eq!(set(&["a", "b", "aa"]), Ok(3));
    // The lowest-numbered tag equal to an earlier one.
    assert_eq!(set(&["a", "b", "b", "a"]), refused(6, 2));
    assert_eq!(set(&["a", "b", "c", "c", "a", "a"]), refused(6, 3));
    // Only after every entry has passed.
    let twice = write_set(&["a", "a"]);
    assert_eq!(read(&[&twice, &[1]]), refused(1, 2));
    assert_eq!(read(&[&twice, &write_entry(3, b"b")]), refused(3, 2));
    let mut tags: Vec<Vec<u8>> = (0..16).map(|k| vec![k]).collect();
    tags[15] = vec![3];
    assert_eq!(read(&[&write_set(&tags)]), refused(6, 15));
}

/// Building with one number too few, in any of the tables, is refused and
/// changes nothing; with just enough it is accepted, whatever lies beyond.
fn check_table(layout: Layout, tags: &[&str], slots: &[usize], machines: &[u64]) {
    let a_slot = layout.a_slot_each();
    let set = write_set(tags);
    // No state has this number.
    let enough = |s: &usize| vec![999; a_slot * s + a_slot - 1];
    let mut tables: Vec<Vec<u16>> = slots.iter().map(enough).collect();
    for (table, (s, machine)) in slots.iter().zip(machines).enumerate() {
        let mut short = tables.clone();
        short[table].truncate(a_slot * s - 1);
        let before = short.clone();
        let refused = build_in(layout, &set, &mut short);
        assert_eq!(refused, Err((7, vec![*machine, *s as u64])));
        assert_eq!(short, before);
    }
    assert_eq!(build_in(layout, &set, &mut tables), Ok(tags.len()));
    for (table, s) in tables.iter().zip(slots) {
        assert!(table[a_slot * s..].iter().all(|number| *number == 999));
        assert!(table[..a_slot * s].iter().all(|number| *number != 999));
    }
}

#[test]
fn table_7() {
    check_table(Layout::Split, &HERS, &[10, 1], &[3, 8]);
    check_table(Layout::Whole, &HERS, &[10], &[254]);
    check_table(Layout::Bitmap, &HERS, &[10], &[253]);
    check_table(Layout::Split, &["a"], &[2, 1], &[0, 8]);
    check(&[
        ("set \"he\" \"she\" \"his\" \"hers\"", "set 28"),
        // The lowest machine short of slots, not the one that needs most.
        ("lend 192", "lent 192"),
        ("replace", "refused 7 0 9"),
        ("lend 96", "lent 96"),
        ("replace", "refused 7 0 9"),
        // No slot at all.
        ("lend 23", "lent 23"),
        ("replace", "refused 7 0 9"),
        ("lend 0", "lent 0"),
        ("build split", "refused 7 0 9"),
        ("build whole", "refused 7 254 10"),
        // Set faults come first.
        ("set -", "set 0"),
        ("build whole", "refused 5 0"),
        ("show", "desk edition 0 serial 0 held 0 tickets 0"),
    ]);
}

#[test]
fn no_set_9_and_no_room_11() {
    let mut calls = vec![("open", "refused 9"), ("set \"a\"", "set 5")];
    calls.extend([("open", "refused 9"), ("build split", "tags 1")]);
    calls.extend([("open", "refused 9"), ("replace", "edition 1 tags 1")]);
    let serials: Vec<String> = (1..=16).map(|n| format!("serial {n}")).collect();
    calls.extend(serials.iter().map(|serial| ("open", serial.as_str())));
    calls.extend([
        ("open", "refused 11"),
        // A stale ticket holds its room until it is closed.
        ("replace", "edition 2 tags 1"),
        ("open", "refused 11"),
        ("close 16", "closed 16"),
        ("open", "serial 17"),
        ("open", "refused 11"),
    ]);
    check(&calls);
}

#[test]
fn no_ticket_12_and_stale_13() {
    check(&[
        ("feed 1 -", "refused 12"),
        ("close 1", "refused 12"),
        ("set \"a\"", "set 5"),
        ("replace", "edition 1 tags 1"),
        ("feed 1 \"a\"", "refused 12"),
        ("open", "serial 1"),
        ("feed 0 \"a\"", "refused 12"),
        ("feed 2 \"a\"", "refused 12"),
        ("feed 1 \"a\"", "taken 1 stop ALL"),
        ("replace", "edition 2 tags 1"),
        ("feed 1 \"a\"", "refused 13 1"),
        // An empty piece and a table of other slots meet the same order.
        ("feed 1 -", "refused 13 1"),
        ("lend 24", "lent 24"),
        ("feed 1 -", "refused 13 1"),
        ("open", "serial 2"),
        ("feed 3 -", "refused 12"),
        ("feed 2 -", "taken 0 stop DAMAGED"),
        ("feed 2 \"a\"", "taken 0 stop DAMAGED"),
        ("lend 11519", "lent 11519"),
        ("feed 2 \"a\"", "taken 1 stop ALL"),
        ("close 1", "closed 1"),
        ("feed 1 \"a\"", "refused 12"),
        // The record keeps the edition of its ticket.
        ("take", "record 1 1 1 0"),
        ("take", "record 2 2 1 0"),
    ]);
}

/// Tag a in a whole-byte table of 3 slots, then these calls.
fn check_whole(calls: &[(&str, &str)]) {
    let mut all = vec![("set \"a\"", "set 5"), ("lend 771", "lent 771")];
    all.push(("build whole", "tags 1"));
    all.extend_from_slice(calls);
    check(&all);
}

#[test]
fn long_14() {
    let whole = "taken 2 stop ALL records 2 place 1|list 4294967294 0 4294967295 0";
    let part = "taken 1 stop FULL records 1 place 1|list 4294967294 0";
    let none = "taken 0 stop ALL records 0 place 0|list";
    check_whole(&[
        ("read whole 4294967293 4 0 \"aa\"", whole),
        ("read whole 4294967293 2 0 \"aa\"", part),
        ("read whole 4294967294 4 0 \"aa\"", "refused 14"),
        ("read whole 4294967295 0 0 -", none),
        ("read whole 4294967295 0 0 \"b\"", "refused 14"),
    ]);
}

#[test]
fn place_15() {
    // s is 3: state 2 is unused and all its nexts are 0.
    let unused = "taken 1 stop ALL records 0 place 0|list 7 7";
    check_whole(&[
        ("read whole 0 2 2 \"a\"", unused),
        ("read whole 0 2 3 -", "refused 15"),
        ("read whole 0 2 65535 -", "refused 15"),
        // PLACE before LONG.
        ("read whole 4294967295 2 3 \"ab\"", "refused 15"),
        ("read whole 4294967295 2 2 \"ab\"", "refused 14"),
        // No slot: every place is PLACE.
        ("lend 256", "lent 256"),
        ("read whole 0 2 0 -", "refused 15"),
    ]);
}

#[test]
fn nothing_16() {
    check(&[
        ("take", "refused 16"),
        ("set \"a\"", "set 5"),
        ("replace", "edition 1 tags 1"),
        ("open", "serial 1"),
        ("feed 1 \"ba\"", "taken 2 stop ALL"),
        ("take", "record 1 1 2 0"),
        ("take", "refused 16"),
    ]);
}
