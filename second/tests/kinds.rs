//! The kinds of tag: folding, and sets of both kinds in each layout.

mod helpers;

use helpers::*;
use second::kind::{fold, Kind, KINDS};
use second::layout::Layout;
use second::set::{read_set, write_entry, write_tags, Tag};

/// The number of tags, or the refusal's number and values.
type Said = Result<usize, (u32, Vec<u64>)>;

/// What a layout says of a set.
fn read(layout: Layout, set: &[u8]) -> Said {
    let set = read_set(set, layout.kinds()).map_err(told)?;
    Ok(set.tags().len())
}

/// The layouts that take tags of kind 1 alone.
const EXACT_ALONE: [Layout; 2] = [Layout::Whole, Layout::Bitmap];

/// What the split layout says of a set, and what the others do.
fn check_set(parts: &[&[u8]], split: Said, others: Said) {
    let set = parts.concat();
    assert_eq!(read(Layout::Split, &set), split);
    for layout in EXACT_ALONE {
        assert_eq!(read(layout, &set), others, "{layout:?}");
    }
}

fn refused(number: u32, entry: u64) -> Said {
    Err((number, vec![entry]))
}

#[test]
fn folding_takes_the_26_letters_and_nothing_else() {
    let upper = b"ABCDEFGHIJKLMNOPQRSTUVWXYZ";
    let lower = b"abcdefghijklmnopqrstuvwxyz";
    for byte in 0..=255u8 {
        let letter = upper.iter().position(|letter| *letter == byte);
        let folded = letter.map_or(byte, |at| lower[at]);
        assert_eq!(fold(byte), folded, "{byte}");
        assert_eq!(Kind::Exact.reads(byte), byte);
        assert_eq!(Kind::Folded.reads(byte), folded);
    }
}

#[test]
fn the_table_of_kinds() {
    let rows = KINDS.map(|row| (row.kind, row.number, row.shortest, row.longest));
    assert_eq!(rows, [(Kind::Exact, 1, 1, 32), (Kind::Folded, 2, 1, 32)]);
    for kind in [Kind::Exact, Kind::Folded] {
        assert_eq!(kind.row().kind, kind);
    }
}

#[test]
fn a_tag_of_kind_2_is_taken_by_the_split_layout_alone() {
    let (exact, folded) = (write_entry(1, b"he"), write_entry(2, b"he"));
    check_set(&[&folded], Ok(1), refused(3, 0));
    check_set(&[&exact, &folded], Ok(2), refused(3, 1));
    check_set(&[&folded, &exact], Ok(2), refused(3, 0));
    check_set(
        &[&exact, &write_entry(3, b"he")],
        refused(3, 1),
        refused(3, 1),
    );
}

#[test]
fn entries_of_kind_2_are_tested_in_the_same_order() {
    let exact = write_entry(1, b"he");
    for length in [0, 33, 256] {
        let folded = write_entry(2, &vec![b'a'; length]);
        check_set(&[&exact, &folded], refused(4, 1), refused(3, 1));
    }
    for length in [1, 32] {
        let folded = write_entry(2, &vec![b'a'; length]);
        check_set(&[&exact, &folded], Ok(2), refused(3, 1));
    }
    // A cut payload comes after KIND and LENGTH, a cut front before.
    check_set(&[&exact, &[2, 0, 2, 0, 9]], refused(1, 1), refused(3, 1));
    check_set(&[&exact, &[33, 0, 2, 0, 9]], refused(4, 1), refused(3, 1));
    check_set(&[&exact, &[1, 0, 2]], refused(1, 1), refused(1, 1));
    // Both bytes of the kind count.
    check_set(&[&exact, &[1, 0, 2, 2, 9]], refused(3, 1), refused(3, 1));
}

#[test]
fn many_is_of_all_tags_whatever_their_kinds() {
    let tags = |kinds: [Kind; 2], count: u8| -> Vec<u8> {
        let tag = |k: u8| Tag {
            kind: kinds[usize::from(k % 2)],
            bytes: vec![k, b'x'],
        };
        write_tags(&(0..count).map(tag).collect::<Vec<Tag>>())
    };
    let (mixed, exact) = ([Kind::Exact, Kind::Folded], [Kind::Exact; 2]);
    check_set(&[&tags(mixed, 16)], Ok(16), refused(3, 1));
    check_set(&[&tags(mixed, 17)], refused(2, 16), refused(3, 1));
    // Before KIND, so that a 17th of kind 2 is MANY in every layout.
    let folded = write_entry(2, b"he");
    check_set(&[&tags(exact, 16), &folded], refused(2, 16), refused(2, 16));
    let front = &folded[..3];
    check_set(&[&tags(exact, 16), front], refused(1, 16), refused(1, 16));
}

#[test]
fn repeat_is_of_one_kind_and_after_folding_where_it_is_folded() {
    let said = |tags: &[Tag]| read(Layout::Split, &write_tags(tags));
    let (exact, folded) = (|tag: &str| Tag::exact(tag), |tag: &str| Tag::folded(tag));
    assert_eq!(said(&[folded("he"), folded("he")]), refused(6, 1));
    assert_eq!(said(&[folded("he"), folded("HE")]), refused(6, 1));
    assert_eq!(said(&[folded("hE"), folded("He")]), refused(6, 1));
    assert_eq!(said(&[exact("he"), exact("HE")]), Ok(2));
    assert_eq!(said(&[exact("he"), exact("he")]), refused(6, 1));
    assert_eq!(said(&[exact("he"), folded("he")]), Ok(2));
    assert_eq!(said(&[folded("HE"), exact("he")]), Ok(2));
    // Bytes beside the letters are no letters.
    for (one, other) in [("@", "`"), ("[", "{"), ("a@", "A`"), ("\\", "|")] {
        assert_eq!(said(&[folded(one), folded(other)]), Ok(2), "{one} {other}");
    }
    let high = |byte: u8| Tag::folded(vec![byte]);
    assert_eq!(said(&[high(0xc1), high(0xe1)]), Ok(2));
    // The lowest-numbered that equals an earlier one of its kind.
    let tags = [folded("a"), exact("A"), exact("a"), folded("A"), exact("a")];
    assert_eq!(said(&tags), refused(6, 3));
    let tags = [folded("a"), exact("A"), exact("A"), folded("A")];
    assert_eq!(said(&tags), refused(6, 2));
    assert_eq!(
        said(&[folded("a"), folded("AA"), folded("Aa")]),
        refused(6, 2)
    );
}

#[test]
fn repeat_only_after_every_entry_has_passed() {
    let twice = write_tags(&[Tag::folded("a"), Tag::folded("A")]);
    check_set(&[&twice], refused(6, 1), refused(3, 0));
    check_set(&[&twice, &[1]], refused(1, 2), refused(3, 0));
    let bad = write_entry(3, b"b");
    check_set(&[&twice, &bad], refused(3, 2), refused(3, 0));
}

#[test]
fn every_building_of_a_script_meets_its_kinds() {
    check(&[
        ("set \"he\" ~\"She\"", "set 13"),
        ("build split", "tags 2"),
        ("build whole", "refused 3 1"),
        ("build bitmap", "refused 3 1"),
        ("replace", "edition 1 tags 2"),
        ("set ~\"he\" ~\"HE\"", "set 12"),
        ("build split", "refused 6 1"),
        ("build whole", "refused 3 0"),
        ("build bitmap", "refused 3 0"),
        ("replace", "refused 6 1"),
        ("set ~\"\"", "set 4"),
        ("replace", "refused 4 0"),
        ("build whole", "refused 3 0"),
        ("set x0200030068650200", "set 8"),
        ("replace", "refused 3 0"),
        ("build bitmap", "refused 3 0"),
    ]);
}
