//! The refusals that only a desk of great age can give.

use super::*;
use crate::set::{write_set, write_tags, Tag};

/// A table of 10 slots.
const TEN_SLOTS: usize = 240;

/// A desk with the tag "a", and its tables.
fn desk_and_tables() -> (Desk, [Vec<u16>; 2]) {
    let mut desk = Desk::new();
    let mut tables = [vec![0; TEN_SLOTS], vec![0; TEN_SLOTS]];
    let replaced = desk.replace(&write_set(&["a"]), lent(&mut tables));
    assert_eq!(replaced, Ok((Edition(1), 1)));
    (desk, tables)
}

/// All of both tables.
fn lent(tables: &mut [Vec<u16>; 2]) -> [&mut [u16]; 2] {
    tables.each_mut().map(Vec::as_mut_slice)
}

#[test]
fn edition_is_refused_at_the_largest_alone() {
    let (mut desk, mut tables) = desk_and_tables();
    desk.edition = Edition(u32::MAX - 1);
    let set = write_tags(&[Tag::exact("b"), Tag::folded("c")]);
    let replaced = desk.replace(&set, lent(&mut tables));
    assert_eq!(replaced, Ok((Edition(u32::MAX), 2)));
    let (before, numbers) = (desk.clone(), tables.clone());
    let other = write_tags(&[Tag::folded("d"), Tag::exact("d")]);
    let replaced = desk.replace(&other, lent(&mut tables));
    assert_eq!(replaced, Err(Refusal::Edition));
    assert_eq!((&desk, &tables), (&before, &numbers));
    // Set faults and TABLE come first.
    let replaced = desk.replace(&[], lent(&mut tables));
    assert_eq!(replaced, Err(Refusal::Empty { entry: 0 }));
    for (short_table, machine) in [(0, 0), (1, 8)] {
        let mut lent = lent(&mut tables);
        let whole = std::mem::take(&mut lent[short_table]);
        lent[short_table] = &mut whole[..24];
        let (replaced, states) = (desk.replace(&other, lent), 2);
        assert_eq!(replaced, Err(Refusal::Table { machine, states }));
    }
    assert_eq!((&desk, &tables), (&before, &numbers));
}

#[test]
fn serial_is_refused_at_the_largest_alone() {
    let (mut desk, _) = desk_and_tables();
    desk.serial = Serial(u32::MAX - 1);
    assert_eq!(desk.open(), Ok(Serial(u32::MAX)));
    let before = desk.clone();
    assert_eq!(desk.open(), Err(Refusal::Serial));
    assert_eq!(desk, before);
    // NO SET comes before SERIAL.
    desk.edition = Edition(0);
    assert_eq!(desk.open(), Err(Refusal::NoSet));
}

#[test]
fn serial_comes_before_no_room() {
    let (mut desk, _) = desk_and_tables();
    for _ in 0..MOST_TICKETS {
        assert!(desk.open().is_ok());
    }
    assert_eq!(desk.open(), Err(Refusal::NoRoom));
    desk.serial = Serial(u32::MAX);
    assert_eq!(desk.open(), Err(Refusal::Serial));
}

#[test]
fn long_is_refused_past_the_largest_count_alone() {
    let (mut desk, tables) = desk_and_tables();
    let both = tables.each_ref().map(Vec::as_slice);
    assert_eq!(desk.open(), Ok(Serial(1)));
    desk.tickets[0].taken = u32::MAX - 2;
    let before = desk.clone();
    assert_eq!(desk.feed(Serial(1), b"xxa", both), Err(Refusal::Long));
    assert_eq!(desk, before);
    // A table of another slot count, the first or the second, is asked before
    // LONG.
    let fed = |taken, stop| Ok(Fed { taken, stop });
    for lent in [[&both[0][..24], both[1]], [both[0], &both[1][..24]]] {
        let damaged = desk.feed(Serial(1), b"xxa", lent);
        assert_eq!(damaged, fed(0, Stop::Damaged));
        assert_eq!(desk, before);
    }
    assert_eq!(desk.feed(Serial(1), b"xa", both), fed(2, Stop::All));
    assert_eq!(desk.take().map(|record| record.end), Ok(u32::MAX));
    assert_eq!(desk.feed(Serial(1), b"a", both), Err(Refusal::Long));
    assert_eq!(desk.feed(Serial(1), b"", both), fed(0, Stop::All));
}
