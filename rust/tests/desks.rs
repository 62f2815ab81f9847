//! Desks side by side, in several threads, and emptied in several ways.

use sleetbarley::{
    BitmapTable, Desk, Edition, Entry, Record, Serial, SplitTable, Stop, Tag, TagSet, TicketState,
    WholeTable,
};
use std::sync::mpsc::channel;
use std::thread;

const TEXT: &[u8] = b"she sells his hers, he said; ushers hear shells";

fn tags() -> TagSet {
    TagSet::new(["he", "she", "his", "hers"]).expect("a lawful set")
}

fn desk_with(set: &TagSet) -> Desk {
    let mut desk = Desk::new();
    desk.replace(set).expect("accepted");
    desk
}

/// A ticket's records for the text cut into pieces of so many bytes.
fn records_of(desk: &mut Desk, size: usize) -> Vec<(u32, Tag)> {
    let serial = desk.open().expect("a ticket");
    let mut ends = Vec::new();
    for piece in TEXT.chunks(size) {
        let each = |record: Record| ends.push((record.end, record.tag));
        desk.feed_all(serial, piece, each).expect("read");
    }
    desk.close(serial).expect("open");
    ends
}

/// The occurrences by comparing bytes, end by end and tag by tag.
fn occurrences(set: &TagSet, text: &[u8]) -> Vec<(u32, Tag)> {
    let ends = |end: usize| {
        let ended = move |(_, tag): &(u8, Entry)| text[..end].ends_with(tag.bytes());
        let found = (0..).zip(set.tags()).filter(ended);
        found.map(move |(tag, _)| (end as u32, Tag(tag)))
    };
    (1..=text.len()).flat_map(ends).collect()
}

#[test]
fn records_are_the_occurrences_however_the_text_is_cut() {
    let mut desk = desk_with(&tags());
    let expected = occurrences(&tags(), TEXT);
    assert!(expected.len() > 10);
    for size in 1..=TEXT.len() {
        assert_eq!(records_of(&mut desk, size), expected, "pieces of {size}");
    }
}

#[test]
fn tables_outside_find_what_the_desk_finds() {
    let text = TEXT.repeat(40);
    let expected = occurrences(&tags(), &text);
    assert!(expected.len() > 256);
    let split = SplitTable::build(&tags()).expect("slots enough");
    let whole = WholeTable::build(&tags()).expect("slots enough");
    let bitmap = BitmapTable::build(&tags()).expect("slots enough");
    let pairs = |found: Vec<sleetbarley::Found>| -> Vec<(u32, Tag)> {
        found.iter().map(|found| (found.end, found.tag)).collect()
    };
    assert_eq!(pairs(split.find_all(&text).expect("read")), expected);
    assert_eq!(pairs(whole.find_all(&text).expect("read")), expected);
    assert_eq!(pairs(bitmap.find_all(&text).expect("read")), expected);
}

#[test]
fn two_desks_side_by_side_have_nothing_in_common() {
    let sets = [tags(), TagSet::new(["ell", "sh"]).expect("lawful")];
    let alone = sets.clone().map(|set| records_of(&mut desk_with(&set), 5));
    let mut both = sets.map(|set| desk_with(&set));
    let serials = [both[0].open(), both[1].open()].map(|serial| serial.expect("a ticket"));
    let mut ends = [Vec::new(), Vec::new()];
    for piece in TEXT.chunks(5) {
        for (desk, ends) in both.iter_mut().zip(&mut ends) {
            let each = |record: Record| ends.push((record.end, record.tag));
            desk.feed_all(Serial(1), piece, each).expect("read");
        }
    }
    assert_eq!((serials, ends), ([Serial(1); 2], alone));
}

#[test]
fn a_desk_goes_on_in_another_thread() {
    let mut desk = desk_with(&tags());
    let expected = records_of(&mut desk.clone(), TEXT.len());
    let serial = desk.open().expect("a ticket");
    let (sender, receiver) = channel::<Desk>();
    let (front, rest) = TEXT.split_at(20);
    assert_eq!(desk.feed(serial, front).expect("read").stop, Stop::All);
    let other = thread::spawn(move || {
        let mut desk = receiver.recv().expect("the desk");
        assert_eq!(desk.feed(serial, rest).expect("read").stop, Stop::All);
        desk
    });
    sender.send(desk).expect("the other thread waits");
    let mut desk = other.join().expect("no panic");
    let ends: Vec<(u32, Tag)> = desk
        .drain()
        .map(|record| (record.end, record.tag))
        .collect();
    assert_eq!(ends, expected);
}

#[test]
fn desks_work_in_many_threads_at_once() {
    let expected = occurrences(&tags(), TEXT);
    let work = |size: usize| {
        let mut desk = desk_with(&tags());
        (0..200).map(|_| records_of(&mut desk, size)).last()
    };
    let threads: Vec<_> = (1..=4)
        .map(|size| thread::spawn(move || work(size)))
        .collect();
    for thread in threads {
        assert_eq!(thread.join().expect("no panic").as_ref(), Some(&expected));
    }
}

#[test]
fn a_full_list_stops_a_feed_until_records_are_taken() {
    let mut desk = desk_with(&TagSet::new(["a", "aa"]).expect("lawful"));
    let serial = desk.open().expect("a ticket");
    let fed = desk.feed(serial, &[b'a'; 200]).expect("read");
    // 1 record for the first byte and 2 for each other: 255 after 128 bytes, and no room for 2.
    assert_eq!((fed.taken, fed.stop, fed.records), (128, Stop::Full, 255));
    assert_eq!(desk.feed(serial, b"a").expect("read").taken, 0);
    // A byte with one match or none still finds room.
    let other = desk.open().expect("a ticket");
    let fed = desk.feed(other, b"xab").expect("read");
    assert_eq!((fed.taken, fed.stop, fed.records), (3, Stop::All, 1));
    assert_eq!(desk.held(), 256);
    assert_eq!(
        desk.take().map(|record| (record.end, record.tag)),
        Ok((1, Tag(0)))
    );
}

#[test]
fn a_drain_that_is_dropped_early_loses_no_record() {
    let mut desk = desk_with(&tags());
    let serial = desk.open().expect("a ticket");
    assert_eq!(desk.feed(serial, TEXT).expect("read").stop, Stop::All);
    let mut copy = desk.clone();
    let all = copy.take_all();
    assert_eq!((desk.held(), desk.drain().len()), (all.len(), all.len()));
    let mut ends: Vec<Record> = desk.drain().take(3).collect();
    assert_eq!(desk.held(), all.len() - 3);
    ends.extend(desk.drain());
    assert_eq!(
        (ends, copy.take_all(), desk.drain().next()),
        (all, vec![], None)
    );
}

#[test]
fn records_keep_the_edition_of_their_ticket_through_a_replacement() {
    let mut desk = desk_with(&tags());
    let serial = desk.open().expect("a ticket");
    assert_eq!(desk.feed(serial, b"hers").expect("read").records, 2);
    desk.replace(&TagSet::new(["ers"]).expect("lawful"))
        .expect("accepted");
    let later = desk.open().expect("a ticket");
    assert_eq!(desk.feed(later, b"hers").expect("read").records, 1);
    let said: Vec<(u32, u32, u32, u8)> = desk
        .drain()
        .map(|r| (r.serial.0, r.edition.0, r.end, r.tag.0))
        .collect();
    assert_eq!(said, [(1, 1, 2, 0), (1, 1, 4, 3), (2, 2, 4, 0)]);
}

#[test]
fn a_serial_has_a_state() {
    let mut desk = desk_with(&tags());
    let (first, second) = (
        desk.open().expect("a ticket"),
        desk.open().expect("a ticket"),
    );
    assert_eq!(desk.feed(first, b"ush").expect("read").taken, 3);
    let edition = Edition(1);
    assert_eq!(desk.state(first), TicketState::Open { edition, taken: 3 });
    assert_eq!(desk.state(second), TicketState::Open { edition, taken: 0 });
    for serial in [0, 3, u32::MAX] {
        assert_eq!(desk.state(Serial(serial)), TicketState::Never);
    }
    desk.replace(&tags()).expect("accepted");
    assert_eq!(desk.state(first), TicketState::Stale { edition, taken: 3 });
    desk.close(first).expect("a stale ticket closes");
    assert_eq!(desk.state(first), TicketState::Closed);
    assert_eq!(desk.state(second), TicketState::Stale { edition, taken: 0 });
}

#[test]
fn the_sets_of_tickets_in_use_and_of_held_records_are_kept() {
    let mut desk = desk_with(&TagSet::new(["one"]).expect("lawful"));
    let next = |desk: &mut Desk, tag: &str| {
        let set = TagSet::new([tag]).expect("lawful");
        desk.replace(&set).expect("accepted");
    };
    let bytes = |desk: &Desk, edition| {
        let tag = desk.tag(Edition(edition), Tag(0));
        tag.map(|tag| tag.bytes().to_vec())
    };
    let ticket = desk.open().expect("a ticket");
    next(&mut desk, "two");
    let other = desk.open().expect("a ticket");
    assert_eq!(desk.feed(other, b"two").expect("read").records, 1);
    desk.close(other).expect("open");
    next(&mut desk, "three");
    next(&mut desk, "four");
    // A ticket of the first, a record of the second, nothing of the third.
    assert_eq!(bytes(&desk, 1), Some(b"one".to_vec()));
    assert_eq!(bytes(&desk, 2), Some(b"two".to_vec()));
    assert_eq!(bytes(&desk, 3), None);
    assert_eq!(bytes(&desk, 4), Some(b"four".to_vec()));
    let record = desk.take().expect("held");
    assert_eq!(
        desk.tag(record.edition, record.tag),
        Some(Entry::exact("two"))
    );
    desk.close(ticket).expect("stale");
    desk.replace_bytes(TagSet::new(["five"]).expect("lawful").as_bytes())
        .expect("accepted");
    assert_eq!(
        (bytes(&desk, 1), bytes(&desk, 2), bytes(&desk, 4)),
        (None, None, None)
    );
    assert_eq!(bytes(&desk, 5), Some(b"five".to_vec()));
    assert_eq!(desk.set(Edition(5)).map(|set| set.tags().count()), Some(1));
}
