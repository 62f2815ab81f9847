//! Every refusal that the crate's calls can reach, with its number, its values and its words.
//! (EDITION and SERIAL take four billion calls; the tests over any image reach them. Their words
//! are here.)

use sleetbarley::lent::{self, LentDesk, SPLIT_TABLE};
use sleetbarley::{
    BitmapTable, Desk, Edition, Found, Gate, Refusal, Serial, SplitTable, Stop, Tag, TagSet,
    WholeTable,
};

fn assert_refused<T: std::fmt::Debug>(said: Result<T, Refusal>, number: u32, values: &[u64]) {
    let refusal = said.expect_err("a refusal");
    assert_eq!((refusal.number(), &refusal.values()[..]), (number, values));
    let words = refusal.to_string();
    let begins = format!("refused with {number}, {}: ", refusal.name());
    assert!(
        words.starts_with(&begins) && words.len() > begins.len(),
        "{words}"
    );
    let _: &dyn std::error::Error = &refusal;
}

fn open_desk(tags: &[&str]) -> (Desk, Serial) {
    let mut desk = Desk::new();
    desk.replace(&TagSet::new(tags).expect("a lawful set"))
        .expect("accepted");
    let serial = desk.open().expect("a ticket");
    (desk, serial)
}

fn entry(length: u16, kind: u16, payload: &[u8]) -> Vec<u8> {
    let head = [length.to_le_bytes(), kind.to_le_bytes()].concat();
    [&head, payload].concat()
}

/// Sets with the number of their refusal and its entry.
fn faulty_sets() -> Vec<(Vec<u8>, u32, u64)> {
    let (he, folded) = (entry(2, 1, b"he"), entry(2, 2, b"hE"));
    let seventeen = (0..17).flat_map(|k| entry(1, 1, &[k])).collect();
    vec![
        (vec![], 5, 0),
        ([&he[..], &[1, 0, 1]].concat(), 1, 1),
        (entry(3, 1, b"he"), 1, 0),
        (seventeen, 2, 16),
        ([&he[..], &entry(2, 3, b"it")].concat(), 3, 1),
        (entry(2, 0, b"it"), 3, 0),
        (entry(0, 1, b""), 4, 0),
        (entry(33, 1, &[7; 33]), 4, 0),
        ([&he[..], &entry(1, 1, b"x"), &he].concat(), 6, 2),
        ([&folded[..], &entry(3, 2, b"he")].concat(), 1, 1),
        ([&folded[..], &entry(0, 2, b"")].concat(), 4, 1),
        ([&folded[..], &entry(33, 2, &[7; 33])].concat(), 4, 1),
        ([&folded[..], &he, &entry(2, 2, b"He")].concat(), 6, 2),
    ]
}

#[test]
fn sets_are_refused_by_the_builder_and_by_replace_alike() {
    for (bytes, number, value) in faulty_sets() {
        assert_refused(TagSet::from_bytes(bytes.clone()), number, &[value]);
        let mut desk = Desk::new();
        assert_refused(desk.replace_bytes(&bytes), number, &[value]);
        assert_refused(Gate::new().replace_bytes(&bytes), number, &[value]);
        assert_eq!(
            (desk.edition(), desk.tables().concat().iter().max()),
            (Edition(0), Some(&0))
        );
        let (mut table, mut second) = (vec![7; lent::WHOLE_TABLE], vec![7; SPLIT_TABLE]);
        let split = lent::build_split(&bytes, &mut table, &mut second);
        assert_refused(split, number, &[value]);
        // The layouts of one machine take kind 1 alone, so there a folded tag is the first fault.
        let (number, value) = match bytes.get(2) {
            Some(2) => (3, 0),
            _ => (number, value),
        };
        assert_refused(lent::build_whole(&bytes, &mut table), number, &[value]);
        assert_refused(lent::build_bitmap(&bytes, &mut table), number, &[value]);
        assert!(table.iter().chain(&second).all(|number| *number == 7));
    }
    assert_refused(TagSet::new([[7u8; 70_000]]), 4, &[0]);
    assert_refused(TagSet::new([[7u8; 65_536 + 5]]), 4, &[0]);
    assert_refused(TagSet::new::<[&str; 0]>([]), 5, &[0]);
}

#[test]
fn short_tables_are_refused_and_left_as_they_were() {
    let set = TagSet::new(["he", "she", "his", "hers"]).expect("a lawful set");
    assert_refused(Desk::with_slots([9, 1]).replace(&set), 7, &[3, 10]);
    assert_refused(Desk::with_slots([0, 0]).replace(&set), 7, &[0, 9]);
    // Slots of 0 count as 1, which a table without tags needs.
    assert!(Desk::with_slots([10, 0]).replace(&set).is_ok());
    let mut short = vec![7; 10 * 257 - 1];
    assert_refused(lent::build_whole(set.as_bytes(), &mut short), 7, &[254, 10]);
    assert_refused(
        lent::build_bitmap(set.as_bytes(), &mut short[..189]),
        7,
        &[253, 10],
    );
    let mut second = vec![7; 24];
    let split = lent::build_split(set.as_bytes(), &mut short[..239], &mut second);
    assert_refused(split, 7, &[3, 10]);
    let split = lent::build_split(set.as_bytes(), &mut short[..240], &mut second[..23]);
    assert_refused(split, 7, &[8, 1]);
    assert!(short.iter().chain(&second).all(|number| *number == 7));
    let longest = Desk::with_slots([usize::MAX; 2]);
    assert_eq!(longest.tables().map(<[u16]>::len), [513 * 24; 2]);
}

#[test]
fn a_short_table_is_named() {
    let words = |machine, states| Refusal::Table { machine, states }.to_string();
    let cases = [
        (
            7,
            9,
            "machine 7 needs 9 slots, and the first table, for exact tags, has fewer",
        ),
        (
            8,
            9,
            "machine 8 needs 9 slots, and the second table, for folded tags, has fewer",
        ),
        (
            254,
            10,
            "machine 254 needs 10 slots, and the table has fewer",
        ),
        (
            8,
            1,
            "machine 8 needs a slot, also where no tag is its own, and the second table, for \
             folded tags, has none",
        ),
    ];
    for (machine, states, expected) in cases {
        let expected = format!("refused with 7, TABLE: {expected}");
        assert_eq!(words(machine, states), expected);
    }
}

#[test]
fn serials_that_name_no_ticket_are_refused() {
    let (mut desk, first) = open_desk(&["he"]);
    for serial in [0, 2, 7, u32::MAX] {
        assert_refused(desk.feed(Serial(serial), b"he"), 12, &[]);
        assert_refused(desk.close(Serial(serial)), 12, &[]);
    }
    desk.close(first).expect("open");
    assert_refused(desk.feed(first, b"he"), 12, &[]);
    assert_refused(desk.close(first), 12, &[]);
    assert_eq!((desk.open(), desk.held()), (Ok(Serial(2)), 0));
}

#[test]
fn the_desks_other_refusals() {
    assert_refused(Desk::new().open(), 9, &[]);
    assert_refused(Desk::new().take(), 16, &[]);
    let (mut desk, first) = open_desk(&["he"]);
    for _ in 1..16 {
        desk.open().expect("16 rooms");
    }
    assert_refused(desk.open(), 11, &[]);
    desk.replace(&TagSet::new(["he"]).expect("lawful"))
        .expect("accepted");
    assert_refused(desk.open(), 11, &[]);
    assert_refused(desk.feed(first, b"he"), 13, &[1]);
    assert!(desk
        .tickets()
        .iter()
        .all(|ticket| ticket.stale && ticket.taken == 0));
    desk.close(first).expect("a stale ticket closes");
    assert_eq!(desk.open(), Ok(Serial(17)));
}

#[test]
fn reads_outside_the_desk_are_refused() {
    let set = TagSet::new(["he", "she"]).expect("lawful");
    let split = SplitTable::build(&set).expect("slots enough");
    let whole = WholeTable::build(&set).expect("slots enough");
    let bitmap = BitmapTable::build(&set).expect("slots enough");
    let mut list = [7; 8];
    // Each half of a place has its own bound: the second table has one slot.
    for (machine, table) in [(0, 0), (7, 0), (8, 1), (15, 1)] {
        let mut outside = lent::SPLIT_START;
        outside[machine] = set.split_slots()[table] as u16;
        assert_refused(split.read(outside, 0, b"she", &mut list), 15, &[]);
        outside[machine] -= 1;
        assert!(split.read(outside, 0, b"", &mut list).is_ok());
    }
    let states = set.whole_slots().expect("exact tags") as u16;
    assert_refused(whole.read(states, 0, b"she", &mut list), 15, &[]);
    assert_refused(
        split.read(lent::SPLIT_START, u32::MAX - 2, b"ushe", &mut list),
        14,
        &[],
    );
    assert_refused(whole.read(0, u32::MAX, b"u", &mut list), 14, &[]);
    let states = set.bitmap_slots().expect("exact tags") as u16;
    assert_refused(bitmap.read(states, u32::MAX, b"she", &mut list), 15, &[]);
    assert_refused(bitmap.read(0, u32::MAX, b"u", &mut list), 14, &[]);
    assert_eq!(list, [7; 8]);
    let last = split.read(lent::SPLIT_START, u32::MAX - 3, b"she", &mut list);
    let last = last.expect("it just fits");
    let ends: Vec<Found> = last.found(&list).collect();
    let found = |tag| Found {
        end: u32::MAX,
        tag: Tag(tag),
    };
    assert_eq!((last.stop, ends), (Stop::All, vec![found(0), found(1)]));
}

#[test]
fn a_lent_table_that_was_changed_stops_the_feed_and_nothing_else() {
    let (mut first, mut second) = (vec![0; SPLIT_TABLE], vec![0; SPLIT_TABLE]);
    let mut desk = LentDesk::new();
    let set = TagSet::new(["he"]).expect("lawful");
    desk.replace(set.as_bytes(), &mut first, &mut second)
        .expect("accepted");
    let serial = desk.open().expect("a ticket");
    let before = desk.clone();
    let damaged = |taken| sleetbarley::Fed {
        taken,
        stop: Stop::Damaged,
        records: 0,
    };
    for length in [0, 23, 24, SPLIT_TABLE - 1, 10 * 24] {
        let short = desk.feed(serial, &first[..length], &second, b"he");
        assert_eq!(short, Ok(damaged(0)));
        let short = desk.feed(serial, &first, &second[..length], b"he");
        assert_eq!(short, Ok(damaged(0)));
    }
    let (kept, wild) = (first.clone(), vec![u16::MAX; second.len()]);
    first[..3].fill(u16::MAX);
    assert_eq!(desk.feed(serial, &first, &second, b"he"), Ok(damaged(0)));
    assert_eq!(desk.feed(serial, &kept, &wild, b"he"), Ok(damaged(0)));
    assert!(desk == before);
    let mended = desk.feed(serial, &kept, &second, b"he");
    assert_eq!(mended.map(|fed| fed.records), Ok(1));
}

#[test]
fn at_the_last_number_approvals_are_held_and_no_gate_is_started_anew() {
    let words = [Refusal::Edition, Refusal::Serial].map(|refusal| refusal.to_string());
    let expected = [
        "refused with 8, EDITION: no edition is left, and the set isn't in force: hold all \
         approvals until the process is restarted with this list in force",
        "refused with 10, SERIAL: no serial is left: hold all approvals until the process is \
         restarted with the list in force",
    ];
    assert_eq!(words, expected);
}
