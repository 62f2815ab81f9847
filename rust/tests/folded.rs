//! Tags of both kinds: folded ones are matched in either letter case, exact ones beside them aren't,
//! and no way from one set to another loses a kind.

use sleetbarley::{
    lent, BitmapTable, Desk, Edition, Entry, Gate, Kind, Piece, Refusal, SplitTable, Tag, TagSet,
    Verdict, WholeTable,
};
use std::collections::HashSet;

/// preview-17 folded, preview-23 exact, preview-17 exact.
fn mixed() -> TagSet {
    let set = TagSet::builder().folded("preview-17").tag("preview-23");
    set.tag("preview-17").build().expect("a lawful set")
}

fn gate_with(set: &TagSet) -> Gate {
    let mut gate = Gate::new();
    gate.replace(set).expect("accepted");
    gate
}

/// The mask for which an approval of these pieces is held; 0 where it passes.
fn mask_of(gate: &mut Gate, pieces: &[&[u8]]) -> u64 {
    let serial = gate.begin().expect("room");
    for piece in pieces {
        assert_eq!(gate.piece(serial, piece), Ok(Piece::Read));
    }
    match gate.decide(serial).expect("it isn't decided yet") {
        Verdict::Pass => 0,
        Verdict::Hold(held) => held.mask(),
        other => panic!("{other}"),
    }
}

#[test]
fn a_folded_tag_is_held_in_either_case_and_an_exact_one_as_it_is() {
    let mut gate = gate_with(&mixed());
    for (text, mask) in [
        ("from preview-17", 0b101),
        ("FROM PREVIEW-17", 0b001),
        ("from pReViEw-17", 0b001),
        ("from preview-23", 0b010),
        ("FROM PREVIEW-23", 0),
        ("from Preview-23", 0),
        ("from PREVIEW-1", 0),
        ("PREVIEW-17 and preview-23", 0b011),
    ] {
        for cut in 0..=text.len() {
            let (front, rest) = text.as_bytes().split_at(cut);
            assert_eq!(
                mask_of(&mut gate, &[front, b"", rest]),
                mask,
                "{text}, cut at {cut}"
            );
        }
    }
}

#[test]
fn what_is_held_says_the_kinds() {
    let mut gate = gate_with(&mixed());
    let serial = gate.begin().expect("room");
    assert_eq!(
        gate.piece(serial, b"Preview-17, preview-17"),
        Ok(Piece::Read)
    );
    let held = match gate.decide(serial).expect("it isn't decided yet") {
        Verdict::Hold(held) => held,
        other => panic!("{other}"),
    };
    let tags: Vec<(u8, Kind, &[u8])> = held
        .tags()
        .map(|(tag, entry)| (tag.0, entry.kind(), entry.bytes()))
        .collect();
    let name = &b"preview-17"[..];
    assert_eq!(tags, [(0, Kind::Folded, name), (2, Kind::Exact, name)]);
    let words = r"\~preview-17 (tag 0 of edition 1), preview-17 (tag 2 of edition 1)";
    assert_eq!(held.to_string(), words);
    // The tags held for make a set of the same kinds.
    let set = TagSet::new(held.tags().map(|(_, entry)| entry)).expect("lawful");
    assert_eq!(set.tag(Tag(0)), Some(Entry::folded("PREVIEW-17")));
    assert_eq!(set.tag(Tag(1)), Some(Entry::exact("preview-17")));
}

/// Whether the byte of a tag of this kind is found where another stands.
fn is_found(kind: Kind, tag: u8, byte: u8) -> bool {
    match kind {
        Kind::Exact => tag == byte,
        Kind::Folded => tag.eq_ignore_ascii_case(&byte),
    }
}

#[test]
fn folding_takes_a_to_z_and_no_other_byte() {
    let all: Vec<u8> = (0..=u8::MAX).collect();
    for kind in [Kind::Exact, Kind::Folded] {
        for tag in 0..=u8::MAX {
            let set = TagSet::new([Entry::new(kind, &[tag])]).expect("lawful");
            let table = SplitTable::build(&set).expect("slots enough");
            let found = table.find_all(&all).expect("read");
            let found: Vec<u32> = found.iter().map(|found| found.end - 1).collect();
            let expected = all.iter().filter(|byte| is_found(kind, tag, **byte));
            let expected: Vec<u32> = expected.map(|byte| u32::from(*byte)).collect();
            assert_eq!(found, expected, "{kind:?} {tag}");
        }
    }
}

#[test]
fn entries_are_equal_exactly_where_the_archive_calls_them_a_repeat() {
    for kinds in [
        [Kind::Exact; 2],
        [Kind::Folded; 2],
        [Kind::Exact, Kind::Folded],
    ] {
        for one in 0..=u8::MAX {
            // Each letter's neighbours in ASCII, its other case, and what else differs in that bit.
            for other in [one, one ^ 32, one ^ 1, one.wrapping_add(1), one ^ 64] {
                let bytes = [[one], [other]];
                let entries = [
                    Entry::new(kinds[0], &bytes[0]),
                    Entry::new(kinds[1], &bytes[1]),
                ];
                let repeat = TagSet::new(entries) == Err(Refusal::Repeat { entry: 1 });
                let (first, second) = (entries[0], entries[1]);
                assert_eq!(first == second, repeat, "{first} and {second}");
                let distinct: HashSet<Entry> = entries.into_iter().collect();
                assert_eq!(distinct.len() == 1, repeat, "{first} and {second}");
            }
        }
    }
}

#[test]
fn tags_keep_their_kinds_from_one_set_to_another() {
    let set = mixed();
    assert_eq!(TagSet::new(set.tags()), Ok(set.clone()));
    let tags: Vec<Entry> = set.tags().collect();
    assert_eq!(TagSet::new(&tags), Ok(set.clone()));
    let builder = tags.iter().fold(TagSet::builder(), |set, tag| set.tag(tag));
    assert_eq!(builder.build(), Ok(set.clone()));
    assert_eq!(TagSet::from_bytes(set.as_bytes()), Ok(set.clone()));
    // By the numbers of an edition, at a gate and at a desk.
    let (gate, mut desk) = (gate_with(&set), Desk::new());
    desk.replace_bytes(set.as_bytes()).expect("accepted");
    let of_gate = (0..3).filter_map(|tag| gate.tag(Edition(1), Tag(tag)));
    assert_eq!(TagSet::new(of_gate), Ok(set.clone()));
    let of_desk = (0..3).filter_map(|tag| desk.tag(Edition(1), Tag(tag)));
    assert_eq!(TagSet::new(of_desk), Ok(set.clone()));
    assert_eq!(gate.set(Edition(1)), Some(&set));
    // Bytes alone are exact, which is to be said.
    let exact = TagSet::new(set.tags().take(2).map(Entry::bytes)).expect("lawful");
    assert!(exact.tags().all(|tag| tag.kind() == Kind::Exact));
}

#[test]
fn lists_are_joined_without_a_repeat() {
    let monday = mixed();
    let tuesday = TagSet::builder()
        .folded("Preview-17")
        .folded("preview-23")
        .tag("Preview-17");
    let tuesday = tuesday.build().expect("lawful");
    let joined = || monday.tags().chain(tuesday.tags());
    let twice = TagSet::new(joined());
    assert_eq!(twice, Err(Refusal::Repeat { entry: 3 }));
    let mut seen = HashSet::new();
    let both = TagSet::new(joined().filter(|tag| seen.insert(*tag))).expect("lawful");
    let lines: Vec<String> = both.tags().map(|tag| tag.to_string()).collect();
    let expected = [
        r"\~preview-17",
        "preview-23",
        "preview-17",
        r"\~preview-23",
        "Preview-17",
    ];
    assert_eq!(lines, expected);
}

#[test]
fn a_short_second_table_is_refused_and_named() {
    let set = TagSet::builder()
        .tag("he")
        .folded("He")
        .build()
        .expect("lawful");
    assert_eq!(set.split_slots(), [3, 3]);
    fn short<T>(machine: usize, states: usize) -> Result<T, Refusal> {
        Err(Refusal::Table { machine, states })
    }
    assert_eq!(Gate::with_slots([3, 2]).replace(&set), short(8, 3));
    assert_eq!(Gate::with_slots([3, 0]).replace(&set), short(8, 3));
    assert_eq!(Desk::with_slots([2, 2]).replace(&set), short(0, 3));
    assert!(Gate::with_slots(set.split_slots()).replace(&set).is_ok());
    // Refused, neither table is written, nor is the set in force.
    let (mut first, mut second) = (vec![7; 72], vec![7; 71]);
    let refused = lent::build_split(set.as_bytes(), &mut first, &mut second);
    assert_eq!(refused, short(8, 3));
    assert!(first.iter().chain(&second).all(|number| *number == 7));
    let mut gate = Gate::with_slots([3, 1]);
    gate.replace(&TagSet::new(["he"]).expect("lawful"))
        .expect("accepted");
    assert_eq!(gate.replace(&set), short(8, 3));
    assert_eq!(
        (gate.edition(), mask_of(&mut gate, &[b"HE, he"])),
        (Edition(1), 1)
    );
}

#[test]
fn tables_of_one_machine_take_no_folded_tag() {
    let refused = Refusal::Kind { entry: 0 };
    assert_eq!(mixed().whole_slots(), Err(refused));
    assert_eq!(mixed().bitmap_slots(), Err(refused));
    assert_eq!(WholeTable::build(&mixed()), Err(refused));
    assert_eq!(BitmapTable::build(&mixed()), Err(refused));
    let mut table = vec![7; lent::WHOLE_TABLE];
    assert_eq!(
        lent::build_whole(mixed().as_bytes(), &mut table),
        Err(refused)
    );
    assert_eq!(
        lent::build_bitmap(mixed().as_bytes(), &mut table),
        Err(refused)
    );
    assert!(table.iter().all(|number| *number == 7));
    let words = refused.to_string();
    assert!(
        words.ends_with("whole-byte and bitmap tables take 1 alone"),
        "{words}"
    );
}

#[test]
fn the_largest_sets_of_either_kind_have_room() {
    // 16 tags of 32 bytes that share no front, in the bits of each machine too, as far as can be.
    for kind in [Kind::Exact, Kind::Folded] {
        let mut state = 0x5EED_0010;
        let tags: Vec<Vec<u8>> = (0..16)
            .map(|_| (0..32).map(|_| random(&mut state) as u8).collect())
            .collect();
        let set = TagSet::new(tags.iter().map(|tag| Entry::new(kind, tag))).expect("lawful");
        let [first, second] = set.split_slots();
        let (own, other) = match kind {
            Kind::Exact => (first, second),
            Kind::Folded => (second, first),
        };
        assert!(own > 440 && own <= 479 && other == 1, "{own} and {other}");
        let mut gate = gate_with(&set);
        assert_eq!(mask_of(&mut gate, &[&tags.concat()]), 0xffff);
    }
}

/// Random numbers (xorshift).
fn random(state: &mut u64) -> u64 {
    *state ^= *state << 13;
    *state ^= *state >> 7;
    *state ^= *state << 17;
    *state >> 8
}

/// So many letters of few, in both cases, and what stands beside them in ASCII.
fn letters(state: &mut u64, count: u64) -> Vec<u8> {
    let few = b"aAbBzZ@`[{";
    let letter = |_| few[random(state) as usize % few.len()];
    (0..count).map(letter).collect()
}

/// Up to 16 tags of both kinds, some of them with the same bytes.
fn random_set(state: &mut u64) -> TagSet {
    let mut tags: Vec<(Kind, Vec<u8>)> = Vec::new();
    for _ in 0..=random(state) % 16 {
        let kind = [Kind::Exact, Kind::Folded][random(state) as usize % 2];
        let length = 1 + random(state) % 4;
        tags.push((kind, letters(state, length)));
    }
    let entries = tags.iter().map(|(kind, tag)| Entry::new(*kind, tag));
    let mut seen = HashSet::new();
    TagSet::new(entries.filter(|tag| seen.insert(*tag))).expect("lawful")
}

/// The occurrences by comparing bytes, end by end and tag by tag.
fn occurrences(set: &TagSet, text: &[u8]) -> Vec<(u32, Tag)> {
    let ends = |end: usize| {
        let ended = move |(_, tag): &(u8, Entry)| {
            let front = end.checked_sub(tag.bytes().len());
            let last = front.map(|front| &text[front..end]);
            last.map_or(false, |last| match tag.kind() {
                Kind::Exact => last == tag.bytes(),
                Kind::Folded => last.eq_ignore_ascii_case(tag.bytes()),
            })
        };
        let found = (0..).zip(set.tags()).filter(ended);
        found.map(move |(tag, _)| (end as u32, Tag(tag)))
    };
    (1..=text.len()).flat_map(ends).collect()
}

#[test]
fn desk_gate_and_tables_find_just_the_occurrences_of_both_kinds() {
    let mut state = 0x5EED_0011;
    let (mut desk, mut gate) = (Desk::new(), Gate::new());
    for round in 0..200 {
        let (set, text) = (random_set(&mut state), letters(&mut state, 300));
        let expected = occurrences(&set, &text);
        let table = SplitTable::build(&set).expect("slots enough");
        let found = table.find_all(&text).expect("read");
        let found: Vec<(u32, Tag)> = found.iter().map(|one| (one.end, one.tag)).collect();
        assert_eq!(found, expected, "round {round}");

        desk.replace(&set).expect("accepted");
        let (serial, mut records) = (desk.open().expect("a ticket"), Vec::new());
        for piece in text.chunks(1 + round % 40) {
            let each = |record: sleetbarley::Record| records.push((record.end, record.tag));
            desk.feed_all(serial, piece, each).expect("read");
        }
        desk.close(serial).expect("open");
        assert_eq!(records, expected, "round {round}");

        gate.replace(&set).expect("accepted");
        let mask = expected.iter().fold(0, |mask, (_, tag)| mask | 1 << tag.0);
        let pieces: Vec<&[u8]> = text.chunks(1 + round % 7).collect();
        assert_eq!(mask_of(&mut gate, &pieces), mask, "round {round}");
    }
}
