//! What buildings come past by the kinds of their sets' tags.

use crate::{see, Moment, Seen};
use second::kind::Kind;
use second::layout::Layout;
use second::set::{read_set, Tag};

pub fn count(seen: &mut Seen, moment: &Moment) {
    let Some(layout) = moment.building() else {
        return;
    };
    let set = moment.before.set();
    let entry = moment.answer.split(' ').nth(2);
    let entry = entry.and_then(|entry| entry.parse().ok()).unwrap_or(0);
    match moment.refused() {
        None => count_accepted(seen, layout, set),
        Some(1) => {
            let kind = kind_of_entry(set, entry);
            see(seen, format!("CUT of an entry of kind {kind}"));
        }
        Some(2) => {
            let kind = kind_of_entry(set, entry);
            see(seen, format!("{layout:?} MANY, the last of kind {kind}"));
        }
        Some(3) => {
            let kind = kind_of_entry(set, entry);
            see(seen, format!("{layout:?} KIND, of kind {kind}"));
        }
        Some(4) => {
            let kind = kind_of_entry(set, entry);
            see(seen, format!("LENGTH of an entry of kind {kind}"));
        }
        Some(6) => count_repeat(seen, set, entry),
        _ => {}
    }
}

/// The kind of an entry: 1, 2, another number, or none where it is cut before.
/// Every entry before it is whole.
fn kind_of_entry(set: &[u8], entry: usize) -> &'static str {
    let mut rest = set;
    for _ in 0..entry {
        let length = usize::from(u16::from_le_bytes([rest[0], rest[1]]));
        rest = &rest[4 + length..];
    }
    match rest {
        [_, _, 1, 0, ..] => "1",
        [_, _, 2, 0, ..] => "2",
        [_, _, _, _, ..] => "another",
        _ => "none",
    }
}

/// The tags of a set whose entries are all whole and of kinds that there are.
fn tags_of(set: &[u8]) -> Vec<Tag> {
    let mut tags = Vec::new();
    let mut rest = set;
    while let [low, high, kind, _, after @ ..] = rest {
        let length = usize::from(u16::from_le_bytes([*low, *high]));
        let kind = if *kind == 1 {
            Kind::Exact
        } else {
            Kind::Folded
        };
        let bytes = after[..length].to_vec();
        tags.push(Tag { kind, bytes });
        rest = &after[length..];
    }
    tags
}

fn count_repeat(seen: &mut Seen, set: &[u8], entry: usize) {
    let tags = tags_of(set);
    let (tag, earlier) = (&tags[entry], &tags[..entry]);
    match (tag.kind, earlier.contains(tag)) {
        (Kind::Exact, true) => see(seen, "REPEAT of kind 1"),
        (Kind::Exact, false) => panic!("no repetition: {tags:?}"),
        (Kind::Folded, true) => see(seen, "REPEAT of kind 2, the same bytes"),
        (Kind::Folded, false) => see(seen, "REPEAT of kind 2, in other letter cases"),
    }
    let other = |one: &Tag| one.kind != tag.kind && one.bytes == tag.bytes;
    if earlier.iter().any(other) {
        see(seen, "REPEAT, with one of the other kind before");
    }
}

fn count_accepted(seen: &mut Seen, layout: Layout, set: &[u8]) {
    let set = read_set(set, layout.kinds()).expect("it was accepted");
    let tags = set.tags();
    let has = |kind: Kind| tags.iter().any(|tag| tag.kind == kind);
    let kinds = match (has(Kind::Exact), has(Kind::Folded)) {
        (true, true) => "both kinds",
        (true, false) => "kind 1",
        _ => "kind 2",
    };
    see(seen, format!("{layout:?} built of {kinds}"));
    for (number, tag) in tags.iter().enumerate() {
        for other in &tags[..number] {
            if let Some(pair) = pair_of(tag, other) {
                see(seen, format!("built, {pair}"));
            }
        }
    }
}

/// What is worth telling of two tags of one set.
fn pair_of(tag: &Tag, other: &Tag) -> Option<&'static str> {
    let same_but_for_case_bits = {
        let mut pairs = tag.bytes.iter().zip(&other.bytes);
        let alike = |(a, b): (&u8, &u8)| (a ^ b) & !0x20 == 0;
        tag.bytes.len() == other.bytes.len() && pairs.all(alike)
    };
    let equal_but_for_case = tag.bytes.eq_ignore_ascii_case(&other.bytes);
    match (tag.kind == other.kind, tag.kind) {
        (false, _) if tag.bytes == other.bytes => Some("the same bytes of both kinds"),
        (false, _) if equal_but_for_case => Some("both kinds, in other letter cases"),
        (true, Kind::Exact) if equal_but_for_case => Some("kind 1 in other letter cases"),
        (true, Kind::Folded) if same_but_for_case_bits => {
            Some("kind 2 but for the case bit of no letter")
        }
        _ => None,
    }
}

pub fn wanted() -> Vec<String> {
    let mut wanted = Vec::new();
    for kind in ["1", "2"] {
        wanted.push(format!("CUT of an entry of kind {kind}"));
        wanted.push(format!("LENGTH of an entry of kind {kind}"));
    }
    for layout in ["Split", "Whole", "Bitmap"] {
        wanted.push(format!("{layout} KIND, of kind another"));
        wanted.push(format!("{layout} built of kind 1"));
        for kind in ["1", "2", "another"] {
            wanted.push(format!("{layout} MANY, the last of kind {kind}"));
        }
    }
    for what in [
        "CUT of an entry of kind none",
        "Whole KIND, of kind 2",
        "Bitmap KIND, of kind 2",
        "Split built of kind 2",
        "Split built of both kinds",
        "REPEAT of kind 1",
        "REPEAT of kind 2, the same bytes",
        "REPEAT of kind 2, in other letter cases",
        "REPEAT, with one of the other kind before",
        "built, the same bytes of both kinds",
        "built, both kinds, in other letter cases",
        "built, kind 1 in other letter cases",
        "built, kind 2 but for the case bit of no letter",
    ] {
        wanted.push(what.to_string());
    }
    wanted
}
