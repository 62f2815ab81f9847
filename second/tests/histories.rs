//! What the random histories of a gate come past: counted call by call beside the plain gate.

use second::desk::Edition;
use second::gate::{mask, Approval, Gate};
use second::histories::{answer, history, Call};
use second::kind::Kind;
use second::layout::Layout;
use second::occurrences::occurrences;
use second::set::{read_set, Tag};
use std::collections::BTreeMap;

const HISTORIES: u64 = 1_000;

/// How often each thing was seen.
type Seen = BTreeMap<String, u64>;

fn see(seen: &mut Seen, what: impl Into<String>) {
    *seen.entry(what.into()).or_insert(0) += 1;
}

/// What a history has been, beside its gate.
#[derive(Default)]
struct Past {
    /// The edition in force at each approval's last piece.
    last_piece: BTreeMap<u32, Edition>,
    /// The approval whose piece, the last one, had over 256 records.
    flooded: Option<u32>,
    held: bool,
}

fn approval(gate: &Gate, serial: u32) -> Option<&Approval> {
    let mut approvals = gate.approvals().iter();
    approvals.find(|one| one.serial.0 == serial)
}

/// The kinds of a lawful set's tags.
fn kinds_of(set: &[u8]) -> &'static str {
    let set = read_set(set, Layout::Split.kinds()).expect("a lawful set");
    let has = |kind: Kind| set.tags().iter().any(|tag| tag.kind == kind);
    match (has(Kind::Exact), has(Kind::Folded)) {
        (true, true) => "both kinds",
        (true, false) => "kind 1",
        _ => "kind 2",
    }
}

/// Whether bytes stand in others as they are.
fn stands(bytes: &[u8], within: &[u8]) -> bool {
    within.windows(bytes.len()).any(|window| window == bytes)
}

/// Whether they stand there in some letter cases.
fn stands_in_any_case(bytes: &[u8], within: &[u8]) -> bool {
    let mut windows = within.windows(bytes.len());
    windows.any(|window| window.eq_ignore_ascii_case(bytes))
}

/// Counts what a call came past, by the gate before it.
fn count(seen: &mut Seen, past: &mut Past, before: &Gate, call: &Call, said: &str) {
    let words: Vec<&str> = said.split(' ').collect();
    match words[..] {
        ["refused", number, ..] => see(seen, format!("refused {number}")),
        _ => see(seen, words[0]),
    }
    match call {
        Call::Replace(set) if words[0] == "edition" => {
            past.flooded = None;
            let waiting = before.approvals().len();
            see(seen, format!("replaced over approvals: {}", waiting > 0));
            see(seen, format!("a set of {}", kinds_of(set)));
        }
        Call::Begin if words[0] == "refused" && before.approvals().len() == 16 => {
            see(seen, "a seventeenth");
            let stale = before.approvals().iter();
            if stale.clone().all(|one| one.edition != before.edition()) {
                see(seen, "a seventeenth over sixteen stale ones");
            }
        }
        Call::Begin if past.held => see(seen, "begun after one was held"),
        Call::Piece(serial, piece) if said == "read" => {
            past.last_piece.insert(*serial, before.edition());
            count_piece(seen, past, before, *serial, piece);
        }
        Call::Decide(serial) => count_decision(seen, past, before, *serial, words[0]),
        _ => {}
    }
}

fn count_piece(seen: &mut Seen, past: &mut Past, before: &Gate, serial: u32, piece: &[u8]) {
    let one = approval(before, serial).expect("it was read");
    if before.approvals().len() == 16 {
        see(seen, "a piece beside fifteen others");
    }
    if piece.is_empty() {
        see(seen, "a piece of no bytes");
    }
    let tags = before.tags();
    let inside = |tag: &Tag| {
        let within = |other: &&Tag| {
            let longer = other.bytes.len() > tag.bytes.len();
            longer && mask(std::slice::from_ref(tag), &other.bytes) > 0
        };
        tags.iter().any(|other| within(&other))
    };
    if tags.iter().any(inside) {
        see(seen, "a piece over tags inside tags");
    }
    if past.flooded.is_some_and(|other| other != serial) {
        see(seen, "a piece after another's flood");
    }
    let (earlier, bytes) = (one.bytes().len(), [one.bytes(), piece.to_vec()].concat());
    let records = occurrences(tags, &bytes);
    let of_piece = records.iter().filter(|(end, _)| *end > earlier).count();
    past.flooded = (of_piece > 256).then_some(serial);
    if past.flooded.is_some() {
        see(seen, "over 256 records in one piece");
    }
}

fn count_decision(seen: &mut Seen, past: &mut Past, before: &Gate, serial: u32, said: &str) {
    let one = match approval(before, serial) {
        None => {
            let given = (1..=before.serial().0).contains(&serial);
            return see(seen, format!("decided again: {given}"));
        }
        Some(one) => one,
    };
    let (tags, bytes) = (before.tags(), one.bytes());
    let carries = mask(tags, &bytes);
    match said {
        "stale" => {
            let since = past.last_piece.get(&serial).copied();
            let times = since.map_or(0, |since| before.edition().0 - since.0);
            see(
                seen,
                format!("replaced {} times since the last piece", times.min(2)),
            );
            see(seen, format!("stale, with a tag in force: {}", carries > 0));
        }
        "hold" => {
            past.held = true;
            count_held(seen, tags, one);
            count_kinds(seen, tags, &bytes);
        }
        _ => {
            see(seen, format!("passed with bytes: {}", !bytes.is_empty()));
            let like = |tag: &Tag| stands_in_any_case(&tag.bytes, &bytes);
            if tags.iter().any(like) {
                see(seen, "passed with an exact tag in other letter cases");
            }
        }
    }
}

fn count_held(seen: &mut Seen, tags: &[Tag], one: &Approval) {
    let carries = mask(tags, &one.bytes());
    let alone = |piece: &Vec<u8>| mask(tags, piece);
    let in_pieces = one.pieces.iter().map(alone).fold(0, |all, mask| all | mask);
    if in_pieces != carries {
        see(seen, "a tag found across a cut");
    }
    if carries.count_ones() > 1 {
        see(seen, "held for several tags");
    }
}

/// By which kinds an approval is held, from another side than the gate decides.
fn count_kinds(seen: &mut Seen, tags: &[Tag], bytes: &[u8]) {
    let as_it_is = |tag: &&Tag| stands(&tag.bytes, bytes);
    let in_other_cases = |tag: &&Tag| !as_it_is(tag) && stands_in_any_case(&tag.bytes, bytes);
    let (exact, folded): (Vec<&Tag>, Vec<&Tag>) =
        tags.iter().partition(|tag| tag.kind == Kind::Exact);
    let exact_found = exact.iter().any(as_it_is);
    if !exact_found && folded.iter().any(as_it_is) {
        see(seen, "held for folded tags alone");
    }
    if !exact_found && !folded.iter().any(as_it_is) {
        assert!(folded.iter().any(in_other_cases));
        see(seen, "held for folded tags in other letter cases alone");
    }
    if exact_found && exact.iter().any(in_other_cases) {
        see(seen, "held, with an exact tag in other letter cases");
    }
    let twin = |tag: &&Tag| as_it_is(tag) && folded.iter().any(|other| other.bytes == tag.bytes);
    if exact.iter().any(twin) {
        see(seen, "held for the same bytes of both kinds");
    }
}

/// What the histories must come past.
const WANTED: &[&str] = &[
    "gate",
    "edition",
    "serial",
    "read",
    "pass",
    "hold",
    "stale",
    "refused 1",
    "refused 2",
    "refused 3",
    "refused 4",
    "refused 5",
    "refused 6",
    "refused 9",
    "refused 11",
    "refused 12",
    "refused 13",
    "replaced over approvals: true",
    "replaced over approvals: false",
    "replaced 1 times since the last piece",
    "replaced 2 times since the last piece",
    "stale, with a tag in force: true",
    "stale, with a tag in force: false",
    "a seventeenth",
    "a seventeenth over sixteen stale ones",
    "begun after one was held",
    "a piece beside fifteen others",
    "a piece of no bytes",
    "a piece over tags inside tags",
    "over 256 records in one piece",
    "a piece after another's flood",
    "a tag found across a cut",
    "held for several tags",
    "a set of kind 1",
    "a set of kind 2",
    "a set of both kinds",
    "held for folded tags alone",
    "held for folded tags in other letter cases alone",
    "held, with an exact tag in other letter cases",
    "held for the same bytes of both kinds",
    "passed with an exact tag in other letter cases",
    "decided again: true",
    "decided again: false",
    "passed with bytes: true",
    "passed with bytes: false",
];

#[test]
fn the_histories_come_past_every_situation() {
    let (mut seen, mut calls) = (Seen::new(), 0);
    for seed in 1..=HISTORIES {
        let (mut gate, mut past) = (Gate::new(), Past::default());
        for (call, said) in history(seed) {
            count(&mut seen, &mut past, &gate, &call, &said);
            assert_eq!(answer(&mut gate, &call), said);
            calls += 1;
        }
    }
    println!("{calls} calls of {HISTORIES} histories");
    for what in WANTED {
        let times = seen.get(*what).copied().unwrap_or(0);
        println!("{times:7}  {what}");
        assert!(times >= 50, "{what}: {times} times\n{seen:#?}");
    }
    assert!(!seen.contains_key("cut") && !seen.contains_key("unread"));
}

#[test]
fn a_seed_has_one_history() {
    assert_eq!(history(7), history(7));
    assert_ne!(history(7), history(8));
    assert_eq!(history(7)[0], (Call::Gate, "gate".to_string()));
}

#[test]
fn calls_are_written_as_the_drivers_read_them() {
    let calls = [
        (Call::Gate, "gate"),
        (
            Call::Replace(b"\x02\0\x01\0he\x01\0\x02\0X".to_vec()),
            "replace 0200010068650100020058",
        ),
        (Call::Replace(vec![]), "replace -"),
        (Call::Begin, "begin"),
        (Call::Piece(1, b"us\xff".to_vec()), "piece 1 7573ff"),
        (Call::Piece(1, b"hex".to_vec()), "piece 1 686578"),
        (Call::Piece(4_294_967_295, vec![]), "piece 4294967295 -"),
        (Call::Decide(1), "decide 1"),
        (Call::Decide(1), "decide 1"),
    ];
    let answers = [
        "gate",
        "edition 1 tags 2",
        "refused 5 0",
        "serial 1",
        "read",
        "read",
        "refused 12",
        "hold 3",
        "refused 12",
    ];
    let mut gate = Gate::new();
    for ((call, text), said) in calls.iter().zip(answers) {
        assert_eq!(call.to_string(), *text);
        assert_eq!(answer(&mut gate, call), said);
    }
}
