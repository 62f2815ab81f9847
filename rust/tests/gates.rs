//! The gate: what passes, what is held, and what is stale, whatever comes between.

use sleetbarley::{
    Edition, Entry, Gate, Piece, Refusal, Serial, Tag, TagSet, TicketState, Verdict,
};
use std::thread;

fn set(tags: &[&str]) -> TagSet {
    TagSet::new(tags).expect("a lawful set")
}

fn gate_with(tags: &[&str]) -> Gate {
    let mut gate = Gate::new();
    gate.replace(&set(tags)).expect("accepted");
    gate
}

/// Begins an approval and hands in its pieces, each of which is read.
fn handed_in(gate: &mut Gate, pieces: &[&str]) -> Serial {
    let serial = gate.begin().expect("room");
    for piece in pieces {
        assert_eq!(gate.piece(serial, piece.as_bytes()), Ok(Piece::Read));
    }
    serial
}

fn decided(gate: &mut Gate, serial: Serial) -> Verdict {
    gate.decide(serial).expect("it isn't decided yet")
}

/// The mask for which an approval is held.
fn mask(verdict: &Verdict) -> u64 {
    match verdict {
        Verdict::Hold(held) => held.mask(),
        other => panic!("{other}"),
    }
}

#[test]
fn replaced_between_the_last_piece_and_the_decision() {
    let mut gate = gate_with(&["preview-17"]);
    let pieces = ["approved: crown 26, ", "from preview-31"];
    let serial = handed_in(&mut gate, &pieces);
    gate.replace(&set(&["preview-17", "preview-31"]))
        .expect("accepted");
    let stale = Verdict::Stale {
        edition: Edition(1),
    };
    let verdict = decided(&mut gate, serial);
    assert!(!verdict.passes());
    assert_eq!(verdict, stale);
    // Read again from its first byte it is held, by the set in force.
    let again = handed_in(&mut gate, &pieces);
    assert_eq!(mask(&decided(&mut gate, again)), 0b10);
    // Stale too where the same set is put in force again, and where it carries nothing.
    let clean = handed_in(&mut gate, &["nothing"]);
    gate.replace(&set(&["preview-17", "preview-31"]))
        .expect("accepted");
    let stale = Verdict::Stale {
        edition: Edition(2),
    };
    assert_eq!(decided(&mut gate, clean), stale);
}

#[test]
fn replaced_twice() {
    let mut gate = gate_with(&["a"]);
    let first = handed_in(&mut gate, &["b"]);
    gate.replace(&set(&["b"])).expect("accepted");
    let second = handed_in(&mut gate, &["a"]);
    gate.replace(&set(&["a"])).expect("accepted");
    // The set of the first edition is in force again, and still neither was read under it.
    for (serial, edition) in [(first, 1), (second, 2)] {
        let edition = Edition(edition);
        let refused = gate.piece(serial, b"c");
        assert_eq!(refused, Err(Refusal::Stale { edition }));
        assert_eq!(decided(&mut gate, serial), Verdict::Stale { edition });
    }
    let third = handed_in(&mut gate, &["b"]);
    assert_eq!(decided(&mut gate, third), Verdict::Pass);
}

#[test]
fn a_refused_set_changes_nothing() {
    let mut gate = gate_with(&["he"]);
    let serial = handed_in(&mut gate, &["s", "he"]);
    assert_eq!(
        gate.replace_bytes(b"preview-17"),
        Err(Refusal::Kind { entry: 0 })
    );
    assert_eq!(
        Gate::with_slots([1, 1]).replace(&set(&["he"])),
        Err(Refusal::Table {
            machine: 0,
            states: 3
        })
    );
    assert_eq!(
        (gate.edition(), gate.set(Edition(1))),
        (Edition(1), Some(&set(&["he"])))
    );
    assert_eq!(mask(&decided(&mut gate, serial)), 1);
}

#[test]
fn the_list_is_full_of_another_approvals_records() {
    // 16 matches at each byte from the 16th on: far more records than a desk holds.
    let nested: Vec<String> = (1..=16).map(|length| "a".repeat(length)).collect();
    let tags: Vec<&str> = nested.iter().map(String::as_str).collect();
    let mut gate = gate_with(&tags);
    let loud = gate.begin().expect("room");
    let quiet = gate.begin().expect("room");
    let one = gate.begin().expect("room");
    let many = "a".repeat(1000);
    for _ in 0..3 {
        assert_eq!(gate.piece(loud, many.as_bytes()), Ok(Piece::Read));
        assert_eq!(
            gate.piece(quiet, many.replace('a', "b").as_bytes()),
            Ok(Piece::Read)
        );
        assert_eq!(gate.piece(one, b"bab"), Ok(Piece::Read));
    }
    assert_eq!(decided(&mut gate, quiet), Verdict::Pass);
    assert_eq!(mask(&decided(&mut gate, one)), 1);
    assert_eq!(mask(&decided(&mut gate, loud)), 0xffff);
}

#[test]
fn a_tag_across_a_cut_wherever_it_is() {
    let mut gate = gate_with(&["preview-17", "view", "17"]);
    let text = "from preview-17, for Monday";
    for cut in 0..=text.len() {
        let (front, rest) = text.split_at(cut);
        let serial = handed_in(&mut gate, &[front, "", rest]);
        assert_eq!(mask(&decided(&mut gate, serial)), 0b111, "cut at {cut}");
        // Half a tag is none, and an approval's bytes are never joined with another's.
        let (left, right) = (gate.begin(), gate.begin());
        let (left, right) = (left.expect("room"), right.expect("room"));
        assert_eq!(gate.piece(left, b"prev"), Ok(Piece::Read));
        assert_eq!(gate.piece(right, b"iew-1"), Ok(Piece::Read));
        assert_eq!(gate.piece(left, b"1"), Ok(Piece::Read));
        assert_eq!(gate.piece(right, b"8"), Ok(Piece::Read));
        assert_eq!(decided(&mut gate, left), Verdict::Pass);
        assert_eq!(decided(&mut gate, right), Verdict::Pass);
    }
}

#[test]
fn sixteen_approvals_at_once_and_a_seventeenth() {
    let mut gate = gate_with(&["x0", "x5", "x15"]);
    let serials: Vec<Serial> = (0..16).map(|_| gate.begin().expect("room")).collect();
    let refused = gate.begin().expect_err("no room");
    assert_eq!((refused, refused.number()), (Refusal::NoRoom, 11));
    assert!(refused.to_string().contains("decide one"), "{refused}");
    for piece in ["x", "#"] {
        for (at, serial) in serials.iter().enumerate() {
            let piece = piece.replace('#', &at.to_string());
            assert_eq!(gate.piece(*serial, piece.as_bytes()), Ok(Piece::Read));
        }
    }
    assert_eq!(gate.approvals().len(), 16);
    for (at, serial) in serials.iter().enumerate().rev() {
        let verdict = decided(&mut gate, *serial);
        assert_eq!(
            verdict.passes(),
            ![0, 5, 15].contains(&at),
            "{at}: {verdict}"
        );
    }
    assert_eq!(gate.begin(), Ok(Serial(17)));
    // Stale approvals keep their rooms until they are decided.
    (0..15).for_each(|_| assert!(gate.begin().is_ok()));
    gate.replace(&set(&["y"])).expect("accepted");
    assert_eq!(gate.begin(), Err(Refusal::NoRoom));
    assert!(!decided(&mut gate, Serial(20)).passes());
    // A new approval in the room of an old one has nothing of it.
    let new = handed_in(&mut gate, &["x0"]);
    assert_eq!((new, decided(&mut gate, new)), (Serial(33), Verdict::Pass));
}

#[test]
fn decided_once_and_never_given() {
    let mut gate = Gate::new();
    let refused = gate.begin().expect_err("no set");
    assert_eq!((refused, refused.number()), (Refusal::NoSet, 9));
    assert!(
        refused.to_string().contains("replace one first"),
        "{refused}"
    );
    gate.replace(&set(&["he"])).expect("accepted");
    let serial = handed_in(&mut gate, &["x"]);
    let open = TicketState::Open {
        edition: Edition(1),
        taken: 1,
    };
    assert_eq!(gate.state(serial), open);
    assert_eq!(decided(&mut gate, serial), Verdict::Pass);
    assert_eq!(gate.state(serial), TicketState::Closed);
    for serial in [serial, Serial(0), Serial(2), Serial(u32::MAX)] {
        let refused = gate.decide(serial).expect_err("no ticket");
        assert_eq!((refused, refused.number()), (Refusal::NoTicket, 12));
        assert_eq!(gate.piece(serial, b"x"), Err(Refusal::NoTicket));
    }
    assert_eq!(gate.state(Serial(2)), TicketState::Never);
    assert_eq!(gate.last_serial(), Serial(1));
}

#[test]
fn what_is_held_names_the_tags_and_their_bytes() {
    let mut gate = gate_with(&["he", "she", "his", "hers"]);
    let serial = handed_in(&mut gate, &["ush", "ers"]);
    let held = match decided(&mut gate, serial) {
        Verdict::Hold(held) => held,
        other => panic!("{other}"),
    };
    let tags: Vec<(Tag, Entry)> = held.tags().collect();
    let expected = [(0, "he"), (1, "she"), (3, "hers")];
    let expected = expected.map(|(tag, case)| (Tag(tag), Entry::exact(case)));
    assert_eq!((held.edition(), tags), (Edition(1), expected.to_vec()));
    assert_eq!(held.mask(), 0b1011);
    assert_eq!(
        held.to_string(),
        "he (tag 0 of edition 1), she (tag 1 of edition 1), hers (tag 3 of edition 1)"
    );
    let verdict = Verdict::Hold(held);
    assert!(verdict
        .to_string()
        .starts_with("hold: it carries he (tag 0"));
    // Bytes that can't be read are shown by escapes.
    gate.replace(&TagSet::new([&b"\x00\xff b\n"[..]]).expect("lawful"))
        .expect("accepted");
    let serial = gate.begin().expect("room");
    assert_eq!(gate.piece(serial, b"a\x00\xff b\n"), Ok(Piece::Read));
    let words = decided(&mut gate, serial).to_string();
    assert_eq!(
        words,
        "hold: it carries \\x00\\xff b\\n (tag 0 of edition 2)"
    );
}

#[test]
fn the_sets_of_undecided_approvals_are_kept() {
    let mut gate = gate_with(&["one"]);
    let first = gate.begin().expect("room");
    for tags in [["two"], ["three"], ["four"]] {
        gate.replace(&set(&tags)).expect("accepted");
    }
    let bytes = |gate: &Gate, edition| {
        let tag = gate.tag(Edition(edition), Tag(0));
        tag.map(|tag| tag.bytes().to_vec())
    };
    assert_eq!(bytes(&gate, 1), Some(b"one".to_vec()));
    assert_eq!((bytes(&gate, 2), bytes(&gate, 3)), (None, None));
    assert_eq!(bytes(&gate, 4), Some(b"four".to_vec()));
    assert_eq!(gate.tag(Edition(4), Tag(1)), None);
    // Decided, its set is there until the next replacement.
    assert!(!decided(&mut gate, first).passes());
    assert_eq!(bytes(&gate, 1), Some(b"one".to_vec()));
    gate.replace_bytes(set(&["five"]).as_bytes())
        .expect("accepted");
    assert_eq!((bytes(&gate, 1), bytes(&gate, 4)), (None, None));
    assert_eq!(bytes(&gate, 5), Some(b"five".to_vec()));
}

#[test]
fn a_gate_goes_on_in_another_thread() {
    let mut gate = gate_with(&["he"]);
    let serial = handed_in(&mut gate, &["us", "h"]);
    let other = thread::spawn(move || {
        assert_eq!(gate.piece(serial, b"ers"), Ok(Piece::Read));
        gate
    });
    let mut gate = other.join().expect("no panic");
    assert_eq!(mask(&decided(&mut gate, serial)), 1);
}

#[test]
fn the_archive_is_of_the_crates_version() {
    let (major, minor, patch) = sleetbarley::archive_version();
    assert_eq!(
        format!("{major}.{minor}.{patch}"),
        env!("CARGO_PKG_VERSION")
    );
}
