//! The state of a ticket: never given, closed, stale and open.

mod helpers;

use helpers::check;
use second::replay::Replay;

#[test]
fn never_given() {
    check(&[
        ("state 0", "state 0 never"),
        ("state 1", "state 1 never"),
        ("set \"a\"", "set 5"),
        ("replace", "edition 1 tags 1"),
        ("open", "serial 1"),
        ("state 0", "state 0 never"),
        ("state 2", "state 2 never"),
        ("state 4294967295", "state 4294967295 never"),
    ]);
}

#[test]
fn open_with_its_edition_and_its_bytes() {
    check(&[
        ("set \"a\"", "set 5"),
        ("replace", "edition 1 tags 1"),
        ("replace", "edition 2 tags 1"),
        ("open", "serial 1"),
        ("state 1", "state 1 open 2 0"),
        ("feed 1 \"bab\"", "taken 3 stop ALL"),
        ("feed 1 \"xyz9\"", "taken 4 stop ALL"),
        ("state 0001", "state 1 open 2 7"),
        // A feed that takes no byte leaves the count.
        ("lend 24", "lent 24"),
        ("feed 1 \"a\"", "taken 0 stop DAMAGED"),
        ("state 1", "state 1 open 2 7"),
    ]);
}

#[test]
fn stale_then_closed() {
    check(&[
        ("set \"a\"", "set 5"),
        ("replace", "edition 1 tags 1"),
        ("open", "serial 1"),
        ("feed 1 \"ab\"", "taken 2 stop ALL"),
        ("replace", "edition 2 tags 1"),
        ("open", "serial 2"),
        ("state 1", "state 1 stale 1 2"),
        ("state 2", "state 2 open 2 0"),
        ("feed 1 \"a\"", "refused 13 1"),
        ("state 1", "state 1 stale 1 2"),
        ("close 1", "closed 1"),
        ("state 1", "state 1 closed"),
        // Its room is used again, and its serial is not.
        ("open", "serial 3"),
        ("state 1", "state 1 closed"),
        ("state 3", "state 3 open 2 0"),
        ("close 2", "closed 2"),
        ("replace", "edition 3 tags 1"),
        ("state 2", "state 2 closed"),
        ("state 3", "state 3 stale 2 0"),
    ]);
}

#[test]
fn it_changes_nothing() {
    let mut replay = Replay::new();
    for line in ["set \"a\"", "replace", "open", "feed 1 \"aa\"", "open"] {
        replay.line(line.as_bytes());
    }
    let before = replay.desk().clone();
    for serial in 0..4 {
        replay.line(format!("state {serial}").as_bytes());
    }
    assert_eq!(*replay.desk(), before);
}
