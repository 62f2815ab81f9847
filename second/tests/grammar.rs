//! The replay script: the format's example and the corners of its grammar.

mod helpers;

use helpers::*;
use second::script::{parse, Call};

const EXAMPLE: &str = r#"set "he" "she" "his" "hers"
replace
open
feed 1 "ush"
replace
feed 1 "ers"
open
feed 2 "ushers"
take
show
"#;

const EXAMPLE_ANSWERS: &str = "set 28
edition 1 tags 4
serial 1
taken 3 stop ALL
edition 2 tags 4
refused 13 1
serial 2
taken 6 stop ALL
record 2 2 4 0
desk edition 2 serial 2 held 2 tickets 2
ticket 1 edition 1 taken 3 stale
ticket 2 edition 2 taken 6 open
";

#[test]
fn the_example() {
    // Its last answers say two records held after one was taken.
    assert_eq!(output(EXAMPLE.as_bytes()), EXAMPLE_ANSWERS);
}

#[test]
fn silent_lines_are_counted() {
    let script = b"\n# one\n#\n\nno call\n #\n\r\n \nopen";
    let answers = "line 5: not a call\nline 6: not a call\nline 7: not a call\n\
                   line 8: not a call\nrefused 9\n";
    assert_eq!(output(script), answers);
    assert_eq!(output(b""), "");
    assert_eq!(output(b"\n\n"), "");
    assert_eq!(output(b"\n\nx"), "line 3: not a call\n");
}

#[test]
fn a_line_has_at_most_20000_bytes() {
    let padded = |length: usize| format!("lend {:0>width$}\n", 24, width = length - 5);
    assert_eq!(output(padded(20_000).as_bytes()), "lent 24\n");
    assert_eq!(output(padded(20_001).as_bytes()), "line 1: not a call\n");
    assert_eq!(
        output(&padded(20_001).as_bytes()[..20_001]),
        "line 1: not a call\n"
    );
    let comment = |length: usize| format!("{}\nopen\n", "#".repeat(length));
    assert_eq!(output(comment(20_000).as_bytes()), "refused 9\n");
    assert_eq!(
        output(comment(20_001).as_bytes()),
        "line 1: not a call\nrefused 9\n"
    );
    assert_eq!(
        output(comment(300_000).as_bytes()),
        "line 1: not a call\nrefused 9\n"
    );
}

#[test]
fn numbers() {
    for (word, number) in [("0", 0), ("7", 7), ("007", 7), ("4294967295", u32::MAX)] {
        assert_eq!(
            parse(format!("close {word}").as_bytes()),
            Some(Call::Close(number))
        );
    }
    assert_eq!(parse(b"state 007"), Some(Call::State(7)));
    assert_eq!(parse(b"state 4294967296"), None);
    let zeros = format!("close {}4294967295", "0".repeat(500));
    assert_eq!(parse(zeros.as_bytes()), Some(Call::Close(u32::MAX)));
    for word in [
        "",
        "4294967296",
        "04294967296",
        "99999999999999999999999",
        "-1",
        "+1",
    ] {
        assert_eq!(parse(format!("close {word}").as_bytes()), None, "{word}");
    }
    for word in [
        "1a", "a", "0x1", "1.", "\"1\"", "1 ", " 1", "1\r", "1\0", "\u{661}",
    ] {
        assert_eq!(parse(format!("close {word}").as_bytes()), None, "{word}");
    }
}

#[test]
fn bytes() {
    let piece = |word: &[u8]| match parse(&[b"feed 3 ", word].concat()) {
        Some(Call::Feed(3, piece)) => Some(piece),
        _ => None,
    };
    for word in [&b"-"[..], b"x", b"\"\""] {
        assert_eq!(piece(word), Some(vec![]));
    }
    assert_eq!(piece(b"x00ff6a"), Some(vec![0, 255, 0x6a]));
    assert_eq!(piece(b"\"a  b \""), Some(b"a  b ".to_vec()));
    assert_eq!(piece(b"\"-\""), Some(b"-".to_vec()));
    assert_eq!(piece(b"\"\0\r\xff\\\""), Some(b"\0\r\xff\\".to_vec()));
    let none: [&[u8]; 18] = [
        b"",
        b"--",
        b"- ",
        b"x0",
        b"x0A",
        b"xg0",
        b"X00",
        b"00",
        b"\"",
        b"\"a",
        b"\"a\"b",
        b"\"a\" ",
        b"\"a\" \"b\"",
        b"a\"b\"",
        b"\"a\"\"b\"",
        b"- -",
        b" -",
        b"x 00",
    ];
    for word in none {
        assert_eq!(piece(word), None, "{}", word.escape_ascii());
    }
}

/// The set of a line.
fn set(line: &str) -> Option<Vec<u8>> {
    match parse(line.as_bytes()) {
        Some(Call::Set(set)) => Some(set),
        _ => None,
    }
}

#[test]
fn sets() {
    let sets: [(&str, &[u8]); 12] = [
        ("set -", &[]),
        ("set x", &[]),
        ("set x00ff", &[0, 255]),
        ("set \"\"", &[0, 0, 1, 0]),
        ("set \"he\"", b"\x02\0\x01\0he"),
        ("set \"\" \" \"", b"\0\0\x01\0\x01\0\x01\0 "),
        ("set \"~\"", b"\x01\0\x01\0~"),
        ("set ~\"he\"", b"\x02\0\x02\0he"),
        ("set ~\"\"", &[0, 0, 2, 0]),
        ("set ~\"~\"", b"\x01\0\x02\0~"),
        (
            "set ~\"H \" \"h\" ~\"\"",
            b"\x02\0\x02\0H \x01\0\x01\0h\0\0\x02\0",
        ),
        ("set \"h\" ~\" ~\"", b"\x01\0\x01\0h\x02\0\x02\0 ~"),
    ];
    for (line, bytes) in sets {
        assert_eq!(set(line).as_deref(), Some(bytes), "{line}");
    }
    for (mark, kind) in [("", 1), ("~", 2)] {
        let long = set(&format!("set {mark}\"{}\"", "a".repeat(300)));
        let front = long.map(|set| set[..4].to_vec());
        assert_eq!(front, Some(vec![44, 1, kind, 0]));
    }
}

/// Words that make no set, one line for each.
const NO_SETS: &str = r#"
- -
x x
- "a"
"a" x
a
"a"  "b"
"a""b"
"a"b
"a
~
~a
~-
~x
~x61
~~"a"
~"a
~"
~ "a"
~"a"b
~"a"~
~"a""b"
"a"~"b"
~"a"~"b"
"a" ~
"a" ~b
"a" ~x62
~"a" -
~"a" x
- ~"a"
x61 ~"a"
~"a"  "b"
"#;

#[test]
fn no_sets() {
    for words in NO_SETS.lines() {
        assert_eq!(set(&format!("set {words}")), None, "{words}");
    }
    for line in ["set", "set ", "set \"a\" ", "set ~\"a\" ", "set  ~\"a\""] {
        assert_eq!(set(line), None, "{line}");
    }
}

#[test]
fn a_folded_word_is_no_other_word() {
    for line in [
        "~\"open\"",
        "~open",
        "~\"set\" \"a\"",
        "feed 1 ~\"a\"",
        "feed ~\"1\" -",
        "close ~\"1\"",
        "close ~1",
        "lend ~\"24\"",
        "lend 24 ~\"1\"",
        "build ~\"split\"",
        "read whole 0 0 0 ~\"a\"",
        "poke 0 ~\"1\"",
    ] {
        assert_eq!(parse(line.as_bytes()), None, "{line}");
    }
}

#[test]
fn a_set_has_at_most_4096_bytes() {
    let by_digits = |length: usize| format!("set x{}", "61".repeat(length));
    let by_words = |length: usize| format!("set \"{}\" ~\"\"", "a".repeat(length - 8));
    let folded = |length: usize| format!("set ~\"{}\"", "a".repeat(length - 4));
    check(&[
        (&by_digits(4_096), "set 4096"),
        (&by_words(4_096), "set 4096"),
        (&folded(4_096), "set 4096"),
        ("set \"a\"", "set 5"),
        (&by_digits(4_097), "line 5: not a call"),
        (&by_words(4_097), "line 6: not a call"),
        (&folded(4_097), "line 7: not a call"),
        // The set is still that of before.
        ("build whole", "tags 1"),
    ]);
}

#[test]
fn calls_with_words_too_few_or_too_many() {
    let whole = [
        "replace", "open", "take", "show", "close 1", "state 1", "set -",
    ];
    for line in whole
        .iter()
        .chain(&["feed 1 -", "build split", "build bitmap"])
    {
        assert!(parse(line.as_bytes()).is_some(), "{line}");
        let (fewer, _) = line.rsplit_once(' ').unwrap_or(("", ""));
        let more = [format!("{line} 1"), format!("{line} "), format!(" {line}")];
        for other in more.iter().map(String::as_str).chain([fewer]) {
            assert_eq!(parse(other.as_bytes()), None, "{other}");
        }
    }
    for line in [
        "Open",
        "opens",
        "\"open\"",
        "open\r",
        "open\0",
        "open\t",
        "build both",
    ] {
        assert_eq!(parse(line.as_bytes()), None, "{line}");
    }
    for line in [
        "close  1",
        "state  1",
        "states 1",
        "poke 1  2",
        "build  split",
        "feed 1  -",
    ] {
        assert_eq!(parse(line.as_bytes()), None, "{line}");
    }
}
