//! The grammar of the calls that read tables or name one: their words and
//! bounds.

mod helpers;

use helpers::check;
use second::layout::Layout;
use second::script::{parse, Call};

#[test]
fn reads() {
    let read = |layout: Layout, room: usize, place: Vec<u16>| Call::Read {
        layout,
        count: 5,
        room,
        place,
        piece: vec![],
    };
    let split = parse(b"read split 5 2048 1 2 3 4 5 6 7 0 65535 10 011 12 13 14 15 65534 -");
    let place = vec![
        1, 2, 3, 4, 5, 6, 7, 0, 65_535, 10, 11, 12, 13, 14, 15, 65_534,
    ];
    assert_eq!(split, Some(read(Layout::Split, 2_048, place)));
    let whole = parse(b"read whole 5 0 65535 x");
    assert_eq!(whole, Some(read(Layout::Whole, 0, vec![65_535])));
    let none = [
        "read whole 5 2049 0 -",
        "read whole 5 0 65536 -",
        "read whole 5 0 -",
        "read whole 5 0 0 0 -",
        "read whole 5 0 0",
        "read whole 5 0 0 - -",
        "read whole 4294967296 0 0 -",
        "read split 5 0 -",
        "read",
    ];
    for line in none {
        assert_eq!(parse(line.as_bytes()), None, "{line}");
    }
    for places in 0..=20 {
        let line = format!("read split 5 0{} -", " 0".repeat(places));
        assert_eq!(parse(line.as_bytes()).is_some(), places == 16, "{line}");
    }
    for last in ["65536", "-1", "~\"1\"", "x01"] {
        let line = format!("read split 5 0{} {last} -", " 0".repeat(15));
        assert_eq!(parse(line.as_bytes()), None, "{line}");
    }
}

#[test]
fn reads_in_the_bitmap_layout() {
    let bitmap = Call::Read {
        layout: Layout::Bitmap,
        count: 5,
        room: 2_048,
        place: vec![65_535],
        piece: vec![0x61],
    };
    let line = b"read bitmap 0005 2048 65535 \"a\"";
    assert_eq!(parse(line), Some(bitmap));
    let none = [
        "read bitmap 5 2049 0 -",
        "read bitmap 5 0 65536 -",
        "read bitmap 5 0 -",
        "read bitmap 5 0 0 0 -",
        "read bitmap 5 0 0 0 0 0 0 0 0 0 -",
        "read bitmap 5 0 0",
        "read bitmap 5 0 0 - -",
        "read bitmap 4294967296 0 0 -",
        "read bitmaps 5 0 0 -",
        "read Bitmap 5 0 0 -",
        "read \"bitmap\" 5 0 0 -",
    ];
    for line in none {
        assert_eq!(parse(line.as_bytes()), None, "{line}");
    }
}

/// What may not follow a call that may name a table.
const NO_TABLES: &[&str] = &[
    " 2",
    " 02",
    " 10",
    " -",
    " -1",
    " +1",
    " x1",
    " \"1\"",
    " ~\"1\"",
    " 4294967296",
    " ",
    "  1",
    " 1 ",
    " 1 1",
    " 0 0",
    " 1\r",
    " t",
];

#[test]
fn the_table_of_a_call() {
    let words = [("", 0), (" 0", 0), (" 1", 1), (" 000", 0), (" 0001", 1)];
    for (word, table) in words {
        let lend = parse(format!("lend 24{word}").as_bytes());
        assert_eq!(lend, Some(Call::Lend { lent: 24, table }));
        let poke = parse(format!("poke 5 6{word}").as_bytes());
        let (at, value) = (5, 6);
        assert_eq!(poke, Some(Call::Poke { at, value, table }));
        let peek = parse(format!("peek 7 8{word}").as_bytes());
        let (at, count) = (7, 8);
        assert_eq!(peek, Some(Call::Peek { at, count, table }));
    }
    for word in NO_TABLES {
        for call in ["lend 24", "poke 5 6", "peek 7 8"] {
            let line = format!("{call}{word}");
            assert_eq!(parse(line.as_bytes()), None, "{line}");
        }
    }
    for line in ["lend", "poke", "poke 1", "peek", "peek 1", " lend 1"] {
        assert_eq!(parse(line.as_bytes()), None, "{line}");
    }
}

#[test]
fn bounds_of_the_second_table() {
    check(&[
        ("lend 16384 1", "lent 16384"),
        ("lend 16385 1", "line 2: not a call"),
        ("lend 0016384 01", "lent 16384"),
        ("lend 131841 1", "line 4: not a call"),
        ("lend 0 1", "lent 0"),
        ("poke 16383 65535 1", "poked 16383"),
        ("poke 16384 0 1", "line 7: not a call"),
        ("poke 0 65536 1", "line 8: not a call"),
        ("peek 16383 1 1", "numbers 65535"),
        ("peek 16383 2 1", "line 10: not a call"),
        ("peek 16384 0 1", "numbers"),
        ("peek 16385 0 1", "line 12: not a call"),
        ("peek 0 257 1", "line 13: not a call"),
        ("peek 0 0 1", "numbers"),
        ("peek 16129 256 1", "line 15: not a call"),
        // Each table has numbers of its own.
        ("peek 16383 1", "numbers 0"),
        ("poke 16383 5 0", "poked 16383"),
        ("peek 16383 1 1", "numbers 65535"),
        ("peek 16383 1", "numbers 5"),
    ]);
    let mut replay = second::replay::Replay::new();
    let answer = replay.line(b"peek 16128 256 1").concat();
    assert_eq!(answer, format!("numbers{}", " 0".repeat(256)));
    assert_eq!(replay.lent(), [11_496, 11_496]);
    replay.line(b"lend 7");
    assert_eq!(replay.lent(), [7, 11_496]);
    replay.line(b"lend 8 1");
    assert_eq!(replay.lent(), [7, 8]);
    replay.line(b"lend 9 0");
    assert_eq!(replay.lent(), [9, 8]);
}

#[test]
fn bounds_of_lend_poke_and_peek() {
    check(&[
        ("lend 131841", "lent 131841"),
        ("lend 131842", "line 2: not a call"),
        ("lend 0", "lent 0"),
        ("poke 131840 65535", "poked 131840"),
        ("poke 131841 0", "line 5: not a call"),
        ("poke 0 65536", "line 6: not a call"),
        ("peek 131840 1", "numbers 65535"),
        ("peek 131840 2", "line 8: not a call"),
        ("peek 131841 0", "numbers"),
        ("peek 131842 0", "line 10: not a call"),
        ("peek 0 0", "numbers"),
        ("peek 0 257", "line 12: not a call"),
        ("peek 4294967295 1", "line 13: not a call"),
        ("peek 00000000000000000 2", "numbers 0 0"),
    ]);
    let mut replay = second::replay::Replay::new();
    let answer = replay.line(b"peek 131585 256").concat();
    assert_eq!(answer.split(' ').count(), 257);
    assert_eq!(
        replay.line(b"peek 131586 256").concat(),
        "line 2: not a call"
    );
}
