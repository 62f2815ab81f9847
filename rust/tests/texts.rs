//! The text form of sets, and the program `sleet-set`.

use sleetbarley::text::{read, written, What};
use sleetbarley::{Entry, Kind, Tag, TagSet};
use std::fs;
use std::io::Write;
use std::path::PathBuf;
use std::process::{Command, Output, Stdio};

/// The bytes of a text's tags, which are exact.
fn tags_of(text: &[u8]) -> Vec<Vec<u8>> {
    let set = read(text).unwrap_or_else(|fault| panic!("{fault}"));
    assert!(set.tags().all(|tag| tag.kind() == Kind::Exact));
    set.tags().map(|tag| tag.bytes().to_vec()).collect()
}

/// The kinds and bytes of a text's tags.
fn kinds_of(text: &[u8]) -> Vec<(Kind, Vec<u8>)> {
    let set = read(text).unwrap_or_else(|fault| panic!("{fault}"));
    let tag = |tag: Entry| (tag.kind(), tag.bytes().to_vec());
    set.tags().map(tag).collect()
}

#[test]
fn lines_are_tags_and_the_rest_is_passed_over() {
    let text = b"# withdrawn\n\npreview-17\n \t \n#\npreview-23\r\n\r\nK#4 a\\#b \\# c\n";
    let expected: [&[u8]; 3] = [b"preview-17", b"preview-23", b"K#4 a#b # c"];
    assert_eq!(tags_of(text), expected);
    assert_eq!(tags_of(b"no line's end"), [b"no line's end"]);
    assert_eq!(
        tags_of(b"\\\\\\n\\r\\t\\x00\\xfF\\x20"),
        [b"\\\n\r\t\0\xff "]
    );
    assert_eq!(
        tags_of("# Zürich\nZ\\xc3\\xBCrich\n".as_bytes()),
        ["Zürich".as_bytes()]
    );
    assert_eq!(
        tags_of(b"\\#not a remark\n\\x20#"),
        [&b"#not a remark"[..], b" #"]
    );
}

#[test]
fn a_sign_in_front_makes_a_tag_folded() {
    let (exact, folded) = (Kind::Exact, Kind::Folded);
    let text =
        b"preview-17\n\\~preview-17\r\n\\x7ea\n\\~\\x7ea\n\\\\~b\n\\~\\\\~b\n\\x7e\n\\~\\x20\\#c";
    let expected: [(Kind, &[u8]); 8] = [
        (exact, b"preview-17"),
        (folded, b"preview-17"),
        (exact, b"~a"),
        (folded, b"~a"),
        (exact, b"\\~b"),
        (folded, b"\\~b"),
        (exact, b"~"),
        (folded, b" #c"),
    ];
    let expected = expected.map(|(kind, tag)| (kind, tag.to_vec()));
    assert_eq!(kinds_of(text), expected);
    // The bytes are kept as they are written, and so is the letter case.
    assert_eq!(kinds_of(b"\\~Zo\\xC4\n"), [(folded, b"Zo\xc4".to_vec())]);
    // Within a tag a tilde, a blank and a number sign need no escape.
    assert_eq!(kinds_of(b"\\~a b#c~"), [(folded, b"a b#c~".to_vec())]);
}

#[test]
fn the_rules_of_a_tags_front_hold_behind_the_sign() {
    let high = |byte, place| What::High { byte, place };
    let cases: [(&[u8], What); 19] = [
        (b"\\~", What::NoBytes),
        (b"\\~\r", What::NoBytes),
        (b"\\~ ", What::BlankInFront),
        (b"\\~ x", What::BlankInFront),
        (b" \\~x", What::BlankInFront),
        (b"\\~x ", What::BlankAtEnd),
        (b"\\~#x", What::Remark),
        (b"\\~x #y", What::Remark),
        (b"~", What::Tilde),
        (b"~preview-17", What::Tilde),
        (b"\\~~x", What::Tilde),
        (b"\\~\tx", What::Control { byte: 9 }),
        (b"\\~\xc3\xbc", high(0xc3, 3)),
        (b"\\~\xef\xbb\xbfx", What::Mark),
        (b"\\~\\q", What::Escape),
        (b"\\~\\~x", What::FoldedWithin),
        (b"x\\~y", What::FoldedWithin),
        (b"x\\~", What::FoldedWithin),
        (b"\\\\\\~", What::FoldedWithin),
    ];
    for (line, what) in cases {
        let text = [b"a\n\n", line, b"\n"].concat();
        let fault = read(&text).expect_err("a fault");
        assert_eq!((fault.line, fault.what), (3, what), "{fault}");
    }
    let plain = read(b"a\n~b\n").expect_err("a fault").to_string();
    let words =
        "line 2: a ~ at the front; a folded tag stands behind \\~, and where the tag has a \
                 tilde there write \\x7e";
    assert_eq!(plain, words);
    let within = read(b"x\\~y\n").expect_err("a fault").to_string();
    let words =
        "line 1: a \\~ within the line; it stands at the front, where it says that the tag \
                 is folded, and within a tag a tilde alone is written as it is";
    assert_eq!(within, words);
    let alone = read(b"a\n\\~\n").expect_err("a fault").to_string();
    let words = "line 2: a \\~ with no tag behind it, and a tag has a byte at least";
    assert_eq!(alone, words);
}

#[test]
fn a_tag_again_is_found_by_kind_and_folding() {
    let again = |text: &[u8]| {
        let fault = read(text).expect_err("a fault");
        (fault.line, fault.what)
    };
    let folded = |line| What::RepeatFolded { line };
    assert_eq!(again(b"he\n\\~He\n\\~hE\n"), (3, folded(2)));
    assert_eq!(again(b"\\~he\n#\n\\~he\n"), (3, folded(1)));
    assert_eq!(again(b"\\~HE\nHE\nhe\nHE\n"), (4, What::Repeat { line: 2 }));
    // Of several faults the lowest tag's is told, beside the first line that has it.
    assert_eq!(again(b"\\~a\nb\n\\~A\nb\n\\~a\n"), (3, folded(1)));
    // Other kinds and other bytes are other tags; folding knows A to Z alone.
    let text = b"he\n\\~he\nHE\n\\~@\n\\~`\n\\~[\n\\~{\n\\~\\xc4\n\\~\\xe4\n";
    assert_eq!(kinds_of(text).len(), 9);
    let words = read(b"\\~he\n\\~HE\n").expect_err("a fault").to_string();
    let expected = "line 2: the folded tag of line 1 again; in both A to Z and a to z are equal";
    assert_eq!(words, expected);
}

#[test]
fn every_fault_is_told_with_its_line() {
    let numbered =
        |count: usize| -> String { (0..count).map(|k| format!("tag {k}\n\n")).collect() };
    let long = format!("# one\n{}\n", "x".repeat(33));
    let high = |byte, place| What::High { byte, place };
    let cases: Vec<(Vec<u8>, usize, What)> = vec![
        (b"".to_vec(), 1, What::NoTag),
        (b"# a\n\n# b\n".to_vec(), 3, What::NoTag),
        (b"# a\n\n# b".to_vec(), 3, What::NoTag),
        (b"\xef\xbb\xbfa\n".to_vec(), 1, What::Mark),
        (b"a\n b\n".to_vec(), 2, What::BlankInFront),
        (b"a\nb \n".to_vec(), 2, What::BlankAtEnd),
        (b"a\nb \r\n".to_vec(), 2, What::BlankAtEnd),
        (b"\npreview-17 # gone\n".to_vec(), 2, What::Remark),
        (b"a\tb\n".to_vec(), 1, What::Control { byte: 9 }),
        (b"a\rb\n".to_vec(), 1, What::Control { byte: 13 }),
        (b"a\0\n".to_vec(), 1, What::Control { byte: 0 }),
        (b"a\x7f\n".to_vec(), 1, What::Control { byte: 127 }),
        (b"a\n\xc3\xbc\n".to_vec(), 2, high(0xc3, 1)),
        (b"a\n\\xc3\xbc\n".to_vec(), 2, high(0xbc, 5)),
        (b"#\n\nab\xff\r\n".to_vec(), 3, high(0xff, 3)),
        (b"a\n\n\\q\n".to_vec(), 3, What::Escape),
        (b"a\\".to_vec(), 1, What::Escape),
        (b"a\\x4".to_vec(), 1, What::Escape),
        (b"a\\x+4".to_vec(), 1, What::Escape),
        (b"a\\xg0".to_vec(), 1, What::Escape),
        (b"a\\ \n".to_vec(), 1, What::Escape),
        (numbered(17).into_bytes(), 33, What::Many),
        (long.into_bytes(), 2, What::Long { bytes: 33 }),
        (vec![b'x'; 70_000], 1, What::Long { bytes: 70_000 }),
        (b"a\nb\n#\nc\nb\na".to_vec(), 5, What::Repeat { line: 2 }),
        (b"a\n\\x61\n".to_vec(), 2, What::Repeat { line: 1 }),
    ];
    for (text, line, what) in cases {
        let fault = read(&text).expect_err("a fault");
        assert_eq!((fault.line, fault.what), (line, what), "{fault}");
        let words = fault.to_string();
        assert!(words.starts_with(&format!("line {line}: ")), "{words}");
    }
    assert_eq!(tags_of(numbered(16).as_bytes()).len(), 16);
    assert_eq!(tags_of("x".repeat(32).as_bytes())[0].len(), 32);
}

#[test]
fn a_byte_stands_for_itself_only_where_an_eye_can_be_sure_of_it() {
    for byte in 0..=u8::MAX {
        let escaped = format!("a\\x{byte:02x}b\n");
        assert_eq!(tags_of(escaped.as_bytes()), [[b'a', byte, b'b']]);
        let said = read(&[b'a', byte, b'b']).map_err(|fault| (fault.line, fault.what));
        match byte {
            b'\n' => assert_eq!(said, Ok(TagSet::new(["a", "b"]).expect("lawful"))),
            0..=31 | 127 => assert_eq!(said, Err((1, What::Control { byte }))),
            b'\\' => assert_eq!(said, Err((1, What::Escape))),
            128.. => assert_eq!(said, Err((1, What::High { byte, place: 2 }))),
            _ => assert_eq!(said, Ok(TagSet::new([[b'a', byte, b'b']]).expect("lawful"))),
        }
    }
}

#[test]
fn letters_that_no_eye_sees_are_told_with_what_to_write() {
    // A blank that doesn't break, one without width, a soft hyphen, another script's letter: in
    // front of the tag, within it, behind it, and alone in a line.
    for letter in ['\u{a0}', '\u{200b}', '\u{ad}', '\u{440}'] {
        let byte = letter.to_string().as_bytes()[0];
        for (line, place) in [("#preview", 1), ("pre#view", 4), ("preview#", 8), ("#", 1)] {
            let line = line.replace('#', &letter.to_string());
            let fault = read(format!("a\n{line}\nb\n").as_bytes()).expect_err("a fault");
            assert_eq!(
                (fault.line, fault.what),
                (2, What::High { byte, place }),
                "{fault}"
            );
            let write = format!("write \\x{byte:02x} where the tag has it");
            assert!(fault.to_string().ends_with(&write), "{fault}");
        }
        // In a remark it does no harm.
        assert_eq!(tags_of(format!("#{letter}\na\n").as_bytes()), [b"a"]);
    }
}

#[test]
fn a_byte_order_mark_is_a_fault_in_every_line() {
    let cases: [(&[u8], usize); 7] = [
        (b"\xef\xbb\xbfa\n", 1),
        (b"\xef\xbb\xbf\na\n", 1),
        (b"a\n\xef\xbb\xbf# b\nc\n", 2),
        (b"a\n \xef\xbb\xbf\nc\n", 2),
        // Behind a text whose last line lacks its end.
        (b"a\nb\xef\xbb\xbfc\n", 2),
        (b"a\n# b\xef\xbb\xbfc\n", 2),
        (b"a\n\n\xef\xbb\xbf", 3),
    ];
    for (text, line) in cases {
        let fault = read(text).expect_err("a fault");
        assert_eq!((fault.line, fault.what), (line, What::Mark), "{fault}");
        assert!(fault.to_string().contains("a byte order mark"), "{fault}");
    }
    // Written by escapes its bytes are a tag like others.
    let tag = b"\xef\xbb\xbfpreview-17";
    assert_eq!(tags_of(b"\\xef\\xbb\\xbfpreview-17\n"), [tag]);
}

#[test]
fn what_an_editor_may_show_as_a_line_of_its_own_is_a_fault_in_a_remark() {
    for byte in (0..=u8::MAX).filter(|byte| *byte != b'\n') {
        let text = [b"a\n# b", &[byte][..], b"preview-23\n"].concat();
        let said = read(&text).map_err(|fault| (fault.line, fault.what));
        match byte {
            b'\t' => assert_eq!(said, Ok(TagSet::new(["a"]).expect("lawful"))),
            0..=31 | 127 => assert_eq!(said, Err((2, What::End))),
            _ => assert_eq!(said, Ok(TagSet::new(["a"]).expect("lawful"))),
        }
    }
    for end in ['\u{85}', '\u{2028}', '\u{2029}'] {
        let fault = read(format!("a\n# b{end}preview-23\n").as_bytes()).expect_err("a fault");
        assert_eq!((fault.line, fault.what), (2, What::End), "{fault}");
        let alone = read(format!("a\n{end}preview-23\n").as_bytes()).expect_err("a fault");
        assert_eq!(alone.line, 2, "{alone}");
    }
    assert_eq!(tags_of(b"# b\r\npreview-23\r\n"), [b"preview-23"]);
}

/// Random numbers (xorshift).
fn random(state: &mut u64) -> u64 {
    *state ^= *state << 13;
    *state ^= *state >> 7;
    *state ^= *state << 17;
    *state >> 8
}

#[test]
fn what_is_written_is_read_as_the_same_set() {
    let mut state = 0x5EED_0005;
    let odd = b" #\\~\n\r\tx4\0\x7f\xff\xef\xbb\xbfxX";
    for _ in 0..500 {
        let mut tags: Vec<(Kind, Vec<u8>)> = Vec::new();
        for _ in 0..=random(&mut state) % 16 {
            let length = 1 + random(&mut state) % 32;
            let byte = |_| match random(&mut state) % 3 {
                0 => random(&mut state) as u8,
                _ => odd[random(&mut state) as usize % odd.len()],
            };
            let tag: Vec<u8> = (0..length).map(byte).collect();
            let kind = [Kind::Exact, Kind::Folded][random(&mut state) as usize % 2];
            let mut others = tags.iter().map(|(kind, other)| Entry::new(*kind, other));
            if !others.any(|other| other == Entry::new(kind, &tag)) {
                tags.push((kind, tag));
            }
        }
        let entries = tags.iter().map(|(kind, tag)| Entry::new(*kind, tag));
        let set = TagSet::new(entries).expect("a lawful set");
        let text = written(&set);
        assert!(text
            .bytes()
            .all(|byte| byte == b'\n' || (b' '..=b'~').contains(&byte)));
        assert_eq!(read(text.as_bytes()), Ok(set), "{text}");
    }
}

/// The program, started as cargo starts programs for its target.
fn sleet_set(arguments: &[&str], input: &[u8]) -> Output {
    let program = env!("CARGO_BIN_EXE_sleet-set");
    let runner = std::env::var("CARGO_TARGET_X86_64_UNKNOWN_LINUX_GNU_RUNNER").unwrap_or_default();
    let words: Vec<&str> = runner.split_whitespace().chain([program]).collect();
    let mut child = Command::new(words[0])
        .args(&words[1..])
        .args(arguments)
        .stdin(Stdio::piped())
        .stdout(Stdio::piped())
        .stderr(Stdio::piped())
        .spawn()
        .expect("the program starts");
    // It may end without reading its input.
    let _ = child.stdin.take().expect("a pipe").write_all(input);
    child.wait_with_output().expect("the program ends")
}

fn said(output: &Output) -> (Option<i32>, String, String) {
    let text = |bytes: &[u8]| String::from_utf8_lossy(bytes).into_owned();
    (
        output.status.code(),
        text(&output.stdout),
        text(&output.stderr),
    )
}

/// An empty folder of this test's own.
fn folder(name: &str) -> PathBuf {
    let folder = PathBuf::from(env!("CARGO_TARGET_TMPDIR")).join(name);
    let _ = fs::remove_dir_all(&folder);
    fs::create_dir_all(&folder).expect("a folder");
    folder
}

#[test]
fn the_program_makes_a_set_and_lists_it() {
    let folder = folder("sleet-set");
    let file = |name: &str| folder.join(name).to_str().expect("a name").to_string();
    let (text, bin, again) = (file("in.txt"), file("set.bin"), file("again.bin"));
    fs::write(&text, "# withdrawn\n\\~preview-17\nfree \\#4\\x20\n").expect("written");
    let nothing = (Some(0), String::new(), String::new());
    assert_eq!(said(&sleet_set(&["make", &text, &bin], b"")), nothing);
    let set = TagSet::from_bytes(fs::read(&bin).expect("made")).expect("lawful");
    assert_eq!(set.tag(Tag(0)), Some(Entry::folded("preview-17")));
    assert_eq!(set.tag(Tag(1)), Some(Entry::exact("free #4 ")));
    let listed = sleet_set(&["list", &bin], b"");
    let expected = "# tags: 2; bytes of the set: 26\n# tag 0, length 10, folded\n\\~preview-17\n\
                    # tag 1, length 8\nfree \\#4\\x20\n";
    assert_eq!(said(&listed), (Some(0), expected.into(), String::new()));
    // What is listed makes the same set, by pipes too, and over a file that is there.
    fs::write(&again, "old").expect("written");
    assert_eq!(
        said(&sleet_set(&["make", "-", &again], &listed.stdout)),
        nothing
    );
    assert_eq!(fs::read(&again).expect("made"), set.as_bytes());
    let piped = sleet_set(&["make", "-", "-"], &listed.stdout);
    assert_eq!(
        (piped.status.code(), &piped.stdout[..]),
        (Some(0), set.as_bytes())
    );
    assert_eq!(
        sleet_set(&["list", "-"], &piped.stdout).stdout,
        listed.stdout
    );
    // A faulty text writes nothing, and leaves nothing beside it.
    let faulty = sleet_set(&["make", "-", &again], b"a\n\na\n");
    let words = "sleet-set: standard input or output: line 3: the tag of line 1 again\n";
    assert_eq!(said(&faulty), (Some(1), String::new(), words.into()));
    assert_eq!(fs::read(&again).expect("made"), set.as_bytes());
    assert_eq!(fs::read_dir(&folder).expect("a folder").count(), 3);
}

#[test]
fn the_program_refuses_what_an_eye_can_not_see() {
    let told = |words: &str| {
        let words = format!("sleet-set: standard input or output: {words}\n");
        (Some(1), String::new(), words)
    };
    let make = |text: &[u8]| said(&sleet_set(&["make", "-", "-"], text));
    // Two texts, joined by cat; the second was saved with a mark.
    let monday = &b"# withdrawn on Monday\npreview-17\n"[..];
    let tuesday = b"\xef\xbb\xbfpreview-23\n";
    let mark = "a byte order mark; save the text without it, each text where several were joined";
    let joined = [monday, tuesday].concat();
    assert_eq!(make(&joined), told(&format!("line 3: {mark}")));
    let unended = [&monday[..monday.len() - 1], tuesday].concat();
    assert_eq!(make(&unended), told(&format!("line 2: {mark}")));
    for (letter, words) in [('\u{a0}', "\\xc2"), ('\u{200b}', "\\xe2")] {
        let text = format!("preview-17\npreview-23{letter}\n");
        let high = format!(
            "line 2: byte 11 is above ASCII, and an eye can't be sure of it; \
             write {words} where the tag has it"
        );
        assert_eq!(make(text.as_bytes()), told(&high));
    }
    // A set that has such bytes is listed by escapes, and made again from its list.
    let set = TagSet::new(["Z\u{fc}rich", "preview-17\u{200b}", "\u{feff}a"]).expect("lawful");
    let listed = sleet_set(&["list", "-"], set.as_bytes());
    let expected = "# tags: 3; bytes of the set: 36\n# tag 0, length 7\nZ\\xc3\\xbcrich\n\
                    # tag 1, length 13\npreview-17\\xe2\\x80\\x8b\n\
                    # tag 2, length 4\n\\xef\\xbb\\xbfa\n";
    assert_eq!(said(&listed), (Some(0), expected.into(), String::new()));
    let again = sleet_set(&["make", "-", "-"], &listed.stdout);
    assert_eq!(
        (again.status.code(), &again.stdout[..]),
        (Some(0), set.as_bytes())
    );
}

#[test]
fn the_program_says_what_is_wrong() {
    let folder = folder("sleet-set-wrong");
    let file = |name: &str| folder.join(name).to_str().expect("a name").to_string();
    let refused = said(&sleet_set(&["list", "-"], b"preview-17"));
    let words = "sleet-set: standard input or output: refused with 3, KIND: the kind of entry 0 \
                 isn't taken: gates, desks and split tables take 1, exact, and 2, folded; \
                 whole-byte and bitmap tables take 1 alone\n";
    assert_eq!(refused, (Some(1), String::new(), words.into()));
    for arguments in [
        &["make", &file("none.txt"), &file("out.bin")][..],
        &["list", &file("none.bin")],
        &["make", "-", &file("no/folder.bin")],
    ] {
        let (status, output, words) = said(&sleet_set(arguments, b"a\n"));
        assert_eq!((status, &output[..]), (Some(1), ""), "{arguments:?}");
        assert!(
            words.starts_with("sleet-set: ") && words.contains("/no"),
            "{words}"
        );
    }
    for arguments in [
        &[][..],
        &["make"],
        &["make", "-"],
        &["list"],
        &["list", "-", "-"],
        &["-"],
    ] {
        let (status, output, words) = said(&sleet_set(arguments, b""));
        assert_eq!((status, &output[..]), (Some(2), ""), "{arguments:?}");
        assert!(words.contains("usage: sleet-set make"), "{words}");
    }
    let (status, output, words) = said(&sleet_set(&["--help"], b""));
    assert_eq!((status, &words[..]), (Some(0), ""));
    assert!(output.contains("usage: sleet-set make"), "{output}");
    let version = concat!("sleet-set ", env!("CARGO_PKG_VERSION"), "\n").to_string();
    assert_eq!(
        said(&sleet_set(&["--version"], b"")),
        (Some(0), version, String::new())
    );
}
