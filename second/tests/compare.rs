//! The comparison: scripts are repeatable and reach every answer they can, the
//! program agrees with itself, and a fault put in is found and shrunk.
#![cfg(unix)]

use second::differ::answers;
use second::generate::script;
use second::reading::Stop;
use second::shrink::shrink;
use second::tally::Tally;
use std::fs::{self, Permissions};
use std::os::unix::fs::PermissionsExt;
use std::path::{Path, PathBuf};
use std::process::{Command, Output};

const SECOND: &str = env!("CARGO_BIN_EXE_second");
const COMPARE: &str = env!("CARGO_BIN_EXE_compare");
const SCRIPT: &str = env!("CARGO_BIN_EXE_script");

/// A folder of the test's own.
fn folder(name: &str) -> PathBuf {
    let folder = Path::new(env!("CARGO_TARGET_TMPDIR")).join(name);
    fs::create_dir_all(&folder).expect("a folder");
    folder
}

/// A copy of this program whose answers go through a sed command.
fn broken(folder: &Path, sed: &str) -> PathBuf {
    let path = folder.join("broken");
    let text = format!("#!/bin/sh\n'{SECOND}' | sed '{sed}'\n");
    fs::write(&path, text).expect("a file");
    fs::set_permissions(&path, Permissions::from_mode(0o755)).expect("permissions");
    path
}

fn compare(folder: &Path, program: &Path, arguments: &[&str]) -> (Option<i32>, String) {
    let mut command = Command::new(COMPARE);
    command.current_dir(folder).arg(program).args(arguments);
    let Output { status, stdout, .. } = command.output().expect("compare runs");
    (status.code(), String::from_utf8_lossy(&stdout).into_owned())
}

#[test]
fn scripts_are_repeatable_and_of_the_length_asked_for() {
    for (seed, calls) in [(1, 0), (2, 1), (3, 50), (u64::MAX, 120)] {
        let text = script(seed, calls);
        assert_eq!(text, script(seed, calls));
        let mut lines: Vec<usize> = answers(&text).iter().map(|a| a.line).collect();
        lines.dedup();
        assert_eq!(lines.len(), calls);
        let printed = Command::new(SCRIPT)
            .args([seed.to_string(), calls.to_string()])
            .output();
        assert_eq!(printed.expect("script runs").stdout, text);
    }
}

#[test]
fn scripts_reach_every_answer_they_can() {
    let mut tally = Tally::default();
    for seed in 1..=40 {
        for answer in answers(&script(seed, 400)) {
            tally.count(&answer.text);
        }
    }
    for number in 1..=16 {
        match number {
            8 | 10 => assert_eq!(tally.refused(number), 0),
            _ => assert!(tally.refused(number) >= 5, "refusal {number}: {tally}"),
        }
    }
    for stop in [Stop::All, Stop::Full, Stop::Damaged] {
        assert!(tally.stopped(stop) >= 100, "{tally}");
    }
    assert!(tally.not_calls() >= 50, "{tally}");
}

#[test]
fn the_program_agrees_with_itself() {
    let folder = folder("itself");
    let (code, said) = compare(
        &folder,
        Path::new(SECOND),
        &["--scripts", "12", "--seed", "77"],
    );
    assert_eq!(code, Some(0), "{said}");
    assert!(said.starts_with("compared 12 scripts, 4800 calls; refusals 1:"));
    assert!(said.ends_with("; 0 differences\n"));
}

#[test]
fn a_fault_is_found_and_shrunk() {
    let folder = folder("fault");
    let program = broken(&folder, "s/^refused 13 .*/refused 12/");
    let (code, said) = compare(&folder, &program, &["--scripts", "40", "--calls", "200"]);
    assert_eq!(code, Some(1), "{said}");
    let lines: Vec<&str> = said.lines().collect();
    assert!(lines[0].starts_with("difference: seed "), "{said}");
    assert!(lines[1].contains("feed "), "{said}");
    assert!(lines[2].starts_with("second:  refused 13 "), "{said}");
    assert_eq!(lines[3], "program: refused 12");
    let file = lines[4].strip_prefix("script: ").expect("a file is named");
    let shrink = format!("{COMPARE} {} --shrink {file}", program.display());
    assert_eq!(lines[5].strip_prefix("shrink: "), Some(shrink.as_str()));
    let (code, shrunk) = compare(&folder, &program, &["--shrink", file]);
    assert_eq!(code, Some(1), "{shrunk}");
    // A set, a replacement, an opening, a replacement, a feed; another set may
    // stand between.
    assert!(shrunk.lines().count() <= 6, "{shrunk}");
    let last = answers(shrunk.as_bytes()).pop().map(|answer| answer.text);
    assert_eq!(last.as_deref(), Some("refused 13 1"), "{shrunk}");
}

#[test]
fn other_faults_are_found() {
    let folder = folder("others");
    for sed in [
        "$d",
        "s/^refused 15$/refused 14/",
        "s/^list$/list /",
        "s/254/8/",
        "s/^refused 7 253 /refused 7 254 /",
        "s/ moves 1 / moves 0 /",
        "s/^refused 7 8 /refused 7 0 /",
        "s/^refused 6 \\([1-9]\\)$/refused 6 0/",
    ] {
        let program = broken(&folder, sed);
        let (code, said) = compare(&folder, &program, &["--scripts", "20"]);
        assert_eq!(code, Some(1), "{sed}: {said}");
    }
    // A program that fails after the right answers.
    let failing = folder.join("failing");
    fs::copy(broken(&folder, ""), &failing).expect("a copy");
    let text = fs::read_to_string(&failing).expect("text") + "exit 3\n";
    fs::write(&failing, text).expect("a file");
    let (code, said) = compare(&folder, &failing, &["--scripts", "1"]);
    assert_eq!(code, Some(1), "{said}");
}

#[test]
fn shrinking_leaves_what_is_needed() {
    let script = b"show\nset \"abcdef\" \"xyz\"\nopen\nfeed 1 x0102ff03\ntake\nshow";
    let mut differs = |script: &[u8]| {
        let text = String::from_utf8_lossy(script).into_owned();
        text.contains("feed") && text.contains("ff") && text.contains('y')
    };
    let shortest = shrink(script, &mut differs);
    assert_eq!(String::from_utf8_lossy(&shortest), "\"y\"\nfeed xff\n");
}

#[test]
fn shrinking_knows_folded_words_and_tables() {
    let script = b"lend 24 1\nset \"ab\" ~\"c d\" ~\"ef\"\npoke 1 2 1\n";
    let mut differs = |script: &[u8]| {
        let text = String::from_utf8_lossy(script).into_owned();
        text.contains("~\"") && text.contains('d') && text.contains('f')
    };
    let shortest = shrink(script, &mut differs);
    assert_eq!(String::from_utf8_lossy(&shortest), "\"d\" ~\"f\"\n");
    // The `~` goes where the difference stays without it.
    let mut differs = |script: &[u8]| script.windows(3).any(|bytes| bytes == b"c d");
    let shortest = shrink(script, &mut differs);
    assert_eq!(String::from_utf8_lossy(&shortest), "\"c d\"\n");
}

#[test]
fn a_file_that_cannot_be_read() {
    let folder = folder("file");
    for name in ["absent.txt", "."] {
        let ran = Command::new(SECOND).current_dir(&folder).arg(name).output();
        let Output {
            status,
            stdout,
            stderr,
        } = ran.expect("second runs");
        assert_eq!(status.code(), Some(1));
        assert_eq!(stdout, b"");
        assert_eq!(stderr.iter().filter(|byte| **byte == b'\n').count(), 1);
    }
    fs::write(folder.join("script.txt"), "open\n\0\n").expect("a file");
    let ran = Command::new(SECOND)
        .current_dir(&folder)
        .arg("script.txt")
        .output();
    assert_eq!(
        ran.expect("second runs").stdout,
        b"refused 9\nline 2: not a call\n"
    );
}

#[test]
fn fuzzing_finds_a_fault_and_agrees_with_itself() {
    let folder = folder("fuzz");
    let fuzz = |program: &Path| {
        let mut command = Command::new(env!("CARGO_BIN_EXE_fuzz"));
        command.current_dir(&folder).arg(program);
        command.args(["--scripts", "300", "--seconds", "600"]);
        let Output { status, stdout, .. } = command.output().expect("fuzz runs");
        (status.code(), String::from_utf8_lossy(&stdout).into_owned())
    };
    let (code, said) = fuzz(Path::new(SECOND));
    assert_eq!(code, Some(0), "{said}");
    assert!(said.starts_with("fuzzed 300 scripts, "), "{said}");
    let (code, said) = fuzz(&broken(&folder, "s/^refused 15$/refused 14/"));
    assert_eq!(code, Some(1), "{said}");
    assert!(said.contains("second:  refused 15"), "{said}");
}
