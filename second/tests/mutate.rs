//! Mutants: what is one change away from a script comes up.

use second::mutate::mutant;
use second::rng::Rng;
use std::collections::BTreeSet;

/// The lines of many mutants of a script.
fn lines_of_mutants(script: &str) -> BTreeSet<String> {
    let mut rng = Rng::new(3);
    let mut lines = BTreeSet::new();
    for _ in 0..2_000 {
        let mutant = mutant(&mut rng, script.as_bytes(), b"show");
        let text = String::from_utf8_lossy(&mutant).into_owned();
        lines.extend(text.split('\n').map(str::to_string));
    }
    lines
}

fn check(script: &str, wanted: &[&str]) {
    let lines = lines_of_mutants(script);
    for line in wanted {
        assert!(lines.contains(*line), "{line}");
    }
}

#[test]
fn calls_go_to_another_table() {
    let wanted = [
        "lend 24 1",
        "lend 24 01",
        "lend 24 2",
        "lend 24 0",
        "lend 16385",
    ];
    check("lend 24\nshow", &wanted);
    check(
        "poke 1 2 1\nshow",
        &["poke 1 2 0", "poke 1 2 2", "poke 1 2 "],
    );
    check("peek 1 2\nshow", &["peek 1 2 1", "peek 1 2 2"]);
}

#[test]
fn tags_are_of_another_kind_and_in_other_letter_cases() {
    let wanted = ["set \"a\" \"b\"", "set ~\"a\" ~\"b\"", "set ~\"a\" \"B\""];
    check("set ~\"a\" \"b\"\nshow", &wanted);
    check("feed 1 \"ab\"\nshow", &["feed 1 \"AB\"", "feed 1 \"aB\""]);
}

#[test]
fn readings_are_laid_out_anew_with_as_many_places() {
    let split = format!("read split 0 0{} \"b\"", " 5".repeat(16));
    let (whole, bitmap) = ("read whole 0 0 5 \"b\"", "read bitmap 0 0 5 \"b\"");
    check(whole, &[&split, bitmap]);
    check(&split, &[whole, bitmap]);
}
