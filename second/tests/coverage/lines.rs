//! What the lines come past that name a table or have `~`.

use crate::{see, Seen};

/// Counts by the line's words and whether it is a call.
pub fn count(seen: &mut Seen, line: &[u8], answer: &str) {
    let line = String::from_utf8_lossy(line);
    let words: Vec<&str> = line.split(' ').collect();
    let is_call = !answer.starts_with("line");
    let table = match words[0] {
        "lend" => words.get(2),
        "poke" | "peek" => words.get(3),
        _ => None,
    };
    if let (Some(table), true) = (table, is_call) {
        let zeros = table.len() > 1;
        let number: usize = table.parse().expect("a table");
        see(seen, format!("{} of table {number}, said", words[0]));
        see(seen, format!("a table with leading zeros: {zeros}"));
    }
    if let (Some(&"2"), false) = (table, is_call) {
        see(seen, format!("{} of table 2", words[0]));
    }
    if words[0] == "set" && line.contains('~') {
        let plain = words.iter().any(|word| word.starts_with('"'));
        let folded = words.iter().any(|word| word.starts_with("~\""));
        match is_call {
            true => see(seen, format!("set of words, with and without ~: {plain}")),
            false => see(seen, format!("no set, with a word of ~: {folded}")),
        }
    }
    if words[0] != "set" && line.contains(" ~\"") && !is_call {
        see(seen, "a folded word in another call");
    }
}

pub fn wanted() -> Vec<String> {
    let mut wanted = vec!["a folded word in another call".to_string()];
    for call in ["lend", "poke", "peek"] {
        wanted.push(format!("{call} of table 0, said"));
        wanted.push(format!("{call} of table 1, said"));
        wanted.push(format!("{call} of table 2"));
    }
    for so in [false, true] {
        wanted.push(format!("a table with leading zeros: {so}"));
        wanted.push(format!("set of words, with and without ~: {so}"));
        wanted.push(format!("no set, with a word of ~: {so}"));
    }
    wanted
}
