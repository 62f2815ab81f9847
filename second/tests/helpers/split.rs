//! Calls in the split layout, with their answers.

use super::check;

/// A reading in the split layout from the start, into a list of so many
/// numbers.
pub fn read(room: usize, bytes: &str) -> String {
    format!("read split 0 {room}{} {bytes}", " 0".repeat(16))
}

/// Its answer where it stops at once.
pub fn stopped(why: &str, room: usize) -> String {
    let (place, list) = (" 0".repeat(16), " 7".repeat(room));
    format!("taken 0 stop {why} records 0 place{place}|list{list}")
}

/// Makes the calls on a new desk, each with its answer.
pub fn check_calls(calls: &[(String, String)]) {
    let calls: Vec<(&str, &str)> = calls
        .iter()
        .map(|(call, answer)| (call.as_str(), answer.as_str()))
        .collect();
    check(&calls);
}

pub fn call(call: &str, answer: &str) -> (String, String) {
    (call.to_string(), answer.to_string())
}

/// Sets these words, of no blanks, lends so many slots of each table, and builds.
pub fn built(set: &str, tags: usize, slots: [usize; 2]) -> Vec<(String, String)> {
    let [first, second] = slots.map(|s| 24 * s);
    // An entry has four bytes before its payload, a word two marks about it.
    let bytes: usize = set
        .split(' ')
        .map(|word| word.trim_matches('~').len() + 2)
        .sum();
    vec![
        call(&format!("set {set}"), &format!("set {bytes}")),
        call(&format!("lend {first}"), &format!("lent {first}")),
        call(&format!("lend {second} 1"), &format!("lent {second}")),
        call("build split", &format!("tags {tags}")),
    ]
}
