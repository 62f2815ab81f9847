//! The occurrences, by direct comparison of bytes: docs/RULES.md, 1.7.

use crate::set::Tag;

/// Every end and tag number such that the tag stands in the input, by its kind,
/// with its last byte at that end; by end, then by tag number.
pub fn occurrences(tags: &[Tag], input: &[u8]) -> Vec<(usize, usize)> {
    let mut found = Vec::new();
    for end in 1..=input.len() {
        for (number, tag) in tags.iter().enumerate() {
            if tag.ends(&input[..end]) {
                found.push((end, number));
            }
        }
    }
    found
}
