//! Odd lines: at the edges of the grammar, long ones, and comments.

use super::bad_sets::either;
use super::edge_lines::LINES;
use super::pieces::{hexadecimal, quoted, tag_word};
use crate::replay::LONGEST_LINE;
use crate::rng::Rng;
use crate::set::Tag;

/// A line at an edge, or a line of the script so far with one byte changed.
pub fn line(rng: &mut Rng, script: &[u8]) -> Vec<u8> {
    if rng.once_in(2) {
        return rng.pick(LINES).unwrap_or(b" ").to_vec();
    }
    let lines: Vec<&[u8]> = script.split(|byte| *byte == b'\n').collect();
    let mut line = rng.pick(&lines).unwrap_or(b" ").to_vec();
    line.truncate(LONGEST_LINE);
    let at = rng.below(line.len());
    let byte = rng.pick(b"  \"\"--xX019~~\0\r#\xff").unwrap_or(b' ');
    match rng.below(3) {
        0 => line.insert(at, byte),
        1 if !line.is_empty() => line[at] = byte,
        _ if !line.is_empty() => drop(line.remove(at)),
        _ => {}
    }
    line
}

/// An empty line or a comment.
pub fn silent(rng: &mut Rng) -> Vec<u8> {
    let lines: [&[u8]; 5] = [b"", b"#", b"# a comment", b"#open", b"#\0\r\xff \""];
    rng.pick(&lines).unwrap_or(b"").to_vec()
}

/// A line of 20,000 bytes, or one byte either side of it, or far more.
pub fn long(rng: &mut Rng, serial: u32, filling: u8) -> Vec<u8> {
    let length = rng.one_of(&[19_999, 20_000, 20_000, 20_001, 20_001, 45_000]);
    let feed = format!("feed {serial} ").into_bytes();
    let left = length - feed.len();
    match rng.below(6) {
        0 => vec![b'#'; length],
        1 => vec![b' '; length],
        // A number with many leading zeros, of a length or of a table, which is
        // a call up to 20,000.
        2 => match rng.below(2) {
            0 => format!("lend {:0>width$}", 11_496, width = length - 5).into_bytes(),
            _ => format!("lend 11496 {:0>width$}", 1, width = length - 11).into_bytes(),
        },
        3 => [feed, hexadecimal(&vec![filling; (left - 1) / 2])].concat(),
        _ => [feed, quoted(&vec![filling; left - 2])].concat(),
    }
}

/// A set of 4,096 bytes, or one byte either side of it.
pub fn long_set(rng: &mut Rng) -> Vec<u8> {
    let length = rng.one_of(&[4_095, 4_096, 4_097]);
    if rng.once_in(2) {
        let filling = rng.one_of(&[0, 1, 97]) as u8;
        return [b"set ", hexadecimal(&vec![filling; length]).as_slice()].concat();
    }
    // Two quoted words, with `~` or not, make two entries of 4 bytes and their
    // payloads.
    let first = rng.between(0, length - 8);
    let lengths = [first, length - 8 - first];
    let words = lengths.map(|length| {
        tag_word(&Tag {
            kind: either(rng),
            bytes: vec![b'a'; length],
        })
    });
    [b"set ", words.join(&b' ').as_slice()].concat()
}
