//! Changing a script at random, by lines, words, numbers and bytes.

use crate::generate::cases::recased;
use crate::rng::Rng;

/// No mutant is longer, so that a run stays short.
const LONGEST: usize = 60_000;

/// Numbers at the edges of the calls' bounds.
const NUMBERS: &[&str] = &[
    "0",
    "1",
    "2",
    "16",
    "17",
    "18",
    "19",
    "20",
    "23",
    "24",
    "25",
    "256",
    "257",
    "512",
    "513",
    "2047",
    "2048",
    "2049",
    "9746",
    "9747",
    "9748",
    "11496",
    "12312",
    "16383",
    "16384",
    "16385",
    "65535",
    "65536",
    "131840",
    "131841",
    "131842",
    "4294967295",
    "4294967296",
    "18446744073709551616",
    "00000000000000000001",
];

/// The names of the layouts.
const LAYOUTS: &[&str] = &["split", "whole", "bitmap"];

/// The script with one to six changes; `other` is a script to take lines from.
pub fn mutant(rng: &mut Rng, script: &[u8], other: &[u8]) -> Vec<u8> {
    let mut lines = lines_of(script);
    for _ in 0..rng.between(1, 6) {
        match rng.below(13) {
            0 => spliced(rng, &mut lines, &lines_of(other)),
            1 => doubled(rng, &mut lines),
            2 => swapped(rng, &mut lines),
            3 => dropped(rng, &mut lines),
            4 => joined(rng, &mut lines),
            5 => laid_out_anew(rng, &mut lines),
            6 => of_another_table(rng, &mut lines),
            7 => of_another_kind(rng, &mut lines),
            8 => in_other_cases(rng, &mut lines),
            _ => changed_line(rng, &mut lines, other),
        }
    }
    let mut bytes = lines.join(&b'\n');
    bytes.truncate(LONGEST);
    bytes
}

fn lines_of(script: &[u8]) -> Vec<Vec<u8>> {
    script
        .split(|byte| *byte == b'\n')
        .map(<[u8]>::to_vec)
        .collect()
}

/// Some lines of another script, put in at any place.
fn spliced(rng: &mut Rng, lines: &mut Vec<Vec<u8>>, other: &[Vec<u8>]) {
    let from = rng.below(other.len());
    let to = (from + rng.between(1, 12)).min(other.len());
    let at = rng.below(lines.len() + 1);
    lines.splice(at..at, other[from..to].iter().cloned());
}

/// A line again, once or many times: a list fills, and serials run out of rooms.
fn doubled(rng: &mut Rng, lines: &mut Vec<Vec<u8>>) {
    let at = rng.below(lines.len());
    let line = lines[at].clone();
    let times = rng.one_of(&[1, 1, 2, 17, 260]);
    let times = times.min(LONGEST / (line.len() + 1));
    lines.splice(at..at, std::iter::repeat(line).take(times));
}

fn swapped(rng: &mut Rng, lines: &mut [Vec<u8>]) {
    let (a, b) = (rng.below(lines.len()), rng.below(lines.len()));
    lines.swap(a, b);
}

fn dropped(rng: &mut Rng, lines: &mut Vec<Vec<u8>>) {
    if lines.len() > 1 {
        let at = rng.below(lines.len());
        lines.remove(at);
    }
}

/// A line's end is lost.
fn joined(rng: &mut Rng, lines: &mut Vec<Vec<u8>>) {
    if lines.len() > 1 {
        let at = rng.below(lines.len() - 1);
        let next = lines.remove(at + 1);
        lines[at].extend(next);
    }
}

/// A line that begins with one of these words and a blank, or nothing where
/// there is none.
fn line_of(rng: &mut Rng, lines: &[Vec<u8>], names: &[&str]) -> Option<usize> {
    let is_one = |line: &Vec<u8>| {
        let mut names = names.iter().map(|name| format!("{name} "));
        names.any(|front| line.starts_with(front.as_bytes()))
    };
    let at: Vec<usize> = (0..lines.len()).filter(|at| is_one(&lines[*at])).collect();
    rng.pick(&at)
}

fn words_of(line: &[u8]) -> Vec<Vec<u8>> {
    let words = line.split(|byte| *byte == b' ');
    words.map(<[u8]>::to_vec).collect()
}

/// A building or a reading goes in any layout: over the same numbers, and a
/// reading from the same place, of which one state is kept, or is there sixteen
/// times.
fn laid_out_anew(rng: &mut Rng, lines: &mut [Vec<u8>]) {
    let Some(at) = line_of(rng, lines, &["build", "read"]) else {
        return;
    };
    let mut words = words_of(&lines[at]);
    let name = rng.pick(LAYOUTS).unwrap_or("split");
    let places = |name: &[u8]| if name == b"split" { 16 } else { 1 };
    let (old, new) = (places(&words[1]), places(name.as_bytes()));
    words[1] = name.as_bytes().to_vec();
    // A reading's words are its name, LAYOUT, COUNT, ROOM, then the places.
    if words[0] == b"read" && words.len() > 4 + old {
        let state = words[4].clone();
        words.splice(4..4 + old, vec![state; new]);
    }
    lines[at] = words.join(&b' ');
}

/// A lending, a poke or a peek is of table 1, or 0, or of none that there is.
fn of_another_table(rng: &mut Rng, lines: &mut [Vec<u8>]) {
    let Some(at) = line_of(rng, lines, &["lend", "poke", "peek"]) else {
        return;
    };
    let mut words = words_of(&lines[at]);
    let without = if words[0] == b"lend" { 2 } else { 3 };
    words.truncate(without);
    let table = rng.pick(&["1", "1", "1", "0", "01", "2", ""]);
    words.push(table.unwrap_or("1").as_bytes().to_vec());
    lines[at] = words.join(&b' ');
}

/// A tag of a set's words is of the other kind: `~` comes or goes.
fn of_another_kind(rng: &mut Rng, lines: &mut [Vec<u8>]) {
    let Some(at) = line_of(rng, lines, &["set"]) else {
        return;
    };
    let line = &mut lines[at];
    let opens = |at: &usize| line[*at] == b'"' && b" ~".contains(&line[*at - 1]);
    let marks: Vec<usize> = (1..line.len()).filter(opens).collect();
    match rng.pick(&marks) {
        Some(mark) if line[mark - 1] == b'~' => drop(line.remove(mark - 1)),
        Some(mark) => line.insert(mark, b'~'),
        None => {}
    }
}

/// The letters of a set's or a piece's last word are in other cases. (What is
/// written in digits is so no longer a word.)
fn in_other_cases(rng: &mut Rng, lines: &mut [Vec<u8>]) {
    let Some(at) = line_of(rng, lines, &["set", "feed", "read"]) else {
        return;
    };
    let line = &mut lines[at];
    let last = line.iter().rposition(|byte| *byte == b' ').unwrap_or(0);
    let word = recased(rng, &line[last..]);
    line.splice(last.., word);
}

fn changed_line(rng: &mut Rng, lines: &mut [Vec<u8>], other: &[u8]) {
    let at = rng.below(lines.len());
    lines[at] = match rng.below(3) {
        0 => changed_byte(rng, &lines[at], other),
        1 => changed_word(rng, &lines[at]),
        _ => changed_bit(rng, &lines[at]),
    };
}

/// A byte put in, put over another, or taken out.
fn changed_byte(rng: &mut Rng, line: &[u8], other: &[u8]) -> Vec<u8> {
    let mut line = line.to_vec();
    let at = rng.below(line.len());
    let any = rng.byte();
    let found = rng.pick(other).unwrap_or(b' ');
    let sharp = rng.pick(b" \"-x0159af~\r\0#\xff").unwrap_or(b' ');
    let byte = rng.pick(&[any, found, sharp, sharp]).unwrap_or(b' ');
    match rng.below(3) {
        _ if line.is_empty() => line.push(byte),
        0 => line.insert(at, byte),
        1 => line[at] = byte,
        _ => drop(line.remove(at)),
    }
    line
}

/// A word replaced by a number at an edge, doubled or taken out.
fn changed_word(rng: &mut Rng, line: &[u8]) -> Vec<u8> {
    let mut words = words_of(line);
    let at = rng.below(words.len());
    match rng.below(4) {
        0 => words.insert(at, words[at].clone()),
        1 if words.len() > 1 => drop(words.remove(at)),
        _ => words[at] = rng.pick(NUMBERS).unwrap_or("0").as_bytes().to_vec(),
    }
    words.join(&b' ')
}

fn changed_bit(rng: &mut Rng, line: &[u8]) -> Vec<u8> {
    let mut line = line.to_vec();
    if !line.is_empty() {
        let at = rng.below(line.len());
        line[at] ^= 1 << rng.below(8);
    }
    line
}
