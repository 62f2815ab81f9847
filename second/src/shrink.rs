//! Shrinking a script to a shortest that still differs.

/// Says whether a script still shows a difference.
type Differs<'a> = &'a mut dyn FnMut(&[u8]) -> bool;

/// Drops lines by halves, then singly, then openings with their serials, then
/// words, then the `~` of words, then bytes of words, and begins again until
/// nothing more can go. The script given differs.
pub fn shrink(script: &[u8], differs: Differs) -> Vec<u8> {
    // Each line keeps its end, so that a last line without one stays so.
    let lines = script.split_inclusive(|byte| *byte == b'\n');
    let mut lines: Vec<Vec<u8>> = lines.map(<[u8]>::to_vec).collect();
    loop {
        let before = lines.concat().len();
        lines = dropped(lines, 1, &mut |lines| differs(&lines.concat()));
        drop_openings(&mut lines, differs);
        for at in 0..lines.len() {
            drop_words(&mut lines, at, differs);
            unfold_words(&mut lines, at, differs);
            shorten_words(&mut lines, at, differs);
        }
        if lines.concat().len() == before {
            return lines.concat();
        }
    }
}

/// The items with every run dropped that can be: runs of half of them first,
/// then of half as many, down to single `unit`s.
fn dropped<T: Clone>(
    mut items: Vec<T>,
    unit: usize,
    differs: &mut dyn FnMut(&[T]) -> bool,
) -> Vec<T> {
    let mut size = items.len();
    loop {
        size = (size / 2 / unit * unit).max(unit);
        let mut at = 0;
        while at < items.len() {
            let mut fewer = items[..at].to_vec();
            let after = (at + size).min(items.len());
            fewer.extend_from_slice(&items[after..]);
            if differs(&fewer) {
                items = fewer;
            } else {
                at = after;
            }
        }
        if size == unit {
            return items;
        }
    }
}

/// Drops openings that are there only for the sake of the later serials.
fn drop_openings(lines: &mut Vec<Vec<u8>>, differs: Differs) {
    let mut at = 0;
    while at < lines.len() {
        let fewer = without_opening(lines, at);
        if lines[at].starts_with(b"open") && differs(&fewer.concat()) {
            *lines = fewer;
        } else {
            at += 1;
        }
    }
}

/// The lines without this opening, each serial given after it lowered by 1.
fn without_opening(lines: &[Vec<u8>], at: usize) -> Vec<Vec<u8>> {
    let opens = |line: &&Vec<u8>| line.starts_with(b"open");
    let serial = lines[..=at].iter().filter(opens).count();
    let lowered = lines[at + 1..].iter().map(|line| lowered(line, serial));
    lines[..at].iter().cloned().chain(lowered).collect()
}

/// A feed, a close or a state of a serial above this one, with its serial lowered
/// by 1; any other line as it is.
fn lowered(line: &[u8], serial: usize) -> Vec<u8> {
    let front = [&b"feed "[..], b"close ", b"state "]
        .into_iter()
        .find(|f| line.starts_with(f));
    let from = front.map_or(0, <[u8]>::len);
    let digits = line[from..].iter().take_while(|byte| byte.is_ascii_digit());
    let (digits, after) = line[from..].split_at(digits.count());
    let number = std::str::from_utf8(digits)
        .ok()
        .and_then(|text| text.parse().ok());
    match number {
        Some(number) if front.is_some() && serial < number => {
            [&line[..from], (number - 1).to_string().as_bytes(), after].concat()
        }
        _ => line.to_vec(),
    }
}

/// Whether the script still differs with another line in this one's stead.
fn differs_with(lines: &mut [Vec<u8>], at: usize, line: Vec<u8>, differs: Differs) -> bool {
    let kept = std::mem::replace(&mut lines[at], line);
    let still = differs(&lines.concat());
    lines[at] = kept;
    still
}

/// Drops whole words of a line.
fn drop_words(lines: &mut [Vec<u8>], at: usize, differs: Differs) {
    let mut words = Vec::new();
    let mut from = 0;
    while let Some((start, end)) = next_word(&lines[at], from) {
        words.push(lines[at][start..end].to_vec());
        from = end;
    }
    let end: &[u8] = match lines[at].ends_with(b"\n") {
        true => b"\n",
        false => b"",
    };
    let line_of = |words: &[Vec<u8>]| [words.join(&b' ').as_slice(), end].concat();
    let fewer = dropped(words.clone(), 1, &mut |words| {
        differs_with(lines, at, line_of(words), differs)
    });
    if fewer.len() < words.len() {
        lines[at] = line_of(&fewer);
    }
}

/// Makes exact tags of a set's folded ones.
fn unfold_words(lines: &mut [Vec<u8>], at: usize, differs: Differs) {
    let mut from = 0;
    while let Some((start, end)) = next_word(&lines[at], from) {
        from = end;
        if lines[at][start..].starts_with(b"~\"") {
            let mut line = lines[at].clone();
            line.remove(start);
            if differs_with(lines, at, line.clone(), differs) {
                lines[at] = line;
                from -= 1;
            }
        }
    }
}

/// Shortens each word of a line as far as the difference stays.
fn shorten_words(lines: &mut [Vec<u8>], at: usize, differs: Differs) {
    let mut from = 0;
    while let Some((start, end)) = next_word(&lines[at], from) {
        let line = lines[at].clone();
        // `x` stays and its digits go by twos; a quoted word keeps its marks,
        // and the `~` before them.
        let (front, unit, back) = match &line[start..end] {
            [b'x', ..] => (1, 2, 0),
            [b'"', _, ..] => (1, 1, 1),
            [b'~', b'"', _, ..] => (2, 1, 1),
            _ => (0, 1, 0),
        };
        let (head, middle) = line[..end - back].split_at(start + front);
        let tail = &line[end - back..];
        let shorter = dropped(middle.to_vec(), unit, &mut |middle| {
            differs_with(lines, at, [head, middle, tail].concat(), differs)
        });
        from = head.len() + shorter.len() + back;
        lines[at] = [head, &shorter, tail].concat();
    }
}

/// Where the next word at or after `from` starts and ends. A quoted word, with
/// `~` before it or not, ends after its second mark, any other before a blank
/// or the line's end.
fn next_word(line: &[u8], from: usize) -> Option<(usize, usize)> {
    let parts = |byte: &u8| *byte == b' ' || *byte == b'\n';
    let rest = line.get(from..)?;
    let start = from + rest.iter().position(|byte| !parts(byte))?;
    let word = &line[start..];
    let up_to_mark = |from: usize| {
        let mark = word[from..].iter().position(|byte| *byte == b'"');
        mark.map(|before| from + before + 1)
    };
    let length = match word {
        [b'"', ..] => up_to_mark(1),
        [b'~', b'"', ..] => up_to_mark(2),
        _ => word.iter().position(parts),
    };
    // A quotation mark that is never closed takes all but the line's end.
    let unclosed = word.strip_suffix(b"\n").unwrap_or(word).len();
    Some((start, start + length.unwrap_or(unclosed)))
}
