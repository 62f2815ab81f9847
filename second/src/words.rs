//! The words of a script's line: docs/FORMATS.md, "Replay scripts".

/// A word of a line.
#[derive(Clone, Copy, Debug, PartialEq, Eq)]
pub enum Word<'a> {
    /// Anything but blanks, beginning neither with a quotation mark nor with
    /// `~` and a quotation mark.
    Plain(&'a [u8]),
    /// What stands between two quotation marks, blanks allowed.
    Quoted(&'a [u8]),
    /// The same with `~` right before the first mark. It is no BYTES: only
    /// `set` has such words.
    Folded(&'a [u8]),
}

/// Words are parted by single blanks; an empty word, as two blanks in a row or
/// a blank at either end would make, is no word of any call.
pub fn words(line: &[u8]) -> Option<Vec<Word<'_>>> {
    let mut words = Vec::new();
    let mut rest = line;
    loop {
        let (word, after) = first_word(rest)?;
        words.push(word);
        match after {
            [] => return Some(words),
            [b' ', next @ ..] => rest = next,
            // A quotation mark closed, and neither a blank nor the end follows.
            _ => return None,
        }
    }
}

/// The word at the front of `rest` and what follows it.
fn first_word(rest: &[u8]) -> Option<(Word<'_>, &[u8])> {
    if let [b'"', behind_mark @ ..] = rest {
        let (inside, after) = up_to_mark(behind_mark)?;
        return Some((Word::Quoted(inside), after));
    }
    if let [b'~', b'"', behind_mark @ ..] = rest {
        let (inside, after) = up_to_mark(behind_mark)?;
        return Some((Word::Folded(inside), after));
    }
    let blank = rest.iter().position(|byte| *byte == b' ');
    let (plain, after) = rest.split_at(blank.unwrap_or(rest.len()));
    (!plain.is_empty()).then_some((Word::Plain(plain), after))
}

/// What stands before the next quotation mark, and what stands behind it.
fn up_to_mark(bytes: &[u8]) -> Option<(&[u8], &[u8])> {
    let length = bytes.iter().position(|byte| *byte == b'"')?;
    Some((&bytes[..length], &bytes[length + 1..]))
}

/// NUMBER: one or more decimal digits, at most 4294967295.
pub fn number(word: Word) -> Option<u32> {
    let Word::Plain(digits) = word else {
        return None;
    };
    if digits.is_empty() {
        return None;
    }
    let mut value = 0u32;
    for digit in digits {
        if !digit.is_ascii_digit() {
            return None;
        }
        value = value.checked_mul(10)?;
        value = value.checked_add(u32::from(digit - b'0'))?;
    }
    Some(value)
}

/// A NUMBER that the call bounds further.
pub fn at_most(word: Word, bound: usize) -> Option<usize> {
    let value = usize::try_from(number(word)?).ok()?;
    (value <= bound).then_some(value)
}

/// A NUMBER that is put where a 16-bit number stands.
pub fn number_16(word: Word) -> Option<u16> {
    u16::try_from(number(word)?).ok()
}

/// BYTES: `-`, or `x` and hexadecimal digits, or a quoted word.
pub fn bytes(word: Word) -> Option<Vec<u8>> {
    match word {
        Word::Quoted(inside) => Some(inside.to_vec()),
        Word::Plain(b"-") => Some(vec![]),
        Word::Plain([b'x', digits @ ..]) => hexadecimal(digits),
        Word::Plain(_) | Word::Folded(_) => None,
    }
}

/// An even number (0 too) of hexadecimal digits in lower case.
fn hexadecimal(digits: &[u8]) -> Option<Vec<u8>> {
    let pair = |pair: &[u8]| match pair {
        [high, low] => Some(digit(*high)? * 16 + digit(*low)?),
        // The last digit of an odd number of them stands alone.
        _ => None,
    };
    digits.chunks(2).map(pair).collect()
}

fn digit(digit: u8) -> Option<u8> {
    match digit {
        b'0'..=b'9' => Some(digit - b'0'),
        b'a'..=b'f' => Some(digit - b'a' + 10),
        _ => None,
    }
}
