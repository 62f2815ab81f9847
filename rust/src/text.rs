//! Sets as text: one tag a line, in a form that shows every byte.
//!
//! | what stands in a line | what it means |
//! |---|---|
//! | nothing but blanks and tabs | the line is passed over |
//! | `#` as its first byte | a remark; the line is passed over |
//! | `\~` in front | the tag behind it is folded; other tags are exact |
//! | `\\`, `\#` | a backslash, a number sign |
//! | `\n`, `\r`, `\t` | bytes 10, 13 and 9 |
//! | `\xHH` | the byte of these two hexadecimal digits, in lower or upper case |
//! | any other printable byte of ASCII | itself |
//!
//! Lines end with a line feed, or with a carriage return and a line feed. What an eye can't see, or
//! may take for something else, is a fault and no tag: a control byte that isn't escaped, a byte of
//! 128 or above (write `\xHH`; the bytes of a letter such as `ü`, and of blanks that have no width),
//! a blank at a tag's front or end (write `\x20`), a `#` behind a blank or behind `\~`, which may be
//! meant as a remark (write `\#`), a plain `~` at a tag's front, which may be meant for `\~` (write
//! `\x7e`), and a `\~` within a line. Within a tag a tilde is written as it is. A byte order mark is a
//! fault in every line: one in the middle tells that two texts were joined there. A remark may have any
//! other bytes but those that an editor may show as a line's end, which would make a tag of what stands
//! behind them: control bytes other than the tab, U+0085, U+2028 and U+2029.
//!
//! Whether the tags make a lawful set, the archive's proved reading says; a fault of its is told
//! with the line of the tag.
//!
//! ```
//! use sleetbarley::{text, Entry, Tag};
//!
//! let set = text::read(b"# withdrawn on Monday\n\\~preview-17\nfree \\#4\\x20\n")?;
//! assert_eq!(set.tag(Tag(0)), Some(Entry::folded("preview-17")));
//! assert_eq!(set.tag(Tag(1)), Some(Entry::exact("free #4 ")));
//! let again = text::read(text::written(&set).as_bytes())?;
//! assert_eq!(again, set);
//!
//! let twice = text::read(b"preview-17\n\npreview-17\n").unwrap_err();
//! assert_eq!(twice.to_string(), "line 3: the tag of line 1 again");
//!
//! let unseen = text::read("preview-17\u{200b}\n".as_bytes()).unwrap_err();
//! assert_eq!((unseen.line, unseen.what), (1, text::What::High { byte: 0xe2, place: 11 }));
//!
//! let plain = text::read(b"~preview-17\n").unwrap_err();
//! assert_eq!(plain.what, text::What::Tilde);
//! # Ok::<(), text::Fault>(())
//! ```

use crate::entry::{Entry, Kind};
use crate::refusal::Refusal;
use crate::set::TagSet;
use std::fmt::{self, Display, Formatter, Write};

/// The byte order mark of UTF-8, which an editor may put in front of a text.
const MARK: &[u8] = b"\xef\xbb\xbf";

/// What stands before a folded tag.
const FOLDED: &[u8] = b"\\~";

/// What an editor may show as the end of a line, besides control bytes: U+0085, U+2028, U+2029.
const ENDS: [&[u8]; 3] = [b"\xc2\x85", b"\xe2\x80\xa8", b"\xe2\x80\xa9"];

/// Why a text is no set.
#[derive(Clone, Copy, Debug, PartialEq, Eq, Hash)]
pub struct Fault {
    /// The line, counted from 1; for a text without a tag, its last.
    pub line: usize,
    /// What is wrong in it.
    pub what: What,
}

/// What is wrong in a line of a text.
#[derive(Clone, Copy, Debug, PartialEq, Eq, Hash)]
#[non_exhaustive]
pub enum What {
    /// A byte order mark stands in it, at whatever place.
    Mark,
    /// A remark has what an editor may show as the end of a line.
    End,
    /// A blank stands at the tag's front.
    BlankInFront,
    /// A blank stands at the tag's end.
    BlankAtEnd,
    /// A `#` stands behind a blank, or in front of a folded tag.
    Remark,
    /// A `~` stands at the tag's front, which may be meant for a `\~`.
    Tilde,
    /// A `\~` stands elsewhere than at the line's front.
    FoldedWithin,
    /// A control byte stands in it as such.
    Control {
        /// The byte.
        byte: u8,
    },
    /// A byte of 128 or above stands in it as such.
    High {
        /// The byte.
        byte: u8,
        /// Its place in the line, counted from 1.
        place: usize,
    },
    /// A backslash that begins none of the escapes.
    Escape,
    /// No line has a tag.
    NoTag,
    /// It is the 17th tag.
    Many,
    /// No tag stands behind a `\~`.
    NoBytes,
    /// The tag has over 32 bytes.
    Long {
        /// How many it has.
        bytes: usize,
    },
    /// The tag stands in an earlier line.
    Repeat {
        /// That line.
        line: usize,
    },
    /// The folded tag stands in an earlier line, in whatever letter case.
    RepeatFolded {
        /// That line.
        line: usize,
    },
    /// The archive refused the set for its tag in another way.
    Refused(Refusal),
}

impl Display for Fault {
    fn fmt(&self, f: &mut Formatter) -> fmt::Result {
        write!(f, "line {}: ", self.line)?;
        match self.what {
            What::NoTag => write!(f, "the text ends without a tag, and a set has one at least"),
            What::Many => write!(f, "a 17th tag, and a set has 16 at most"),
            What::NoBytes => write!(
                f,
                "a \\~ with no tag behind it, and a tag has a byte at least"
            ),
            What::Long { bytes } => write!(f, "a tag of {bytes} bytes, and a tag has 32 at most"),
            What::Repeat { line } => write!(f, "the tag of line {line} again"),
            What::RepeatFolded { line } => write!(
                f,
                "the folded tag of line {line} again; in both A to Z and a to z are equal"
            ),
            What::Refused(refusal) => write!(f, "{refusal}"),
            of_the_line => f.write_str(&of_the_line.in_words()),
        }
    }
}

impl What {
    /// What is wrong with how a line is written.
    fn in_words(self) -> String {
        let words = match self {
            What::Mark => {
                "a byte order mark; save the text without it, each text where several were joined"
            }
            What::End => {
                "a remark with what an editor may show as a line's end; \
                 end it with a line feed where what follows is a tag"
            }
            What::BlankInFront => "a blank at the front; write \\x20 where the tag has it",
            What::BlankAtEnd => "a blank at the end; write \\x20 where the tag has it",
            What::Remark => {
                "a # behind a blank or \\~; a remark has a line of its own, \
                 and in a tag it is written \\#"
            }
            What::Tilde => {
                "a ~ at the front; a folded tag stands behind \\~, \
                 and where the tag has a tilde there write \\x7e"
            }
            What::FoldedWithin => {
                "a \\~ within the line; it stands at the front, where it says that the tag is \
                 folded, and within a tag a tilde alone is written as it is"
            }
            What::Control { byte } => {
                return format!("a control byte; write \\x{byte:02x} where the tag has it")
            }
            What::High { byte, place } => {
                return format!(
                    "byte {place} is above ASCII, and an eye can't be sure of it; \
                     write \\x{byte:02x} where the tag has it"
                )
            }
            _ => {
                "a backslash that is none of \\\\ \\# \\n \\r \\t and \\x with two hexadecimal digits, \
                 nor \\~ in front"
            }
        };
        words.to_string()
    }
}

impl std::error::Error for Fault {}

/// A line that has a tag.
struct Line {
    /// Counted from 1.
    number: usize,
    kind: Kind,
    tag: Vec<u8>,
}

impl Line {
    fn entry(&self) -> Entry<'_> {
        Entry::new(self.kind, &self.tag)
    }
}

/// The set of a text, its tags numbered from 0 in the order of their lines.
pub fn read(text: &[u8]) -> Result<TagSet, Fault> {
    let mut tags: Vec<Line> = Vec::new();
    let mut number = 0;
    for line in text.split(|byte| *byte == b'\n') {
        number += 1;
        let fault = |what| Fault { line: number, what };
        if let Some((kind, tag)) = read_line(line).map_err(fault)? {
            tags.push(Line { number, kind, tag });
        }
    }
    // What stands behind the last line feed is a line only where there is something.
    if text.ends_with(b"\n") {
        number -= 1;
    }
    let set = TagSet::new(tags.iter().map(Line::entry));
    set.map_err(|refusal| told(refusal, &tags, number.max(1)))
}

/// A refusal of the set, told by the lines of its tags.
fn told(refusal: Refusal, tags: &[Line], last: usize) -> Fault {
    let entry = match refusal {
        Refusal::Cut { entry }
        | Refusal::Many { entry }
        | Refusal::Kind { entry }
        | Refusal::Length { entry }
        | Refusal::Repeat { entry } => entry,
        _ => usize::MAX,
    };
    let what = match refusal {
        Refusal::Empty { .. } => What::NoTag,
        Refusal::Many { .. } => What::Many,
        Refusal::Length { entry } => match tags.get(entry).map(|line| line.tag.len()) {
            Some(0) => What::NoBytes,
            Some(bytes) => What::Long { bytes },
            None => What::Refused(refusal),
        },
        Refusal::Repeat { entry } => repeated(tags, entry).unwrap_or(What::Refused(refusal)),
        _ => What::Refused(refusal),
    };
    let line = tags.get(entry).map_or(last, |line| line.number);
    Fault { line, what }
}

/// Which earlier line has the tag of this entry: one of its kind, folded ones compared after folding.
fn repeated(tags: &[Line], entry: usize) -> Option<What> {
    let own = tags.get(entry)?.entry();
    let mut before = tags[..entry].iter();
    let line = before.find(|line| line.entry() == own)?.number;
    Some(match own.kind() {
        Kind::Exact => What::Repeat { line },
        Kind::Folded => What::RepeatFolded { line },
    })
}

/// The tag of a line and its kind, or none where the line is passed over.
fn read_line(line: &[u8]) -> Result<Option<(Kind, Vec<u8>)>, What> {
    let line = line.strip_suffix(b"\r").unwrap_or(line);
    if has(line, MARK) {
        return Err(What::Mark);
    }
    if line.starts_with(b"#") {
        return if may_end_within(line) {
            Err(What::End)
        } else {
            Ok(None)
        };
    }
    if line.iter().all(|byte| b" \t".contains(byte)) {
        return Ok(None);
    }
    let (kind, tag) = match line.strip_prefix(FOLDED) {
        Some(behind) => (Kind::Folded, behind),
        None => (Kind::Exact, line),
    };
    match tag.first() {
        Some(b' ') => Err(What::BlankInFront),
        // In front of an exact tag it would make the line a remark.
        Some(b'#') => Err(What::Remark),
        Some(b'~') => Err(What::Tilde),
        _ => Ok(Some((kind, read_tag(line, tag)?))),
    }
}

/// The bytes of the tag that stands at the end of a line.
fn read_tag(line: &[u8], written: &[u8]) -> Result<Vec<u8>, What> {
    let mut tag = Vec::new();
    let (mut rest, mut before) = (written, 0);
    while let [byte, after @ ..] = rest {
        let (meant, after) = match (byte, before) {
            _ if rest.starts_with(FOLDED) => return Err(What::FoldedWithin),
            (b'\\', _) => unescaped(after).ok_or(What::Escape)?,
            (b'#', b' ') => return Err(What::Remark),
            (0..=31 | 127, _) => return Err(What::Control { byte: *byte }),
            (128.., _) => {
                let place = line.len() - after.len();
                return Err(What::High { byte: *byte, place });
            }
            _ => (*byte, after),
        };
        tag.push(meant);
        (rest, before) = (after, *byte);
    }
    // An escape's last byte is never a blank.
    match before {
        b' ' => Err(What::BlankAtEnd),
        _ => Ok(tag),
    }
}

fn has(line: &[u8], bytes: &[u8]) -> bool {
    line.windows(bytes.len()).any(|at| at == bytes)
}

/// Whether an editor may show more than one line.
fn may_end_within(line: &[u8]) -> bool {
    let control = |byte: &u8| *byte != b'\t' && byte.is_ascii_control();
    line.iter().any(control) || ENDS.iter().any(|end| has(line, end))
}

/// The byte that an escape means, from what stands behind its backslash, and what follows it.
fn unescaped(rest: &[u8]) -> Option<(u8, &[u8])> {
    let (letter, after) = rest.split_first()?;
    let byte = match letter {
        b'\\' | b'#' => *letter,
        b'n' => b'\n',
        b'r' => b'\r',
        b't' => b'\t',
        b'x' => {
            let digit = |at: usize| char::from(*after.get(at)?).to_digit(16);
            return Some(((16 * digit(0)? + digit(1)?) as u8, &after[2..]));
        }
        _ => return None,
    };
    Some((byte, after))
}

/// The text of a set, which [`read`] reads as the same set: a line for each tag, with a remark
/// before it that says its number and length, and that it is folded where it is.
pub fn written(set: &TagSet) -> String {
    let (count, length) = (set.tags().count(), set.as_bytes().len());
    let mut text = format!("# tags: {count}; bytes of the set: {length}\n");
    for (number, tag) in set.tags().enumerate() {
        let folded = match tag.kind() {
            Kind::Exact => "",
            Kind::Folded => ", folded",
        };
        let length = tag.bytes().len();
        // Writing into a string can't fail.
        let _ = writeln!(text, "# tag {number}, length {length}{folded}\n{tag}");
    }
    text
}

/// Bytes as the line of an exact tag has them: printable ASCII as it is, everything else by escapes. A
/// tag of a set, which is an [`Entry`], displays itself with its kind.
pub fn escaped(bytes: &[u8]) -> Escaped<'_> {
    Escaped { bytes }
}

/// Bytes that display themselves as the line of an exact tag has them; see [`escaped`].
#[derive(Clone, Copy, Debug)]
pub struct Escaped<'b> {
    bytes: &'b [u8],
}

impl Display for Escaped<'_> {
    fn fmt(&self, f: &mut Formatter) -> fmt::Result {
        for (at, byte) in self.bytes.iter().enumerate() {
            let at_front = at == 0;
            let at_end = at + 1 == self.bytes.len();
            let behind_blank = at_front || self.bytes[at - 1] == b' ';
            match byte {
                b'\\' => f.write_str("\\\\")?,
                b'#' if behind_blank => f.write_str("\\#")?,
                b' ' if at_front || at_end => f.write_str("\\x20")?,
                b'~' if at_front => f.write_str("\\x7e")?,
                b'\n' => f.write_str("\\n")?,
                b'\r' => f.write_str("\\r")?,
                b'\t' => f.write_str("\\t")?,
                b' '..=b'~' => f.write_char(char::from(*byte))?,
                _ => write!(f, "\\x{byte:02x}")?,
            }
        }
        Ok(())
    }
}
