//! One line of a replay script: docs/FORMATS.md, the table of calls.

use crate::layout::Layout;
use crate::set::{write_tags, Tag};
use crate::words::{at_most, bytes, number, number_16, words, Word};

/// How many numbers table 0 and table 1 have.
pub const TABLE_BUFFERS: [usize; 2] = [131_841, 16_384];
/// The length of the list buffer.
pub const LIST_BUFFER: usize = 2_048;
/// A set of more bytes makes the line no call.
pub const LONGEST_SET: usize = 4_096;
/// Peek shows at most this many numbers.
pub const MOST_PEEKED: usize = 256;

/// A call, as its line says. A `table` is 0 or 1.
#[derive(Clone, Debug, PartialEq, Eq)]
pub enum Call {
    Set(Vec<u8>),
    Lend {
        lent: usize,
        table: usize,
    },
    Replace,
    Open,
    Feed(u32, Vec<u8>),
    Close(u32),
    State(u32),
    Take,
    Show,
    Build(Layout),
    Read {
        layout: Layout,
        count: u32,
        room: usize,
        place: Vec<u16>,
        piece: Vec<u8>,
    },
    Poke {
        at: usize,
        value: u16,
        table: usize,
    },
    Peek {
        at: usize,
        count: usize,
        table: usize,
    },
}

/// The call of a line without its end, or nothing where it is no call.
pub fn parse(line: &[u8]) -> Option<Call> {
    let words = words(line)?;
    let (Word::Plain(name), rest) = words.split_first()? else {
        return None;
    };
    match (*name, rest) {
        (b"set", bytes) => set(bytes),
        (b"lend", [lent, t @ ..]) => lend(*lent, table(t)?),
        (b"replace", []) => Some(Call::Replace),
        (b"open", []) => Some(Call::Open),
        (b"feed", [serial, piece]) => Some(Call::Feed(number(*serial)?, bytes(*piece)?)),
        (b"close", [serial]) => Some(Call::Close(number(*serial)?)),
        (b"state", [serial]) => Some(Call::State(number(*serial)?)),
        (b"take", []) => Some(Call::Take),
        (b"show", []) => Some(Call::Show),
        (b"build", [word]) => Some(Call::Build(layout(*word)?)),
        (b"read", rest) => read(rest),
        (b"poke", [at, value, t @ ..]) => poke(*at, *value, table(t)?),
        (b"peek", [at, count, t @ ..]) => peek(*at, *count, table(t)?),
        _ => None,
    }
}

/// T, the last word of some calls: 0 or 1, and 0 where it is left away.
fn table(words: &[Word]) -> Option<usize> {
    match words {
        [] => Some(0),
        [t] => at_most(*t, 1),
        _ => None,
    }
}

fn layout(word: Word) -> Option<Layout> {
    match word {
        Word::Plain(b"split") => Some(Layout::Split),
        Word::Plain(b"whole") => Some(Layout::Whole),
        Word::Plain(b"bitmap") => Some(Layout::Bitmap),
        _ => None,
    }
}

/// One word with `x` or `-`: the set is these bytes. One or more words between
/// quotation marks, with `~` before them or not: an entry for each, of kind 2
/// or 1, whatever its length. A mixture of the two forms, or several words with
/// `x` or `-`, is no call (the format names neither).
fn set(words: &[Word]) -> Option<Call> {
    let set = match words {
        [] => return None,
        [word @ Word::Plain(_)] => bytes(*word)?,
        entries => {
            let tag = |word: &Word| match word {
                Word::Quoted(inside) => Some(Tag::exact(*inside)),
                Word::Folded(inside) => Some(Tag::folded(*inside)),
                Word::Plain(_) => None,
            };
            let tags: Option<Vec<Tag>> = entries.iter().map(tag).collect();
            write_tags(&tags?)
        }
    };
    (set.len() <= LONGEST_SET).then_some(Call::Set(set))
}

fn lend(lent: Word, table: usize) -> Option<Call> {
    let lent = at_most(lent, TABLE_BUFFERS[table])?;
    Some(Call::Lend { lent, table })
}

/// LAYOUT COUNT ROOM PLACE... BYTES, with one PLACE for each machine. A place
/// is a 16-bit number, so a larger one is no call (the format is silent here).
fn read(words: &[Word]) -> Option<Call> {
    let [word, count, room, places @ .., piece] = words else {
        return None;
    };
    let layout = layout(*word)?;
    if places.len() != layout.machines() {
        return None;
    }
    let place: Option<Vec<u16>> = places.iter().map(|place| number_16(*place)).collect();
    Some(Call::Read {
        layout,
        count: number(*count)?,
        room: at_most(*room, LIST_BUFFER)?,
        place: place?,
        piece: bytes(*piece)?,
    })
}

/// AT stands among the table's numbers, lent or not (the format is silent here).
fn poke(at: Word, value: Word, table: usize) -> Option<Call> {
    Some(Call::Poke {
        at: at_most(at, TABLE_BUFFERS[table] - 1)?,
        value: number_16(value)?,
        table,
    })
}

/// The numbers shown all stand in the table; none may be asked for, even just
/// beyond its end (the format is silent here).
fn peek(at: Word, count: Word, table: usize) -> Option<Call> {
    let count = at_most(count, MOST_PEEKED)?;
    let at = at_most(at, TABLE_BUFFERS[table] - count)?;
    Some(Call::Peek { at, count, table })
}
