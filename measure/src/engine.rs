// What every engine does, so that all are timed and checked by the same loops.
use crate::random::mixed;
use std::hint::black_box;

// Bytes in a piece, and the records for which an engine's list has room.
pub const PIECE: usize = 4096;
pub const ROOM: usize = 1024;

/// An engine that has been made for some tags.
pub trait Engine {
    /// Goes to the start of an input.
    fn begin(&mut self);
    /// Reads input[from..to], once it has read all before it.
    fn piece(&mut self, input: &[u8], from: usize, to: usize, out: &mut Out);
}

/// Where records go: a list of ends and tags that is emptied whenever it is full and after each piece.
pub struct Out {
    pub list: Vec<u32>,
    held: usize,
    pub total: u64,
    digest: Option<Digest>,
}

/// For each piece of the input a number that depends on all records that end in it and not on the order they came in; and
/// whether that order was by end, then by tag.
#[derive(Clone, PartialEq)]
pub struct Digest {
    pub pieces: Vec<u64>,
    last: u64,
    pub in_order: bool,
}

impl Out {
    /// Counts records and forgets them.
    pub fn counting() -> Out {
        Out {
            list: vec![0; 2 * ROOM],
            held: 0,
            total: 0,
            digest: None,
        }
    }

    /// Keeps a digest of the records of an input of so many bytes.
    pub fn digesting(size: usize) -> Out {
        let digest = Digest {
            pieces: vec![0; size / PIECE + 1],
            last: 0,
            in_order: true,
        };
        Out {
            digest: Some(digest),
            ..Out::counting()
        }
    }

    pub fn digest(self) -> Digest {
        self.digest.expect("made by Out::digesting")
    }

    /// One more record, for engines that give them one by one.
    #[inline]
    pub fn push(&mut self, end: u32, tag: u32) {
        self.list[2 * self.held] = end;
        self.list[2 * self.held + 1] = tag;
        self.held += 1;
        if self.held == ROOM {
            self.empty();
        }
    }

    /// The records pushed are taken.
    pub fn empty(&mut self) {
        self.take(self.held);
        self.held = 0;
    }

    /// The first n records of the list are taken.
    pub fn take(&mut self, n: usize) {
        black_box(&mut self.list);
        self.total += n as u64;
        if let Some(digest) = &mut self.digest {
            self.list[..2 * n]
                .chunks_exact(2)
                .for_each(|record| digest.add(record[0], record[1]));
        }
    }
}

impl Digest {
    fn add(&mut self, end: u32, tag: u32) {
        let record = u64::from(end) * 256 + u64::from(tag);
        let piece = (end as usize).saturating_sub(1) / PIECE;
        if let Some(sum) = self.pieces.get_mut(piece) {
            *sum = sum.wrapping_add(mixed(record));
        }
        self.in_order &= self.last < record;
        self.last = record;
    }
}

/// Reads a whole input, piece by piece.
pub fn read_all(engine: &mut dyn Engine, input: &[u8], out: &mut Out) {
    engine.begin();
    let mut from = 0;
    while from < input.len() {
        let to = (from + PIECE).min(input.len());
        engine.piece(input, from, to, out);
        from = to;
    }
}
