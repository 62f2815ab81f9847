// The whole-byte engine's shape: one byte after another at first, then two runs at once.
use crate::same_shape::{after, at, between, put_all, soon, Stop, Went};

struct Came {
    at: usize,
    state: usize,
}

fn run_length(left: usize) -> usize {
    if left < 128 {
        return 0;
    }
    if left < 1024 {
        return left / 2;
    }
    256
}

fn next_of<const CHECKED: bool>(table: &[u16], q: usize, c: u8) -> usize {
    let x = usize::from(c);
    let cut = after::<CHECKED, u16>(table, x);
    let own = after::<CHECKED, u16>(cut, q);
    usize::from(at::<CHECKED, u16>(own, q * 256))
}

fn vector_of<const CHECKED: bool>(table: &[u16], q: usize) -> u16 {
    at::<CHECKED, u16>(table, q * 257 + 256)
}

/// The whole-byte table as it is read.
#[derive(Clone, Copy)]
pub struct WholeTable<'a, const CHECKED: bool> {
    pub numbers: &'a [u16],
    pub states: usize,
}

impl<const CHECKED: bool> WholeTable<'_, CHECKED> {
    /// Where byte c leads from state q, if that is a state.
    fn next(&self, q: usize, c: u8) -> Option<usize> {
        let n = next_of::<CHECKED>(self.numbers, q, c);
        if n < self.states {
            Some(n)
        } else {
            None
        }
    }

    fn vector(&self, q: usize) -> u16 {
        vector_of::<CHECKED>(self.numbers, q)
    }

    fn pass_one(&self, start: usize, piece: &[u8], from: usize, to: usize) -> Came {
        let mut q = start;
        for i in from..to {
            let Some(n) = self.next(q, at::<CHECKED, u8>(piece, i)) else {
                return Came { at: i, state: q };
            };
            if self.vector(n) != 0 {
                return Came { at: i, state: q };
            }
            q = n;
        }
        Came { at: to, state: q }
    }

    fn guess(&self, piece: &[u8], to: usize) -> usize {
        let mut q = 0;
        for c in between::<CHECKED, u8>(piece, to.saturating_sub(32), to) {
            let Some(n) = self.next(q, *c) else {
                return 0;
            };
            q = n;
        }
        q
    }

    /// Kept apart from its callers, as it is in the archive: its loop needs all registers.
    #[inline(never)]
    fn pair(&self, start: usize, piece: &[u8], from: usize, h: usize) -> Came {
        let mid = from + h;
        let begun = self.guess(piece, mid);
        let mut a = start;
        let mut b = begun;
        for i in from..mid {
            let Some(x) = self.next(a, at::<CHECKED, u8>(piece, i)) else {
                return Came { at: i, state: a };
            };
            let Some(y) = self.next(b, at::<CHECKED, u8>(piece, i + h)) else {
                return Came { at: i, state: a };
            };
            if self.vector(x) | self.vector(y) != 0 {
                return Came { at: i, state: a };
            }
            a = x;
            b = y;
        }
        if a == begun {
            Came {
                at: mid + h,
                state: b,
            }
        } else {
            Came { at: mid, state: a }
        }
    }

    fn pass_pairs(&self, start: usize, piece: &[u8], from: usize) -> Came {
        let mut q = start;
        let mut i = from;
        let mut h = run_length(piece.len() - i);
        while 0 < h {
            let p = self.pair(q, piece, i, h);
            if p.at < i + h {
                return p;
            }
            q = p.state;
            i = p.at;
            h = run_length(piece.len() - i);
        }
        Came { at: i, state: q }
    }

    fn pass(&self, start: usize, piece: &[u8], from: usize) -> Came {
        let to = soon(from, piece.len());
        let near = self.pass_one(start, piece, from, to);
        if near.at < to {
            return near;
        }
        let far = self.pass_pairs(near.state, piece, near.at);
        self.pass_one(far.state, piece, far.at, piece.len())
    }
}

pub fn on_whole<const CHECKED: bool>(
    table: &WholeTable<CHECKED>,
    start: usize,
    count: u32,
    piece: &[u8],
    list: &mut [u32],
) -> Went<usize> {
    let mut q = start;
    let mut w = 0;
    let mut i = 0;
    while i < piece.len() {
        let Some(n) = table.next(q, at::<CHECKED, u8>(piece, i)) else {
            return Went::stopped(i, q, w, Stop::Damaged);
        };
        let hits = table.vector(n);
        let Some(x) = put_all::<CHECKED>(list, w, count + (i as u32) + 1, hits) else {
            return Went::stopped(i, q, w, Stop::Full);
        };
        q = n;
        w = x;
        i += 1;
        if hits == 0 {
            let p = table.pass(q, piece, i);
            q = p.state;
            i = p.at;
        }
    }
    Went::stopped(i, q, w, Stop::All)
}
