// The one-bit engine's steps, in their shape: eight machines of one bit over a table, and their walk over a block.
use crate::same_shape::{at, between, set};

fn letters(bits: usize) -> usize {
    1 << bits
}

/// The number of a state's row that start says: where its machine's slots begin, and the letter.
fn next_at<const CHECKED: bool>(table: &[u16], row: usize, state: usize, start: usize) -> usize {
    usize::from(at::<CHECKED, u16>(table, state * row + start))
}

/// The vector of a state of machine m.
fn vector_at<const CHECKED: bool>(
    table: &[u16],
    s: usize,
    size: usize,
    m: usize,
    state: usize,
) -> u16 {
    at::<CHECKED, u16>(table, (m * s + state) * (size + 1) + size)
}

/// Where the entries for half h of byte c begin among the starts.
fn entry_of(bits: usize, c: u8, h: usize) -> usize {
    (h * 16 + (usize::from(c) >> (h * 4)) % 16) * (4 / bits)
}

/// Machines of so many bits in their table, with so many slots for each.
#[derive(Clone, Copy)]
pub struct Machines<'a, const CHECKED: bool, const BITS: usize> {
    pub numbers: &'a [u16],
    pub slots: usize,
}

impl<const CHECKED: bool, const BITS: usize> Machines<'_, CHECKED, BITS> {
    /// For half h of a byte, its value x and machine j of those that read it: what to add to a state's row.
    fn start_of(&self, h: usize, x: usize, j: usize) -> usize {
        let size = letters(BITS);
        let rows = self.slots * (size + 1);
        (h * (4 / BITS) + j) * rows + (x >> (j * BITS)) % size
    }

    /// Those for value x of a byte's halves, of which the upper half's come behind the 16 of the lower.
    fn put_row(&self, x: usize, out: &mut [usize]) {
        let half = 4 / BITS;
        for j in 0..half {
            set::<CHECKED, usize>(out, x * half + j, self.start_of(x / 16, x % 16, j));
        }
    }

    /// All of them, into a lent run.
    pub fn put_starts(&self, out: &mut [usize]) {
        for x in 0..32 {
            self.put_row(x, out);
        }
    }

    fn next_half(
        &self,
        starts: &[usize],
        place: [usize; 8],
        c: u8,
        h: usize,
        before: [usize; 8],
    ) -> [usize; 8] {
        let half = 4 / BITS;
        let row = letters(BITS) + 1;
        let first = entry_of(BITS, c, h);
        let mut next = before;
        for j in 0..half {
            let m = h * half + j;
            let state = at::<CHECKED, usize>(&place, m);
            let start = at::<CHECKED, usize>(starts, first + j);
            let n = next_at::<CHECKED>(self.numbers, row, state, start);
            set::<CHECKED, usize>(&mut next, m, n);
        }
        next
    }

    fn next_numbers(&self, starts: &[usize], place: [usize; 8], c: u8) -> [usize; 8] {
        let low = self.next_half(starts, place, c, 0, place);
        self.next_half(starts, place, c, 1, low)
    }

    fn vectors(&self, from: usize, to: usize, place: [usize; 8], v: u16) -> u16 {
        let size = letters(BITS);
        let mut r = v;
        for m in from..to {
            let state = at::<CHECKED, usize>(&place, m);
            r &= vector_at::<CHECKED>(self.numbers, self.slots, size, m, state);
        }
        r
    }

    /// The AND of the vectors of the first k machines. The later ones are read only where the first few have a bit in common.
    /// Within its callers, as it is in the archive.
    #[inline(always)]
    fn hits_of(&self, k: usize, few: usize, place: [usize; 8]) -> u16 {
        let v = self.vectors(0, few, place, 65535);
        if v == 0 {
            return 0;
        }
        self.vectors(few, k, place, v)
    }
}

fn all_below<const CHECKED: bool>(s: usize, k: usize, place: [usize; 8]) -> bool {
    between::<CHECKED, usize>(&place, 0, k)
        .iter()
        .all(|q| *q < s)
}

/// Whether machine m, in state q, stays there on either bit.
fn stays<const CHECKED: bool>(machines: &Machines<CHECKED, 1>, m: usize, q: usize) -> bool {
    let i = (m * machines.slots + q) * 3;
    usize::from(at::<CHECKED, u16>(machines.numbers, i)) == q
        && usize::from(at::<CHECKED, u16>(machines.numbers, i + 1)) == q
}

fn all_stay<const CHECKED: bool>(machines: &Machines<CHECKED, 1>, place: [usize; 8]) -> bool {
    for m in 0..8 {
        if !stays(machines, m, place[m]) {
            return false;
        }
    }
    true
}

/// Whether a byte leads a machine of the table away from its place, or something is found there.
pub fn is_awake<const CHECKED: bool>(machines: &Machines<CHECKED, 1>, place: [usize; 8]) -> bool {
    if !all_stay(machines, place) {
        return true;
    }
    machines.hits_of(8, 2, place) != 0
}

/// One table of the split layout: its machines and, where it is awake, its starts.
#[derive(Clone, Copy)]
pub struct BitTable<'a, const CHECKED: bool> {
    pub machines: Machines<'a, CHECKED, 1>,
    pub starts: Option<&'a [usize]>,
}

/// How far a walk of N machines came, the place there if that is the end, and whether something was noted.
#[derive(Clone, Copy)]
pub struct Walked<const N: usize> {
    pub at: usize,
    pub place: [usize; N],
    pub loud: bool,
}

/// Notes v at byte i. Whether something was noted before, or is now.
fn note<const CHECKED: bool>(hits: &mut [u16; 256], i: usize, v: u16, loud: bool) -> bool {
    if v == 0 {
        return loud;
    }
    let before = at::<CHECKED, u16>(hits, i);
    set::<CHECKED, u16>(hits, i, v | before);
    true
}

/// The first bytes, up to one. It carries no place to go back to, which is what makes it fast.
fn walk_part<const CHECKED: bool>(
    machines: &Machines<CHECKED, 1>,
    starts: &[usize],
    start: [usize; 8],
    bytes: &[u8],
    to: usize,
    hits: &mut [u16; 256],
) -> Walked<8> {
    let mut place = start;
    let mut loud = false;
    for i in 0..to {
        let next = machines.next_numbers(starts, place, at::<CHECKED, u8>(bytes, i));
        if !all_below::<CHECKED>(machines.slots, 8, next) {
            return Walked {
                at: i,
                place: start,
                loud,
            };
        }
        let v = machines.hits_of(8, 2, next);
        loud = note::<CHECKED>(hits, i, v, loud);
        place = next;
    }
    Walked {
        at: to,
        place,
        loud,
    }
}

impl<const CHECKED: bool> BitTable<'_, CHECKED> {
    /// The same where the table is awake; one that is asleep stays where it is, and notes nothing. Out of line, as it is in the
    /// archive, and its loop within it: apart, that would read its machines through a reference at each byte.
    #[inline(never)]
    pub fn walk(
        &self,
        start: [usize; 8],
        bytes: &[u8],
        to: usize,
        hits: &mut [u16; 256],
    ) -> Walked<8> {
        let Some(starts) = self.starts else {
            return Walked {
                at: to,
                place: start,
                loud: false,
            };
        };
        // A copy, as the engine makes one.
        let machines = self.machines;
        walk_part(&machines, starts, start, bytes, to, hits)
    }
}
