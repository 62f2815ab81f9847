// Our engines' shapes written in Rust, function for function: what the proved code is held against. CHECKED says whether each
// index is tested, as Rust's own indexing does, or not, as the proved code need not.
use crate::engine::{Engine, Out};
use crate::ours::{self, SplitTables, BITMAP_SLOT, WHOLE_SLOT};
use crate::same_shape_bitmap::{on_bitmap, MapTable};
use crate::same_shape_split::on_split;
use crate::same_shape_whole::{on_whole, WholeTable};
use crate::tags::Tag;

#[derive(Clone, Copy, PartialEq)]
pub enum Stop {
    All,
    Full,
    Damaged,
}

/// What reading comes to; P is the kind of place.
#[derive(Clone, Copy)]
pub struct Went<P> {
    pub taken: usize,
    pub place: P,
    pub records: usize,
    pub stop: Stop,
}

impl<P> Went<P> {
    pub fn stopped(taken: usize, place: P, records: usize, stop: Stop) -> Went<P> {
        Went {
            taken,
            place,
            records,
            stop,
        }
    }
}

#[inline(always)]
pub fn at<const CHECKED: bool, T: Copy>(run: &[T], i: usize) -> T {
    // Sound for the callers here: a table that was built has each number that a step reads, and i is below the length of the piece
    // or of the block.
    if CHECKED {
        run[i]
    } else {
        unsafe { *run.get_unchecked(i) }
    }
}

#[inline(always)]
pub fn after<const CHECKED: bool, T>(run: &[T], from: usize) -> &[T] {
    if CHECKED {
        &run[from..]
    } else {
        unsafe { run.get_unchecked(from..) }
    }
}

#[inline(always)]
pub fn between<const CHECKED: bool, T>(run: &[T], from: usize, to: usize) -> &[T] {
    if CHECKED {
        &run[from..to]
    } else {
        unsafe { run.get_unchecked(from..to) }
    }
}

#[inline(always)]
pub fn set<const CHECKED: bool, T>(run: &mut [T], i: usize, x: T) {
    if CHECKED {
        run[i] = x
    } else {
        unsafe { *run.get_unchecked_mut(i) = x }
    }
}

fn put_bit<const CHECKED: bool>(list: &mut [u32], w: usize, end: u32, tag: u32, bit: u16) -> usize {
    if bit == 0 {
        return w;
    }
    let i = 2 * w;
    set::<CHECKED, u32>(list, i, end);
    set::<CHECKED, u32>(list, i + 1, tag);
    w + 1
}

fn put<const CHECKED: bool>(list: &mut [u32], from: usize, end: u32, hits: u16) -> usize {
    let mut w = from;
    let mut rest = hits;
    for tag in 0..16 {
        w = put_bit::<CHECKED>(list, w, end, tag, rest % 2);
        rest /= 2;
    }
    w
}

/// Writes a byte's records, all of them or none. Gives the number of records then.
pub fn put_all<const CHECKED: bool>(
    list: &mut [u32],
    w: usize,
    end: u32,
    hits: u16,
) -> Option<usize> {
    if hits == 0 {
        return Some(w);
    }
    let count = hits.count_ones() as usize;
    if list.len() / 2 - w < count {
        return None;
    }
    Some(put::<CHECKED>(list, w, end, hits))
}

/// The next 64 bytes, or as many as there are.
pub fn soon(at: usize, len: usize) -> usize {
    at + 64_usize.min(len - at)
}

pub struct OneBitInRust<const CHECKED: bool> {
    tables: SplitTables,
    place: [usize; 16],
}

impl<const CHECKED: bool> OneBitInRust<CHECKED> {
    pub fn new(tags: &[Tag]) -> Self {
        OneBitInRust {
            tables: SplitTables::built(tags),
            place: [0; 16],
        }
    }
}

impl<const CHECKED: bool> Engine for OneBitInRust<CHECKED> {
    fn begin(&mut self) {
        self.place = [0; 16];
    }

    fn piece(&mut self, input: &[u8], from: usize, to: usize, out: &mut Out) {
        let slots = self.tables.slots();
        let mut at = from;
        while at < to {
            let went = on_split::<CHECKED>(
                &self.tables.first,
                &self.tables.second,
                slots,
                self.place,
                at as u32,
                &input[at..to],
                &mut out.list,
            );
            assert!(went.stop != Stop::Damaged, "the tables were built");
            self.place = went.place;
            at += went.taken;
            out.take(went.records);
        }
    }
}

pub struct WholeByteInRust<const CHECKED: bool> {
    table: Vec<u16>,
    place: usize,
}

impl<const CHECKED: bool> WholeByteInRust<CHECKED> {
    pub fn new(tags: &[Tag]) -> Self {
        WholeByteInRust {
            table: ours::whole_table(tags),
            place: 0,
        }
    }
}

impl<const CHECKED: bool> Engine for WholeByteInRust<CHECKED> {
    fn begin(&mut self) {
        self.place = 0;
    }

    fn piece(&mut self, input: &[u8], from: usize, to: usize, out: &mut Out) {
        let table = WholeTable::<CHECKED> {
            numbers: &self.table,
            states: self.table.len() / WHOLE_SLOT,
        };
        let mut at = from;
        while at < to {
            let went = on_whole(&table, self.place, at as u32, &input[at..to], &mut out.list);
            assert!(went.stop != Stop::Damaged, "the table was built");
            self.place = went.place;
            at += went.taken;
            out.take(went.records);
        }
    }
}

pub struct BitmapInRust<const CHECKED: bool> {
    table: Vec<u16>,
    place: u16,
    moves: usize,
}

impl<const CHECKED: bool> BitmapInRust<CHECKED> {
    pub fn new(tags: &[Tag]) -> Self {
        BitmapInRust {
            table: ours::bitmap_table(tags),
            place: 0,
            moves: 0,
        }
    }
}

impl<const CHECKED: bool> Engine for BitmapInRust<CHECKED> {
    fn begin(&mut self) {
        self.place = 0;
        self.moves = 0;
    }

    fn piece(&mut self, input: &[u8], from: usize, to: usize, out: &mut Out) {
        let table = MapTable::<CHECKED> {
            numbers: &self.table,
            states: self.table.len() / BITMAP_SLOT,
        };
        let mut at = from;
        while at < to {
            let went = on_bitmap(
                &table,
                usize::from(self.place),
                at as u32,
                &input[at..to],
                &mut out.list,
            );
            assert!(went.stop != Stop::Damaged, "the table was built");
            self.place = went.place.state;
            self.moves += went.place.moves;
            at += went.taken;
            out.take(went.records);
        }
        assert!(
            self.moves <= to,
            "from state 0 there are no more failure moves than bytes"
        );
    }
}
