// The one-bit engine's shape: a block of bytes is walked by one table after the other, the second over a folded copy; what a table
// finds at a byte is noted, and the notes are then written as records. A table that no byte leads away from its place, and that
// finds nothing there, is asleep and left out. Blocks are sized by the room that is left in the list.
use crate::same_shape::{at, between, put_all, set, Stop, Went};
use crate::same_shape_steps::{is_awake, BitTable, Machines, Walked};

/// The most bytes of a block.
const MOST: usize = 256;

/// The parts of the split layout.
const PARTS: usize = 2;

/// No block is made shorter than this, whatever was found before it.
const FEW: usize = 4;

/// A to Z are taken to a to z, every other byte to itself.
const FOLD: [u8; 256] = {
    let mut fold = [0; 256];
    let mut byte = 0;
    while byte < 256 {
        fold[byte] = (byte as u8).to_ascii_lowercase();
        byte += 1;
    }
    fold
};

fn fold_table() -> [u8; 256] {
    FOLD
}

fn folded<const CHECKED: bool>(fold: &[u8; 256], c: u8) -> u8 {
    at::<CHECKED, u8>(fold, usize::from(c))
}

fn fold_all<const CHECKED: bool>(bytes: &[u8], out: &mut [u8]) {
    let fold = fold_table();
    for (i, c) in bytes.iter().enumerate() {
        set::<CHECKED, u8>(out, i, folded::<CHECKED>(&fold, *c));
    }
}

/// The states of part g.
fn part_of<const CHECKED: bool>(place: [usize; 16], g: usize) -> [usize; 8] {
    let mut own = [0; 8];
    let from = g * 8;
    own.copy_from_slice(between::<CHECKED, usize>(&place, from, from + 8));
    own
}

/// A place, by the states of each part.
fn joined(first: [usize; 8], second: [usize; 8]) -> [usize; 16] {
    let mut all = [0; 16];
    all[..8].copy_from_slice(&first);
    all[8..].copy_from_slice(&second);
    all
}

/// The table of exact tags, and that of folded ones.
#[derive(Clone, Copy)]
struct SplitTables<'a, const CHECKED: bool> {
    exact: BitTable<'a, CHECKED>,
    folded: BitTable<'a, CHECKED>,
}

/// The starts of a part, laid into a run of their own, if it is awake at its place.
fn starts_of<'a, const CHECKED: bool>(
    machines: &Machines<CHECKED, 1>,
    place: [usize; 8],
    run: &'a mut [usize],
) -> Option<&'a [usize]> {
    if !is_awake(machines, place) {
        return None;
    }
    machines.put_starts(run);
    Some(run)
}

/// Both tables, with what is known of them at a place; their starts are laid into a run.
fn tables_at<'a, const CHECKED: bool>(
    first: &'a [u16],
    second: &'a [u16],
    slots: [usize; 2],
    start: [usize; 16],
    run: &'a mut [usize; 256],
) -> SplitTables<'a, CHECKED> {
    let exact = Machines {
        numbers: first,
        slots: slots[0],
    };
    let folded = Machines {
        numbers: second,
        slots: slots[1],
    };
    let (one, other) = run.split_at_mut(128);
    SplitTables {
        exact: BitTable {
            machines: exact,
            starts: starts_of(&exact, part_of::<CHECKED>(start, 0), one),
        },
        folded: BitTable {
            machines: folded,
            starts: starts_of(&folded, part_of::<CHECKED>(start, 1), other),
        },
    }
}

/// The second table over the whole block, then the first up to the byte to which the second came.
fn walk_both<const CHECKED: bool>(
    tables: &SplitTables<CHECKED>,
    start: [usize; 16],
    block: &[u8],
    near: &[u8],
    hits: &mut [u16; 256],
) -> Walked<16> {
    let of_second = part_of::<CHECKED>(start, PARTS - 1);
    let second = tables.folded.walk(of_second, near, block.len(), hits);
    let of_first = part_of::<CHECKED>(start, 0);
    let first = tables.exact.walk(of_first, block, second.at, hits);
    Walked {
        at: first.at,
        place: joined(first.place, second.place),
        loud: second.loud | first.loud,
    }
}

/// The second table reads a folded copy, which is made where it is awake.
fn walk_block<const CHECKED: bool>(
    tables: &SplitTables<CHECKED>,
    start: [usize; 16],
    block: &[u8],
    hits: &mut [u16; 256],
) -> Walked<16> {
    if tables.folded.starts.is_none() {
        return walk_both(tables, start, block, block, hits);
    }
    let mut near = [0; 256];
    fold_all::<CHECKED>(block, &mut near);
    let folded = between::<CHECKED, u8>(&near, 0, block.len());
    walk_both(tables, start, block, folded, hits)
}

/// The bytes whose records are written, and how many records there are then.
#[derive(Clone, Copy)]
struct Wrote {
    at: usize,
    records: usize,
}

/// The records of the bytes up to end, behind the first so many: up to the first byte whose records find no room.
fn write_rows<const CHECKED: bool>(
    hits: &[u16; 256],
    end: usize,
    count: u32,
    list: &mut [u32],
    from: usize,
) -> Wrote {
    let mut w = from;
    for i in 0..end {
        let v = at::<CHECKED, u16>(hits, i);
        let Some(x) = put_all::<CHECKED>(list, w, count + (i as u32) + 1, v) else {
            return Wrote { at: i, records: w };
        };
        w = x;
    }
    Wrote {
        at: end,
        records: w,
    }
}

/// The same, if something was noted; and then nothing is noted any more.
fn write_noted<const CHECKED: bool>(
    loud: bool,
    hits: &mut [u16; 256],
    end: usize,
    count: u32,
    list: &mut [u32],
    from: usize,
) -> Wrote {
    if loud {
        let r = write_rows::<CHECKED>(hits, end, count, list, from);
        *hits = [0; 256];
        return r;
    }
    Wrote {
        at: end,
        records: from,
    }
}

/// The bytes of a piece's first block, for a list of so many numbers.
fn first_size(list: usize) -> usize {
    (list / 4).min(MOST) + FEW
}

/// Those of the next, by how many records there are before and behind a block of so many bytes.
fn next_size(size: usize, before: usize, records: usize, list: usize) -> usize {
    if records <= before {
        return size.min(MOST) * 2;
    }
    let found = records - before;
    let all = list / 2;
    if all <= records {
        return FEW;
    }
    let room = (all - records).min(MOST);
    (room * size.min(MOST) / found).min(MOST) * 3 / 4 + FEW
}

/// Where a block of about so many bytes ends that begins at a byte: at least one, and no more than a block has.
fn block_end(at: usize, len: usize, size: usize) -> usize {
    at + (len - at).min(size.min(MOST - 1) + 1)
}

/// One block, its records behind the first so many. Where not all of it is taken, it is walked again up to the byte that isn't.
fn read_block<const CHECKED: bool>(
    tables: &SplitTables<CHECKED>,
    start: [usize; 16],
    count: u32,
    block: &[u8],
    list: &mut [u32],
    from: usize,
    hits: &mut [u16; 256],
) -> Went<[usize; 16]> {
    let all = walk_block(tables, start, block, hits);
    let end = all.at;
    let wrote = write_noted::<CHECKED>(all.loud, hits, end, count, list, from);
    let at = wrote.at;
    if block.len() <= at {
        return Went::stopped(at, all.place, wrote.records, Stop::All);
    }
    let taken = between::<CHECKED, u8>(block, 0, at);
    let again = walk_block(tables, start, taken, hits);
    let place = again.place;
    if at < end {
        return Went::stopped(at, place, wrote.records, Stop::Full);
    }
    Went::stopped(at, place, wrote.records, Stop::Damaged)
}

/// A block after another.
fn on_blocks<const CHECKED: bool>(
    tables: &SplitTables<CHECKED>,
    start: [usize; 16],
    count: u32,
    piece: &[u8],
    list: &mut [u32],
    hits: &mut [u16; 256],
) -> Went<[usize; 16]> {
    let mut at = start;
    let mut size = first_size(list.len());
    let mut w = 0;
    let mut i = 0;
    while i < piece.len() {
        let to = block_end(i, piece.len(), size);
        let block = between::<CHECKED, u8>(piece, i, to);
        let seen = count + (i as u32);
        let r = read_block(tables, at, seen, block, list, w, hits);
        at = r.place;
        size = next_size(size, w, r.records, list.len());
        w = r.records;
        i += r.taken;
        let Stop::All = r.stop else {
            return Went::stopped(i, at, w, r.stop);
        };
    }
    Went::stopped(i, at, w, Stop::All)
}

pub fn on_split<const CHECKED: bool>(
    first: &[u16],
    second: &[u16],
    slots: [usize; 2],
    start: [usize; 16],
    count: u32,
    piece: &[u8],
    list: &mut [u32],
) -> Went<[usize; 16]> {
    let mut hits = [0; 256];
    let mut starts = [0; 256];
    let tables = tables_at::<CHECKED>(first, second, slots, start, &mut starts);
    on_blocks(&tables, start, count, piece, list, &mut hits)
}
