//! Reading a piece over any tables: docs/RULES.md, 4.

use crate::refusal::Refusal;
use crate::table::Tables;

/// The reason for stopping.
#[derive(Clone, Copy, Debug, PartialEq, Eq)]
pub enum Stop {
    All,
    Full,
    Damaged,
}

impl Stop {
    /// Its name in docs/RULES.md, 4.4.
    pub fn name(self) -> &'static str {
        match self {
            Stop::All => "ALL",
            Stop::Full => "FULL",
            Stop::Damaged => "DAMAGED",
        }
    }
}

/// The answer of a reading.
#[derive(Clone, Debug, PartialEq, Eq)]
pub struct Reading {
    /// The number of bytes of the piece taken.
    pub taken: usize,
    /// The new place: one state number per machine, in the split layout sixteen.
    pub place: Vec<u16>,
    pub stop: Stop,
    /// The number of records written.
    pub records: usize,
    /// The failure moves of the bytes taken; only over a bitmap table are
    /// there any.
    pub moves: u64,
}

/// A read outside the desk: PLACE, then LONG, then the reading.
pub fn read_outside(
    tables: Tables,
    place: &[u16],
    count: u32,
    piece: &[u8],
    list: &mut [u32],
) -> Result<Reading, Refusal> {
    let mut machines = place.iter().enumerate();
    if machines.any(|(machine, state)| !tables.has(machine, *state)) {
        return Err(Refusal::Place);
    }
    read(tables, place, count, piece, list)
}

/// LONG, then the reading. Every state of `place` is below its table's s.
pub fn read(
    tables: Tables,
    place: &[u16],
    count: u32,
    piece: &[u8],
    list: &mut [u32],
) -> Result<Reading, Refusal> {
    // In 64 bits, for the sum passes what 32 hold.
    if u64::from(count) + piece.len() as u64 > u64::from(u32::MAX) {
        return Err(Refusal::Long);
    }
    Ok(walk(tables, place, count, piece, list))
}

/// Takes byte after byte; count plus the piece fits 32 bits.
fn walk(tables: Tables, place: &[u16], count: u32, piece: &[u8], list: &mut [u32]) -> Reading {
    let mut place = place.to_vec();
    let mut ahead = place.clone();
    // Two numbers a record; an odd last number isn't used.
    let mut room = list.chunks_exact_mut(2);
    let mut stop = Stop::All;
    let mut taken = 0usize;
    let mut records = 0usize;
    let mut moves = 0u64;
    for byte in piece {
        let Some((matches, moves_here)) = step(tables, &place, *byte, &mut ahead) else {
            stop = Stop::Damaged;
            break;
        };
        if matches.count_ones() as usize > room.len() {
            stop = Stop::Full;
            break;
        }
        taken += 1;
        moves += moves_here;
        let end = count + taken as u32;
        // By tag number: each of the 16 bits, the least first. A bit at or
        // above the number of tags is reported as the numbers say.
        for tag in (0..16).filter(|tag| matches >> tag & 1 == 1) {
            if let Some(record) = room.next() {
                record.copy_from_slice(&[end, tag]);
                records += 1;
            }
        }
        std::mem::swap(&mut place, &mut ahead);
    }
    Reading {
        taken,
        place,
        stop,
        records,
        moves,
    }
}

/// One byte on: `ahead` becomes the place after it, and the answer is the tags
/// found there and the failure moves made; nothing where a number read, in any
/// table, is not below what it must be below.
fn step(tables: Tables, place: &[u16], byte: u8, ahead: &mut [u16]) -> Option<(u16, u64)> {
    let mut moves = 0;
    for (machine, (state, new)) in place.iter().zip(ahead.iter_mut()).enumerate() {
        let next = tables.next(machine, *state, byte)?;
        *new = next.state;
        moves += next.moves;
    }
    Some((tables.found(ahead)?, moves))
}
