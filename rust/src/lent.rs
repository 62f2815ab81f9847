//! The calls as the archive has them, over tables and lists that the caller lends at each call.
//!
//! A [`Desk`](crate::Desk), a [`SplitTable`](crate::SplitTable), a
//! [`WholeTable`](crate::WholeTable) or a [`BitmapTable`](crate::BitmapTable) owns its numbers and so
//! can't be lent wrong ones; prefer these. Of the split layout's two tables the first is for exact tags and
//! the second for folded ones, and each needs a slot at least, one without tags too.
//! What stands here is safe too: a table that isn't as building left it is walked exactly as its
//! numbers say, and stops as [`Stop::Damaged`] where they lead outside it. That is so too where the two
//! tables are changed over, or one is lent for both: with as many slots nothing stops, and other tags are
//! searched than those of the set. To decide about approvals
//! use a [`Gate`](crate::Gate).

use crate::numbers::{
    Edition, Fed, Found, Record, Replaced, Serial, Stop, Tag, Ticket, TicketState,
};
use crate::raw::{self, Image};
use crate::refusal::Refusal;
use std::fmt::{self, Debug, Formatter};

/// Numbers of each split table that are enough for every set: 479 slots of 24.
pub const SPLIT_TABLE: usize = 479 * SPLIT_SLOT;
/// Numbers of a whole-byte table that is enough for every set: 513 slots of 257.
pub const WHOLE_TABLE: usize = 513 * WHOLE_SLOT;
/// Numbers of a bitmap table that is enough for every set: 513 slots of 19.
pub const BITMAP_TABLE: usize = 513 * BITMAP_SLOT;
/// Numbers of either split table for each slot.
pub const SPLIT_SLOT: usize = 24;
/// Numbers of a whole-byte table for each slot.
pub const WHOLE_SLOT: usize = 257;
/// Numbers of a bitmap table for each slot.
pub const BITMAP_SLOT: usize = 19;

/// A place in the split layout: a state for each machine, those of the first table first.
pub type SplitPlace = [u16; 16];

/// The place at which a reading over split tables starts.
pub const SPLIT_START: SplitPlace = [0; 16];
/// The place at which a reading over a whole-byte table starts.
pub const WHOLE_START: u16 = 0;
/// The place at which a reading over a bitmap table starts.
pub const BITMAP_START: u16 = 0;

/// A desk that is lent its two tables at each call. Two are equal where every number in them is.
///
/// ```
/// use sleetbarley::lent::{LentDesk, SPLIT_TABLE};
/// use sleetbarley::{Refusal, Stop, TagSet};
///
/// let (mut first, mut second) = (vec![0; SPLIT_TABLE], vec![0; SPLIT_TABLE]);
/// let set = TagSet::builder().tag("he").folded("she").build()?;
/// let mut desk = LentDesk::new();
/// desk.replace(set.as_bytes(), &mut first, &mut second)?;
/// let serial = desk.open()?;
/// let fed = desk.feed(serial, &first, &second, b"SHE and she")?;
/// assert_eq!(fed.records, 3);
/// // A table of another length is not the one of the replacement.
/// let fed = desk.feed(serial, &first, &second[..240], b"she")?;
/// assert_eq!(fed.stop, Stop::Damaged);
/// # Ok::<(), Refusal>(())
/// ```
#[derive(Clone, PartialEq, Eq)]
pub struct LentDesk {
    // An image has 4,840 bytes.
    image: Box<Image>,
}

impl Default for LentDesk {
    fn default() -> LentDesk {
        LentDesk::new()
    }
}

impl LentDesk {
    /// A new desk: edition 0, serial 0, no set.
    pub fn new() -> LentDesk {
        let image = Box::new(Image::new());
        LentDesk { image }
    }

    /// Reads a set and builds its split tables in the numbers lent. Every ticket becomes stale.
    pub fn replace(
        &mut self,
        set: &[u8],
        first: &mut [u16],
        second: &mut [u16],
    ) -> Result<Replaced, Refusal> {
        Refusal::or(self.image.replace(set, first, second)).map(Replaced::of)
    }

    /// Opens a ticket.
    pub fn open(&mut self) -> Result<Serial, Refusal> {
        let said = Refusal::or(self.image.open())?;
        Ok(Serial(said.a as u32))
    }

    /// Reads a piece for a ticket, over both tables as the last accepted replacement left them.
    pub fn feed(
        &mut self,
        serial: Serial,
        first: &[u16],
        second: &[u16],
        piece: &[u8],
    ) -> Result<Fed, Refusal> {
        Refusal::or(self.image.feed(serial.0, first, second, piece)).map(Fed::of)
    }

    /// Closes a ticket, open or stale.
    pub fn close(&mut self, serial: Serial) -> Result<(), Refusal> {
        Refusal::or(self.image.close(serial.0)).map(|_| ())
    }

    /// Takes the oldest record.
    pub fn take(&mut self) -> Result<Record, Refusal> {
        let said = Refusal::or(self.image.take())?;
        Ok(Record {
            serial: Serial(said.a as u32),
            edition: Edition(said.b as u32),
            end: said.c as u32,
            tag: Tag(said.d as u8),
        })
    }

    /// Takes as many of the oldest records as the list has room for, four numbers each: serial,
    /// edition, end, tag. Gives how many it took; the rest of the list stays as it was.
    pub fn take_many(&mut self, list: &mut [u32]) -> usize {
        self.image.take_many(list) as usize
    }

    /// What a serial stands for. Never refused.
    pub fn state(&self, serial: Serial) -> TicketState {
        TicketState::of(self.image.state(serial.0))
    }

    /// The edition of the set in force; 0 where there is none yet.
    pub fn edition(&self) -> Edition {
        Edition(self.image.edition)
    }

    /// The last serial given; 0 where none was.
    pub fn last_serial(&self) -> Serial {
        Serial(self.image.serial)
    }

    /// How many records are held.
    pub fn held(&self) -> usize {
        self.image.count as usize
    }

    /// The tickets that aren't closed, by serial.
    pub fn tickets(&self) -> Vec<Ticket> {
        tickets_of(&self.image)
    }

    /// Whether a held record is of this edition.
    pub(crate) fn holds_of(&self, edition: Edition) -> bool {
        let image = &self.image;
        let held =
            (0..image.count.min(256)).map(|k| image.ring[((image.first + k) % 256) as usize]);
        held.into_iter().any(|record| record.edition == edition.0)
    }
}

/// The tickets of an image that aren't closed, by serial.
pub(crate) fn tickets_of(image: &Image) -> Vec<Ticket> {
    let ticket = |room: &raw::Ticket| Ticket {
        serial: Serial(room.serial),
        edition: Edition(room.edition),
        taken: room.taken,
        stale: room.edition != image.edition,
    };
    let in_use = image.tickets.iter().filter(|room| room.serial != 0);
    let mut tickets: Vec<Ticket> = in_use.map(ticket).collect();
    tickets.sort_by_key(|ticket| ticket.serial);
    tickets
}

impl Debug for LentDesk {
    fn fmt(&self, f: &mut Formatter) -> fmt::Result {
        f.debug_struct("LentDesk")
            .field("edition", &self.edition())
            .field("last_serial", &self.last_serial())
            .field("held", &self.held())
            .field("tickets", &self.tickets())
            .finish()
    }
}

/// Builds both split tables in the numbers lent; gives the number of tags.
pub fn build_split(set: &[u8], first: &mut [u16], second: &mut [u16]) -> Result<usize, Refusal> {
    Refusal::or(raw::build_split(set, first, second)).map(|said| said.a as usize)
}

/// Builds a whole-byte table in the numbers lent; gives the number of tags.
pub fn build_whole(set: &[u8], table: &mut [u16]) -> Result<usize, Refusal> {
    Refusal::or(raw::build_whole(set, table)).map(|said| said.a as usize)
}

/// Builds a bitmap table in the numbers lent; gives the number of tags.
pub fn build_bitmap(set: &[u8], table: &mut [u16]) -> Result<usize, Refusal> {
    Refusal::or(raw::build_bitmap(set, table)).map(|said| said.a as usize)
}

/// What an accepted read outside the desk gives.
#[derive(Clone, Copy, Debug, PartialEq, Eq, Hash)]
#[must_use = "a read may take fewer bytes than the piece has"]
pub struct Reading<Place> {
    /// How many bytes of the piece were taken.
    pub taken: usize,
    /// Why it stopped.
    pub stop: Stop,
    /// How many records were written.
    pub records: usize,
    /// Where the next reading goes on.
    pub place: Place,
}

impl<Place> Reading<Place> {
    fn of(answer: raw::Answer, place: Place) -> Reading<Place> {
        let fed = Fed::of(answer);
        Reading {
            taken: fed.taken,
            stop: fed.stop,
            records: fed.records,
            place,
        }
    }

    /// The records that this reading wrote into its list.
    pub fn found<'l>(&self, list: &'l [u32]) -> impl Iterator<Item = Found> + 'l {
        let found = |pair: &[u32]| Found {
            end: pair[0],
            tag: Tag(pair[1] as u8),
        };
        list.chunks_exact(2).take(self.records).map(found)
    }
}

/// Reads a piece over both split tables, from a place and with so many bytes taken before it. Records
/// go into the list, two numbers each: end, tag.
pub fn read_split(
    first: &[u16],
    second: &[u16],
    place: SplitPlace,
    count: u32,
    piece: &[u8],
    list: &mut [u32],
) -> Result<Reading<SplitPlace>, Refusal> {
    let mut after = place;
    let answer = raw::read_split(first, second, &mut after, count, piece, list);
    let said = Refusal::or(answer)?;
    Ok(Reading::of(said, after))
}

/// The same over a whole-byte table.
pub fn read_whole(
    table: &[u16],
    place: u16,
    count: u32,
    piece: &[u8],
    list: &mut [u32],
) -> Result<Reading<u16>, Refusal> {
    let mut after = place;
    let said = Refusal::or(raw::read_whole(table, &mut after, count, piece, list))?;
    Ok(Reading::of(said, after))
}

/// What an accepted read over a bitmap table gives.
#[derive(Clone, Copy, Debug, PartialEq, Eq, Hash)]
#[must_use = "a read may take fewer bytes than the piece has"]
pub struct BitmapReading {
    /// What a read over any table gives.
    pub reading: Reading<u16>,
    /// The failure moves of the bytes taken. Over a table as building left it, from the start, there
    /// are no more of them than bytes taken; else up to 512 for each.
    pub moves: u64,
}

/// The same over a bitmap table. Its places are not those of a whole-byte table.
pub fn read_bitmap(
    table: &[u16],
    place: u16,
    count: u32,
    piece: &[u8],
    list: &mut [u32],
) -> Result<BitmapReading, Refusal> {
    let mut after = place;
    let said = Refusal::or(raw::read_bitmap(table, &mut after, count, piece, list))?;
    Ok(BitmapReading {
        reading: Reading::of(said, after),
        moves: said.d,
    })
}
