//! Tables built and read outside the desk.

use crate::lent::{self, BitmapReading, Reading, SplitPlace};
use crate::lent::{BITMAP_SLOT, BITMAP_START, SPLIT_START, WHOLE_SLOT, WHOLE_START};
use crate::numbers::{Found, Stop};
use crate::refusal::Refusal;
use crate::set::TagSet;
use crate::split::SplitNumbers;

/// Numbers of the list that `find_all` reads into: room for any byte's matches, and many more.
const LIST: usize = 512;

/// The two split tables of a set, as building left them: of each kind of tag eight machines, each reading
/// one bit of every byte, those of the folded tags of the byte folded.
///
/// ```
/// use sleetbarley::{lent, Found, Refusal, SplitTable, Stop, Tag, TagSet};
///
/// let table = SplitTable::build(&TagSet::new(["a", "aa"])?)?;
/// let found = table.find_all(b"aa")?;
/// assert_eq!(found[2], Found { end: 2, tag: Tag(1) });
///
/// // The same in pieces, with a list of the caller's own.
/// let mut list = [0; 4];
/// let first = table.read(lent::SPLIT_START, 0, b"a", &mut list)?;
/// let second = table.read(first.place, 1, b"a", &mut list)?;
/// assert_eq!((second.taken, second.stop, second.records), (1, Stop::All, 2));
/// assert_eq!(list, [2, 0, 2, 1]);
///
/// // Tags of both kinds.
/// let table = SplitTable::build(&TagSet::builder().folded("He").tag("He").build()?)?;
/// let found = table.find_all(b"hehEHe")?;
/// let ends: Vec<(u32, Tag)> = found.iter().map(|found| (found.end, found.tag)).collect();
/// assert_eq!(ends, [(2, Tag(0)), (4, Tag(0)), (6, Tag(0)), (6, Tag(1))]);
/// # Ok::<(), Refusal>(())
/// ```
#[derive(Clone, Debug, PartialEq, Eq)]
pub struct SplitTable {
    numbers: SplitNumbers,
}

impl SplitTable {
    /// Tables with just the slots that the set needs.
    pub fn build(set: &TagSet) -> Result<SplitTable, Refusal> {
        let mut numbers = SplitNumbers::with_slots(set.split_slots());
        lent::build_split(set.as_bytes(), &mut numbers.first, &mut numbers.second)?;
        Ok(SplitTable { numbers })
    }

    /// The numbers of the first table, machines 0 to 7, and of the second, machines 8 to 15; each machine
    /// with its slots of next on 0, next on 1, vector.
    pub fn numbers(&self) -> [&[u16]; 2] {
        self.numbers.both()
    }

    /// Reads a piece from a place with so many bytes taken before it, into a list with two numbers
    /// for each record: end, tag.
    pub fn read(
        &self,
        place: SplitPlace,
        count: u32,
        piece: &[u8],
        list: &mut [u32],
    ) -> Result<Reading<SplitPlace>, Refusal> {
        let [first, second] = self.numbers.both();
        lent::read_split(first, second, place, count, piece, list)
    }

    /// Every occurrence in these bytes, by end, then by tag.
    pub fn find_all(&self, bytes: &[u8]) -> Result<Vec<Found>, Refusal> {
        let read =
            |place, count, piece: &[u8], list: &mut [u32]| self.read(place, count, piece, list);
        find_all(SPLIT_START, bytes, read)
    }
}

/// A whole-byte table, as building left it: one machine that reads whole bytes.
///
/// It is larger than a [`SplitTable`], and finds the same. It has exact tags alone: a set with a folded
/// one is refused as [`Refusal::Kind`].
///
/// ```
/// use sleetbarley::{Refusal, SplitTable, TagSet, WholeTable};
///
/// let set = TagSet::new(["he", "she", "his", "hers"])?;
/// let (whole, split) = (WholeTable::build(&set)?, SplitTable::build(&set)?);
/// let (by_whole, by_split) = (whole.find_all(b"ushers")?, split.find_all(b"ushers")?);
/// assert_eq!(by_whole, by_split);
/// # Ok::<(), Refusal>(())
/// ```
#[derive(Clone, Debug, PartialEq, Eq)]
pub struct WholeTable {
    numbers: Box<[u16]>,
}

impl WholeTable {
    /// A table with just the slots that the set needs. Refused as [`Refusal::Kind`] where a tag is
    /// folded.
    pub fn build(set: &TagSet) -> Result<WholeTable, Refusal> {
        let mut numbers: Box<[u16]> = vec![0; set.whole_slots()? * WHOLE_SLOT].into();
        lent::build_whole(set.as_bytes(), &mut numbers)?;
        Ok(WholeTable { numbers })
    }

    /// The table's numbers: for each slot 256 nexts, then the vector.
    pub fn numbers(&self) -> &[u16] {
        &self.numbers
    }

    /// Reads a piece from a place with so many bytes taken before it, into a list with two numbers
    /// for each record: end, tag.
    pub fn read(
        &self,
        place: u16,
        count: u32,
        piece: &[u8],
        list: &mut [u32],
    ) -> Result<Reading<u16>, Refusal> {
        lent::read_whole(&self.numbers, place, count, piece, list)
    }

    /// Every occurrence in these bytes, by end, then by tag.
    pub fn find_all(&self, bytes: &[u8]) -> Result<Vec<Found>, Refusal> {
        let read =
            |place, count, piece: &[u8], list: &mut [u32]| self.read(place, count, piece, list);
        find_all(WHOLE_START, bytes, read)
    }
}

/// A bitmap table, as building left it: the machine of a [`WholeTable`] in less than a thirteenth of its
/// numbers.
///
/// It finds the same, more slowly: a byte that a state doesn't have in its map makes failure moves to
/// shorter prefixes. From the start there are never more of them than bytes. It has exact tags alone too.
///
/// ```
/// use sleetbarley::{lent, BitmapTable, Refusal, TagSet, WholeTable};
///
/// let set = TagSet::new(["he", "she", "his", "hers"])?;
/// let (bitmap, whole) = (BitmapTable::build(&set)?, WholeTable::build(&set)?);
/// assert_eq!((bitmap.numbers().len(), whole.numbers().len()), (190, 2570));
/// let (by_bitmap, by_whole) = (bitmap.find_all(b"ushers")?, whole.find_all(b"ushers")?);
/// assert_eq!(by_bitmap, by_whole);
///
/// // After "she" the byte 'r' moves to "he", which has it.
/// let mut list = [0; 8];
/// let said = bitmap.read(lent::BITMAP_START, 0, b"ushers", &mut list)?;
/// assert_eq!((said.reading.taken, said.reading.records, said.moves), (6, 3, 1));
/// # Ok::<(), Refusal>(())
/// ```
#[derive(Clone, Debug, PartialEq, Eq)]
pub struct BitmapTable {
    numbers: Box<[u16]>,
}

impl BitmapTable {
    /// A table with just the slots that the set needs. Refused as [`Refusal::Kind`] where a tag is
    /// folded.
    pub fn build(set: &TagSet) -> Result<BitmapTable, Refusal> {
        let mut numbers: Box<[u16]> = vec![0; set.bitmap_slots()? * BITMAP_SLOT].into();
        lent::build_bitmap(set.as_bytes(), &mut numbers)?;
        Ok(BitmapTable { numbers })
    }

    /// The table's numbers: for each slot 16 of map, the first child, the failure state, the vector.
    pub fn numbers(&self) -> &[u16] {
        &self.numbers
    }

    /// Reads a piece from a place with so many bytes taken before it, into a list with two numbers
    /// for each record: end, tag.
    pub fn read(
        &self,
        place: u16,
        count: u32,
        piece: &[u8],
        list: &mut [u32],
    ) -> Result<BitmapReading, Refusal> {
        lent::read_bitmap(&self.numbers, place, count, piece, list)
    }

    /// Every occurrence in these bytes, by end, then by tag.
    pub fn find_all(&self, bytes: &[u8]) -> Result<Vec<Found>, Refusal> {
        let read = |place, count, piece: &[u8], list: &mut [u32]| {
            let said = self.read(place, count, piece, list)?;
            Ok(said.reading)
        };
        find_all(BITMAP_START, bytes, read)
    }
}

/// Reads bytes from a start place to their end, with the list emptied wherever it is full.
fn find_all<Place>(
    start: Place,
    bytes: &[u8],
    read: impl Fn(Place, u32, &[u8], &mut [u32]) -> Result<Reading<Place>, Refusal>,
) -> Result<Vec<Found>, Refusal> {
    let mut list = [0; LIST];
    let mut found = Vec::new();
    let (mut place, mut taken) = (start, 0);
    loop {
        let reading = read(place, taken as u32, &bytes[taken..], &mut list)?;
        found.extend(reading.found(&list));
        taken += reading.taken;
        // A built table is never damaged, and the list has room for any one byte's matches.
        if reading.stop != Stop::Full {
            return Ok(found);
        }
        place = reading.place;
    }
}
