//! The desk that owns its tables.

use crate::entry::Entry;
use crate::kept::Kept;
use crate::lent::{LentDesk, SPLIT_SLOT, SPLIT_TABLE};
use crate::numbers::{Edition, Fed, Record, Replaced, Serial, Stop, Tag, Ticket, TicketState};
use crate::refusal::Refusal;
use crate::set::TagSet;
use crate::split::SplitNumbers;
use std::fmt::{self, Debug, Formatter};

/// Records that a desk holds at most.
const MOST_RECORDS: usize = 256;

/// A desk: up to 16 tickets that are read side by side, one list of up to 256 records shared by
/// all, and the two tables of the set in force, for its exact and its folded tags.
///
/// The tables are the desk's own, and only an accepted replacement writes them, so every feed reads
/// over the tables of the set in force. Hence, by the theorems that `docs/PROMISES.md` names:
///
/// - a ticket's records are exactly the occurrences, in the bytes taken for it, of the tags of the
///   set under which it was opened, wherever its pieces are cut;
/// - after a replacement an older ticket takes no byte more;
/// - with the list empty, a piece that isn't empty and isn't refused advances by a byte at least.
///
/// A desk reads, and decides nothing: to pass an approval or hold it use a [`Gate`](crate::Gate).
/// Who takes a desk to know where tags end, and decides too, must ask all of this at the decision:
/// [`Desk::state`] says [`TicketState::Open`], for the set may have been replaced after the last
/// piece; no feed was refused or left a byte over; and every record was taken out, for one of this
/// ticket may be handed out while another is fed.
///
/// ```
/// use sleetbarley::{Desk, Edition, Entry, Record, Refusal, Stop, Tag, TagSet, TicketState};
///
/// let mut desk = Desk::new();
/// let replaced = desk.replace(&TagSet::new(["he", "she", "his", "hers"])?)?;
/// assert_eq!((replaced.edition, replaced.tags), (Edition(1), 4));
///
/// let serial = desk.open()?;
/// let (first, second) = (desk.feed(serial, b"ush")?, desk.feed(serial, b"ers")?);
/// assert_eq!((first.taken, second.stop), (3, Stop::All));
/// let ends: Vec<(u32, Tag)> = desk.drain().map(|r: Record| (r.end, r.tag)).collect();
/// assert_eq!(ends, [(4, Tag(0)), (4, Tag(1)), (6, Tag(3))]);
///
/// desk.replace(&TagSet::new(["hers"])?)?;
/// let stale = TicketState::Stale { edition: Edition(1), taken: 6 };
/// assert_eq!(desk.state(serial), stale);
/// let refused = desk.feed(serial, b"hers").unwrap_err();
/// assert_eq!(refused, Refusal::Stale { edition: Edition(1) });
/// assert_eq!(refused.number(), 13);
/// // The ticket isn't closed, so the desk still has the set of its records.
/// assert_eq!(desk.tag(Edition(1), Tag(3)), Some(Entry::exact("hers")));
/// desk.close(serial)?;
/// # Ok::<(), Refusal>(())
/// ```
#[derive(Clone)]
pub struct Desk {
    desk: LentDesk,
    tables: SplitNumbers,
    kept: Kept,
}

impl Default for Desk {
    fn default() -> Desk {
        Desk::new()
    }
}

impl Desk {
    /// A new desk with two tables that are enough for every set: 22,992 bytes each.
    pub fn new() -> Desk {
        Desk::with_slots([SPLIT_TABLE / SPLIT_SLOT; 2])
    }

    /// A new desk with so many slots in its first table, for exact tags, and in its second, for folded
    /// ones, 48 bytes each; 0 counts as 1, which a table without tags needs. A set that needs more is
    /// refused as [`Refusal::Table`]; [`TagSet::split_slots`](crate::TagSet::split_slots) says what it
    /// needs.
    pub fn with_slots(slots: [usize; 2]) -> Desk {
        Desk {
            desk: LentDesk::new(),
            tables: SplitNumbers::with_slots(slots),
            kept: Kept::default(),
        }
    }

    /// Puts a set in force. Every ticket opened before becomes stale; held records stay.
    ///
    /// A string is no set, so this doesn't compile:
    ///
    /// ```compile_fail,E0308
    /// let mut desk = sleetbarley::Desk::new();
    /// desk.replace("preview-17");
    /// ```
    pub fn replace(&mut self, set: &TagSet) -> Result<Replaced, Refusal> {
        let replaced = self.install(set.as_bytes())?;
        self.keep(replaced, set.clone());
        Ok(replaced)
    }

    /// Puts in force the set that stands in these bytes, as [`TagSet::from_bytes`] reads them.
    pub fn replace_bytes(&mut self, set: &[u8]) -> Result<Replaced, Refusal> {
        let replaced = self.install(set)?;
        self.keep(replaced, TagSet::accepted(set));
        Ok(replaced)
    }

    fn install(&mut self, set: &[u8]) -> Result<Replaced, Refusal> {
        let tables = &mut self.tables;
        self.desk
            .replace(set, &mut tables.first, &mut tables.second)
    }

    /// Lets go the sets that no ticket in use and no held record is of.
    fn keep(&mut self, replaced: Replaced, set: TagSet) {
        let tickets = self.desk.tickets();
        let of_ticket = |edition| tickets.iter().any(|ticket| ticket.edition == edition);
        let wanted = |edition| of_ticket(edition) || self.desk.holds_of(edition);
        self.kept.put(replaced, set, wanted);
    }

    /// Opens a ticket.
    pub fn open(&mut self) -> Result<Serial, Refusal> {
        self.desk.open()
    }

    /// Reads a piece for a ticket, as far as its records find room.
    pub fn feed(&mut self, serial: Serial, piece: &[u8]) -> Result<Fed, Refusal> {
        let [first, second] = self.tables.both();
        self.desk.feed(serial, first, second, piece)
    }

    /// Reads a piece for a ticket to its end, and hands out every record, oldest first: those held
    /// before, of any ticket, and those of this piece. Where it is refused none is handed out.
    ///
    /// ```
    /// use sleetbarley::{Desk, Refusal, TagSet};
    ///
    /// let mut desk = Desk::new();
    /// desk.replace(&TagSet::new(["aa"])?)?;
    /// let serial = desk.open()?;
    /// let mut last = 0;
    /// desk.feed_all(serial, &[b'a'; 1000], |record| last = record.end)?;
    /// assert_eq!((last, desk.held()), (1000, 0));
    /// # Ok::<(), Refusal>(())
    /// ```
    pub fn feed_all(
        &mut self,
        serial: Serial,
        piece: &[u8],
        mut each: impl FnMut(Record),
    ) -> Result<(), Refusal> {
        let mut rest = piece;
        loop {
            let fed = self.feed(serial, rest)?;
            rest = &rest[fed.taken..];
            self.take_all().into_iter().for_each(&mut each);
            // With the list empty the next feed takes a byte at least, so this ends.
            if fed.stop != Stop::Full {
                return Ok(());
            }
        }
    }

    /// What a serial stands for. Never refused.
    pub fn state(&self, serial: Serial) -> TicketState {
        self.desk.state(serial)
    }

    /// Closes a ticket, open or stale. Its serial is never given again. Closing asks nothing: whether
    /// the ticket was stale, [`Desk::state`] says before it.
    pub fn close(&mut self, serial: Serial) -> Result<(), Refusal> {
        self.desk.close(serial)
    }

    /// Takes the oldest record.
    pub fn take(&mut self) -> Result<Record, Refusal> {
        self.desk.take()
    }

    /// Takes every record, oldest first, in one call of the archive.
    pub fn take_all(&mut self) -> Vec<Record> {
        if self.held() == 0 {
            return Vec::new();
        }
        let mut list = [0; 4 * MOST_RECORDS];
        let count = self.desk.take_many(&mut list);
        let record = |numbers: &[u32]| Record {
            serial: Serial(numbers[0]),
            edition: Edition(numbers[1]),
            end: numbers[2],
            tag: Tag(numbers[3] as u8),
        };
        list.chunks_exact(4).take(count).map(record).collect()
    }

    /// Takes records one by one, oldest first. Those not asked for stay on the desk, so that an
    /// iterator dropped early loses none.
    pub fn drain(&mut self) -> Drain<'_> {
        Drain { desk: self }
    }

    /// The edition of the set in force; 0 where there is none yet.
    pub fn edition(&self) -> Edition {
        self.desk.edition()
    }

    /// The set of an edition, where the desk still has it.
    ///
    /// It has the set in force, and lets an older one go at an accepted replacement, where no ticket
    /// that isn't closed and no held record is of its edition. So the set of a record that was handed
    /// out is there as long as its ticket isn't closed, and then until the next replacement.
    pub fn set(&self, edition: Edition) -> Option<&TagSet> {
        self.kept.set(edition)
    }

    /// A tag with its kind, by its edition and its number, as records have them; see [`Desk::set`] for
    /// which editions.
    pub fn tag(&self, edition: Edition, tag: Tag) -> Option<Entry<'_>> {
        self.kept.tag(edition, tag)
    }

    /// The last serial given; 0 where none was.
    pub fn last_serial(&self) -> Serial {
        self.desk.last_serial()
    }

    /// How many records are held.
    pub fn held(&self) -> usize {
        self.desk.held()
    }

    /// The tickets that aren't closed, by serial.
    pub fn tickets(&self) -> Vec<Ticket> {
        self.desk.tickets()
    }

    /// The numbers of the first and of the second table.
    pub fn tables(&self) -> [&[u16]; 2] {
        self.tables.both()
    }
}

impl Debug for Desk {
    fn fmt(&self, f: &mut Formatter) -> fmt::Result {
        f.debug_struct("Desk")
            .field("desk", &self.desk)
            .field("slots", &self.tables.slots())
            .finish()
    }
}

/// An iterator that takes records off a desk; see [`Desk::drain`].
#[derive(Debug)]
pub struct Drain<'d> {
    desk: &'d mut Desk,
}

impl Iterator for Drain<'_> {
    type Item = Record;

    fn next(&mut self) -> Option<Record> {
        self.desk.take().ok()
    }

    fn size_hint(&self) -> (usize, Option<usize>) {
        (self.desk.held(), Some(self.desk.held()))
    }
}

impl ExactSizeIterator for Drain<'_> {}
impl std::iter::FusedIterator for Drain<'_> {}
