//! The gate: the one way to decide about approvals.

use crate::entry::{Entry, Kind};
use crate::kept::Kept;
use crate::lent::{tickets_of, SPLIT_SLOT, SPLIT_TABLE};
use crate::numbers::{Edition, Replaced, Serial, Tag, Ticket, TicketState};
use crate::raw::GateImage;
use crate::refusal::Refusal;
use crate::set::TagSet;
use crate::split::SplitNumbers;
use std::fmt::{self, Debug, Display, Formatter};

/// A gate: it reads up to 16 approvals side by side, and decides about each.
///
/// An approval is begun, handed in piece by piece, and decided. However it was cut and whatever came
/// between, after any history of calls [`Gate::decide`] answers [`Verdict::Pass`] exactly if no
/// replacement was accepted since the approval began, every byte handed in was taken, and no tag of
/// the set in force, by its kind, ends anywhere in those bytes. That is proved (`exactly` in
/// `crates/verdicts/specs/Exactly.antt`).
///
/// The gate owns its desk and its tables, notes each record for its own approval, and frees the
/// approval's ticket when it decides, so there is no list to empty and no ticket to close. It can't be
/// cloned: a copy would decide by a set that was replaced on the other. Who wants to know where tags
/// end has a [`Desk`](crate::Desk) beside it, and hands each piece to both.
///
/// # Before you approve
///
/// The gate answers for the bytes that it was handed and for the set that is in force. The rest is the
/// caller's; `docs/EMBEDDING.md` has all of it, and this is what is forgotten most easily:
///
/// - **One lock.** Threads share a gate as a `Mutex<Gate>`. Decide and let through under one guard,
///   bound by a `let` of its own, with nothing awaited between: a [`Verdict::Pass`] speaks of the set
///   in force when it was given. After `let verdict = shared.lock().unwrap().decide(serial)?;` the
///   guard is gone.
/// - **Queues.** What waits in a queue, for a retry, in a cache or in a `BufWriter` isn't let through
///   yet: decide when it leaves.
/// - **As many bytes as were read.** [`Gate::state`] before the decision has their number: compare it
///   with the number that is to go out, before it goes out.
/// - **A refused set withdraws nothing.** Let nothing through until the list that was refused is in
///   force, put right; the last good list again is not enough.
/// - **An exact tag is matched byte for byte.** Where people type tags, or phones rewrite them in
///   capitals, an exact `preview-17` lets `PREVIEW-17` through: fold it.
/// - **An empty list is no set.** When no tag is withdrawn any more, put one in force that no approval
///   carries: 32 random bytes.
/// - **More than 16 tags** need several gates that all read every approval, under one lock, and it
///   passes if all say so. Replace all their sets each time, and when a gate is added: an approval
///   that began before, and that the new gate hasn't read, is then stale.
///
/// ```
/// use sleetbarley::{Edition, Entry, Gate, Piece, Refusal, TagSet, Verdict};
///
/// // People type names, so these are folded. In the code of a scan a capital is another letter, so that
/// // is exact.
/// let [first, second, third] = ["preview-17", "preview-23", "preview-31"].map(Entry::folded);
/// let scan = Entry::exact("scan-aZ9");
/// let mut gate = Gate::new();
/// gate.replace(&TagSet::new([first, second, scan])?)?;
///
/// // A tag across two pieces. A phone has written all of it in capitals: the folded name is found, and the
/// // exact code isn't.
/// let north = gate.begin()?;
/// let front = gate.piece(north, b"APPROVED: CROWN 26, FROM PREV")?;
/// let rest = gate.piece(north, b"IEW-17, BY SCAN-AZ9")?;
/// assert_eq!((front, rest), (Piece::Read, Piece::Read));
/// let words = gate.decide(north)?.to_string();
/// assert_eq!(words, r"hold: it carries \~preview-17 (tag 0 of edition 1)");
///
/// // Read whole and without a tag; but the set is replaced before the decision.
/// let south = gate.begin()?;
/// gate.piece(south, b"approved: bridge 4, from preview-31")?;
/// gate.replace(&TagSet::new([first, second, third, scan])?)?;
/// let verdict = gate.decide(south)?;
/// assert_eq!(verdict, Verdict::Stale { edition: Edition(1) });
///
/// // So it is read again, from its first byte.
/// let again = gate.begin()?;
/// gate.piece(again, b"approved: bridge 4, from preview-31")?;
/// let passes = gate.decide(again)?.passes();
/// assert!(!passes);
///
/// // A serial is decided once.
/// let refused = gate.decide(again);
/// assert_eq!(refused, Err(Refusal::NoTicket));
///
/// // The exact code is found as the list has it.
/// let west = gate.begin()?;
/// gate.piece(west, b"approved: inlay 5, by scan-aZ9")?;
/// let words = gate.decide(west)?.to_string();
/// assert_eq!(words, "hold: it carries scan-aZ9 (tag 3 of edition 2)");
/// # Ok::<(), Refusal>(())
/// ```
pub struct Gate {
    // An image has 5,096 bytes.
    image: Box<GateImage>,
    tables: SplitNumbers,
    kept: Kept,
}

impl Default for Gate {
    fn default() -> Gate {
        Gate::new()
    }
}

impl Gate {
    /// A new gate, with no set in force, and two tables that are enough for every set: 22,992 bytes
    /// each.
    pub fn new() -> Gate {
        Gate::with_slots([SPLIT_TABLE / SPLIT_SLOT; 2])
    }

    /// A new gate with so many slots in its first table, for exact tags, and in its second, for folded
    /// ones, 48 bytes each; 0 counts as 1, which a table without tags needs. A set that needs more is
    /// refused as [`Refusal::Table`]; [`TagSet::split_slots`] says what it needs.
    pub fn with_slots(slots: [usize; 2]) -> Gate {
        Gate {
            image: Box::new(GateImage::new()),
            tables: SplitNumbers::with_slots(slots),
            kept: Kept::default(),
        }
    }

    /// Puts a set in force. Every approval that isn't decided yet is stale from now on.
    ///
    /// A refused set changes nothing: the old one stays in force, and what was to be withdrawn isn't.
    ///
    /// A string is no set, so this doesn't compile:
    ///
    /// ```compile_fail,E0308
    /// let mut gate = sleetbarley::Gate::new();
    /// gate.replace("preview-17");
    /// ```
    pub fn replace(&mut self, set: &TagSet) -> Result<Replaced, Refusal> {
        let replaced = self.install(set.as_bytes())?;
        self.keep(replaced, set.clone());
        Ok(replaced)
    }

    /// Puts in force the set that stands in these bytes, as [`TagSet::from_bytes`] reads them: what
    /// a file has that `sleet-set make` wrote.
    ///
    /// ```
    /// use sleetbarley::{Gate, Refusal};
    ///
    /// let mut gate = Gate::new();
    /// let now = gate.replace_bytes(b"\x02\0\x01\0he")?;
    /// assert_eq!(now.tags, 1);
    /// // The bytes of a tag alone are no set.
    /// let refused = gate.replace_bytes(b"preview-17");
    /// assert_eq!(refused, Err(Refusal::Kind { entry: 0 }));
    /// # Ok::<(), Refusal>(())
    /// ```
    pub fn replace_bytes(&mut self, set: &[u8]) -> Result<Replaced, Refusal> {
        let replaced = self.install(set)?;
        self.keep(replaced, TagSet::accepted(set));
        Ok(replaced)
    }

    fn install(&mut self, set: &[u8]) -> Result<Replaced, Refusal> {
        let tables = &mut self.tables;
        let said = self
            .image
            .replace(set, &mut tables.first, &mut tables.second);
        Refusal::or(said).map(Replaced::of)
    }

    /// Lets go the sets that no undecided approval was begun under.
    fn keep(&mut self, replaced: Replaced, set: TagSet) {
        let undecided = self.approvals();
        let wanted = |edition| undecided.iter().any(|one| one.edition == edition);
        self.kept.put(replaced, set, wanted);
    }

    /// Begins an approval.
    ///
    /// Refused as [`Refusal::NoSet`] before the first set, and as [`Refusal::NoRoom`] where 16
    /// approvals are not decided: decide one, a stale one too, and it has room again.
    pub fn begin(&mut self) -> Result<Serial, Refusal> {
        let said = Refusal::or(self.image.begin())?;
        Ok(Serial(said.a as u32))
    }

    /// Hands in a piece of an approval. What it answers under the approval's own serial,
    /// [`Gate::decide`] knows too: who overlooks a cut, or that the approval is stale, can't pass it.
    ///
    /// Refused as [`Refusal::Stale`] where the set was replaced since the approval began: decide it,
    /// begin it anew and hand in all of it, from its first byte. Refused as [`Refusal::NoTicket`]
    /// where no approval has this serial: nobody read the piece, and no decision knows of it.
    pub fn piece(&mut self, serial: Serial, piece: &[u8]) -> Result<Piece, Refusal> {
        let [first, second] = self.tables.both();
        let said = Refusal::or(self.image.piece(serial.0, first, second, piece))?;
        let taken = said.b as usize;
        Ok(match said.a {
            1 => Piece::Read,
            _ => Piece::Cut { taken },
        })
    }

    /// Decides about an approval, and frees its room. Its serial is never given again: a second
    /// decision is refused as [`Refusal::NoTicket`], and so is a serial that was never given.
    ///
    /// Who doesn't look at the verdict is warned:
    ///
    /// ```compile_fail
    /// #![deny(unused_must_use)]
    /// # use sleetbarley::{Gate, Refusal, Serial};
    /// fn finish(gate: &mut Gate, serial: Serial) -> Result<(), Refusal> {
    ///     gate.decide(serial)?;
    ///     Ok(())
    /// }
    /// ```
    pub fn decide(&mut self, serial: Serial) -> Result<Verdict, Refusal> {
        let said = Refusal::or(self.image.decide(serial.0))?;
        Ok(match said.a {
            1 => Verdict::Pass,
            2 => Verdict::Hold(self.held(said.b)),
            3 => Verdict::Stale {
                edition: Edition(said.b as u32),
            },
            4 => Verdict::Unread,
            other => panic!("the archive isn't the one this crate is for: a verdict of {other}"),
        })
    }

    /// The tags of a mask, by the set in force.
    fn held(&self, mask: u64) -> Held {
        let edition = self.edition();
        let held = |tag| {
            let entry = self.tag(edition, tag).unwrap_or_else(|| Entry::exact(""));
            (tag, entry.kind(), entry.bytes().to_vec())
        };
        let in_mask = (0..64).filter(|tag| mask >> tag & 1 == 1).map(Tag);
        Held {
            edition,
            tags: in_mask.map(held).collect(),
        }
    }

    /// The edition of the set in force; 0 where there is none yet.
    pub fn edition(&self) -> Edition {
        Edition(self.image.desk.edition)
    }

    /// The last serial given; 0 where none was.
    pub fn last_serial(&self) -> Serial {
        Serial(self.image.desk.serial)
    }

    /// The approvals that aren't decided yet, by serial.
    pub fn approvals(&self) -> Vec<Ticket> {
        tickets_of(&self.image.desk)
    }

    /// What a serial stands for: an approval that is decided is [`TicketState::Closed`]. This
    /// decides nothing; an approval that is open may carry a tag.
    pub fn state(&self, serial: Serial) -> TicketState {
        TicketState::of(self.image.desk.state(serial.0))
    }

    /// The set of an edition, where the gate still has it: the set in force, and those under which
    /// approvals were begun that weren't decided when the set in force came.
    pub fn set(&self, edition: Edition) -> Option<&TagSet> {
        self.kept.set(edition)
    }

    /// A tag with its kind, by its edition and its number; see [`Gate::set`] for which editions.
    pub fn tag(&self, edition: Edition, tag: Tag) -> Option<Entry<'_>> {
        self.kept.tag(edition, tag)
    }
}

impl Debug for Gate {
    fn fmt(&self, f: &mut Formatter) -> fmt::Result {
        f.debug_struct("Gate")
            .field("edition", &self.edition())
            .field("last_serial", &self.last_serial())
            .field("approvals", &self.approvals())
            .field("slots", &self.tables.slots())
            .finish()
    }
}

/// What an accepted piece gives.
#[derive(Clone, Copy, Debug, PartialEq, Eq, Hash)]
pub enum Piece {
    /// Every byte of it was taken.
    Read,
    /// Only so many bytes of it were taken, for an approval has at most 4,294,967,295. It can no
    /// longer pass.
    Cut {
        /// How many bytes of the piece were taken.
        taken: usize,
    },
}

/// What is decided about an approval. Only [`Verdict::Pass`] lets it pass.
#[derive(Clone, Debug, PartialEq, Eq, Hash)]
#[must_use = "an approval passes only where this is Verdict::Pass"]
pub enum Verdict {
    /// It was begun under the set in force and read whole, and carries no tag of it.
    Pass,
    /// It carries tags of the set in force.
    Hold(Held),
    /// The set was replaced after it was begun, so it wasn't read under the set in force. Begin it
    /// anew and hand in all of it, from its first byte.
    Stale {
        /// The edition under which it was begun.
        edition: Edition,
    },
    /// Not every byte handed in was taken, so nobody knows what it carries. Hold it.
    Unread,
}

impl Verdict {
    /// Whether the approval passes: true for [`Verdict::Pass`] alone.
    pub fn passes(&self) -> bool {
        matches!(self, Verdict::Pass)
    }
}

impl Display for Verdict {
    fn fmt(&self, f: &mut Formatter) -> fmt::Result {
        match self {
            Verdict::Pass => write!(f, "pass"),
            Verdict::Hold(held) => write!(f, "hold: it carries {held}"),
            Verdict::Stale { edition } => write!(
                f,
                "stale: it was begun under edition {edition}, which was replaced; read it again"
            ),
            Verdict::Unread => write!(f, "unread: not every byte handed in was taken"),
        }
    }
}

/// The tags for which an approval is held, by number: one at least.
#[derive(Clone, Debug, PartialEq, Eq, Hash)]
pub struct Held {
    edition: Edition,
    tags: Vec<(Tag, Kind, Vec<u8>)>,
}

impl Held {
    /// The edition of the set in force at the decision; the tags are numbers of that set.
    pub fn edition(&self) -> Edition {
        self.edition
    }

    /// Each tag's number, and the tag as the set has it, by number. What stands in the approval for a
    /// folded tag may be in another letter case.
    pub fn tags(&self) -> impl Iterator<Item = (Tag, Entry<'_>)> {
        let tags = self.tags.iter();
        tags.map(|(tag, kind, bytes)| (*tag, Entry::new(*kind, bytes)))
    }

    /// Bit i is 1 where tag i is among them.
    pub fn mask(&self) -> u64 {
        self.tags().fold(0, |mask, (tag, _)| mask | 1 << tag.0)
    }
}

/// Each tag in the text form of sets ([`text`](crate::text)), with its number.
impl Display for Held {
    fn fmt(&self, f: &mut Formatter) -> fmt::Result {
        for (at, (tag, entry)) in self.tags().enumerate() {
            let between = if at == 0 { "" } else { ", " };
            let edition = self.edition;
            write!(f, "{between}{entry} (tag {tag} of edition {edition})")?;
        }
        Ok(())
    }
}

#[cfg(test)]
mod tests {
    //! Approvals near the largest count of bytes, which no test can hand in.

    use super::*;

    #[test]
    fn a_piece_past_the_largest_count_is_cut_and_the_approval_is_unread() {
        let mut gate = Gate::new();
        let set = TagSet::new(["he"]).expect("a lawful set");
        gate.replace(&set).expect("accepted");
        let serials: Vec<Serial> = (0..3).map(|_| gate.begin().expect("room")).collect();
        for room in &mut gate.image.desk.tickets {
            room.taken = u32::MAX - 2;
        }
        let said = |gate: &mut Gate, at: usize, piece: &[u8]| gate.piece(serials[at], piece);
        assert_eq!(said(&mut gate, 0, b"xx"), Ok(Piece::Read));
        assert_eq!(said(&mut gate, 1, b"he!"), Ok(Piece::Cut { taken: 0 }));
        assert_eq!(said(&mut gate, 2, b"he"), Ok(Piece::Read));
        assert_eq!(said(&mut gate, 2, b"!"), Ok(Piece::Cut { taken: 0 }));
        assert_eq!(said(&mut gate, 1, b"x"), Ok(Piece::Read));
        assert_eq!(gate.decide(serials[0]), Ok(Verdict::Pass));
        assert_eq!(gate.decide(serials[1]), Ok(Verdict::Unread));
        assert_eq!(gate.decide(serials[2]), Ok(Verdict::Unread));
    }

    #[test]
    fn a_table_that_was_changed_cuts_and_can_not_pass() {
        for second in [false, true] {
            let mut gate = Gate::new();
            let set = TagSet::new(["he"]).expect("a lawful set");
            gate.replace(&set).expect("accepted");
            let serial = gate.begin().expect("room");
            let tables = &mut gate.tables;
            match second {
                false => tables.first[..3].fill(u16::MAX),
                true => tables.second[..3].fill(u16::MAX),
            }
            assert_eq!(gate.piece(serial, b"abc"), Ok(Piece::Cut { taken: 0 }));
            let verdict = gate.decide(serial).expect("a verdict");
            assert!(!verdict.passes());
            assert_eq!(verdict, Verdict::Unread);
        }
    }
}
