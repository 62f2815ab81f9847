//! The gate, in the plainest way: it keeps the bytes handed in for each approval, and decides by
//! searching them for each tag of the set in force, by its kind. No machine, no table and no list of
//! records.

use crate::desk::{Edition, Serial, MOST_TICKETS};
use crate::layout::Layout;
use crate::occurrences::occurrences;
use crate::refusal::Refusal;
use crate::set::{read_set, Tag};

/// The largest count of bytes taken for an approval.
const LARGEST: u64 = 4_294_967_295;

/// What is decided about an approval.
#[derive(Clone, Copy, Debug, PartialEq, Eq)]
pub enum Verdict {
    Pass,
    /// Bit i is 1 where tag i of the set in force stands in the bytes.
    Hold(u64),
    /// The edition under which it was begun.
    Stale(Edition),
    Unread,
}

/// What an accepted piece gives: all of it was taken, or only so many bytes.
#[derive(Clone, Copy, Debug, PartialEq, Eq)]
pub enum Piece {
    Read,
    Cut(usize),
}

/// An approval that isn't decided.
#[derive(Clone, Debug, PartialEq, Eq)]
pub struct Approval {
    pub serial: Serial,
    pub edition: Edition,
    /// The pieces taken, one after another.
    pub pieces: Vec<Vec<u8>>,
    taken: u64,
    unread: bool,
}

impl Approval {
    pub fn bytes(&self) -> Vec<u8> {
        self.pieces.concat()
    }
}

#[derive(Clone, Debug, PartialEq, Eq)]
pub struct Gate {
    edition: Edition,
    /// The last serial given.
    serial: Serial,
    tags: Vec<Tag>,
    /// In the order of their serials.
    approvals: Vec<Approval>,
}

impl Default for Gate {
    fn default() -> Gate {
        Gate::new()
    }
}

impl Gate {
    pub fn new() -> Gate {
        Gate {
            edition: Edition(0),
            serial: Serial(0),
            tags: Vec::new(),
            approvals: Vec::new(),
        }
    }

    /// Puts a lawful set in force, with tags of the kinds that the desk's layout takes; gives the
    /// edition and the number of tags. (The two tables are enough for every set, so TABLE is never
    /// said.)
    pub fn replace(&mut self, set: &[u8]) -> Result<(Edition, usize), Refusal> {
        let set = read_set(set, Layout::Split.kinds())?;
        let next = self.edition.0.checked_add(1).ok_or(Refusal::Edition)?;
        self.edition = Edition(next);
        self.tags = set.tags().to_vec();
        Ok((self.edition, self.tags.len()))
    }

    pub fn begin(&mut self) -> Result<Serial, Refusal> {
        if self.edition == Edition(0) {
            return Err(Refusal::NoSet);
        }
        let next = self.serial.0.checked_add(1).ok_or(Refusal::Serial)?;
        if self.approvals.len() == MOST_TICKETS {
            return Err(Refusal::NoRoom);
        }
        self.serial = Serial(next);
        self.approvals.push(Approval {
            serial: self.serial,
            edition: self.edition,
            pieces: Vec::new(),
            taken: 0,
            unread: false,
        });
        Ok(self.serial)
    }

    fn at(&self, serial: Serial) -> Result<usize, Refusal> {
        let place = self.approvals.iter().position(|one| one.serial == serial);
        place.ok_or(Refusal::NoTicket)
    }

    /// A piece that passes the largest count is not taken at all.
    pub fn piece(&mut self, serial: Serial, piece: &[u8]) -> Result<Piece, Refusal> {
        let at = self.at(serial)?;
        let one = &mut self.approvals[at];
        if one.edition != self.edition {
            let edition = one.edition;
            return Err(Refusal::Stale { edition });
        }
        let taken = one.taken + piece.len() as u64;
        if taken > LARGEST {
            one.unread = true;
            return Ok(Piece::Cut(0));
        }
        one.taken = taken;
        one.pieces.push(piece.to_vec());
        Ok(Piece::Read)
    }

    /// Decides, and forgets the approval.
    pub fn decide(&mut self, serial: Serial) -> Result<Verdict, Refusal> {
        let one = self.approvals.remove(self.at(serial)?);
        if one.edition != self.edition {
            return Ok(Verdict::Stale(one.edition));
        }
        if one.unread {
            return Ok(Verdict::Unread);
        }
        Ok(match mask(&self.tags, &one.bytes()) {
            0 => Verdict::Pass,
            mask => Verdict::Hold(mask),
        })
    }

    pub fn edition(&self) -> Edition {
        self.edition
    }

    /// The last serial given.
    pub fn serial(&self) -> Serial {
        self.serial
    }

    /// The tags of the set in force.
    pub fn tags(&self) -> &[Tag] {
        &self.tags
    }

    /// The approvals that aren't decided, by serial.
    pub fn approvals(&self) -> &[Approval] {
        &self.approvals
    }
}

/// Bit i is 1 where tag i stands in the bytes, by its kind.
pub fn mask(tags: &[Tag], bytes: &[u8]) -> u64 {
    let found = occurrences(tags, bytes);
    found.iter().fold(0, |mask, (_, tag)| mask | 1 << tag)
}

#[cfg(test)]
mod tests {
    //! What only very many calls or bytes bring about.

    use super::*;
    use crate::set::write_set;

    #[test]
    fn a_piece_past_the_largest_count_is_cut_and_the_approval_unread() {
        let mut gate = Gate::new();
        assert_eq!(gate.replace(&write_set(&["he"])), Ok((Edition(1), 1)));
        for _ in 0..2 {
            assert!(gate.begin().is_ok());
        }
        gate.approvals[0].taken = LARGEST - 2;
        gate.approvals[1].taken = LARGEST - 2;
        assert_eq!(gate.piece(Serial(1), b"xx"), Ok(Piece::Read));
        assert_eq!(gate.piece(Serial(2), b"xxx"), Ok(Piece::Cut(0)));
        assert_eq!(gate.piece(Serial(2), b"xx"), Ok(Piece::Read));
        assert_eq!(gate.decide(Serial(1)), Ok(Verdict::Pass));
        assert_eq!(gate.decide(Serial(2)), Ok(Verdict::Unread));
    }

    #[test]
    fn the_largest_numbers_are_the_last() {
        let mut gate = Gate::new();
        gate.edition = Edition(u32::MAX - 1);
        assert_eq!(gate.replace(&write_set(&["a"])), Ok((Edition(u32::MAX), 1)));
        let before = gate.clone();
        assert_eq!(gate.replace(&write_set(&["b"])), Err(Refusal::Edition));
        assert_eq!(gate, before);
        gate.serial = Serial(u32::MAX);
        assert_eq!(gate.begin(), Err(Refusal::Serial));
    }
}
