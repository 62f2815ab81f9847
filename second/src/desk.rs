//! The desk: docs/RULES.md, 5 and 7.

use crate::build::Plan;
use crate::layout::Layout;
use crate::reading::{read, Stop};
use crate::refusal::Refusal;
use crate::table::Tables;
use std::collections::VecDeque;

/// A desk holds up to 16 tickets.
pub const MOST_TICKETS: usize = 16;
/// One list of up to 256 records, shared by all tickets.
pub const MOST_RECORDS: usize = 256;

// Three kinds of number that can't be passed for one another.
#[derive(Clone, Copy, Debug, PartialEq, Eq)]
pub struct Serial(pub u32);
#[derive(Clone, Copy, Debug, PartialEq, Eq)]
pub struct Edition(pub u32);
#[derive(Clone, Copy, Debug, PartialEq, Eq)]
pub struct TagNumber(pub u8);

/// A ticket that is not closed.
#[derive(Clone, Debug, PartialEq, Eq)]
pub struct Ticket {
    pub serial: Serial,
    pub edition: Edition,
    /// Sixteen states, those of the first table first.
    pub place: Vec<u16>,
    pub taken: u32,
}

/// A record as take hands it out; the edition is that of its ticket.
#[derive(Clone, Copy, Debug, PartialEq, Eq)]
pub struct Record {
    pub serial: Serial,
    pub edition: Edition,
    pub end: u32,
    pub tag: TagNumber,
}

/// Feed's answer.
#[derive(Clone, Copy, Debug, PartialEq, Eq)]
pub struct Fed {
    pub taken: usize,
    pub stop: Stop,
}

/// What the desk says of a serial.
#[derive(Clone, Copy, Debug, PartialEq, Eq)]
pub enum State {
    Never,
    Closed,
    Stale { edition: Edition, taken: u32 },
    Open { edition: Edition, taken: u32 },
}

#[derive(Clone, Debug, PartialEq, Eq)]
pub struct Desk {
    edition: Edition,
    /// The last serial given.
    serial: Serial,
    /// The slot counts of the last replacement's two tables.
    slots: [usize; 2],
    /// In the order of opening, which is the order of the serials.
    tickets: Vec<Ticket>,
    /// The oldest record first.
    held: VecDeque<Record>,
}

impl Default for Desk {
    fn default() -> Desk {
        Desk::new()
    }
}

impl Desk {
    /// A new desk has edition 0, serial 0 and no set.
    pub fn new() -> Desk {
        Desk {
            edition: Edition(0),
            serial: Serial(0),
            slots: [0, 0],
            tickets: Vec::new(),
            held: VecDeque::new(),
        }
    }

    /// Builds the split layout's two tables: set faults, TABLE, then EDITION.
    /// Gives the new edition and the number of tags. Every open ticket becomes
    /// stale by its edition now being older than the desk's.
    pub fn replace(
        &mut self,
        set: &[u8],
        mut tables: [&mut [u16]; 2],
    ) -> Result<(Edition, usize), Refusal> {
        let lengths = tables.each_ref().map(|table| table.len());
        let plan = Plan::new(Layout::Split, set, &lengths)?;
        let Some(edition) = self.edition.0.checked_add(1) else {
            return Err(Refusal::Edition);
        };
        plan.write(&mut tables);
        self.edition = Edition(edition);
        self.slots = lengths.map(|length| Layout::Split.slots(length));
        Ok((self.edition, plan.tags()))
    }

    /// NO SET, SERIAL, NO ROOM; else the next serial, at place 0, sixteen states,
    /// with no byte taken. A stale ticket counts as one that holds its room.
    pub fn open(&mut self) -> Result<Serial, Refusal> {
        if self.edition == Edition(0) {
            return Err(Refusal::NoSet);
        }
        let Some(serial) = self.serial.0.checked_add(1) else {
            return Err(Refusal::Serial);
        };
        if self.tickets.len() >= MOST_TICKETS {
            return Err(Refusal::NoRoom);
        }
        self.serial = Serial(serial);
        self.tickets.push(Ticket {
            serial: self.serial,
            edition: self.edition,
            place: vec![0; Layout::Split.machines()],
            taken: 0,
        });
        Ok(self.serial)
    }

    /// Reads a piece for one ticket: NO TICKET, STALE, a table, the first or the
    /// second, whose s differs from that at replacement (DAMAGED, 0 taken),
    /// LONG, then the reading.
    pub fn feed(
        &mut self,
        serial: Serial,
        piece: &[u8],
        tables: [&[u16]; 2],
    ) -> Result<Fed, Refusal> {
        let room = MOST_RECORDS.saturating_sub(self.held.len());
        let Some(ticket) = self.tickets.iter_mut().find(|t| t.serial == serial) else {
            return Err(Refusal::NoTicket);
        };
        if ticket.edition != self.edition {
            let edition = ticket.edition;
            return Err(Refusal::Stale { edition });
        }
        if tables.map(|table| Layout::Split.slots(table.len())) != self.slots {
            let stop = Stop::Damaged;
            return Ok(Fed { taken: 0, stop });
        }
        let tables = Tables::lent(Layout::Split, &tables);
        let mut list = vec![0; 2 * room];
        // The place is below s in each table, for it was reached in tables of
        // as many slots.
        let reading = read(tables, &ticket.place, ticket.taken, piece, &mut list)?;
        ticket.place = reading.place;
        ticket.taken += reading.taken as u32;
        for record in list.chunks_exact(2).take(reading.records) {
            self.held.push_back(Record {
                serial,
                edition: self.edition,
                end: record[0],
                tag: TagNumber(record[1] as u8),
            });
        }
        let (taken, stop) = (reading.taken, reading.stop);
        Ok(Fed { taken, stop })
    }

    /// Frees the ticket's room; a stale ticket can be closed.
    pub fn close(&mut self, serial: Serial) -> Result<Serial, Refusal> {
        let Some(at) = self.tickets.iter().position(|t| t.serial == serial) else {
            return Err(Refusal::NoTicket);
        };
        self.tickets.remove(at);
        Ok(serial)
    }

    /// Hands out the oldest record.
    pub fn take(&mut self) -> Result<Record, Refusal> {
        self.held.pop_front().ok_or(Refusal::Nothing)
    }

    /// The state of a ticket: never given, closed, stale or open.
    pub fn state(&self, serial: Serial) -> State {
        if let Some(ticket) = self.tickets.iter().find(|t| t.serial == serial) {
            let (edition, taken) = (ticket.edition, ticket.taken);
            return match self.is_stale(ticket) {
                true => State::Stale { edition, taken },
                false => State::Open { edition, taken },
            };
        }
        // The serials given are 1, 2, .. up to the last.
        match (1..=self.serial.0).contains(&serial.0) {
            true => State::Closed,
            false => State::Never,
        }
    }

    pub fn edition(&self) -> Edition {
        self.edition
    }

    pub fn serial(&self) -> Serial {
        self.serial
    }

    /// The slot counts of the last replacement's tables, 0 before the first.
    pub fn slots(&self) -> [usize; 2] {
        self.slots
    }

    /// How many records are held.
    pub fn held(&self) -> usize {
        self.held.len()
    }

    /// The tickets that are not closed, by serial.
    pub fn tickets(&self) -> &[Ticket] {
        &self.tickets
    }

    /// Whether a ticket is older than the set.
    pub fn is_stale(&self, ticket: &Ticket) -> bool {
        ticket.edition != self.edition
    }
}

#[cfg(test)]
mod tests;
