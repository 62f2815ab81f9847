//! What readings over the two tables of the split layout come past: where they
//! begin, what each table does with the bytes, and why they stop.

use crate::{see, Moment, Seen};
use second::desk::MOST_RECORDS;
use second::layout::Layout;
use second::script::Call;
use second::table::Tables;

const SPLIT: Layout = Layout::Split;

pub fn count(seen: &mut Seen, moment: &Moment) {
    let lent = moment.before.lent_tables();
    let slots = lent.map(|table| SPLIT.slots(table.len()));
    match moment.call {
        Call::Read {
            layout: SPLIT,
            place,
            piece,
            room,
            ..
        } => match moment.refused() {
            Some(14) => see(seen, "split LONG"),
            Some(_) => count_place(seen, place, slots),
            None => Walk::new("read", &lent, place, *room / 2).count(seen, piece, moment),
        },
        Call::Feed(serial, piece) if moment.refused().is_none() => {
            let desk = moment.before.desk();
            let differs = [0, 1].map(|table| slots[table] != desk.slots()[table]);
            if let Some(which) = which(differs) {
                return see(seen, format!("feed DAMAGED by the slot count of {which}"));
            }
            let mut tickets = desk.tickets().iter();
            let ticket = tickets.find(|ticket| ticket.serial.0 == *serial);
            let place = &ticket.expect("it was fed").place;
            let room = MOST_RECORDS - desk.held();
            Walk::new("feed", &lent, place, room).count(seen, piece, moment);
        }
        _ => {}
    }
}

/// Which of the tables it is, if any.
fn which(tables: [bool; 2]) -> Option<&'static str> {
    match tables {
        [true, true] => Some("both"),
        [true, false] => Some("0"),
        [false, true] => Some("1"),
        [false, false] => None,
    }
}

fn count_place(seen: &mut Seen, place: &[u16], slots: [usize; 2]) {
    let mut at_fault = [false; 2];
    for (machine, state) in place.iter().enumerate() {
        let (table, state) = (machine / 8, usize::from(*state));
        if state >= slots[table] {
            at_fault[table] = true;
            let at_s = state == slots[table];
            see(seen, format!("split PLACE in {table}, just at s: {at_s}"));
            let below = state < slots[1 - table];
            see(
                seen,
                format!("split PLACE in {table}, one of the other's: {below}"),
            );
        }
    }
    let which = which(at_fault).expect("a state at fault");
    see(seen, format!("split PLACE by {which}"));
}

/// A reading once more, byte by byte, each table for itself.
struct Walk<'a> {
    name: &'static str,
    tables: Tables<'a>,
    place: Vec<u16>,
    /// For so many records there is room left.
    room: u32,
}

impl<'a> Walk<'a> {
    fn new(name: &'static str, lent: &'a [&'a [u16]], place: &[u16], room: usize) -> Walk<'a> {
        Walk {
            name,
            tables: Tables::lent(SPLIT, lent),
            place: place.to_vec(),
            room: room as u32,
        }
    }

    /// What a table does with a byte: its new states and the tags that it
    /// flags, or nothing where it is damaged.
    fn step(&self, table: usize, byte: u8) -> Option<(Vec<u16>, u16)> {
        let (mut states, mut flagged) = (Vec::new(), u16::MAX);
        for machine in 8 * table..8 * (table + 1) {
            let next = self.tables.next(machine, self.place[machine], byte)?;
            flagged &= self.tables.vector(machine, next.state)?;
            states.push(next.state);
        }
        Some((states, flagged))
    }

    fn count(mut self, seen: &mut Seen, piece: &[u8], moment: &Moment) {
        let taken = moment.number("taken");
        for byte in &piece[..taken] {
            let [Some(first), Some(second)] = [0, 1].map(|table| self.step(table, *byte)) else {
                panic!("a damaged byte was taken: {}", moment.answer);
            };
            self.count_taken(seen, first.1, second.1);
            self.room -= (first.1 | second.1).count_ones();
            self.place = [first.0, second.0].concat();
        }
        let stop = moment.told("stop").unwrap_or("");
        let name = self.name;
        if let Some(byte) = piece.get(taken) {
            let steps = [0, 1].map(|table| self.step(table, *byte));
            let flagged = steps
                .each_ref()
                .map(|step| step.as_ref().map(|step| step.1));
            self.count_stop(seen, stop, flagged);
            self.count_later(seen, flagged, &piece[taken..]);
        } else {
            see(seen, format!("split {name} {stop}"));
        }
    }

    /// Whether the table that isn't damaged at the first of these bytes, where
    /// the other is, is damaged at a later one.
    fn count_later(mut self, seen: &mut Seen, flagged: [Option<u16>; 2], rest: &[u8]) {
        let table = match flagged {
            [None, Some(_)] => 1,
            [Some(_), None] => 0,
            _ => return,
        };
        for byte in rest {
            let Some((states, _)) = self.step(table, *byte) else {
                let (name, other) = (self.name, 1 - table);
                return see(
                    seen,
                    format!("split {name} DAMAGED by {other}, then the other"),
                );
            };
            self.place[8 * table..8 * (table + 1)].copy_from_slice(&states);
        }
    }

    fn count_taken(&self, seen: &mut Seen, first: u16, second: u16) {
        let name = self.name;
        if first != 0 && second != 0 {
            see(seen, format!("split {name}, matches of both tables"));
        }
        if first & second != 0 {
            see(seen, format!("split {name}, a tag that both flag"));
            if first.count_ones() + second.count_ones() > self.room {
                see(seen, format!("split {name}, room for it once alone"));
            }
        }
    }

    /// Of the byte before which it stopped: the tags that each table flags, or
    /// nothing where it is damaged.
    fn count_stop(&self, seen: &mut Seen, stop: &str, flagged: [Option<u16>; 2]) {
        let name = self.name;
        let no_room = |tags: u16| tags.count_ones() > self.room;
        let damaged = flagged.map(|flagged| flagged.is_none());
        if let Some(which) = which(damaged) {
            assert_eq!(stop, "DAMAGED");
            see(seen, format!("split {name} DAMAGED by {which}"));
            let other = flagged.into_iter().flatten().next();
            if other.is_some_and(no_room) {
                see(
                    seen,
                    format!("split {name} DAMAGED by {which}, and no room"),
                );
            }
            return;
        }
        assert_eq!(stop, "FULL");
        let [first, second] = flagged.map(|flagged| flagged.unwrap_or(0));
        let which = which([first, second].map(no_room)).unwrap_or("both together");
        see(seen, format!("split {name} FULL by {which}"));
        if first & second != 0 {
            see(seen, format!("split {name} FULL, a tag that both flag"));
        }
    }
}

pub fn wanted() -> Vec<String> {
    let mut wanted = vec!["split LONG".to_string(), "split PLACE by 0".to_string()];
    wanted.push("split PLACE by 1".to_string());
    for so in [false, true] {
        for table in 0..2 {
            wanted.push(format!("split PLACE in {table}, just at s: {so}"));
            wanted.push(format!("split PLACE in {table}, one of the other's: {so}"));
        }
    }
    for name in ["read", "feed"] {
        for which in ["0", "1", "both"] {
            wanted.push(format!("split {name} DAMAGED by {which}"));
            wanted.push(format!("split {name} FULL by {which}"));
        }
        wanted.push(format!("split {name} ALL"));
        wanted.push(format!("split {name} FULL by both together"));
        wanted.push(format!("split {name} FULL, a tag that both flag"));
        wanted.push(format!("split {name} DAMAGED by 0, and no room"));
        wanted.push(format!("split {name} DAMAGED by 1, and no room"));
        wanted.push(format!("split {name} DAMAGED by 0, then the other"));
        wanted.push(format!("split {name} DAMAGED by 1, then the other"));
        wanted.push(format!("split {name}, matches of both tables"));
        wanted.push(format!("split {name}, a tag that both flag"));
        wanted.push(format!("split {name}, room for it once alone"));
    }
    for which in ["0", "1", "both"] {
        wanted.push(format!("feed DAMAGED by the slot count of {which}"));
    }
    wanted
}
