//! Replay scripts over the Rust crate: the calls are the crate's, the reading of lines is that of
//! the second program.

use second::layout::Layout;
use second::script::{parse, Call, TABLE_BUFFERS};
use sleetbarley::lent::{self, LentDesk, Reading, SPLIT_TABLE};
use sleetbarley::{Fed, Refusal, Serial, Ticket, TicketState};
use std::fmt::Display;

/// What a list holds before a read.
const FILLING: u32 = 7;

/// What the program holds.
pub struct Replay {
    desk: LentDesk,
    set: Vec<u8>,
    tables: [Vec<u16>; 2],
    /// Of each table the first so many numbers are lent.
    lent: [usize; 2],
    lines: u64,
}

impl Default for Replay {
    fn default() -> Replay {
        Replay {
            desk: LentDesk::new(),
            set: Vec::new(),
            tables: TABLE_BUFFERS.map(|length| vec![0; length]),
            lent: [SPLIT_TABLE; 2],
            lines: 0,
        }
    }
}

impl Replay {
    /// Makes the call of one line (without its end); gives the answer's lines.
    pub fn line(&mut self, line: &[u8]) -> Vec<String> {
        self.lines += 1;
        let too_long = line.len() > second::replay::LONGEST_LINE;
        if !too_long && (line.is_empty() || line.starts_with(b"#")) {
            return vec![];
        }
        match parse(line).filter(|_| !too_long) {
            None => vec![format!("line {}: not a call", self.lines)],
            Some(call) => self.answer(call).unwrap_or_else(refused),
        }
    }

    fn answer(&mut self, call: Call) -> Result<Vec<String>, Refusal> {
        let said = match call {
            Call::Set(set) => {
                self.set = set;
                format!("set {}", self.set.len())
            }
            Call::Open => format!("serial {}", self.desk.open()?),
            Call::Close(serial) => {
                self.desk.close(Serial(serial))?;
                format!("closed {serial}")
            }
            Call::State(serial) => stated(serial, self.desk.state(Serial(serial))),
            Call::Take => record(self.desk.take()?),
            Call::Show => return Ok(self.show()),
            Call::Read {
                layout,
                count,
                room,
                place,
                piece,
            } => return self.read(layout, count, room, &place, &piece),
            Call::Lend { lent, table } => {
                self.lent[table] = lent;
                format!("lent {lent}")
            }
            Call::Poke { at, value, table } => {
                self.tables[table][at] = value;
                format!("poked {at}")
            }
            Call::Peek { at, count, table } => {
                numbers("numbers", &self.tables[table][at..at + count])
            }
            Call::Replace | Call::Feed(..) | Call::Build(_) => self.lent_both(call)?,
        };
        Ok(vec![said])
    }

    /// The calls that are lent both tables.
    fn lent_both(&mut self, call: Call) -> Result<String, Refusal> {
        let [first, second] = &mut self.tables;
        let (first, second) = (&mut first[..self.lent[0]], &mut second[..self.lent[1]]);
        Ok(match call {
            Call::Feed(serial, piece) => {
                fed(self.desk.feed(Serial(serial), first, second, &piece)?)
            }
            Call::Build(layout) => format!("tags {}", build(layout, &self.set, first, second)?),
            _ => {
                let now = self.desk.replace(&self.set, first, second)?;
                format!("edition {} tags {}", now.edition, now.tags)
            }
        })
    }

    fn show(&self) -> Vec<String> {
        let (edition, serial) = (self.desk.edition(), self.desk.last_serial());
        shown(edition.0, serial.0, self.desk.held(), &self.desk.tickets())
    }

    fn read(
        &self,
        layout: Layout,
        count: u32,
        room: usize,
        place: &[u16],
        piece: &[u8],
    ) -> Result<Vec<String>, Refusal> {
        let [first, second] = &self.tables;
        let (first, second) = (&first[..self.lent[0]], &second[..self.lent[1]]);
        let mut list = vec![FILLING; room];
        let said = match layout {
            Layout::Split => {
                let start = place.try_into().expect("16 numbers");
                let reading = lent::read_split(first, second, start, count, piece, &mut list)?;
                told(&reading, "", &reading.place)
            }
            Layout::Whole => {
                let reading = lent::read_whole(first, place[0], count, piece, &mut list)?;
                told(&reading, "", &[reading.place])
            }
            Layout::Bitmap => {
                let said = lent::read_bitmap(first, place[0], count, piece, &mut list)?;
                let moves = format!("moves {} ", said.moves);
                told(&said.reading, &moves, &[said.reading.place])
            }
        };
        Ok(vec![said, numbers("list", &list)])
    }
}

/// The split layout is lent both tables, the others the first alone.
fn build(
    layout: Layout,
    set: &[u8],
    first: &mut [u16],
    second: &mut [u16],
) -> Result<usize, Refusal> {
    match layout {
        Layout::Split => lent::build_split(set, first, second),
        Layout::Whole => lent::build_whole(set, first),
        Layout::Bitmap => lent::build_bitmap(set, first),
    }
}

pub fn fed(fed: Fed) -> String {
    format!("taken {} stop {}", fed.taken, fed.stop)
}

pub fn stated(serial: u32, state: TicketState) -> String {
    let state = match state {
        TicketState::Never => "never".to_string(),
        TicketState::Closed => "closed".to_string(),
        TicketState::Stale { edition, taken } => format!("stale {edition} {taken}"),
        TicketState::Open { edition, taken } => format!("open {edition} {taken}"),
    };
    format!("state {serial} {state}")
}

pub fn record(record: sleetbarley::Record) -> String {
    let (serial, edition) = (record.serial, record.edition);
    format!("record {serial} {edition} {} {}", record.end, record.tag)
}

/// The desk's line, then a line for each ticket.
pub fn shown(edition: u32, serial: u32, held: usize, tickets: &[Ticket]) -> Vec<String> {
    let count = tickets.len();
    let desk = format!("desk edition {edition} serial {serial} held {held} tickets {count}");
    let line = |ticket: &Ticket| {
        let status = if ticket.stale { "stale" } else { "open" };
        let (serial, edition, taken) = (ticket.serial, ticket.edition, ticket.taken);
        format!("ticket {serial} edition {edition} taken {taken} {status}")
    };
    std::iter::once(desk)
        .chain(tickets.iter().map(line))
        .collect()
}

/// What a reading gives, with what its layout tells before the place.
fn told<P>(reading: &Reading<P>, more: &str, place: &[u16]) -> String {
    let (taken, stop, records) = (reading.taken, reading.stop, reading.records);
    let place = numbers("place", place);
    format!("taken {taken} stop {stop} records {records} {more}{place}")
}

/// A word and numbers, each with one blank before it.
fn numbers<N: Display>(word: &str, numbers: &[N]) -> String {
    let each = numbers.iter().map(|number| format!(" {number}"));
    std::iter::once(word.to_string()).chain(each).collect()
}

/// A refusal's line.
pub fn refused(refusal: Refusal) -> Vec<String> {
    vec![numbers(
        &format!("refused {}", refusal.number()),
        &refusal.values(),
    )]
}
