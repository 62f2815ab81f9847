//! Running a replay script and writing its answers: docs/FORMATS.md.

use crate::build::build;
use crate::desk::{Desk, Serial, State};
use crate::layout::Layout;
use crate::reading::read_outside;
use crate::refusal::Refusal;
use crate::script::{parse, Call, TABLE_BUFFERS};
use crate::table::Tables;
use std::fmt::Display;
use std::io::{self, BufRead, ErrorKind, Write};

/// A line is at most 20,000 bytes. Its end isn't counted (the format is silent
/// here).
pub const LONGEST_LINE: usize = 20_000;
/// At first 479 slots of 24 numbers are lent, of each table.
pub const LENT_AT_FIRST: usize = 11_496;
/// What a list holds before a read.
const FILLING: u32 = 7;

/// What the program holds.
pub struct Replay {
    desk: Desk,
    set: Vec<u8>,
    tables: [Vec<u16>; 2],
    /// Of each table the first so many numbers are lent.
    lent: [usize; 2],
    /// The lines read so far.
    lines: u64,
}

impl Default for Replay {
    fn default() -> Replay {
        Replay::new()
    }
}

impl Replay {
    pub fn new() -> Replay {
        Replay {
            desk: Desk::new(),
            set: Vec::new(),
            tables: TABLE_BUFFERS.map(|length| vec![0; length]),
            lent: [LENT_AT_FIRST; 2],
            lines: 0,
        }
    }

    pub fn desk(&self) -> &Desk {
        &self.desk
    }

    pub fn set(&self) -> &[u8] {
        &self.set
    }

    /// How many numbers of each table are lent.
    pub fn lent(&self) -> [usize; 2] {
        self.lent
    }

    /// The lent numbers of both tables.
    pub fn lent_tables(&self) -> [&[u16]; 2] {
        let [first, second] = &self.tables;
        [&first[..self.lent[0]], &second[..self.lent[1]]]
    }

    /// Makes the call of one line (without its end); gives the answer's lines.
    ///
    /// A line that is too long is no call even where it begins with `#`
    /// (the format is silent here).
    pub fn line(&mut self, line: &[u8]) -> Vec<String> {
        self.lines += 1;
        let too_long = line.len() > LONGEST_LINE;
        if !too_long && (line.is_empty() || line.starts_with(b"#")) {
            return vec![];
        }
        let call = if too_long { None } else { parse(line) };
        match call {
            None => vec![format!("line {}: not a call", self.lines)],
            Some(call) => match self.answer(call) {
                Ok(lines) => lines,
                Err(refusal) => vec![refused(refusal)],
            },
        }
    }

    /// The answer where the call is accepted, or the refusal. Its numbers have
    /// no leading zeros, even where the call's had (the format is silent here).
    fn answer(&mut self, call: Call) -> Result<Vec<String>, Refusal> {
        let answer = match call {
            Call::Set(set) => {
                self.set = set;
                format!("set {}", self.set.len())
            }
            Call::Lend { lent, table } => {
                self.lent[table] = lent;
                format!("lent {lent}")
            }
            Call::Replace => self.replace()?,
            Call::Open => format!("serial {}", self.desk.open()?.0),
            Call::Feed(serial, piece) => self.feed(Serial(serial), &piece)?,
            Call::Close(serial) => format!("closed {}", self.desk.close(Serial(serial))?.0),
            Call::State(serial) => self.state(Serial(serial)),
            Call::Take => self.take()?,
            Call::Show => return Ok(self.show()),
            Call::Build(layout) => self.build(layout)?,
            Call::Read {
                layout,
                count,
                room,
                place,
                piece,
            } => return self.read(layout, count, room, &place, &piece),
            Call::Poke { at, value, table } => {
                self.tables[table][at] = value;
                format!("poked {at}")
            }
            Call::Peek { at, count, table } => {
                numbers("numbers", &self.tables[table][at..at + count])
            }
        };
        Ok(vec![answer])
    }

    fn replace(&mut self) -> Result<String, Refusal> {
        let lent = lent_of(&mut self.tables, self.lent);
        let (edition, tags) = self.desk.replace(&self.set, lent)?;
        Ok(format!("edition {} tags {tags}", edition.0))
    }

    /// `split` is lent both tables, `whole` and `bitmap` table 0 alone.
    fn build(&mut self, layout: Layout) -> Result<String, Refusal> {
        let mut lent = lent_of(&mut self.tables, self.lent);
        let tags = build(layout, &self.set, &mut lent[..layout.tables()])?;
        Ok(format!("tags {tags}"))
    }

    fn feed(&mut self, serial: Serial, piece: &[u8]) -> Result<String, Refusal> {
        let [first, second] = &self.tables;
        let lent = [&first[..self.lent[0]], &second[..self.lent[1]]];
        let fed = self.desk.feed(serial, piece, lent)?;
        Ok(format!("taken {} stop {}", fed.taken, fed.stop.name()))
    }

    fn state(&self, serial: Serial) -> String {
        let state = match self.desk.state(serial) {
            State::Never => "never".to_string(),
            State::Closed => "closed".to_string(),
            State::Stale { edition, taken } => format!("stale {} {taken}", edition.0),
            State::Open { edition, taken } => format!("open {} {taken}", edition.0),
        };
        format!("state {} {state}", serial.0)
    }

    fn take(&mut self) -> Result<String, Refusal> {
        let record = self.desk.take()?;
        let (serial, edition) = (record.serial.0, record.edition.0);
        let (end, tag) = (record.end, record.tag.0);
        Ok(format!("record {serial} {edition} {end} {tag}"))
    }

    /// The desk's line, then a line for each ticket that is not closed.
    fn show(&self) -> Vec<String> {
        let (desk, tickets) = (&self.desk, self.desk.tickets());
        let mut lines = vec![format!(
            "desk edition {} serial {} held {} tickets {}",
            desk.edition().0,
            desk.serial().0,
            desk.held(),
            tickets.len()
        )];
        for ticket in tickets {
            let (serial, edition) = (ticket.serial.0, ticket.edition.0);
            let status = match desk.is_stale(ticket) {
                true => "stale",
                false => "open",
            };
            let taken = ticket.taken;
            lines.push(format!(
                "ticket {serial} edition {edition} taken {taken} {status}"
            ));
        }
        lines
    }

    /// A read outside the desk, lent the tables that `build` is: two lines where
    /// it is accepted, for `list` begins one of its own (the format says only
    /// "then"), and the refusal's one line where it isn't.
    fn read(
        &self,
        layout: Layout,
        count: u32,
        room: usize,
        place: &[u16],
        piece: &[u8],
    ) -> Result<Vec<String>, Refusal> {
        let lent = self.lent_tables();
        let tables = Tables::lent(layout, &lent[..layout.tables()]);
        let mut list = vec![FILLING; room];
        let reading = read_outside(tables, place, count, piece, &mut list)?;
        let (taken, stop) = (reading.taken, reading.stop.name());
        let (records, place) = (reading.records, numbers("place", &reading.place));
        let moves = match layout {
            Layout::Bitmap => format!(" moves {}", reading.moves),
            Layout::Split | Layout::Whole => String::new(),
        };
        Ok(vec![
            format!("taken {taken} stop {stop} records {records}{moves} {place}"),
            numbers("list", &list),
        ])
    }
}

/// The lent numbers of both tables, to be written.
fn lent_of(tables: &mut [Vec<u16>; 2], lent: [usize; 2]) -> [&mut [u16]; 2] {
    let [first, second] = tables;
    [&mut first[..lent[0]], &mut second[..lent[1]]]
}

/// A word and numbers, each with one blank before it.
fn numbers<N: Display>(word: &str, numbers: &[N]) -> String {
    let mut line = word.to_string();
    for number in numbers {
        line.push(' ');
        line.push_str(&number.to_string());
    }
    line
}

/// `refused`, its number, and the values that are returned with it.
fn refused(refusal: Refusal) -> String {
    numbers(&format!("refused {}", refusal.number()), &refusal.values())
}

/// Runs a script from its first line to its end.
pub fn run(mut input: impl BufRead, mut output: impl Write) -> io::Result<()> {
    let mut replay = Replay::new();
    let mut line = Vec::new();
    while next_line(&mut input, &mut line)? {
        for answer in replay.line(&line) {
            output.write_all(answer.as_bytes())?;
            output.write_all(b"\n")?;
        }
    }
    output.flush()
}

/// Reads the next line without its end; false where there is none. A last line
/// without its end counts. Of a line that is too long only as much is kept as
/// shows that it is, so that no line needs more room than that.
pub fn next_line(input: &mut impl BufRead, line: &mut Vec<u8>) -> io::Result<bool> {
    line.clear();
    let mut begun = false;
    loop {
        let chunk = match input.fill_buf() {
            Ok(chunk) => chunk,
            Err(error) if error.kind() == ErrorKind::Interrupted => continue,
            Err(error) => return Err(error),
        };
        if chunk.is_empty() {
            return Ok(begun);
        }
        begun = true;
        let end = chunk.iter().position(|byte| *byte == b'\n');
        let part = &chunk[..end.unwrap_or(chunk.len())];
        let room = (LONGEST_LINE + 1).saturating_sub(line.len());
        line.extend_from_slice(&part[..part.len().min(room)]);
        let used = part.len() + usize::from(end.is_some());
        input.consume(used);
        if end.is_some() {
            return Ok(true);
        }
    }
}
