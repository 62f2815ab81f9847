// The desk timed call by call, as a caller has it: the desk goes in by value, and what comes back is kept.
use crate::exports::{self, Image};
use crate::inputs::{self, Kind};
use crate::ours::{set_of, SplitTables};
use crate::timing::best_of;
use std::hint::black_box;
use std::time::{Duration, Instant};

pub const TAKE: &str = "take";
pub const TAKE_MANY: &str = "take_many of 256, a record";
pub const FEED_NONE: &str = "feed of 0 bytes";
pub const FEED_4096: &str = "feed of 4,096 bytes";
pub const READ_4096: &str = "reading of 4,096 bytes outside the desk";
const TICKETS: usize = 16;
const RECORDS: usize = 256;
const PARTS: usize = 100;

/// Nanoseconds for a call.
pub struct Call {
    pub call: &'static str,
    pub nanos: f64,
}

struct Office {
    desk: Image,
    set: Vec<u8>,
    tables: SplitTables,
    quiet: Vec<u8>,
    loud: Vec<u8>,
}

impl Office {
    /// A desk with 16 tags, a piece in which none of them ends and one in which many do.
    fn new() -> Office {
        let case = inputs::case(Kind::Many, 16, 1 << 16);
        let set = set_of(&case.tags);
        let mut tables = SplitTables::room_for(&set);
        let mut desk = Image::new();
        assert_eq!(
            desk.replace(&set, &mut tables.first, &mut tables.second)
                .refusal,
            0,
            "the tables have the slots that the set needs"
        );
        Office {
            desk,
            set,
            tables,
            quiet: vec![b'.'; 4096],
            loud: case.input,
        }
    }

    fn open(&mut self) -> u32 {
        let opened = self.desk.open();
        assert_eq!(opened.refusal, 0, "a room is free");
        opened.a as u32
    }

    fn close(&mut self, serial: u32) {
        assert_eq!(self.desk.close(serial).refusal, 0, "the ticket is open");
    }

    /// Feeds until the list holds all the records it can.
    fn fill_the_list(&mut self) {
        let serial = self.open();
        let (first, second) = (&self.tables.first, &self.tables.second);
        let fed = self.desk.feed(serial, first, second, &self.loud);
        assert_eq!(
            (fed.refusal, fed.c),
            (0, RECORDS as u64),
            "the piece has more matches than the list has room"
        );
        self.close(serial);
    }
}

pub fn measure() -> Vec<Call> {
    let mut calls = vec![opening(), closing()];
    calls.extend(feeding());
    calls.push(reading_outside());
    calls.extend(taking());
    calls.push(replacing());
    calls
}

/// The best of some parts that are timed alone, by the plain clock since they are too short for the other, for one of so many calls in it.
fn best_part(calls: usize, mut part: impl FnMut() -> Duration) -> f64 {
    let best = (0..PARTS).map(|_| part()).min().expect("a part at least");
    best.as_nanos() as f64 / calls as f64
}

fn opening() -> Call {
    let mut office = Office::new();
    let nanos = best_part(TICKETS, || {
        let mut serials = [0; TICKETS];
        let start = Instant::now();
        serials
            .iter_mut()
            .for_each(|serial| *serial = office.open());
        let took = start.elapsed();
        serials.iter().for_each(|serial| office.close(*serial));
        took
    });
    Call {
        call: "open",
        nanos,
    }
}

fn closing() -> Call {
    let mut office = Office::new();
    let nanos = best_part(TICKETS, || {
        let mut serials = [0; TICKETS];
        serials
            .iter_mut()
            .for_each(|serial| *serial = office.open());
        let start = Instant::now();
        serials.iter().for_each(|serial| office.close(*serial));
        start.elapsed()
    });
    Call {
        call: "close",
        nanos,
    }
}

fn feeding() -> Vec<Call> {
    let sizes = [
        (FEED_NONE, 0),
        ("feed of 16 bytes", 16),
        ("feed of 256 bytes", 256),
        (FEED_4096, 4096),
    ];
    sizes
        .into_iter()
        .map(|(call, size)| Call {
            call,
            nanos: feeding_of(size),
        })
        .collect()
}

fn feeding_of(size: usize) -> f64 {
    let mut office = Office::new();
    let mut serial = office.open();
    let mut taken = 0;
    best_of(|| {
        // A ticket takes no more than 4 GiB.
        if taken > 1 << 31 {
            office.close(serial);
            serial = office.open();
            taken = 0;
        }
        let (first, second) = (&office.tables.first, &office.tables.second);
        let fed = office
            .desk
            .feed(serial, first, second, &office.quiet[..size]);
        assert_eq!(
            (fed.refusal, fed.a, fed.c),
            (0, size as u64, 0),
            "all is taken, and nothing matches"
        );
        taken += size;
    })
}

/// What the bytes of such a feed cost by themselves.
fn reading_outside() -> Call {
    let office = Office::new();
    let mut list = [0; 2 * RECORDS];
    let nanos = best_of(|| {
        let read = exports::read_split(
            &office.tables.first,
            &office.tables.second,
            &mut [0; 16],
            0,
            black_box(&office.quiet),
            &mut list,
        );
        assert_eq!((read.refusal, read.a), (0, 4096), "all is taken");
    });
    Call {
        call: READ_4096,
        nanos,
    }
}

fn taking() -> Vec<Call> {
    let one_by_one = taking_by(|desk| {
        for _ in 0..RECORDS {
            assert_eq!(black_box(desk.take()).refusal, 0, "a record is held");
        }
    });
    let sixteen = taking_by(|desk| take_many(desk, 16));
    let at_once = taking_by(|desk| take_many(desk, RECORDS));
    vec![
        Call {
            call: TAKE,
            nanos: one_by_one,
        },
        Call {
            call: "take_many of 16, a record",
            nanos: sixteen,
        },
        Call {
            call: TAKE_MANY,
            nanos: at_once,
        },
    ]
}

fn take_many(desk: &mut Image, n: usize) {
    let mut list = [0; 4 * RECORDS];
    for _ in 0..RECORDS / n {
        assert_eq!(
            desk.take_many(black_box(&mut list[..4 * n])),
            n as u64,
            "so many records are held"
        );
    }
}

/// Nanoseconds a record, for a way to take all that a full list holds.
fn taking_by(mut take_all: impl FnMut(&mut Image)) -> f64 {
    let mut office = Office::new();
    best_part(RECORDS, || {
        office.fill_the_list();
        let start = Instant::now();
        take_all(&mut office.desk);
        start.elapsed()
    })
}

fn replacing() -> Call {
    let mut office = Office::new();
    let nanos = best_of(|| {
        let tables = &mut office.tables;
        let said = office
            .desk
            .replace(&office.set, &mut tables.first, &mut tables.second);
        assert_eq!(said.refusal, 0, "the set is good");
    });
    Call {
        call: "replace, 16 tags of 8 to 32 bytes",
        nanos,
    }
}
