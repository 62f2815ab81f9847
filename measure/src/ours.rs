// Our engines, as the archive gives them: one-bit, whole-byte and bitmap outside the desk, and the desk.
use crate::engine::{Engine, Out};
use crate::exports::{self, Answer, Image, Place};
use crate::tags::Tag;

const FULL: u64 = 1;
const RECORDS_OF_A_DESK: usize = 256;

/// The numbers of a slot in each layout.
pub const SPLIT_SLOT: usize = 24;
pub const WHOLE_SLOT: usize = 257;
pub const BITMAP_SLOT: usize = 19;

/// The bytes of a set: for each tag its length, its kind, 1 or 2, and the tag.
pub fn set_of(tags: &[Tag]) -> Vec<u8> {
    let kind = |tag: &Tag| if tag.folded { 2 } else { 1 };
    let entry = |tag: &Tag| {
        let head = [tag.bytes.len() as u8, 0, kind(tag), 0];
        [&head, tag.bytes.as_slice()].concat()
    };
    tags.iter().flat_map(entry).collect()
}

/// The slots that the first and the second split table of a set need.
pub fn slots_of(set: &[u8]) -> [usize; 2] {
    let needed = exports::slots_needed(set);
    assert_eq!(needed.refusal, 0, "the tags of a benchmark make a good set");
    [needed.a as usize, needed.b as usize]
}

/// The slots that the whole-byte table of a set of exact tags needs; the bitmap table needs as many.
pub fn whole_slots_of(set: &[u8]) -> usize {
    let needed = exports::whole_slots_needed(set);
    assert_eq!(needed.refusal, 0, "exact tags make a good set");
    needed.a as usize
}

/// The two tables of the split layout: for exact tags, and for folded ones.
pub struct SplitTables {
    pub first: Vec<u16>,
    pub second: Vec<u16>,
}

impl SplitTables {
    /// Zeros for the slots that a set needs.
    pub fn room_for(set: &[u8]) -> SplitTables {
        let [first, second] = slots_of(set).map(|slots| vec![0; slots * SPLIT_SLOT]);
        SplitTables { first, second }
    }

    pub fn built(tags: &[Tag]) -> SplitTables {
        let set = set_of(tags);
        let mut tables = SplitTables::room_for(&set);
        assert_eq!(
            exports::build_split(&set, &mut tables.first, &mut tables.second).refusal,
            0,
            "the tables have the slots that the set needs"
        );
        tables
    }

    /// The slots of each.
    pub fn slots(&self) -> [usize; 2] {
        [&self.first, &self.second].map(|table| table.len() / SPLIT_SLOT)
    }
}

pub fn whole_table(tags: &[Tag]) -> Vec<u16> {
    let set = set_of(tags);
    let mut table = vec![0; whole_slots_of(&set) * WHOLE_SLOT];
    assert_eq!(
        exports::build_whole(&set, &mut table).refusal,
        0,
        "the table has the slots that the set needs"
    );
    table
}

pub fn bitmap_table(tags: &[Tag]) -> Vec<u16> {
    let set = set_of(tags);
    let mut table = vec![0; whole_slots_of(&set) * BITMAP_SLOT];
    assert_eq!(
        exports::build_bitmap(&set, &mut table).refusal,
        0,
        "the table has the slots that the set needs"
    );
    table
}

pub struct OneBit {
    tables: SplitTables,
    place: Place,
}

impl OneBit {
    pub fn new(tags: &[Tag]) -> OneBit {
        OneBit {
            tables: SplitTables::built(tags),
            place: [0; 16],
        }
    }
}

/// Reads a piece to its end; the list is emptied whenever the reading stops.
fn read_on(
    input: &[u8],
    from: usize,
    to: usize,
    out: &mut Out,
    mut read: impl FnMut(u32, &[u8], &mut [u32]) -> Answer,
) {
    let mut at = from;
    while at < to {
        let answer = read(at as u32, &input[at..to], &mut out.list);
        assert_eq!(
            answer.refusal, 0,
            "reading from a place of the table is not refused"
        );
        at += answer.a as usize;
        out.take(answer.c as usize);
    }
}

impl Engine for OneBit {
    fn begin(&mut self) {
        self.place = [0; 16];
    }

    fn piece(&mut self, input: &[u8], from: usize, to: usize, out: &mut Out) {
        let (tables, place) = (&self.tables, &mut self.place);
        read_on(input, from, to, out, |count, piece, list| {
            exports::read_split(&tables.first, &tables.second, place, count, piece, list)
        });
    }
}

pub struct WholeByte {
    table: Vec<u16>,
    place: u16,
}

impl WholeByte {
    pub fn new(tags: &[Tag]) -> WholeByte {
        WholeByte {
            table: whole_table(tags),
            place: 0,
        }
    }
}

impl Engine for WholeByte {
    fn begin(&mut self) {
        self.place = 0;
    }

    fn piece(&mut self, input: &[u8], from: usize, to: usize, out: &mut Out) {
        let (table, place) = (&self.table, &mut self.place);
        read_on(input, from, to, out, |count, piece, list| {
            exports::read_whole(table, place, count, piece, list)
        });
    }
}

pub struct Bitmap {
    table: Vec<u16>,
    place: u16,
    moves: u64,
}

impl Bitmap {
    pub fn new(tags: &[Tag]) -> Bitmap {
        Bitmap {
            table: bitmap_table(tags),
            place: 0,
            moves: 0,
        }
    }
}

impl Engine for Bitmap {
    fn begin(&mut self) {
        self.place = 0;
        self.moves = 0;
    }

    fn piece(&mut self, input: &[u8], from: usize, to: usize, out: &mut Out) {
        let (table, place, moves) = (&self.table, &mut self.place, &mut self.moves);
        read_on(input, from, to, out, |count, piece, list| {
            let answer = exports::read_bitmap(table, place, count, piece, list);
            *moves += answer.d;
            answer
        });
        assert!(
            self.moves <= to as u64,
            "from state 0 there are no more failure moves than bytes"
        );
    }
}

/// A ticket that is fed, and all records taken after each feed.
pub struct AtTheDesk {
    tables: SplitTables,
    desk: Image,
    serial: u32,
    taken: Vec<u32>,
}

impl AtTheDesk {
    pub fn new(tags: &[Tag]) -> AtTheDesk {
        let set = set_of(tags);
        let mut tables = SplitTables::room_for(&set);
        let mut desk = Image::new();
        assert_eq!(
            desk.replace(&set, &mut tables.first, &mut tables.second)
                .refusal,
            0,
            "the tables have the slots that the set needs"
        );
        AtTheDesk {
            tables,
            desk,
            serial: 0,
            taken: vec![0; 4 * RECORDS_OF_A_DESK],
        }
    }

    fn hand_over(&mut self, out: &mut Out) {
        let n = self.desk.take_many(&mut self.taken) as usize;
        for record in self.taken[..4 * n].chunks_exact(4) {
            assert_eq!(record[0], self.serial, "only one ticket was fed");
            out.push(record[2], record[3]);
        }
        out.empty();
    }
}

impl Engine for AtTheDesk {
    fn begin(&mut self) {
        if self.serial != 0 {
            assert_eq!(
                self.desk.close(self.serial).refusal,
                0,
                "the ticket is open"
            );
        }
        let opened = self.desk.open();
        assert_eq!(opened.refusal, 0, "a room is free");
        self.serial = opened.a as u32;
    }

    fn piece(&mut self, input: &[u8], from: usize, to: usize, out: &mut Out) {
        let mut at = from;
        while at < to {
            let (first, second) = (&self.tables.first, &self.tables.second);
            let fed = self.desk.feed(self.serial, first, second, &input[at..to]);
            assert_eq!(fed.refusal, 0, "a live ticket's feed is not refused");
            assert!(fed.b <= FULL, "the tables are as replacement left them");
            at += fed.a as usize;
            if fed.c > 0 {
                self.hand_over(out);
            }
        }
    }
}
