//! The archive's functions, as safe ones over slices: the one module with unsafe code.
//!
//! Each call below is safe for any arguments. The archive's contracts hold for every value of every
//! argument, and a slice of Rust is just what it asks of a run: a pointer that isn't null and is
//! aligned, readable for its length, and, where it is `&mut`, writable and overlapped by no other.
#![allow(unsafe_code)]

/// A number, 0 or a refusal's, and up to seven values; those that there aren't are 0.
#[repr(C)]
#[derive(Clone, Copy, Debug, PartialEq, Eq)]
pub struct Answer {
    pub refusal: u64,
    pub a: u64,
    pub b: u64,
    pub c: u64,
    pub d: u64,
    pub e: u64,
    pub f: u64,
    pub g: u64,
}

/// A place in the split layout: a state for each machine, those of the first table first.
pub type Place = [u16; 16];

#[repr(C)]
#[derive(Clone, Copy, PartialEq, Eq)]
pub struct Ticket {
    pub serial: u32,
    pub edition: u32,
    pub taken: u32,
    pub place: Place,
}

#[repr(C)]
#[derive(Clone, Copy, PartialEq, Eq)]
pub struct Record {
    pub serial: u32,
    pub edition: u32,
    pub end: u32,
    pub tag: u8,
}

/// A desk's image: numbers alone, so that any value of them is a desk.
#[repr(C)]
#[derive(Clone, Copy, PartialEq, Eq)]
pub struct Image {
    pub tickets: [Ticket; 16],
    pub ring: [Record; 256],
    pub first: u64,
    pub count: u64,
    pub edition: u32,
    pub serial: u32,
    /// Of the last accepted replacement's first and second table.
    pub slots: [u64; 2],
}

/// What a gate saw for the ticket in a room: bit i of the mask for tag i, and 0 as long as every
/// byte handed in was taken.
#[repr(C)]
#[derive(Clone, Copy, Debug, PartialEq, Eq)]
pub struct Seen {
    pub mask: u64,
    pub unread: u64,
}

/// A gate's image: numbers alone too.
#[repr(C)]
#[derive(Clone, Copy, PartialEq, Eq)]
pub struct GateImage {
    pub desk: Image,
    pub seen: [Seen; 16],
}

#[repr(C)]
pub struct Reply {
    desk: Image,
    answer: Answer,
}

#[repr(C)]
pub struct GateReply {
    gate: GateImage,
    answer: Answer,
}

#[repr(C)]
pub struct TakenMany {
    desk: Image,
    count: u64,
}

#[repr(C)]
pub struct SplitReply {
    answer: Answer,
    place: Place,
}

/// Over a table with one machine: the whole-byte and the bitmap table.
#[repr(C)]
pub struct OneReply {
    answer: Answer,
    place: u16,
}

mod archive {
    use super::{
        Answer, GateImage, GateReply, Image, OneReply, Place, Reply, SplitReply, TakenMany,
    };

    extern "C" {
        pub fn sleet_version() -> u64;
        pub fn sleet_desk_new() -> Image;
        pub fn sleet_desk_replace(
            desk: Image,
            set: *const u8,
            set_length: usize,
            first: *mut u16,
            first_length: usize,
            second: *mut u16,
            second_length: usize,
        ) -> Reply;
        pub fn sleet_desk_open(desk: Image) -> Reply;
        pub fn sleet_desk_feed(
            desk: Image,
            serial: u32,
            first: *const u16,
            first_length: usize,
            second: *const u16,
            second_length: usize,
            piece: *const u8,
            piece_length: usize,
        ) -> Reply;
        pub fn sleet_desk_close(desk: Image, serial: u32) -> Reply;
        pub fn sleet_desk_take(desk: Image) -> Reply;
        pub fn sleet_desk_take_many(desk: Image, list: *mut u32, list_length: usize) -> TakenMany;
        pub fn sleet_desk_state(desk: Image, serial: u32) -> Answer;
        pub fn sleet_gate_new() -> GateImage;
        pub fn sleet_gate_replace(
            gate: GateImage,
            set: *const u8,
            set_length: usize,
            first: *mut u16,
            first_length: usize,
            second: *mut u16,
            second_length: usize,
        ) -> GateReply;
        pub fn sleet_gate_begin(gate: GateImage) -> GateReply;
        pub fn sleet_gate_piece(
            gate: GateImage,
            serial: u32,
            first: *const u16,
            first_length: usize,
            second: *const u16,
            second_length: usize,
            piece: *const u8,
            piece_length: usize,
        ) -> GateReply;
        pub fn sleet_gate_decide(gate: GateImage, serial: u32) -> GateReply;
        pub fn sleet_slots_needed(set: *const u8, set_length: usize) -> Answer;
        pub fn sleet_whole_slots_needed(set: *const u8, set_length: usize) -> Answer;
        pub fn sleet_build_split(
            set: *const u8,
            set_length: usize,
            first: *mut u16,
            first_length: usize,
            second: *mut u16,
            second_length: usize,
        ) -> Answer;
        pub fn sleet_build_whole(
            set: *const u8,
            set_length: usize,
            table: *mut u16,
            table_length: usize,
        ) -> Answer;
        pub fn sleet_build_bitmap(
            set: *const u8,
            set_length: usize,
            table: *mut u16,
            table_length: usize,
        ) -> Answer;
        pub fn sleet_read_split(
            first: *const u16,
            first_length: usize,
            second: *const u16,
            second_length: usize,
            place: *const Place,
            count: u32,
            piece: *const u8,
            piece_length: usize,
            list: *mut u32,
            list_length: usize,
        ) -> SplitReply;
        pub fn sleet_read_whole(
            table: *const u16,
            table_length: usize,
            place: u16,
            count: u32,
            piece: *const u8,
            piece_length: usize,
            list: *mut u32,
            list_length: usize,
        ) -> OneReply;
        pub fn sleet_read_bitmap(
            table: *const u16,
            table_length: usize,
            place: u16,
            count: u32,
            piece: *const u8,
            piece_length: usize,
            list: *mut u32,
            list_length: usize,
        ) -> OneReply;
    }
}

impl Image {
    pub fn new() -> Image {
        unsafe { archive::sleet_desk_new() }
    }

    fn keep(&mut self, reply: Reply) -> Answer {
        *self = reply.desk;
        reply.answer
    }

    pub fn replace(&mut self, set: &[u8], first: &mut [u16], second: &mut [u16]) -> Answer {
        self.keep(unsafe {
            archive::sleet_desk_replace(
                *self,
                set.as_ptr(),
                set.len(),
                first.as_mut_ptr(),
                first.len(),
                second.as_mut_ptr(),
                second.len(),
            )
        })
    }

    pub fn open(&mut self) -> Answer {
        self.keep(unsafe { archive::sleet_desk_open(*self) })
    }

    pub fn feed(&mut self, serial: u32, first: &[u16], second: &[u16], piece: &[u8]) -> Answer {
        self.keep(unsafe {
            archive::sleet_desk_feed(
                *self,
                serial,
                first.as_ptr(),
                first.len(),
                second.as_ptr(),
                second.len(),
                piece.as_ptr(),
                piece.len(),
            )
        })
    }

    pub fn close(&mut self, serial: u32) -> Answer {
        self.keep(unsafe { archive::sleet_desk_close(*self, serial) })
    }

    pub fn take(&mut self) -> Answer {
        self.keep(unsafe { archive::sleet_desk_take(*self) })
    }

    pub fn take_many(&mut self, list: &mut [u32]) -> u64 {
        let taken = unsafe { archive::sleet_desk_take_many(*self, list.as_mut_ptr(), list.len()) };
        *self = taken.desk;
        taken.count
    }

    pub fn state(&self, serial: u32) -> Answer {
        unsafe { archive::sleet_desk_state(*self, serial) }
    }
}

impl GateImage {
    pub fn new() -> GateImage {
        unsafe { archive::sleet_gate_new() }
    }

    fn keep(&mut self, reply: GateReply) -> Answer {
        *self = reply.gate;
        reply.answer
    }

    pub fn replace(&mut self, set: &[u8], first: &mut [u16], second: &mut [u16]) -> Answer {
        self.keep(unsafe {
            archive::sleet_gate_replace(
                *self,
                set.as_ptr(),
                set.len(),
                first.as_mut_ptr(),
                first.len(),
                second.as_mut_ptr(),
                second.len(),
            )
        })
    }

    pub fn begin(&mut self) -> Answer {
        self.keep(unsafe { archive::sleet_gate_begin(*self) })
    }

    pub fn piece(&mut self, serial: u32, first: &[u16], second: &[u16], piece: &[u8]) -> Answer {
        self.keep(unsafe {
            archive::sleet_gate_piece(
                *self,
                serial,
                first.as_ptr(),
                first.len(),
                second.as_ptr(),
                second.len(),
                piece.as_ptr(),
                piece.len(),
            )
        })
    }

    pub fn decide(&mut self, serial: u32) -> Answer {
        self.keep(unsafe { archive::sleet_gate_decide(*self, serial) })
    }
}

pub fn version() -> u64 {
    unsafe { archive::sleet_version() }
}

pub fn slots_needed(set: &[u8]) -> Answer {
    unsafe { archive::sleet_slots_needed(set.as_ptr(), set.len()) }
}

pub fn whole_slots_needed(set: &[u8]) -> Answer {
    unsafe { archive::sleet_whole_slots_needed(set.as_ptr(), set.len()) }
}

pub fn build_split(set: &[u8], first: &mut [u16], second: &mut [u16]) -> Answer {
    unsafe {
        archive::sleet_build_split(
            set.as_ptr(),
            set.len(),
            first.as_mut_ptr(),
            first.len(),
            second.as_mut_ptr(),
            second.len(),
        )
    }
}

pub fn build_whole(set: &[u8], table: &mut [u16]) -> Answer {
    let (at, length) = (table.as_mut_ptr(), table.len());
    unsafe { archive::sleet_build_whole(set.as_ptr(), set.len(), at, length) }
}

pub fn build_bitmap(set: &[u8], table: &mut [u16]) -> Answer {
    let (at, length) = (table.as_mut_ptr(), table.len());
    unsafe { archive::sleet_build_bitmap(set.as_ptr(), set.len(), at, length) }
}

pub fn read_split(
    first: &[u16],
    second: &[u16],
    place: &mut Place,
    count: u32,
    piece: &[u8],
    list: &mut [u32],
) -> Answer {
    let reply = unsafe {
        archive::sleet_read_split(
            first.as_ptr(),
            first.len(),
            second.as_ptr(),
            second.len(),
            place,
            count,
            piece.as_ptr(),
            piece.len(),
            list.as_mut_ptr(),
            list.len(),
        )
    };
    *place = reply.place;
    reply.answer
}

/// A call that reads over a table with one machine.
type ReadOne = unsafe extern "C" fn(
    table: *const u16,
    table_length: usize,
    place: u16,
    count: u32,
    piece: *const u8,
    piece_length: usize,
    list: *mut u32,
    list_length: usize,
) -> OneReply;

fn read_one(
    call: ReadOne,
    table: &[u16],
    place: &mut u16,
    count: u32,
    piece: &[u8],
    list: &mut [u32],
) -> Answer {
    let reply = unsafe {
        call(
            table.as_ptr(),
            table.len(),
            *place,
            count,
            piece.as_ptr(),
            piece.len(),
            list.as_mut_ptr(),
            list.len(),
        )
    };
    *place = reply.place;
    reply.answer
}

pub fn read_whole(
    table: &[u16],
    place: &mut u16,
    count: u32,
    piece: &[u8],
    list: &mut [u32],
) -> Answer {
    read_one(archive::sleet_read_whole, table, place, count, piece, list)
}

pub fn read_bitmap(
    table: &[u16],
    place: &mut u16,
    count: u32,
    piece: &[u8],
    list: &mut [u32],
) -> Answer {
    read_one(archive::sleet_read_bitmap, table, place, count, piece, list)
}

// The layout of the archive, as include/sleet.h states it. (That the answer stands behind the desk,
// or the place behind the answer, follows from the sizes: no member but the last has bytes behind it.)
const _: () = {
    use std::mem::size_of;
    assert!(size_of::<Answer>() == 64 && size_of::<Ticket>() == 44 && size_of::<Record>() == 16);
    assert!(size_of::<Image>() == 4840 && size_of::<Reply>() == 4904);
    assert!(size_of::<TakenMany>() == 4848);
    assert!(size_of::<SplitReply>() == 96 && size_of::<OneReply>() == 72);
    assert!(size_of::<Seen>() == 16 && size_of::<GateImage>() == 5096);
    assert!(size_of::<GateReply>() == 5160);
};
