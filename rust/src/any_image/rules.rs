//! The rules of each call for any image, in the plainest way.

use crate::raw::{Answer, GateImage, Image, Place, Record, Seen, Ticket};

pub const FREE: Ticket = Ticket {
    serial: 0,
    edition: 0,
    taken: 0,
    place: [0; 16],
};

/// The two tables that a call is lent.
pub type Tables<'t> = [&'t [u16]; 2];

/// The slots of each.
fn slots_of(tables: Tables) -> [usize; 2] {
    tables.map(|table| (table.len() / 24).min(513))
}

/// Whether each state is below the slots of its own table.
fn are_below(place: &Place, slots: [usize; 2]) -> bool {
    let mut states = place.iter().enumerate();
    states.all(|(machine, state)| usize::from(*state) < slots[machine / 8])
}

pub fn answer(refusal: u64, values: [u64; 4]) -> Answer {
    let [a, b, c, d] = values;
    let (e, f, g) = (0, 0, 0);
    Answer {
        refusal,
        a,
        b,
        c,
        d,
        e,
        f,
        g,
    }
}

pub fn refused(refusal: u64) -> Answer {
    answer(refusal, [0; 4])
}

/// The first room of a serial; serial 0 is no ticket's.
fn room_of(image: &Image, serial: u32) -> Option<usize> {
    let rooms = &mut image.tickets.iter();
    rooms.position(|room| room.serial == serial && serial != 0)
}

pub fn opened(image: &mut Image) -> Answer {
    let free = image.tickets.iter().position(|room| room.serial == 0);
    match (image.edition, image.serial, free) {
        (0, _, _) => refused(9),
        (_, u32::MAX, _) => refused(10),
        (_, _, None) => refused(11),
        (edition, last, Some(free)) => {
            image.serial = last + 1;
            image.tickets[free] = Ticket {
                serial: last + 1,
                edition,
                ..FREE
            };
            answer(0, [u64::from(last) + 1, 0, 0, 0])
        }
    }
}

pub fn closed(image: &mut Image, serial: u32) -> Answer {
    match room_of(image, serial) {
        None => refused(12),
        Some(room) => {
            image.tickets[room] = FREE;
            refused(0)
        }
    }
}

pub fn taken(image: &mut Image) -> Answer {
    if image.count == 0 {
        return refused(16);
    }
    let first = image.first % 256;
    let oldest = image.ring[first as usize];
    image.first = (first + 1) % 256;
    image.count -= 1;
    let (serial, edition) = (oldest.serial.into(), oldest.edition.into());
    answer(0, [serial, edition, oldest.end.into(), oldest.tag.into()])
}

pub fn fed(image: &mut Image, serial: u32, tables: Tables, piece: &[u8]) -> Answer {
    let slots = slots_of(tables);
    let room = match room_of(image, serial) {
        None => return refused(12),
        Some(room) => room,
    };
    let ticket = image.tickets[room];
    if ticket.edition != image.edition {
        return answer(13, [ticket.edition.into(), 0, 0, 0]);
    }
    if slots.map(|slots| slots as u64) != image.slots {
        return answer(0, [0, 2, 0, 0]);
    }
    if u64::from(ticket.taken) + piece.len() as u64 > u64::from(u32::MAX) {
        return refused(14);
    }
    if !are_below(&ticket.place, slots) {
        return answer(0, [0, 2, 0, 0]);
    }
    read_on(image, room, tables, piece)
}

fn read_on(image: &mut Image, room: usize, tables: Tables, piece: &[u8]) -> Answer {
    let held = image.count;
    for (read, byte) in (0..).zip(piece) {
        let stopped = |image: &Image, why| answer(0, [read, why, image.count - held, 0]);
        let (place, vector) = match stepped(tables, image.tickets[room].place, *byte) {
            None => return stopped(image, 2),
            Some(step) => step,
        };
        let matches = u64::from(vector.count_ones());
        if matches > 256u64.saturating_sub(image.count) {
            return stopped(image, 1);
        }
        image.tickets[room].place = place;
        image.tickets[room].taken += 1;
        (0..16)
            .filter(|tag| vector >> tag & 1 == 1)
            .for_each(|tag| push(image, room, tag));
    }
    answer(0, [piece.len() as u64, 0, image.count - held, 0])
}

/// The byte as the machines of a table read it: those of the second read it folded.
fn read_by(table: usize, byte: u8) -> u8 {
    match (table, byte) {
        (1, b'A'..=b'Z') => byte + 32,
        _ => byte,
    }
}

/// The place after a byte and the tags found there; nothing where a next isn't below its table's slots.
fn stepped(tables: Tables, place: Place, byte: u8) -> Option<(Place, u16)> {
    let slots = slots_of(tables);
    let number = |machine: usize, state: u16, at: usize| {
        let slot = (machine % 8) * slots[machine / 8] + usize::from(state);
        tables[machine / 8][3 * slot + at]
    };
    let mut after = place;
    for (machine, state) in after.iter_mut().enumerate() {
        let bit = read_by(machine / 8, byte) >> (machine % 8) & 1;
        *state = number(machine, *state, usize::from(bit));
    }
    if !are_below(&after, slots) {
        return None;
    }
    let vector = |machine: usize| number(machine, after[machine], 2);
    let exact = (0..8).map(vector).fold(u16::MAX, |left, one| left & one);
    let folded = (8..16).map(vector).fold(u16::MAX, |left, one| left & one);
    Some((after, exact | folded))
}

fn push(image: &mut Image, room: usize, tag: u8) {
    let ticket = image.tickets[room];
    let at = (image.first % 256 + image.count) % 256;
    image.ring[at as usize] = Record {
        serial: ticket.serial,
        edition: ticket.edition,
        end: ticket.taken,
        tag,
    };
    image.count += 1;
}

pub fn stated(image: &Image, serial: u32) -> Answer {
    let (state, edition, taken) = match room_of(image, serial) {
        Some(room) => {
            let ticket = image.tickets[room];
            let open = ticket.edition == image.edition;
            (if open { 3 } else { 2 }, ticket.edition, ticket.taken)
        }
        None if (1..=image.serial).contains(&serial) => (1, 0, 0),
        None => (0, 0, 0),
    };
    answer(0, [state, edition.into(), taken.into(), 0])
}

pub fn begun(gate: &mut GateImage) -> Answer {
    let said = opened(&mut gate.desk);
    if said.refusal == 0 {
        let room = room_of(&gate.desk, said.a as u32).expect("it was opened");
        gate.seen[room] = Seen { mask: 0, unread: 0 };
    }
    said
}

pub fn pieced(gate: &mut GateImage, serial: u32, tables: Tables, piece: &[u8]) -> Answer {
    let room = match room_of(&gate.desk, serial) {
        None => return refused(12),
        Some(room) => room,
    };
    let edition = gate.desk.tickets[room].edition;
    if edition != gate.desk.edition {
        return answer(13, [edition.into(), 0, 0, 0]);
    }
    let mut rest = piece;
    while !rest.is_empty() {
        let said = fed(&mut gate.desk, serial, tables, rest);
        (0..256).for_each(|_| note(gate));
        match (said.refusal, said.a as usize) {
            (0, 1..) => rest = &rest[said.a as usize..],
            _ => {
                gate.seen[room].unread = 1;
                let taken = piece.len() - rest.len();
                return answer(0, [0, taken as u64, 0, 0]);
            }
        }
    }
    answer(0, [1, 0, 0, 0])
}

/// Takes a record, if there is one, and marks its tag for its own ticket, if that has a room.
fn note(gate: &mut GateImage) {
    let record = taken(&mut gate.desk);
    if record.refusal == 0 {
        if let Some(room) = room_of(&gate.desk, record.a as u32) {
            gate.seen[room].mask |= 1 << (record.d % 64);
        }
    }
}

pub fn decided(gate: &mut GateImage, serial: u32) -> Answer {
    let room = match room_of(&gate.desk, serial) {
        None => return refused(12),
        Some(room) => room,
    };
    let (edition, seen) = (gate.desk.tickets[room].edition, gate.seen[room]);
    gate.desk.tickets[room] = FREE;
    let (verdict, value) = match seen {
        _ if edition != gate.desk.edition => (3, edition.into()),
        Seen { mask: 0, unread: 0 } => (1, 0),
        Seen { mask, unread: 0 } => (2, mask),
        _ => (4, 0),
    };
    answer(0, [verdict, value, 0, 0])
}
