//! Each call over images of random numbers: no crash, and just the answer and the image that the
//! rules give, rules that `rules` has a second time.

mod rules;

use crate::raw::{GateImage, Image, Place, Record, Seen, Ticket};
use crate::set::TagSet;
use rules::{answer, begun, closed, decided, fed, opened, pieced, refused, stated, taken, FREE};

/// Random numbers (xorshift), some of them small so that they meet.
struct Random(u64);

impl Random {
    fn next(&mut self) -> u64 {
        self.0 ^= self.0 << 13;
        self.0 ^= self.0 >> 7;
        self.0 ^= self.0 << 17;
        self.0
    }

    fn below(&mut self, bound: u64) -> u64 {
        (self.next() >> 8) % bound
    }

    fn number(&mut self) -> u32 {
        match self.below(8) {
            0 => u32::MAX,
            1 => self.next() as u32,
            _ => self.below(4) as u32,
        }
    }

    fn wide(&mut self) -> u64 {
        match self.below(4) {
            0 => self.next(),
            1 => self.below(3),
            _ => 250 + self.below(10),
        }
    }

    fn ticket(&mut self) -> Ticket {
        Ticket {
            serial: self.number(),
            edition: self.number(),
            taken: self.number(),
            place: [0; 16].map(|_: u16| self.below(5) as u16),
        }
    }

    fn record(&mut self) -> Record {
        Record {
            serial: self.number(),
            edition: self.number(),
            end: self.number(),
            tag: self.next() as u8,
        }
    }

    fn image(&mut self) -> Image {
        Image {
            tickets: [FREE; 16].map(|_| self.ticket()),
            ring: [0; 256].map(|_| self.record()),
            first: self.wide(),
            count: self.wide(),
            edition: self.number(),
            serial: self.number(),
            slots: [self.below(6), self.below(6)],
        }
    }

    fn gate(&mut self) -> GateImage {
        let mut seen = || Seen {
            mask: self.below(3) * self.next(),
            unread: self.below(4) / 2 * self.next(),
        };
        GateImage {
            seen: [(); 16].map(|_| seen()),
            desk: self.image(),
        }
    }

    /// Slots of two tables, mostly one at least.
    fn slots(&mut self) -> [u64; 2] {
        let mut slots = || match self.below(12) {
            0 => 0,
            _ => 1 + self.below(5),
        };
        [slots(), slots()]
    }

    /// Two tables of so many slots.
    fn tables(&mut self, slots: [u64; 2]) -> [Vec<u16>; 2] {
        slots.map(|slots| self.table(slots))
    }

    /// Two tables for the set of both kinds, of which either may be short: it needs 10 slots and 3.
    fn runs_of_sevens(&mut self) -> [Vec<u16>; 2] {
        let (first, second) = (9 + self.below(3), [0, 2, 3, 4][self.below(4) as usize]);
        [first, second].map(|slots| vec![7; (24 * slots + self.below(24)) as usize])
    }

    /// A table of so many slots, with nexts that are mostly below them and vectors of many ones.
    fn table(&mut self, slots: u64) -> Vec<u16> {
        let length = 24 * slots + self.below(24);
        let mut number = |at| match at % 3 {
            2 => (self.next() | self.next() | self.next()) as u16,
            _ if self.below(100) == 0 => self.next() as u16,
            _ => self.below(slots.max(1)) as u16,
        };
        (0..length).map(&mut number).collect()
    }
}

/// he, she, his, hers, which need 10 slots of the first table, and He, folded, which needs 3 of the
/// second.
fn set_of_both_kinds() -> TagSet {
    let exact = ["he", "she", "his", "hers"];
    let builder = exact
        .iter()
        .fold(TagSet::builder(), |set, tag| set.tag(tag));
    builder.folded("He").build().expect("a lawful set")
}

fn slots_of(tables: &[Vec<u16>; 2]) -> [u64; 2] {
    let slots = |table: &Vec<u16>| table.len() as u64 / 24;
    [slots(&tables[0]), slots(&tables[1])]
}

/// The last state of each machine in tables of so many slots.
fn last_of(slots: [u64; 2]) -> Place {
    let mut place = [0; 16];
    for (machine, state) in place.iter_mut().enumerate() {
        *state = slots[machine / 8].saturating_sub(1) as u16;
    }
    place
}

#[test]
fn open_close_and_take_give_their_answers_over_any_image() {
    let mut random = Random(0x5EED_0001);
    let mut seen = [0; 17];
    for _ in 0..2_000 {
        let (mut image, serial) = (random.image(), random.number());
        let mut expected = image;
        for call in 0..3 {
            let (said, rule) = match call {
                0 => (image.open(), opened(&mut expected)),
                1 => (image.close(serial), closed(&mut expected, serial)),
                _ => (image.take(), taken(&mut expected)),
            };
            assert_eq!(said, rule);
            assert!(image == expected, "call {call}");
            seen[said.refusal as usize] += 1;
        }
    }
    for number in [0, 9, 10, 12, 16] {
        assert!(
            seen[number] > 50,
            "refusal {number} was seen {} times",
            seen[number]
        );
    }
}

#[test]
fn take_many_takes_as_take_does_over_any_image() {
    let mut random = Random(0x5EED_0002);
    for _ in 0..2_000 {
        let mut image = random.image();
        let mut expected = image;
        let mut list = vec![7; random.below(1200) as usize];
        let mut rule = list.clone();
        let mut count = 0;
        for numbers in rule.chunks_exact_mut(4) {
            let said = taken(&mut expected);
            if said.refusal == 0 {
                numbers.copy_from_slice(&[said.a, said.b, said.c, said.d].map(|n| n as u32));
                count += 1;
            }
        }
        assert_eq!((image.take_many(&mut list), list), (count, rule));
        assert!(image == expected);
    }
}

#[test]
fn feed_gives_its_answer_over_any_image_and_table() {
    let mut random = Random(0x5EED_0003);
    let mut refusals = [0; 17];
    let mut stops = [0; 3];
    for _ in 0..20_000 {
        let mut image = random.image();
        let slots = random.slots();
        let [first, second] = &random.tables(slots);
        let room = random.below(16) as usize;
        if random.below(8) > 0 {
            image.slots = slots;
            image.tickets[room].edition = image.edition;
            image.tickets[room].place = last_of(slots);
        }
        let serial = image.tickets[room].serial;
        let piece: Vec<u8> = (0..random.below(40)).map(|_| random.next() as u8).collect();
        let mut expected = image;
        let rule = fed(&mut expected, serial, [first, second], &piece);
        assert_eq!(image.feed(serial, first, second, &piece), rule);
        assert!(image == expected);
        refusals[rule.refusal as usize] += 1;
        stops[rule.b as usize] += usize::from(rule.refusal == 0 && rule.a > 0);
    }
    for number in [0, 12, 13, 14] {
        assert!(refusals[number] > 50, "refusals: {refusals:?}");
    }
    assert!(stops.iter().all(|seen| *seen > 50), "stops: {stops:?}");
}

#[test]
fn replace_gives_its_answer_over_any_image() {
    let mut random = Random(0x5EED_0004);
    let set = set_of_both_kinds();
    let mut refusals = [0; 17];
    for _ in 0..2_000 {
        let (mut image, lent) = (random.image(), random.runs_of_sevens());
        let (mut expected, mut tables, mut rule_tables) = (image, lent.clone(), lent);
        let rule = match (slots_of(&tables), image.edition) {
            ([9, _], _) => answer(7, [3, 10, 0, 0]),
            ([_, 0 | 2], _) => answer(7, [8, 3, 0, 0]),
            (_, u32::MAX) => refused(8),
            (slots, edition) => {
                expected.edition = edition + 1;
                expected.slots = slots;
                let [first, second] = &mut rule_tables;
                crate::raw::build_split(set.as_bytes(), first, second);
                answer(0, [u64::from(edition) + 1, 5, 0, 0])
            }
        };
        let [first, second] = &mut tables;
        assert_eq!(image.replace(set.as_bytes(), first, second), rule);
        assert!(image == expected && tables == rule_tables);
        refusals[rule.refusal as usize] += 1;
    }
    for number in [0, 7, 8] {
        assert!(refusals[number] > 50, "refusals: {refusals:?}");
    }
}

#[test]
fn state_gives_its_answer_over_any_image() {
    let mut random = Random(0x5EED_0006);
    let mut states = [0; 4];
    for _ in 0..2_000 {
        let (image, serial) = (random.image(), random.number());
        let rule = stated(&image, serial);
        assert_eq!(image.state(serial), rule);
        states[rule.a as usize] += 1;
    }
    assert!(states.iter().all(|seen| *seen > 20), "states: {states:?}");
}

#[test]
fn the_gate_gives_its_answers_over_any_image_and_table() {
    let mut random = Random(0x5EED_0007);
    let (mut refusals, mut verdicts, mut pieces) = ([0; 17], [0; 5], [0; 2]);
    for _ in 0..10_000 {
        let mut gate = random.gate();
        let slots = random.slots();
        let [first, second] = &random.tables(slots);
        let room = random.below(16) as usize;
        if random.below(8) > 0 {
            gate.desk.slots = slots;
            gate.desk.tickets[room].edition = gate.desk.edition;
            gate.desk.tickets[room].place = last_of(slots);
            gate.desk.count = random.below(300);
        }
        if random.below(3) == 0 {
            gate.seen[room] = Seen { mask: 0, unread: 0 };
        }
        let serial = gate.desk.tickets[room].serial;
        let length = random.below(40) * random.below(2);
        let piece: Vec<u8> = (0..length).map(|_| random.next() as u8).collect();
        let mut expected = gate;
        for call in 0..3 {
            let (said, rule) = match call {
                0 => (gate.begin(), begun(&mut expected)),
                1 => (
                    gate.piece(serial, first, second, &piece),
                    pieced(&mut expected, serial, [first, second], &piece),
                ),
                _ => (gate.decide(serial), decided(&mut expected, serial)),
            };
            assert_eq!(said, rule, "call {call}");
            assert!(gate == expected, "call {call}");
            refusals[said.refusal as usize] += 1;
            match (said.refusal, call) {
                (0, 1) => pieces[said.a as usize] += 1,
                (0, 2) => verdicts[said.a as usize] += 1,
                _ => {}
            }
        }
    }
    for number in [0, 9, 10, 12, 13] {
        assert!(refusals[number] > 50, "refusals: {refusals:?}");
    }
    assert!(pieces.iter().all(|seen| *seen > 50), "pieces: {pieces:?}");
    let seen = &verdicts[1..];
    assert!(seen.iter().all(|seen| *seen > 50), "verdicts: {verdicts:?}");
}

#[test]
fn a_gates_replacement_is_its_desks_over_any_image() {
    let mut random = Random(0x5EED_0008);
    let set = set_of_both_kinds();
    for _ in 0..500 {
        let (mut gate, lent) = (random.gate(), random.runs_of_sevens());
        let (mut expected, mut tables, mut rule_tables) = (gate, lent.clone(), lent);
        let [first, second] = &mut rule_tables;
        let rule = expected.desk.replace(set.as_bytes(), first, second);
        let [first, second] = &mut tables;
        assert_eq!(gate.replace(set.as_bytes(), first, second), rule);
        assert!(gate == expected && tables == rule_tables);
    }
}
