//! What is lent of both tables, and what buildings in the split layout come
//! past by it.

use crate::{see, Moment, Seen};
use second::layout::Layout;
use second::machine::Machine;
use second::script::{Call, TABLE_BUFFERS};
use second::set::read_set;

const SPLIT: Layout = Layout::Split;

pub fn count(seen: &mut Seen, moment: &Moment) {
    if let Call::Lend { lent, table } = moment.call {
        count_lent(seen, *lent, *table);
    }
    if moment.building() != Some(SPLIT) {
        return;
    }
    let slots = moment.before.lent().map(|lent| SPLIT.slots(lent));
    match moment.refused() {
        None => count_built(seen, moment.before.set(), slots),
        Some(7) => count_short(seen, moment, slots),
        _ => {}
    }
}

fn count_lent(seen: &mut Seen, lent: usize, table: usize) {
    let odd = lent % 24 > 0;
    see(seen, format!("lend of {table}, odd for split: {odd}"));
    let long = lent > 513 * 24;
    see(seen, format!("lend of {table}, over 513 slots: {long}"));
    let all = lent == TABLE_BUFFERS[table];
    see(seen, format!("lend of {table}, all: {all}"));
    let none = SPLIT.slots(lent) == 0;
    see(seen, format!("lend of {table}, no slot: {none}"));
    if table == 0 {
        let odd = lent % 257 > 0;
        see(seen, format!("lend of 0, odd for whole: {odd}"));
    }
}

/// The slots that a lawful set needs in each table.
fn needed(set: &[u8]) -> [usize; 2] {
    let set = read_set(set, SPLIT.kinds()).expect("a lawful set");
    let mut needed = [0, 0];
    for machine in 0..16 {
        let states = Machine::bit(&set, machine).states();
        needed[machine / 8] = needed[machine / 8].max(states);
    }
    needed
}

fn count_built(seen: &mut Seen, set: &[u8], slots: [usize; 2]) {
    let needed = needed(set);
    see(seen, format!("built, s differs: {}", slots[0] != slots[1]));
    for (table, (s, needed)) in slots.into_iter().zip(needed).enumerate() {
        let just_enough = s == needed;
        see(
            seen,
            format!("built, just enough of {table}: {just_enough}"),
        );
        see(
            seen,
            format!("built, one state in {table}: {}", needed == 1),
        );
        see(seen, format!("built, 513 slots of {table}: {}", s == 513));
        if needed == 479 {
            see(seen, format!("built, 479 states in {table}"));
        }
    }
}

fn count_short(seen: &mut Seen, moment: &Moment, slots: [usize; 2]) {
    let machine = moment.number("7");
    let states = moment.number(&machine.to_string());
    let table = machine / 8;
    let first = machine % 8 == 0;
    see(
        seen,
        format!("TABLE in {table}, its first machine: {first}"),
    );
    let one_short = states == slots[table] + 1;
    see(seen, format!("TABLE in {table}, one short: {one_short}"));
    if table == 0 {
        let other = slots[1] < needed(moment.before.set())[1];
        see(seen, format!("TABLE in 0, the other is short too: {other}"));
    } else {
        see(seen, format!("TABLE in 1, for one state: {}", states == 1));
    }
}

pub fn wanted() -> Vec<String> {
    let mut wanted = Vec::new();
    for so in [false, true] {
        for table in 0..2 {
            wanted.push(format!("lend of {table}, odd for split: {so}"));
            wanted.push(format!("lend of {table}, over 513 slots: {so}"));
            wanted.push(format!("lend of {table}, all: {so}"));
            wanted.push(format!("lend of {table}, no slot: {so}"));
            wanted.push(format!("built, just enough of {table}: {so}"));
            wanted.push(format!("built, one state in {table}: {so}"));
            wanted.push(format!("built, 513 slots of {table}: {so}"));
            wanted.push(format!("TABLE in {table}, its first machine: {so}"));
            wanted.push(format!("TABLE in {table}, one short: {so}"));
        }
        wanted.push(format!("lend of 0, odd for whole: {so}"));
        wanted.push(format!("built, s differs: {so}"));
        wanted.push(format!("TABLE in 0, the other is short too: {so}"));
        wanted.push(format!("TABLE in 1, for one state: {so}"));
    }
    wanted.push("built, 479 states in 0".to_string());
    wanted.push("built, 479 states in 1".to_string());
    wanted
}
