//! What readings and buildings in the bitmap layout come past.

use crate::{see, Moment, Seen, LARGEST};
use second::bitmap::{has, ones_below, FAILURE, FIRST_CHILD, VECTOR};
use second::layout::Layout;
use second::script::Call;

/// Counts what a call in the bitmap layout came past; `built` is the layout of
/// the last building.
pub fn count(seen: &mut Seen, moment: &Moment, built: Layout) {
    let [table, _] = moment.after.lent_tables();
    let answer = moment.answer;
    match moment.call {
        Call::Build(Layout::Bitmap) => count_build(seen, table, answer),
        Call::Read {
            layout: Layout::Bitmap,
            place,
            piece,
            count,
            ..
        } => match answer {
            "refused 14" => see(seen, "bitmap LONG".to_string()),
            "refused 15" => {
                let at_s = usize::from(place[0]) == Layout::Bitmap.slots(table.len());
                see(seen, format!("bitmap PLACE, just at s: {at_s}"));
                let long = u64::from(*count) + piece.len() as u64 > LARGEST;
                see(seen, format!("bitmap PLACE, would be LONG: {long}"));
            }
            _ => {
                see(seen, format!("bitmap read over a {built:?} table"));
                let odd = table.len() % 19 > 0;
                see(seen, format!("bitmap read, odd length: {odd}"));
                count_read(seen, table, piece, answer);
            }
        },
        _ => {}
    }
}

/// Whether the slots were enough, and whether by just one.
fn count_build(seen: &mut Seen, table: &[u16], answer: &str) {
    let s = Layout::Bitmap.slots(table.len());
    if let Some(needed) = answer.strip_prefix("refused 7 253 ") {
        let one_short = needed.parse() == Ok(s + 1);
        see(seen, format!("bitmap TABLE 253, one short: {one_short}"));
    }
    if answer.starts_with("tags") {
        // The last state is a whole tag, so that its vector isn't 0.
        let exact = table[19 * (s - 1) + VECTOR] != 0;
        see(seen, format!("bitmap built, just enough: {exact}"));
        let long = table.len() > 513 * 19;
        see(seen, format!("bitmap built, longer than 513 slots: {long}"));
    }
}

/// Why a reading stopped, by the byte that it stopped before.
fn count_read(seen: &mut Seen, table: &[u16], piece: &[u8], answer: &str) {
    let told: Vec<&str> = answer.split(' ').collect();
    let [_, taken, _, why, _, _, _, moves, _, place] = told[..] else {
        panic!("no answer of a bitmap reading: {answer}");
    };
    if moves != "0" {
        see(seen, format!("bitmap {why} with moves"));
    }
    let taken: usize = taken.parse().expect("a number");
    if let Some(byte) = piece.get(taken) {
        let (end, moves) = way(table, place.parse().expect("a state"), *byte);
        let moved = if moves > 0 { "behind moves" } else { "at once" };
        see(seen, format!("bitmap {why} by {end}"));
        see(seen, format!("bitmap {why} {moved}"));
    }
}

/// How the way of a byte from a state ends, and after how many moves.
fn way(table: &[u16], mut q: usize, byte: u8) -> (&'static str, usize) {
    let s = Layout::Bitmap.slots(table.len());
    for moves in 0.. {
        let slot = &table[19 * q..19 * (q + 1)];
        if has(slot, byte) {
            let next = usize::from(slot[FIRST_CHILD]) + ones_below(slot, byte);
            return match next {
                _ if next < s => ("a state", moves),
                _ if next == s => ("a next number just at s", moves),
                0..=65_535 => ("a next number above s", moves),
                _ => ("a next number past 16 bits", moves),
            };
        }
        let failure = usize::from(slot[FAILURE]);
        match failure {
            _ if q == 0 => return ("the start", moves),
            _ if failure == q => return ("a failure state, its own", moves),
            _ if failure > q && failure < s => return ("a failure state above it", moves),
            _ if failure > q => return ("a failure state not below s", moves),
            _ => q = failure,
        }
    }
    unreachable!("each move goes down")
}

/// What the bitmap layout must come past.
pub fn wanted() -> Vec<String> {
    let mut wanted = vec![
        "bitmap LONG",
        "bitmap FULL by a state",
        "bitmap FULL by the start",
        "bitmap FULL at once",
        "bitmap FULL behind moves",
        "bitmap DAMAGED at once",
        "bitmap DAMAGED behind moves",
        "bitmap DAMAGED by a next number just at s",
        "bitmap DAMAGED by a next number above s",
        "bitmap DAMAGED by a next number past 16 bits",
        "bitmap DAMAGED by a failure state, its own",
        "bitmap DAMAGED by a failure state above it",
        "bitmap DAMAGED by a failure state not below s",
        "bitmap ALL with moves",
        "bitmap FULL with moves",
        "bitmap DAMAGED with moves",
        "bitmap read over a Split table",
        "bitmap read over a Whole table",
        "bitmap read over a Bitmap table",
    ]
    .into_iter()
    .map(str::to_string)
    .collect::<Vec<String>>();
    for so in [false, true] {
        wanted.push(format!("bitmap PLACE, just at s: {so}"));
        wanted.push(format!("bitmap PLACE, would be LONG: {so}"));
        wanted.push(format!("bitmap TABLE 253, one short: {so}"));
        wanted.push(format!("bitmap built, just enough: {so}"));
        wanted.push(format!("bitmap built, longer than 513 slots: {so}"));
        wanted.push(format!("bitmap read, odd length: {so}"));
    }
    wanted
}
