//! What the desk's calls and the readings come past, whatever the layout.

use crate::{see, Moment, Seen, LARGEST};
use second::script::Call;

pub fn count(seen: &mut Seen, moment: &Moment) {
    match moment.call {
        Call::Feed(serial, _) => count_feed(seen, moment, *serial),
        Call::Close(serial) if moment.refused() == Some(12) => {
            count_no_ticket(seen, moment, "close", *serial);
        }
        Call::Read {
            count, piece, room, ..
        } => {
            count_read(seen, moment, *room);
            let total = u64::from(*count) + piece.len() as u64;
            let refused = moment.refused();
            if total == LARGEST && refused.is_none() {
                see(seen, "read up to the largest count");
            }
            if total == LARGEST && refused == Some(14) {
                see(seen, "read up to the largest count, refused");
            }
            if total == LARGEST + 1 && refused == Some(14) {
                see(seen, "read one past the largest count, refused");
            }
        }
        Call::Replace if moment.refused().is_none() => {
            let stale = moment.before.desk().tickets().len();
            see(seen, format!("replace over tickets: {}", stale > 0));
        }
        Call::State(serial) => {
            let state = moment.told(&serial.to_string()).unwrap_or("");
            see(seen, format!("state {state}"));
        }
        _ => {}
    }
}

fn count_feed(seen: &mut Seen, moment: &Moment, serial: u32) {
    match moment.refused() {
        Some(12) => return count_no_ticket(seen, moment, "feed", serial),
        Some(_) => return,
        None => {}
    }
    if moment.told("stop") == Some("FULL") {
        let left = 256 - moment.after.desk().held();
        see(seen, format!("feed FULL with room for {left}"));
        if moment.number("taken") == 0 {
            see(seen, "feed FULL at 0 taken");
        }
    }
    let live = moment.before.desk().tickets().len();
    see(seen, format!("feed beside {} tickets", live.min(2)));
}

fn count_no_ticket(seen: &mut Seen, moment: &Moment, name: &str, serial: u32) {
    let given = (1..=moment.before.desk().serial().0).contains(&serial);
    let why = if given { "closed" } else { "never given" };
    see(seen, format!("{name} of a serial {why}"));
}

fn count_read(seen: &mut Seen, moment: &Moment, room: usize) {
    if moment.told("stop") == Some("FULL") {
        let left = room / 2 - moment.number("records");
        see(seen, format!("read FULL with room for {left}"));
        see(seen, format!("read FULL, odd room: {}", room % 2 == 1));
    }
}

pub fn wanted() -> Vec<String> {
    let mut wanted = Vec::new();
    for room in 0..=15 {
        wanted.push(format!("feed FULL with room for {room}"));
        wanted.push(format!("read FULL with room for {room}"));
    }
    for so in [false, true] {
        wanted.push(format!("read FULL, odd room: {so}"));
        wanted.push(format!("replace over tickets: {so}"));
    }
    for call in ["feed", "close"] {
        wanted.push(format!("{call} of a serial closed"));
        wanted.push(format!("{call} of a serial never given"));
    }
    for state in ["never", "closed", "stale", "open"] {
        wanted.push(format!("state {state}"));
    }
    wanted.push("feed FULL at 0 taken".to_string());
    wanted.push("feed beside 2 tickets".to_string());
    wanted.push("read up to the largest count".to_string());
    wanted.push("read one past the largest count, refused".to_string());
    wanted
}
