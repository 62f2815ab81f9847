//! A small gateway that decides by the gate. Approvals arrive in pieces, several at once, and one
//! that carries a withdrawn case is held. In the middle the list of withdrawn cases is replaced:
//! approvals begun under the old list are stale, at their next piece or at their decision, and are
//! read again from their first byte. A list that is refused stops the office: nothing passes until it
//! is in force, put right.
//!
//! People type the names of cases, and phones rewrite them in capitals, so these are folded: matched in
//! either letter case. In the code of a scan a capital is another letter, so that is exact.
//!
//! It writes what `examples/c/approvals.c` writes.

use sleetbarley::{Entry, Gate, Piece, Refusal, Serial, TagSet, TicketState, Verdict};

/// An approval keeps what it has sent, to be read again under a new list.
struct Approval {
    name: &'static str,
    serial: Serial,
    sent: Vec<u8>,
}

/// The gate, and whether the list in force is the newest; else nothing passes.
struct Office {
    gate: Gate,
    newest: bool,
}

/// Puts a new list of withdrawn cases in force. Where it is refused the gate keeps the old one, which
/// lets through what only the new one has: so the office is stopped until the new one is accepted, put
/// right. No older list is handed in meanwhile.
fn install(office: &mut Office, cases: &[Entry]) {
    office.newest = false;
    match TagSet::new(cases).and_then(|set| office.gate.replace(&set)) {
        Ok(now) => {
            office.newest = true;
            println!("edition {}: {} withdrawn cases", now.edition, now.tags);
        }
        Err(refusal) => {
            let at = match refusal.values()[..] {
                // A fault of the set, which has an entry.
                [entry] => format!(" at entry {entry}"),
                _ => String::new(),
            };
            let number = refusal.number();
            println!("list refused with {number}{at}; nothing passes until it is put right");
        }
    }
}

fn begin(office: &mut Office, name: &'static str) -> Result<Approval, Refusal> {
    let (serial, sent) = (office.gate.begin()?, Vec::new());
    Ok(Approval { name, serial, sent })
}

/// A piece of an approval. One that is stale is given up, and all that was sent is read again.
fn receive(office: &mut Office, one: &mut Approval, piece: &str) -> Result<(), Refusal> {
    one.sent.extend_from_slice(piece.as_bytes());
    match office.gate.piece(one.serial, piece.as_bytes()) {
        Ok(Piece::Read) => Ok(()),
        Ok(Piece::Cut { taken }) => {
            println!("{}: cut after {taken} bytes", one.name);
            Ok(())
        }
        Err(Refusal::Stale { edition }) => {
            println!(
                "{}: stale at a piece, begun under edition {edition}; read again",
                one.name
            );
            let passes = office.gate.decide(one.serial)?.passes();
            assert!(!passes);
            read_again(office, one)
        }
        Err(refusal) => Err(refusal),
    }
}

/// Begins an approval anew, and hands in all that it has sent.
fn read_again(office: &mut Office, one: &mut Approval) -> Result<(), Refusal> {
    one.serial = office.gate.begin()?;
    // Were it cut, the decision would say so.
    office.gate.piece(one.serial, &one.sent).map(|_| ())
}

/// Whether the gate has read as many bytes as were sent, which are what a pass lets through.
fn is_read(office: &Office, one: &Approval) -> bool {
    let state = office.gate.state(one.serial);
    matches!(state, TicketState::Open { taken, .. } if taken as usize == one.sent.len())
}

/// Decides: only a pass lets an approval through. Where the newest list isn't in force it waits, and is
/// decided later.
fn decide(office: &mut Office, one: &mut Approval) -> Result<(), Refusal> {
    let name = one.name;
    if !office.newest {
        println!("{name}: waits, for the newest list isn't in force");
        return Ok(());
    }
    loop {
        let is_read = is_read(office, one);
        match office.gate.decide(one.serial)? {
            Verdict::Pass => {
                assert!(is_read, "another number of bytes was read");
                println!("{name}: passed");
            }
            Verdict::Hold(held) => {
                let cases = held.tags().map(|(_, case)| format!(" {case}"));
                println!("{name}: held for{}", cases.collect::<String>());
            }
            Verdict::Unread => println!("{name}: held, for it was not read whole"),
            Verdict::Stale { edition } => {
                println!(
                    "{name}: stale at its decision, begun under edition {edition}; read again"
                );
                read_again(office, one)?;
                continue;
            }
        }
        return Ok(());
    }
}

fn main() -> Result<(), Refusal> {
    let o = &mut Office {
        gate: Gate::new(),
        newest: false,
    };
    if let Err(refusal) = o.gate.begin() {
        let number = refusal.number();
        println!("without a list, an approval is refused with {number}");
    }
    let [first, second, third, fourth] = ["k-1041", "k-2200", "k-3007", "k-300"].map(Entry::folded);
    let scan = Entry::exact("scan-aZ9");
    install(o, &[first, second, scan]);
    let mut north = begin(o, "north")?;
    let mut south = begin(o, "south")?;
    let mut east = begin(o, "east")?;
    let mut west = begin(o, "west")?;
    receive(o, &mut north, "BATCH 7 AFTER K-10")?;
    receive(o, &mut south, "batch 8 as K-3007")?;
    receive(o, &mut north, "41 WAS REPEATED")?;
    receive(o, &mut east, "batch 9, nothing to say")?;
    receive(o, &mut west, "batch 10 by scan-AZ9")?;
    receive(o, &mut south, ", signed")?;
    decide(o, &mut north)?;
    decide(o, &mut west)?;
    if let Err(refusal) = o.gate.decide(west.serial) {
        let number = refusal.number();
        println!("west: decided again, it is refused with {number}");
    }
    // The newest list, with a folded name twice, and put right. By the list in force south would pass.
    let again = Entry::folded("K-1041");
    install(o, &[first, second, third, fourth, again, scan]);
    decide(o, &mut south)?;
    install(o, &[first, second, third, fourth, scan]);
    decide(o, &mut south)?;
    receive(o, &mut east, ", signed")?;
    decide(o, &mut east)
}
