//! Makes the calls of histories on standard input on a gate, and writes each answer, for
//! `tests/library.sh`: the same answers as `tests/library/histories.c` and as the second program,
//! whose `histories` makes the histories and describes their lines.

use sleetbarley::{Gate, Piece, Refusal, Serial, Verdict};
use std::io::{self, BufRead, BufWriter, Write};

fn main() -> io::Result<()> {
    let mut gate = Gate::new();
    let mut output = BufWriter::new(io::stdout().lock());
    for line in io::stdin().lock().lines() {
        let line = line?;
        let words: Vec<&str> = line.split(' ').collect();
        match answer(&mut gate, &words) {
            Some(answer) => writeln!(output, "{}", answer.unwrap_or_else(refused))?,
            None => {
                let not_a_call = format!("not a call: {line}");
                return Err(io::Error::new(io::ErrorKind::InvalidData, not_a_call));
            }
        }
    }
    output.flush()
}

/// The answer of a call; nothing where the words are none.
fn answer(gate: &mut Gate, words: &[&str]) -> Option<Result<String, Refusal>> {
    Some(match words {
        ["gate"] => {
            *gate = Gate::new();
            Ok("gate".to_string())
        }
        ["replace", set] => {
            let replaced = gate.replace_bytes(&bytes(set)?);
            replaced.map(|now| format!("edition {} tags {}", now.edition, now.tags))
        }
        ["begin"] => gate.begin().map(|serial| format!("serial {serial}")),
        ["piece", serial, piece] => {
            let said = gate.piece(Serial(serial.parse().ok()?), &bytes(piece)?);
            said.map(|piece| match piece {
                Piece::Read => "read".to_string(),
                Piece::Cut { taken } => format!("cut {taken}"),
            })
        }
        ["decide", serial] => gate.decide(Serial(serial.parse().ok()?)).map(told),
        _ => return None,
    })
}

fn told(verdict: Verdict) -> String {
    match verdict {
        Verdict::Pass => "pass".to_string(),
        Verdict::Hold(held) => format!("hold {:x}", held.mask()),
        Verdict::Stale { edition } => format!("stale {edition}"),
        Verdict::Unread => "unread".to_string(),
    }
}

fn refused(refusal: Refusal) -> String {
    let values = refusal.values();
    let values = values.iter().map(|value| format!(" {value}"));
    format!("refused {}{}", refusal.number(), values.collect::<String>())
}

/// The bytes of an even number of hexadecimal digits, or of `-`, which is none.
fn bytes(word: &str) -> Option<Vec<u8>> {
    if word == "-" {
        return Some(Vec::new());
    }
    let pair = |pair: &[u8]| u8::from_str_radix(std::str::from_utf8(pair).ok()?, 16).ok();
    let whole = word.len() % 2 == 0;
    let pairs = word.as_bytes().chunks(2).map(pair);
    pairs.collect::<Option<Vec<u8>>>().filter(|_| whole)
}
