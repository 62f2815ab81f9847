//! Random histories of a gate's calls as text, and their answers.
//!
//! One call a line: `gate` (a new gate), `replace HEX`, `begin`, `piece S HEX`, `decide S`. One
//! answer a line: `gate`, `edition E tags N`, `serial S`, `read` or `cut T`, `pass`, `hold MASKHEX`,
//! `stale E` or `unread`, and `refused N V..`. HEX is lower-case hexadecimal digits, or `-` for no
//! bytes; MASKHEX has no leading zeros. A set is written whole, entry by entry, so that each tag's
//! kind stands there.
//!
//! A history is made from its seed call by call while the plain gate answers, so that the generator
//! knows which approvals there are. `cut` and `unread` want an approval of over four billion bytes,
//! or tables that were written by others, and don't come up here.

mod maker;
mod replacements;

use crate::desk::Serial;
use crate::gate::{Gate, Piece, Verdict};
use crate::refusal::Refusal;
use maker::Maker;
use std::fmt::{self, Display, Formatter};

/// One call of a gate.
#[derive(Clone, Debug, PartialEq, Eq)]
pub enum Call {
    /// The gate is a new one from here on.
    Gate,
    Replace(Vec<u8>),
    Begin,
    Piece(u32, Vec<u8>),
    Decide(u32),
}

impl Display for Call {
    fn fmt(&self, f: &mut Formatter) -> fmt::Result {
        match self {
            Call::Gate => write!(f, "gate"),
            Call::Replace(set) => write!(f, "replace {}", hexadecimal(set)),
            Call::Begin => write!(f, "begin"),
            Call::Piece(serial, piece) => write!(f, "piece {serial} {}", hexadecimal(piece)),
            Call::Decide(serial) => write!(f, "decide {serial}"),
        }
    }
}

fn hexadecimal(bytes: &[u8]) -> String {
    match bytes {
        [] => "-".to_string(),
        _ => bytes.iter().map(|byte| format!("{byte:02x}")).collect(),
    }
}

/// Makes a call on the plain gate; gives its answer's line.
pub fn answer(gate: &mut Gate, call: &Call) -> String {
    told(gate, call).unwrap_or_else(|refusal| {
        let values = refusal.values();
        let values = values.iter().map(|value| format!(" {value}"));
        format!("refused {}{}", refusal.number(), values.collect::<String>())
    })
}

fn told(gate: &mut Gate, call: &Call) -> Result<String, Refusal> {
    Ok(match call {
        Call::Gate => {
            *gate = Gate::new();
            "gate".to_string()
        }
        Call::Replace(set) => {
            let (edition, tags) = gate.replace(set)?;
            format!("edition {} tags {tags}", edition.0)
        }
        Call::Begin => format!("serial {}", gate.begin()?.0),
        Call::Piece(serial, piece) => match gate.piece(Serial(*serial), piece)? {
            Piece::Read => "read".to_string(),
            Piece::Cut(taken) => format!("cut {taken}"),
        },
        Call::Decide(serial) => match gate.decide(Serial(*serial))? {
            Verdict::Pass => "pass".to_string(),
            Verdict::Hold(mask) => format!("hold {mask:x}"),
            Verdict::Stale(edition) => format!("stale {}", edition.0),
            Verdict::Unread => "unread".to_string(),
        },
    })
}

/// The history of a seed: its calls, each with its answer. The first is `gate`.
pub fn history(seed: u64) -> Vec<(Call, String)> {
    Maker::new(seed).made()
}
