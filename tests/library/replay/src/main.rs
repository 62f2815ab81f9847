//! `library-replay`: runs a replay script from standard input over the Rust crate.

use library_replay::Replay;
use second::replay::next_line;
use std::io::{self, Write};

fn main() -> io::Result<()> {
    let mut input = io::stdin().lock();
    let mut output = io::BufWriter::new(io::stdout().lock());
    let (mut replay, mut line) = (Replay::default(), Vec::new());
    while next_line(&mut input, &mut line)? {
        for answer in replay.line(&line) {
            writeln!(output, "{answer}")?;
        }
    }
    output.flush()
}
