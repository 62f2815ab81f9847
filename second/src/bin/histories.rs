//! `histories SEED COUNT [--answers]`: prints random histories of a gate's calls, those of the seeds
//! SEED, SEED + 1, ..; or the answers that they must get.

use second::histories::history;
use std::io::{self, BufWriter, Write};
use std::process::ExitCode;

fn main() -> ExitCode {
    let arguments: Vec<String> = std::env::args().skip(1).collect();
    let words: Vec<&str> = arguments.iter().map(String::as_str).collect();
    let (numbers, answers) = match words.as_slice() {
        [seed, count] => ((seed, count), false),
        [seed, count, "--answers"] => ((seed, count), true),
        _ => return usage(),
    };
    let (Ok(seed), Ok(count)) = (numbers.0.parse(), numbers.1.parse()) else {
        return usage();
    };
    match print(seed, count, answers) {
        Ok(()) => ExitCode::SUCCESS,
        Err(error) => {
            eprintln!("histories: {error}");
            ExitCode::FAILURE
        }
    }
}

fn usage() -> ExitCode {
    eprintln!("usage: histories SEED COUNT [--answers]");
    ExitCode::from(2)
}

fn print(seed: u64, count: u64, answers: bool) -> io::Result<()> {
    let mut output = BufWriter::new(io::stdout().lock());
    for done in 0..count {
        for (call, answer) in history(seed.wrapping_add(done)) {
            match answers {
                true => writeln!(output, "{answer}")?,
                false => writeln!(output, "{call}")?,
            }
        }
    }
    output.flush()
}
