//! `second [FILE]`: runs a replay script from the file, or from standard input
//! where none is named, and writes the answers to standard output.

use second::replay::run;
use std::fs::File;
use std::io::{self, BufReader, BufWriter};
use std::process::ExitCode;

fn main() -> ExitCode {
    let named = std::env::args_os().nth(1);
    let output = BufWriter::with_capacity(1 << 16, io::stdout().lock());
    let ended = match &named {
        Some(file) => File::open(file).and_then(|file| run(BufReader::new(file), output)),
        None => run(io::stdin().lock(), output),
    };
    match ended {
        Ok(()) => ExitCode::SUCCESS,
        Err(error) => {
            let name = named.unwrap_or_else(|| "standard input".into());
            eprintln!("second: {}: {error}", name.to_string_lossy());
            ExitCode::FAILURE
        }
    }
}
