//! `script SEED CALLS`: prints the script of a seed.

use std::io::{self, Write};
use std::process::ExitCode;

fn main() -> ExitCode {
    let arguments: Vec<String> = std::env::args().skip(1).collect();
    let numbers = match arguments.as_slice() {
        [seed, calls] => seed.parse().ok().zip(calls.parse().ok()),
        _ => None,
    };
    let Some((seed, calls)) = numbers else {
        eprintln!("usage: script SEED CALLS");
        return ExitCode::from(2);
    };
    let script = second::generate::script(seed, calls);
    match io::stdout().lock().write_all(&script) {
        Ok(()) => ExitCode::SUCCESS,
        Err(_) => ExitCode::FAILURE,
    }
}
