// What a run is asked to do, and on what machine.
use std::env::consts::ARCH;
use std::fs;
use std::io::{self, IsTerminal, Write};
use std::thread;

/// What an engine does wrongly.
#[derive(Clone, Copy)]
pub enum Wrong {
    /// It forgets the pieces before.
    Pieces,
    /// It takes every tag as exact.
    Kinds,
}

pub struct Plan {
    /// Bytes of each input.
    pub size: usize,
    pub rounds: usize,
    /// Whether figures are judged: not where the input is too short for them.
    pub judged: bool,
    /// An engine among them that the check of the records must find out.
    pub wrong_engine: Option<Wrong>,
    pub machine: String,
}

impl Plan {
    pub fn full() -> Plan {
        Plan {
            size: 16 << 20,
            rounds: 12,
            judged: true,
            wrong_engine: None,
            machine: machine(),
        }
    }

    /// All that is checked, on short inputs.
    pub fn quick() -> Plan {
        Plan {
            size: 1 << 18,
            rounds: 1,
            judged: false,
            wrong_engine: None,
            machine: machine(),
        }
    }

    /// Says on standard error what is being done: over the line before on a terminal, else in a line of its own.
    pub fn progress(&self, doing: &str) {
        if io::stderr().is_terminal() {
            eprint!("\r\x1b[K{doing}");
            let _ = io::stderr().flush();
        } else if !doing.is_empty() {
            eprintln!("{doing}");
        }
    }
}

/// The processor, how many of it, and how busy they are.
fn machine() -> String {
    let info = fs::read_to_string("/proc/cpuinfo").unwrap_or_default();
    let model = info
        .lines()
        .find_map(|line| line.strip_prefix("model name"))
        .map_or(format!("{ARCH} of unknown model"), |model| {
            model.trim_start_matches([' ', '\t', ':']).to_string()
        });
    let cores = thread::available_parallelism().map_or(1, usize::from);
    let load = fs::read_to_string("/proc/loadavg").unwrap_or_default();
    let load = load.split(' ').next().unwrap_or("unknown");
    format!("{model}, {cores} cores, load {load} at the start")
}
