//! `fuzz PROGRAM`: changes scripts at random, runs each through another replay
//! program and this one, and says where their answers differ.
//!
//! It begins with generated scripts. A mutant that draws a pair of answers, one
//! after the other, that none drew before is kept, and changed further.

use second::differ::{answers, difference, Answer};
use second::generate::script;
use second::mutate::mutant;
use second::report::report;
use second::rng::Rng;
use second::tally::kind_of;
use std::collections::HashSet;
use std::io;
use std::path::PathBuf;
use std::process::ExitCode;
use std::time::{Duration, Instant};

const USAGE: &str = "usage: fuzz PROGRAM [--seed S] [--seconds T] [--scripts N]";

/// What is asked for on the command line.
struct Asked {
    program: PathBuf,
    seed: u64,
    seconds: u64,
    scripts: u64,
}

/// The scripts that are changed, and what they drew.
struct Kept {
    scripts: Vec<Vec<u8>>,
    pairs: HashSet<(String, String)>,
}

fn main() -> ExitCode {
    let Some(asked) = asked(std::env::args().skip(1)) else {
        eprintln!("{USAGE}");
        return ExitCode::from(2);
    };
    match fuzz(&asked) {
        Ok(true) => ExitCode::SUCCESS,
        Ok(false) => ExitCode::from(1),
        Err(error) => {
            eprintln!("fuzz: {error}");
            ExitCode::from(2)
        }
    }
}

/// Reads the command line; nothing where it is not as the usage says.
fn asked(mut arguments: impl Iterator<Item = String>) -> Option<Asked> {
    let mut asked = Asked {
        program: arguments.next().filter(|a| !a.starts_with("--"))?.into(),
        seed: 1,
        seconds: 60,
        scripts: u64::MAX,
    };
    while let Some(argument) = arguments.next() {
        let value = arguments.next()?.parse().ok()?;
        match argument.as_str() {
            "--seed" => asked.seed = value,
            "--seconds" => asked.seconds = value,
            "--scripts" => asked.scripts = value,
            _ => return None,
        }
    }
    Some(asked)
}

/// Runs mutant after mutant, until the time or the number is reached; true
/// where none differs.
fn fuzz(asked: &Asked) -> io::Result<bool> {
    let mut rng = Rng::new(asked.seed);
    let mut kept = Kept::new(asked.seed);
    let (begun, mut shown) = (Instant::now(), Instant::now());
    let (mut done, mut lines) = (0, 0);
    while done < asked.scripts && begun.elapsed() < Duration::from_secs(asked.seconds) {
        let mutant = kept.next(&mut rng);
        let answers = answers(&mutant);
        if let Some(found) = difference(&asked.program, &mutant, &answers)? {
            println!("difference: fuzz seed {}, script {done}", asked.seed);
            let name = format!("fuzzed-{}-{done}.txt", asked.seed);
            report(&asked.program, &name, &mutant, &found)?;
            return Ok(false);
        }
        done += 1;
        lines += answers.len();
        kept.keep_if_new(mutant, &answers);
        if shown.elapsed() >= Duration::from_secs(10) {
            eprintln!("{done} scripts, {lines} answers, {kept}");
            shown = Instant::now();
        }
    }
    println!("fuzzed {done} scripts, {lines} answers, {kept}; 0 differences");
    Ok(true)
}

impl Kept {
    /// Begins with some generated scripts, short and long.
    fn new(seed: u64) -> Kept {
        let scripts = (0..24).map(|i| script(seed.wrapping_add(i), 20 << (i % 4)));
        Kept {
            scripts: scripts.collect(),
            pairs: HashSet::new(),
        }
    }

    /// A changed script; the newest are changed most often.
    fn next(&self, rng: &mut Rng) -> Vec<u8> {
        let newest = self.scripts.len().saturating_sub(40);
        let at = match rng.once_in(2) {
            true => rng.between(newest, self.scripts.len() - 1),
            false => rng.below(self.scripts.len()),
        };
        let other = rng.below(self.scripts.len());
        mutant(rng, &self.scripts[at], &self.scripts[other])
    }

    fn keep_if_new(&mut self, mutant: Vec<u8>, answers: &[Answer]) {
        let kinds: Vec<String> = answers.iter().map(|a| kind_of(&a.text)).collect();
        let before = self.pairs.len();
        for pair in kinds.windows(2) {
            self.pairs.insert((pair[0].clone(), pair[1].clone()));
        }
        if self.pairs.len() > before {
            self.scripts.push(mutant);
        }
    }
}

impl std::fmt::Display for Kept {
    fn fmt(&self, f: &mut std::fmt::Formatter) -> std::fmt::Result {
        let (scripts, pairs) = (self.scripts.len(), self.pairs.len());
        write!(f, "{scripts} scripts kept for {pairs} pairs of answers")
    }
}
