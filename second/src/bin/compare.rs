//! `compare PROGRAM`: compares another replay program with this one, script
//! after script; or shrinks a script on which they differ.

use second::differ::{answers, difference};
use second::generate::script;
use second::report::{report, told};
use second::shrink::shrink;
use second::tally::Tally;
use std::io::{self, Write};
use std::path::{Path, PathBuf};
use std::process::ExitCode;
use std::time::{Duration, Instant};

const USAGE: &str = "usage: compare PROGRAM [--seed S] [--scripts N] [--calls C]
       compare PROGRAM --shrink FILE";

/// What is asked for on the command line.
struct Asked {
    program: PathBuf,
    seed: u64,
    scripts: u64,
    calls: usize,
    shrink: Option<PathBuf>,
}

fn main() -> ExitCode {
    let Some(asked) = asked(std::env::args().skip(1)) else {
        eprintln!("{USAGE}");
        return ExitCode::from(2);
    };
    let done = match &asked.shrink {
        Some(file) => shrink_file(&asked.program, file),
        None => compare(&asked),
    };
    match done {
        Ok(true) => ExitCode::SUCCESS,
        Ok(false) => ExitCode::from(1),
        Err(error) => {
            eprintln!("compare: {error}");
            ExitCode::from(2)
        }
    }
}

/// Reads the command line; nothing where it is not as the usage says.
fn asked(mut arguments: impl Iterator<Item = String>) -> Option<Asked> {
    let mut asked = Asked {
        program: arguments.next().filter(|a| !a.starts_with("--"))?.into(),
        seed: 1,
        scripts: 200,
        calls: 400,
        shrink: None,
    };
    while let Some(argument) = arguments.next() {
        let value = arguments.next()?;
        match argument.as_str() {
            "--seed" => asked.seed = value.parse().ok()?,
            "--scripts" => asked.scripts = value.parse().ok()?,
            "--calls" => asked.calls = value.parse().ok()?,
            "--shrink" => asked.shrink = Some(value.into()),
            _ => return None,
        }
    }
    Some(asked)
}

/// Compares script after script; true where none differs. Script i has the
/// seed S + i, so that one script can be had again by its own seed.
fn compare(asked: &Asked) -> io::Result<bool> {
    let mut tally = Tally::default();
    let mut calls = 0;
    let mut shown = Instant::now();
    for done in 0..asked.scripts {
        let seed = asked.seed.wrapping_add(done);
        let script = script(seed, asked.calls);
        let answers = answers(&script);
        if let Some(found) = difference(&asked.program, &script, &answers)? {
            println!("difference: seed {seed}, calls {}", asked.calls);
            let name = format!("difference-{seed}.txt");
            report(&asked.program, &name, &script, &found)?;
            return Ok(false);
        }
        let mut last = 0;
        for answer in &answers {
            tally.count(&answer.text);
            calls += u64::from(answer.line != last);
            last = answer.line;
        }
        if shown.elapsed() >= Duration::from_secs(2) {
            eprintln!("compared {} of {} scripts", done + 1, asked.scripts);
            shown = Instant::now();
        }
    }
    let scripts = asked.scripts;
    println!("compared {scripts} scripts, {calls} calls; {tally}; 0 differences");
    Ok(true)
}

/// Prints the shortest script found that still differs, then the difference on
/// standard error; true where the script doesn't differ at all.
fn shrink_file(program: &Path, file: &Path) -> io::Result<bool> {
    let script = std::fs::read(file)?;
    if difference(program, &script, &answers(&script))?.is_none() {
        println!("0 differences");
        return Ok(true);
    }
    let mut trials = 0u64;
    let mut shown = Instant::now();
    let shortest = shrink(&script, &mut |shorter| {
        trials += 1;
        if shown.elapsed() >= Duration::from_secs(2) {
            eprintln!("tried {trials} scripts, now {} bytes", shorter.len());
            shown = Instant::now();
        }
        matches!(difference(program, shorter, &answers(shorter)), Ok(Some(_)))
    });
    let mut output = io::stdout().lock();
    output.write_all(&shortest)?;
    if !shortest.ends_with(b"\n") {
        output.write_all(b"\n")?;
    }
    drop(output);
    if let Some(found) = difference(program, &shortest, &answers(&shortest))? {
        eprintln!("{}", told(&found));
    }
    Ok(false)
}
