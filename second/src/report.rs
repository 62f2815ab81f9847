//! Telling a difference, and keeping the script that shows it.

use crate::differ::Difference;
use std::io;
use std::path::Path;

/// The line of the script and both answers.
pub fn told(found: &Difference) -> String {
    let (line, call) = (found.line, &found.call);
    let (second, other) = (&found.second, &found.other);
    format!("line {line}: {call}\nsecond:  {second}\nprogram: {other}")
}

/// Says what differs, keeps the script in the current folder as `name`, and
/// gives the command that shrinks it, with `compare` from beside this program.
pub fn report(program: &Path, name: &str, script: &[u8], found: &Difference) -> io::Result<()> {
    let file = std::env::current_dir()?.join(name);
    std::fs::write(&file, script)?;
    let compare = std::env::current_exe()?.with_file_name("compare");
    let (compare, file, program) = (compare.display(), file.display(), program.display());
    println!("{}", told(found));
    println!("script: {file}");
    println!("shrink: {compare} {program} --shrink {file}");
    Ok(())
}
