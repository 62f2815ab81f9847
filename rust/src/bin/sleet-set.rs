//! `sleet-set`: makes the bytes of a set from a text, and lists the set that stands in bytes.

use sleetbarley::{text, TagSet};
use std::ffi::{OsStr, OsString};
use std::fs::{self, File};
use std::io::{self, Read, Write};
use std::path::{Path, PathBuf};
use std::process::ExitCode;

const HELP: &str = r"sleet-set: sets of withdrawn tags, as text and as the bytes that a gate takes

usage: sleet-set make IN.txt OUT.bin    makes a set from a text
       sleet-set list SET.bin           lists a set, as a text that makes the same set
       sleet-set --help | --version

A - stands for standard input or standard output. A set has up to 16 tags, and one at
least; a tag has up to 32 bytes, and one at least. No two of one kind are equal. The
text has one tag a line:

  nothing, or only blanks and tabs       the line is passed over
  # in front                             a remark, passed over
  \~ in front                            a folded tag stands behind it, and is found in
                                         capitals and in small letters (of A to Z); a
                                         tag without it is exact, byte for byte
  \\ \# \n \r \t \xHH                    a byte, by an escape
  any other printable byte of ASCII      itself

A blank at the front or end of a tag is written \x20, and a # behind a blank or \~ as
\#. A plain ~ at the front of a tag is a fault, for it may be meant for \~; where the
tag has it there write \x7e. A \~ within a line is a fault too. A byte of 128 and above
may stand in a remark; in a tag it is written \xHH. Faults in every line are a byte
order mark, and what may be shown as a line's end and is none. Where the text is faulty
nothing is written, and OUT.bin stays as it was.

It ends with 0 where it is done, 1 where the input is at fault or a file can't be
read or written, and 2 where it wasn't called as above.
";

/// A fault of the input or of a file, in words.
struct Fault(String);

fn main() -> ExitCode {
    let arguments: Vec<OsString> = std::env::args_os().skip(1).collect();
    let words: Vec<&OsStr> = arguments.iter().map(OsString::as_os_str).collect();
    let named: Vec<&str> = words
        .iter()
        .map(|word| word.to_str().unwrap_or(""))
        .collect();
    let done = match (named.as_slice(), words.as_slice()) {
        (["--help" | "-h"], _) => say(HELP),
        (["--version"], _) => say(concat!("sleet-set ", env!("CARGO_PKG_VERSION"), "\n")),
        (["make", _, _], [_, text, set]) => make(text, set),
        (["list", _], [_, set]) => list(set),
        _ => {
            eprint!("sleet-set: that isn't how it is called\n\n{HELP}");
            return ExitCode::from(2);
        }
    };
    match done {
        Ok(()) => ExitCode::SUCCESS,
        Err(Fault(words)) => {
            eprintln!("sleet-set: {words}");
            ExitCode::from(1)
        }
    }
}

fn make(from: &OsStr, to: &OsStr) -> Result<(), Fault> {
    let set = text::read(&read(from)?).map_err(|fault| about(from, &fault))?;
    write(to, set.as_bytes()).map_err(|error| about(to, &error))
}

fn list(from: &OsStr) -> Result<(), Fault> {
    let set = TagSet::from_bytes(read(from)?).map_err(|refusal| about(from, &refusal))?;
    say(&text::written(&set))
}

fn say(words: &str) -> Result<(), Fault> {
    let standard = OsStr::new("-");
    write(standard, words.as_bytes()).map_err(|error| about(standard, &error))
}

/// What is wrong with a file, or with what stands in it.
fn about(file: &OsStr, fault: &dyn std::fmt::Display) -> Fault {
    let name = match file == "-" {
        true => "standard input or output".into(),
        false => file.to_string_lossy(),
    };
    Fault(format!("{name}: {fault}"))
}

fn read(file: &OsStr) -> Result<Vec<u8>, Fault> {
    let mut bytes = Vec::new();
    let done = match file == "-" {
        true => io::stdin().lock().read_to_end(&mut bytes),
        false => File::open(file).and_then(|mut opened| opened.read_to_end(&mut bytes)),
    };
    match done {
        Ok(_) => Ok(bytes),
        Err(error) => Err(about(file, &error)),
    }
}

/// A file is written beside its place and then moved there, so that who reads it meanwhile has the
/// old set or the new one: a set that ends after some of its tags would be lawful.
fn write(file: &OsStr, bytes: &[u8]) -> io::Result<()> {
    if file == "-" {
        let mut output = io::stdout().lock();
        output.write_all(bytes)?;
        return output.flush();
    }
    // A link stays, and what it leads to is replaced; what is no file can't be moved to.
    let place = fs::canonicalize(file).unwrap_or_else(|_| PathBuf::from(file));
    if place.exists() && !place.is_file() {
        return fs::write(&place, bytes);
    }
    let mut beside = place.clone().into_os_string();
    beside.push(format!(".{}.new", std::process::id()));
    let beside = PathBuf::from(beside);
    put(&beside, &place, bytes).map_err(|error| {
        // What is left of it is of no use; the fault that counts is the first.
        let _ = fs::remove_file(&beside);
        error
    })
}

fn put(beside: &Path, place: &Path, bytes: &[u8]) -> io::Result<()> {
    let mut new = File::create(beside)?;
    new.write_all(bytes)?;
    new.sync_all()?;
    fs::rename(beside, place)
}
