// Instructions and loads, counted by valgrind's callgrind: for reading a byte, an input read twice less the same read once; for
// building a set, the same of tables built.
use crate::building::{self, SPLIT_OURS, WHOLE_OURS};
use crate::engine::{read_all, Out};
use crate::engines::{self, Maker};
use crate::inputs::{self, Kind, WITH_FEW_MATCHES};
use crate::report::{by_builder, head, row};
use std::env;
use std::path::Path;
use std::process::Command;

const BYTES: usize = 256 * 1024;
const TAGS: usize = 16;

/// What the child does that is counted: an engine reads an input so many times.
pub fn walk(engine: &str, kind: &str, passes: &str) -> Result<(), String> {
    let maker = engines::all()
        .into_iter()
        .find(|maker| maker.name == engine)
        .ok_or("no such engine")?;
    let kind = Kind::by_name(kind).ok_or("no such input")?;
    let passes: usize = passes.parse().map_err(|_| "no number of passes")?;
    let case = inputs::case(kind, TAGS, BYTES);
    let mut engine = (maker.make)(&case.tags);
    for _ in 0..passes {
        read_all(engine.as_mut(), &case.input, &mut Out::counting());
    }
    Ok(())
}

struct Counted {
    instructions: f64,
    loads: f64,
}

/// Both tables, or why they can't be had.
pub fn page() -> Result<String, String> {
    let own = env::current_exe().map_err(|why| why.to_string())?;
    let (reading, building) = (reading(&own)?, building(&own)?);
    Ok(format!(
        "Instructions / loads a byte, 16 tags.\n\n{reading}\nThousands of instructions to build 16 tags of 32 bytes.\n\n{building}"
    ))
}

/// A row for each engine, a column for each input with few matches.
fn reading(program: &Path) -> Result<String, String> {
    let mut titles = vec!["engine"];
    titles.extend(WITH_FEW_MATCHES.iter().map(|kind| kind.name()));
    let mut table = head(&titles);
    for maker in engines::all() {
        eprintln!("counting: {}", maker.name);
        table += &row(reading_row(program, &maker)?);
    }
    Ok(table)
}

fn reading_row(program: &Path, maker: &Maker) -> Result<Vec<String>, String> {
    let mut cells = vec![maker.name.to_string()];
    for kind in WITH_FEW_MATCHES {
        let pass = once_more(program, &["walk", maker.name, kind.name()], &[])?;
        let a_byte = |count: f64| count / BYTES as f64;
        cells.push(format!(
            "{:.1} / {:.1}",
            a_byte(pass.instructions),
            a_byte(pass.loads)
        ));
    }
    Ok(cells)
}

/// The same of each builder and set, in thousands of instructions, empty where the builder takes no folded tags.
fn building(program: &Path) -> Result<String, String> {
    let thousands =
        |count: Option<f64>| count.map_or(String::new(), |n| format!("{:.0}", n / 1000.0));
    by_builder(&building::names(), |builder, set| {
        to_build(program, builder, set, &[]).map(thousands)
    })
}

/// What a function takes of building split and whole-byte tables. Its library must keep it apart.
pub fn shares(function: &str) -> Result<String, String> {
    let own = env::current_exe().map_err(|why| why.to_string())?;
    let within = format!("--toggle-collect={function}");
    let table = by_builder(&[SPLIT_OURS, WHOLE_OURS], |builder, set| {
        let all = to_build(&own, builder, set, &[])?;
        let its = to_build(&own, builder, set, &[&within])?;
        let share = |(its, all): (f64, f64)| {
            format!(
                "{:.0} of {:.0}: {:.1} %",
                its / 1000.0,
                all / 1000.0,
                its * 100.0 / all
            )
        };
        Ok(its.zip(all).map_or(String::new(), share))
    })?;
    let page =
        format!("Thousands of instructions of {function} to build 16 tags of 32 bytes, of all in a library that keeps it apart \
         from its callers; as it stands the library may take fewer.\n\n{table}");
    print!("{page}");
    Ok(page)
}

/// The instructions that a builder of this program takes for a set, if it takes such tags.
pub fn to_build(
    program: &Path,
    builder: &str,
    set: &str,
    options: &[&str],
) -> Result<Option<f64>, String> {
    if !building::takes(builder, set) {
        return Ok(None);
    }
    eprintln!("counting: {builder}, {set}");
    let counted = once_more(program, &["build", builder, set], options)?;
    Ok(Some(counted.instructions))
}

/// What the second of two times costs.
fn once_more(program: &Path, words: &[&str], options: &[&str]) -> Result<Counted, String> {
    let count = |times| count(program, words, times, options);
    let (once, twice) = (count("1")?, count("2")?);
    Ok(Counted {
        instructions: twice.instructions - once.instructions,
        loads: twice.loads - once.loads,
    })
}

fn count(program: &Path, words: &[&str], times: &str, options: &[&str]) -> Result<Counted, String> {
    let output = Command::new("valgrind")
        .args([
            "--tool=callgrind",
            "--cache-sim=yes",
            "--callgrind-out-file=/dev/null",
        ])
        .args(options)
        .arg(program)
        .args(words)
        .arg(times)
        .output()
        .map_err(|why| format!("valgrind (Debian: valgrind) can't be run: {why}"))?;
    let said = String::from_utf8_lossy(&output.stderr);
    counted(&said)
        .filter(|_| output.status.success())
        .ok_or_else(|| format!("valgrind gave no counts for {words:?}:\n{said}"))
}

/// The line 'Collected : Ir Dr Dw ..'.
fn counted(said: &str) -> Option<Counted> {
    let line = said
        .lines()
        .find_map(|line| line.split_once("Collected :"))?
        .1;
    let mut numbers = line.split_whitespace().map_while(|word| word.parse().ok());
    Some(Counted {
        instructions: numbers.next()?,
        loads: numbers.next()?,
    })
}
