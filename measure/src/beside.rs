// Building by this tree's library and by another's, which are before and now. This program is built over each, and the two take
// turns; builders in Rust and peers, which are the same in both, show how far turns differ by themselves.
use crate::building::{self, Build};
use crate::counts;
use crate::report::by_builder;
use std::collections::HashMap;
use std::env;
use std::path::Path;
use std::process::Command;

const TURNS: usize = 31;

/// What the child does in a turn: a line for each builder and set, with microseconds.
pub fn turn() -> Result<(), String> {
    for Build {
        builder,
        set,
        micros,
    } in building::measure()?
    {
        println!("{builder}\t{set}\t{micros}");
    }
    Ok(())
}

/// Microseconds of a turn, by builder and set.
type Turn = HashMap<(String, String), f64>;

/// A turn of each.
struct Pair {
    before: Turn,
    now: Turn,
}

/// Times and instructions, or why they can't be had. The other program is this one over the library of before.
pub fn page(other: &Path) -> Result<String, String> {
    let own = env::current_exe().map_err(|why| why.to_string())?;
    let names = building::names();
    // first, for without valgrind there is no page
    let counts = by_builder(&names, |builder, set| {
        let before = counts::to_build(other, builder, set, &[])?;
        let now = counts::to_build(&own, builder, set, &[])?;
        Ok(before.zip(now).map_or(String::new(), |(before, now)| {
            let (b, n) = (before / 1000.0, now / 1000.0);
            format!("{b:.0} / {n:.0}: {:.2}", b / n)
        }))
    })?;
    let pairs = pairs(other, &own)?;
    let times = by_builder(&names, |builder, set| {
        Ok(cell(&pairs, builder, set).unwrap_or_default())
    })?;
    let page = format!(
        "Building 16 tags of 32 bytes, before / now: how many times as fast it is now.\n\n\
         Microseconds, by the medians of {TURNS} turns:\n\n{times}\nThousands of instructions:\n\n{counts}"
    );
    print!("{page}");
    Ok(page)
}

fn pairs(before: &Path, now: &Path) -> Result<Vec<Pair>, String> {
    let mut pairs = Vec::new();
    for at in 1..=TURNS {
        eprintln!("turn {at} of {TURNS}");
        // who is first turns too
        let (first, second) = if at % 2 == 0 {
            (now, before)
        } else {
            (before, now)
        };
        let (first, second) = (turn_of(first)?, turn_of(second)?);
        let (before, now) = if at % 2 == 0 {
            (second, first)
        } else {
            (first, second)
        };
        pairs.push(Pair { before, now });
    }
    Ok(pairs)
}

fn turn_of(program: &Path) -> Result<Turn, String> {
    let output = Command::new(program)
        .arg("turn")
        .output()
        .map_err(|why| format!("{} can't be run: {why}", program.display()))?;
    if !output.status.success() {
        return Err(String::from_utf8_lossy(&output.stderr).into_owned());
    }
    let said = String::from_utf8_lossy(&output.stdout);
    said.lines()
        .map(|line| figure(line).ok_or_else(|| format!("no figure: {line}")))
        .collect()
}

fn figure(line: &str) -> Option<((String, String), f64)> {
    let mut parts = line.split('\t');
    let (builder, set) = (parts.next()?.to_string(), parts.next()?.to_string());
    Some(((builder, set), parts.next()?.parse().ok()?))
}

/// The medians of before and now, and of how many times as fast it is in each pair of turns.
fn cell(pairs: &[Pair], builder: &str, set: &str) -> Option<String> {
    let key = (builder.to_string(), set.to_string());
    let each = |time: &dyn Fn(f64, f64) -> f64| {
        let times = pairs
            .iter()
            .map(|pair| Some(time(*pair.before.get(&key)?, *pair.now.get(&key)?)));
        times.collect::<Option<Vec<f64>>>().map(median)
    };
    let (before, now) = (each(&|before, _| before)?, each(&|_, now| now)?);
    let times = each(&|before, now| before / now)?;
    Some(format!("{before:.1} / {now:.1}: {times:.2}"))
}

fn median(mut all: Vec<f64>) -> f64 {
    all.sort_by(f64::total_cmp);
    all[all.len() / 2]
}
