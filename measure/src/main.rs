// Sleetbarley's engines measured beside other engines, in one run. ./speed in the repository's folder builds and runs this.
mod agreement;
#[cfg(aho_corasick)]
mod aho_corasick_peer;
mod at_the_gate;
mod beside;
mod building;
mod calls;
mod chart;
mod counts;
mod direct;
mod engine;
mod engines;
mod english;
mod figures;
// The archive's functions over slices, as the Rust crate has them; not all of them are called here.
#[allow(dead_code)]
#[path = "../../rust/src/raw.rs"]
mod exports;
mod goals;
#[cfg(hyperscan)]
mod hyperscan_peer;
mod inputs;
mod map_tree;
mod memory;
mod ours;
mod peers;
mod plain_loop;
mod plan;
mod random;
mod reading;
mod report;
mod same_shape;
mod same_shape_bitmap;
mod same_shape_split;
mod same_shape_steps;
mod same_shape_whole;
mod tags;
mod timing;
mod tree;

use figures::Figures;
use plan::{Plan, Wrong};
use std::env;
use std::fs;
use std::path::Path;
use std::process::ExitCode;

const USAGE: &str = "speed FOLDER: measure all, and write table.md, figures.csv and chart.svg into FOLDER
speed quick FOLDER: check that all engines give the same records, on short inputs, and judge no figure
speed wrong FOLDER: the same with a wrong engine among them, on which it must stop
speed wrong-kind FOLDER: the same with one that is wrong about folded tags alone
speed gate FOLDER: the gate's calls beside the desk's, and write gate.md into FOLDER
speed counts FOLDER: count instructions and loads by valgrind, and write counts.md into FOLDER
speed beside PROGRAM FOLDER: building by this library and by that of PROGRAM, which is this program over another, into beside.md
speed share FUNCTION FOLDER: what a function that the library keeps apart takes of building, by valgrind, into share.md";

fn main() -> ExitCode {
    let words: Vec<String> = env::args().skip(1).collect();
    let words: Vec<&str> = words.iter().map(String::as_str).collect();
    let done = match words[..] {
        ["quick", folder] => measure(&Plan::quick(), Path::new(folder)),
        ["wrong", folder] => measure_with(Wrong::Pieces, Path::new(folder)),
        ["wrong-kind", folder] => measure_with(Wrong::Kinds, Path::new(folder)),
        ["counts", folder] => {
            counts::page().and_then(|table| write(Path::new(folder), "counts.md", &table))
        }
        ["gate", folder] => {
            at_the_gate::table().and_then(|table| write(Path::new(folder), "gate.md", &table))
        }
        ["beside", other, folder] => beside::page(Path::new(other))
            .and_then(|page| write(Path::new(folder), "beside.md", &page)),
        ["share", function, folder] => {
            counts::shares(function).and_then(|page| write(Path::new(folder), "share.md", &page))
        }
        ["walk", engine, kind, passes] => counts::walk(engine, kind, passes),
        ["build", builder, set, times] => building::repeat(builder, set, times),
        ["turn"] => beside::turn(),
        [folder] => measure(&Plan::full(), Path::new(folder)),
        _ => Err(USAGE.to_string()),
    };
    match done {
        Ok(()) => ExitCode::SUCCESS,
        Err(why) => {
            eprintln!("speed: {why}");
            ExitCode::FAILURE
        }
    }
}

/// A quick run with a wrong engine.
fn measure_with(wrong: Wrong, folder: &Path) -> Result<(), String> {
    let plan = Plan {
        wrong_engine: Some(wrong),
        ..Plan::quick()
    };
    measure(&plan, folder)
}

fn measure(plan: &Plan, folder: &Path) -> Result<(), String> {
    peers::missing()
        .iter()
        .for_each(|peer| eprintln!("speed: missing, and left out: {peer}"));
    let figures = Figures::measure(plan)?;
    let page = report::page(&figures, plan);
    println!("{page}");
    write(folder, "table.md", &page)?;
    write(folder, "figures.csv", &report::lines(&figures))?;
    write(folder, "chart.svg", &chart::svg(&figures))
}

fn write(folder: &Path, name: &str, text: &str) -> Result<(), String> {
    let path = folder.join(name);
    let written = fs::create_dir_all(folder).and_then(|()| fs::write(&path, text));
    written.map_err(|why| format!("{} can't be written: {why}", path.display()))?;
    eprintln!("speed: wrote {}", path.display());
    Ok(())
}
