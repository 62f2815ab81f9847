//! What several tests share.
#![allow(dead_code)]

pub mod random;
pub mod split;

use second::build::build;
use second::layout::Layout;
use second::reading::{read_outside, Reading, Stop};
use second::refusal::Refusal;
use second::replay::{run, Replay};
use second::set::{write_tags, Tag};
use second::table::Tables;

/// The tags of most samples.
pub const HERS: [&str; 4] = ["he", "she", "his", "hers"];

/// Makes the calls on a new desk; each line must have the answer beside it,
/// several lines of an answer being parted by `|`.
pub fn check(calls: &[(&str, &str)]) {
    let mut replay = Replay::new();
    for (number, (line, answer)) in calls.iter().enumerate() {
        let given = replay.line(line.as_bytes()).join("|");
        assert_eq!(given, *answer, "call {number}: {line}");
    }
}

/// All that the program writes for a script.
pub fn output(script: &[u8]) -> String {
    let mut output = Vec::new();
    run(script, &mut output).expect("memory is read and written");
    String::from_utf8(output).expect("answers are text")
}

/// All of a layout's tables, as they are lent.
pub fn lent(tables: &[Vec<u16>]) -> Vec<&[u16]> {
    tables.iter().map(Vec::as_slice).collect()
}

/// Builds over all of the tables.
pub fn build_in(
    layout: Layout,
    set: &[u8],
    tables: &mut [Vec<u16>],
) -> Result<usize, (u32, Vec<u64>)> {
    let mut lent: Vec<&mut [u16]> = tables.iter_mut().map(Vec::as_mut_slice).collect();
    build(layout, set, &mut lent).map_err(told)
}

/// A refusal's number and values.
pub fn told(refusal: Refusal) -> (u32, Vec<u64>) {
    (refusal.number(), refusal.values())
}

/// A layout's tables of s slots each, built for tags of kind 1.
pub fn tables_of(layout: Layout, tags: &[&str], s: usize) -> Vec<Vec<u16>> {
    let tags: Vec<Tag> = tags.iter().map(|tag| Tag::exact(*tag)).collect();
    tables_of_tags(layout, &tags, &vec![s; layout.tables()])
}

/// A layout's tables, each of so many slots, built for tags.
pub fn tables_of_tags(layout: Layout, tags: &[Tag], slots: &[usize]) -> Vec<Vec<u16>> {
    let table = |s: &usize| vec![0; s * layout.a_slot_each()];
    let mut tables: Vec<Vec<u16>> = slots.iter().map(table).collect();
    assert_eq!(
        build_in(layout, &write_tags(tags), &mut tables),
        Ok(tags.len())
    );
    tables
}

/// Reads from place 0 with room for 512 records; gives the records too.
pub fn read_from_start(
    layout: Layout,
    tables: &[Vec<u16>],
    input: &[u8],
) -> (Reading, Vec<(u32, u32)>) {
    let mut list = [7; 1024];
    let place = vec![0; layout.machines()];
    let lent = lent(tables);
    let tables = Tables::lent(layout, &lent);
    let reading = read_outside(tables, &place, 0, input, &mut list).expect("no refusal");
    let records = list.chunks_exact(2).take(reading.records);
    let records = records.map(|record| (record[0], record[1])).collect();
    (reading, records)
}

/// Every layout.
pub const LAYOUTS: [Layout; 3] = [Layout::Split, Layout::Whole, Layout::Bitmap];

/// The records of an input that is taken whole, the same in every layout.
pub fn records_of(tags: &[&str], input: &str) -> Vec<(u32, u32)> {
    let mut every = Vec::new();
    for layout in LAYOUTS {
        let tables = tables_of(layout, tags, 513);
        let (reading, records) = read_from_start(layout, &tables, input.as_bytes());
        assert_eq!((reading.taken, reading.stop), (input.len(), Stop::All));
        every.push(records);
    }
    every.dedup();
    assert_eq!(every.len(), 1);
    every.remove(0)
}
