// Building timed: tables of 16 tags of 32 bytes, ours and others'.
use crate::exports::{self, Image};
use crate::map_tree;
use crate::ours::{self, set_of, SplitTables};
use crate::random::Random;
use crate::tags::{any_folded, exact, half_folded, Tag};
use crate::timing::best_of;
use crate::tree::{self, Vectors};
use std::hint::black_box;

pub const SPLIT_OURS: &str = "split, ours";
pub const REPLACING: &str = "split, ours, by the desk's replace";
pub const SPLIT_LINKS: &str = "split, Rust by tree and links";
pub const SPLIT_TEST: &str = "split, Rust with the test";
pub const WHOLE_OURS: &str = "whole-byte, ours";
pub const WHOLE_LINKS: &str = "whole-byte, Rust by tree and links";
pub const WHOLE_TEST: &str = "whole-byte, Rust with the test";
pub const BITMAP_OURS: &str = "bitmap, ours";
pub const BITMAP_RUST: &str = "bitmap, Rust in place";
pub const NEEDED: &str = "slots needed, ours";
pub const DFA_BUILD: &str = "aho-corasick DFA";
#[cfg(hyperscan)]
pub const HYPERSCAN_COMPILE: &str = "Hyperscan, streaming";

/// Microseconds that a builder took for a set.
pub struct Build {
    pub builder: &'static str,
    pub set: &'static str,
    pub micros: f64,
}

/// 16 exact tags of 32 bytes each: any bytes; letters; letters of which the first 24 are the same in all.
pub fn sets() -> Vec<(&'static str, Vec<Tag>)> {
    let mut random = Random::new(16);
    let front = letters(&mut random, 24);
    vec![
        ("random", exact((0..16).map(|_| random.bytes(32)))),
        ("letters", exact((0..16).map(|_| letters(&mut random, 32)))),
        (
            "shared front",
            exact((0..16).map(|_| [front.clone(), letters(&mut random, 8)].concat())),
        ),
    ]
}

/// These, and the second once more with every second tag folded.
pub fn all_sets() -> Vec<(&'static str, Vec<Tag>)> {
    let mut sets = sets();
    let letters = sets[1].1.clone();
    sets.push(("letters of both kinds", half_folded(letters)));
    sets
}

fn letters(random: &mut Random, n: usize) -> Vec<u8> {
    (0..n).map(|_| b'a' + random.below(26) as u8).collect()
}

/// All figures of building, or the builders that leave different numbers.
pub fn measure() -> Result<Vec<Build>, String> {
    let mut builds = Vec::new();
    for (set, tags) in all_sets() {
        builds.extend(measure_set(set, &tags)?);
    }
    Ok(builds)
}

fn measure_set(set: &'static str, tags: &[Tag]) -> Result<Vec<Build>, String> {
    same_split(set, tags)?;
    if !any_folded(tags) {
        same_of_one_machine(set, tags)?;
    }
    let build = |builder: Builder| Build {
        builder: builder.name,
        set,
        micros: best_of(builder.build) / 1000.0,
    };
    Ok(builders(tags).into_iter().map(build).collect())
}

/// A builder's name, and one building by it.
struct Builder<'t> {
    name: &'static str,
    build: Box<dyn FnMut() + 't>,
}

fn builder<'t, T>(name: &'static str, mut build: impl FnMut() -> T + 't) -> Builder<'t> {
    // what was built is looked at, so that building it is not left out
    let build = Box::new(move || {
        black_box(build());
    });
    Builder { name, build }
}

/// All that build tables of these tags, in the order of the table.
fn builders(tags: &[Tag]) -> Vec<Builder<'_>> {
    let mut all = split_builders(tags);
    if !any_folded(tags) {
        all.extend(builders_of_one_machine(tags));
    }
    let set = set_of(tags);
    all.push(builder(NEEDED, move || exports::slots_needed(&set)));
    #[cfg(aho_corasick)]
    all.push(builder(DFA_BUILD, || crate::aho_corasick_peer::build(tags)));
    #[cfg(hyperscan)]
    if crate::hyperscan_peer::runs_here() {
        all.push(builder(HYPERSCAN_COMPILE, || {
            crate::hyperscan_peer::Database::compile(tags)
        }));
    }
    all
}

/// Our builder of the two split tables, alone and at the desk, and its shapes in Rust.
fn split_builders(tags: &[Tag]) -> Vec<Builder<'_>> {
    let (set, at_the_desk) = (set_of(tags), set_of(tags));
    let room = || SplitTables::room_for(&set);
    let (mut ours, mut by_test, mut by_links) = (room(), room(), room());
    let (mut desk, mut lent) = (Image::new(), room());
    vec![
        builder(SPLIT_OURS, move || {
            exports::build_split(&set, &mut ours.first, &mut ours.second)
        }),
        builder(REPLACING, move || {
            desk.replace(&at_the_desk, &mut lent.first, &mut lent.second)
        }),
        builder(SPLIT_TEST, move || {
            tree::build_split(tags, Vectors::ByTest, &mut by_test)
        }),
        builder(SPLIT_LINKS, move || {
            tree::build_split(tags, Vectors::ByLinks, &mut by_links)
        }),
    ]
}

/// The same of the tables of one machine, which take exact tags alone.
fn builders_of_one_machine(tags: &[Tag]) -> Vec<Builder<'_>> {
    let (set, of_bitmap) = (set_of(tags), set_of(tags));
    let [mut ours, mut by_test, mut by_links] = [(); 3].map(|()| ours::whole_table(tags));
    let [mut bitmap, mut in_place] = [(); 2].map(|()| ours::bitmap_table(tags));
    vec![
        builder(WHOLE_OURS, move || exports::build_whole(&set, &mut ours)),
        builder(WHOLE_TEST, move || {
            tree::build_whole(tags, Vectors::ByTest, &mut by_test)
        }),
        builder(WHOLE_LINKS, move || {
            tree::build_whole(tags, Vectors::ByLinks, &mut by_links)
        }),
        builder(BITMAP_OURS, move || {
            exports::build_bitmap(&of_bitmap, &mut bitmap)
        }),
        builder(BITMAP_RUST, move || map_tree::build(tags, &mut in_place)),
    ]
}

/// All builders by name: a set of exact tags has them all.
pub fn names() -> Vec<&'static str> {
    let sets = sets();
    let all = builders(&sets[0].1);
    all.iter().map(|builder| builder.name).collect()
}

/// Whether a builder takes a set's tags.
pub fn takes(builder: &str, set: &str) -> bool {
    let sets = all_sets();
    let mut named = sets.iter().filter(|(name, _)| *name == set);
    named.any(|(_, tags)| builders(tags).iter().any(|one| one.name == builder))
}

/// What the child does whose instructions are counted: a builder builds a set so many times.
pub fn repeat(builder: &str, set: &str, times: &str) -> Result<(), String> {
    let times: usize = times.parse().map_err(|_| "no number of times")?;
    let sets = all_sets();
    let (_, tags) = sets
        .iter()
        .find(|(name, _)| *name == set)
        .ok_or("no such set")?;
    let mut all = builders(tags).into_iter();
    let mut found = all
        .find(|one| one.name == builder)
        .ok_or("no such builder")?;
    (0..times).for_each(|_| (found.build)());
    Ok(())
}

/// Holds our split tables against those of the builders in Rust, number by number.
fn same_split(set: &str, tags: &[Tag]) -> Result<(), String> {
    let ours = SplitTables::built(tags);
    for vectors in [Vectors::ByLinks, Vectors::ByTest] {
        let mut other = SplitTables::room_for(&set_of(tags));
        let built = tree::build_split(tags, vectors, &mut other);
        assert!(built, "slots enough");
        same(&format!("first table, {set}"), &ours.first, &other.first)?;
        same(&format!("second table, {set}"), &ours.second, &other.second)?;
    }
    Ok(())
}

/// The same of the tables of one machine.
fn same_of_one_machine(set: &str, tags: &[Tag]) -> Result<(), String> {
    let (whole, bitmap) = (ours::whole_table(tags), ours::bitmap_table(tags));
    for vectors in [Vectors::ByLinks, Vectors::ByTest] {
        let mut other = vec![0; whole.len()];
        let built = tree::build_whole(tags, vectors, &mut other);
        assert!(built, "slots enough");
        same(&format!("whole-byte table, {set}"), &whole, &other)?;
    }
    let mut other = vec![0; bitmap.len()];
    map_tree::build(tags, &mut other);
    same(&format!("bitmap table, {set}"), &bitmap, &other)
}

fn same(what: &str, ours: &[u16], other: &[u16]) -> Result<(), String> {
    match (0..ours.len()).find(|i| ours[*i] != other[*i]) {
        None => Ok(()),
        Some(i) => Err(format!(
            "{what}: number {i} is {} for us and {} for the builder in Rust",
            ours[i], other[i]
        )),
    }
}
