// What was to be reached, and what was.
use crate::building::{self, BITMAP_OURS, DFA_BUILD, SPLIT_LINKS, SPLIT_OURS, WHOLE_OURS};
use crate::calls::{FEED_4096, FEED_NONE, READ_4096, TAKE_MANY};
use crate::engines::*;
use crate::figures::Figures;
use crate::inputs::{Kind, ALIKE, KINDS, WITH_FEW_MATCHES};
use crate::reading::TAG_COUNTS;

// Whose speed is to be the same on every input, and far above the direct comparison's. The bitmap engine's is not: it has other
// goals, beside whole-byte.
const STEADY: [&str; 3] = [ONE_BIT, WHOLE_BYTE, DESK];

#[derive(Clone, Copy)]
pub enum Wanted {
    AtLeast(f64),
    AtMost(f64),
}

/// A goal and what was reached, with where: nothing where a peer is missing.
pub struct Goal {
    pub what: String,
    pub wanted: Wanted,
    pub reached: Vec<(f64, String)>,
}

impl Goal {
    pub fn verdict(&self) -> &'static str {
        let met = |value: f64| match self.wanted {
            Wanted::AtLeast(least) => value >= least,
            Wanted::AtMost(most) => value <= most,
        };
        match self.reached.iter().filter(|(value, _)| met(*value)).count() {
            _ if self.reached.is_empty() => "not measured",
            n if n == self.reached.len() => "reached",
            0 => "MISSED",
            _ => "MISSED in part",
        }
    }
}

pub fn goals(figures: &Figures) -> Vec<Goal> {
    let mut goals = Vec::new();
    let mut beside = |engine: &str, other: &str, kinds: &[Kind], least: f64| {
        goals.push(beside(figures, engine, other, kinds, least));
    };
    beside(
        WHOLE_BYTE,
        AHO_CORASICK,
        &[Kind::Random, Kind::English],
        0.95,
    );
    beside(WHOLE_BYTE, AHO_CORASICK, &[Kind::Near], 1.2);
    beside(WHOLE_BYTE, AHO_CORASICK, &[Kind::NearRuns], 1.2);
    beside(ONE_BIT, AHO_CORASICK, &[Kind::Random, Kind::English], 0.48);
    beside(ONE_BIT, AHO_CORASICK, &[Kind::Near], 0.6);
    beside(ONE_BIT, AHO_CORASICK, &[Kind::NearRuns], 0.6);
    beside(ONE_BIT, HYPERSCAN, &[Kind::Near], 1.7);
    beside(ONE_BIT, HYPERSCAN, &[Kind::NearRuns], 1.7);
    beside(ONE_BIT, ONE_BIT_PLAIN, &WITH_FEW_MATCHES, 1.8);
    beside(WHOLE_BYTE, WHOLE_BYTE_PLAIN, &WITH_FEW_MATCHES, 1.4);
    beside(ONE_BIT, ONE_BIT_UNCHECKED, &KINDS, 0.95);
    beside(WHOLE_BYTE, WHOLE_BYTE_UNCHECKED, &KINDS, 0.95);
    beside(BITMAP, WHOLE_BYTE, &[Kind::Random, Kind::English], 0.3);
    beside(BITMAP, WHOLE_BYTE, &[Kind::Near], 0.12);
    beside(BITMAP, WHOLE_BYTE, &[Kind::NearRuns], 0.12);
    goals.push(both_kinds(figures));
    goals.extend(STEADY.map(|engine| steadiness(figures, engine)));
    goals.extend(STEADY.map(|engine| beside_direct(figures, engine)));
    goals.extend(building_goals(figures));
    goals.extend(call_goals(figures));
    goals
}

fn names(kinds: &[Kind]) -> String {
    match kinds {
        _ if kinds == KINDS => "all inputs of exact tags".into(),
        _ if kinds == WITH_FEW_MATCHES => "few matches".into(),
        _ => kinds
            .iter()
            .map(|kind| kind.name())
            .collect::<Vec<_>>()
            .join(", "),
    }
}

/// The least ratio to another engine among these inputs, with 4 and with 16 tags.
fn beside(figures: &Figures, engine: &str, other: &str, kinds: &[Kind], least: f64) -> Goal {
    let worst = |tags: &usize| worst_ratio(figures, engine, other, *tags, kinds);
    Goal {
        what: format!("{engine} / {other}: {}", names(kinds)),
        wanted: Wanted::AtLeast(least),
        reached: TAG_COUNTS.iter().filter_map(worst).collect(),
    }
}

fn worst_ratio(
    figures: &Figures,
    engine: &str,
    other: &str,
    tags: usize,
    kinds: &[Kind],
) -> Option<(f64, String)> {
    let ratio = |kind: &Kind| {
        let ratio = figures.ratio(engine, other, tags, *kind)?;
        Some((ratio, format!("{tags} tags, {}", kind.name())))
    };
    kinds
        .iter()
        .filter_map(ratio)
        .min_by(|a, b| a.0.total_cmp(&b.0))
}

/// One-bit over tags of both kinds beside as many exact tags of the same lengths, in an input that is alike: half of the tags stand
/// in each of two tables then, and both are walked.
fn both_kinds(figures: &Figures) -> Goal {
    let ratio = |tags: usize, both: Kind, exact: Kind| {
        let [both_kinds, exact_alone] =
            [both, exact].map(|kind| figures.timed(ONE_BIT, tags, kind));
        let ratio = exact_alone?.best() / both_kinds?.best();
        let place = format!("{tags} tags, {} / {}", both.name(), exact.name());
        Some((ratio, place))
    };
    let worst = |tags: &usize| {
        ALIKE
            .iter()
            .filter_map(|(both, exact)| ratio(*tags, *both, *exact))
            .min_by(|a, b| a.0.total_cmp(&b.0))
    };
    Goal {
        what: format!("{ONE_BIT}: tags of both kinds / exact tags"),
        wanted: Wanted::AtLeast(0.45),
        reached: TAG_COUNTS.iter().filter_map(worst).collect(),
    }
}

fn beside_direct(figures: &Figures, engine: &str) -> Goal {
    Goal {
        what: format!("{engine} / {DIRECT}: 16 tags, few matches"),
        wanted: Wanted::AtLeast(4.0),
        reached: worst_ratio(figures, engine, DIRECT, 16, &WITH_FEW_MATCHES)
            .into_iter()
            .collect(),
    }
}

/// The fastest of the inputs with few matches beside the slowest, within an engine.
fn steadiness(figures: &Figures, engine: &str) -> Goal {
    let spread = |tags: &usize| {
        let times = WITH_FEW_MATCHES
            .iter()
            .filter_map(|kind| figures.timed(engine, *tags, *kind));
        let slowest = times.clone().max_by(|a, b| a.best().total_cmp(&b.best()))?;
        let fastest = times.min_by(|a, b| a.best().total_cmp(&b.best()))?;
        let place = format!("{tags} tags, slowest on {}", slowest.kind.name());
        Some((fastest.best() / slowest.best(), place))
    };
    Goal {
        what: format!("{engine}: slowest input with few matches / fastest"),
        wanted: Wanted::AtLeast(0.9),
        reached: TAG_COUNTS.iter().filter_map(spread).collect(),
    }
}

fn building_goals(figures: &Figures) -> Vec<Goal> {
    let sets: Vec<&str> = building::sets().iter().map(|(set, _)| *set).collect();
    let total = |set: &&str| Some((figures.build(SPLIT_OURS, set)? / 1000.0, set.to_string()));
    let ratio = |builder, other, set: &&str| {
        let ratio = figures.build(builder, set)? / figures.build(other, set)?;
        Some((ratio, set.to_string()))
    };
    let rest = |set: &&str| ratio(SPLIT_LINKS, DFA_BUILD, set);
    let bitmap = |set: &&str| ratio(BITMAP_OURS, WHOLE_OURS, set);
    vec![
        Goal {
            what: "split table of 16 tags of 32 bytes, ms".into(),
            wanted: Wanted::AtMost(5.0),
            reached: sets.iter().filter_map(total).collect(),
        },
        Goal {
            what: format!("what is left of it without the test of ends / build of {DFA_BUILD}"),
            wanted: Wanted::AtMost(0.5),
            reached: sets.iter().filter_map(rest).collect(),
        },
        Goal {
            what: format!("{BITMAP_OURS} / {WHOLE_OURS}: building"),
            wanted: Wanted::AtMost(1.5),
            reached: sets.iter().filter_map(bitmap).collect(),
        },
    ]
}

fn call_goals(figures: &Figures) -> Vec<Goal> {
    let call = |name: &str| figures.call(name).map(|nanos| (nanos, name.to_string()));
    let both = figures.call(FEED_4096).zip(figures.call(READ_4096));
    let beyond = both.map(|(feed, read)| (feed - read, format!("{FEED_4096}, less its reading")));
    vec![
        Goal {
            what: "a feed beyond its bytes, ns".into(),
            wanted: Wanted::AtMost(1000.0),
            reached: beyond.into_iter().chain(call(FEED_NONE)).collect(),
        },
        Goal {
            what: "a record taken, ns".into(),
            wanted: Wanted::AtMost(100.0),
            reached: call(TAKE_MANY).into_iter().collect(),
        },
    ]
}
