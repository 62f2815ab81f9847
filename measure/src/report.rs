// The figures as a page of tables, and as lines with commas.
use crate::building;
use crate::engines::{AHO_CORASICK, DIRECT};
use crate::english;
use crate::figures::Figures;
use crate::goals::{goals, Wanted};
use crate::inputs::{self, Kind};
use crate::memory;
use crate::peers;
use crate::plan::Plan;
use crate::reading::TAG_COUNTS;

pub fn page(figures: &Figures, plan: &Plan) -> String {
    let mut page = format!("# Speed\n\n{}\n", facts(plan));
    for tags in TAG_COUNTS {
        page += &format!(
            "\n## Reading, {tags} tags: nanoseconds a byte\n\n{}",
            reading(figures, tags, nanoseconds)
        );
        let base = base(figures);
        let times = |figures: &Figures, engine: &str, tags, kind| {
            Some(format!("{:.2}", figures.ratio(engine, base, tags, kind)?))
        };
        page += &format!(
            "\n## Reading, {tags} tags: times as fast as {base}\n\n{}",
            reading(figures, tags, times)
        );
    }
    page += &format!(
        "\n## Building 16 tags of 32 bytes: microseconds\n\n{}",
        builds(figures)
    );
    page += &format!("\n## Memory of a set: numbers / bytes\n\n{}", needs());
    page += &format!("\n## The desk: nanoseconds a call\n\n{}", calls(figures));
    if plan.judged {
        page += &format!("\n## Goals\n\n{}", judged(figures));
    }
    page
}

/// The engine that ratios are taken to: the DFA, or the direct comparison where that is missing.
fn base(figures: &Figures) -> &'static str {
    if figures.engines().contains(&AHO_CORASICK) {
        AHO_CORASICK
    } else {
        DIRECT
    }
}

fn facts(plan: &Plan) -> String {
    let size = plan.size as f64 / (1 << 20) as f64;
    let mut facts = format!(
        "{}. Inputs of {size} MiB in pieces of 4,096 bytes, one thread, its own processor time, engines interleaved, \
         the best of {} rounds. \
         All engines gave the same records before they were timed.\n",
        plan.machine, plan.rounds
    );
    for peer in peers::missing() {
        facts += &format!("\nMissing here, and left out: {peer}.\n");
    }
    if !english::is_documented() {
        facts += "\nThere is no documentation here to read: the English text is made up of a few words.\n";
    }
    facts
}

pub fn row(cells: impl IntoIterator<Item = String>) -> String {
    format!(
        "| {} |\n",
        cells.into_iter().collect::<Vec<_>>().join(" | ")
    )
}

pub fn head(cells: &[&str]) -> String {
    let names = row(cells.iter().map(|cell| cell.to_string()));
    let rule = row(cells
        .iter()
        .enumerate()
        .map(|(i, _)| if i == 0 { "---".into() } else { "---:".into() }));
    names + &rule
}

fn nanoseconds(figures: &Figures, engine: &str, tags: usize, kind: Kind) -> Option<String> {
    Some(format!("{:.2}", figures.timed(engine, tags, kind)?.best()))
}

/// A row for each engine, a column for each input, empty where the engine takes no folded tags and the input is one of both kinds;
/// the last row has the matches in a thousand bytes.
fn reading(
    figures: &Figures,
    tags: usize,
    cell: impl Fn(&Figures, &str, usize, Kind) -> Option<String>,
) -> String {
    let mut titles = vec!["engine"];
    titles.extend(inputs::all().map(Kind::name));
    let mut table = head(&titles);
    for engine in figures.engines() {
        let cells = inputs::all().map(|kind| cell(figures, engine, tags, kind).unwrap_or_default());
        table += &row(std::iter::once(engine.to_string()).chain(cells));
    }
    let matches = inputs::all().map(|kind| matches_in_a_thousand(figures, tags, kind));
    table + &row(std::iter::once("*matches in 1,000 bytes*".to_string()).chain(matches))
}

fn matches_in_a_thousand(figures: &Figures, tags: usize, kind: Kind) -> String {
    let timed = figures
        .timed(DIRECT, tags, kind)
        .expect("the direct comparison is always there");
    format!(
        "*{:.2}*",
        timed.records as f64 * 1000.0 / timed.bytes as f64
    )
}

fn builds(figures: &Figures) -> String {
    let micros = |builder: &str, set: &str| Some(format!("{:.1}", figures.build(builder, set)?));
    by_builder(&building::names(), |builder, set| {
        Ok(micros(builder, set).unwrap_or_default())
    })
    .expect("no cell is refused")
}

/// A row for each builder, a column for each set.
pub fn by_builder(
    builders: &[&str],
    mut cell: impl FnMut(&str, &str) -> Result<String, String>,
) -> Result<String, String> {
    let sets: Vec<&str> = building::all_sets().iter().map(|(set, _)| *set).collect();
    let mut table = head(&[&["builder"], sets.as_slice()].concat());
    for builder in builders {
        let cells: Result<Vec<String>, String> =
            sets.iter().map(|set| cell(builder, set)).collect();
        table += &row(std::iter::once(builder.to_string()).chain(cells?));
    }
    Ok(table)
}

/// A row for each layout, and for a peer that tells its heap; a column for each number of tags.
fn needs() -> String {
    let needs = memory::needs();
    let (mut titles, mut named): (Vec<&str>, Vec<&str>) = (vec![""], Vec::new());
    for need in &needs {
        if !titles.contains(&need.tags.as_str()) {
            titles.push(&need.tags);
        }
        if !named.contains(&need.what) {
            named.push(need.what);
        }
    }
    let cell = |what: &str, tags: &str| {
        let need = needs
            .iter()
            .find(|need| need.what == what && need.tags == tags)?;
        Some(match need.numbers {
            Some(numbers) => format!("{numbers} / {}", need.bytes),
            None => format!("{} bytes", need.bytes),
        })
    };
    let mut table = head(&titles);
    for what in named {
        let cells = titles[1..]
            .iter()
            .map(|tags| cell(what, tags).unwrap_or_default());
        table += &row(std::iter::once(what.to_string()).chain(cells));
    }
    table
}

fn calls(figures: &Figures) -> String {
    let rows = figures
        .calls
        .iter()
        .map(|call| row([call.call.to_string(), format!("{:.0}", call.nanos)]));
    head(&["call", "ns"]) + &rows.collect::<String>()
}

fn judged(figures: &Figures) -> String {
    let mut table = head(&["goal", "wanted", "reached", ""]);
    for goal in goals(figures) {
        let wanted = match goal.wanted {
            Wanted::AtLeast(x) => format!("at least {x}"),
            Wanted::AtMost(x) => format!("at most {x}"),
        };
        let reached = goal
            .reached
            .iter()
            .map(|(x, place)| format!("{x:.2} ({place})"));
        let reached = reached.collect::<Vec<_>>().join("; ");
        let verdict = goal.verdict().to_string();
        table += &row([goal.what, wanted, reached, verdict]);
    }
    table
}

/// One line for each figure: what was measured, for what, and the number.
pub fn lines(figures: &Figures) -> String {
    let mut lines = String::from("measured,engine,tags,input,records,unit,best,median\n");
    for timed in &figures.reading {
        let (engine, kind) = (timed.engine.replace(',', ""), timed.kind.name());
        let (records, best, median) = (timed.records, timed.best(), timed.median());
        lines += &format!(
            "reading,{engine},{},{kind},{records},ns/byte,{best:.4},{median:.4}\n",
            timed.tags
        );
    }
    for build in &figures.building {
        lines += &format!(
            "building,{},16,{},,us,{:.3},\n",
            build.builder.replace(',', ""),
            build.set,
            build.micros
        );
    }
    for need in memory::needs() {
        lines += &format!(
            "memory,{},{},,,bytes,{},\n",
            need.what, need.tags, need.bytes
        );
    }
    for call in &figures.calls {
        lines += &format!(
            "call,{},,,,ns,{:.1},\n",
            call.call.replace(',', ""),
            call.nanos
        );
    }
    lines
}
