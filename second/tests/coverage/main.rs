//! What the generated scripts of the gate (seeds 1 to 200, 400 calls each)
//! come past: counted call by call on the desk of this program.

mod bitmap;
mod calls;
mod letters;
mod lines;
mod sets;
mod split;
mod tables;

use second::generate::script;
use second::layout::Layout;
use second::replay::Replay;
use second::script::{parse, Call};
use std::collections::BTreeMap;

/// The largest count of bytes taken.
const LARGEST: u64 = 4_294_967_295;

/// How often each thing was seen.
type Seen = BTreeMap<String, u64>;

fn see(seen: &mut Seen, what: impl Into<String>) {
    *seen.entry(what.into()).or_insert(0) += 1;
}

/// A call, what the program held before it and after, and the answer.
struct Moment<'a> {
    call: &'a Call,
    before: &'a Replay,
    after: &'a Replay,
    /// The first line.
    answer: &'a str,
}

impl<'a> Moment<'a> {
    /// The word that follows another in the answer.
    fn told(&self, name: &str) -> Option<&'a str> {
        let mut words = self.answer.split(' ').skip_while(|word| *word != name);
        words.nth(1)
    }

    /// The number that follows a word in the answer; it is there.
    fn number(&self, name: &str) -> usize {
        let word = self.told(name).unwrap_or("");
        let number = word.parse();
        number.unwrap_or_else(|_| panic!("{name} in {}", self.answer))
    }

    /// A refusal's number, if it is one.
    fn refused(&self) -> Option<usize> {
        let word = self.answer.strip_prefix("refused ")?;
        word.split(' ').next()?.parse().ok()
    }

    /// The layout in which the call is to build, if it is.
    fn building(&self) -> Option<Layout> {
        match self.call {
            Call::Build(layout) => Some(*layout),
            Call::Replace => Some(Layout::Split),
            _ => None,
        }
    }

    /// The layout in which the call built, if it did.
    fn built(&self) -> Option<Layout> {
        self.building().filter(|_| self.refused().is_none())
    }
}

/// What all scripts of the gate came past. Two programs run each script, one
/// a call behind, so that the desk before a call can be seen too.
fn seen() -> Seen {
    let mut seen = Seen::new();
    for seed in 1..=200 {
        let (mut before, mut after) = (Replay::new(), Replay::new());
        let (mut built, mut force) = (Layout::Split, letters::Force::default());
        for line in script(seed, 400).split(|byte| *byte == b'\n') {
            let answer = after.line(line);
            let first = answer.first().map_or("", String::as_str);
            lines::count(&mut seen, line, first);
            // A line that is too long is no call, whatever it says.
            if let Some(call) = parse(line).filter(|_| !first.starts_with("line")) {
                let moment = Moment {
                    call: &call,
                    before: &before,
                    after: &after,
                    answer: first,
                };
                calls::count(&mut seen, &moment);
                bitmap::count(&mut seen, &moment, built);
                sets::count(&mut seen, &moment);
                tables::count(&mut seen, &moment);
                split::count(&mut seen, &moment);
                letters::count(&mut seen, &moment, &mut force);
                built = moment.built().unwrap_or(built);
            }
            before.line(line);
        }
    }
    seen
}

#[test]
fn the_scripts_of_the_gate_come_past_every_edge() {
    let seen = seen();
    let wanted = [
        calls::wanted(),
        bitmap::wanted(),
        sets::wanted(),
        tables::wanted(),
        split::wanted(),
        letters::wanted(),
        lines::wanted(),
    ];
    for what in wanted.concat() {
        let times = seen.get(&what).copied().unwrap_or(0);
        println!("{times:7}  {what}");
        assert!(times >= 5, "{what}: {times} times\n{seen:#?}");
    }
    assert!(!seen.contains_key("read up to the largest count, refused"));
}
