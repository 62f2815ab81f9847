// Reading timed: every engine over every input.
use crate::agreement::agree;
use crate::engine::{read_all, Engine, Out};
use crate::engines;
use crate::inputs::{self, Case, Kind};
use crate::plan::Plan;
use crate::timing::processor_time;

pub const TAG_COUNTS: [usize; 2] = [4, 16];

/// What one engine took for one input.
pub struct Timed {
    pub engine: &'static str,
    pub tags: usize,
    pub kind: Kind,
    pub bytes: usize,
    pub records: u64,
    /// Nanoseconds a byte, a number for each round.
    pub rounds: Vec<f64>,
}

impl Timed {
    pub fn best(&self) -> f64 {
        self.rounds.iter().copied().fold(f64::INFINITY, f64::min)
    }

    pub fn median(&self) -> f64 {
        let mut sorted = self.rounds.clone();
        sorted.sort_by(f64::total_cmp);
        sorted[sorted.len() / 2]
    }
}

/// Every input with its engines, or what they don't agree on.
pub fn prepared(plan: &Plan) -> Result<Vec<Race>, String> {
    let mut races = Vec::new();
    for tag_count in TAG_COUNTS {
        for kind in inputs::all() {
            let case = inputs::case(kind, tag_count, plan.size);
            races.push(Race::prepared(plan, case)?);
        }
    }
    Ok(races)
}

/// All engines over one input, and what they took so far.
pub struct Race {
    pub title: String,
    case: Case,
    runners: Vec<(Box<dyn Engine>, Timed)>,
}

impl Race {
    /// No engine runs before all have given the same records.
    fn prepared(plan: &Plan, case: Case) -> Result<Race, String> {
        let title = format!("{} tags, {}", case.tags.len(), case.kind.name());
        let mut makers = engines::all_for(&case.tags);
        makers.extend(plan.wrong_engine.map(engines::wrong));
        plan.progress(&format!(
            "do the records of {} engines agree? {title}",
            makers.len()
        ));
        let made = makers
            .iter()
            .map(|maker| (maker.name, (maker.make)(&case.tags)));
        let mut engines: Vec<(&'static str, Box<dyn Engine>)> = made.collect();
        let records = agree(&mut engines, &case).map_err(|why| format!("{title}: {why}"))?;
        let runner = |(name, engine)| (engine, untimed(name, &case, records));
        let runners = engines.into_iter().map(runner).collect();
        Ok(Race {
            title,
            case,
            runners,
        })
    }

    /// Each engine once.
    pub fn run(&mut self) -> Result<(), String> {
        for (engine, figure) in &mut self.runners {
            let mut out = Out::counting();
            let start = processor_time();
            read_all(engine.as_mut(), &self.case.input, &mut out);
            let took = processor_time() - start;
            if out.total != figure.records {
                let (name, first, now) = (figure.engine, figure.records, out.total);
                return Err(format!(
                    "{}: '{name}' gave {first} records, then {now}",
                    self.title
                ));
            }
            figure
                .rounds
                .push(took.as_nanos() as f64 / self.case.input.len() as f64);
        }
        Ok(())
    }

    pub fn figures(self) -> Vec<Timed> {
        self.runners.into_iter().map(|(_, figure)| figure).collect()
    }
}

fn untimed(engine: &'static str, case: &Case, records: u64) -> Timed {
    let (tags, kind, bytes) = (case.tags.len(), case.kind, case.input.len());
    Timed {
        engine,
        tags,
        kind,
        bytes,
        records,
        rounds: Vec::new(),
    }
}
