// All that a run measured, and how to ask for it.
use crate::building::{self, Build};
use crate::calls::{self, Call};
use crate::inputs::Kind;
use crate::plan::Plan;
use crate::reading::{self, Race, Timed};

pub struct Figures {
    pub reading: Vec<Timed>,
    pub building: Vec<Build>,
    pub calls: Vec<Call>,
}

impl Figures {
    /// Measures everything, or says which records or tables differ. A round goes through all there is, so that the rounds of
    /// one figure lie far apart, and what else the machine does for a while spoils few of them; the best round counts.
    pub fn measure(plan: &Plan) -> Result<Figures, String> {
        let mut races = reading::prepared(plan)?;
        let (mut building, mut calls) = (Vec::new(), Vec::new());
        for round in 1..=plan.rounds {
            let round = format!("round {round} of {}", plan.rounds);
            for race in &mut races {
                plan.progress(&format!("{round}: reading, {}", race.title));
                race.run()?;
            }
            plan.progress(&format!("{round}: building, and the desk call by call"));
            keep_best(&mut building, building::measure()?, |build| {
                &mut build.micros
            });
            keep_best(&mut calls, calls::measure(), |call| &mut call.nanos);
        }
        plan.progress("");
        let reading = races.into_iter().flat_map(Race::figures).collect();
        Ok(Figures {
            reading,
            building,
            calls,
        })
    }

    /// The engines in the order of the tables.
    pub fn engines(&self) -> Vec<&'static str> {
        let mut names = Vec::new();
        for timed in &self.reading {
            if !names.contains(&timed.engine) {
                names.push(timed.engine);
            }
        }
        names
    }

    pub fn timed(&self, engine: &str, tags: usize, kind: Kind) -> Option<&Timed> {
        self.reading
            .iter()
            .find(|timed| timed.engine == engine && timed.tags == tags && timed.kind == kind)
    }

    /// How many times as fast as another an engine is.
    pub fn ratio(&self, engine: &str, other: &str, tags: usize, kind: Kind) -> Option<f64> {
        let (own, others) = (
            self.timed(engine, tags, kind)?,
            self.timed(other, tags, kind)?,
        );
        Some(others.best() / own.best())
    }

    /// Microseconds that a builder took.
    pub fn build(&self, builder: &str, set: &str) -> Option<f64> {
        self.building
            .iter()
            .find(|build| build.builder == builder && build.set == set)
            .map(|build| build.micros)
    }

    /// Nanoseconds that a call took.
    pub fn call(&self, name: &str) -> Option<f64> {
        self.calls
            .iter()
            .find(|call| call.call == name)
            .map(|call| call.nanos)
    }
}

/// The lesser of each time so far and that of a new round, which has the same things in the same order.
fn keep_best<T>(best: &mut Vec<T>, round: Vec<T>, time: fn(&mut T) -> &mut f64) {
    if best.is_empty() {
        *best = round;
        return;
    }
    for (so_far, mut now) in best.iter_mut().zip(round) {
        let lesser = time(so_far).min(*time(&mut now));
        *time(so_far) = lesser;
    }
}
