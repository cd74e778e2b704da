//! A sample of what the originals leave, as lines of text, chosen so that every step of each rule is in it.

use std::collections::HashMap;

use cells::notation::write_plan;
use cells::{Cell, Rule};
use model::Step;

use crate::comparison::Comparison;
use crate::exhaustive::{Alphabet, each_plan};
use crate::generator::random_plan;
use crate::rng::Rng;

/// How many lines show the same step, or the same two steps one after another.
const LINES_FOR_EACH: u8 = 2;

/// The most cells of a plan in the sample.
const MOST_CELLS: usize = 10;

/// Something that a line can show: a step, and the one before it. The state of a step counts only by itself: with it every pair
/// would be one of its own.
#[derive(PartialEq, Eq, Hash)]
enum Feature {
    Step(Rule, Step),
    Pair(Rule, (u8, &'static str), (u8, &'static str)),
}

pub struct Recorder<'a, 'b> {
    comparison: &'a Comparison<'b>,
    shown: HashMap<Feature, u8>,
    pub lines: Vec<String>,
}

impl<'a, 'b> Recorder<'a, 'b> {
    pub fn new(comparison: &'a Comparison<'b>) -> Self {
        Self { comparison, shown: HashMap::new(), lines: Vec::new() }
    }

    /// Goes through all short plans, and then through random ones, and keeps the lines that show something new.
    pub fn record(&mut self, rng: &mut Rng, random_plans: usize) {
        let nothing_refused = each_plan::<()>(&Alphabet::rich(), 3, &mut |cells| {
            self.offer(cells);
            Ok(())
        });
        nothing_refused.expect("the visit refuses nothing");
        for _ in 0..random_plans {
            let size = 1 + rng.below(MOST_CELLS);
            self.offer(&random_plan(self.comparison.set(), rng, size));
        }
    }

    /// How many different things the lines show.
    pub fn features(&self) -> usize {
        self.shown.len()
    }

    fn offer(&mut self, plan: &[Cell]) {
        for rule in Rule::ALL {
            let Some((steps, left)) = self.comparison.traced(rule, plan) else { continue };
            let features = features(rule, &steps);
            if features.iter().all(|feature| self.shown.get(feature).is_some_and(|count| *count >= LINES_FOR_EACH)) {
                continue;
            }
            for feature in features {
                let count = self.shown.entry(feature).or_default();
                *count = count.saturating_add(1);
            }
            self.lines.push(format!("{} {} = {}", rule.name(), write_plan(plan), write_plan(&left)));
        }
    }
}

fn features(rule: Rule, steps: &[Step]) -> Vec<Feature> {
    let short = |step: &Step| (step.kind, step.what);
    let pairs = steps.windows(2).map(|pair| Feature::Pair(rule, short(&pair[0]), short(&pair[1])));
    steps.iter().map(|step| Feature::Step(rule, *step)).chain(pairs).collect()
}
