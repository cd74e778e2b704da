//! One call on both sides.

use std::collections::BTreeMap;
use std::fmt;

use cells::notation::write_plan;
use cells::records::{RECORD, pack, unpack};
use cells::sets::OperatorSet;
use cells::{Cell, Fault, Rule};
use library::Guarded;
use model::{Bounds, Step, Tree, Untraced};
use trees::{Kind20, Originals, Plan, cells_of};

/// A call of the proved library on a packed plan.
pub type Call<'a> = dyn Fn(Rule, &[u8], &mut [u8]) -> i32 + 'a;

/// What a call should do, or did.
#[derive(Clone, PartialEq, Eq)]
pub enum Outcome {
    Granted(Vec<Cell>),
    Refused(Fault),
    /// The answer and the bytes do not go together, or the call wrote where it must not.
    Broken(String),
}

impl fmt::Display for Outcome {
    fn fmt(&self, f: &mut fmt::Formatter<'_>) -> fmt::Result {
        match self {
            Self::Granted(cells) => write!(f, "{}", write_plan(cells)),
            Self::Refused(fault) => write!(f, "refused with {} at {}", fault.number, fault.place),
            Self::Broken(what) => write!(f, "{what}"),
        }
    }
}

/// A call on which the two sides differ.
pub struct Difference {
    pub rule: Rule,
    /// The operator set, where it is not the catalogue.
    pub under: Option<String>,
    pub plan: Vec<u8>,
    pub out_len: usize,
    pub expected: Outcome,
    pub got: Outcome,
}

impl fmt::Display for Difference {
    fn fmt(&self, f: &mut fmt::Formatter<'_>) -> fmt::Result {
        writeln!(f, "difference, {}:", self.rule.name())?;
        match unpack(&self.plan) {
            Ok(cells) => writeln!(f, "  plan      {}", write_plan(&cells))?,
            Err(_) => writeln!(f, "  bytes     {:02x?}", self.plan)?,
        }
        if let Some(set) = &self.under {
            writeln!(f, "  under     {set}")?;
        }
        writeln!(f, "  room      {} bytes for {} bytes", self.out_len, self.plan.len())?;
        writeln!(f, "  expected  {}", self.expected)?;
        write!(f, "  library   {}", self.got)
    }
}

/// What was compared, by rule.
#[derive(Clone, Default)]
pub struct Tally {
    rules: [RuleTally; 3],
}

#[derive(Clone, Default)]
struct RuleTally {
    changed: u64,
    same: u64,
    refused: BTreeMap<u8, u64>,
}

impl Tally {
    fn count(&mut self, rule: Rule, plan: &[Cell], outcome: &Outcome) {
        let tally = &mut self.rules[rule as usize];
        match outcome {
            Outcome::Granted(cells) if cells == plan => tally.same += 1,
            Outcome::Granted(_) => tally.changed += 1,
            Outcome::Refused(fault) => *tally.refused.entry(fault.number).or_default() += 1,
            Outcome::Broken(_) => {}
        }
    }

    pub fn add(&mut self, other: &Self) {
        for (into, from) in self.rules.iter_mut().zip(&other.rules) {
            into.changed += from.changed;
            into.same += from.same;
            for (number, count) in &from.refused {
                *into.refused.entry(*number).or_default() += count;
            }
        }
    }

    pub fn calls(&self) -> u64 {
        self.rules.iter().map(|tally| tally.changed + tally.same + tally.refused.values().sum::<u64>()).sum()
    }
}

impl fmt::Display for Tally {
    fn fmt(&self, f: &mut fmt::Formatter<'_>) -> fmt::Result {
        write!(f, "{} calls compared", self.calls())?;
        for (rule, tally) in Rule::ALL.into_iter().zip(&self.rules) {
            write!(f, "\n  {}: {} changed, {} left as they are", rule.name(), tally.changed, tally.same)?;
            for (number, count) in &tally.refused {
                write!(f, ", {count} refused with {number}")?;
            }
        }
        Ok(())
    }
}

/// Both sides, under one operator set.
pub struct Comparison<'a> {
    set: &'a OperatorSet,
    originals: Originals<'a>,
    ours: Box<Call<'a>>,
    bounds: Bounds,
    memory: Guarded,
    pub tally: Tally,
}

impl<'a> Comparison<'a> {
    pub fn new(set: &'a OperatorSet, kind20: Kind20, bounds: Bounds, ours: Box<Call<'a>>) -> Self {
        let originals = Originals::new(set, kind20);
        Self { set, originals, ours, bounds, memory: Guarded::new(), tally: Tally::default() }
    }

    /// The host's calls, under the catalogue set.
    pub fn of_host(catalogue: &'a OperatorSet) -> Self {
        Self::new(catalogue, Kind20::Repartition, model::HOST, Box::new(library::call))
    }

    pub fn set(&self) -> &'a OperatorSet {
        self.set
    }

    /// Calls every rule on the cells, with exactly the room that is asked for.
    pub fn every_rule(&mut self, cells: &[Cell]) -> Result<(), Box<Difference>> {
        let plan = pack(cells).expect("the plan can be packed");
        let out_len = plan.len() * 2;
        let accepted = self.accepted(cells);
        for rule in Rule::ALL {
            let expected = match &accepted {
                Ok((tree, original)) => self.of_accepted(rule, tree, original),
                Err(fault) => Outcome::Refused(*fault),
            };
            self.tally.count(rule, cells, &expected);
            self.check(rule, &plan, out_len, expected)?;
        }
        Ok(())
    }

    /// Calls a rule on any bytes, with any room. Answers what the call left, where it is granted.
    pub fn bytes(&mut self, rule: Rule, plan: &[u8], out_len: usize) -> Result<Option<Vec<Cell>>, Box<Difference>> {
        let received = model::received(self.bounds, plan, out_len);
        let expected = match &received {
            Ok(cells) => self.expected(rule, cells),
            Err(fault) => Outcome::Refused(*fault),
        };
        self.tally.count(rule, received.as_deref().unwrap_or(&[]), &expected);
        self.check(rule, plan, out_len, expected.clone())?;
        match expected {
            Outcome::Granted(cells) => Ok(Some(cells)),
            _ => Ok(None),
        }
    }

    /// What the model and the original say of cells that came in.
    pub fn expected(&self, rule: Rule, cells: &[Cell]) -> Outcome {
        match self.accepted(cells) {
            Ok((tree, original)) => self.of_accepted(rule, &tree, &original),
            Err(fault) => Outcome::Refused(fault),
        }
    }

    /// The steps of the rule on a plan that it does not refuse, and what the original leaves.
    pub fn traced(&self, rule: Rule, cells: &[Cell]) -> Option<(Vec<Step>, Vec<Cell>)> {
        let (tree, original) = self.accepted(cells).ok()?;
        let mut steps = Vec::new();
        model::rule_refusal(self.set, rule, &tree, &mut steps).ok()?;
        Some((steps, cells_of(&self.originals.optimize(rule, original))))
    }

    fn accepted(&self, cells: &[Cell]) -> Result<(Tree, Plan), Fault> {
        let tree = model::accept(self.set, cells)?;
        Ok((tree, self.originals.plan(cells)))
    }

    fn of_accepted(&self, rule: Rule, tree: &Tree, original: &Plan) -> Outcome {
        match model::rule_refusal(self.set, rule, tree, &mut Untraced) {
            Ok(()) => Outcome::Granted(cells_of(&self.originals.optimize(rule, original.clone()))),
            Err(fault) => Outcome::Refused(fault),
        }
    }

    fn check(&mut self, rule: Rule, plan: &[u8], out_len: usize, expected: Outcome) -> Result<(), Box<Difference>> {
        let ours = &self.ours;
        let answer = self.memory.call(plan, out_len, |plan, out| ours(rule, plan, out));
        let as_expected = answer.untouched
            && match &expected {
                Outcome::Granted(cells) => answer.answer == cells.len() as i32 && holds_plan(answer.out, cells),
                Outcome::Refused(fault) => answer.answer == encoded(fault) && is_blank(answer.out),
                Outcome::Broken(_) => false,
            };
        if as_expected {
            return Ok(());
        }
        let got = outcome_of(answer.answer, answer.out, answer.untouched);
        Err(Box::new(Difference { rule, under: None, plan: plan.to_vec(), out_len, expected, got }))
    }
}

/// The output holds the cells' records, and zeros behind them.
fn holds_plan(out: &[u8], cells: &[Cell]) -> bool {
    let Ok(records) = pack(cells) else { return false };
    out.len() >= records.len() && out[..records.len()] == records && is_blank(&out[records.len()..])
}

fn is_blank(bytes: &[u8]) -> bool {
    bytes.iter().all(|byte| *byte == 0)
}

/// A refusal as a call's answer. Places beyond what the answer has room for are told as the last that it has.
fn encoded(fault: &Fault) -> i32 {
    -(i32::from(fault.number) * 8192 + fault.place.min(8191) as i32)
}

fn outcome_of(answer: i32, out: &[u8], untouched: bool) -> Outcome {
    if !untouched {
        return Outcome::Broken(format!("answered {answer}, and wrote outside its output"));
    }
    let Ok(count) = usize::try_from(answer) else {
        let answer = answer.unsigned_abs() as usize;
        let fault = Fault { number: (answer / 8192) as u8, place: answer % 8192 };
        return if is_blank(out) {
            Outcome::Refused(fault)
        } else {
            Outcome::Broken(format!("{}, and left bytes in the output", Outcome::Refused(fault)))
        };
    };
    match out.get(..count * RECORD).map(unpack) {
        Some(Ok(cells)) if is_blank(&out[count * RECORD..]) => Outcome::Granted(cells),
        Some(Ok(cells)) => Outcome::Broken(format!("{}, and bytes behind it", write_plan(&cells))),
        _ => Outcome::Broken(format!("answered {answer}, which the output does not hold")),
    }
}
