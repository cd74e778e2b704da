//! Which refusal a call gets, and where: the checks of `docs/refusals.md` and the sums of `docs/rules.md`, written to be read,
//! from the documents alone.

mod checks;
mod grow;
mod hint;
mod sink;
mod tree;

use cells::sets::OperatorSet;
use cells::{Cell, Fault, MAX_NUMBER, Rule};

pub use tree::Tree;

const COUNT: u8 = 2;
const ROOM: u8 = 3;
const TREE: u8 = 4;
const FIT: u8 = 5;
const FIELDS: u8 = 6;
const PARTITIONS: u8 = 7;
const HINTS: u8 = 8;
const WINDOWS: u8 = 9;
const SUM: u8 = 10;

/// A step that a rule takes at a node. Plans are told apart by the steps that they bring about.
#[derive(Clone, Copy, Debug, PartialEq, Eq, Hash)]
pub struct Step {
    pub kind: u8,
    /// What the rule does there.
    pub what: &'static str,
    /// What else the step depends on, as bits.
    pub state: u8,
}

/// Takes note of steps.
pub trait Trace {
    fn step(&mut self, step: Step);
}

/// Takes no note.
pub struct Untraced;

impl Trace for Untraced {
    fn step(&mut self, _step: Step) {}
}

impl Trace for Vec<Step> {
    fn step(&mut self, step: Step) {
        self.push(step);
    }
}

/// The accepted plan as a tree, or the first refusal of checks 4 to 8. There is at least one cell.
pub fn accept(set: &OperatorSet, cells: &[Cell]) -> Result<Tree, Fault> {
    checks::tree(cells)?;
    checks::fit(set, cells)?;
    checks::fields(set, cells)?;
    let tree = Tree::of(set, cells);
    checks::partitions(&tree)?;
    checks::hints(set, &tree)?;
    Ok(tree)
}

/// What the rule refuses of an accepted plan: checks 9 and 10.
pub fn rule_refusal(set: &OperatorSet, rule: Rule, tree: &Tree, trace: &mut impl Trace) -> Result<(), Fault> {
    match rule {
        Rule::Sink => sink::sums(set, tree, trace),
        Rule::Grow => {
            checks::windows(set, tree)?;
            grow::sums(set, tree, trace)
        }
        Rule::Hint => hint::sums(set, tree, trace),
    }
}

/// How much a call in the C convention takes.
#[derive(Clone, Copy, Debug)]
pub struct Bounds {
    pub most_records: usize,
}

/// A host's bounds.
pub const HOST: Bounds = Bounds { most_records: 512 };

/// What a call on packed bytes refuses before it looks at the plan (`docs/hosts.md`); else the cells.
pub fn received(bounds: Bounds, plan: &[u8], out_len: usize) -> Result<Vec<Cell>, Fault> {
    use cells::records::{RECORD, unpack};
    if plan.len() > bounds.most_records * RECORD {
        return Err(Fault { number: COUNT, place: 0 });
    }
    let cells = unpack(plan)?;
    if cells.is_empty() {
        return Err(Fault { number: COUNT, place: 0 });
    }
    if out_len < cells.len() * 2 * RECORD {
        return Err(Fault { number: ROOM, place: 0 });
    }
    Ok(cells)
}

/// A sum that the steps form at a place.
fn sum(place: usize, left: u64, right: u64) -> Result<u64, Fault> {
    let sum = left + right;
    if sum > MAX_NUMBER { Err(Fault { number: SUM, place }) } else { Ok(sum) }
}

#[cfg(test)]
mod tests {
    use super::*;
    use cells::notation::read_plan;

    fn refusal(rule: Rule, plan: &str) -> Option<(u8, usize)> {
        let set = OperatorSet::catalogue();
        let tree = accept(&set, &read_plan(plan).unwrap());
        let refused = tree.and_then(|tree| rule_refusal(&set, rule, &tree, &mut Untraced)).err();
        refused.map(|fault| (fault.number, fault.place))
    }

    #[test]
    fn the_examples_of_the_documents() {
        assert_eq!(refusal(Rule::Hint, "G(0,5) U(H1, H1)"), Some((PARTITIONS, 0)));
        assert_eq!(refusal(Rule::Sink, "G(1,1099511627775) S H1"), Some((SUM, 1)));
        assert_eq!(refusal(Rule::Grow, "G(0,4) W1 W1 S H1"), Some((WINDOWS, 2)));
        assert_eq!(refusal(Rule::Sink, "G(0,4) W1 W1 S H1"), None);
        assert_eq!(refusal(Rule::Sink, "A{5} H1"), Some((HINTS, 0)));
    }
}
