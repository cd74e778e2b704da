//! The sums of grow: where a limit is found, at every window with a reach, and where a limit is applied.

use cells::sets::{Effect, OperatorSet};
use cells::{Cell, Fault, kind};

use crate::checks::reach;
use crate::tree::Tree;
use crate::{Step, Trace, sum};

#[derive(Default)]
struct Walk {
    limit: Option<u64>,
    look_ahead: u64,
    applying: bool,
}

/// Why a walk ends before its last cell.
enum End {
    Applied,
    Refused(Fault),
}

pub fn sums(set: &OperatorSet, tree: &Tree, trace: &mut impl Trace) -> Result<(), Fault> {
    let mut walk = Walk::default();
    match tree.each(&mut |node| walk.visit(set, node, trace)) {
        Ok(()) | Err(End::Applied) => Ok(()),
        Err(End::Refused(fault)) => Err(fault),
    }
}

impl Walk {
    fn visit(&mut self, set: &OperatorSet, node: &Tree, trace: &mut impl Trace) -> Result<(), End> {
        let state = self.bits(node);
        let what = self.step(set, node.place, &node.cell).map_err(End::Refused)?;
        trace.step(Step { kind: node.cell.kind, what, state });
        if what == "applied" { Err(End::Applied) } else { Ok(()) }
    }

    /// Takes the step at a cell, and names it.
    fn step(&mut self, set: &OperatorSet, place: usize, cell: &Cell) -> Result<&'static str, Fault> {
        if cell.children >= 2 {
            return Ok(self.reset("several children"));
        }
        if !self.applying && (cell.is_limit() || cell.kind == kind::SORT_PRESERVING_MERGE) {
            self.limit = cell.fetch.map(|fetch| sum(place, cell.skip, fetch)).transpose()?;
            self.look_ahead = 0;
            return Ok("found");
        }
        if cell.kind == kind::WINDOW {
            self.applying = true;
            let Some(reach) = reach(set, cell.parameter) else {
                return Ok(self.reset("no reach"));
            };
            self.look_ahead = sum(place, self.look_ahead.max(reach.following), reach.relative)?;
            return Ok("grown");
        }
        if self.applying && matches!(cell.kind, kind::SORT | kind::SORT_PRESERVING_MERGE) {
            let Some(limit) = self.limit else {
                return Ok(self.reset("nothing to apply"));
            };
            sum(place, limit, self.look_ahead)?;
            return Ok("applied");
        }
        if passes(set, cell.kind) { Ok("passed") } else { Ok(self.reset("held up")) }
    }

    fn reset(&mut self, what: &'static str) -> &'static str {
        self.limit = None;
        self.look_ahead = 0;
        what
    }

    fn bits(&self, node: &Tree) -> u8 {
        let facts = [self.limit.is_some(), self.look_ahead > 0, self.applying, node.cell.fetch.is_some(), node.cell.mark];
        facts.iter().fold(0, |bits, fact| bits << 1 | u8::from(*fact))
    }
}

/// Limits pass, and as many rows come out as go in, or more.
fn passes(set: &OperatorSet, of: u8) -> bool {
    match of {
        kind::PROJECTION | kind::COALESCE_PARTITIONS | kind::SORT_PRESERVING_MERGE => true,
        ..kind::FIRST_OF_SET => false,
        of_set => set
            .operator(of_set)
            .is_some_and(|operator| operator.limits_pass && matches!(operator.effect, Effect::Equal | Effect::GreaterEqual)),
    }
}
