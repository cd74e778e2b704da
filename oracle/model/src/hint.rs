//! The sums of hint: of skip and fetch, at every unmarked limit with a fetch.

use cells::sets::OperatorSet;
use cells::{Fault, kind};

use crate::tree::Tree;
use crate::{Step, Trace, sum};

pub fn sums(set: &OperatorSet, tree: &Tree, trace: &mut impl Trace) -> Result<(), Fault> {
    tree.each(&mut |node| {
        let cell = &node.cell;
        let mut step = |what, state| trace.step(Step { kind: cell.kind, what, state });
        match cell.fetch.filter(|_| cell.is_limit() && !cell.mark) {
            Some(fetch) => {
                sum(node.place, cell.skip, fetch)?;
                step("limit", below(set, node));
            }
            None if cell.is_limit() => step("limit that is left", below(set, node)),
            None => step("no limit", 0),
        }
        Ok(())
    })
}

/// How the nodes below a limit go on, as bits: the first is hinted, whether that replaces a hint; the second is, and so on.
fn below(set: &OperatorSet, limit: &Tree) -> u8 {
    let mut bits = 0;
    let mut node = limit.child();
    let mut above: Option<u32> = None;
    for _ in 0..3 {
        let aggregate = node.cell.kind == kind::AGGREGATE;
        let group = set.group(node.cell.parameter);
        let hinted = aggregate && group.plain_distinct && above.is_none_or(|above| above == group.number);
        bits = bits << 2 | if hinted { 2 + u8::from(node.cell.hint.is_some()) } else { u8::from(aggregate) };
        if !hinted {
            break;
        }
        above = Some(group.number);
        node = node.child();
    }
    bits
}
