//! The sums of sink: of the skips at each limit, and of fetch and skip at every other node while a fetch is pending. To know
//! them, what is pending is followed down the tree; which cells are left does not matter here.

use cells::sets::OperatorSet;
use cells::{Fault, kind};

use crate::tree::Tree;
use crate::{Step, Trace, sum};

#[derive(Clone, Copy)]
struct Pending {
    skip: u64,
    fetch: Option<u64>,
    satisfied: bool,
    order: bool,
}

pub fn sums(set: &OperatorSet, tree: &Tree, trace: &mut impl Trace) -> Result<(), Fault> {
    visit(set, tree, Pending { skip: 0, fetch: None, satisfied: false, order: false }, trace)
}

fn visit(set: &OperatorSet, node: &Tree, mut pending: Pending, trace: &mut impl Trace) -> Result<(), Fault> {
    let state = bits(&pending, node);
    let mut step = |what| trace.step(Step { kind: node.cell.kind, what, state });
    if node.cell.is_limit() {
        pending.fetch = combined_fetch(&pending, node.cell.fetch);
        pending.skip = sum(node.place, pending.skip, node.cell.skip)?;
        pending.order = node.cell.mark;
        pending.satisfied = keeps_all(&pending, node.child());
        step(if pending.satisfied { "limit that keeps all" } else { "limit" });
        return visit(set, node.child(), pending, trace);
    }
    if node.cell.fetch.is_some() {
        pending.satisfied |= pending.skip == 0;
        pending.fetch = combined_fetch(&pending, node.cell.fetch);
    }
    match pending.fetch {
        None => {
            step(if pending.skip > 0 && !pending.satisfied { "skip alone" } else { "nothing pending" });
            pending.satisfied |= pending.skip > 0;
        }
        Some(fetch) => {
            let total = sum(node.place, fetch, pending.skip)?;
            if matches!(node.cell.kind, kind::COALESCE_PARTITIONS | kind::SORT_PRESERVING_MERGE) {
                step("gathers");
                pending = Pending { skip: 0, fetch: Some(total), satisfied: true, ..pending };
            } else if limits_pass(set, node.cell.kind) {
                step("passes");
            } else {
                step("stops");
                pending = Pending { skip: 0, fetch: None, satisfied: true, ..pending };
            }
        }
    }
    if pending.satisfied {
        pending.skip = 0;
    }
    node.children.iter().try_for_each(|child| visit(set, child, pending, trace))
}

/// The pending fetch over an inner one: the smaller of it and of what the inner one leaves behind the pending skip.
fn combined_fetch(pending: &Pending, inner: Option<u64>) -> Option<u64> {
    let left = inner.map(|inner| inner.saturating_sub(pending.skip));
    [pending.fetch, left].into_iter().flatten().min()
}

/// Whether what is pending drops no row of a limit's child.
fn keeps_all(pending: &Pending, child: &Tree) -> bool {
    let Some(fetch) = pending.fetch else { return false };
    let most_rows = most_rows(child);
    pending.skip == 0 && child.partitions == 1 && most_rows.is_some_and(|rows| rows <= fetch)
}

/// How many rows the first node that is no projection is known to have at most.
fn most_rows(node: &Tree) -> Option<u64> {
    match node.cell.kind {
        kind::PROJECTION => most_rows(node.child()),
        kind::PLACEHOLDER_ROW => Some(1),
        _ => node.known_empty.then_some(0),
    }
}

fn limits_pass(set: &OperatorSet, of: u8) -> bool {
    match of {
        kind::PROJECTION | kind::COALESCE_PARTITIONS | kind::SORT_PRESERVING_MERGE => true,
        ..kind::FIRST_OF_SET => false,
        of_set => set.operator(of_set).is_some_and(|operator| operator.limits_pass),
    }
}

fn bits(pending: &Pending, node: &Tree) -> u8 {
    let facts = [
        pending.skip > 0,
        pending.fetch.is_some(),
        pending.satisfied,
        pending.order,
        node.cell.fetch.is_some(),
        node.partitions == 1,
        node.known_empty,
        node.cell.mark,
    ];
    facts.iter().fold(0, |bits, fact| bits << 1 | u8::from(*fact))
}
