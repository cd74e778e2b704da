//! Checks 4 to 9, each over the whole plan.

use cells::sets::{EndBound, ExpressionEffect, OperatorSet, Unit};
use cells::{Cell, Fault, MAX_CELLS, MAX_NUMBER, kind};

use crate::tree::Tree;
use crate::{FIELDS, FIT, HINTS, PARTITIONS, TREE, WINDOWS};

pub fn tree(cells: &[Cell]) -> Result<(), Fault> {
    let mut due = 1;
    for (place, cell) in cells.iter().enumerate() {
        if due == 0 {
            return Err(Fault { number: TREE, place });
        }
        due += usize::from(cell.children);
        due -= 1;
    }
    if due > 0 { Err(Fault { number: TREE, place: cells.len() }) } else { Ok(()) }
}

pub fn fit(set: &OperatorSet, cells: &[Cell]) -> Result<(), Fault> {
    first_offence(cells, FIT, |cell| fits(set, cell))
}

fn fits(set: &OperatorSet, cell: &Cell) -> bool {
    let can_be_packed = cell.children <= 63 && cell.parameter <= 32_767;
    let child_count_fits = match cell.kind {
        kind::EMPTY | kind::PLACEHOLDER_ROW => cell.children == 0,
        kind::GLOBAL_LIMIT..=kind::AGGREGATE => cell.children == 1,
        of_set => set.operator(of_set).is_some_and(|operator| operator.children.contains(&cell.children)),
    };
    let parameter_fits = match cell.kind {
        kind::EMPTY..=kind::LOCAL_LIMIT | kind::COALESCE_PARTITIONS => cell.parameter == 0,
        kind::PROJECTION | kind::SORT_PRESERVING_MERGE | kind::SORT => true,
        kind::WINDOW => set.window_parameters.hold(cell.parameter),
        kind::AGGREGATE => set.aggregate_parameters.hold(cell.parameter),
        ..kind::FIRST_OF_SET => false,
        of_set => set.operator(of_set).is_some_and(|operator| operator.parameters.contains(&cell.parameter)),
    };
    can_be_packed && child_count_fits && parameter_fits
}

pub fn fields(set: &OperatorSet, cells: &[Cell]) -> Result<(), Fault> {
    first_offence(cells, FIELDS, |cell| {
        let numbers = [Some(cell.skip), cell.fetch, cell.hint];
        numbers.into_iter().flatten().all(|number| number <= MAX_NUMBER)
            && (cell.skip == 0 || cell.kind == kind::GLOBAL_LIMIT)
            && (cell.fetch.is_some() || cell.kind != kind::LOCAL_LIMIT)
            && (cell.hint.is_none() || cell.kind == kind::AGGREGATE)
            && (cell.fetch.is_none() || takes_fetch(set, cell.kind))
            && (!cell.mark || takes_mark(set, cell.kind))
    })
}

fn takes_fetch(set: &OperatorSet, of: u8) -> bool {
    match of {
        kind::GLOBAL_LIMIT | kind::LOCAL_LIMIT => true,
        kind::COALESCE_PARTITIONS | kind::SORT_PRESERVING_MERGE | kind::SORT => true,
        ..kind::FIRST_OF_SET => false,
        of_set => set.operator(of_set).is_some_and(|operator| operator.takes_fetch),
    }
}

fn takes_mark(set: &OperatorSet, of: u8) -> bool {
    match of {
        kind::GLOBAL_LIMIT | kind::LOCAL_LIMIT => true,
        ..kind::FIRST_OF_SET => false,
        of_set => set.operator(of_set).is_some_and(|operator| operator.takes_mark),
    }
}

fn first_offence(cells: &[Cell], number: u8, allowed: impl Fn(&Cell) -> bool) -> Result<(), Fault> {
    match cells.iter().position(|cell| !allowed(cell)) {
        Some(place) => Err(Fault { number, place }),
        None => Ok(()),
    }
}

pub fn partitions(tree: &Tree) -> Result<(), Fault> {
    tree.each(&mut |node| {
        let in_range = (1..=MAX_CELLS as u64).contains(&node.partitions);
        let child_has_one = node.cell.kind != kind::GLOBAL_LIMIT || node.child().partitions == 1;
        if in_range && child_has_one { Ok(()) } else { Err(Fault { number: PARTITIONS, place: node.place }) }
    })
}

pub fn hints(set: &OperatorSet, tree: &Tree) -> Result<(), Fault> {
    let at_root = Fault { number: HINTS, place: tree.place };
    if tree.cell.hint.is_some() {
        return Err(at_root);
    }
    tree.each(&mut |parent| {
        let offence = parent.children.iter().find(|child| !hint_is_borne_out(set, &parent.cell, &child.cell));
        offence.map_or(Ok(()), |child| Err(Fault { number: HINTS, place: child.place }))
    })
}

fn hint_is_borne_out(set: &OperatorSet, parent: &Cell, child: &Cell) -> bool {
    let Some(hint) = child.hint else { return true };
    let group = set.group(child.parameter);
    let by_limit = || parent.is_limit() && need(parent).is_some_and(|need| need <= hint);
    let by_aggregate = || {
        let same_group = parent.kind == kind::AGGREGATE && set.group(parent.parameter).number == group.number;
        same_group && parent.hint.is_some_and(|above| above <= hint)
    };
    group.plain_distinct && (by_limit() || by_aggregate())
}

/// How many rows a limit with a fetch reads.
fn need(limit: &Cell) -> Option<u64> {
    limit.fetch.map(|fetch| if fetch == 0 { 0 } else { limit.skip + fetch })
}

pub fn windows(set: &OperatorSet, tree: &Tree) -> Result<(), Fault> {
    windows_below(set, tree, false)
}

fn windows_below(set: &OperatorSet, node: &Tree, looked_ahead_above: bool) -> Result<(), Fault> {
    let mut looked_ahead = looked_ahead_above;
    if node.cell.kind == kind::WINDOW {
        let looks_ahead = looks_ahead(set, node.cell.parameter);
        if has_absolute_effect(set, node.cell.parameter) || looks_ahead && looked_ahead_above {
            return Err(Fault { number: WINDOWS, place: node.place });
        }
        looked_ahead |= looks_ahead;
    }
    node.children.iter().try_for_each(|child| windows_below(set, child, looked_ahead))
}

fn has_absolute_effect(set: &OperatorSet, window: u16) -> bool {
    set.window(window).iter().any(|expression| matches!(expression.effect, ExpressionEffect::Absolute(_)))
}

fn looks_ahead(set: &OperatorSet, window: u16) -> bool {
    reach(set, window).is_some_and(|reach| reach.following + reach.relative > 0)
}

/// How many rows behind a row can change what a window makes of it, in two parts.
pub struct Reach {
    pub following: u64,
    pub relative: u64,
}

pub fn reach(set: &OperatorSet, window: u16) -> Option<Reach> {
    let mut reach = Reach { following: 0, relative: 0 };
    for expression in set.window(window) {
        let relative = match expression.effect {
            ExpressionEffect::None => 0,
            ExpressionEffect::Relative(rows) => rows,
            ExpressionEffect::Unknown | ExpressionEffect::Absolute(_) => return None,
        };
        let following = match expression.end {
            EndBound::Preceding | EndBound::CurrentRow => 0,
            EndBound::Following(rows) => rows,
            EndBound::Other => return None,
        };
        if expression.unit != Unit::Rows {
            return None;
        }
        reach.relative = reach.relative.max(relative);
        reach.following = reach.following.max(following);
    }
    Some(reach)
}
