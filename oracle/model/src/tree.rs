//! A plan as a tree, with what is known of each subtree without its rows.

use cells::sets::{KnownEmpty, OperatorSet, Partitions};
use cells::{Cell, kind};

pub struct Tree {
    /// The root's place in the list of cells.
    pub place: usize,
    pub cell: Cell,
    pub children: Vec<Tree>,
    /// The exact sum, however large.
    pub partitions: u64,
    pub known_empty: bool,
}

impl Tree {
    /// The tree of cells that are one tree and fit.
    pub fn of(set: &OperatorSet, cells: &[Cell]) -> Self {
        Self::read(set, cells, &mut 0)
    }

    fn read(set: &OperatorSet, cells: &[Cell], next: &mut usize) -> Self {
        let place = *next;
        let cell = cells[place];
        *next += 1;
        let children: Vec<Self> = (0..cell.children).map(|_| Self::read(set, cells, next)).collect();
        let partitions = partitions(set, &cell, &children);
        let known_empty = known_empty(set, &cell, &children);
        Self { place, cell, children, partitions, known_empty }
    }

    /// The child of a node that has one.
    pub fn child(&self) -> &Self {
        &self.children[0]
    }

    /// Calls `visit` on every node, in prefix order, until it refuses one.
    pub fn each<'a, E>(&'a self, visit: &mut impl FnMut(&'a Self) -> Result<(), E>) -> Result<(), E> {
        visit(self)?;
        self.children.iter().try_for_each(|child| child.each(visit))
    }
}

fn partitions(set: &OperatorSet, cell: &Cell, children: &[Tree]) -> u64 {
    let sum = children.iter().map(|child| child.partitions).sum();
    match cell.kind {
        kind::EMPTY | kind::PLACEHOLDER_ROW => 1,
        kind::GLOBAL_LIMIT | kind::COALESCE_PARTITIONS | kind::SORT_PRESERVING_MERGE => 1,
        ..kind::FIRST_OF_SET => sum,
        of_set => match set.operator(of_set).map(|operator| operator.partitions) {
            Some(Partitions::Fixed(count)) => u64::from(count),
            Some(Partitions::Parameter) => u64::from(cell.parameter),
            Some(Partitions::Sum) | None => sum,
        },
    }
}

fn known_empty(set: &OperatorSet, cell: &Cell, children: &[Tree]) -> bool {
    let all_children = children.iter().all(|child| child.known_empty);
    match cell.kind {
        kind::EMPTY => true,
        kind::PLACEHOLDER_ROW => false,
        kind::GLOBAL_LIMIT..=kind::WINDOW => all_children,
        kind::AGGREGATE..kind::FIRST_OF_SET => false,
        of_set => match set.operator(of_set).map(|operator| operator.known_empty) {
            Some(KnownEmpty::Always) => true,
            Some(KnownEmpty::IfAllChildren) => all_children,
            Some(KnownEmpty::Never) | None => false,
        },
    }
}
