//! Random plans under any operator set, most of them accepted.

use cells::sets::{EndBound, ExpressionEffect, Operator, OperatorSet, Parameters, Partitions};
use cells::{Cell, MAX_NUMBER, kind};

use crate::rng::Rng;

/// How one plan is drawn. Each plan has a taste of its own, so that plans are less alike than cells drawn evenly would make
/// them: long chains of limits, unions of unions, windows over sorts and so on all come up.
struct Taste {
    /// How often each kind is drawn, against the others.
    weights: [u8; 256],
    /// One number in so many is large.
    large_numbers: usize,
    /// One fetch in so many is left out.
    no_fetch: usize,
    marks: usize,
    wide: bool,
    /// One child gets nearly all cells, so that paths are long.
    deep: bool,
    /// Cells stand where they may not.
    reckless: bool,
}

/// Kinds that a rule moves limits through. A plan with a theme is mostly made of these.
const THEMES: [&[u8]; 4] = [
    &[kind::GLOBAL_LIMIT, kind::WINDOW, kind::SORT],
    &[kind::LOCAL_LIMIT, kind::SORT_PRESERVING_MERGE, kind::WINDOW, kind::SORT, kind::PROJECTION],
    &[kind::GLOBAL_LIMIT, kind::LOCAL_LIMIT, kind::AGGREGATE],
    &[kind::GLOBAL_LIMIT, kind::LOCAL_LIMIT, kind::COALESCE_PARTITIONS, kind::PROJECTION],
];

impl Taste {
    fn draw(rng: &mut Rng, set: &OperatorSet) -> Self {
        let mut weights = [0; 256];
        let themed = rng.one_in(2);
        let usual: &[u8] = if themed { &[0, 0, 0, 1] } else { &[0, 1, 1, 2, 4] };
        weights.iter_mut().for_each(|weight| *weight = rng.pick(usual));
        let kinds: Vec<u8> = (0..=kind::AGGREGATE).chain(set.operators.iter().map(|operator| operator.kind)).collect();
        for _ in 0..rng.below(4) {
            weights[usize::from(rng.pick(&kinds))] = if themed { 4 } else { 40 };
        }
        if themed {
            rng.pick(&THEMES).iter().for_each(|kind| weights[usize::from(*kind)] = rng.pick(&[4, 12]));
        }
        Self {
            weights,
            large_numbers: rng.pick(&[4, 30, 1000, 1_000_000]),
            no_fetch: rng.pick(&[2, 3, 5]),
            marks: rng.pick(&[2, 4, 20]),
            wide: rng.one_in(4),
            deep: rng.one_in(2),
            reckless: rng.one_in(60),
        }
    }
}

/// What the cells above ask of a subtree.
#[derive(Clone, Copy, Default)]
struct Above {
    one_partition: bool,
    window_looks_ahead: bool,
    parent: Option<Cell>,
}

pub struct Generator<'a> {
    set: &'a OperatorSet,
    rng: &'a mut Rng,
    taste: Taste,
    cells: Vec<Cell>,
}

/// A random plan of `size` cells.
pub fn random_plan(set: &OperatorSet, rng: &mut Rng, size: usize) -> Vec<Cell> {
    let taste = Taste::draw(rng, set);
    let mut generator = Generator { set, rng, taste, cells: Vec::with_capacity(size) };
    generator.tree(size, Above::default());
    generator.cells
}

impl Generator<'_> {
    fn tree(&mut self, size: usize, above: Above) {
        let kind = self.kind(size, &above);
        let children = self.child_count(kind, size - 1, &above);
        let cell = self.cell(kind, children, &above);
        self.cells.push(cell);
        let below = self.below(&cell, &above);
        for part in self.parts(size - 1, usize::from(children)) {
            self.tree(part, below);
        }
    }

    fn kind(&mut self, size: usize, above: &Above) -> u8 {
        let cells_below = size - 1;
        let leaf = cells_below == 0;
        let below_16 = if leaf { kind::EMPTY..=kind::PLACEHOLDER_ROW } else { kind::GLOBAL_LIMIT..=kind::AGGREGATE };
        let fitting = |of: &u8| match *of {
            kind::WINDOW => self.set.window_parameters.hold(0),
            kind::AGGREGATE => self.set.aggregate_parameters.hold(0),
            _ => true,
        };
        let of_set = self.set.operators.iter().filter(|operator| self.may_stand(operator, cells_below, above));
        let kinds: Vec<u8> = below_16.filter(fitting).chain(of_set.map(|operator| operator.kind)).collect();
        let weight = |kind: u8| usize::from(self.taste.weights[usize::from(kind)]);
        let all: usize = kinds.iter().map(|kind| weight(*kind)).sum();
        if all == 0 {
            return self.rng.pick(&kinds);
        }
        let mut drawn = self.rng.below(all);
        for kind in &kinds {
            let weight = weight(*kind);
            if drawn < weight {
                return *kind;
            }
            drawn -= weight;
        }
        unreachable!("the weights add up to more than was drawn")
    }

    fn may_stand(&self, operator: &Operator, cells_below: usize, above: &Above) -> bool {
        let leaf = cells_below == 0;
        let counts = self.set.operator(operator.kind).is_some_and(|first| std::ptr::eq(first, operator));
        let fitting_count = if leaf {
            operator.children.contains(&0)
        } else {
            *operator.children.end() > 0 && usize::from(*operator.children.start()) <= cells_below
        };
        let partitions = match operator.partitions {
            Partitions::Fixed(count) => count > 0 && (count == 1 || !above.one_partition),
            Partitions::Sum => !(leaf || above.one_partition && *operator.children.start() > 1),
            Partitions::Parameter => true,
        };
        counts && fitting_count && (partitions || self.taste.reckless)
    }

    /// How many children a node gets that has so many cells below it.
    fn child_count(&mut self, of: u8, cells_below: usize, above: &Above) -> u8 {
        let Some(operator) = self.set.operator(of).filter(|_| of >= kind::FIRST_OF_SET) else {
            return u8::from(cells_below > 0);
        };
        if cells_below == 0 {
            return 0;
        }
        let least = usize::from(*operator.children.start()).max(1);
        let most = usize::from(*operator.children.end()).min(cells_below).min(63);
        if least >= most {
            return most as u8;
        }
        let gathers = operator.partitions == Partitions::Sum && above.one_partition && !self.taste.reckless;
        let count = match gathers {
            true => least,
            false if self.taste.wide => least + self.rng.below(most - least + 1),
            false => (least + self.rng.below(3)).min(most),
        };
        count as u8
    }

    /// So many cells in so many parts.
    fn parts(&mut self, cells: usize, count: usize) -> Vec<usize> {
        let mut parts = vec![1; count];
        let mut left = cells.saturating_sub(count);
        while left > 0 {
            let portion = if self.taste.deep { left } else { 1 + self.rng.below(left) };
            let part = self.rng.below(count);
            parts[part] += portion;
            left -= portion;
        }
        parts
    }

    fn cell(&mut self, of: u8, children: u8, above: &Above) -> Cell {
        let (takes_fetch, takes_mark) = match of {
            kind::GLOBAL_LIMIT | kind::LOCAL_LIMIT => (true, true),
            kind::COALESCE_PARTITIONS | kind::SORT_PRESERVING_MERGE | kind::SORT => (true, false),
            ..kind::FIRST_OF_SET => (false, false),
            _ => self.set.operator(of).map_or((false, false), |operator| (operator.takes_fetch, operator.takes_mark)),
        };
        let mut cell = Cell { parameter: self.parameter(of, above), ..Cell::new(of, children) };
        if of == kind::LOCAL_LIMIT || takes_fetch && !self.rng.one_in(self.taste.no_fetch) {
            cell.fetch = Some(self.number());
        }
        if of == kind::GLOBAL_LIMIT && !self.rng.one_in(3) {
            cell.skip = self.number();
        }
        cell.mark = takes_mark && self.rng.one_in(self.taste.marks);
        if of == kind::AGGREGATE && self.rng.one_in(2) {
            cell.hint = self.hint(&cell, above);
        }
        if self.taste.reckless && self.rng.one_in(8) {
            self.misplace(&mut cell);
        }
        cell
    }

    fn parameter(&mut self, of: u8, above: &Above) -> u16 {
        match of {
            ..=kind::LOCAL_LIMIT | kind::COALESCE_PARTITIONS => 0,
            kind::WINDOW => self.window(above),
            kind::AGGREGATE => self.rng.pick(&[0, 0, 1, 2, 2, 3, 4, 6]),
            ..kind::FIRST_OF_SET => self.rng.pick(&[0, 0, 1, 7, 32_767]),
            _ => match self.set.operator(of).map(|operator| operator.partitions) {
                Some(Partitions::Parameter) if above.one_partition && !self.taste.reckless => 1,
                Some(Partitions::Parameter) => self.rng.pick(&[1, 1, 1, 1, 2, 2, 3, 4, 8]),
                _ => self.rng.pick(&[0, 0, 1, 7, 32_767]),
            },
        }
    }

    /// A window, mostly one that grow does not refuse.
    fn window(&mut self, above: &Above) -> u16 {
        // Where any window fits, one is drawn of which the set holds no expression.
        let count = self.set.windows.len() + usize::from(self.set.window_parameters == Parameters::Any);
        let mut window = self.rng.below(count) as u16;
        for _ in 0..8 {
            let absolute = self.set.window(window).iter().any(|e| matches!(e.effect, ExpressionEffect::Absolute(_)));
            if !(absolute || above.window_looks_ahead && looks_ahead(self.set, window)) {
                break;
            }
            window = self.rng.below(count) as u16;
        }
        window
    }

    /// A hint that the node above bears out, if it can.
    fn hint(&mut self, cell: &Cell, above: &Above) -> Option<u64> {
        let parent = above.parent?;
        let group = self.set.group(cell.parameter);
        let from = if parent.is_limit() {
            parent.fetch.map(|fetch| if fetch == 0 { 0 } else { parent.skip + fetch })
        } else {
            parent.hint.filter(|_| self.set.group(parent.parameter).number == group.number)
        };
        let from = from.filter(|from| group.plain_distinct && *from <= MAX_NUMBER)?;
        Some((from + self.rng.pick(&[0, 0, 1, 5])).min(MAX_NUMBER))
    }

    fn misplace(&mut self, cell: &mut Cell) {
        match self.rng.below(6) {
            0 => cell.fetch = Some(self.number()),
            1 => cell.hint = Some(self.number()).filter(|_| cell.skip == 0),
            2 => cell.mark = true,
            3 => cell.skip = if cell.hint.is_none() { self.number() } else { 0 },
            4 => cell.parameter = self.rng.pick(&[0, 1, 5, 6, 64, 65]),
            _ => cell.children = self.rng.below(4) as u8,
        }
    }

    fn number(&mut self) -> u64 {
        if self.rng.one_in(self.taste.large_numbers) {
            self.rng.pick(&[MAX_NUMBER, MAX_NUMBER - 1, MAX_NUMBER - 3, MAX_NUMBER / 2, MAX_NUMBER / 2 + 1])
        } else {
            let end = self.rng.pick(&[2, 4, 12, 300]);
            self.rng.below(end) as u64
        }
    }

    fn below(&self, cell: &Cell, above: &Above) -> Above {
        let gathers = match cell.kind {
            kind::COALESCE_PARTITIONS | kind::SORT_PRESERVING_MERGE => true,
            ..kind::FIRST_OF_SET => false,
            _ => self.set.operator(cell.kind).is_some_and(|operator| operator.partitions != Partitions::Sum),
        };
        let looks_ahead = cell.kind == kind::WINDOW && looks_ahead(self.set, cell.parameter);
        Above {
            one_partition: !self.taste.reckless && (cell.kind == kind::GLOBAL_LIMIT || above.one_partition && !gathers),
            window_looks_ahead: above.window_looks_ahead || looks_ahead,
            parent: Some(*cell),
        }
    }
}

/// Whether an expression of the window names rows behind the current one; close enough to draw windows by.
fn looks_ahead(set: &OperatorSet, window: u16) -> bool {
    set.window(window).iter().any(|expression| {
        matches!(expression.effect, ExpressionEffect::Relative(1..)) || matches!(expression.end, EndBound::Following(1..))
    })
}
