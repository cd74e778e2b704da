//! Every accepted plan up to a size, over an alphabet of cells.

use cells::{Cell, MAX_NUMBER, kind};

use crate::comparison::{Comparison, Difference};

/// The cells that plans are made of.
pub struct Alphabet {
    cells: Vec<Cell>,
}

impl Alphabet {
    /// Every kind, with the numbers 0, 1, 2 and the largest wherever a number may stand.
    pub fn rich() -> Self {
        Self::of(&[0, 1, 2, MAX_NUMBER], &[0, 1, 2, MAX_NUMBER], &[0, 1, 2, 3, 4, 5], &[0, 1, 2, 3])
    }

    /// Every window and two groups, and fewer numbers.
    pub fn middle() -> Self {
        Self::of(&[0, 2, MAX_NUMBER], &[0, 1], &[0, 1, 2, 3, 4, 5], &[0, 1, 2])
    }

    /// Fewer windows and numbers, for larger plans.
    pub fn lean() -> Self {
        Self::of(&[0, 2], &[0, 1], &[0, 1, 2, 3], &[0, 2])
    }

    /// Fewer still: one number of each sort.
    pub fn core() -> Self {
        Self::of(&[2], &[0, 1], &[1], &[0])
    }

    fn of(fetches: &[u64], skips: &[u64], windows: &[u16], aggregates: &[u16]) -> Self {
        let rich = fetches.len() > 3;
        let optional: Vec<Option<u64>> = [None].into_iter().chain(fetches.iter().copied().map(Some)).collect();
        let mut cells = vec![Cell::new(kind::EMPTY, 0), Cell::new(kind::PLACEHOLDER_ROW, 0)];
        cells
            .extend((1..=2).flat_map(|parameter| with_marks(with_fetches(scan(parameter), &optional), rich || parameter == 1)));
        for skip in skips {
            let limit = Cell { skip: *skip, ..Cell::new(kind::GLOBAL_LIMIT, 1) };
            cells.extend(with_marks(with_fetches(limit, &optional), rich || *skip == 0));
        }
        cells.extend(with_marks(with_fetches(Cell::new(kind::LOCAL_LIMIT, 1), &optional[1..]), rich));
        cells.push(Cell::new(kind::PROJECTION, 1));
        for of in [kind::COALESCE_PARTITIONS, kind::SORT_PRESERVING_MERGE, kind::SORT, kind::FILTER] {
            cells.extend(with_fetches(Cell::new(of, 1), &optional));
        }
        cells.extend(windows.iter().map(|window| Cell { parameter: *window, ..Cell::new(kind::WINDOW, 1) }));
        for aggregate in aggregates {
            let aggregate = Cell { parameter: *aggregate, ..Cell::new(kind::AGGREGATE, 1) };
            cells.extend(optional.iter().map(|hint| Cell { hint: *hint, ..aggregate }));
        }
        cells.extend((1..=3).map(|children| Cell::new(kind::UNION, children)));
        cells.extend((1..=2).map(|parameter| Cell { parameter, ..Cell::new(kind::REPARTITION, 1) }));
        Self { cells }
    }

    pub fn len(&self) -> usize {
        self.cells.len()
    }

    pub fn is_empty(&self) -> bool {
        self.cells.is_empty()
    }
}

fn scan(parameter: u16) -> Cell {
    Cell { parameter, ..Cell::new(kind::SCAN, 0) }
}

fn with_fetches(cell: Cell, fetches: &[Option<u64>]) -> Vec<Cell> {
    fetches.iter().map(|fetch| Cell { fetch: *fetch, ..cell }).collect()
}

fn with_marks(cells: Vec<Cell>, marks: bool) -> Vec<Cell> {
    let marked: Vec<Cell> = cells.iter().filter(|_| marks).map(|cell| Cell { mark: true, ..*cell }).collect();
    [cells, marked].concat()
}

/// Compares every accepted plan of up to `most` cells.
pub fn compare(comparison: &mut Comparison, alphabet: &Alphabet, most: usize) -> Result<u64, Box<Difference>> {
    let mut plans = 0;
    each_plan(alphabet, most, &mut |cells| {
        plans += 1;
        comparison.every_rule(cells)
    })?;
    Ok(plans)
}

/// Calls `visit` on every accepted plan of up to `most` cells.
pub fn each_plan<E>(alphabet: &Alphabet, most: usize, visit: &mut impl FnMut(&[Cell]) -> Result<(), E>) -> Result<(), E> {
    let mut prefix =
        Prefix { alphabet, cells: Vec::with_capacity(most), due: vec![Due { one_partition: false, parent: None }] };
    prefix.extend(most, visit)
}

/// A subtree that is to come.
#[derive(Clone, Copy)]
struct Due {
    /// It stands below a global limit that counts on one partition.
    one_partition: bool,
    parent: Option<Cell>,
}

/// The first cells of a plan.
struct Prefix<'a> {
    alphabet: &'a Alphabet,
    cells: Vec<Cell>,
    due: Vec<Due>,
}

impl Prefix<'_> {
    /// Goes through all plans that begin with these cells and have at most `left` more.
    fn extend<E>(&mut self, left: usize, visit: &mut impl FnMut(&[Cell]) -> Result<(), E>) -> Result<(), E> {
        let Some(next) = self.due.pop() else {
            return visit(&self.cells);
        };
        for place in 0..self.alphabet.cells.len() {
            let cell = self.alphabet.cells[place];
            // Each subtree that is due takes at least one cell.
            let takes_at_least = 1 + usize::from(cell.children) + self.due.len();
            if takes_at_least > left || !may_stand(&cell, &next) {
                continue;
            }
            let due = self.due.len();
            let below = Due { one_partition: needs_one_below(&cell, &next), parent: Some(cell) };
            self.due.resize(due + usize::from(cell.children), below);
            self.cells.push(cell);
            self.extend(left - 1, visit)?;
            self.cells.pop();
            self.due.truncate(due);
        }
        self.due.push(next);
        Ok(())
    }
}

fn may_stand(cell: &Cell, due: &Due) -> bool {
    let several_partitions = match cell.kind {
        kind::SCAN | kind::REPARTITION => cell.parameter > 1,
        kind::UNION => cell.children > 1,
        _ => false,
    };
    !(due.one_partition && several_partitions) && hint_may_stand(cell, due.parent.as_ref())
}

fn hint_may_stand(cell: &Cell, parent: Option<&Cell>) -> bool {
    let (Some(hint), Some(parent)) = (cell.hint, parent) else {
        return cell.hint.is_none();
    };
    let from = if parent.is_limit() {
        parent.fetch.map(|fetch| if fetch == 0 { 0 } else { parent.skip + fetch })
    } else {
        parent.hint.filter(|_| parent.parameter / 2 == cell.parameter / 2)
    };
    cell.parameter.is_multiple_of(2) && from.is_some_and(|from| from <= hint)
}

fn needs_one_below(cell: &Cell, due: &Due) -> bool {
    match cell.kind {
        kind::GLOBAL_LIMIT => true,
        kind::COALESCE_PARTITIONS | kind::SORT_PRESERVING_MERGE | kind::REPARTITION => false,
        _ => due.one_partition,
    }
}
