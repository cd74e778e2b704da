//! Plans as tables of cells, as `docs/plans.md` has them: the cells, their packed records, their notation, and descriptions of
//! operator sets.

pub mod kind;
pub mod notation;
pub mod records;
pub mod sets;

/// The largest number that a skip, fetch or hint may have.
pub const MAX_NUMBER: u64 = (1 << 40) - 1;

/// The most cells that a plan may have.
pub const MAX_CELLS: usize = 4096;

/// One node of a plan.
#[derive(Clone, Copy, Debug, Default, PartialEq, Eq, Hash)]
pub struct Cell {
    pub kind: u8,
    pub children: u8,
    pub parameter: u16,
    pub mark: bool,
    pub fetch: Option<u64>,
    pub hint: Option<u64>,
    pub skip: u64,
}

impl Cell {
    pub fn new(kind: u8, children: u8) -> Self {
        Self { kind, children, ..Self::default() }
    }

    pub fn is_limit(&self) -> bool {
        matches!(self.kind, kind::GLOBAL_LIMIT | kind::LOCAL_LIMIT)
    }
}

/// The three rules.
#[derive(Clone, Copy, Debug, PartialEq, Eq, Hash)]
pub enum Rule {
    Sink,
    Grow,
    Hint,
}

impl Rule {
    pub const ALL: [Self; 3] = [Self::Sink, Self::Grow, Self::Hint];

    pub fn name(self) -> &'static str {
        match self {
            Self::Sink => "sink",
            Self::Grow => "grow",
            Self::Hint => "hint",
        }
    }

    pub fn named(name: &str) -> Option<Self> {
        Self::ALL.into_iter().find(|rule| rule.name() == name)
    }
}

/// A refusal's number and its place.
#[derive(Clone, Copy, Debug, PartialEq, Eq)]
pub struct Fault {
    pub number: u8,
    pub place: usize,
}
