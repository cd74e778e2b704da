//! Operator sets (`docs/operators.md`), as plain data.

use std::ops::RangeInclusive;

use crate::kind;

/// How many rows a node gives, held against how many it reads. In rows of the driver it is the number of its place here.
#[derive(Clone, Copy, Debug, PartialEq, Eq)]
pub enum Effect {
    Unknown,
    LowerEqual,
    Equal,
    GreaterEqual,
}

#[derive(Clone, Copy, Debug, PartialEq, Eq)]
pub enum Partitions {
    Sum,
    Fixed(u32),
    /// As many as the parameter says.
    Parameter,
}

/// Whether it is known that a node gives no rows. In rows of the driver it is the number of its place here.
#[derive(Clone, Copy, Debug, PartialEq, Eq)]
pub enum KnownEmpty {
    Never,
    Always,
    IfAllChildren,
}

/// What a set answers of a kind from 16 on.
#[derive(Clone, Debug)]
pub struct Operator {
    pub kind: u8,
    pub children: RangeInclusive<u8>,
    pub parameters: RangeInclusive<u16>,
    pub limits_pass: bool,
    pub takes_fetch: bool,
    pub takes_mark: bool,
    pub effect: Effect,
    pub partitions: Partitions,
    pub known_empty: KnownEmpty,
}

/// Which rows a window's expression needs beside those of its frame.
#[derive(Clone, Copy, Debug, PartialEq, Eq)]
pub enum ExpressionEffect {
    None,
    Unknown,
    Relative(u64),
    Absolute(u64),
}

#[derive(Clone, Copy, Debug, PartialEq, Eq)]
pub enum Unit {
    Rows,
    Other,
}

/// Where a frame ends.
#[derive(Clone, Copy, Debug, PartialEq, Eq)]
pub enum EndBound {
    Preceding,
    CurrentRow,
    Following(u64),
    Other,
}

#[derive(Clone, Copy, Debug, PartialEq, Eq)]
pub struct Expression {
    pub effect: ExpressionEffect,
    pub unit: Unit,
    pub end: EndBound,
}

impl Expression {
    /// One of which nothing is known.
    pub const UNKNOWN: Self = Self { effect: ExpressionEffect::Unknown, unit: Unit::Other, end: EndBound::Other };

    const fn rows(effect: ExpressionEffect, end: EndBound) -> Self {
        Self { effect, unit: Unit::Rows, end }
    }
}

/// An aggregate's group number, and whether it is plain distinct.
#[derive(Clone, Copy, Debug, PartialEq, Eq)]
pub struct Group {
    pub number: u32,
    pub plain_distinct: bool,
}

#[derive(Clone, Debug)]
pub enum Groups {
    /// The number is half the parameter, and even parameters are plain distinct.
    Halves,
    /// By the parameter; outside the list 0, and not plain distinct.
    Listed(Vec<Group>),
}

/// Which parameters of a kind fit.
#[derive(Clone, Copy, Debug, PartialEq, Eq)]
pub enum Parameters {
    Any,
    None,
    Below(u16),
}

impl Parameters {
    pub fn hold(self, parameter: u16) -> bool {
        match self {
            Self::Any => true,
            Self::None => false,
            Self::Below(end) => parameter < end,
        }
    }
}

#[derive(Clone, Debug)]
pub struct OperatorSet {
    pub operators: Vec<Operator>,
    /// The expressions of each window, by its parameter.
    pub windows: Vec<Vec<Expression>>,
    pub window_parameters: Parameters,
    pub groups: Groups,
    pub aggregate_parameters: Parameters,
}

impl OperatorSet {
    /// The first operator of that kind.
    pub fn operator(&self, kind: u8) -> Option<&Operator> {
        self.operators.iter().find(|operator| operator.kind == kind)
    }

    pub fn window(&self, parameter: u16) -> &[Expression] {
        self.windows.get(usize::from(parameter)).map_or(&[Expression::UNKNOWN], Vec::as_slice)
    }

    pub fn group(&self, parameter: u16) -> Group {
        match &self.groups {
            Groups::Halves => Group { number: u32::from(parameter / 2), plain_distinct: parameter.is_multiple_of(2) },
            Groups::Listed(groups) => {
                let outside = Group { number: 0, plain_distinct: false };
                groups.get(usize::from(parameter)).copied().unwrap_or(outside)
            }
        }
    }

    /// The catalogue set.
    pub fn catalogue() -> Self {
        Self {
            operators: catalogue_operators(),
            windows: catalogue_windows(),
            window_parameters: Parameters::Below(6),
            groups: Groups::Halves,
            aggregate_parameters: Parameters::Any,
        }
    }
}

fn catalogue_operators() -> Vec<Operator> {
    let scan = Operator {
        kind: kind::SCAN,
        children: 0..=0,
        parameters: 1..=64,
        limits_pass: false,
        takes_fetch: true,
        takes_mark: true,
        effect: Effect::Unknown,
        partitions: Partitions::Parameter,
        known_empty: KnownEmpty::Never,
    };
    let filter = Operator {
        kind: kind::FILTER,
        children: 1..=1,
        parameters: 0..=u16::MAX,
        takes_mark: false,
        effect: Effect::LowerEqual,
        partitions: Partitions::Sum,
        known_empty: KnownEmpty::IfAllChildren,
        ..scan.clone()
    };
    let union = Operator {
        kind: kind::UNION,
        children: 1..=63,
        limits_pass: true,
        takes_fetch: false,
        effect: Effect::Equal,
        ..filter.clone()
    };
    let repartition = Operator {
        kind: kind::REPARTITION,
        children: 1..=1,
        parameters: 1..=64,
        limits_pass: false,
        partitions: Partitions::Parameter,
        ..union.clone()
    };
    vec![scan, filter, union, repartition]
}

fn catalogue_windows() -> Vec<Vec<Expression>> {
    use EndBound::{CurrentRow, Following, Preceding};
    use ExpressionEffect::{Absolute, None, Relative};
    vec![
        vec![Expression::rows(None, CurrentRow)],
        vec![Expression::rows(None, Following(3))],
        vec![Expression::rows(Relative(2), Following(1))],
        vec![Expression { effect: None, unit: Unit::Other, end: CurrentRow }],
        vec![Expression::rows(Absolute(3), CurrentRow)],
        vec![Expression::rows(None, Following(3)), Expression::rows(Relative(2), Preceding)],
    ]
}
