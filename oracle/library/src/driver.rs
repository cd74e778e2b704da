//! The driver library: the same rules under other operator sets, and on plans of up to 4,096 cells.

use std::ffi::c_int;

use cells::Rule;
use cells::sets::{EndBound, Expression, ExpressionEffect, Unit};

/// An operator that a declared set holds.
#[repr(C)]
#[derive(Clone, Copy, Debug)]
pub struct DeclarationRow {
    pub kind: u8,
    /// 0 source, 1 row for row, 2 each partition, 3 gathering.
    pub shape: u8,
    pub fetch: bool,
    pub mark: bool,
    /// 0 unknown, 1 lower or equal, 2 equal, 3 greater or equal.
    pub effect: u8,
    pub number: u32,
}

/// An operator of a set with arbitrary answers.
#[repr(C)]
#[derive(Clone, Copy, Debug)]
pub struct OperatorRow {
    pub kind: u8,
    pub least: u8,
    pub most: u8,
    pub passes: bool,
    pub fetch: bool,
    pub mark: bool,
    /// As in a [`DeclarationRow`].
    pub effect: u8,
    /// 0 never, 1 always, 2 if all children are.
    pub known_empty: u8,
    /// Whether `partitions` counts; else the children's are added up.
    pub fixed: bool,
    pub partitions: u32,
}

/// A window's expression.
#[repr(C)]
#[derive(Clone, Copy, Debug)]
pub struct ExprRow {
    /// 0 none, 1 unknown, 2 relative, 3 absolute.
    pub effect: u8,
    pub effect_number: u64,
    /// 0 rows, else other.
    pub units: u8,
    /// 0 preceding, 1 current row, 2 following, 3 other.
    pub end: u8,
    pub end_number: u64,
}

impl From<&Expression> for ExprRow {
    fn from(expression: &Expression) -> Self {
        let (effect, effect_number) = match expression.effect {
            ExpressionEffect::None => (0, 0),
            ExpressionEffect::Unknown => (1, 0),
            ExpressionEffect::Relative(rows) => (2, rows),
            ExpressionEffect::Absolute(rows) => (3, rows),
        };
        let (end, end_number) = match expression.end {
            EndBound::Preceding => (0, 0),
            EndBound::CurrentRow => (1, 0),
            EndBound::Following(rows) => (2, rows),
            EndBound::Other => (3, 0),
        };
        Self { effect, effect_number, units: u8::from(expression.unit != Unit::Rows), end, end_number }
    }
}

/// What is answered of an aggregate's parameter.
#[repr(C)]
#[derive(Clone, Copy, Debug)]
pub struct GroupRow {
    pub group: u32,
    pub plain: bool,
}

/// A set with arbitrary answers. Window `p` has the expressions `p * width .. (p + 1) * width`.
#[derive(Clone, Debug)]
pub struct Table {
    pub operators: Vec<OperatorRow>,
    pub expressions: Vec<ExprRow>,
    pub width: usize,
    pub groups: Vec<GroupRow>,
}

mod c {
    use super::{DeclarationRow, ExprRow, GroupRow, OperatorRow, c_int};

    unsafe extern "C" {
        pub fn driver_declared(
            rule: u8,
            rows: *const DeclarationRow,
            n: usize,
            plan: *const u8,
            plan_len: usize,
            out: *mut u8,
            out_len: usize,
        ) -> c_int;

        pub fn driver_table(
            rule: u8,
            operators: *const OperatorRow,
            n: usize,
            exprs: *const ExprRow,
            n_exprs: usize,
            width: usize,
            groups: *const GroupRow,
            n_groups: usize,
            plan: *const u8,
            plan_len: usize,
            out: *mut u8,
            out_len: usize,
        ) -> c_int;

        pub fn driver_repeat(rule: u8, plan: *const u8, plan_len: usize, times: usize) -> c_int;
    }
}

fn number(rule: Rule) -> u8 {
    rule as u8
}

/// Calls the rule under a declared set.
pub fn declared(rule: Rule, rows: &[DeclarationRow], plan: &[u8], out: &mut [u8]) -> i32 {
    // SAFETY: each pointer comes with the length of its slice, and the one mutable slice overlaps none of the others.
    unsafe {
        c::driver_declared(number(rule), rows.as_ptr(), rows.len(), plan.as_ptr(), plan.len(), out.as_mut_ptr(), out.len())
    }
}

/// Calls the rule under a set with arbitrary answers.
pub fn table(rule: Rule, set: &Table, plan: &[u8], out: &mut [u8]) -> i32 {
    let Table { operators, expressions, width, groups } = set;
    // SAFETY: as above.
    unsafe {
        c::driver_table(
            number(rule),
            operators.as_ptr(),
            operators.len(),
            expressions.as_ptr(),
            expressions.len(),
            *width,
            groups.as_ptr(),
            groups.len(),
            plan.as_ptr(),
            plan.len(),
            out.as_mut_ptr(),
            out.len(),
        )
    }
}

/// Unpacks the plan once, and calls the rule on its cells so many times, under the catalogue set.
pub fn repeat(rule: Rule, plan: &[u8], times: usize) -> i32 {
    // SAFETY: the library reads `plan.len()` bytes at `plan`.
    unsafe { c::driver_repeat(number(rule), plan.as_ptr(), plan.len(), times) }
}
