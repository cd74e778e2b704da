//! Window expressions of an operator set as stand-in expressions.
//!
//! One description can be written as several of the original's types: an expression without an effect is an aggregate of either
//! sort or a function that says so, and an unknown one is a function that says so or one that says nothing. Which of them it
//! becomes follows from its place among the expressions, so that every way through the original is taken.

use std::any::Any;
use std::sync::Arc;

use cells::sets::{EndBound, Expression, ExpressionEffect, Unit};
use datafusion_common::ScalarValue;
use datafusion_expr::{LimitEffect, WindowFrame, WindowFrameBound, WindowFrameUnits};
use datafusion_physical_expr::window::{
    PlainAggregateWindowExpr, SlidingAggregateWindowExpr, StandardWindowExpr, StandardWindowFunctionExpr, WindowExpr,
};
use datafusion_physical_plan::windows::WindowUDFExpr;

/// A function that does not say which rows it needs.
#[derive(Debug)]
struct SilentFunction;

impl StandardWindowFunctionExpr for SilentFunction {
    fn as_any(&self) -> &dyn Any {
        self
    }
}

pub fn expressions(of: &[Expression]) -> Vec<Arc<dyn WindowExpr>> {
    of.iter().enumerate().map(|(place, expression)| window_expr(place, expression)).collect()
}

fn window_expr(place: usize, expression: &Expression) -> Arc<dyn WindowExpr> {
    let frame = frame(place, expression);
    let function = |effect| -> Arc<dyn StandardWindowFunctionExpr> { Arc::new(WindowUDFExpr::new(effect)) };
    match expression.effect {
        ExpressionEffect::None => match place % 3 {
            0 => Arc::new(PlainAggregateWindowExpr::new(frame)),
            1 => Arc::new(SlidingAggregateWindowExpr::new(frame)),
            _ => Arc::new(StandardWindowExpr::new(function(LimitEffect::None), frame)),
        },
        ExpressionEffect::Unknown => match place % 2 {
            0 => Arc::new(StandardWindowExpr::new(function(LimitEffect::Unknown), frame)),
            _ => Arc::new(StandardWindowExpr::new(Arc::new(SilentFunction), frame)),
        },
        ExpressionEffect::Relative(rows) => {
            Arc::new(StandardWindowExpr::new(function(LimitEffect::Relative(rows as usize)), frame))
        }
        ExpressionEffect::Absolute(rows) => {
            Arc::new(StandardWindowExpr::new(function(LimitEffect::Absolute(rows as usize)), frame))
        }
    }
}

fn frame(place: usize, expression: &Expression) -> WindowFrame {
    let odd = place % 2 == 1;
    let units = match expression.unit {
        Unit::Rows => WindowFrameUnits::Rows,
        Unit::Other if odd => WindowFrameUnits::Groups,
        Unit::Other => WindowFrameUnits::Range,
    };
    let end_bound = match expression.end {
        EndBound::Preceding => WindowFrameBound::Preceding(ScalarValue::UInt64(Some(1))),
        EndBound::CurrentRow => WindowFrameBound::CurrentRow,
        EndBound::Following(rows) => WindowFrameBound::Following(ScalarValue::UInt64(Some(rows))),
        // Without a number the frame ends at the last row; a number of another type is no count of rows.
        EndBound::Other if odd => WindowFrameBound::Following(ScalarValue::Int64(Some(1))),
        EndBound::Other => WindowFrameBound::Following(ScalarValue::UInt64(None)),
    };
    WindowFrame { units, end_bound }
}
