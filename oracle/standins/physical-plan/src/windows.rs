//! Kind 8: a window over each partition. Limits do not pass, and it takes no fetch.

use std::any::Any;
use std::sync::Arc;

use datafusion_common::Result;
use datafusion_expr::LimitEffect;
use datafusion_physical_expr::window::{StandardWindowFunctionExpr, WindowExpr};

use crate::execution_plan::{ExecutionPlan, PlanProperties, only_child};

/// A window function that says which rows it needs.
#[derive(Debug)]
pub struct WindowUDFExpr {
    limit_effect: LimitEffect,
}

impl WindowUDFExpr {
    pub fn new(limit_effect: LimitEffect) -> Self {
        Self { limit_effect }
    }

    pub fn limit_effect(&self) -> LimitEffect {
        self.limit_effect
    }
}

impl StandardWindowFunctionExpr for WindowUDFExpr {
    fn as_any(&self) -> &dyn Any {
        self
    }
}

#[derive(Debug)]
pub struct BoundedWindowAggExec {
    input: Arc<dyn ExecutionPlan>,
    window_expr: Vec<Arc<dyn WindowExpr>>,
    parameter: u16,
    properties: PlanProperties,
}

impl BoundedWindowAggExec {
    pub fn new(input: Arc<dyn ExecutionPlan>, window_expr: Vec<Arc<dyn WindowExpr>>, parameter: u16) -> Self {
        let properties = PlanProperties::of_input(&input);
        Self { input, window_expr, parameter, properties }
    }

    pub fn window_expr(&self) -> &[Arc<dyn WindowExpr>] {
        &self.window_expr
    }

    pub fn parameter(&self) -> u16 {
        self.parameter
    }
}

impl ExecutionPlan for BoundedWindowAggExec {
    fn properties(&self) -> &PlanProperties {
        &self.properties
    }

    fn children(&self) -> Vec<&Arc<dyn ExecutionPlan>> {
        vec![&self.input]
    }

    fn with_new_children(self: Arc<Self>, children: Vec<Arc<dyn ExecutionPlan>>) -> Result<Arc<dyn ExecutionPlan>> {
        Ok(Arc::new(Self::new(only_child(children), self.window_expr.clone(), self.parameter)))
    }
}
