//! Kind 6: merges its input's partitions into one. Limits pass, and it takes a fetch.

use std::sync::Arc;

use datafusion_common::Result;

use crate::execution_plan::{CardinalityEffect, ExecutionPlan, PlanProperties, only_child};

#[derive(Clone, Debug)]
pub struct SortPreservingMergeExec {
    input: Arc<dyn ExecutionPlan>,
    parameter: u16,
    fetch: Option<usize>,
    properties: PlanProperties,
}

impl SortPreservingMergeExec {
    pub fn new(input: Arc<dyn ExecutionPlan>, parameter: u16, fetch: Option<usize>) -> Self {
        let properties = PlanProperties::gathered(&input);
        Self { input, parameter, fetch, properties }
    }

    pub fn parameter(&self) -> u16 {
        self.parameter
    }

    pub fn fetch(&self) -> Option<usize> {
        self.fetch
    }
}

impl ExecutionPlan for SortPreservingMergeExec {
    fn properties(&self) -> &PlanProperties {
        &self.properties
    }

    fn children(&self) -> Vec<&Arc<dyn ExecutionPlan>> {
        vec![&self.input]
    }

    fn with_new_children(self: Arc<Self>, children: Vec<Arc<dyn ExecutionPlan>>) -> Result<Arc<dyn ExecutionPlan>> {
        Ok(Arc::new(Self::new(only_child(children), self.parameter, self.fetch)))
    }

    fn supports_limit_pushdown(&self) -> bool {
        true
    }

    fn fetch(&self) -> Option<usize> {
        self.fetch
    }

    fn with_fetch(&self, fetch: Option<usize>) -> Option<Arc<dyn ExecutionPlan>> {
        Some(Arc::new(Self { fetch, ..self.clone() }))
    }

    fn cardinality_effect(&self) -> CardinalityEffect {
        CardinalityEffect::Equal
    }
}
