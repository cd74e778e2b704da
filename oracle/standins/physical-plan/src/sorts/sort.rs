//! Kind 7: sorts each partition. Limits do not pass; it takes a fetch.

use std::sync::Arc;

use datafusion_common::Result;

use crate::execution_plan::{ExecutionPlan, PlanProperties, only_child};

#[derive(Clone, Debug)]
pub struct SortExec {
    input: Arc<dyn ExecutionPlan>,
    parameter: u16,
    fetch: Option<usize>,
    properties: PlanProperties,
}

impl SortExec {
    pub fn new(input: Arc<dyn ExecutionPlan>, parameter: u16, fetch: Option<usize>) -> Self {
        let properties = PlanProperties::of_input(&input);
        Self { input, parameter, fetch, properties }
    }

    pub fn parameter(&self) -> u16 {
        self.parameter
    }
}

impl ExecutionPlan for SortExec {
    fn properties(&self) -> &PlanProperties {
        &self.properties
    }

    fn children(&self) -> Vec<&Arc<dyn ExecutionPlan>> {
        vec![&self.input]
    }

    fn with_new_children(self: Arc<Self>, children: Vec<Arc<dyn ExecutionPlan>>) -> Result<Arc<dyn ExecutionPlan>> {
        Ok(Arc::new(Self::new(only_child(children), self.parameter, self.fetch)))
    }

    fn fetch(&self) -> Option<usize> {
        self.fetch
    }

    fn with_fetch(&self, fetch: Option<usize>) -> Option<Arc<dyn ExecutionPlan>> {
        Some(Arc::new(Self { fetch, ..self.clone() }))
    }
}
