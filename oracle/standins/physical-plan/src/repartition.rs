//! Kind 20 of the catalogue. Limits do not pass, and it takes no fetch; it is known empty if its input is.

use std::sync::Arc;

use datafusion_common::Result;

use crate::execution_plan::{CardinalityEffect, ExecutionPlan, Partitioning, PlanProperties, only_child};

#[derive(Debug)]
pub struct RepartitionExec {
    input: Arc<dyn ExecutionPlan>,
    properties: PlanProperties,
}

impl RepartitionExec {
    pub fn new(input: Arc<dyn ExecutionPlan>, partitions: usize) -> Self {
        let properties = PlanProperties::new(partitions, input.properties().known_empty);
        Self { input, properties }
    }

    pub fn input(&self) -> &Arc<dyn ExecutionPlan> {
        &self.input
    }

    pub fn partitioning(&self) -> &Partitioning {
        &self.properties.partitioning
    }
}

impl ExecutionPlan for RepartitionExec {
    fn properties(&self) -> &PlanProperties {
        &self.properties
    }

    fn children(&self) -> Vec<&Arc<dyn ExecutionPlan>> {
        vec![&self.input]
    }

    fn with_new_children(self: Arc<Self>, children: Vec<Arc<dyn ExecutionPlan>>) -> Result<Arc<dyn ExecutionPlan>> {
        Ok(Arc::new(Self::new(only_child(children), self.partitioning().partition_count())))
    }

    fn cardinality_effect(&self) -> CardinalityEffect {
        CardinalityEffect::Equal
    }
}
