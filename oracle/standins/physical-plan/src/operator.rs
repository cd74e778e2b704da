//! Every kind from 16 on that no rule names: scans, filters, unions, and whatever an operator set holds. It answers what the
//! set says.

use std::sync::Arc;

use datafusion_common::Result;

use crate::execution_plan::{CardinalityEffect, ExecutionPlan, PlanProperties};

#[derive(Clone, Copy, Debug)]
pub enum Partitions {
    /// As many as all children have.
    Sum,
    Fixed(usize),
}

#[derive(Clone, Copy, Debug)]
pub enum KnownEmpty {
    Never,
    Always,
    /// Without children: yes.
    IfAllChildren,
}

/// What an operator set answers of a kind and a parameter.
#[derive(Clone, Copy, Debug)]
pub struct Answers {
    pub limits_pass: bool,
    pub takes_fetch: bool,
    pub takes_mark: bool,
    pub effect: CardinalityEffect,
    pub partitions: Partitions,
    pub known_empty: KnownEmpty,
}

impl Answers {
    fn properties(&self, children: &[Arc<dyn ExecutionPlan>]) -> PlanProperties {
        let of_children = || children.iter().map(|child| child.properties());
        let partitions = match self.partitions {
            Partitions::Sum => of_children().map(|child| child.partitioning.partition_count()).sum(),
            Partitions::Fixed(count) => count,
        };
        let known_empty = match self.known_empty {
            KnownEmpty::Never => false,
            KnownEmpty::Always => true,
            KnownEmpty::IfAllChildren => of_children().all(|child| child.known_empty),
        };
        PlanProperties::new(partitions, known_empty)
    }
}

/// Which operator a node is, and what it answers.
#[derive(Clone, Copy, Debug)]
pub struct Identity {
    pub kind: u8,
    pub parameter: u16,
    pub answers: Answers,
}

#[derive(Clone, Debug)]
pub struct OperatorExec {
    identity: Identity,
    fetch: Option<usize>,
    preserve_order: bool,
    children: Vec<Arc<dyn ExecutionPlan>>,
    properties: PlanProperties,
}

impl OperatorExec {
    pub fn new(identity: Identity, fetch: Option<usize>, preserve_order: bool, children: Vec<Arc<dyn ExecutionPlan>>) -> Self {
        let properties = identity.answers.properties(&children);
        Self { identity, fetch, preserve_order, children, properties }
    }

    pub fn identity(&self) -> &Identity {
        &self.identity
    }

    pub fn preserve_order(&self) -> bool {
        self.preserve_order
    }
}

impl ExecutionPlan for OperatorExec {
    fn properties(&self) -> &PlanProperties {
        &self.properties
    }

    fn children(&self) -> Vec<&Arc<dyn ExecutionPlan>> {
        self.children.iter().collect()
    }

    fn with_new_children(self: Arc<Self>, children: Vec<Arc<dyn ExecutionPlan>>) -> Result<Arc<dyn ExecutionPlan>> {
        Ok(Arc::new(Self::new(self.identity, self.fetch, self.preserve_order, children)))
    }

    fn supports_limit_pushdown(&self) -> bool {
        self.identity.answers.limits_pass
    }

    fn fetch(&self) -> Option<usize> {
        self.fetch
    }

    fn with_fetch(&self, fetch: Option<usize>) -> Option<Arc<dyn ExecutionPlan>> {
        let with_fetch = || Arc::new(Self { fetch, ..self.clone() }) as _;
        self.identity.answers.takes_fetch.then(with_fetch)
    }

    fn with_preserve_order(&self, preserve_order: bool) -> Option<Arc<dyn ExecutionPlan>> {
        let with_mark = || Arc::new(Self { preserve_order, ..self.clone() }) as _;
        self.identity.answers.takes_mark.then(with_mark)
    }

    fn cardinality_effect(&self) -> CardinalityEffect {
        self.identity.answers.effect
    }
}
