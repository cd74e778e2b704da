//! Kinds 2 and 3.
//!
//! A limit's mark is the ordering that it requires of its input; a marked limit has that ordering itself. A limit that a rule
//! makes has no mark. Decided here: where a limit's child is replaced, its mark stays.

use std::sync::Arc;

use datafusion_common::Result;

use crate::execution_plan::{ExecutionPlan, LexOrdering, PlanProperties, only_child};

#[derive(Clone, Debug)]
pub struct GlobalLimitExec {
    input: Arc<dyn ExecutionPlan>,
    skip: usize,
    fetch: Option<usize>,
    required_ordering: Option<LexOrdering>,
    properties: PlanProperties,
}

impl GlobalLimitExec {
    pub fn new(input: Arc<dyn ExecutionPlan>, skip: usize, fetch: Option<usize>) -> Self {
        let properties = PlanProperties::gathered(&input);
        Self { input, skip, fetch, required_ordering: None, properties }
    }

    pub fn with_required_ordering(mut self, ordering: Option<LexOrdering>) -> Self {
        self.required_ordering = ordering;
        self.properties = self.properties.with_ordering(ordering);
        self
    }

    pub fn input(&self) -> &Arc<dyn ExecutionPlan> {
        &self.input
    }

    pub fn skip(&self) -> usize {
        self.skip
    }

    pub fn fetch(&self) -> Option<usize> {
        self.fetch
    }

    pub fn required_ordering(&self) -> &Option<LexOrdering> {
        &self.required_ordering
    }
}

impl ExecutionPlan for GlobalLimitExec {
    fn properties(&self) -> &PlanProperties {
        &self.properties
    }

    fn children(&self) -> Vec<&Arc<dyn ExecutionPlan>> {
        vec![&self.input]
    }

    fn with_new_children(self: Arc<Self>, children: Vec<Arc<dyn ExecutionPlan>>) -> Result<Arc<dyn ExecutionPlan>> {
        let limit = Self::new(only_child(children), self.skip, self.fetch);
        Ok(Arc::new(limit.with_required_ordering(self.required_ordering)))
    }

    fn required_input_ordering(&self) -> Vec<Option<LexOrdering>> {
        vec![self.required_ordering]
    }

    fn fetch(&self) -> Option<usize> {
        self.fetch
    }

    fn with_fetch(&self, fetch: Option<usize>) -> Option<Arc<dyn ExecutionPlan>> {
        Some(Arc::new(Self { fetch, ..self.clone() }))
    }

    fn with_preserve_order(&self, preserve_order: bool) -> Option<Arc<dyn ExecutionPlan>> {
        Some(Arc::new(self.clone().with_required_ordering(preserve_order.then_some(LexOrdering))))
    }
}

#[derive(Clone, Debug)]
pub struct LocalLimitExec {
    input: Arc<dyn ExecutionPlan>,
    fetch: usize,
    required_ordering: Option<LexOrdering>,
    properties: PlanProperties,
}

impl LocalLimitExec {
    pub fn new(input: Arc<dyn ExecutionPlan>, fetch: usize) -> Self {
        let properties = PlanProperties::of_input(&input);
        Self { input, fetch, required_ordering: None, properties }
    }

    pub fn with_required_ordering(mut self, ordering: Option<LexOrdering>) -> Self {
        self.required_ordering = ordering;
        self.properties = self.properties.with_ordering(ordering);
        self
    }

    pub fn input(&self) -> &Arc<dyn ExecutionPlan> {
        &self.input
    }

    pub fn fetch(&self) -> usize {
        self.fetch
    }

    pub fn required_ordering(&self) -> &Option<LexOrdering> {
        &self.required_ordering
    }
}

impl ExecutionPlan for LocalLimitExec {
    fn properties(&self) -> &PlanProperties {
        &self.properties
    }

    fn children(&self) -> Vec<&Arc<dyn ExecutionPlan>> {
        vec![&self.input]
    }

    fn with_new_children(self: Arc<Self>, children: Vec<Arc<dyn ExecutionPlan>>) -> Result<Arc<dyn ExecutionPlan>> {
        let limit = Self::new(only_child(children), self.fetch);
        Ok(Arc::new(limit.with_required_ordering(self.required_ordering)))
    }

    fn required_input_ordering(&self) -> Vec<Option<LexOrdering>> {
        vec![self.required_ordering]
    }

    fn fetch(&self) -> Option<usize> {
        Some(self.fetch)
    }

    /// A local limit without a fetch is no plan node, so nothing is answered for none.
    fn with_fetch(&self, fetch: Option<usize>) -> Option<Arc<dyn ExecutionPlan>> {
        Some(Arc::new(Self { fetch: fetch?, ..self.clone() }))
    }

    fn with_preserve_order(&self, preserve_order: bool) -> Option<Arc<dyn ExecutionPlan>> {
        Some(Arc::new(self.clone().with_required_ordering(preserve_order.then_some(LexOrdering))))
    }
}
