//! What the rules ask of a plan node.

use std::any::Any;
use std::fmt::Debug;
use std::sync::Arc;

use datafusion_common::Result;
use datafusion_common::tree_node::DynTreeNode;

/// How many rows a node gives, held against how many it reads.
#[derive(Clone, Copy, Debug, PartialEq, Eq)]
pub enum CardinalityEffect {
    Unknown,
    Equal,
    LowerEqual,
    GreaterEqual,
}

/// An ordering. The rules ask only whether there is one.
#[derive(Clone, Copy, Debug, PartialEq, Eq)]
pub struct LexOrdering;

#[derive(Clone, Copy, Debug, PartialEq, Eq)]
pub struct Partitioning {
    count: usize,
}

impl Partitioning {
    pub fn new(count: usize) -> Self {
        Self { count }
    }

    pub fn partition_count(&self) -> usize {
        self.count
    }
}

/// What is known of a node without its rows. Every node finds it once, when it is made, from its children's.
#[derive(Clone, Copy, Debug)]
pub struct PlanProperties {
    pub partitioning: Partitioning,
    pub ordering: Option<LexOrdering>,
    /// It is known from the plan alone that the node gives no rows.
    pub known_empty: bool,
}

impl PlanProperties {
    /// Those of a node without an ordering.
    pub fn new(partitions: usize, known_empty: bool) -> Self {
        Self { partitioning: Partitioning::new(partitions), ordering: None, known_empty }
    }

    /// Those of a node that has its input's partitions, and is known empty if its input is.
    pub fn of_input(input: &Arc<dyn ExecutionPlan>) -> Self {
        Self { ordering: None, ..*input.properties() }
    }

    /// Those of a node that makes one partition, and is known empty if its input is.
    pub fn gathered(input: &Arc<dyn ExecutionPlan>) -> Self {
        Self::new(1, input.properties().known_empty)
    }

    pub fn with_ordering(mut self, ordering: Option<LexOrdering>) -> Self {
        self.ordering = ordering;
        self
    }
}

/// The answers given here are those of a node of which nothing else is said: limits do not pass, and it takes neither fetch nor
/// mark.
pub trait ExecutionPlan: Any + Debug + Send + Sync {
    fn properties(&self) -> &PlanProperties;

    fn children(&self) -> Vec<&Arc<dyn ExecutionPlan>>;

    /// The same node over other children: everything else that its cell holds stays.
    fn with_new_children(self: Arc<Self>, children: Vec<Arc<dyn ExecutionPlan>>) -> Result<Arc<dyn ExecutionPlan>>;

    fn required_input_ordering(&self) -> Vec<Option<LexOrdering>> {
        vec![None; self.children().len()]
    }

    fn supports_limit_pushdown(&self) -> bool {
        false
    }

    fn fetch(&self) -> Option<usize> {
        None
    }

    /// The node with that fetch, where it takes one.
    fn with_fetch(&self, _fetch: Option<usize>) -> Option<Arc<dyn ExecutionPlan>> {
        None
    }

    /// The node with that mark, where it takes one.
    fn with_preserve_order(&self, _preserve_order: bool) -> Option<Arc<dyn ExecutionPlan>> {
        None
    }

    fn cardinality_effect(&self) -> CardinalityEffect {
        CardinalityEffect::Unknown
    }
}

impl dyn ExecutionPlan {
    pub fn is<T: ExecutionPlan>(&self) -> bool {
        (self as &dyn Any).is::<T>()
    }

    pub fn downcast_ref<T: ExecutionPlan>(&self) -> Option<&T> {
        (self as &dyn Any).downcast_ref()
    }
}

pub trait ExecutionPlanProperties {
    fn output_partitioning(&self) -> &Partitioning;

    fn output_ordering(&self) -> Option<&LexOrdering>;
}

impl ExecutionPlanProperties for Arc<dyn ExecutionPlan> {
    fn output_partitioning(&self) -> &Partitioning {
        &self.properties().partitioning
    }

    fn output_ordering(&self) -> Option<&LexOrdering> {
        self.properties().ordering.as_ref()
    }
}

impl DynTreeNode for dyn ExecutionPlan {
    fn arc_children(&self) -> Vec<&Arc<Self>> {
        self.children()
    }

    fn with_new_arc_children(self: Arc<Self>, children: Vec<Arc<Self>>) -> Result<Arc<Self>> {
        replace_children_if_necessary(self, children)
    }
}

/// The plan over other children, or the plan itself where they are the ones that it has.
pub fn replace_children_if_necessary(
    plan: Arc<dyn ExecutionPlan>,
    children: Vec<Arc<dyn ExecutionPlan>>,
) -> Result<Arc<dyn ExecutionPlan>> {
    let same = plan.children().into_iter().zip(&children).all(|(old, new)| Arc::ptr_eq(old, new));
    if same { Ok(plan) } else { plan.with_new_children(children) }
}

/// The child of a node that has one.
pub(crate) fn only_child(children: Vec<Arc<dyn ExecutionPlan>>) -> Arc<dyn ExecutionPlan> {
    let [child] = <[_; 1]>::try_from(children).expect("one child is replaced by one");
    child
}
