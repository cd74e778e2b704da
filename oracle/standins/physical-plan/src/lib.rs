//! Stand-in for the plan nodes of `datafusion-physical-plan`, and for what the three rules ask of them.
//!
//! What a node answers is what `docs/plans.md` and `docs/operators.md` say of its kind. Each node also holds what a cell has and
//! the rules do not look at, such as the parameter, so that a tree can be read back as cells.

pub mod aggregates;
pub mod coalesce_partitions;
pub mod empty;
pub mod execution_plan;
pub mod limit;
pub mod operator;
pub mod placeholder_row;
pub mod projection;
pub mod repartition;
pub mod sorts;
pub mod statistics;
pub mod windows;

pub use execution_plan::{ExecutionPlan, ExecutionPlanProperties, LexOrdering, Partitioning, PlanProperties};
