//! The three rules of `datafusion-physical-optimizer`, compiled from the files in the folder that the variable
//! `DATAFUSION_OPTIMIZER_SRC` names. Not a line of them is changed.

// The originals are built under other lints and other crates.
#![allow(unfulfilled_lint_expectations, unused_imports)]

use std::fmt::Debug;
use std::sync::Arc;

use datafusion_common::Result;
use datafusion_common::config::ConfigOptions;
use datafusion_physical_plan::ExecutionPlan;

pub trait PhysicalOptimizerRule: Debug {
    fn optimize(&self, plan: Arc<dyn ExecutionPlan>, config: &ConfigOptions) -> Result<Arc<dyn ExecutionPlan>>;

    fn name(&self) -> &str;

    fn schema_check(&self) -> bool;
}

include!(concat!(env!("OUT_DIR"), "/rules.rs"));
