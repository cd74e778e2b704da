//! The two switches that the rules read. Both are on: a rule that is switched off leaves every plan as it is.

#[derive(Clone, Debug)]
pub struct OptimizerOptions {
    pub enable_window_limits: bool,
    pub enable_distinct_aggregation_soft_limit: bool,
}

#[derive(Clone, Debug)]
pub struct ConfigOptions {
    pub optimizer: OptimizerOptions,
}

impl Default for ConfigOptions {
    fn default() -> Self {
        let optimizer = OptimizerOptions { enable_window_limits: true, enable_distinct_aggregation_soft_limit: true };
        Self { optimizer }
    }
}
