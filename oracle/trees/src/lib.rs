//! Cells as trees of stand-in nodes, and back; and the original rules on cells.

mod read;
mod windows;

use std::sync::Arc;

use cells::sets::{Effect, KnownEmpty, Operator, OperatorSet, Partitions};
use cells::{Cell, Rule, kind};
use datafusion_common::config::ConfigOptions;
use datafusion_physical_expr::window::WindowExpr;
use datafusion_physical_optimizer::PhysicalOptimizerRule;
use datafusion_physical_optimizer::limit_pushdown::LimitPushdown;
use datafusion_physical_optimizer::limit_pushdown_past_window::LimitPushPastWindows;
use datafusion_physical_optimizer::limited_distinct_aggregation::LimitedDistinctAggregation;
use datafusion_physical_plan::aggregates::{AggregateExec, LimitOptions, PhysicalGroupBy};
use datafusion_physical_plan::coalesce_partitions::CoalescePartitionsExec;
use datafusion_physical_plan::empty::EmptyExec;
use datafusion_physical_plan::execution_plan::CardinalityEffect;
use datafusion_physical_plan::limit::{GlobalLimitExec, LocalLimitExec};
use datafusion_physical_plan::operator::{self, Answers, Identity, OperatorExec};
use datafusion_physical_plan::placeholder_row::PlaceholderRowExec;
use datafusion_physical_plan::projection::ProjectionExec;
use datafusion_physical_plan::repartition::RepartitionExec;
use datafusion_physical_plan::sorts::sort::SortExec;
use datafusion_physical_plan::sorts::sort_preserving_merge::SortPreservingMergeExec;
use datafusion_physical_plan::windows::BoundedWindowAggExec;
use datafusion_physical_plan::{ExecutionPlan, LexOrdering};

pub use read::cells_of;

pub type Plan = Arc<dyn ExecutionPlan>;

/// Whether kind 20 is the node that the originals know as a repartition. It is in the catalogue; in other sets kind 20 may be
/// anything, and answers what the set says.
#[derive(Clone, Copy, Debug, PartialEq, Eq)]
pub enum Kind20 {
    Repartition,
    Operator,
}

/// The original rules, on plans under one operator set.
pub struct Originals<'a> {
    set: &'a OperatorSet,
    windows: Vec<Vec<Arc<dyn WindowExpr>>>,
    kind20: Kind20,
    config: ConfigOptions,
}

impl<'a> Originals<'a> {
    pub fn new(set: &'a OperatorSet, kind20: Kind20) -> Self {
        let windows = set.windows.iter().map(|expressions| windows::expressions(expressions)).collect();
        Self { set, windows, kind20, config: ConfigOptions::default() }
    }

    /// The tree of the cells, which are those of an accepted plan.
    pub fn plan(&self, cells: &[Cell]) -> Plan {
        let mut trees: Vec<Plan> = Vec::with_capacity(cells.len());
        for cell in cells.iter().rev() {
            let children = trees.split_off(trees.len() - usize::from(cell.children));
            trees.push(self.node(cell, children.into_iter().rev().collect()));
        }
        let root = trees.pop();
        root.filter(|_| trees.is_empty()).expect("the cells are one tree")
    }

    /// What the original rule makes of a plan.
    pub fn optimize(&self, rule: Rule, plan: Plan) -> Plan {
        let optimized = match rule {
            Rule::Sink => LimitPushdown::new().optimize(plan, &self.config),
            Rule::Grow => LimitPushPastWindows::new().optimize(plan, &self.config),
            Rule::Hint => LimitedDistinctAggregation::new().optimize(plan, &self.config),
        };
        optimized.expect("no stand-in makes an error")
    }

    fn node(&self, cell: &Cell, mut children: Vec<Plan>) -> Plan {
        let fetch = cell.fetch.map(|fetch| fetch as usize);
        let ordering = cell.mark.then_some(LexOrdering);
        if cell.kind >= kind::FIRST_OF_SET {
            return self.operator(cell, fetch, children);
        }
        let Some(input) = children.pop() else {
            return if cell.kind == kind::EMPTY { Arc::new(EmptyExec::new()) } else { Arc::new(PlaceholderRowExec::new()) };
        };
        match cell.kind {
            kind::GLOBAL_LIMIT => {
                let limit = GlobalLimitExec::new(input, cell.skip as usize, fetch);
                Arc::new(limit.with_required_ordering(ordering))
            }
            kind::LOCAL_LIMIT => {
                let limit = LocalLimitExec::new(input, fetch.expect("a local limit has a fetch"));
                Arc::new(limit.with_required_ordering(ordering))
            }
            kind::PROJECTION => Arc::new(ProjectionExec::new(input, cell.parameter)),
            kind::COALESCE_PARTITIONS => Arc::new(CoalescePartitionsExec::new(input, fetch)),
            kind::SORT_PRESERVING_MERGE => Arc::new(SortPreservingMergeExec::new(input, cell.parameter, fetch)),
            kind::SORT => Arc::new(SortExec::new(input, cell.parameter, fetch)),
            kind::WINDOW => Arc::new(BoundedWindowAggExec::new(input, self.window(cell.parameter), cell.parameter)),
            kind::AGGREGATE => Arc::new(self.aggregate(cell, input)),
            other => panic!("kind {other} never fits"),
        }
    }

    fn operator(&self, cell: &Cell, fetch: Option<usize>, mut children: Vec<Plan>) -> Plan {
        let operator = self.set.operator(cell.kind).expect("the kind fits");
        if cell.kind == kind::REPARTITION && self.kind20 == Kind20::Repartition {
            let input = children.pop().expect("a repartition has an input");
            return Arc::new(RepartitionExec::new(input, usize::from(cell.parameter)));
        }
        let identity = Identity { kind: cell.kind, parameter: cell.parameter, answers: answers(operator, cell.parameter) };
        Arc::new(OperatorExec::new(identity, fetch, cell.mark, children))
    }

    fn window(&self, parameter: u16) -> Vec<Arc<dyn WindowExpr>> {
        match self.windows.get(usize::from(parameter)) {
            Some(expressions) => expressions.clone(),
            None => windows::expressions(self.set.window(parameter)),
        }
    }

    fn aggregate(&self, cell: &Cell, input: Plan) -> AggregateExec {
        let group = self.set.group(cell.parameter);
        let group_by = PhysicalGroupBy { number: group.number };
        let aggregate = AggregateExec::new(input, group_by, group.plain_distinct, cell.parameter);
        aggregate.with_new_limit_options(cell.hint.map(|hint| LimitOptions::new(hint as usize)))
    }
}

fn answers(operator: &Operator, parameter: u16) -> Answers {
    Answers {
        limits_pass: operator.limits_pass,
        takes_fetch: operator.takes_fetch,
        takes_mark: operator.takes_mark,
        effect: match operator.effect {
            Effect::Unknown => CardinalityEffect::Unknown,
            Effect::LowerEqual => CardinalityEffect::LowerEqual,
            Effect::Equal => CardinalityEffect::Equal,
            Effect::GreaterEqual => CardinalityEffect::GreaterEqual,
        },
        partitions: match operator.partitions {
            Partitions::Sum => operator::Partitions::Sum,
            Partitions::Fixed(count) => operator::Partitions::Fixed(count as usize),
            Partitions::Parameter => operator::Partitions::Fixed(usize::from(parameter)),
        },
        known_empty: match operator.known_empty {
            KnownEmpty::Never => operator::KnownEmpty::Never,
            KnownEmpty::Always => operator::KnownEmpty::Always,
            KnownEmpty::IfAllChildren => operator::KnownEmpty::IfAllChildren,
        },
    }
}

#[cfg(test)]
mod tests {
    use super::*;
    use cells::notation::{read_plan, write_plan};

    /// The worked plans of `docs/rules.md`.
    const WORKED: [(Rule, &str, &str); 8] = [
        (Rule::Sink, "G(2,5) P H1", "P G(2,5) H1[7]"),
        (Rule::Sink, "G(2,5) C H4", "G(2,5) C[7] H4[7]"),
        (Rule::Sink, "G(8,10) G(0,5) W0 H1", "G(8,0) W H1"),
        (Rule::Sink, "G(4,-) P H1", "G(4,-) P H1"),
        (Rule::Grow, "G(1,4) W1 S H1", "G(1,4) W1 S[8] H1"),
        (Rule::Grow, "G(1,4) W1 S[6] H1", "G(1,4) W1 S[6] H1"),
        (Rule::Hint, "G(2,3) A0 A0 H1", "G(2,3) A{5} A{5} H1"),
        (Rule::Hint, "G(2,3) A0 A2 H1", "G(2,3) A{5} A2 H1"),
    ];

    fn left(rule: Rule, plan: &str) -> String {
        let set = OperatorSet::catalogue();
        let originals = Originals::new(&set, Kind20::Repartition);
        let plan = originals.plan(&read_plan(plan).unwrap());
        write_plan(&cells_of(&originals.optimize(rule, plan)))
    }

    #[test]
    fn the_originals_leave_the_worked_plans() {
        for (rule, plan, expected) in WORKED {
            assert_eq!(left(rule, plan), expected, "{} {plan}", rule.name());
        }
    }

    /// The differences that are intended: what the original does where the library refuses.
    #[test]
    fn the_original_cuts_a_sort_short_below_stacked_windows() {
        assert_eq!(left(Rule::Grow, "G(0,4) W1 W1 S H1"), "G(0,4) W1 W1 S[7] H1");
    }

    #[test]
    fn a_tree_reads_back_as_its_cells() {
        let set = OperatorSet::catalogue();
        let originals = Originals::new(&set, Kind20::Repartition);
        let text = "G(1,2)! C[3] U(L(4)! P7 20:2 H1[5]!, M8[6] S9[7] F3[8] W5 A5 R, A2 E)";
        let cells = read_plan(text).unwrap();
        assert_eq!(cells_of(&originals.plan(&cells)), cells);
    }
}
