//! Trees of stand-in nodes as cells.

use cells::{Cell, kind};
use datafusion_physical_plan::ExecutionPlan;
use datafusion_physical_plan::aggregates::AggregateExec;
use datafusion_physical_plan::coalesce_partitions::CoalescePartitionsExec;
use datafusion_physical_plan::empty::EmptyExec;
use datafusion_physical_plan::limit::{GlobalLimitExec, LocalLimitExec};
use datafusion_physical_plan::operator::OperatorExec;
use datafusion_physical_plan::placeholder_row::PlaceholderRowExec;
use datafusion_physical_plan::projection::ProjectionExec;
use datafusion_physical_plan::repartition::RepartitionExec;
use datafusion_physical_plan::sorts::sort::SortExec;
use datafusion_physical_plan::sorts::sort_preserving_merge::SortPreservingMergeExec;
use datafusion_physical_plan::windows::BoundedWindowAggExec;

use crate::Plan;

/// The cells of a plan, in prefix order.
pub fn cells_of(plan: &Plan) -> Vec<Cell> {
    let mut cells = Vec::new();
    let mut to_come = vec![plan];
    while let Some(node) = to_come.pop() {
        let children = node.children();
        cells.push(Cell {
            children: u8::try_from(children.len()).expect("no rule adds children"),
            fetch: node.fetch().map(|fetch| fetch as u64),
            ..cell_of(node.as_ref())
        });
        to_come.extend(children.into_iter().rev());
    }
    cells
}

/// What a node's cell holds beside the child count and the fetch.
fn cell_of(node: &dyn ExecutionPlan) -> Cell {
    if let Some(operator) = node.downcast_ref::<OperatorExec>() {
        let identity = operator.identity();
        return Cell { mark: operator.preserve_order(), ..cell(identity.kind, identity.parameter) };
    }
    if let Some(limit) = node.downcast_ref::<GlobalLimitExec>() {
        let mark = limit.required_ordering().is_some();
        return Cell { skip: limit.skip() as u64, mark, ..cell(kind::GLOBAL_LIMIT, 0) };
    }
    if let Some(limit) = node.downcast_ref::<LocalLimitExec>() {
        return Cell { mark: limit.required_ordering().is_some(), ..cell(kind::LOCAL_LIMIT, 0) };
    }
    if let Some(projection) = node.downcast_ref::<ProjectionExec>() {
        return cell(kind::PROJECTION, projection.parameter());
    }
    if let Some(aggregate) = node.downcast_ref::<AggregateExec>() {
        let hint = aggregate.limit_options().map(|options| options.limit() as u64);
        return Cell { hint, ..cell(kind::AGGREGATE, aggregate.parameter()) };
    }
    if let Some(window) = node.downcast_ref::<BoundedWindowAggExec>() {
        return cell(kind::WINDOW, window.parameter());
    }
    if let Some(sort) = node.downcast_ref::<SortExec>() {
        return cell(kind::SORT, sort.parameter());
    }
    if let Some(merge) = node.downcast_ref::<SortPreservingMergeExec>() {
        return cell(kind::SORT_PRESERVING_MERGE, merge.parameter());
    }
    if let Some(repartition) = node.downcast_ref::<RepartitionExec>() {
        return cell(kind::REPARTITION, repartition.partitioning().partition_count() as u16);
    }
    if node.is::<CoalescePartitionsExec>() {
        return cell(kind::COALESCE_PARTITIONS, 0);
    }
    if node.is::<PlaceholderRowExec>() {
        return cell(kind::PLACEHOLDER_ROW, 0);
    }
    assert!(node.is::<EmptyExec>(), "no other node is ever made");
    cell(kind::EMPTY, 0)
}

fn cell(kind: u8, parameter: u16) -> Cell {
    Cell { kind, parameter, ..Cell::default() }
}
