//! Other operator sets than the catalogue: declared ones, and tables of arbitrary answers.

use cells::sets::{
    Effect, EndBound, Expression, ExpressionEffect, Group, Groups, KnownEmpty, Operator, OperatorSet, Parameters, Partitions,
    Unit,
};
use cells::{MAX_NUMBER, kind};
use library::driver::{self, DeclarationRow, ExprRow, GroupRow, OperatorRow, Table};
use model::Bounds;
use trees::Kind20;

use crate::comparison::{Call, Comparison, Difference, Tally};
use crate::damage;
use crate::random::{self, Amount};
use crate::rng::Rng;

/// The driver's calls take as many records as a plan may have cells.
pub const DRIVER: Bounds = Bounds { most_records: cells::MAX_CELLS };

/// How many plans are compared under each set.
const SMALL_PLANS: usize = 200;

/// One set in so many is also asked about a large plan.
const LARGE_PLANS: usize = 10;

/// What a call is made under: the set that it should answer for, the set that plans are drawn under, and the call.
struct Drawn {
    /// The rows that the library gets.
    rows: String,
    set: OperatorSet,
    drawn_under: OperatorSet,
    call: Box<Call<'static>>,
}

/// Compares plans under `count` declared sets.
pub fn declared(rng: &mut Rng, count: usize) -> Result<Tally, Box<Difference>> {
    each_set(rng, count, |rng| {
        let mut rows = declarations(rng);
        if rng.one_in(8) {
            spoil(&mut rows, rng);
        }
        // Declarations that no set may hold leave an empty set; a plan that uses them all the same must not fit.
        let set = declared_set(if may_be_held(&rows) { &rows } else { &[] });
        let drawn_under = declared_set(&rows);
        let text = format!("{rows:?}");
        let call = move |rule, plan: &[u8], out: &mut [u8]| driver::declared(rule, &rows, plan, out);
        Drawn { rows: text, set, drawn_under, call: Box::new(call) }
    })
}

/// Compares plans under `count` sets with arbitrary answers.
pub fn tables(rng: &mut Rng, count: usize) -> Result<Tally, Box<Difference>> {
    each_set(rng, count, |rng| {
        let table = random_table(rng);
        let set = table_set(&table);
        let text = format!("{table:?}");
        let call = move |rule, plan: &[u8], out: &mut [u8]| driver::table(rule, &table, plan, out);
        Drawn { rows: text, drawn_under: set.clone(), set, call: Box::new(call) }
    })
}

/// Damages plans under a set that is like the catalogue, with as many records as the driver takes.
pub fn damage(rng: &mut Rng, plans: usize) -> Result<Tally, Box<Difference>> {
    let table = like_the_catalogue();
    let set = table_set(&table);
    let call = |rule, plan: &[u8], out: &mut [u8]| driver::table(rule, &table, plan, out);
    let mut comparison = Comparison::new(&set, Kind20::Operator, DRIVER, Box::new(call));
    damage::every_byte(&mut comparison)?;
    damage::every_edge(&mut comparison, DRIVER.most_records)?;
    damage::random_damage(&mut comparison, rng, plans)?;
    Ok(comparison.tally)
}

/// The catalogue as far as a table can say it: a scan has one partition, whatever its parameter.
fn like_the_catalogue() -> Table {
    let catalogue = OperatorSet::catalogue();
    // Every window gets two expressions. The same one twice says what it says once.
    let twice = |window: &Vec<Expression>| [window[0], *window.last().expect("a window has expressions")];
    let expressions: Vec<Expression> = catalogue.windows.iter().flat_map(twice).collect();
    let groups = (0..8).map(|parameter| catalogue.group(parameter));
    Table {
        operators: catalogue.operators.iter().map(operator_row).collect(),
        expressions: expressions.iter().map(ExprRow::from).collect(),
        width: 2,
        groups: groups.map(|group| GroupRow { group: group.number, plain: group.plain_distinct }).collect(),
    }
}

fn operator_row(operator: &Operator) -> OperatorRow {
    OperatorRow {
        kind: operator.kind,
        least: *operator.children.start(),
        most: *operator.children.end(),
        passes: operator.limits_pass,
        fetch: operator.takes_fetch,
        mark: operator.takes_mark,
        effect: operator.effect as u8,
        known_empty: operator.known_empty as u8,
        fixed: operator.partitions != Partitions::Sum,
        partitions: 1,
    }
}

fn each_set(rng: &mut Rng, count: usize, mut draw: impl FnMut(&mut Rng) -> Drawn) -> Result<Tally, Box<Difference>> {
    let mut tally = Tally::default();
    for place in 0..count {
        let Drawn { rows, set, drawn_under, call } = draw(rng);
        let mut comparison = Comparison::new(&set, Kind20::Operator, DRIVER, call);
        let large = usize::from(place % LARGE_PLANS == 0);
        let amount = Amount { small: SMALL_PLANS, large, most: DRIVER.most_records };
        random::compare(&mut comparison, &drawn_under, rng, amount).map_err(|mut difference| {
            difference.under = Some(rows);
            difference
        })?;
        tally.add(&comparison.tally);
    }
    Ok(tally)
}

/// Declarations that may stand together.
fn declarations(rng: &mut Rng) -> Vec<DeclarationRow> {
    let mut rows: Vec<DeclarationRow> = Vec::new();
    for _ in 0..rng.below(12) {
        let kind = kind::FIRST_OF_SET + rng.below(240) as u8;
        if rows.iter().any(|row| row.kind == kind) {
            continue;
        }
        let shape = rng.below(4) as u8;
        rows.push(DeclarationRow {
            kind,
            shape,
            fetch: shape != 1 && rng.one_in(2),
            mark: rng.one_in(2),
            effect: rng.below(4) as u8,
            number: rng.pick(&[1, 1, 1, 2, 3, 4096, 4097, 0]),
        });
    }
    rows
}

/// Makes the declarations into a list that no set may hold.
fn spoil(rows: &mut Vec<DeclarationRow>, rng: &mut Rng) {
    let usual = DeclarationRow { kind: 200, shape: 1, fetch: false, mark: false, effect: 2, number: 1 };
    match rng.below(4) {
        0 => rows.push(DeclarationRow { kind: kind::FIRST_OF_SET - 1, ..usual }),
        1 => rows.push(DeclarationRow { fetch: true, ..usual }),
        2 => rows.extend([usual, usual]),
        // Every kind that there is, and one more.
        _ => *rows = (15..=u8::MAX).map(|kind| DeclarationRow { kind: kind.max(kind::FIRST_OF_SET), ..usual }).collect(),
    }
}

fn may_be_held(rows: &[DeclarationRow]) -> bool {
    let alone = |place: usize| rows[..place].iter().all(|earlier| earlier.kind != rows[place].kind);
    let allowed = |row: &DeclarationRow| row.kind >= kind::FIRST_OF_SET && !(row.shape == 1 && row.fetch);
    rows.len() <= 240 && rows.iter().all(allowed) && (0..rows.len()).all(alone)
}

fn declared_set(rows: &[DeclarationRow]) -> OperatorSet {
    OperatorSet {
        operators: rows.iter().map(declared_operator).collect(),
        windows: Vec::new(),
        window_parameters: Parameters::None,
        groups: Groups::Listed(Vec::new()),
        aggregate_parameters: Parameters::None,
    }
}

fn declared_operator(row: &DeclarationRow) -> Operator {
    let (children, limits_pass, partitions) = match row.shape {
        0 => (0..=0, false, Partitions::Fixed(row.number)),
        1 => (1..=63, true, Partitions::Sum),
        2 => (1..=1, false, Partitions::Sum),
        _ => (1..=63, false, Partitions::Fixed(row.number)),
    };
    Operator {
        kind: row.kind,
        children,
        parameters: 0..=u16::MAX,
        limits_pass,
        takes_fetch: row.fetch,
        takes_mark: row.mark,
        effect: effect(row.effect),
        partitions,
        known_empty: KnownEmpty::Never,
    }
}

fn effect(number: u8) -> Effect {
    match number {
        0 => Effect::Unknown,
        1 => Effect::LowerEqual,
        2 => Effect::Equal,
        _ => Effect::GreaterEqual,
    }
}

/// Answers that need not go together: a source that passes limits, an operator with rows that is always known empty. The rules
/// take any answers, so the sides must agree on these too.
fn random_table(rng: &mut Rng) -> Table {
    let width = 1 + rng.below(16);
    let windows = rng.below(7);
    // Too few expressions for one more window are behind the last one, and count for nothing.
    let expressions = (0..windows * width + rng.below(width)).map(|_| random_expression(rng)).collect();
    let groups = (0..rng.below(8)).map(|_| GroupRow { group: rng.below(3) as u32, plain: !rng.one_in(3) }).collect();
    // A kind may have several rows, of which the first counts.
    let operators = (0..1 + rng.below(12)).map(|_| random_operator(rng)).collect();
    Table { operators, expressions, width, groups }
}

fn random_operator(rng: &mut Rng) -> OperatorRow {
    let least = rng.pick(&[0, 0, 1, 1, 1, 2, 3]);
    OperatorRow {
        kind: rng.pick(&[16, 17, 18, 19, 20, 21, 100, 255]),
        least,
        most: rng.pick(&[least, least, least + 1, 63]),
        passes: rng.one_in(2),
        fetch: rng.one_in(2),
        mark: rng.one_in(2),
        effect: rng.below(4) as u8,
        known_empty: rng.below(3) as u8,
        fixed: rng.one_in(2),
        partitions: rng.pick(&[1, 1, 1, 2, 3, 4096, 4097, 0, u32::MAX]),
    }
}

/// Mostly one with a reach, since one expression without takes the reach from the whole window.
fn random_expression(rng: &mut Rng) -> ExprRow {
    let number = |rng: &mut Rng| rng.pick(&[0, 1, 2, 3, 7, MAX_NUMBER, MAX_NUMBER + 1, u64::MAX]) >> rng.pick(&[0, 0, 1, 30]);
    ExprRow {
        effect: if rng.one_in(60) { rng.pick(&[1, 3]) } else { rng.pick(&[0, 0, 2]) },
        effect_number: number(rng),
        units: u8::from(rng.one_in(60)),
        end: if rng.one_in(60) { 3 } else { rng.pick(&[0, 1, 1, 2]) },
        end_number: number(rng),
    }
}

fn table_set(table: &Table) -> OperatorSet {
    let expressions: Vec<Expression> = table.expressions.iter().map(expression).collect();
    OperatorSet {
        operators: table.operators.iter().map(table_operator).collect(),
        windows: expressions.chunks_exact(table.width).map(<[Expression]>::to_vec).collect(),
        window_parameters: Parameters::Any,
        groups: Groups::Listed(table.groups.iter().map(group).collect()),
        aggregate_parameters: Parameters::Any,
    }
}

fn group(row: &GroupRow) -> Group {
    Group { number: row.group, plain_distinct: row.plain }
}

fn table_operator(row: &OperatorRow) -> Operator {
    Operator {
        kind: row.kind,
        children: row.least..=row.most,
        parameters: 0..=u16::MAX,
        limits_pass: row.passes,
        takes_fetch: row.fetch,
        takes_mark: row.mark,
        effect: effect(row.effect),
        partitions: if row.fixed { Partitions::Fixed(row.partitions) } else { Partitions::Sum },
        known_empty: match row.known_empty {
            0 => KnownEmpty::Never,
            1 => KnownEmpty::Always,
            _ => KnownEmpty::IfAllChildren,
        },
    }
}

/// The driver cuts numbers that are too large.
fn expression(row: &ExprRow) -> Expression {
    let cut = |number: u64| number.min(MAX_NUMBER);
    Expression {
        effect: match row.effect {
            0 => ExpressionEffect::None,
            1 => ExpressionEffect::Unknown,
            2 => ExpressionEffect::Relative(cut(row.effect_number)),
            _ => ExpressionEffect::Absolute(cut(row.effect_number)),
        },
        unit: if row.units == 0 { Unit::Rows } else { Unit::Other },
        end: match row.end {
            0 => EndBound::Preceding,
            1 => EndBound::CurrentRow,
            2 => EndBound::Following(cut(row.end_number)),
            _ => EndBound::Other,
        },
    }
}

#[cfg(test)]
mod tests {
    use super::*;
    use crate::generator::random_plan;

    /// How many of the plans drawn under random sets are accepted, in percent.
    fn accepted_percent(mut draw: impl FnMut(&mut Rng) -> OperatorSet) -> usize {
        let mut rng = Rng::new(1);
        let (mut accepted, mut plans) = (0, 0);
        for _ in 0..200 {
            let set = draw(&mut rng);
            for _ in 0..50 {
                let size = 1 + rng.below(12);
                let plan = random_plan(&set, &mut rng, size);
                plans += 1;
                accepted += usize::from(model::accept(&set, &plan).is_ok());
            }
        }
        accepted * 100 / plans
    }

    #[test]
    fn most_plans_are_accepted() {
        let declared = accepted_percent(|rng| declared_set(&declarations(rng)));
        let tables = accepted_percent(|rng| table_set(&random_table(rng)));
        assert!(declared > 80 && tables > 60, "{declared} and {tables} percent");
    }
}
