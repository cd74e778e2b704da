//! Damaged plans, odd lengths, and outputs at the edge of their room.

use cells::notation::read_plan;
use cells::records::{RECORD, pack};
use cells::{MAX_CELLS, Rule};

use crate::comparison::{Comparison, Difference};
use crate::generator::random_plan;
use crate::rng::Rng;

/// Short plans in which every field of a record counts somewhere.
const PLANS: [&str; 24] = [
    "E",
    "R",
    "H1",
    "H2[7]!",
    "G(2,5) P H1",
    "G(2,5) C H4",
    "G(8,10) G(0,5) W0 H1",
    "G(4,-) P H1",
    "G(1,4) W1 S H1",
    "G(1,4)! W2 S[6] H1",
    "G(0,3) W5 M S H2",
    "G(2,3) A A H1",
    "G(2,3) A{5} A{6} H1",
    "L(3) A2{3} A3 H2",
    "L(3)! U(H1, P H2)",
    "G(0,1) P R",
    "G(0,0) P F E",
    "L(3) 20:8 H4",
    "M[4] U(S H1[3]!, E, H2)",
    "G(1,1099511627775) S H1",
    "G(1099511627775,1) W3 H1",
    "G(0,4) W1 W1 S H1",
    "F[2] U U(W4 H1, H1)",
    "C[5] G(1,2) 20:1 H64",
];

/// Lengths around one and two records, and around the most that a call takes.
fn edge_lengths(most_records: usize) -> Vec<usize> {
    let most = most_records * RECORD;
    let around = |length: usize| [length.saturating_sub(1), length, length + 1];
    let near = [0, RECORD, 2 * RECORD, most - RECORD, most, most + RECORD, 2 * most];
    near.into_iter().flat_map(around).collect()
}

/// Every byte of short plans in turn holds every value.
pub fn every_byte(comparison: &mut Comparison) -> Result<(), Box<Difference>> {
    for text in PLANS {
        let mut plan = packed(text);
        for place in 0..plan.len() {
            let right = plan[place];
            for value in 0..=u8::MAX {
                plan[place] = value;
                every_rule(comparison, &plan, plan.len() * 2)?;
            }
            plan[place] = right;
        }
    }
    Ok(())
}

/// Every beginning of short plans, every length at an edge, and every room at an edge.
pub fn every_edge(comparison: &mut Comparison, most_records: usize) -> Result<(), Box<Difference>> {
    for text in PLANS {
        let plan = packed(text);
        for length in 0..=plan.len() {
            every_room(comparison, &plan[..length])?;
        }
        every_room(comparison, &[plan.as_slice(), &plan].concat())?;
    }
    for length in edge_lengths(most_records) {
        for byte in [0, 4, u8::MAX] {
            every_room(comparison, &vec![byte; length])?;
        }
        every_room(comparison, &path(length))?;
    }
    for partitions in [MAX_CELLS - 1, MAX_CELLS, MAX_CELLS + 1] {
        every_room(comparison, &packed(&scans(partitions)))?;
        every_room(comparison, &packed(&format!("L(2) P {}", scans(partitions))))?;
    }
    Ok(())
}

/// A union that has so many partitions in all.
fn scans(partitions: usize) -> String {
    let mut scans = vec!["H64".to_string(); partitions / 64];
    if !partitions.is_multiple_of(64) {
        scans.push(format!("H{}", partitions % 64));
    }
    let nested = scans.split_off(60);
    format!("U({}, U({}))", scans.join(", "), nested.join(", "))
}

/// Plans of which some bits are turned over, and bytes that are no plan at all.
pub fn random_damage(comparison: &mut Comparison, rng: &mut Rng, plans: usize) -> Result<(), Box<Difference>> {
    for _ in 0..plans {
        let size = 1 + rng.below(10);
        let mut plan = pack(&random_plan(comparison.set(), rng, size)).expect("the plan can be packed");
        for _ in 0..1 + rng.below(4) {
            let place = rng.below(plan.len());
            plan[place] ^= 1 << rng.below(8);
        }
        every_rule(comparison, &plan, plan.len() * 2)?;
        let noise: Vec<u8> = (0..rng.below(5 * RECORD)).map(|_| rng.draw() as u8).collect();
        every_rule(comparison, &noise, noise.len() * 2)?;
    }
    Ok(())
}

fn packed(text: &str) -> Vec<u8> {
    pack(&read_plan(text).expect("the plan can be read")).expect("the plan can be packed")
}

/// A limit over a path of projections, as many whole records as the length has, and zeros behind them.
fn path(length: usize) -> Vec<u8> {
    let records = packed("G(3,4) P H1[9]");
    let (limit, rest) = records.split_at(RECORD);
    let (projection, scan) = rest.split_at(RECORD);
    let inner = (length / RECORD).saturating_sub(2);
    let mut plan = [limit, &projection.repeat(inner), scan].concat();
    plan.resize(length, 0);
    plan
}

fn every_room(comparison: &mut Comparison, plan: &[u8]) -> Result<(), Box<Difference>> {
    let asked = plan.len() * 2;
    let rooms = [0, 1, plan.len(), asked.saturating_sub(1), asked, asked + 1, asked + 99];
    rooms.into_iter().try_for_each(|room| every_rule(comparison, plan, room))
}

fn every_rule(comparison: &mut Comparison, plan: &[u8], room: usize) -> Result<(), Box<Difference>> {
    Rule::ALL.into_iter().try_for_each(|rule| comparison.bytes(rule, plan, room).map(drop))
}
