//! Times both sides on the same plans, in one run, and prints a Markdown table.
//!
//! Counted on the original's side: `optimize` on a tree that is there already. Not counted: building the tree, and dropping it or
//! what `optimize` leaves. Counted on ours: a whole call on packed bytes with its checks, unpacking and packing; and, with the
//! driver, a call on cells with its checks, with the copy of the cells into the table. Allocation is the system's.

use std::hint::black_box;
use std::thread;
use std::time::{Duration, Instant};

use cells::notation::read_plan;
use cells::records::pack;
use cells::sets::OperatorSet;
use cells::{Cell, Rule};
use trees::{Kind20, Originals};

const SIZES: [usize; 5] = [4, 16, 64, 512, 4096];
const SHAPES: [Shape; 6] = [
    Shape { name: "projections under a limit", plan: |nodes| path("G(2,5)", "P", "H1", nodes) },
    Shape { name: "windows over a sort", plan: |nodes| path("G(1,4)", "W0", "S H1", nodes) },
    Shape { name: "limits", plan: |nodes| path("G(1,9)", "L(9)", "H1", nodes) },
    Shape { name: "aggregates under a limit", plan: |nodes| path("G(2,3)", "A", "H1", nodes) },
    Shape { name: "deep union", plan: deep_union },
    Shape { name: "wide union", plan: wide_union },
];

/// A measurement is the shortest of so many, each of calls that take at least so long.
const ROUNDS: usize = 5;
const ROUND: Duration = Duration::from_millis(8);

/// The originals go down a plan by recursion.
const STACK: usize = 1 << 30;

struct Shape {
    name: &'static str,
    /// The plan with so many nodes.
    plan: fn(usize) -> String,
}

fn path(top: &str, inner: &str, bottom: &str, nodes: usize) -> String {
    let between = nodes - 1 - bottom.split(' ').count();
    [vec![top], vec![inner; between], vec![bottom]].concat().join(" ")
}

/// Each union has a scan and the next union.
fn deep_union(nodes: usize) -> String {
    let unions = (nodes - 2) / 2;
    let filler = if nodes.is_multiple_of(2) { "H1" } else { "P H1" };
    format!("L(7) {}{filler}{}", "U(H1, ".repeat(unions), ")".repeat(unions))
}

/// Unions of as many children as a union may have, under a limit and a coalesce.
fn wide_union(nodes: usize) -> String {
    format!("G(2,5) C {}", union_of(nodes - 2))
}

/// So many nodes: a union, and below it smaller ones of about the same size, or scans.
fn union_of(nodes: usize) -> String {
    if nodes == 1 {
        return "H1".to_string();
    }
    let below = nodes - 1;
    let children = below.min(63);
    let size = |child: usize| below / children + usize::from(child < below % children);
    let parts: Vec<String> = (0..children).map(|child| union_of(size(child))).collect();
    format!("U({})", parts.join(", "))
}

fn main() {
    let measuring = thread::Builder::new().stack_size(STACK).spawn(measure_all).expect("a thread can be started");
    measuring.join().expect("the measurements end");
}

fn measure_all() {
    let set = OperatorSet::catalogue();
    let originals = Originals::new(&set, Kind20::Repartition);
    println!("Nanoseconds a node; a factor is how many times as fast as the original.\n");
    println!("| shape | nodes | rule | original | packed bytes | factor | cells | factor |");
    println!("|---|---|---|---|---|---|---|---|");
    for shape in &SHAPES {
        for nodes in SIZES {
            let cells = read_plan(&(shape.plan)(nodes)).expect("the plan can be read");
            for rule in Rule::ALL {
                measure(shape.name, rule, &cells, &originals);
            }
        }
    }
}

fn measure(shape: &str, rule: Rule, cells: &[Cell], originals: &Originals) {
    let nodes = cells.len();
    let original = of_original(rule, cells, originals);
    let per_node = |time: f64| format!("{:.1}", time / nodes as f64);
    let columns = |ours: Option<f64>| match ours {
        Some(ours) => format!("{} | {:.1}", per_node(ours), original / ours),
        None => "| ".to_string(),
    };
    let packed = pack(cells).expect("the plan can be packed");
    let of_packed = columns(of_packed(rule, &packed, nodes));
    let of_cells = columns(of_cells(rule, &packed));
    println!("| {shape} | {nodes} | {} | {} | {of_packed} | {of_cells} |", rule.name(), per_node(original));
}

fn of_original(rule: Rule, cells: &[Cell], originals: &Originals) -> f64 {
    let plan = originals.plan(cells);
    shortest(|calls| {
        // What is left is kept until the clock has stopped.
        let mut left = Vec::with_capacity(calls);
        let start = Instant::now();
        for _ in 0..calls {
            left.push(black_box(originals.optimize(rule, plan.clone())));
        }
        start.elapsed()
    })
}

/// Nothing for plans that are too large for a host.
fn of_packed(rule: Rule, packed: &[u8], nodes: usize) -> Option<f64> {
    if nodes > model::HOST.most_records {
        return None;
    }
    let mut out = vec![0; packed.len() * 2];
    assert!(library::call(rule, packed, &mut out) > 0, "the plan is granted");
    Some(shortest(|calls| {
        let start = Instant::now();
        for _ in 0..calls {
            black_box(library::call(rule, black_box(packed), &mut out));
        }
        start.elapsed()
    }))
}

/// The difference of two numbers of calls, so that unpacking drops out.
#[cfg(feature = "driver")]
fn of_cells(rule: Rule, packed: &[u8]) -> Option<f64> {
    assert!(library::driver::repeat(rule, packed, 1) > 0, "the plan is granted");
    let time = |calls| {
        let start = Instant::now();
        black_box(library::driver::repeat(rule, black_box(packed), calls));
        start.elapsed()
    };
    Some(shortest(|calls| time(calls + 1).saturating_sub(time(1))))
}

#[cfg(not(feature = "driver"))]
fn of_cells(_rule: Rule, _packed: &[u8]) -> Option<f64> {
    None
}

/// The shortest time of a call, in nanoseconds. `run` makes so many calls and answers how long they took.
fn shortest(mut run: impl FnMut(usize) -> Duration) -> f64 {
    let mut calls = 1;
    while run(calls) < ROUND && calls < 1 << 20 {
        calls *= 2;
    }
    let rounds = (0..ROUNDS).map(|_| run(calls).as_secs_f64() * 1e9 / calls as f64);
    rounds.fold(f64::INFINITY, f64::min)
}
