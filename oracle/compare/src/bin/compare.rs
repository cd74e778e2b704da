//! Compares the proved library with the original rules. Ends with another status than 0 at the first difference.

use std::process::ExitCode;
use std::time::Instant;
use std::{env, fs, thread};

use cells::Rule;
use cells::notation::read_plan;
use cells::records::pack;
use cells::sets::OperatorSet;
use compare::exhaustive::Alphabet;
use compare::random::Amount;
use compare::record::Recorder;
use compare::rng::Rng;
use compare::{Comparison, Difference, damage, exhaustive, random, runs};
#[cfg(feature = "driver")]
use compare::{Tally, other_sets};

const USAGE: &str = "\
compare exhaustive rich|middle|lean|core CELLS   every accepted plan of up to so many cells
compare random SEED SMALL LARGE                  so many small and so many large random plans
compare runs SEED RUNS                           each result goes into the next call
compare damage SEED PLANS                        damaged plans, odd lengths, outputs at the edge of their room
compare record SEED PLANS FILE                   writes a sample of what the originals leave
compare one RULE PLAN                            one plan, in the notation
With the feature `driver`:
compare declared SEED SETS                       random plans under so many declared sets
compare tables SEED SETS                         random plans under so many sets with arbitrary answers
compare driver-damage SEED PLANS                 as damage, with up to 4,096 records";

/// The originals and the model go down a plan by recursion.
const STACK: usize = 1 << 30;

type Failure = Box<dyn std::error::Error + Send + Sync>;

fn main() -> ExitCode {
    let arguments: Vec<String> = env::args().skip(1).collect();
    let comparing = thread::Builder::new().stack_size(STACK).spawn(move || run(&arguments));
    match comparing.map(|thread| thread.join()) {
        Ok(Ok(Ok(()))) => ExitCode::SUCCESS,
        Ok(Ok(Err(failure))) => {
            println!("{failure}");
            ExitCode::FAILURE
        }
        Ok(Err(_)) | Err(_) => ExitCode::FAILURE,
    }
}

fn run(arguments: &[String]) -> Result<(), Failure> {
    let start = Instant::now();
    let arguments: Vec<&str> = arguments.iter().map(String::as_str).collect();
    let set = OperatorSet::catalogue();
    let mut comparison = Comparison::of_host(&set);
    let what = match arguments[..] {
        ["exhaustive", alphabet, cells] => every_plan(&mut comparison, alphabet, cells.parse()?)?,
        ["random", seed, small, large] => {
            let most = model::HOST.most_records;
            let amount = Amount { small: small.parse()?, large: large.parse()?, most };
            found(random::compare(&mut comparison, &set, &mut Rng::new(seed.parse()?), amount))?;
            format!("random, seed {seed}: {small} plans of up to 12 cells and {large} of up to {most}")
        }
        ["runs", seed, count] => {
            let count = count.parse()?;
            let most = model::HOST.most_records;
            let on_results = found(runs::compare(&mut comparison, &mut Rng::new(seed.parse()?), count, most))?;
            format!("runs, seed {seed}: {count} runs; {on_results} calls on what a call had left")
        }
        ["damage", seed, plans] => {
            found(damage::every_byte(&mut comparison))?;
            found(damage::every_edge(&mut comparison, model::HOST.most_records))?;
            found(damage::random_damage(&mut comparison, &mut Rng::new(seed.parse()?), plans.parse()?))?;
            format!("damage, seed {seed}: every byte and every edge of short plans, and {plans} random plans")
        }
        #[cfg(feature = "driver")]
        ["declared", seed, sets] => return other_sets("declared sets", seed, sets, other_sets::declared),
        #[cfg(feature = "driver")]
        ["tables", seed, sets] => return other_sets("sets with arbitrary answers", seed, sets, other_sets::tables),
        #[cfg(feature = "driver")]
        ["driver-damage", seed, plans] => return other_sets("damaged plans of the driver", seed, plans, other_sets::damage),
        ["record", seed, plans, file] => return record(&comparison, seed.parse()?, plans.parse()?, file),
        ["one", rule, plan] => return one(&mut comparison, rule, plan),
        _ => return Err(USAGE.into()),
    };
    println!("{what}, in {:.1} s\n{}", start.elapsed().as_secs_f64(), comparison.tally);
    Ok(())
}

/// A difference as the message to end with.
fn found<T>(compared: Result<T, Box<Difference>>) -> Result<T, Failure> {
    compared.map_err(|difference| difference.to_string().into())
}

fn every_plan(comparison: &mut Comparison, name: &str, cells: usize) -> Result<String, Failure> {
    let alphabet = match name {
        "rich" => Alphabet::rich(),
        "middle" => Alphabet::middle(),
        "lean" => Alphabet::lean(),
        "core" => Alphabet::core(),
        _ => return Err(USAGE.into()),
    };
    let plans = found(exhaustive::compare(comparison, &alphabet, cells))?;
    let letters = alphabet.len();
    Ok(format!("exhaustive, {name}: {plans} plans, all that are accepted with up to {cells} of {letters} different cells"))
}

#[cfg(feature = "driver")]
fn other_sets(
    what: &str,
    seed: &str,
    count: &str,
    compare: fn(&mut Rng, usize) -> Result<Tally, Box<Difference>>,
) -> Result<(), Failure> {
    let start = Instant::now();
    let tally = found(compare(&mut Rng::new(seed.parse()?), count.parse()?))?;
    println!("{count} {what}, seed {seed}, in {:.1} s\n{tally}", start.elapsed().as_secs_f64());
    Ok(())
}

fn record(comparison: &Comparison, seed: u64, plans: usize, file: &str) -> Result<(), Failure> {
    let mut recorder = Recorder::new(comparison);
    recorder.record(&mut Rng::new(seed), plans);
    let text = recorder.lines.join("\n") + "\n";
    fs::write(file, &text)?;
    println!("record: {} lines, {} bytes, that show {} steps", recorder.lines.len(), text.len(), recorder.features());
    Ok(())
}

fn one(comparison: &mut Comparison, rule: &str, plan: &str) -> Result<(), Failure> {
    let rule = Rule::named(rule).ok_or("sink, grow or hint is expected")?;
    let cells = read_plan(plan).map_err(|column| format!("the plan cannot be read at column {column}"))?;
    let packed = pack(&cells).map_err(|place| format!("cell {place} cannot be packed"))?;
    found(comparison.bytes(rule, &packed, packed.len() * 2))?;
    println!("both: {}", comparison.expected(rule, &cells));
    Ok(())
}
