//! Compares the library's functions with an ordinary Rust version of them: the answers first, all of them, then the
//! times. `--help` says how to run it.

use std::process::ExitCode;
use std::time::{Duration, Instant};

use bench::answers::same_answers;
use bench::names::{Class, Input, Inputs, Kind, KINDS, SEED};
use bench::operations::{find, Operation, Run, OPERATIONS};
use bench::ordinary::MAX_BITMAP;

const HELP: &str = "\
Compares the functions of libqorshudan.a with an ordinary Rust version: every answer and refusal on more than a
million inputs for each operation, then the times, printed as a table.

    cargo run --release -p bench [-- [--seed NUMBER] [OPERATION]...]

In the table, times are nanoseconds for a call, the best of all rounds, and `ours / ordinary` is their ratio; the
ratios of the single rounds lie by half within the next column's bounds. The last column is what it takes to fill and
copy the octets of an answer alone. Without an operation, all are run:";

/// The size of the class `mix`.
const MIX: usize = 1_000_000;
/// Rounds of a class; one in `MIX_EVERY` times the class `mix` too, whose rounds are long.
const ROUNDS: usize = 35;
const MIX_EVERY: usize = 5;
/// Inputs are timed in runs of so many, each run by itself: the best of a short run is seldom disturbed.
const RUN: usize = 2_000;
/// The least time of a round.
const ROUND: Duration = Duration::from_millis(1);

fn main() -> ExitCode {
    let (seed, operations) = match arguments() {
        Ok(Some(arguments)) => arguments,
        Ok(None) => {
            let names: Vec<_> = OPERATIONS.iter().map(|operation| operation.name).collect();
            println!("{HELP} {}.", names.join(", "));
            return ExitCode::SUCCESS;
        }
        Err(message) => {
            eprintln!("{message}");
            return ExitCode::FAILURE;
        }
    };
    let of_kind = |kind: Kind| operations.iter().copied().filter(|operation| operation.kind == kind).collect();
    let groups: Vec<(Kind, Vec<&Operation>)> = KINDS.map(|kind| (kind, of_kind(kind))).into();
    let groups = groups.iter().filter(|(_, operations)| !operations.is_empty());
    for (kind, operations) in groups.clone() {
        if let Err(message) = compare_answers(*kind, operations, seed) {
            eprintln!("{message}");
            return ExitCode::FAILURE;
        }
    }
    println!("| operation               | class       | ours / ordinary | half of the rounds | ours, ns | ordinary, ns | bare, ns |");
    println!("|-------------------------|-------------|----------------:|-------------------:|---------:|-------------:|---------:|");
    for (kind, operations) in groups {
        print_times(*kind, operations, seed);
    }
    ExitCode::SUCCESS
}

/// The seed and the operations asked for; nothing where help is.
fn arguments() -> Result<Option<(u64, Vec<&'static Operation>)>, String> {
    let (mut seed, mut operations) = (SEED, Vec::new());
    let mut words = std::env::args().skip(1);
    while let Some(word) = words.next() {
        match word.as_str() {
            "--help" | "-h" => return Ok(None),
            "--seed" => {
                let number = words.next().and_then(|number| number.parse().ok());
                seed = number.ok_or("--seed wants a number")?;
            }
            name => operations.push(find(name)?),
        }
    }
    if operations.is_empty() {
        operations.extend(OPERATIONS);
    }
    Ok(Some((seed, operations)))
}

/// Compares the versions of each operation over all classes.
fn compare_answers(kind: Kind, operations: &[&Operation], seed: u64) -> Result<(), String> {
    let mut calls = vec![0; operations.len()];
    for &class in kind.classes() {
        let inputs = Inputs::new(kind, class, MIX, seed);
        let views = inputs.views();
        for (operation, calls) in operations.iter().zip(&mut calls) {
            *calls += same_answers(operation, &views).map_err(|difference| {
                format!("{} differs, class {}, seed {seed}:\n{difference}", operation.name, class.name())
            })?;
        }
    }
    for (operation, calls) in operations.iter().zip(calls) {
        eprintln!("{}: the same answers in {calls} calls, seed {seed}", operation.name);
    }
    Ok(())
}

/// Times both versions of each operation over all classes, and prints the rows.
fn print_times(kind: Kind, operations: &[&Operation], seed: u64) {
    // One space for all calls, never cleared.
    let mut space = [0; MAX_BITMAP];
    let inputs: Vec<_> = kind.classes().iter().map(|&class| (class, Inputs::new(kind, class, MIX, seed))).collect();
    let views: Vec<_> = inputs.iter().map(|(class, inputs)| (*class, inputs.views())).collect();
    let mut rows = Vec::new();
    for operation in operations {
        for (class, views) in &views {
            rows.push(Row::new(operation, *class, views, &mut space));
        }
    }
    // All rows by turns, so that the rounds of each lie far apart.
    for round in 0..ROUNDS {
        for row in rows.iter_mut().filter(|row| row.class != Class::Mix || round % MIX_EVERY == 0) {
            row.round(&mut space);
        }
    }
    rows.iter_mut().for_each(|row| println!("{}", row.line()));
}

/// The seconds of a version's calls, for each run of inputs.
fn times(calls: Run, views: &[Input], passes: Passes, space: &mut [u8]) -> Vec<f64> {
    let time = |run: &[Input]| {
        let passes = match passes {
            Passes::Cold => 1,
            Passes::Warm(passes) => {
                calls(run, space);
                passes
            }
        };
        let start = Instant::now();
        for _ in 0..passes {
            calls(run, space);
        }
        start.elapsed().as_secs_f64() / f64::from(passes)
    };
    views.chunks(RUN).map(time).collect()
}

/// How often a round goes through the inputs.
#[derive(Clone, Copy)]
enum Passes {
    /// Once, the inputs not in the caches.
    Cold,
    /// So many times, after a first one without the clock.
    Warm(u32),
}

/// A row of the table: both versions of an operation over one class.
struct Row<'a> {
    operation: &'a Operation,
    class: Class,
    views: &'a [Input<'a>],
    passes: Passes,
    /// The best times of each run of inputs.
    ours: Vec<f64>,
    ordinary: Vec<f64>,
    bare: Vec<f64>,
    /// The ratio in each round.
    ratios: Vec<f64>,
}

impl<'a> Row<'a> {
    fn new(operation: &'a Operation, class: Class, views: &'a [Input<'a>], space: &mut [u8]) -> Row<'a> {
        // Predecessors are the bulk of the traffic, so their time is the whole million's; for the others enough of
        // it to miss the caches.
        let timed = if operation.name == "predecessor" { MIX } else { MIX / 3 };
        let views = &views[..views.len().min(timed)];
        let passes = if class == Class::Mix {
            Passes::Cold
        } else {
            let once = times(operation.ordinary.run, views, Passes::Warm(1), &mut space[..operation.space]);
            Passes::Warm((ROUND.as_secs_f64() / once.iter().sum::<f64>()).ceil() as u32)
        };
        let unknown = vec![f64::INFINITY; views.chunks(RUN).len()];
        Row {
            operation,
            class,
            views,
            passes,
            ours: unknown.clone(),
            ordinary: unknown.clone(),
            bare: unknown,
            ratios: Vec::new(),
        }
    }

    /// Times both versions, one after the other.
    fn round(&mut self, space: &mut [u8]) {
        let space = &mut space[..self.operation.space];
        let ours = times(self.operation.ours.run, self.views, self.passes, space);
        let ordinary = times(self.operation.ordinary.run, self.views, self.passes, space);
        self.ratios.push(ours.iter().sum::<f64>() / ordinary.iter().sum::<f64>());
        lessen(&mut self.ours, ours);
        lessen(&mut self.ordinary, ordinary);
        if let Some(bare) = self.operation.bare {
            lessen(&mut self.bare, times(bare, self.views, self.passes, space));
        }
    }

    fn line(&mut self) -> String {
        let each = |best: &[f64]| best.iter().sum::<f64>() * 1e9 / self.views.len() as f64;
        let (ours, ordinary) = (each(&self.ours), each(&self.ordinary));
        let ratio = ours / ordinary;
        self.ratios.sort_by(f64::total_cmp);
        let quarter = self.ratios.len() / 4;
        let half = format!("{:.2}–{:.2}", self.ratios[quarter], self.ratios[self.ratios.len() - 1 - quarter]);
        let (operation, class) = (self.operation.name, self.class.name());
        let bare = self.operation.bare.map_or_else(String::new, |_| format!("{:.1}", each(&self.bare)));
        format!(
            "| {operation:23} | {class:11} | {ratio:15.2} | {half:>18} | {ours:8.1} | {ordinary:12.1} | {bare:>8} |"
        )
    }
}

/// The best times so far, after a further round.
fn lessen(best: &mut [f64], times: Vec<f64>) {
    for (best, time) in best.iter_mut().zip(times) {
        *best = best.min(time);
    }
}
