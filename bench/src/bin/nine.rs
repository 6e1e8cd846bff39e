//! Request Nine of document 02: absolute predecessors in the full alphabet, the library beside the ordinary Rust version,
//! over the names of document 01 and over a million random ones. Every answer and refusal of the two is compared, and
//! counted; then both are timed by turns. `cargo run --release -p bench --bin nine [-- SEED]`.

use std::process::ExitCode;
use std::time::Instant;

use bench::answers::same_answers;
use bench::names::{Class, Input, Inputs, Kind, SEED};
use bench::operations::{find, Operation, Run};
use qorshudan::raw;

const RANDOM: usize = 1_000_000;
const ROUNDS: usize = 15;
/// The least number of calls of a round.
const CALLS: usize = 200_000;

fn main() -> ExitCode {
    match report() {
        Ok(()) => ExitCode::SUCCESS,
        Err(message) => {
            eprintln!("{message}");
            ExitCode::FAILURE
        }
    }
}

fn report() -> Result<(), String> {
    let seed = match std::env::args().nth(1) {
        None => SEED,
        Some(word) => word.parse().map_err(|_| format!("usage: nine [SEED]; {word} is no number"))?,
    };
    let predecessor = find("predecessor")?;
    println!("Absolute predecessors, full alphabet, seed {seed}.");
    for (class, names) in [(Class::Paper, "the names of document 01"), (Class::Mix, "a million random names")] {
        let inputs = Inputs::new(Kind::Questions, class, RANDOM, seed);
        let views = inputs.views();
        let compared = same_answers(predecessor, &views)?;
        let (answers, refusals) = said(predecessor, &views);
        let (ours, ordinary) = times(predecessor, &views);
        println!();
        println!("{names}: {} questions, {answers} answered and {refusals} refused", views.len());
        println!(
            "  the same numbers, reasons, values and octets in {compared} calls of each, shorter spaces among them"
        );
        println!("  ours      {:7.1} ns a call, {:6.2} million calls a second", 1e9 * ours, 1e-6 / ours);
        println!("  ordinary  {:7.1} ns a call, {:6.2} million calls a second", 1e9 * ordinary, 1e-6 / ordinary);
        println!("  ours / ordinary {:.2}", ours / ordinary);
    }
    Ok(())
}

/// How many questions are answered, given room, and how many refused.
fn said(operation: &Operation, views: &[Input]) -> (usize, usize) {
    let mut space = vec![0; operation.space];
    let answered = views.iter().filter(|input| raw::number((operation.ours.call)(input, &mut space)) == 0).count();
    (answered, views.len() - answered)
}

/// The least seconds of a call in all rounds, of the library and of the ordinary version.
fn times(operation: &Operation, views: &[Input]) -> (f64, f64) {
    let mut space = vec![0; operation.space];
    let passes = CALLS.div_ceil(views.len());
    let mut time = |run: Run| {
        let start = Instant::now();
        for _ in 0..passes {
            run(views, &mut space);
        }
        start.elapsed().as_secs_f64() / (passes * views.len()) as f64
    };
    let (mut ours, mut ordinary) = (f64::INFINITY, f64::INFINITY);
    for _ in 0..ROUNDS {
        ours = ours.min(time(operation.ours.run));
        ordinary = ordinary.min(time(operation.ordinary.run));
    }
    (ours, ordinary)
}
