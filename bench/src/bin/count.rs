//! Calls one version of one operation a fixed number of times on fixed inputs, for counting instructions:
//!
//!     cargo build --release -p bench
//!     valgrind --tool=callgrind --callgrind-out-file=/dev/null --toggle-collect='*measured*' \
//!         target/cargo/release/count OPERATION CLASS ours|ordinary PASSES
//!
//! OPERATION and CLASS are those of the table. The program prints the number of its calls; "Collected" in valgrind's
//! lines is the number of instructions in them, with some ten for each call that are the loop's around it. Without
//! valgrind's switch, and under other tools, the difference between two runs with different PASSES is the calls' own.

use std::process::ExitCode;

use bench::names::{Input, Inputs, SEED};
use bench::operations::{find, Version};

/// Enough of the class `mix` under a slow tool.
const MIX: usize = 20_000;

fn main() -> ExitCode {
    match count() {
        Ok(calls) => {
            println!("{calls} calls");
            ExitCode::SUCCESS
        }
        Err(message) => {
            eprintln!("{message}");
            ExitCode::FAILURE
        }
    }
}

fn count() -> Result<usize, String> {
    let words: Vec<_> = std::env::args().skip(1).collect();
    let [operation, class, version, passes] = &words[..] else {
        return Err("usage: count OPERATION CLASS ours|ordinary PASSES".into());
    };
    let operation = find(operation)?;
    let classes = operation.kind.classes();
    let class = classes.iter().find(|known| known.name() == class).ok_or_else(|| {
        let names: Vec<_> = classes.iter().map(|class| class.name()).collect();
        format!("no class {class}; there are {}", names.join(", "))
    })?;
    let version = match version.as_str() {
        "ours" => &operation.ours,
        "ordinary" => &operation.ordinary,
        other => return Err(format!("{other} is neither ours nor ordinary")),
    };
    let passes = passes.parse().map_err(|_| format!("{passes} is no number"))?;
    let inputs = Inputs::new(operation.kind, *class, MIX, SEED);
    let views = inputs.views();
    measured(version, &views, passes, &mut vec![0; operation.space]);
    Ok(views.len() * passes)
}

/// All that is counted.
#[inline(never)]
fn measured(version: &Version, views: &[Input], passes: usize, space: &mut [u8]) {
    for _ in 0..passes {
        (version.run)(views, space);
    }
}
