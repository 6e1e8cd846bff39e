//! Writes random questions for absolute predecessors, those of the table's class `mix`, to standard output, as a batch:
//!
//!     target/cargo/release/stream COUNT [SEED]

use std::io::{stdout, Write};
use std::process::ExitCode;

use bench::batch::put_question;
use bench::names::{Class, Inputs, Kind, SEED};
use bench::ordinary::MAX_NAME;

/// Written out together.
const CHUNK: usize = 1_000;

fn main() -> ExitCode {
    match write() {
        Ok(()) => ExitCode::SUCCESS,
        Err(message) => {
            eprintln!("{message}");
            ExitCode::FAILURE
        }
    }
}

fn write() -> Result<(), String> {
    let mut words = std::env::args().skip(1);
    let count = words.next().ok_or("usage: stream COUNT [SEED]")?;
    let count = count.parse().map_err(|_| format!("{count} is no number"))?;
    let seed = words.next().map_or(Ok(SEED), |seed| seed.parse().map_err(|_| format!("{seed} is no number")))?;
    let inputs = Inputs::new(Kind::Questions, Class::Mix, count, seed);
    let mut out = stdout().lock();
    for views in inputs.views().chunks(CHUNK) {
        let mut questions = Vec::new();
        for input in views {
            // A question has one octet for its limit.
            let limit = input.limit.min(MAX_NAME) as u8;
            put_question(input.first, limit, input.second, 0, &mut questions);
        }
        out.write_all(&questions).map_err(|error| error.to_string())?;
    }
    Ok(())
}
