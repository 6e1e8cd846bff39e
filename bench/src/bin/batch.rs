//! Answers the questions on standard input to standard output, with the ordinary version of the operations:
//!
//!     target/cargo/release/stream 1000000 > questions
//!     time target/cargo/release/batch < questions > answers

use std::io::{stdin, stdout};
use std::process::ExitCode;

fn main() -> ExitCode {
    match bench::batch::answer_all(stdin().lock(), stdout().lock()) {
        Ok(()) => ExitCode::SUCCESS,
        Err(error) => {
            eprintln!("batch: {error}");
            ExitCode::FAILURE
        }
    }
}
