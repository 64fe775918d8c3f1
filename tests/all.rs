//! What `cargo test` runs beside the examples of the documentation: every test of this folder. `tests/run` builds them over the plain
//! Rust edition of the proved sources, crate by crate, and says at the end how many passed. A name picks tests, as it does with cargo:
//! `cargo test NAME`. `tests/run --help` tells the rest: one package, and what did not run.

use std::env;
use std::path::Path;
use std::process::{Command, ExitCode};

fn main() -> ExitCode {
    let run = Path::new(env!("CARGO_MANIFEST_DIR")).join("tests/run");
    let python = env::var("PYTHON").unwrap_or_else(|_| "python3".into());
    let (options, names): (Vec<String>, Vec<String>) =
        env::args().skip(1).partition(|word| word.starts_with('-'));
    let mut command = Command::new(&python);
    command.arg(run).args(names);
    if !options.is_empty() {
        command.arg("--").args(options);
    }
    match command.status() {
        Ok(ended) if ended.success() => ExitCode::SUCCESS,
        Ok(_) => ExitCode::FAILURE,
        Err(fault) => {
            eprintln!("the tests are run by Python 3, and {python} cannot be run: {fault}");
            ExitCode::FAILURE
        }
    }
}
