//! What a program of this folder came to, and the exit status that says so.

use std::error::Error;
use std::process::ExitCode;

/// All is well, or the fault to print.
pub type Outcome = Result<(), Box<dyn Error>>;

/// Prints the fault, where there is one.
pub fn exit_code(outcome: Outcome) -> ExitCode {
    match outcome {
        Ok(()) => ExitCode::SUCCESS,
        Err(fault) => {
            eprintln!("{fault}");
            ExitCode::FAILURE
        }
    }
}
