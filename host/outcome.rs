//! How a comparison ends: what it found equal on standard output and status 0,
//! or the difference on standard error and status 1.

use std::process::ExitCode;

pub fn end(result: Result<String, String>) -> ExitCode {
    match result {
        Ok(summary) => {
            println!("{summary}");
            ExitCode::SUCCESS
        }
        Err(message) => {
            eprintln!("{message}");
            ExitCode::from(1)
        }
    }
}
