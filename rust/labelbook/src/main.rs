//! The program `labelbook`, for label books in files. `labelbook help` says what it does.
//!
//! `arguments` reads the command line into a request, `commands` does it. What names, scores and
//! books are is the library's business: every verdict on them is a refusal of its.
#![forbid(unsafe_code)]

mod arguments;
mod commands;
mod failure;
mod files;
mod help;
mod lines;
mod save;

use std::process::ExitCode;

fn main() -> ExitCode {
    match arguments::read(std::env::args_os().skip(1)).and_then(commands::run) {
        Ok(()) => ExitCode::SUCCESS,
        Err(failure) => {
            if let Some(message) = failure.message() {
                files::note(&message);
            }
            ExitCode::from(failure.status())
        }
    }
}
