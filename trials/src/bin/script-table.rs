//! `script-table`: prints the examples and the reference's answers as a file of definitions.

use std::process::ExitCode;

fn main() -> ExitCode {
    match trials::examples::definitions() {
        Some(definitions) => {
            print!("{definitions}");
            ExitCode::SUCCESS
        }
        None => {
            eprintln!("script-table: an example is not made of lines of numbers");
            ExitCode::FAILURE
        }
    }
}
