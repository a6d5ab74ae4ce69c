//! `coverage [seed]`: makes the checked runs of all profiles and prints the coverage table.

use std::process::ExitCode;

fn main() -> ExitCode {
    let seed = std::env::args().nth(1).and_then(|seed| seed.parse().ok());
    match trials::coverage::checked_runs(seed.unwrap_or(1)) {
        Ok(coverage) => {
            print!("{}", coverage.table());
            let mut counts = coverage.reachable_counts();
            counts.sort_by_key(|(_, count)| *count);
            println!("\nsmallest counts");
            for (what, count) in counts.iter().take(20) {
                println!("{count:>8} {what}");
            }
            ExitCode::SUCCESS
        }
        Err(wrong) => {
            eprintln!("coverage: {wrong}");
            ExitCode::FAILURE
        }
    }
}
