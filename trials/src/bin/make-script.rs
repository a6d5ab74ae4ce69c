//! `make-script profile seed lines`: prints a random script of that profile.

use std::io::Write;
use std::process::ExitCode;
use trials::generate::script;
use trials::profiles::{profile, PROFILES};

fn main() -> ExitCode {
    let arguments: Vec<String> = std::env::args().skip(1).collect();
    let wanted = match &arguments[..] {
        [name, seed, lines] => profile(name).zip(seed.parse().ok()).zip(lines.parse().ok()),
        _ => None,
    };
    let Some(((profile, seed), lines)) = wanted else {
        let names: Vec<&str> = PROFILES.iter().map(|profile| profile.name).collect();
        eprintln!("make-script profile seed lines; profiles: {}", names.join(" "));
        return ExitCode::FAILURE;
    };
    match std::io::stdout().write_all(&script(profile, seed, lines)) {
        Ok(()) => ExitCode::SUCCESS,
        Err(_) => ExitCode::FAILURE,
    }
}
