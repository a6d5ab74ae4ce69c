//! Times the verified program `hall` beside the reference's `hall-reference`, in one run on the same
//! scripts: lines a second, their ratio, and the peak memory of `hall` on a script and on one ten
//! times as long.

use harness::program;
use std::fs::{self, File};
use std::path::Path;
use std::process::{Command, Stdio};
use std::time::Instant;
use trials::generate::script;
use trials::profiles::profile;

const ROUNDS: usize = 7;
const LINES: u32 = 100_000;

/// A script by name: of a profile, or its lines over and over.
struct Script {
    name: &'static str,
    text: Vec<u8>,
}

fn generated(name: &'static str, kind: &str) -> Script {
    let profile = profile(kind).unwrap_or_else(|| panic!("no profile {kind}"));
    Script { name, text: script(profile, 1, LINES) }
}

/// Reads and writes of 256 bytes.
fn bytes() -> Script {
    let mut text = b"4000000000 5 9\n1 0 1 2 8192 0 8191 7 11 13\n".to_vec();
    let data = " 7".repeat(256);
    for at in 0..LINES / 2 {
        let start = at * 37 % 7_900;
        let range = format!("{start} {}", start + 256);
        text.extend(format!("3 0 1 2 7 11 13 {range}{data}\n2 0 1 2 7 11 13 {range}\n").bytes());
    }
    Script { name: "bytes", text }
}

/// A run of the program on the file, in seconds, and the most memory seen, in kilobytes.
fn run(program: &Path, input: &Path) -> (f64, u64) {
    let start = Instant::now();
    let mut child = Command::new(program)
        .stdin(File::open(input).expect("the script"))
        .stdout(Stdio::null())
        .spawn()
        .unwrap_or_else(|wrong| panic!("{}: {wrong}", program.display()));
    let status = format!("/proc/{}/status", child.id());
    let mut most = 0;
    while child.try_wait().expect("the program").is_none() {
        most = most.max(fs::read_to_string(&status).ok().and_then(|text| peak(&text)).unwrap_or(0));
        std::thread::sleep(std::time::Duration::from_millis(1));
    }
    (start.elapsed().as_secs_f64(), most)
}

fn peak(status: &str) -> Option<u64> {
    let line = status.lines().find(|line| line.starts_with("VmHWM:"))?;
    line.split_whitespace().nth(1)?.parse().ok()
}

fn median(mut times: Vec<f64>) -> f64 {
    times.sort_by(f64::total_cmp);
    times[times.len() / 2]
}

fn main() {
    let hall = program::path("hall");
    // built beside this program
    let reference = std::env::current_exe().expect("this program").with_file_name("hall-reference");
    let file = std::env::temp_dir().join(format!("hall-bench-{}", std::process::id()));
    println!("medians of {ROUNDS} runs, lines a second");
    println!("{:16}{:>12}{:>12}{:>8}", "script", "hall", "reference", "ratio");
    let scripts = [
        generated("mixed", "mixed"),
        generated("deep trees", "deep"),
        generated("full store", "capabilities"),
        bytes(),
    ];
    for Script { name, text } in &scripts {
        fs::write(&file, text).expect("the script is written");
        let lines = text.iter().filter(|byte| **byte == 10).count() as f64;
        let (mut ours, mut theirs) = (Vec::new(), Vec::new());
        for _ in 0..ROUNDS {
            ours.push(run(&hall, &file).0);
            theirs.push(run(&reference, &file).0);
        }
        let (ours, theirs) = (lines / median(ours), lines / median(theirs));
        println!("{name:16}{ours:>12.0}{theirs:>12.0}{:>8.2}", ours / theirs);
    }
    for times in [1, 10] {
        fs::write(&file, scripts[3].text.repeat(times)).expect("the script is written");
        println!("peak memory of hall, bytes x {times}: {} kB", run(&hall, &file).1);
    }
    fs::remove_file(&file).expect("the script is removed");
}
