//! The verified programs, built beforehand: run on an input, with what they write.

use std::io::Write;
use std::path::PathBuf;
use std::process::{Command, Stdio};
use std::thread;

/// Where the program of that name was built: in its crate's `out`.
pub fn path(name: &str) -> PathBuf {
    let crates = PathBuf::from(env!("CARGO_MANIFEST_DIR")).join("../crates");
    crates.join(name).join("out").join(name)
}

/// What the program writes for this input.
pub fn output(name: &str, input: Vec<u8>) -> Vec<u8> {
    let mut child = Command::new(path(name))
        .stdin(Stdio::piped())
        .stdout(Stdio::piped())
        .spawn()
        .unwrap_or_else(|wrong| panic!("{name}: {wrong}"));
    let mut stdin = child.stdin.take().expect("a pipe to the program");
    // a program may end before it has read all
    let writer = thread::spawn(move || stdin.write_all(&input).is_ok());
    let output = child.wait_with_output().expect("the program's output");
    writer.join().expect("the input is written");
    assert!(output.status.success(), "{name}: {}", output.status);
    output.stdout
}
