//! The instructions that a look-up runs, counted one by one under callgrind: p1's top bit, which
//! says whether a password is unlocked, has no part in which they are (02, CR 4). The proofs say
//! nothing of compiled code.

use std::collections::{BTreeMap, BTreeSet};
use std::env;
use std::fs;
use std::process::{self, Command};

/// How often each instruction was run, by its address.
type Counts = BTreeMap<String, u64>;

/// What one of the library's functions, and what it calls, run when this password is presented.
fn counts(entry: &str, password: &str) -> Counts {
    let name = format!("look-up-{}-{entry}-{password}", process::id());
    let written = env::temp_dir().join(name);
    let status = Command::new("valgrind")
        .args(["-q", "--tool=callgrind", "--dump-instr=yes", "--compress-pos=no"])
        .arg(format!("--toggle-collect={entry}"))
        .arg(format!("--callgrind-out-file={}", written.display()))
        .arg(env!("CARGO_BIN_EXE_look-up"))
        .arg(password)
        .status()
        .unwrap_or_else(|wrong| panic!("valgrind: {wrong}"));
    assert!(status.success(), "{password}: {status}");
    let text = fs::read_to_string(&written).expect("what callgrind wrote");
    fs::remove_file(&written).expect("a file of this test");
    costs(&text)
}

/// The lines of callgrind's format that say what an instruction cost: its address, its line in the
/// source and the cost. The line after `calls=` has what a call cost in all, and is left out.
fn costs(text: &str) -> Counts {
    let mut counts = Counts::new();
    let mut lines = text.lines();
    while let Some(line) = lines.next() {
        if line.starts_with("calls=") {
            lines.next();
        } else if line.starts_with("0x") {
            let [address, _, cost] = line.split(' ').collect::<Vec<_>>()[..] else {
                panic!("not a line of costs: {line}");
            };
            *counts.entry(address.to_owned()).or_default() += cost.parse::<u64>().expect(line);
        }
    }
    counts
}

/// The instructions that were not run as often in the one as in the other.
fn apart<'a>(one: &'a Counts, other: &'a Counts) -> BTreeSet<&'a str> {
    let all = one.keys().chain(other.keys());
    all.filter(|at| one.get(*at) != other.get(*at)).map(String::as_str).collect()
}

#[test]
fn the_top_bit_of_p1_does_not_choose_a_path() {
    for entry in ["store_step_unchecked", "drive_pick_unchecked"] {
        let passwords = ["low", "high", "absent-low", "absent-high", "elsewhere"];
        let [low, high, absent_low, absent_high, elsewhere] =
            passwords.map(|password| counts(entry, password));
        assert!(low.len() > 100, "{entry}: {} instructions were run", low.len());
        assert_eq!(apart(&low, &high), BTreeSet::new(), "{entry}");
        assert_eq!(apart(&absent_low, &absent_high), BTreeSet::new(), "{entry}");
        // what is counted does tell paths apart
        assert_ne!(apart(&low, &elsewhere), BTreeSet::new(), "{entry}");
        assert_ne!(apart(&low, &absent_low), BTreeSet::new(), "{entry}");
    }
}
