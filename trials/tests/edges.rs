//! 01's edges and 02's, and each call's fee, right and last day, on the reference.

use reference::script::run_script;
use trials::edges::{answers, cases, check, script, OBJECT, PROCESS};

fn output(script: &str) -> String {
    let mut output = Vec::new();
    run_script(&mut script.as_bytes(), &mut output).expect("a run in memory");
    String::from_utf8(output).expect("output in digits")
}

fn run(script: &str) -> Vec<String> {
    answers(&output(script))
}

#[test]
fn edges() {
    cases().for_each(|case| check(case, &output(&script(case))));
}

/// For each call: lines before it that are done, the cash they cost, and the call itself.
/// With cash equal to the fee it is done and leaves 0; with one less it is 4.
#[test]
fn fees() {
    const OWN: &str = "0 1 0 1 5 9";
    let own = |number: u32, rest: &str| format!("{number} {OWN}{rest}");
    let table = [
        ("", 0, OBJECT.trim_end().to_owned(), 20),
        ("", 0, own(2, " 0 0"), 1),
        ("", 0, own(3, " 0 0"), 2),
        ("", 0, own(4, ""), 1),
        ("", 0, own(5, " 0 0 0 1 1"), 5),
        ("", 0, own(6, ""), 5),
        ("", 0, own(7, " 1 1"), 10),
        ("", 0, own(8, " 0"), 2),
        ("", 0, own(9, " 0"), 2),
        ("", 0, own(10, ""), 1),
        ("", 0, own(11, ""), 1),
        ("", 0, own(12, " 0 0"), 5),
        ("", 0, own(13, " 0"), 2),
        ("13 0 1 0 1 5 9 0\n", 2, "14 0 1".to_owned(), 1),
    ];
    for (before, spent, line, fee) in table {
        let prepared = before.lines().count();
        let equal = run(&format!("{} 5 9\n{before}{line}", spent + fee));
        assert!(equal[prepared].starts_with('0'), "{line}: {equal:?}");
        let total = format!("0 0 0 {}", spent + fee);
        assert_eq!(equal.last(), Some(&total), "{line}");
        let less = run(&format!("{} 5 9\n{before}{line}\n15 0 1", spent + fee - 1));
        assert_eq!(less[prepared..prepared + 2], ["4", "3"], "{line}");
        let total = format!("{} 0 0 {spent}", fee - 1);
        assert_eq!(less.last(), Some(&total), "{line}");
    }
}

/// Each call that presents a capability, with its right in 01's numbers: that right alone is
/// enough, and all rights but that one are 6.
#[test]
fn rights() {
    let table = [
        ("2", 1, " 0 0"),
        ("3", 2, " 0 0"),
        ("4", 4, ""),
        ("5", 8, " 0 0 0 3 3"),
        ("6", 16, ""),
        ("7", 32, " 3 3"),
        ("8", 64, " 0"),
        ("9", 128, " 0"),
        ("10", 256, ""),
        ("11", 512, ""),
        ("12", 1024, " 1 1"),
        ("13", 2048, " 0"),
        ("16", 4096, " 1"),
    ];
    for (call, right, rest) in table {
        let answer = |rights: u32| {
            let make = format!("1 0 1 1 0 1 {rights} 2 11 12");
            run(&format!("1000 5 9\n{make}\n{call} 0 1 1 2 11 12{rest}"))[1].clone()
        };
        let done = answer(right);
        assert!(done.starts_with('0') || done == "16", "{call}: {done}");
        assert_eq!(answer(8191 - right), "6", "{call}");
        assert_eq!(answer(0), "6", "{call}");
    }
}

/// Each call that presents a capability, by one whose last day is over: 19 with the right alone,
/// with all and with none, and the fee is paid; on the last day it is not 19.
#[test]
fn last_days() {
    let table = [
        ("2", 1, " 0 0", 1),
        ("3", 2, " 0 0", 2),
        ("4", 4, "", 1),
        ("5", 8, " 0 0 0 3 3", 5),
        ("6", 16, "", 5),
        ("7", 32, " 3 3", 10),
        ("8", 64, " 0", 2),
        ("9", 128, " 0", 2),
        ("10", 256, "", 1),
        ("11", 512, "", 1),
        ("12", 1024, " 1 1", 5),
        ("13", 2048, " 0", 2),
        ("16", 4096, " 1", 5),
    ];
    for (call, right, rest, fee) in table {
        for rights in [right, 8191, 0] {
            let derive = format!("5 0 1 1 2 11 12 {rights} 0 0 4294967295 70 21 22");
            let line = format!("{call} 0 1 1 2 21 22{rest}");
            let script = |day| format!("1000 5 9\n{PROCESS}{derive}\n17 {day}\n{line}\n");
            let over = run(&script(71));
            // made, resumed and derived for 26 before
            let total = format!("{} 0 0 {}", 974 - fee, 26 + fee);
            assert_eq!(over[4..], ["19".to_owned(), total], "{line}");
            let answer = &run(&script(70))[4];
            let expected: &[&str] = if rights == 0 { &["6"] } else { &["0", "11", "16"] };
            let code = answer.split(' ').next().unwrap_or_default();
            assert!(expected.contains(&code), "{line}: {answer}");
        }
    }
}

/// revive's fee, with a sum that takes the last of the cash.
#[test]
fn fee_of_revive() {
    for (supply, expected) in [(27, "0"), (26, "9"), (25, "4")] {
        let end = "2 1 2 1 2 11 12 0 0\n16 0 1 1 2 11 12 1";
        let answers = run(&format!("{supply} 5 9\n{PROCESS}{end}"));
        assert_eq!(answers[3], expected, "{answers:?}");
    }
}
