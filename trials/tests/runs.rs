//! Random checked runs over all profiles: demand 3, the money total and the well-formed store
//! after every call, and the coverage of answers, of pairs of refusals and of their cases.

use reference::call::SET_DAY;
use trials::coverage::{checked_runs, name, PRESENTING};

const ALL: &[u32] = &[1, 2, 3, 4, 5, 6, 7, 8, 9, 10, 11, 12, 13, 14, 15, 16];

/// Every case of a refusal that must be met, for which calls.
const CASES: &[(&[u32], u32, &[&str])] = &[
    (&[0], 2, &["unknown call"]),
    (ALL, 2, &["caller's volume", "caller's serial"]),
    (PRESENTING, 2, &["volume", "serial"]),
    (&[1], 2, &["new volume", "new serial", "size", "flag", "rights"]),
    (&[2], 2, &["start after end", "over 256 bytes", "buffer"]),
    (&[3], 2, &["start after end", "over 256 bytes", "data length"]),
    (&[5], 2, &["mask", "start after end", "last day"]),
    (&[6, 7], 2, &["scratch"]),
    (&[12], 2, &["lock word"]),
    (&[13], 2, &["message"]),
    (&[14], 2, &["buffer"]),
    (&[SET_DAY], 2, &["day"]),
    (ALL, 3, &["absent", "data object", "suspended", "waiting", "terminated"]),
    (PRESENTING, 5, &["no object", "no such p1", "wrong p2"]),
    (&[2, 3], 7, &["start", "end"]),
    (&[8], 9, &["own moneyword", "moneyword above"]),
    (&[9], 10, &["own moneyword", "moneyword above"]),
    (&[1], 12, &["serial"]),
    (&[5, 7], 12, &["own p1", "another's p1"]),
    (&[1], 13, &["objects", "capabilities", "blocks"]),
    (&[5], 13, &["capabilities"]),
    (&[16], 16, &["not terminated", "sum 0"]),
    (PRESENTING, 19, &["expired"]),
    (&[SET_DAY], 20, &["earlier day"]),
];

#[test]
fn checked_runs_cover_everything() {
    let coverage = checked_runs(1).unwrap_or_else(|wrong| panic!("{wrong}"));
    assert!(coverage.calls >= 200_000);
    for (what, count) in coverage.reachable_counts() {
        assert!(count > 0, "not met: {what}");
    }
    assert_eq!(coverage.unexpected(), Vec::<String>::new());
    for (calls, refusal, cases) in CASES {
        for (call, case) in calls.iter().flat_map(|call| cases.iter().map(move |c| (call, c))) {
            let met = coverage.cases.keys().any(|(number, condition)| {
                (number, condition.refusal, condition.case) == (call, *refusal, *case)
            });
            assert!(met, "not met: {} {refusal} {case}", name(*call));
        }
    }
    let peaks = coverage.peaks;
    assert_eq!((peaks.objects, peaks.capabilities), (64, 512));
    assert_eq!((peaks.blocks, peaks.depth), (512, 512));
    assert!(peaks.children > 400);
}
