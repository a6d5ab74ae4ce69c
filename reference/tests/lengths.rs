//! Lengths of the answer buffer and of the scratch on both sides of what the papers ask for.

use reference::kernel::Store;
use reference::numbers::*;
use reference::script::read_call;

/// A line, whether it needs the buffer and the scratch, and its answer when they suffice.
const TABLE: [(&str, bool, bool, u32); 11] = [
    ("2 0 1 0 1 5 9 0 0", true, false, DONE),
    ("14 0 1", true, false, BOX_EMPTY),
    ("6 0 1 0 1 5 9", false, true, DONE),
    ("7 0 1 0 1 5 9 1 1", false, true, DONE),
    ("3 0 1 0 1 5 9 0 0", false, false, DONE),
    ("4 0 1 0 1 5 9", false, false, DONE),
    ("5 0 1 0 1 5 9 0 0 0 1 1", false, false, DONE),
    ("1 0 1 0 64 0 0 2 1 1", false, false, DONE),
    ("13 0 1 0 1 5 9 0 1 2 3", false, false, DONE),
    ("15 0 1", false, false, DONE),
    ("17 5", false, false, DONE),
];

fn code(line: &str, buffer: usize, scratch: usize) -> u32 {
    let numbers: Vec<u32> = line.split(' ').map(|n| n.parse().unwrap()).collect();
    let mut call = read_call(&numbers).expect("a line of the table");
    (call.buffer, call.scratch) = (buffer, scratch);
    let mut store = Store::fresh(1000, 5, 9);
    let before = store.clone();
    let code = store.run(&call).code;
    assert!(code != OUT_OF_RANGE || store == before, "{line}: 2 changes nothing");
    code
}

#[test]
fn lengths() {
    for (line, needs_buffer, needs_scratch, expected) in TABLE {
        assert_eq!(code(line, MIN_BUFFER, MIN_SCRATCH), expected, "{line}");
        assert_eq!(code(line, 10_000, 10_000), expected, "{line}");
        let short = |needed: bool| if needed { OUT_OF_RANGE } else { expected };
        for buffer in [0, MIN_BUFFER - 1] {
            assert_eq!(code(line, buffer, MIN_SCRATCH), short(needs_buffer), "{line}");
        }
        for scratch in [0, MIN_SCRATCH - 1] {
            assert_eq!(code(line, MIN_BUFFER, scratch), short(needs_scratch), "{line}");
        }
    }
}

/// 02, CR 6: "Shorter than 16 is refused by 2."
#[test]
fn sixteen_numbers_of_scratch() {
    for line in ["6 0 1 0 1 5 9", "7 0 1 0 1 5 9 1 1"] {
        for scratch in 0..16 {
            assert_eq!(code(line, MIN_BUFFER, scratch), OUT_OF_RANGE, "{line}: {scratch}");
        }
        for scratch in [16, 17, 511, 512, 5_000] {
            assert_eq!(code(line, MIN_BUFFER, scratch), DONE, "{line}: {scratch}");
        }
    }
}
