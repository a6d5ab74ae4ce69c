//! Random questions what can be lent on the reference, between the calls of random runs: the answer
//! by a second writing, that compares where the first one tries, and every scene met. And the
//! examples of the verified definitions.

use reference::call::Name;
use reference::kernel::Store;
use reference::lending::{LendPlace, Wish};
use reference::numbers::*;
use trials::lends::{Tried, SCENES};
use trials::met::Met;
use trials::samples::{after_script, calls_of_runs};
use trials::table;

fn answered(store: &Store, asked: &LendPlace) -> [u32; 2] {
    asked.ask(store).map_or_else(|refusal| [refusal.number(), 0], |place| [DONE, place])
}

/// A question after each call of a run of each profile; the store is left as it was.
#[test]
fn random_lends() {
    let mut met = Met::new(&SCENES);
    for seed in 1..=8 {
        calls_of_runs(seed, &mut |generator, store| {
            let asked = generator.next_lend(store);
            let (tried, given) = (Tried::new(store, &asked), answered(store, &asked));
            assert_eq!(given, tried.answer(), "{asked:?}");
            met.note(&tried, given[0]);
        });
    }
    for (scene, code, count) in met.counts() {
        println!("{code:>2} {scene:40}{count:>8}");
        assert!(count > 10, "not met: {scene}");
    }
}

/// The table of examples that the definition of the question is proved to hold.
const EDGES: &str = include_str!("../../crates/question_lend/specs/Edges.antt");

/// The lines that make the store of the examples.
const LINES: [&str; 15] = [
    "1000 5 9",
    "1 0 1 2 128 0 8191 7 11 13",
    "9 0 1 2 7 11 13 500",
    "5 0 1 2 7 11 13 79 16 112 300 100 21 13",
    "5 0 1 2 7 21 13 77 32 96 200 60 2147483658 13",
    "5 0 1 2 7 2147483658 13 9 40 80 150 50 61 13",
    "5 0 1 2 7 11 13 8183 0 128 500 65535 31 13",
    "5 0 1 2 7 11 13 8191 0 128 500 3 41 13",
    "5 0 1 2 7 11 13 8191 0 128 500 4 51 13",
    "8 0 1 2 7 21 13 180",
    "1 0 1 3 0 1 8191 8 71 13",
    "11 0 1 3 8 71 13",
    "1 0 1 3 0 1 8191 9 81 13",
    "12 0 1 0 1 5 9 6 0",
    "17 4",
];

/// The reference gives for each example what the definition does: the caller, the wish and the list;
/// the code and the place.
#[test]
fn edges() {
    let (store, edges) = (after_script(&LINES), table::edges_with_list(EDGES));
    assert_eq!(edges.len(), 33);
    for ([volume, serial, rights, start, end, sum, last_day, code, place], list) in edges {
        let wish = Wish { rights, start, end, sum, last_day };
        let asked = LendPlace { caller: Name { volume, serial }, list, wish };
        assert_eq!(answered(&store, &asked), [code, place], "{asked:?}");
    }
}
