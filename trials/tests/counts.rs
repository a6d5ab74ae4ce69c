//! Random questions for the number of passwords on the reference, between the calls of random runs:
//! the answer by a second writing, that counts capabilities which are not expired, every scene met
//! and every right asked.
//! And the examples of the verified definitions.

use reference::call::Name;
use reference::counting::PasswordCount;
use reference::kernel::Store;
use reference::numbers::*;
use std::collections::BTreeMap;
use trials::counts::{Tried, SCENES};
use trials::met::Met;
use trials::samples::{after_script, calls_of_runs};
use trials::table;

/// The answer's code and its number.
fn expected(store: &Store, asked: &PasswordCount) -> (u32, u32) {
    let in_range = |name: Name| name.volume < 4 && name.serial < 65_536;
    let one_right = (0..13).any(|bit| asked.right == 1 << bit);
    if !one_right || !in_range(asked.caller) || !in_range(asked.object) {
        return (OUT_OF_RANGE, 0);
    }
    if !store.objects.get(&asked.caller).is_some_and(|caller| caller.process) {
        return (NOT_RUNNING, 0);
    }
    let of = store.capabilities.iter().filter(|((name, _), _)| *name == asked.object);
    let of = of.filter(|(_, found)| found.rights & asked.right == asked.right);
    (DONE, of.filter(|(_, found)| store.day <= found.last_day).count() as u32)
}

fn answered(store: &Store, asked: &PasswordCount) -> (u32, u32) {
    asked.ask(store).map_or_else(|refusal| (refusal.number(), 0), |count| (DONE, count))
}

/// A run of each profile with a question after each call; how often each right was counted.
fn runs(seed: u64, met: &mut Met<Tried>, rights: &mut BTreeMap<u32, u64>) {
    calls_of_runs(seed, &mut |generator, store| {
        let asked = generator.next_count(store);
        let given = answered(store, &asked);
        assert_eq!(given, expected(store, &asked), "{asked:?}");
        met.note(&Tried::new(store, &asked), given.0);
        *rights.entry(asked.right).or_default() += u64::from(given.1 > 0);
    });
}

#[test]
fn random_counts() {
    let (mut met, mut rights) = (Met::new(&SCENES), BTreeMap::new());
    (1..=4).for_each(|seed| runs(seed, &mut met, &mut rights));
    for (scene, code, count) in met.counts() {
        println!("{code:>2} {scene:40}{count:>8}");
        assert!(count > 10, "not met: {scene}");
    }
    assert!(right::ALL.iter().all(|right| rights[right] > 50), "{rights:?}");
}

/// The table of examples that the definition of the count is proved to hold.
const EDGES: &str = include_str!("../../crates/question_count/specs/Edges.antt");

/// The lines that make the store of the examples.
const LINES: [&str; 12] = [
    "1000 5 9",
    "1 0 1 2 128 0 8191 7 11 13",
    "5 0 1 2 7 11 13 8191 0 128 2147483658 13",
    "5 0 1 2 7 11 13 9 0 64 21 13",
    "5 0 1 2 7 2147483658 13 3 0 64 2147483649 13",
    "5 0 1 2 7 11 13 8190 0 128 41 13",
    "5 0 1 2 7 21 13 2 0 64 51 13",
    "1 0 1 3 0 1 8191 8 61 13",
    "12 0 1 0 1 5 9 6 0",
    "5 0 1 2 7 11 13 8191 0 128 0 3 71 13",
    "5 0 1 2 7 11 13 8191 0 128 0 4 81 13",
    "17 4",
];

/// The reference gives for each example what the definition does: the caller, the object and the
/// right; the code and the number.
#[test]
fn edges() {
    let (store, edges) = (after_script(&LINES), table::edges(EDGES));
    assert_eq!(edges.len(), 24);
    for [volume, serial, of, number, right, code, count] in edges {
        let caller = Name { volume, serial };
        let asked = PasswordCount { caller, object: Name { volume: of, serial: number }, right };
        assert_eq!(answered(&store, &asked), (code, count), "{asked:?}");
    }
}
