//! Random reads and writes by hook on the reference, between the calls of random runs: what each
//! gives and leaves by a second writing, and every scene met.

use reference::call::Answer;
use reference::claims;
use reference::hooks::{Hooked, Transfer};
use reference::kernel::Store;
use reference::numbers::*;
use trials::conditions::{holding, leave_fee};
use trials::hooks::MetByHook;
use trials::samples::calls_of_runs;

/// Each tile as a number of 64 bits, lowest byte first: bit 8i + j goes to 8j + i.
fn turned(data: &[u8]) -> Vec<u8> {
    let tiles = data.chunks_exact(8);
    let last = tiles.remainder();
    let turn = |tile: &[u8]| {
        let tile = u64::from_le_bytes(tile.try_into().expect("a tile"));
        let set = (0..64).filter(|at| tile >> at & 1 == 1);
        set.map(|at| 1 << (at % 8 * 8 + at / 8)).sum::<u64>().to_le_bytes()
    };
    tiles.flat_map(turn).chain(last.iter().copied()).collect()
}

/// The answer, and the store after it.
fn expected(before: &Store, hooked: &Hooked) -> (Answer, Store) {
    let (call, mut store) = (hooked.unturned(), before.clone());
    let code = holding(before, &call).first().map_or(DONE, |condition| condition.refusal);
    let mut answer = Answer { code, ..Answer::default() };
    leave_fee(&mut store, &call, code);
    if code == DONE {
        let object = store.objects.get_mut(&hooked.key.name).expect("an object");
        let range = &mut object.bytes[hooked.start as usize..hooked.end as usize];
        match &hooked.transfer {
            Transfer::Write { data } => range.copy_from_slice(&turned(data)),
            Transfer::Read { .. } => answer.bytes = turned(range),
        }
    }
    (answer, store)
}

/// A run of each profile with a read or a write by hook after each call.
fn runs(seed: u64, met: &mut MetByHook) {
    calls_of_runs(seed, &mut |generator, store| {
        let hooked = generator.next_hooked(store);
        let (answer, after) = expected(store, &hooked);
        assert_eq!(hooked.run(store), answer, "{hooked:?}");
        assert!(*store == after, "changed otherwise: {hooked:?}");
        assert_eq!(claims::well_formed(store), Ok(()), "{hooked:?}");
        met.note(&hooked, answer.code);
    });
}

#[test]
fn random_reads_and_writes() {
    let mut met = MetByHook::default();
    (1..=4).for_each(|seed| runs(seed, &mut met));
    for (scene, code, count) in met.counts() {
        println!("{code:>2} {scene:40}{count:>8}");
        assert!(count > 10, "not met: {scene}");
    }
}

/// The table of examples that the verified definition of turning is proved to hold.
const EDGES: &str = include_str!("../../crates/product_hooks/specs/Edges.antt");

/// The bytes of a list up to its end.
fn bytes(list: &str) -> Vec<u8> {
    list.split(|c: char| !c.is_ascii_digit()).filter_map(|word| word.parse().ok()).collect()
}

/// The reference turns each example as the definition does.
#[test]
fn edges() {
    let (_, table) = EDGES.split_once("\nedges =\n").expect("the table");
    let (table, _) = table.split_once("\n\n").expect("its end");
    let rows = table.lines().filter(|line| !line.trim_start().starts_with("--"));
    let rows = rows.collect::<Vec<_>>().join(" ");
    let edges: Vec<&str> = rows.split("edge ").skip(1).collect();
    assert_eq!(edges.len(), 7);
    for edge in edges {
        let mut lists = edge.split("[]").map(bytes);
        let [pattern, expected] = [(); 2].map(|()| lists.next().expect("two lists"));
        assert_eq!(reference::hooks::turned(&pattern), expected);
    }
}
