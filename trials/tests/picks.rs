//! Random picks of the loom drive on the reference, between the calls of random runs: the answer
//! and the step by a second writing, what a pick leaves, and every scene met. And the examples of
//! the verified drive's definitions.

use reference::call::{Action, Call, Key, Name, Operation};
use reference::claims;
use reference::drive::{Pick, Picked, Place, Repeat};
use reference::kernel::Store;
use reference::numbers::*;
use trials::conditions::{holding, leave_fee, Condition};
use trials::met::Met;
use trials::picks::SCENES;
use trials::samples::calls_of_runs;
use trials::table;

/// 02's whole part of i × C / N, divided.
fn whole_part(pick: &Pick, i: u32) -> u64 {
    u64::from(i) * u64::from(pick.repeat.counts) / u64::from(pick.repeat.picks)
}

/// The read that a pick makes, whatever the window is.
fn read(pick: &Pick, start: u32) -> Call {
    let action = Action::Read { start, end: start.saturating_add(pick.repeat.row) };
    let operation = Operation::On(pick.key, action);
    Call { caller: pick.caller, operation, buffer: pick.buffer, scratch: MIN_SCRATCH }
}

/// Whether N, C, W and the place are in range.
fn in_range(pick: &Pick) -> bool {
    let Place { next, steps } = pick.place;
    !(pick.repeat.picks == 0
        || pick.repeat.picks > MAX_PICKS
        || pick.repeat.counts > MAX_COUNTS
        || pick.repeat.row == 0
        || pick.repeat.row > MAX_ROW
        || next == 0
        || next > pick.repeat.picks)
        && whole_part(pick, next - 1) == u64::from(steps)
}

/// The answer's code, from all conditions of the read that hold.
fn expected_code(store: &Store, pick: &Pick) -> u32 {
    if !in_range(pick) {
        return OUT_OF_RANGE;
    }
    let held = holding(store, &read(pick, 0));
    let of_question = |c: &&Condition| {
        [OUT_OF_RANGE, NOT_RUNNING, NOT_FOUND, EXPIRED, RIGHT_MISSING].contains(&c.refusal)
            && c.case != "buffer"
    };
    if let Some(condition) = held.iter().find(of_question) {
        return condition.refusal;
    }
    let place = store.find(pick.caller, pick.key).expect("a capability");
    let found = store.capabilities[&place];
    if found.end - found.start != pick.repeat.picks * pick.repeat.row {
        return WRONG_LENGTH;
    }
    let held = holding(store, &read(pick, found.start));
    held.first().map_or(DONE, |condition| condition.refusal)
}

/// The answer, from its code.
fn expected(store: &Store, pick: &Pick) -> Picked {
    let code = expected_code(store, pick);
    if code != DONE {
        return Picked { code, step: 0, place: pick.place, bytes: vec![] };
    }
    let next = pick.place.next;
    let [before, after] = [next - 1, next].map(|i| whole_part(pick, i) as u32);
    let place = Place { next: next + 1, steps: after };
    let last = next == pick.repeat.picks;
    let (name, p1) = store.find(pick.caller, pick.key).expect("a capability");
    let first = store.capabilities[&(name, p1)].start + (next - 1) * pick.repeat.row;
    let bytes = &store.objects[&name].bytes[first as usize..][..pick.repeat.row as usize];
    Picked {
        code,
        step: after - before,
        place: if last { Place::START } else { place },
        bytes: bytes.to_vec(),
    }
}

/// The store after a pick that was answered so.
fn store_after(before: &Store, pick: &Pick, code: u32) -> Store {
    let mut store = before.clone();
    if [DONE, CANNOT_PAY].contains(&code) {
        leave_fee(&mut store, &read(pick, 0), code);
    }
    store
}

/// Makes a pick, and compares all that it gives and leaves.
fn compared(store: &mut Store, pick: &Pick) -> Picked {
    let expected = expected(store, pick);
    let after = store_after(store, pick, expected.code);
    let picked = pick.run(store);
    assert_eq!(picked, expected, "{pick:?}");
    assert!(*store == after, "changed more: {pick:?}");
    assert_eq!(claims::well_formed(store), Ok(()), "{pick:?}");
    picked
}

/// A run of each profile with picks between the calls.
fn runs(seed: u64, met: &mut Met<Pick>) {
    calls_of_runs(seed, &mut |generator, store| {
        let mut next = Some(generator.next_pick(store));
        while let Some(pick) = next {
            let picked = compared(store, &pick);
            met.note(&pick, picked.code);
            next = generator.following(&pick, &picked);
        }
    });
}

#[test]
fn random_picks() {
    let mut met = Met::new(&[&SCENES]);
    (1..=4).for_each(|seed| runs(seed, &mut met));
    for (scene, code, count) in met.counts() {
        println!("{code:>2} {scene:32}{count:>8}");
        assert!(count > 10, "not met: {scene}");
    }
}

/// The table of examples that the definitions of the verified drive are proved to hold.
const EDGES: &str = include_str!("../../crates/product_drive/specs/Edges.antt");

/// The reference gives for each example what the definitions do: N, C, W, next pick, steps; whether
/// they fit; step, next pick, steps.
#[test]
fn edges() {
    let edges = table::edges(EDGES);
    assert_eq!(edges.len(), 20);
    for [picks, counts, row, next, steps, fits, step, after, steps_after] in edges {
        let repeat = Repeat { picks, counts, row };
        let pick = Pick {
            caller: Name::default(),
            key: Key::default(),
            repeat,
            place: Place { next, steps },
            buffer: MIN_BUFFER,
        };
        assert_eq!(u32::from(pick.in_range()), fits, "{pick:?}");
        let (taken, place) = if pick.in_range() { pick.taken_up() } else { (0, pick.place) };
        assert_eq!((taken, place), (step, Place { next: after, steps: steps_after }), "{pick:?}");
    }
}
