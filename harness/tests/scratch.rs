//! 02, CR 6: a delete or rename with a scratch of 16 numbers beside the same call with 512 and with
//! 5,000, of random contents: equal answers, buffers and slices, and each scratch all zero in its
//! whole length.

use harness::pair::{call_raw, Answers, Pair};
use reference::call::{Action, Answer, Call, Key, Name, Operation};
use reference::kernel::Store;
use reference::numbers::*;
use trials::encode::encode;
use trials::layout::{FIRST_CHILD, MASTER, NEXT_CAP, P1, P2};
use trials::oracle::well_formed;
use trials::random::Random;
use trials::raw::RawStore;
use trials::samples::{shaped, Shape};

/// Makes the call with a scratch of this length on a copy of the slices, where it gives what is
/// expected: the slices that it leaves.
fn lent(
    scratch: usize,
    before: &RawStore,
    call: &Call,
    expected: &Answer,
    random: &mut Random,
) -> RawStore {
    let mut raw = before.clone();
    let call = Call { scratch, ..call.clone() };
    assert_eq!(call_raw(&mut raw, &call, expected, random), *expected, "{scratch}: {call:?}");
    raw
}

/// Makes the call with a scratch of 16 numbers beside the reference, and with longer ones on copies of
/// the slices; with one of 15 it is refused. The answer's code.
fn beside(pair: &mut Pair, operation: Operation, random: &mut Random) -> u32 {
    let call = Call { caller: CALLER, operation, buffer: MIN_BUFFER, scratch: 16 };
    let before = pair.raw.clone();
    let expected = pair.store.clone().run(&call);
    let code = pair.call(&call, random, &mut Answers::new());
    for longer in [17, 512, 5_000] {
        let after = lent(longer, &before, &call, &expected, random);
        assert!(after == pair.raw, "other slices with {longer}: {call:?}");
    }
    let short = Answer { code: OUT_OF_RANGE, ..Answer::default() };
    assert!(lent(15, &before, &call, &short, random) == before, "changed with 15: {call:?}");
    code
}

const CALLER: Name = Name { volume: 0, serial: 0 };

/// The chain 512 deep and the one 511 wide, and a tree at random.
const SHAPES: [Shape; 3] = [Shape::Deep, Shape::Wide, Shape::Random];

/// A process with a tree of 512 capabilities.
fn full(shape: Shape, random: &mut Random) -> Pair {
    let mut store = shaped(1, 64, MAX_CAPS as u32, shape, random);
    store.objects.values_mut().for_each(|object| object.cash = 1_000_000);
    Pair { raw: encode(&store, random), store }
}

/// The first, middle or last link below the master is deleted, until none is left.
#[test]
fn deleted_at_each_link() {
    let mut random = Random::new(14);
    for shape in SHAPES {
        for place in [0, 1, 2] {
            let mut pair = full(shape, &mut random);
            loop {
                let links = links_below_master(&pair.raw);
                if links.is_empty() {
                    break;
                }
                let key = links[[0, links.len() / 2, links.len() - 1][place]];
                let delete = Operation::On(key, Action::DeleteCap);
                assert_eq!(beside(&mut pair, delete, &mut random), DONE);
            }
            assert_eq!(pair.store.capabilities.len(), 1);
            assert!(well_formed(&pair.raw));
        }
    }
}

/// The master is deleted, and all with it, also on a day when many are expired.
#[test]
fn deleted_at_the_master() {
    let mut random = Random::new(15);
    for (shape, day) in SHAPES.into_iter().flat_map(|shape| [(shape, 0), (shape, MAX_DAY)]) {
        let mut pair = full(shape, &mut random);
        pair.store.day = day;
        pair.raw = encode(&pair.store, &mut random);
        let expired = pair.store.capabilities.values().filter(|c| c.expired(day)).count();
        assert!((expired > 50) == (day > 0), "{expired} expired on day {day}");
        let delete = Operation::On(master(&pair.store), Action::DeleteCap);
        assert_eq!(beside(&mut pair, delete, &mut random), DONE);
        assert!(pair.store.capabilities.is_empty() && pair.store.objects.is_empty());
        assert!(well_formed(&pair.raw));
    }
}

/// A rename by the last link is refused, one to that link's p1, too; then the master's is done, and
/// again on the new master alone.
#[test]
fn renamed() {
    let mut random = Random::new(16);
    for shape in SHAPES {
        let mut pair = full(shape, &mut random);
        let last = *links_below_master(&pair.raw).last().expect("a full tree");
        let old = master(&pair.store);
        let rename = |key, p1| Operation::On(key, Action::RenameObj { p1, p2: 7 });
        let free = (0..).find(|p1| !pair.store.capabilities.contains_key(&(CALLER, *p1)));
        let free = free.expect("a p1 that is not taken");
        assert_eq!(beside(&mut pair, rename(last, free), &mut random), NOT_MASTER);
        assert_eq!(beside(&mut pair, rename(old, last.p1), &mut random), TAKEN);
        assert_eq!(beside(&mut pair, rename(old, free), &mut random), DONE);
        let new = Key { name: CALLER, p1: free, p2: 7 };
        assert_eq!(master(&pair.store), new);
        assert_eq!(beside(&mut pair, rename(new, last.p1), &mut random), DONE);
        assert_eq!(pair.store.capabilities.len(), 1);
        assert!(well_formed(&pair.raw));
    }
}

fn master(store: &Store) -> Key {
    let mut masters = store.capabilities.iter().filter(|(_, c)| c.parent.is_none());
    let ((name, p1), capability) = masters.next().expect("a master");
    Key { name: *name, p1: *p1, p2: capability.p2 }
}

/// Those along the first children of a store of one object, each level's siblings too.
fn links_below_master(raw: &RawStore) -> Vec<Key> {
    let master = (1..65).map(|object| raw.link(MASTER, object)).find(|slot| *slot != 0);
    let mut found = Vec::new();
    let mut at = raw.link(FIRST_CHILD, master.unwrap_or(0));
    while at != 0 {
        found.push(Key { name: CALLER, p1: raw.get(P1, at), p2: raw.get(P2, at) });
        let next = raw.link(NEXT_CAP, at);
        at = if next != 0 { next } else { raw.link(FIRST_CHILD, at) };
    }
    found
}
