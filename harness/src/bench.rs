//! What the benchmarks share: a store to make calls on, and times with their medians.

use reference::call::{Call, Key, Name, Operation};
use reference::kernel::Store;
use reference::numbers::{MIN_BUFFER, MIN_SCRATCH, TOP};
use std::time::Instant;
use trials::random::Random;
use trials::samples::{shaped, Shape};

/// Processes with cash and no mark, each with a tree whose p1 have no top bit.
pub fn processes(objects: u32, tree: u32, size: usize, shape: Shape) -> Store {
    let mut random = Random::new(7);
    let mut store = shaped(objects, size, tree, shape, &mut random);
    for object in store.objects.values_mut() {
        object.cash = 10_000;
    }
    let low = |p1: u32| p1 & (TOP - 1);
    store.capabilities = store
        .capabilities
        .into_iter()
        .map(|((name, p1), mut capability)| {
            capability.parent = capability.parent.map(low);
            ((name, low(p1)), capability)
        })
        .collect();
    store
}

/// An object's capabilities as they are presented: the master, then the others.
pub fn keys(store: &Store, name: Name) -> Vec<Key> {
    let key = |p1, p2| Key { name, p1, p2 };
    let mut keys: Vec<(Option<u32>, Key)> =
        store.tree(name).map(|(p1, c)| (c.parent, key(p1, c.p2))).collect();
    keys.sort_by_key(|(parent, _)| parent.is_some());
    keys.into_iter().map(|(_, key)| key).collect()
}

/// A call with what it needs of buffer and scratch.
pub fn call(caller: Name, operation: Operation) -> Call {
    Call { caller, operation, buffer: MIN_BUFFER, scratch: MIN_SCRATCH }
}

/// How long a run takes, in nanoseconds.
pub fn time(run: impl FnOnce()) -> u64 {
    let start = Instant::now();
    run();
    u64::try_from(start.elapsed().as_nanos()).unwrap_or(u64::MAX)
}

/// The median of some times.
pub fn median(times: &[u64]) -> f64 {
    let mut sorted = times.to_vec();
    sorted.sort_unstable();
    sorted[sorted.len() / 2] as f64
}
