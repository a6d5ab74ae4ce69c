//! Random runs of the profiles; and stores to try the checkers and the questions on: those met in
//! such runs, the same damaged, full ones of given shapes, and what a script leaves.

use crate::damage::{damage, Kind};
use crate::encode::{encode, shuffled};
use crate::generate::Generator;
use crate::oracle::well_formed;
use crate::profiles::{Profile, PROFILES};
use crate::random::Random;
use crate::raw::RawStore;
use reference::call::{Key, Name};
use reference::kernel::{Capability, Object, Place, Store};
use reference::numbers::{DONE, MAX_CAPS, MAX_DAY, MAX_RIGHTS};
use reference::script::{answer_line, read_numbers, start};
use std::collections::BTreeSet;

/// A random run of a profile, with something done after each call.
pub fn calls_of_run(
    profile: Profile,
    seed: u64,
    after: &mut impl FnMut(&mut Generator, &mut Store),
) {
    let mut generator = Generator::new(profile, seed);
    let [supply, p1, p2] = generator.first();
    let mut store = Store::fresh(supply, p1, p2);
    for _ in 0..profile.calls {
        store.run(&generator.next_call(&store));
        after(&mut generator, &mut store);
    }
}

/// Such a run of each profile.
pub fn calls_of_runs(seed: u64, after: &mut impl FnMut(&mut Generator, &mut Store)) {
    for profile in PROFILES {
        calls_of_run(profile, seed, after);
    }
}

/// Hands out every so manieth store of a random run of a profile, the fresh one included.
pub fn stores_of_run(profile: Profile, seed: u64, every: u32, visit: &mut impl FnMut(&Store)) {
    let mut generator = Generator::new(profile, seed);
    let [supply, p1, p2] = generator.first();
    let mut store = Store::fresh(supply, p1, p2);
    for call in 0..=profile.calls {
        if call % every == 0 {
            visit(&store);
        }
        let next = generator.next_call(&store);
        store.run(&next);
    }
}

/// Hands out stores of one run of each profile.
pub fn stores_of_runs(seed: u64, every: u32, visit: &mut impl FnMut(&Store)) {
    for profile in PROFILES {
        stores_of_run(profile, seed, every, visit);
    }
}

/// Hands out stores of one run of each profile, each with slices of it that are not well formed, by
/// a damage in one place: up to eight times.
pub fn damaged_stores_of_runs(
    every: u32,
    random: &mut Random,
    visit: &mut impl FnMut(&Store, RawStore, &mut Random),
) {
    let kinds = Kind::all();
    stores_of_runs(3, every, &mut |store: &Store| {
        for _ in 0..8 {
            let mut raw = encode(store, random);
            damage(&mut raw, &kinds, 1, random);
            if !well_formed(&raw) {
                visit(store, raw, random);
            }
        }
    });
}

/// The store that a script leaves, line one first; every call in it is done.
pub fn after_script(lines: &[&str]) -> Store {
    let mut lines = lines.iter().map(|line| read_numbers(line.as_bytes()));
    let mut store = lines.next().flatten().and_then(start).expect("a first line");
    for line in lines {
        assert_eq!(answer_line(&mut store, line.as_deref())[0], DONE, "{line:?}");
    }
    store
}

/// The shape of an object's tree: which of the earlier capabilities a new one derives from.
#[derive(Clone, Copy, Debug, PartialEq, Eq)]
pub enum Shape {
    /// All are children of the master.
    Wide,
    /// Each is the child of the one before.
    Deep,
    /// Each is the child of any one before.
    Random,
}

impl Shape {
    fn parent(self, at: u32, random: &mut Random) -> u32 {
        match self {
            Shape::Wide => 0,
            Shape::Deep => at - 1,
            Shape::Random => random.below(at),
        }
    }
}

/// A store of so many processes, each with so many bytes and a tree of so many capabilities, some
/// of which have a last day that comes soon. It is day 0, and none is expired.
pub fn shaped(objects: u32, size: usize, tree: u32, shape: Shape, random: &mut Random) -> Store {
    assert!(objects * tree <= MAX_CAPS as u32);
    let mut store = Store::default();
    for serial in 0..objects {
        let name = Name { volume: serial % 4, serial };
        let object = Object { bytes: random.bytes(size), process: true, ..Object::default() };
        store.objects.insert(name, object);
        let p1 = distinct(tree, random);
        let mut last_days = vec![MAX_DAY];
        for at in 0..tree {
            let parent = (at > 0).then(|| shape.parent(at, random) as usize);
            if let Some(parent) = parent {
                last_days.push(last_day(last_days[parent], random));
            }
            let parent = parent.map(|parent| p1[parent]);
            let last_day = last_days[at as usize];
            let capability = whole(random.below(u32::MAX), parent, size, last_day);
            store.capabilities.insert((name, p1[at as usize]), capability);
        }
    }
    store
}

/// All capabilities as they are presented without a lockword, each after those on its climb.
pub fn by_depth(store: &Store) -> Vec<Key> {
    let key = |(name, p1): Place| Key { name, p1, p2: store.capabilities[&(name, p1)].p2 };
    let mut places: Vec<Place> = store.capabilities.keys().copied().collect();
    places.sort_by_cached_key(|place| store.climb(*place).len());
    places.into_iter().map(key).collect()
}

/// So many random numbers, no two the same, in random order.
fn distinct(count: u32, random: &mut Random) -> Vec<u32> {
    let mut found = BTreeSet::new();
    while found.len() < count as usize {
        found.insert(random.bits() as u32);
    }
    shuffled(found, random)
}

/// The last day of a child: mostly its parent's or the one before, now and then an early one.
fn last_day(parent: u32, random: &mut Random) -> u32 {
    match random.below(40) {
        0 => random.between(0, parent.min(600)),
        1..=9 => parent.saturating_sub(1),
        _ => parent,
    }
}

fn whole(p2: u32, parent: Option<u32>, size: usize, last_day: u32) -> Capability {
    let end = u32::try_from(size).unwrap_or(u32::MAX);
    Capability { p2, parent, moneyword: 1000, start: 0, end, rights: MAX_RIGHTS, last_day }
}
