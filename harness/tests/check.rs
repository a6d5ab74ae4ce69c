//! The verified check beside the oracle, on stores of random runs laid out at random and damaged.

use harness::kernel;
use harness::tally::Tally;
use reference::kernel::Store;
use trials::damage::{damage, Kind};
use trials::encode::encode;
use trials::layout::{BYTES, LINKS, WORDS};
use trials::oracle::well_formed;
use trials::random::Random;
use trials::raw::RawStore;
use trials::samples::{shaped, stores_of_runs, Shape};

const STORES: u32 = 200_000;
const VARIANTS: u32 = 15;

/// The verified answer, which is the oracle's and leaves the slices unchanged.
fn compared(raw: &RawStore, kinds: &[Kind]) -> bool {
    let before = raw.clone();
    let answer = kernel::check(raw);
    assert_eq!(answer, well_formed(raw), "{kinds:?}");
    assert!(*raw == before, "slices changed: {kinds:?}");
    answer
}

/// A store undamaged, and damaged so often in one to four kinds, half the time in one.
fn compare_variants(store: &Store, kinds: &[Kind], random: &mut Random, tally: &mut Tally) {
    let sound = encode(store, random);
    tally.count(&[], compared(&sound, &[]));
    for _ in 0..VARIANTS {
        let mut raw = sound.clone();
        let count = if random.chance(500) { 1 } else { random.between(2, 4) };
        let done = damage(&mut raw, kinds, count, random);
        tally.count(&done, compared(&raw, &done));
    }
}

/// Full stores of one object or many, with trees of each shape.
fn full_stores() -> Vec<Store> {
    let mut random = Random::new(6);
    let mut stores = Vec::new();
    for shape in [Shape::Wide, Shape::Deep, Shape::Random] {
        for objects in [1, 4, 64].repeat(20) {
            let size = (32_768 / objects as usize).min(8_192);
            stores.push(shaped(objects, size, 512 / objects, shape, &mut random));
        }
    }
    stores
}

#[test]
fn damaged_stores() {
    let kinds = Kind::all();
    let mut random = Random::new(1);
    let mut tally = Tally::default();
    for store in full_stores() {
        compare_variants(&store, &kinds, &mut random, &mut tally);
    }
    for seed in 100.. {
        if tally.stores() >= STORES {
            break;
        }
        stores_of_runs(seed, 6, &mut |store: &Store| {
            compare_variants(store, &kinds, &mut random, &mut tally);
        });
    }
    println!("{tally}");
    assert_eq!(tally.undamaged[0], 0);
    assert!(tally.all.iter().all(|count| *count > 0));
    for kind in kinds {
        let [not, well] = tally.alone(kind);
        assert!(not + well > 0, "not met alone: {kind}");
        match kind.well_formed_after() {
            Some(true) => assert_eq!(not, 0, "{kind}"),
            Some(false) => assert_eq!(well, 0, "{kind}"),
            None => {}
        }
    }
}

/// Each slice one shorter, one longer or empty.
fn other_lengths(raw: &RawStore) -> Vec<RawStore> {
    let mut found = Vec::new();
    for change in [-1, 1, isize::MIN] {
        let length = |length: usize| length.saturating_add_signed(change);
        found.push(RawStore { bytes: resized(&raw.bytes, length(BYTES)), ..raw.clone() });
        found.push(RawStore { links: resized(&raw.links, length(LINKS)), ..raw.clone() });
        found.push(RawStore { words: resized(&raw.words, length(WORDS)), ..raw.clone() });
    }
    found.push(RawStore::default());
    found
}

fn resized<T: Copy + Default>(slice: &[T], length: usize) -> Vec<T> {
    let mut slice = slice.to_vec();
    slice.resize(length, T::default());
    slice
}

#[test]
fn slices_of_other_lengths() {
    let mut random = Random::new(2);
    stores_of_runs(1, 200, &mut |store: &Store| {
        let sound = encode(store, &mut random);
        assert!(compared(&sound, &[]));
        for raw in other_lengths(&sound) {
            assert!(!compared(&raw, &[]));
        }
    });
}

/// Slices of a store's lengths full of numbers below a limit.
fn full_of_numbers(limit: u32, random: &mut Random) -> RawStore {
    RawStore {
        bytes: (0..BYTES).map(|_| random.below(limit) as u8).collect(),
        links: (0..LINKS).map(|_| random.below(limit) as u16).collect(),
        words: (0..WORDS).map(|_| random.below(limit)).collect(),
    }
}

#[test]
fn slices_full_of_numbers() {
    let mut random = Random::new(7);
    for limit in [1, 2, 3, 65, 513, 65_536, u32::MAX].repeat(100) {
        let raw = full_of_numbers(limit, &mut random);
        assert!(!compared(&raw, &[]));
    }
}

#[test]
fn fresh_stores() {
    let mut random = Random::new(3);
    let ends = [0, 1, 1 << 31, (1 << 31) - 1, u32::MAX];
    let mut word = |at: u32| match at % 3 {
        0 => random.pick(&ends).unwrap_or(0),
        _ => random.bits() as u32,
    };
    let mut filler = Random::new(4);
    for round in 0..2_000 {
        let (supply, p1, p2) = (word(round), word(round / 3), word(round / 9));
        let mut raw = full_of_numbers(u32::MAX, &mut filler);
        assert_eq!(kernel::fresh(supply, [p1, p2], &mut raw), 0);
        assert!(compared(&raw, &[]));
        assert_eq!(trials::raw::decode(&raw), Some(Store::fresh(supply, p1, p2)));
    }
}

#[test]
fn fresh_stores_of_other_lengths() {
    let mut random = Random::new(5);
    for mut raw in other_lengths(&full_of_numbers(u32::MAX, &mut random)) {
        let before = raw.clone();
        assert_eq!(kernel::fresh(1000, [5, 9], &mut raw), 1);
        assert!(raw == before, "written");
    }
}
