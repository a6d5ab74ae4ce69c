//! Times the verified check beside the plain check in Rust, in one run, on full stores of
//! several shapes and their halves. Prints medians and ratios.

use harness::bench::{median, time};
use harness::kernel;
use reference::kernel::Store;
use std::hint::black_box;
use trials::encode::encode;
use trials::plain;
use trials::random::Random;
use trials::raw::RawStore;
use trials::samples::{shaped, Shape};

const ROUNDS: usize = 401;

/// A check to be timed.
type Check = fn(&RawStore) -> bool;

const CHECKS: [Check; 3] = [
    kernel::check,
    |raw| plain::check(&raw.bytes, &raw.links, &raw.words),
    |raw| plain::check_in_pairs(&raw.bytes, &raw.links, &raw.words),
];

struct Case {
    name: &'static str,
    /// The case that has half as much.
    half: Option<usize>,
    raw: RawStore,
    /// The times of each check, in nanoseconds.
    times: [Vec<u64>; 3],
}

fn cases(random: &mut Random) -> Vec<Case> {
    let mut cases: Vec<Case> = Vec::new();
    let mut add = |name, half, store: Store| {
        let raw = encode(&store, random);
        cases.push(Case { name, half, raw, times: Default::default() });
    };
    let mut draw = Random::new(2);
    let mut tree = |objects, size, tree, shape| shaped(objects, size, tree, shape, &mut draw);
    add("fresh", None, Store::fresh(1000, 5, 9));
    add("half: 1 object, wide tree of 256", None, tree(1, 4_096, 256, Shape::Wide));
    add("full: 1 object, wide tree of 512", Some(1), tree(1, 8_192, 512, Shape::Wide));
    add("half: 1 object, chain of 256", None, tree(1, 4_096, 256, Shape::Deep));
    add("full: 1 object, chain of 512", Some(3), tree(1, 8_192, 512, Shape::Deep));
    add("half: 1 object, random tree of 256", None, tree(1, 4_096, 256, Shape::Random));
    add("full: 1 object, random tree of 512", Some(5), tree(1, 8_192, 512, Shape::Random));
    add("half: 32 objects of 8", None, tree(32, 512, 8, Shape::Random));
    add("full: 64 objects of 8", Some(7), tree(64, 512, 8, Shape::Random));
    cases
}

fn main() {
    let mut cases = cases(&mut Random::new(1));
    for _ in 0..ROUNDS {
        for case in &mut cases {
            for (check, times) in CHECKS.iter().zip(&mut case.times) {
                times.push(time(|| assert!(check(black_box(&case.raw)))));
            }
        }
    }
    let medians: Vec<[f64; 3]> =
        cases.iter().map(|case| case.times.each_ref().map(|times| median(times))).collect();
    print_table(&cases, &medians);
}

fn print_table(cases: &[Case], medians: &[[f64; 3]]) {
    println!("medians of {ROUNDS} rounds in microseconds, and ratios; pairs: p1 compared in pairs of slots");
    let titles = ["Rattle", "Rust", "Rattle/Rust", "pairs", "pairs/Rattle", "full/half", "in Rust"];
    println!("{:36}{}", "store", titles.map(|title| format!("{title:>13}")).concat());
    for (case, [rattle, rust, pairs]) in cases.iter().zip(medians) {
        print!("{:36}{:>13.2}{:>13.2}", case.name, rattle / 1e3, rust / 1e3);
        print!("{:>13.2}{:>13.2}{:>13.2}", rattle / rust, pairs / 1e3, pairs / rattle);
        if let Some(half) = case.half {
            let [half_rattle, half_rust, _] = medians[half];
            print!("{:>13.2}{:>13.2}", rattle / half_rattle, rust / half_rust);
        }
        println!();
    }
}
