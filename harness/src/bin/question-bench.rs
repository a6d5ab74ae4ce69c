//! Times the free questions beside the check that comes first in each: those for a window and for the
//! number of passwords in one run on a small and on a full store, and what can be lent on a chain
//! and on a flat tree. Prints medians and ratios.

use harness::bench::{keys, median, processes, time};
use harness::kernel;
use harness::request::{
    count_request, lend_request, window_request, COUNT_REPLY, COUNT_REQUEST, LEND_REPLY,
    LEND_REQUEST, WINDOW_REPLY, WINDOW_REQUEST,
};
use reference::call::Key;
use reference::counting::PasswordCount;
use reference::lending::{LendPlace, Wish};
use reference::numbers::*;
use trials::encode::encode;
use trials::random::Random;
use trials::raw::RawStore;
use trials::samples::{by_depth, Shape};

const ROUNDS: usize = 301;

/// For each capability a question for its window, presented by its process, one for the number of
/// passwords that open the process, by one right after another, and a check.
struct Case {
    name: String,
    raw: RawStore,
    windows: Vec<[u32; WINDOW_REQUEST]>,
    counts: Vec<[u32; COUNT_REQUEST]>,
    /// The times of the lists in nanoseconds, of checks, windows and counts.
    times: [Vec<u64>; 3],
}

fn case(objects: u32) -> Case {
    let store = processes(objects, 8, 512, Shape::Random);
    let keys: Vec<Key> = store.objects.keys().flat_map(|name| keys(&store, *name)).collect();
    let asked = |(key, right): (&Key, &u32)| {
        count_request(&PasswordCount { caller: key.name, object: key.name, right: *right })
    };
    Case {
        name: format!("{objects} objects of 8"),
        raw: encode(&store, &mut Random::new(3)),
        windows: keys.iter().map(|key| window_request(key.name, *key)).collect(),
        counts: keys.iter().zip(right::ALL.iter().cycle()).map(asked).collect(),
        times: Default::default(),
    }
}

impl Case {
    /// Times the three; each goes first by turns.
    fn round(&mut self) {
        let Case { raw, windows, counts, times, .. } = self;
        let (mut window, mut count) = ([0; WINDOW_REPLY], [0; COUNT_REPLY]);
        let first = times[0].len();
        for which in (first..first + 3).map(|turn| turn % 3) {
            times[which].push(time(|| match which {
                0 => windows.iter().for_each(|_| assert!(kernel::check(raw))),
                1 => windows.iter().for_each(|asked| {
                    assert_eq!(kernel::window(raw, asked, &mut window), DONE);
                }),
                _ => counts.iter().for_each(|asked| {
                    assert_eq!(kernel::count(raw, asked, &mut count), DONE);
                }),
            }));
        }
    }

    fn print(&self) {
        let each = |times: &Vec<u64>| median(times) / self.windows.len() as f64;
        let [check, window, count] = self.times.each_ref().map(each);
        let ratios = format!("{:>16.3}{:>16.3}", window / check, count / check);
        println!("{:28}{check:>12.0}{window:>12.0}{count:>12.0}{ratios}", self.name);
    }
}

/// Questions what can be lent from the lowest capability of a full tree, and from as many of the
/// lowest as can be listed. None will do, since the master alone has too little: every climb goes
/// up to it.
struct Lends {
    name: &'static str,
    raw: RawStore,
    request: [u32; LEND_REQUEST],
    lists: [Vec<u32>; 2],
    /// The times in nanoseconds, of checks and of the two questions.
    times: [Vec<u64>; 3],
}

fn lends(name: &'static str, shape: Shape) -> Lends {
    let mut store = processes(1, MAX_CAPS as u32, 512, shape);
    let masters = store.capabilities.values_mut().filter(|found| found.parent.is_none());
    masters.for_each(|master| master.moneyword -= 1);
    let lowest: Vec<Key> = by_depth(&store).into_iter().rev().collect();
    let list = |count: usize| lowest[..count].iter().flat_map(|key| key.numbers()).collect();
    // each of the others has as much as every other
    let sum = store.moneyword((lowest[0].name, lowest[0].p1));
    let wish = Wish { rights: MAX_RIGHTS, start: 0, end: 512, sum, last_day: 0 };
    let asked = LendPlace { caller: lowest[0].name, list: Vec::new(), wish };
    Lends {
        name,
        raw: encode(&store, &mut Random::new(3)),
        request: lend_request(&asked),
        lists: [list(1), list(MAX_ENTRIES)],
        times: Default::default(),
    }
}

impl Lends {
    /// Times the three; each goes first by turns.
    fn round(&mut self) {
        let Lends { raw, request, lists, times, .. } = self;
        let (first, mut reply) = (times[0].len(), [0; LEND_REPLY]);
        for which in (first..first + 3).map(|turn| turn % 3) {
            times[which].push(time(|| match which.checked_sub(1) {
                None => assert!(kernel::check(raw)),
                Some(at) => {
                    let code = kernel::lend(raw, &lists[at], request, &mut reply);
                    assert_eq!(code, NONE_WILL_DO);
                }
            }));
        }
    }

    fn print(&self) {
        let [check, one, most] = self.times.each_ref().map(|times| median(times));
        let ratios = format!("{:>16.3}{:>16.3}", one / check, most / check);
        println!("{:28}{check:>12.0}{one:>12.0}{most:>12.0}{ratios}", self.name);
    }
}

fn main() {
    let mut cases = [4, 64].map(case);
    for _ in 0..ROUNDS {
        cases.iter_mut().for_each(Case::round);
    }
    println!("medians of {ROUNDS} rounds, nanoseconds for each, and ratios");
    println!(
        "{:28}{:>12}{:>12}{:>12}{:>16}{:>16}",
        "store", "check", "window", "count", "window/check", "count/check"
    );
    cases.iter().for_each(Case::print);
    let mut cases = [lends("chain of 512", Shape::Deep), lends("flat tree of 512", Shape::Wide)];
    for _ in 0..ROUNDS {
        cases.iter_mut().for_each(Lends::round);
    }
    println!(
        "\n{:28}{:>12}{:>12}{:>12}{:>16}{:>16}",
        "store", "check", "lend, 1", "lend, 32", "1/check", "32/check"
    );
    cases.iter().for_each(Lends::print);
}
