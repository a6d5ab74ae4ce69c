//! Times the verified turning of 256 bytes beside plain Rust and the reference; then writes and
//! reads of 256 bytes by hook beside the plain calls, on a small and on a full store. Prints medians
//! and ratios of one run.

use harness::bench::{keys, median, processes, time};
use harness::kernel;
use harness::pair::enter_hooked;
use harness::request::{hook_request, Request, REPLY};
use reference::call::Key;
use reference::hooks::{turned, Hooked, Transfer, TILE};
use reference::numbers::{DONE, MAX_TRANSFER, MIN_BUFFER};
use std::hint::black_box;
use trials::encode::encode;
use trials::random::Random;
use trials::raw::RawStore;
use trials::samples::Shape;

const ROUNDS: usize = 101;
const LENGTH: usize = MAX_TRANSFER as usize;
/// How many patterns are turned in a round.
const PATTERNS: usize = 1_000;

/// Exchanges the bits of a mask with those so many places above them.
fn exchanged(tile: u64, mask: u64, places: u32) -> u64 {
    let apart = (tile ^ (tile >> places)) & mask;
    tile ^ apart ^ (apart << places)
}

/// Plain Rust, the fastest of those tried: a tile is a number, in which bits, then blocks of 2 by 2
/// and of 4 by 4 bits are exchanged. The compiler takes two tiles at once; two, four or eight
/// written out, 128-bit numbers and gathered sign bits were no faster.
fn turn(pattern: &mut [u8]) {
    for bytes in pattern.chunks_exact_mut(TILE) {
        let tile = u64::from_le_bytes((&*bytes).try_into().expect("a tile"));
        let tile = exchanged(tile, 0x00aa_00aa_00aa_00aa, 7);
        let tile = exchanged(tile, 0x0000_cccc_0000_cccc, 14);
        let tile = exchanged(tile, 0x0000_0000_f0f0_f0f0, 28);
        bytes.copy_from_slice(&tile.to_le_bytes());
    }
}

/// A way to turn a pattern in place, by its name.
type Turn = (&'static str, fn(&mut [u8]));

/// Those that are timed, each beside the second.
const TURNS: [Turn; 3] = [
    ("hook_turn", kernel::turn),
    ("plain Rust", turn),
    ("reference", |pattern| pattern.copy_from_slice(&turned(pattern))),
];

/// Finds that all turn alike, and times them by turns.
fn time_turns() {
    let mut random = Random::new(5);
    let mut patterns: Vec<Vec<u8>> = (0..PATTERNS).map(|_| random.bytes(LENGTH)).collect();
    for (pattern, (name, turn)) in patterns.iter().flat_map(|p| TURNS.map(|turn| (p, turn))) {
        let mut given = pattern.clone();
        turn(&mut given);
        assert!(given == turned(pattern), "{name}");
    }
    let mut times: [Vec<u64>; 3] = Default::default();
    for _ in 0..ROUNDS {
        for ((_, turn), times) in TURNS.iter().zip(&mut times) {
            times.push(time(|| patterns.iter_mut().for_each(|pattern| turn(black_box(pattern)))));
        }
    }
    let each = times.map(|times| median(&times) / PATTERNS as f64);
    println!("{:28}{:>12}{:>16}", "turning 256 bytes", "each", "to plain Rust");
    for ((name, _), each_of) in TURNS.iter().zip(each) {
        println!("{name:28}{each_of:>12.1}{:>16.2}", each_of / each[1]);
    }
}

/// Writes or reads by hook on a store, all done.
struct Case {
    name: String,
    raw: RawStore,
    list: Vec<Hooked>,
    /// The times of the list in nanoseconds, by hook and as plain calls.
    times: [Vec<u64>; 2],
}

/// A write of 256 bytes that starts and ends within a block, and within a tile of the object.
fn write(key: Key, random: &mut Random) -> Hooked {
    let (start, transfer) = (100, Transfer::Write { data: random.bytes(LENGTH) });
    Hooked { caller: key.name, key, start, end: start + MAX_TRANSFER, transfer }
}

/// A write by each capability of a store, and a read of the same bytes.
fn cases(objects: u32) -> [Case; 2] {
    let mut random = Random::new(3);
    let store = processes(objects, 8, 2 * LENGTH, Shape::Random);
    let raw = encode(&store, &mut random);
    let keys = store.objects.keys().flat_map(|name| keys(&store, *name));
    let writes: Vec<Hooked> = keys.map(|key| write(key, &mut random)).collect();
    let transfer = Transfer::Read { buffer: MIN_BUFFER };
    let read = |write: &Hooked| Hooked { transfer: transfer.clone(), ..write.clone() };
    let reads = writes.iter().map(read).collect();
    [("write", writes), ("read", reads)].map(|(what, list)| {
        let name = format!("{what}, {objects} objects of 8");
        Case { name, raw: raw.clone(), list, times: Default::default() }
    })
}

impl Case {
    fn round(&mut self, buffer: &mut [u8]) {
        let Case { raw, list, times, .. } = self;
        let (mut copy, mut reply) = (raw.clone(), [0; REPLY]);
        let requests: Vec<_> = list.iter().map(hook_request).collect();
        times[0].push(time(|| {
            for (hooked, request) in list.iter().zip(&requests) {
                assert_eq!(enter_hooked(&mut copy, hooked, buffer, request, &mut reply), DONE);
            }
        }));
        let mut copy = raw.clone();
        let requests: Vec<_> = list.iter().map(|h| Request::new(&h.plain(), 0)).collect();
        times[1].push(time(|| {
            for request in &requests {
                assert_eq!(kernel::call(&mut copy, request, buffer, &mut [])[0], DONE);
            }
        }));
    }

    fn print(&self) {
        let each = |times: &Vec<u64>| median(times) / self.list.len() as f64;
        let [by_hook, plain] = self.times.each_ref().map(each);
        println!("{:28}{by_hook:>12.0}{plain:>16.0}{:>12.3}", self.name, by_hook / plain);
    }
}

fn main() {
    println!("medians of {ROUNDS} rounds, nanoseconds for each, and ratios");
    time_turns();
    let mut cases = [cases(4), cases(64)].into_iter().flatten().collect::<Vec<_>>();
    let mut buffer = vec![0; MIN_BUFFER];
    for _ in 0..ROUNDS {
        cases.iter_mut().for_each(|case| case.round(&mut buffer));
    }
    println!("{:28}{:>12}{:>16}{:>12}", "256 bytes", "by hook", "plain", "ratio");
    cases.iter().for_each(Case::print);
}
