//! Times the verified `step` by itself, call kind by call kind, on a store that is half full: 40
//! objects, 20 of them processes, and 256 capabilities, most of them an object's random tree. Prints
//! nanoseconds for each call, the kinds taking turns: the median and the best of all rounds.
//!
//! With a kind's name, makes that list of calls over and over and nothing else, for a profiler:
//! `step-bench NAME ROUNDS`.

use harness::kernel::{self, FormedStore};
use harness::request::{Request, REPLY};
use reference::call::{Action, Call, Key, Name, Operation};
use reference::numbers::{MAX_DAY, MAX_RIGHTS, MIN_BUFFER, MIN_SCRATCH};
use std::time::Instant;
use trials::layout::{BYTES, LINKS, WORDS};
use trials::random::Random;
use trials::raw::RawStore;

/// Each kind has so many turns, and so many rounds of its calls in a turn.
const TURNS: usize = 11;
const ROUNDS: usize = 41;
const ROOT: Name = Name { volume: 0, serial: 1 };
const LARGE: Name = Name { volume: 0, serial: 40 };

/// A list of calls, all done, on a store.
struct Case {
    kind: &'static str,
    store: FormedStore,
    requests: Vec<Request>,
    times: Vec<u64>,
}

/// A store with what is known of it.
#[derive(Clone)]
struct Hall {
    store: FormedStore,
    processes: Vec<Key>,
    /// The capabilities of the large object, its master first.
    tree: Vec<Key>,
    leaves: Vec<Key>,
}

fn call(caller: Name, operation: Operation) -> Request {
    Request::new(&Call { caller, operation, buffer: MIN_BUFFER, scratch: MIN_SCRATCH }, 0)
}

fn on(key: Key, action: Action) -> Request {
    call(ROOT, Operation::On(key, action))
}

fn make(drawn: Key, size: u32, flag: u32) -> Request {
    call(ROOT, Operation::MakeObj { size, flag, rights: MAX_RIGHTS, drawn })
}

fn derive(from: Key, Key { p1, p2, .. }: Key) -> Request {
    let (mask, start, end, limit, last_day) = (MAX_RIGHTS, 0, u32::MAX, u32::MAX, MAX_DAY);
    on(from, Action::DeriveCap { mask, start, end, limit, last_day, p1, p2 })
}

/// A password that no lock touches.
fn draw(name: Name, random: &mut Random) -> Key {
    let p1 = random.below(1 << 31);
    Key { name, p1, p2: random.bits() as u32 }
}

impl Hall {
    fn answer(&mut self, request: &Request) -> u32 {
        self.store.step(request, &mut [0; 256], &mut [0; 512])[0]
    }

    fn run(&mut self, request: &Request) {
        assert_eq!(self.answer(request), 0, "call {}", request.numbers[0]);
    }

    /// Every process tries to receive with no cash, and is terminated.
    fn terminate(&mut self) {
        for key in self.processes.clone() {
            assert_eq!(self.answer(&call(key.name, Operation::Receive)), 4);
        }
    }
}

fn hall() -> Hall {
    let mut raw = RawStore { bytes: vec![0; BYTES], links: vec![0; LINKS], words: vec![0; WORDS] };
    assert_eq!(kernel::fresh(4_000_000_000, [5, 9], &mut raw), 0);
    let store = FormedStore::new(raw).expect("a fresh store is well formed");
    let mut hall = Hall { store, processes: vec![], tree: vec![], leaves: vec![] };
    let mut random = Random::new(11);
    for serial in 2..40 {
        let key = draw(Name { volume: 0, serial }, &mut random);
        hall.run(&make(key, 64, serial % 2));
        if serial % 2 == 1 {
            hall.run(&on(key, Action::Resume));
            hall.processes.push(key);
        }
    }
    hall.tree.push(draw(LARGE, &mut random));
    hall.run(&make(hall.tree[0], 8192, 0));
    hall.leaves = hall.tree.clone();
    while hall.tree.len() < 217 {
        let (from, key) = (random.pick(&hall.tree).expect("not empty"), draw(LARGE, &mut random));
        hall.run(&derive(from, key));
        hall.tree.push(key);
        hall.leaves.retain(|leaf| *leaf != from);
        hall.leaves.push(key);
    }
    hall
}

fn cases(hall: &Hall) -> Vec<Case> {
    let Hall { store, processes, tree, leaves } = hall;
    let mut cases = vec![];
    let mut add = |kind, store: &FormedStore, requests: Vec<Request>| {
        cases.push(Case { kind, store: store.clone(), requests, times: vec![] });
    };
    let each = |action: Action| tree.iter().map(|key| on(*key, action.clone())).collect();
    let to_each = |action: Action| processes.iter().map(|key| on(*key, action.clone())).collect();
    let own = |operation: Operation| {
        processes.iter().map(|key| call(key.name, operation.clone())).collect::<Vec<_>>()
    };
    let makes = |count: u32, size| -> Vec<Request> {
        let key = |serial| Key { name: Name { volume: 0, serial }, p1: serial, p2: serial };
        (100..100 + count).map(|serial| make(key(serial), size, 1)).collect()
    };
    let mut random = Random::new(5);
    let children: Vec<Key> = tree.iter().map(|_| draw(LARGE, &mut random)).collect();
    let derives = || tree.iter().zip(&children).map(|(from, key)| derive(*from, *key));

    add("make_obj of 0 bytes", store, makes(3, 0));
    add("make_obj of 8,192 bytes", store, makes(2, 8192));
    add("read of 16 bytes", store, each(Action::Read { start: 100, end: 116 }));
    add("read of 256 bytes at 7,900", store, each(Action::Read { start: 7900, end: 8156 }));
    add(
        "write of 16 bytes",
        store,
        each(Action::Write { start: 100, end: 116, data: vec![7; 16] }),
    );
    let write = Action::Write { start: 7900, end: 8156, data: vec![7; 256] };
    add("write of 256 bytes at 7,900", store, each(write));
    add("cap_info", store, each(Action::CapInfo));
    add("derive_cap", store, derives().collect());
    add(
        "delete_cap of a leaf",
        store,
        leaves.iter().map(|key| on(*key, Action::DeleteCap)).collect(),
    );
    let turn = |(derive, key): (Request, &Key)| [derive, on(*key, Action::DeleteCap)];
    add(
        "derive_cap and delete_cap by turns",
        store,
        derives().zip(&children).flat_map(turn).collect(),
    );
    add("rename_obj without descendants", store, to_each(Action::RenameObj { p1: 3, p2: 3 }));
    add("deposit (random tree)", store, each(Action::Deposit { sum: 1 }));
    add("withdraw of 0 (random tree)", store, each(Action::Withdraw { sum: 0 }));
    add("suspend", store, to_each(Action::Suspend));
    add("resume", store, to_each(Action::Resume));
    add("apply_lock", store, to_each(Action::ApplyLock { words: [1, 2] }));
    let send: Vec<Request> = to_each(Action::Send { sum: 50, message: vec![7; 16] });
    let sends = vec![send.clone(); 4].concat();
    add("send of 16 bytes", store, sends.clone());

    let mut ended = hall.clone();
    ended.terminate();
    add("revive", &ended.store, to_each(Action::Revive { sum: 1 }));
    let mut rich = ended;
    let revives: Vec<Request> = to_each(Action::Revive { sum: 1000 });
    revives.iter().for_each(|request| rich.run(request));
    let receives = own(Operation::Receive);
    let turns =
        send.iter().zip(&receives).flat_map(|(send, receive)| [send.clone(), receive.clone()]);
    add("send and receive by turns", &rich.store, turns.collect());
    sends.iter().for_each(|request| rich.run(request));
    add("receive of 16 bytes", &rich.store, receives);
    add("wait", store, own(Operation::Wait));
    let days = (0..100).map(|day| call(ROOT, Operation::SetDay { day }));
    add("set_day", store, days.collect());
    cases
}

impl Case {
    fn round(&mut self, buffer: &mut [u8], scratch: &mut [u16]) {
        let (mut store, mut reply) = (self.store.clone(), [0; REPLY]);
        let start = Instant::now();
        for request in &self.requests {
            assert_eq!(store.step_into(request, buffer, scratch, &mut reply), 0, "{}", self.kind);
        }
        self.times.push(u64::try_from(start.elapsed().as_nanos()).unwrap_or(u64::MAX));
    }
}

fn main() {
    let words: Vec<String> = std::env::args().skip(1).collect();
    let (mut buffer, mut scratch) = (vec![0; MIN_BUFFER], vec![0; MIN_SCRATCH]);
    let mut cases = cases(&hall());
    if let [kind, rounds] = &words[..] {
        let rounds: usize = rounds.parse().expect("a number of rounds");
        let case = cases.iter_mut().find(|case| case.kind == kind).expect("a kind of call");
        (0..rounds).for_each(|_| case.round(&mut buffer, &mut scratch));
        println!("{} calls", rounds * case.requests.len());
        return;
    }
    for _ in 0..TURNS {
        for case in &mut cases {
            (0..ROUNDS).for_each(|_| case.round(&mut buffer, &mut scratch));
        }
    }
    println!("nanoseconds for each call, over {TURNS} turns of {ROUNDS} rounds");
    println!("{:44}{:>9}{:>9}", "calls", "median", "best");
    for case in &mut cases {
        case.times.sort_unstable();
        let each = |time: u64| time as f64 / case.requests.len() as f64;
        let (median, best) = (each(case.times[case.times.len() / 2]), each(case.times[0]));
        println!("{:44}{median:>9.1}{best:>9.1}", case.kind);
    }
}
