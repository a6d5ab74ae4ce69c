//! Times the verified `step` beside the reference, in one run: lists of calls of one kind on a
//! small and on a full store, and deletes of many descendants. Prints medians and ratios.

use harness::bench::{call, keys, median, processes, time};
use harness::kernel::FormedStore;
use harness::request::Request;
use reference::call::{Action, Call, Key, Name, Operation};
use reference::kernel::{Object, Store};
use reference::numbers::{DONE, MAX_DAY, MAX_RIGHTS, MAX_WORD, MIN_BUFFER, MIN_SCRATCH};
use trials::encode::encode;
use trials::random::Random;
use trials::samples::Shape;

const ROUNDS: usize = 301;

/// A list of calls, all done, on a store.
struct Case {
    name: String,
    store: Store,
    formed: FormedStore,
    calls: Vec<Call>,
    requests: Vec<Request>,
    /// The times of the list in nanoseconds, of `step` and of the reference.
    times: [Vec<u64>; 2],
}

fn name(serial: u32) -> Name {
    Name { volume: serial % 4, serial }
}

fn on(key: Key, action: Action) -> Operation {
    Operation::On(key, action)
}

fn case(name: String, store: &Store, calls: Vec<Call>) -> Case {
    let mut copy = store.clone();
    for call in &calls {
        let answer = copy.run(call);
        assert_eq!(answer.code, DONE, "{name}: {call:?}");
    }
    let raw = encode(store, &mut Random::new(3));
    let formed = FormedStore::new(raw).unwrap_or_else(|| panic!("not well formed: {name}"));
    let requests = calls.iter().map(|call| Request::new(call, 0)).collect();
    Case { name, store: store.clone(), formed, calls, requests, times: Default::default() }
}

/// A process's operation, from its place among the processes, its name and its capabilities.
type Make<'a> = &'a dyn Fn(usize, Name, &[Key]) -> Option<Operation>;

/// One list of calls for each kind, on the processes of a store.
fn kinds(title: &str, store: &Store, cases: &mut Vec<Case>) {
    let names: Vec<Name> = store.objects.keys().copied().collect();
    let each = |make: Make| -> Vec<Call> {
        let made = names.iter().enumerate().filter_map(|(at, name)| {
            make(at, *name, &keys(store, *name)).map(|operation| call(*name, operation))
        });
        made.collect()
    };
    let last = |keys: &[Key]| keys[keys.len() - 1];
    let drawn = |at: usize| (at as u32 * 7 + 3, at as u32);
    let mut add = |kind: &str, calls| cases.push(case(format!("{title}: {kind}"), store, calls));
    add("read 256", each(&|_, _, k| Some(on(last(k), Action::Read { start: 100, end: 356 }))));
    let data = vec![9; 256];
    add(
        "write 256",
        each(&|_, _, k| {
            Some(on(last(k), Action::Write { start: 100, end: 356, data: data.clone() }))
        }),
    );
    add("cap_info", each(&|_, _, k| Some(on(last(k), Action::CapInfo))));
    add("withdraw", each(&|_, _, k| Some(on(last(k), Action::Withdraw { sum: 5 }))));
    add("deposit", each(&|_, _, k| Some(on(last(k), Action::Deposit { sum: 5 }))));
    let other = |at: usize| keys(store, names[(at + 1) % names.len()]);
    add("resume", each(&|at, _, _| Some(on(last(&other(at)), Action::Resume))));
    add(
        "apply_lock",
        each(&|at, _, _| Some(on(last(&other(at)), Action::ApplyLock { words: [1, 2] }))),
    );
    let message = vec![7; 16];
    add(
        "send 16",
        each(&|at, _, _| {
            Some(on(last(&other(at)), Action::Send { sum: 1, message: message.clone() }))
        }),
    );
    add("wait", each(&|_, _, _| Some(Operation::Wait)));
    add("suspend", each(&|_, _, k| Some(on(last(k), Action::Suspend))));
    add(
        "delete a leaf",
        each(&|_, _, k| (k.len() > 1).then(|| on(leaf(store, k), Action::DeleteCap))),
    );
    add(
        "rename",
        each(&|at, _, k| {
            let (p1, p2) = drawn(at);
            Some(on(k[0], Action::RenameObj { p1, p2 }))
        }),
    );
}

/// A capability with no child.
fn leaf(store: &Store, keys: &[Key]) -> Key {
    let has_child = |key: &Key| store.tree(key.name).any(|(_, c)| c.parent == Some(key.p1));
    *keys.iter().find(|key| !has_child(key)).expect("a tree has a leaf")
}

/// receive and revive, of processes that have mail or are terminated; derive_cap and make_obj,
/// where there is room.
fn prepared(title: &str, objects: u32, tree: u32, cases: &mut Vec<Case>) {
    let base = processes(objects, tree, 512, Shape::Random);
    let names: Vec<Name> = base.objects.keys().copied().collect();
    let mut mailed = base.clone();
    for object in mailed.objects.values_mut() {
        let message = reference::kernel::Message { bytes: vec![3; 16], sum: 2 };
        object.messages.push_back(message);
    }
    let receives = names.iter().map(|name| call(*name, Operation::Receive)).collect();
    cases.push(case(format!("{title}: receive 16"), &mailed, receives));
    let mut ended = base.clone();
    for (at, object) in ended.objects.values_mut().enumerate() {
        object.terminated = at % 2 == 1;
    }
    let revives = names.chunks(2).filter(|pair| pair.len() == 2).map(|pair| {
        let key = keys(&ended, pair[1])[0];
        call(pair[0], on(key, Action::Revive { sum: 3 }))
    });
    cases.push(case(format!("{title}: revive"), &ended, revives.collect()));
    let derives = names.iter().enumerate().map(|(at, name)| {
        let (p1, p2) = (at as u32, 5);
        let (mask, limit, last_day) = (MAX_RIGHTS, MAX_WORD, MAX_DAY);
        let derive = Action::DeriveCap { mask, start: 3, end: 400, limit, last_day, p1, p2 };
        call(*name, on(keys(&base, *name)[0], derive))
    });
    cases.push(case(format!("{title}: derive"), &base, derives.collect()));
    let makes = (0..20).map(|at| {
        let drawn = Key { name: Name { volume: 3, serial: 60_000 + at }, p1: at, p2: 4 };
        call(names[0], Operation::MakeObj { size: 512, flag: 1, rights: MAX_RIGHTS, drawn })
    });
    cases.push(case(format!("{title}: make 512 bytes"), &base, makes.collect()));
}

/// make_obj of 8,192 bytes and its delete, by turns.
fn make_and_delete(cases: &mut Vec<Case>) {
    let base = Store::fresh(100_000, 5, 9);
    let caller = Name { volume: 0, serial: 1 };
    let turns = (0..20).flat_map(|at| {
        let drawn = Key { name: Name { volume: 1, serial: at }, p1: at, p2: 4 };
        let make = Operation::MakeObj { size: 8_192, flag: 0, rights: MAX_RIGHTS, drawn };
        [call(caller, make), call(caller, on(drawn, Action::DeleteCap))]
    });
    cases.push(case("make and delete 8,192 bytes".to_string(), &base, turns.collect()));
}

/// One delete of n descendants of a capability that is no master.
fn deletes(shape: Shape, n: u32, cases: &mut Vec<Case>) {
    let mut base = processes(1, n, 512, shape);
    let boss = Name { volume: 3, serial: 65_535 };
    base.objects.insert(boss, Object { process: true, cash: 1000, ..Object::default() });
    let master = Key { name: boss, p1: 1, p2: 1 };
    let record = reference::kernel::Capability {
        p2: 1,
        parent: None,
        moneyword: 0,
        start: 0,
        end: 0,
        rights: MAX_RIGHTS,
        last_day: MAX_DAY,
    };
    base.capabilities.insert((boss, master.p1), record);
    let key = keys(&base, name(0))[0];
    let delete = vec![call(boss, on(key, Action::DeleteCap))];
    cases.push(case(format!("delete of {n} in all, {shape:?}"), &base, delete));
}

impl Case {
    fn round(&mut self, buffer: &mut [u8], scratch: &mut [u16]) {
        let mut formed = self.formed.clone();
        self.times[0].push(time(|| {
            for request in &self.requests {
                assert_eq!(formed.step(request, buffer, scratch)[0], 0);
            }
        }));
        let mut store = self.store.clone();
        self.times[1].push(time(|| {
            for call in &self.calls {
                assert_eq!(store.run(call).code, 0);
            }
        }));
    }

    /// The medians of one call, in nanoseconds.
    fn medians(&self) -> [f64; 2] {
        self.times.each_ref().map(|times| median(times) / self.calls.len() as f64)
    }
}

fn main() {
    let mut cases = Vec::new();
    kinds("4 objects of 8", &processes(4, 8, 512, Shape::Random), &mut cases);
    kinds("64 objects of 8", &processes(64, 8, 512, Shape::Random), &mut cases);
    prepared("4 objects of 8", 4, 8, &mut cases);
    prepared("32 objects of 8", 32, 8, &mut cases);
    make_and_delete(&mut cases);
    for shape in [Shape::Wide, Shape::Deep] {
        for n in [64, 128, 256, 511] {
            deletes(shape, n, &mut cases);
        }
    }
    let (mut buffer, mut scratch) = (vec![0; MIN_BUFFER], vec![0; MIN_SCRATCH]);
    for _ in 0..ROUNDS {
        for case in &mut cases {
            case.round(&mut buffer, &mut scratch);
        }
    }
    println!("medians of {ROUNDS} rounds, nanoseconds for each call, and ratios");
    println!("{:36}{:>12}{:>12}{:>14}", "calls", "step", "reference", "step/reference");
    for case in &cases {
        let [step, reference] = case.medians();
        println!("{:36}{step:>12.0}{reference:>12.0}{:>14.2}", case.name, step / reference);
    }
}
