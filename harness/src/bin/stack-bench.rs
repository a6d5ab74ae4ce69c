//! How deep the verified functions go on the stack: the check on several shapes of tree, and each
//! call on a chain of capabilities, 512 deep where the call needs no free one; the questions, a pick,
//! a write and a read by hook, and a bill on that chain.

use harness::kernel::{self, FormedStore};
use harness::pair::enter_hooked;
use harness::request::{
    bill_request, count_request, hook_request, lend_request, pick_request, window_request, Request,
    BILL_REPLY, COUNT_REPLY, LEND_REPLY, PICK_REPLY, REPLY, WINDOW_REPLY,
};
use harness::stack::depth;
use reference::call::{Action, Call, Key, Name, Operation};
use reference::counting::PasswordCount;
use reference::drive::{Pick, Place, Repeat};
use reference::hooks::{Hooked, Transfer};
use reference::kernel::{Capability, Message, Object, Store};
use reference::lending::{LendPlace, Wish};
use reference::numbers::*;
use reference::royalties::Bill;
use trials::encode::encode;
use trials::random::Random;
use trials::raw::RawStore;
use trials::samples::{shaped, Shape};

const NAME: Name = Name { volume: 0, serial: 0 };
const OTHER: Key = Key { name: Name { volume: 1, serial: 1 }, p1: 3, p2: 4 };

/// A store of one process with cash, mail and a chain of so many capabilities.
fn chain(length: u32) -> Store {
    let mut store = shaped(1, MAX_SIZE as usize, length, Shape::Deep, &mut Random::new(1));
    for object in store.objects.values_mut() {
        object.cash = 1_000_000;
        object.messages.push_back(Message { bytes: vec![1; 16], sum: 1 });
    }
    store
}

/// A shorter chain beside a terminated process, with a capability to spare.
fn chain_and_other() -> Store {
    let mut store = chain(510);
    let other = Object { process: true, terminated: true, ..Object::default() };
    store.objects.insert(OTHER.name, other);
    let (p2, rights) = (OTHER.p2, MAX_RIGHTS);
    let (start, end, last_day) = (0, 0, MAX_DAY);
    let master = Capability { p2, parent: None, moneyword: 0, start, end, rights, last_day };
    store.capabilities.insert((OTHER.name, OTHER.p1), master);
    store
}

/// The master and the lowest capability of the chain.
fn ends(store: &Store) -> (Key, Key) {
    let length = |p1: u32| store.climb((NAME, p1)).len();
    let key = |(p1, found): (u32, &Capability)| Key { name: NAME, p1, p2: found.p2 };
    let master = store.tree(NAME).min_by_key(|(p1, _)| length(*p1));
    let lowest = store.tree(NAME).max_by_key(|(p1, _)| length(*p1));
    (master.map(key).expect("a master"), lowest.map(key).expect("a capability"))
}

/// A range of 256 bytes.
const RANGE: (u32, u32) = (MAX_SIZE - 300, MAX_SIZE - 44);

/// Calls on a chain that need nothing free.
fn on_chain(store: &Store) -> Vec<Operation> {
    let (master, lowest) = ends(store);
    let (start, end) = RANGE;
    let on_lowest = [
        Action::Read { start, end },
        Action::Write { start, end, data: vec![7; 256] },
        Action::CapInfo,
        Action::Withdraw { sum: 5 },
        Action::Deposit { sum: 5 },
        Action::Suspend,
        Action::Resume,
        Action::ApplyLock { words: [1, 2] },
        Action::Send { sum: 5, message: vec![1; 16] },
    ];
    let mut calls: Vec<_> = on_lowest.map(|action| Operation::On(lowest, action)).into();
    calls.push(Operation::On(master, Action::DeleteCap));
    calls.push(Operation::On(master, Action::RenameObj { p1: 1, p2: 2 }));
    calls.extend([Operation::Receive, Operation::Wait, Operation::SetDay { day: MAX_DAY }]);
    calls
}

/// Calls that need something free, or another process.
fn beside_chain(store: &Store) -> Vec<Operation> {
    let (_, lowest) = ends(store);
    let drawn = Key { name: Name { volume: 3, serial: 9 }, p1: 1, p2: 2 };
    let (mask, start, end, limit, last_day) = (MAX_RIGHTS, 0, MAX_SIZE, MAX_WORD, MAX_DAY);
    let derive = Action::DeriveCap { mask, start, end, limit, last_day, p1: 1, p2: 2 };
    vec![
        Operation::MakeObj { size: MAX_SIZE, flag: 1, rights: MAX_RIGHTS, drawn },
        Operation::On(lowest, derive),
        Operation::On(OTHER, Action::Revive { sum: 5 }),
    ]
}

/// The call's depth, checked and unchecked.
fn depths(raw: &RawStore, operation: Operation) -> [usize; 2] {
    let call = Call { caller: NAME, operation, buffer: MIN_BUFFER, scratch: MIN_SCRATCH };
    let request = Request::new(&call, 0);
    let (mut buffer, mut scratch) = (vec![0; MIN_BUFFER], vec![0; MIN_SCRATCH]);
    let mut copy = raw.clone();
    let mut formed = FormedStore::new(raw.clone()).expect("a well-formed store");
    let whole = depth(|| {
        let reply = kernel::call(&mut copy, &request, &mut buffer, &mut scratch);
        assert_eq!(reply[0], DONE, "{call:?}");
    });
    let step = depth(|| {
        let reply = formed.step(&request, &mut buffer, &mut scratch);
        assert_eq!(reply[0], DONE, "{call:?}");
    });
    [whole, step]
}

/// The depths of a pick at the lowest capability, checked and unchecked, and of the question.
fn pick_depths(store: &Store) -> [usize; 3] {
    let (_, key) = ends(store);
    let repeat = Repeat { picks: MAX_SIZE / MAX_ROW, counts: MAX_COUNTS, row: MAX_ROW };
    let place = Place::before(repeat.picks, &repeat);
    let pick = pick_request(&Pick { caller: NAME, key, repeat, place, buffer: MIN_BUFFER });
    let asked = window_request(NAME, key);
    let mut raw = encode(store, &mut Random::new(4));
    let mut formed = FormedStore::new(raw.clone()).expect("a well-formed store");
    let (mut buffer, mut reply) = (vec![0; MIN_BUFFER], [0; PICK_REPLY]);
    let mut window = [0; WINDOW_REPLY];
    let whole = depth(|| assert_eq!(kernel::pick(&mut raw, &mut buffer, &pick, &mut reply), DONE));
    let step = depth(|| assert_eq!(formed.pick(&mut buffer, &pick, &mut reply), DONE));
    let question = depth(|| assert_eq!(kernel::window(&raw, &asked, &mut window), DONE));
    [whole, step, question]
}

/// The depth of a count of the passwords of the whole chain.
fn count_depth(store: &Store) -> usize {
    let asked = PasswordCount { caller: NAME, object: NAME, right: right::READ };
    let raw = encode(store, &mut Random::new(4));
    let mut reply = [0; COUNT_REPLY];
    depth(|| assert_eq!(kernel::count(&raw, &count_request(&asked), &mut reply), DONE))
}

/// The depth of a question what can be lent from the lowest capability, with a sum that all on the
/// climb have.
fn lend_depth(store: &Store) -> usize {
    let (_, key) = ends(store);
    let wish = Wish { rights: MAX_RIGHTS, start: 0, end: MAX_SIZE, sum: 5, last_day: 0 };
    let asked = LendPlace { caller: NAME, list: key.numbers().into(), wish };
    let raw = encode(store, &mut Random::new(4));
    let (request, mut reply) = (lend_request(&asked), [0; LEND_REPLY]);
    depth(|| assert_eq!(kernel::lend(&raw, &asked.list, &request, &mut reply), DONE))
}

/// The depths of a write and of a read by hook at the lowest capability.
fn hook_depths(store: &Store) -> [usize; 2] {
    let (_, key) = ends(store);
    let (start, end) = RANGE;
    let mut raw = encode(store, &mut Random::new(4));
    let (mut buffer, mut reply) = (vec![0; MIN_BUFFER], [0; REPLY]);
    let transfers = [Transfer::Write { data: vec![7; 256] }, Transfer::Read { buffer: MIN_BUFFER }];
    transfers.map(|transfer| {
        let hooked = Hooked { caller: NAME, key, start, end, transfer };
        let request = hook_request(&hooked);
        depth(|| {
            let code = enter_hooked(&mut raw, &hooked, &mut buffer, &request, &mut reply);
            assert_eq!(code, DONE);
        })
    })
}

/// The depth of a bill at the lowest capability, for which something is taken on the whole chain.
fn bill_depth(store: &Store) -> usize {
    let (_, key) = ends(store);
    let request = bill_request(&Bill { caller: NAME, key, count: FIRST_PICKS, picks: 500 });
    let mut raw = encode(store, &mut Random::new(4));
    let mut reply = [0; BILL_REPLY];
    depth(|| assert_eq!(kernel::bill(&mut raw, &request, &mut reply), DONE))
}

fn main() {
    let mut random = Random::new(2);
    println!("bytes of stack below the Rust function that makes the call, its own included");
    let mut fresh = encode(&Store::fresh(1, 2, 3), &mut random);
    let made = depth(|| assert_eq!(kernel::fresh(1_000, [5, 9], &mut fresh), DONE));
    println!("{:40}{made:>8}", "store_fresh");
    let mut check = |what: &str, store: &Store| {
        let raw = encode(store, &mut random);
        let depth = depth(|| assert!(kernel::check(&raw)));
        println!("{:40}{depth:>8}", format!("store_check, {what}"));
    };
    let mut draw = Random::new(3);
    let mut tree = |objects, shape| shaped(objects, 512, 512 / objects, shape, &mut draw);
    check("fresh", &Store::fresh(1_000, 5, 9));
    check("1 object, wide tree of 512", &tree(1, Shape::Wide));
    check("1 object, chain of 512", &tree(1, Shape::Deep));
    check("64 objects of 8", &tree(64, Shape::Random));
    println!("\n{:24}{:>16}{:>24}", "call number", "store_call", "store_step_unchecked");
    let (full, spare) = (chain(512), chain_and_other());
    let calls = [on_chain(&full), beside_chain(&spare)];
    for (store, calls) in [&full, &spare].into_iter().zip(calls) {
        let raw = encode(store, &mut Random::new(4));
        for operation in calls {
            let number = operation.number();
            let [whole, step] = depths(&raw, operation);
            println!("{number:<24}{whole:>16}{step:>24}");
        }
    }
    let [whole, step, question] = pick_depths(&full);
    println!("\n{:40}{whole:>8}", "drive_pick");
    println!("{:40}{step:>8}", "drive_pick_unchecked");
    println!("{:40}{question:>8}", "store_window");
    println!("{:40}{:>8}", "password_count", count_depth(&full));
    println!("{:40}{:>8}", "lend_place", lend_depth(&full));
    let [write, read] = hook_depths(&full);
    println!("{:40}{write:>8}", "hook_write");
    println!("{:40}{read:>8}", "hook_read");
    println!("{:40}{:>8}", "royalty_bill", bill_depth(&full));
}
