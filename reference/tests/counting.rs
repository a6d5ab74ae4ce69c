//! 02's count of passwords on the reference: by trying every password of a cut-down space, as many
//! as capabilities hold the right, the order of the answers, and that nothing is looked at but that.

mod boss;

use boss::{by_boss, BOSS};
use reference::call::{Action, Key, Name, Operation};
use reference::counting::{passwords_within, PasswordCount};
use reference::kernel::{Capability, Object, Store};
use reference::numbers::*;

/// The pattern that is asked about, and a process beside the fresh store's.
const PATTERN: Name = Name { volume: 2, serial: 7 };
const LOOM: Name = Name { volume: 3, serial: 65_535 };
const ABSENT: Name = Name { volume: 2, serial: 8 };

fn count(caller: Name, object: Name, right: u32) -> PasswordCount {
    PasswordCount { caller, object, right }
}

/// A store with a pattern that has no capability yet, and a process beside the fresh store's.
fn hall() -> Store {
    let mut store = Store::fresh(1_000, BOSS.p1, BOSS.p2);
    store.objects.insert(PATTERN, Object::default());
    store.objects.insert(LOOM, Object { process: true, ..Object::default() });
    store
}

/// Adds a capability for the object.
fn add(store: &mut Store, name: Name, p1: u32, p2: u32, rights: u32) {
    let new =
        Capability { p2, parent: None, moneyword: 0, start: 0, end: 0, rights, last_day: MAX_DAY };
    store.capabilities.insert((name, p1), new);
}

/// Places of the bits of the cut-down space's passwords: the top bit that says whether a password
/// is locked, the one below it, and others.
const SPACE: [u32; 2] = [0xc000_0001, 0x8000_0020];

/// A p2 of the space and rights, which come with a p1 and the number of a store.
fn rest(p1: u32, number: u32) -> (u32, u32) {
    let mixed = (p1 ^ number.wrapping_mul(0x9e37_79b9)).wrapping_mul(0x85eb_ca6b);
    let p2 = (mixed >> 15 & 1) << 31 | (mixed >> 16 & 1) << 5;
    (p2, mixed >> 17 & MAX_RIGHTS)
}

/// Every set of p1s of the space, every lockword of the space, and one right after another: as
/// many as by trying every password of the space, also where the lockword's first word has its top
/// bit, which no well-formed store has. Where it has not, as many as capabilities hold the right.
#[test]
fn every_password_of_a_cut_down_space() {
    let space = passwords_within(SPACE);
    assert_eq!(space.len(), 32);
    let p1s: Vec<u32> = space.iter().filter(|(_, p2)| *p2 == 0).map(|(p1, _)| *p1).collect();
    let mut unequal = 0;
    for chosen in 0_u32..1 << p1s.len() {
        let mut store = hall();
        let taken = (0..p1s.len()).filter(|at| chosen >> at & 1 == 1);
        for p1 in taken.map(|at| p1s[at]) {
            let (p2, rights) = rest(p1, chosen);
            add(&mut store, PATTERN, p1, p2, rights);
        }
        for (first, second) in &space {
            store.objects.get_mut(&LOOM).expect("a process").lockword = [*first, *second];
            for right in right::ALL {
                let question = count(LOOM, PATTERN, right);
                let counted = question.among(&store, space.iter().copied());
                assert_eq!(question.ask(&store), Ok(counted), "{chosen} {first} {second} {right}");
                let holding = store.tree(PATTERN).filter(|(_, found)| found.rights & right != 0);
                let holding = holding.count() as u32;
                assert!(*first >= TOP || counted == holding, "{chosen} {first} {second} {right}");
                unequal += u32::from(counted != holding);
            }
        }
    }
    assert!(unequal > 0, "a lockword with its top bit makes a difference");
}

/// A fresh store: one password for each right of its process, and none for what is not there.
#[test]
fn a_fresh_store() {
    let store = Store::fresh(0, BOSS.p1, BOSS.p2);
    for right in right::ALL {
        assert_eq!(count(BOSS.name, BOSS.name, right).ask(&store), Ok(1));
        assert_eq!(count(BOSS.name, ABSENT, right).ask(&store), Ok(0));
    }
}

/// Those of the object that hold this right, and no others, by each process alike.
#[test]
fn this_object_and_this_right() {
    let mut store = hall();
    store.objects.get_mut(&LOOM).expect("a process").lockword = [TOP - 1, MAX_WORD];
    let rights = [MAX_RIGHTS, right::READ, right::READ | right::SEND, right::SEND, right::NONE];
    for (number, rights) in rights.into_iter().enumerate() {
        // every other one above the top bit
        let p1 = if number % 2 == 0 { 10 } else { TOP + 10 } + number as u32;
        add(&mut store, PATTERN, p1, 3, rights);
    }
    for caller in [BOSS.name, LOOM] {
        let asked = |right| count(caller, PATTERN, right).ask(&store);
        assert_eq!(asked(right::READ), Ok(3));
        assert_eq!(asked(right::SEND), Ok(3));
        assert_eq!(asked(right::WRITE), Ok(1));
        assert_eq!(count(caller, BOSS.name, right::READ).ask(&store), Ok(1));
        assert_eq!(count(caller, LOOM, right::READ).ask(&store), Ok(0));
    }
}

/// "marks are not looked at", and neither is the cash: the question costs nothing.
#[test]
fn marks_and_cash() {
    let mut store = hall();
    add(&mut store, PATTERN, 1, 2, MAX_RIGHTS);
    for marks in 0_u32..8 {
        let loom = store.objects.get_mut(&LOOM).expect("a process");
        (loom.suspended, loom.waiting, loom.terminated) =
            (marks & 1 != 0, marks & 2 != 0, marks & 4 != 0);
        assert_eq!(count(LOOM, PATTERN, right::READ).ask(&store), Ok(1), "{marks}");
    }
}

/// "The password count of CR 8 leaves expired ones out.": day by day, each is counted up to its last
/// day, by the two candidates and by every password of the space alike.
#[test]
fn expired_ones() {
    let mut store = hall();
    store.objects.get_mut(&LOOM).expect("a process").lockword = [1 << 30, 32];
    let last_days = [0, 1, 1, 3, MAX_DAY];
    let p1s = [0, 1, TOP, TOP + 1, TOP + (1 << 30)];
    for (p1, last_day) in p1s.into_iter().zip(last_days) {
        add(&mut store, PATTERN, p1, 32, MAX_RIGHTS);
        let added = store.capabilities.get_mut(&(PATTERN, p1)).expect("a capability");
        added.last_day = last_day;
    }
    let expected = [(0, 5), (1, 4), (2, 2), (3, 2), (4, 1), (MAX_DAY, 1)];
    for (day, count_then) in expected {
        store.day = day;
        for right in right::ALL {
            let question = count(LOOM, PATTERN, right);
            assert_eq!(question.ask(&store), Ok(count_then), "day {day}");
            assert_eq!(question.among(&store, passwords_within(SPACE)), count_then, "day {day}");
        }
    }
}

/// A fault in a question that would be answered 1.
type Fault = fn(&mut PasswordCount);

/// Faults with their answers, in the order of the answers.
const FAULTS: [(Result<u32, Refusal>, Fault); 10] = [
    (Err(Refusal::OutOfRange), |asked| asked.right = right::NONE),
    (Err(Refusal::OutOfRange), |asked| asked.right = right::READ | right::WRITE),
    (Err(Refusal::OutOfRange), |asked| asked.right = MAX_RIGHTS + 1),
    (Err(Refusal::OutOfRange), |asked| asked.caller.volume = MAX_VOLUME + 1),
    (Err(Refusal::OutOfRange), |asked| asked.caller.serial = MAX_SERIAL + 1),
    (Err(Refusal::OutOfRange), |asked| asked.object.volume = MAX_VOLUME + 1),
    (Err(Refusal::OutOfRange), |asked| asked.object.serial = MAX_SERIAL + 1),
    (Err(Refusal::NotRunning), |asked| asked.caller.serial = 9),
    (Err(Refusal::NotRunning), |asked| asked.caller = PATTERN),
    (Ok(0), |asked| asked.object = ABSENT),
];

/// Any two faults at once: the first in the papers' order is answered. It is made last, so that
/// it stands.
#[test]
fn order_of_answers() {
    let mut store = hall();
    add(&mut store, PATTERN, 1, 2, MAX_RIGHTS);
    let question = count(BOSS.name, PATTERN, right::READ);
    assert_eq!(question.ask(&store), Ok(1));
    for (at, (answer, fault)) in FAULTS.into_iter().enumerate() {
        for (_, later) in &FAULTS[at..] {
            let mut asked = question;
            later(&mut asked);
            fault(&mut asked);
            assert_eq!(asked.ask(&store), answer, "{asked:?}");
        }
    }
}

/// Counts along a chain of derives, a delete and a rename.
#[test]
fn derives_and_deletes() {
    let mut store = Store::fresh(1_000, BOSS.p1, BOSS.p2);
    let master = Key { name: PATTERN, p1: 11, p2: 12 };
    let key = |p1| Key { p1, ..master };
    let derive = |from, mask, p1| {
        let limit = MAX_WORD;
        let last_day = DEFAULT_LAST_DAY;
        let action = Action::DeriveCap { mask, start: 0, end: 0, limit, last_day, p1, p2: 12 };
        Operation::On(key(from), action)
    };
    let make = Operation::MakeObj { size: 1, flag: 0, rights: MAX_RIGHTS, drawn: master };
    let no_write = MAX_RIGHTS - right::WRITE;
    // what is done, and then how many passwords there are for READ and for WRITE
    let steps = [
        (make, 1, 1),
        (derive(11, MAX_RIGHTS, TOP), 2, 2),
        (derive(TOP, no_write, TOP + 1), 3, 2),
        (derive(TOP + 1, MAX_RIGHTS, 13), 4, 2),
        (derive(11, right::WRITE, 14), 4, 3),
        (Operation::On(key(TOP), Action::DeleteCap), 1, 2),
        (Operation::On(key(11), Action::RenameObj { p1: 15, p2: 12 }), 1, 1),
        (Operation::On(key(15), Action::DeleteCap), 0, 0),
    ];
    for (operation, read, write) in steps {
        assert_eq!(store.run(&by_boss(operation)).code, DONE);
        assert_eq!(count(BOSS.name, PATTERN, right::READ).ask(&store), Ok(read));
        assert_eq!(count(BOSS.name, PATTERN, right::WRITE).ask(&store), Ok(write));
    }
}
