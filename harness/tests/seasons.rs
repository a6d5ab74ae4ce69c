//! 02's season licences on the verified calls, beside the reference: the day and who sets it, every
//! call on each side of a last day, and how expired capabilities end.

use harness::hall::{by_boss, hall, BOSS, CARDS, DAY, WEAVER};
use harness::pair::{Answers, Pair};
use reference::call::{Action, Call, Key, Name, Operation, CALLS};
use reference::kernel::{Object, Place};
use reference::numbers::*;
use std::collections::BTreeSet;
use trials::encode::encode;
use trials::random::Random;
use trials::samples::{shaped, Shape};

/// Makes the call on both: its code.
fn code(pair: &mut Pair, call: &Call, random: &mut Random) -> u32 {
    pair.call(call, random, &mut Answers::new())
}

fn called(operation: Operation) -> Call {
    Call { caller: BOSS.name, operation, buffer: MIN_BUFFER, scratch: MIN_SCRATCH }
}

/// Days on each side of the store's and of the range, with any caller, marked or not, with cash or
/// without, and any buffer and scratch: these make no difference.
#[test]
fn days_set_by_anyone() {
    let mut random = Random::new(71);
    let start = hall(64, &mut random);
    let marks: [fn(&mut Object); 5] = [
        |_| {},
        |boss| boss.suspended = true,
        |boss| boss.waiting = true,
        |boss| boss.terminated = true,
        |boss| boss.cash = 0,
    ];
    let name = |volume, serial| Name { volume, serial };
    let callers = [
        BOSS.name,
        WEAVER.name,
        CARDS.name,
        name(3, 3),
        name(MAX_VOLUME + 1, 1),
        name(0, MAX_SERIAL + 1),
        name(MAX_WORD, MAX_WORD),
    ];
    let days = [
        (DAY, DONE),
        (DAY + 1, DONE),
        (MAX_DAY, DONE),
        (DAY - 1, EARLIER_DAY),
        (0, EARLIER_DAY),
        (MAX_DAY + 1, OUT_OF_RANGE),
        // the same day in 16 bits
        (DAY + MAX_DAY + 1, OUT_OF_RANGE),
        (MAX_WORD, OUT_OF_RANGE),
    ];
    for mark in marks {
        let mut pair = start.clone();
        mark(pair.store.objects.get_mut(&BOSS.name).expect("the boss"));
        pair.raw = encode(&pair.store, &mut random);
        for caller in callers {
            for (buffer, scratch) in [(0, 0), (MIN_BUFFER, MIN_SCRATCH)] {
                for (day, expected) in days {
                    let operation = Operation::SetDay { day };
                    let call = Call { caller, operation, buffer, scratch };
                    assert_eq!(code(&mut pair.clone(), &call, &mut random), expected, "{call:?}");
                }
            }
        }
    }
}

/// Every seventeenth day, from the first to the last, and after each an earlier one, which is refused.
#[test]
fn every_day() {
    let mut random = Random::new(72);
    let store = reference::kernel::Store::fresh(1_000, BOSS.p1, BOSS.p2);
    let mut pair = Pair { raw: encode(&store, &mut random), store };
    for day in (0..=MAX_DAY).step_by(17) {
        assert_eq!(code(&mut pair, &called(Operation::SetDay { day }), &mut random), DONE);
        let earlier = Operation::SetDay { day: random.below(day) };
        let expected = if day == 0 { DONE } else { EARLIER_DAY };
        assert_eq!(code(&mut pair, &called(earlier), &mut random), expected);
    }
    assert_eq!(code(&mut pair, &called(Operation::On(BOSS, Action::CapInfo)), &mut random), DONE);
}

/// A licence, what is derived from it, and a password that is not there.
const LICENCE: Key = Key { p1: 71, p2: 72, ..WEAVER };
const BELOW: Key = Key { p1: 81, p2: 82, ..WEAVER };

fn derive(from: Key, mask: u32, last_day: u32, new: Key) -> Operation {
    let (limit, p1, p2) = (MAX_WORD, new.p1, new.p2);
    Operation::On(from, Action::DeriveCap { mask, start: 0, end: 0, limit, last_day, p1, p2 })
}

/// The calls that present a capability, each with its right and its answer where the capability is
/// good: the licence is no master, and the process is not terminated.
fn presenting() -> Vec<(Action, u32, u32)> {
    let Operation::On(_, derive) = derive(LICENCE, MAX_RIGHTS, MAX_DAY, BELOW) else {
        panic!("a derive presents");
    };
    let actions = vec![
        (Action::Read { start: 0, end: 0 }, DONE),
        (Action::Write { start: 0, end: 0, data: vec![] }, DONE),
        (Action::CapInfo, DONE),
        (derive, DONE),
        (Action::DeleteCap, DONE),
        (Action::RenameObj { p1: BELOW.p1, p2: BELOW.p2 }, NOT_MASTER),
        (Action::Withdraw { sum: 0 }, DONE),
        (Action::Deposit { sum: 1 }, DONE),
        (Action::Suspend, DONE),
        (Action::Resume, DONE),
        (Action::ApplyLock { words: [1, 2] }, DONE),
        (Action::Send { sum: 1, message: vec![1; 16] }, DONE),
        (Action::Revive { sum: 1 }, NOT_REVIVABLE),
    ];
    let right = |action: &Action| {
        let kind = CALLS.iter().find(|kind| kind.number == action.number());
        kind.expect("one of the 16").right
    };
    actions.into_iter().map(|(action, good)| (action.clone(), right(&action), good)).collect()
}

/// Every call that presents a capability, on the days around its last, whether it has the right or
/// not, and by callers that run and that do not, with cash and without.
#[test]
fn every_call_around_a_last_day() {
    let mut random = Random::new(73);
    let last = DAY + 10;
    let mut met = BTreeSet::new();
    for (action, right, good) in presenting() {
        for (rights, good) in [(MAX_RIGHTS, good), (MAX_RIGHTS & !right, RIGHT_MISSING)] {
            let mut pair = hall(0, &mut random);
            by_boss(&mut pair, derive(WEAVER, rights, last, LICENCE), &mut random);
            for (day, expected) in
                [(last - 1, good), (last, good), (last + 1, EXPIRED), (MAX_DAY, EXPIRED)]
            {
                by_boss(&mut pair, Operation::SetDay { day }, &mut random);
                let call = called(Operation::On(LICENCE, action.clone()));
                let mut answer = |call| code(&mut pair.clone(), &call, &mut random);
                assert_eq!(answer(call.clone()), expected, "day {day}: {call:?}");
                met.insert((action.number(), expected));
                let wrong = Key { p2: LICENCE.p2 + 1, ..LICENCE };
                let absent = Operation::On(wrong, action.clone());
                assert_eq!(answer(called(absent)), NOT_FOUND, "5 before 19");
                let poor = Call { caller: WEAVER.name, ..call.clone() };
                assert_eq!(answer(poor), CANNOT_PAY, "4 before 19");
                let data = Call { caller: CARDS.name, ..call.clone() };
                assert_eq!(answer(data), NOT_RUNNING, "3 before 19");
            }
        }
    }
    assert_eq!(met.iter().filter(|(_, code)| *code == EXPIRED).count(), right::ALL.len());
}

/// The child has the smaller of both last days; one out of range is 2.
#[test]
fn the_smaller_last_day() {
    let mut random = Random::new(74);
    let last = DAY + 10;
    let mut start = hall(0, &mut random);
    by_boss(&mut start, derive(WEAVER, MAX_RIGHTS, last, LICENCE), &mut random);
    for given in [0, 1, DAY - 1, DAY, last - 1, last, last + 1, MAX_DAY - 1, MAX_DAY] {
        let mut pair = start.clone();
        by_boss(&mut pair, derive(LICENCE, MAX_RIGHTS, given, BELOW), &mut random);
        let below = pair.store.capabilities[&(BELOW.name, BELOW.p1)];
        assert_eq!(below.last_day, given.min(last));
    }
    for given in [MAX_DAY + 1, MAX_DAY + 1 + DAY, 1 << 31, MAX_WORD] {
        let call = called(derive(LICENCE, MAX_RIGHTS, given, BELOW));
        assert_eq!(code(&mut start.clone(), &call, &mut random), OUT_OF_RANGE, "{given}");
    }
}

/// A process without marks and with a full tree, on a day: some of it is expired.
fn full(shape: Shape, day: u32, random: &mut Random) -> Pair {
    let mut store = shaped(1, 64, MAX_CAPS as u32, shape, random);
    store.day = day;
    store.objects.values_mut().for_each(|object| object.cash = 1_000_000);
    Pair { raw: encode(&store, random), store }
}

/// On full trees of each shape: an expired one cannot be deleted by itself, its p1 stays taken and it
/// counts among the 512; it ends with an ancestor. So until none but the master is left.
#[test]
fn expired_ones_end_with_an_ancestor() {
    let mut random = Random::new(75);
    for shape in [Shape::Deep, Shape::Wide, Shape::Random] {
        let mut ended = 0;
        for day in [300, 601, MAX_DAY - 3, MAX_DAY] {
            let mut pair = full(shape, day, &mut random);
            ended += empties(&mut pair, &mut random);
            assert_eq!(pair.store.capabilities.len(), 1);
        }
        assert!(ended > 100, "{ended} expired ones ended, {shape:?}");
    }
}

fn key((name, p1): Place, pair: &Pair) -> Key {
    let p2 = pair.store.capabilities[&(name, p1)].p2;
    // the lockword is 0
    Key { name, p1, p2 }
}

/// Deletes what can be deleted below the master, then renames it; how many expired ones ended.
fn empties(pair: &mut Pair, random: &mut Random) -> usize {
    let caller = *pair.store.objects.keys().next().expect("an object");
    let on = |key: Key, action: Action| Call { caller, ..called(Operation::On(key, action)) };
    let day = pair.store.day;
    let expired = |pair: &Pair| -> Vec<Place> {
        let all = pair.store.capabilities.iter();
        all.filter(|(_, found)| found.expired(day)).map(|(place, _)| *place).collect()
    };
    let master = pair.store.capabilities.iter().find(|(_, found)| found.parent.is_none());
    let master = key(*master.expect("a master").0, pair);
    let before = expired(pair).len();
    let free = (0..).find(|p1| !pair.store.capabilities.contains_key(&(caller, *p1)));
    let (free, p2) = (free.expect("a p1 that is not taken"), 7);
    let child = |p1| Call { caller, ..called(derive(master, 1, MAX_DAY, Key { p1, ..master })) };
    assert_eq!(code(pair, &child(free), random), NO_SPACE);
    for _ in 0..12 {
        let Some(place) = random.pick(&expired(pair)) else { break };
        let presented = key(place, pair);
        assert_eq!(code(pair, &on(presented, Action::DeleteCap), random), EXPIRED);
        let taken = Action::RenameObj { p1: place.1, p2 };
        assert_eq!(code(pair, &on(master, taken), random), TAKEN);
        assert_eq!(code(pair, &child(place.1), random), TAKEN);
        // the nearest above it that is good, if that is not the master
        let good = pair.store.climb(place).into_iter();
        let good = good.filter(|at| *at != (master.name, master.p1));
        let good = good.into_iter().find(|at| !pair.store.capabilities[at].expired(day));
        if let Some(ancestor) = good {
            let ancestor = key(ancestor, pair);
            assert_eq!(code(pair, &on(ancestor, Action::DeleteCap), random), DONE);
            assert_eq!(code(pair, &on(presented, Action::DeleteCap), random), NOT_FOUND);
        }
    }
    let rename = Action::RenameObj { p1: free, p2 };
    assert_eq!(code(pair, &on(master, rename), random), DONE);
    before - expired(pair).len()
}
