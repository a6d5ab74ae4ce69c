//! 02's season licences on the reference: the day and who sets it, last days along a tree, what an
//! expired capability can no longer do and how it ends, and the lines of a script.

mod boss;

use boss::{by_boss, pay, BOSS};
use reference::call::{Action, Call, Key, Name, Operation, CALLS, SET_DAY};
use reference::claims::CheckedRun;
use reference::kernel::{Object, Store};
use reference::numbers::*;
use reference::script::{call_numbers, read_call};

/// A process and its master, a licence derived from that, and one derived from the licence.
const LOOM: Key = Key { name: Name { volume: 1, serial: 7 }, p1: 11, p2: 12 };
const LICENCE: Key = Key { p1: 21, p2: 22, ..LOOM };
const BELOW: Key = Key { p1: 31, p2: 32, ..LOOM };
/// The licence's last day.
const LAST: u32 = 90;

fn set_day(day: u32) -> Call {
    by_boss(Operation::SetDay { day })
}

fn derive(from: Key, mask: u32, last_day: u32, new: Key) -> Operation {
    let (limit, p1, p2) = (MAX_WORD, new.p1, new.p2);
    Operation::On(from, Action::DeriveCap { mask, start: 0, end: 64, limit, last_day, p1, p2 })
}

fn answers(run: &mut CheckedRun, call: &Call, code: u32) {
    assert_eq!(run.run(call).map(|answer| answer.code), Ok(code), "{call:?}");
}

/// A process, with money in its purse, and a licence of it for some rights.
fn hall(rights: u32) -> CheckedRun {
    let mut run = CheckedRun::fresh(1_000, BOSS.p1, BOSS.p2);
    let make = Operation::MakeObj { size: 64, flag: 1, rights: MAX_RIGHTS, drawn: LOOM };
    let deposit = Operation::On(LOOM, Action::Deposit { sum: 100 });
    for operation in [make, deposit, derive(LOOM, rights, LAST, LICENCE)] {
        answers(&mut run, &by_boss(operation), DONE);
    }
    run
}

fn last_day(store: &Store, key: Key) -> u32 {
    store.capabilities[&(key.name, key.p1)].last_day
}

/// "The store holds a day, 0 to 65,535, starting at 0"; "20, the new day is before the store's, ..
/// after 2"; "A day .. above 65,535 is 2". The same day again is done.
#[test]
fn days() {
    let mut run = hall(MAX_RIGHTS);
    assert_eq!(run.store.day, 0);
    let table = [
        (0, DONE, 0),
        (1, DONE, 1),
        (1, DONE, 1),
        (0, EARLIER_DAY, 1),
        (300, DONE, 300),
        (299, EARLIER_DAY, 300),
        (MAX_DAY + 1, OUT_OF_RANGE, 300),
        (MAX_WORD, OUT_OF_RANGE, 300),
        (MAX_DAY, DONE, MAX_DAY),
        (MAX_DAY + 1, OUT_OF_RANGE, MAX_DAY),
        (MAX_DAY - 1, EARLIER_DAY, MAX_DAY),
        (0, EARLIER_DAY, MAX_DAY),
        (MAX_DAY, DONE, MAX_DAY),
    ];
    for (day, code, after) in table {
        let expected = Store { day: after, ..run.store.clone() };
        answers(&mut run, &set_day(day), code);
        assert!(run.store == expected, "day {day}");
    }
}

/// It "has no caller and no fee": no caller, buffer or scratch makes a difference, and the ledger
/// stays as it is.
#[test]
fn the_hosts_call() {
    assert!(CALLS.iter().all(|kind| kind.number != SET_DAY));
    let callers = [
        BOSS.name,
        LOOM.name,
        Name { volume: 3, serial: 3 },
        Name { volume: MAX_VOLUME + 1, serial: 0 },
        Name { volume: 0, serial: MAX_SERIAL + 1 },
        Name { volume: MAX_WORD, serial: MAX_WORD },
    ];
    let marks: [fn(&mut Object); 4] = [
        |boss| boss.suspended = true,
        |boss| boss.waiting = true,
        |boss| boss.terminated = true,
        |boss| boss.cash = 0,
    ];
    let start = hall(MAX_RIGHTS);
    for caller in callers {
        for mark in marks {
            for (buffer, scratch) in [(0, 0), (MIN_BUFFER, MIN_SCRATCH)] {
                for (day, code) in [(7, DONE), (6, EARLIER_DAY), (MAX_DAY + 1, OUT_OF_RANGE)] {
                    let mut store = Store { day: 7, ..start.store.clone() };
                    mark(store.objects.get_mut(&BOSS.name).expect("a process"));
                    let expected = store.clone();
                    let call =
                        Call { caller, buffer, scratch, ..by_boss(Operation::SetDay { day }) };
                    assert_eq!(store.run(&call).code, code, "{call:?}");
                    assert!(store == expected, "{call:?}");
                }
            }
        }
    }
    let mut ledger = start.ledger.clone();
    ledger.feed(&set_day(7), true);
    assert_eq!(ledger.lines, start.ledger.lines);
}

/// "A master's is 65,535": the fresh store's, a made one's and a renamed one's, on any day.
#[test]
fn masters() {
    let mut run = hall(MAX_RIGHTS);
    assert_eq!(last_day(&run.store, BOSS), MAX_DAY);
    assert_eq!(last_day(&run.store, LOOM), MAX_DAY);
    answers(&mut run, &set_day(LAST + 1), DONE);
    let rename = Action::RenameObj { p1: BELOW.p1, p2: BELOW.p2 };
    answers(&mut run, &by_boss(Operation::On(LOOM, rename)), DONE);
    assert_eq!(last_day(&run.store, BELOW), MAX_DAY);
    answers(&mut run, &set_day(MAX_DAY), DONE);
    answers(&mut run, &by_boss(Operation::On(BELOW, Action::CapInfo)), DONE);
}

/// "the child has the smaller of it and the parent's"; "a last day above 65,535 is 2".
#[test]
fn the_smaller_last_day() {
    let table = [
        (0, Some(0)),
        (LAST - 1, Some(LAST - 1)),
        (LAST, Some(LAST)),
        (LAST + 1, Some(LAST)),
        (MAX_DAY, Some(LAST)),
        (MAX_DAY + 1, None),
        (MAX_WORD, None),
    ];
    for (given, expected) in table {
        let mut run = hall(MAX_RIGHTS);
        let before = run.store.clone();
        let call = by_boss(derive(LICENCE, MAX_RIGHTS, given, BELOW));
        match expected {
            Some(expected) => {
                answers(&mut run, &call, DONE);
                assert_eq!(last_day(&run.store, BELOW), expected, "last day {given}");
            }
            None => {
                answers(&mut run, &call, OUT_OF_RANGE);
                assert!(run.store == before, "last day {given}");
            }
        }
    }
}

/// Each call that presents a capability, by the number of `CALLS`, where it is the right one.
fn action(number: u32) -> Option<Action> {
    Some(match number {
        2 => Action::Read { start: 0, end: 8 },
        3 => Action::Write { start: 0, end: 2, data: vec![1, 2] },
        4 => Action::CapInfo,
        5 => match derive(LICENCE, 0, LAST, BELOW) {
            Operation::On(_, action) => action,
            _ => return None,
        },
        6 => Action::DeleteCap,
        7 => Action::RenameObj { p1: BELOW.p1, p2: BELOW.p2 },
        8 => Action::Withdraw { sum: 1 },
        9 => Action::Deposit { sum: 1 },
        10 => Action::Suspend,
        11 => Action::Resume,
        12 => Action::ApplyLock { words: [1, 2] },
        13 => Action::Send { sum: 1, message: vec![] },
        16 => Action::Revive { sum: 1 },
        _ => return None,
    })
}

/// "19, the store's day is after the capability's last day, right after 5 in every call": on its
/// last day a licence is good, on the next it is not, whether it has the right or not; 5 comes
/// before, and the fee is paid.
#[test]
fn in_every_call() {
    let presenting = CALLS.iter().filter(|kind| kind.right != right::NONE);
    let presenting: Vec<_> = presenting.collect();
    assert_eq!(presenting.len(), right::ALL.len());
    for kind in presenting {
        let action = action(kind.number).expect(kind.name);
        for (rights, good) in [(MAX_RIGHTS, None), (MAX_RIGHTS & !kind.right, Some(RIGHT_MISSING))]
        {
            let mut run = hall(rights);
            let call = by_boss(Operation::On(LICENCE, action.clone()));
            let wrong = by_boss(Operation::On(Key { p2: 0, ..LICENCE }, action.clone()));
            for day in [0, LAST - 1, LAST] {
                answers(&mut run, &set_day(day), DONE);
                let code = run.clone().run(&call).expect(kind.name).code;
                // a licence is no master, and the process is not terminated
                let expected = match kind.number {
                    7 => NOT_MASTER,
                    16 => NOT_REVIVABLE,
                    _ => DONE,
                };
                assert_eq!(code, good.unwrap_or(expected), "{} on day {day}", kind.name);
            }
            for day in [LAST + 1, MAX_DAY] {
                answers(&mut run, &set_day(day), DONE);
                let mut expected = run.store.clone();
                pay(&mut expected, kind.fee);
                answers(&mut run, &call, EXPIRED);
                assert!(run.store == expected, "{}: the fee alone", kind.name);
                answers(&mut run, &wrong, NOT_FOUND);
            }
        }
    }
}

/// 2, 3 and 4 come before 19: of an expired one nothing more is said, and nothing is paid.
#[test]
fn earlier_answers() {
    let mut run = hall(MAX_RIGHTS);
    answers(&mut run, &set_day(LAST + 1), DONE);
    let long = Action::Read { start: 0, end: MAX_TRANSFER + 1 };
    answers(&mut run, &by_boss(Operation::On(LICENCE, long)), OUT_OF_RANGE);
    let read = by_boss(Operation::On(LICENCE, Action::Read { start: 0, end: 0 }));
    answers(&mut run, &Call { caller: LOOM.name, ..read.clone() }, NOT_RUNNING);
    // the process has no cash
    answers(&mut run, &by_boss(Operation::On(LOOM, Action::Resume)), DONE);
    answers(&mut run, &Call { caller: LOOM.name, ..read.clone() }, CANNOT_PAY);
    answers(&mut run, &read, EXPIRED);
}

/// "An expired capability still ends with its ancestor", still has its p1, and still counts among
/// the living.
#[test]
fn expired_and_living() {
    let mut run = hall(MAX_RIGHTS);
    answers(&mut run, &by_boss(derive(LICENCE, MAX_RIGHTS, LAST - 1, BELOW)), DONE);
    answers(&mut run, &set_day(LAST), DONE);
    answers(&mut run, &by_boss(Operation::On(BELOW, Action::CapInfo)), EXPIRED);
    let living = run.store.capabilities.len();
    answers(&mut run, &by_boss(derive(LICENCE, 0, MAX_DAY, BELOW)), TAKEN);
    let rename = Action::RenameObj { p1: BELOW.p1, p2: BELOW.p2 };
    answers(&mut run, &by_boss(Operation::On(LOOM, rename)), TAKEN);
    answers(&mut run, &by_boss(Operation::On(LICENCE, Action::DeleteCap)), DONE);
    assert_eq!(run.store.capabilities.len(), living - 2);
    answers(&mut run, &by_boss(Operation::On(BELOW, Action::CapInfo)), NOT_FOUND);
    answers(&mut run, &by_boss(derive(LOOM, 0, MAX_DAY, BELOW)), DONE);
}

/// A withdrawal climbs past an expired one's parent as past any: days are asked of the capability
/// presented alone, and no descendant's is after an ancestor's.
#[test]
fn deeper_ones_expire_first() {
    let mut run = hall(MAX_RIGHTS);
    answers(&mut run, &by_boss(derive(LICENCE, MAX_RIGHTS, MAX_DAY, BELOW)), DONE);
    let withdraw = |key| by_boss(Operation::On(key, Action::Withdraw { sum: 1 }));
    for (day, code) in [(LAST, DONE), (LAST + 1, EXPIRED)] {
        answers(&mut run, &set_day(day), DONE);
        answers(&mut run, &withdraw(BELOW), code);
        answers(&mut run, &withdraw(LICENCE), code);
        answers(&mut run, &withdraw(LOOM), DONE);
    }
}

/// Lines of call 17 are two numbers; those of derive_cap have the limit and the last day, the limit
/// alone or neither.
#[test]
fn lines() {
    for numbers in [&[17, 0][..], &[17, 5], &[17, MAX_DAY], &[17, MAX_DAY + 1], &[17, MAX_WORD]] {
        let call = read_call(numbers).expect("a line");
        assert_eq!(call.operation, Operation::SetDay { day: numbers[1] });
        assert_eq!(call_numbers(&call), numbers);
    }
    for numbers in [&[17][..], &[17, 0, 1], &[17, 0, 1, 5], &[17, 5, 5, 5, 5]] {
        assert_eq!(read_call(numbers), None, "{numbers:?}");
    }
    let head = [5, 0, 1, 0, 1, 5, 9, 8191, 0, 64];
    let rests: [(&[u32], Option<[u32; 4]>); 7] = [
        (&[1], None),
        (&[1, 2], Some([DEFAULT_LIMIT, DEFAULT_LAST_DAY, 1, 2])),
        (&[7, 1, 2], Some([7, DEFAULT_LAST_DAY, 1, 2])),
        (&[7, 8, 1, 2], Some([7, 8, 1, 2])),
        (&[7, MAX_DAY + 1, 1, 2], Some([7, MAX_DAY + 1, 1, 2])),
        (&[7, 8, 9, 1, 2], None),
        (&[], None),
    ];
    for (rest, expected) in rests {
        let call = read_call(&[&head, rest].concat());
        let read = call.map(|call| match call.operation {
            Operation::On(_, Action::DeriveCap { limit, last_day, p1, p2, .. }) => {
                [limit, last_day, p1, p2]
            }
            _ => panic!("another call"),
        });
        assert_eq!(read, expected, "{rest:?}");
    }
}
