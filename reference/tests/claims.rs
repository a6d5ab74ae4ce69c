//! The checks can fail: a store or a ledger spoilt in one place is found wrong.

use reference::call::Name;
use reference::claims::{check_ledger, well_formed, CheckedRun};
use reference::kernel::{Capability, Message, Place, Store};
use reference::ledger::Ledger;
use reference::numbers::{DONE, MAX_DAY, MAX_MESSAGE, MAX_RIGHTS, TOP};
use reference::script::{read_call, read_numbers};

const NAME: Name = Name { volume: 2, serial: 7 };
const MASTER: Place = (NAME, 11);
const CHILD: Place = (NAME, 21);
const GRANDCHILD: Place = (NAME, 31);

/// A process 2/7 with a child, a grandchild and a second child, and money in its purse. The first
/// child's last day is 30, the grandchild's 20.
const LINES: [&str; 9] = [
    "1 0 1 2 128 1 8191 7 11 13",
    "9 0 1 2 7 11 13 100",
    "5 0 1 2 7 11 13 207 32 96 4294967295 30 21 22",
    "5 0 1 2 7 21 22 15 64 96 4294967295 20 31 32",
    "5 0 1 2 7 11 13 8191 0 128 4294967295 41 42",
    "8 0 1 2 7 21 22 30",
    "9 0 1 2 7 41 42 20",
    "6 0 1 2 7 41 42",
    "13 0 1 2 7 11 13 5 1 2 3",
];

fn run() -> CheckedRun {
    let mut run = CheckedRun::fresh(1000, 5, 9);
    for line in LINES {
        let numbers = read_numbers(line.as_bytes()).expect(line);
        let answer = run.run(&read_call(&numbers).expect(line)).expect(line);
        assert_eq!(answer.code, DONE, "{line}");
    }
    run
}

fn capability(store: &mut Store, place: Place) -> &mut Capability {
    store.capabilities.get_mut(&place).expect("a capability")
}

/// What is spoilt, and how.
type Spoil = (&'static str, fn(&mut Store));

/// What spoils the store for demand 3, though it may still be well formed.
const SPOILT_CLAIMS: &[Spoil] = &[
    ("a moneyword", |s| capability(s, CHILD).moneyword += 1),
    ("the purse", |s| capability(s, MASTER).moneyword -= 1),
    ("a p2", |s| capability(s, CHILD).p2 += 1),
    ("wider rights", |s| capability(s, GRANDCHILD).rights |= 16),
    ("an earlier start", |s| capability(s, GRANDCHILD).start = 31),
    ("a later end", |s| capability(s, GRANDCHILD).end = 97),
    ("a later last day", |s| capability(s, GRANDCHILD).last_day = 31),
    ("a giver's earlier last day", |s| capability(s, CHILD).last_day = 19),
    ("a lost capability", |s| {
        s.capabilities.remove(&GRANDCHILD);
    }),
    ("a capability too many", |s| {
        let child = *capability(s, CHILD);
        s.capabilities.insert((NAME, 99), child);
    }),
    ("a second master", |s| capability(s, CHILD).parent = None),
];

/// What makes the store not well formed.
const SPOILT_STORES: &[Spoil] = &[
    ("a second master", |s| capability(s, CHILD).parent = None),
    ("no master", |s| capability(s, MASTER).parent = Some(31)),
    ("an absent parent", |s| capability(s, CHILD).parent = Some(99)),
    ("its own parent", |s| capability(s, CHILD).parent = Some(21)),
    ("wider rights", |s| capability(s, GRANDCHILD).rights |= 16),
    ("rights out of range", |s| capability(s, MASTER).rights = MAX_RIGHTS + 1),
    ("an earlier start", |s| capability(s, GRANDCHILD).start = 31),
    ("a later end", |s| capability(s, GRANDCHILD).end = 97),
    ("a crossed window", |s| capability(s, GRANDCHILD).start = 97),
    ("a master's window", |s| capability(s, MASTER).end = 127),
    ("a later last day", |s| capability(s, GRANDCHILD).last_day = 31),
    ("a parent's earlier last day", |s| capability(s, CHILD).last_day = 19),
    ("a master's last day", |s| capability(s, MASTER).last_day = MAX_DAY - 1),
    ("a master's last day out of range", |s| capability(s, MASTER).last_day = MAX_DAY + 1),
    ("the day", |s| s.day = MAX_DAY + 1),
    ("a lockword", |s| {
        s.objects.get_mut(&NAME).unwrap().lockword[0] = TOP;
    }),
    ("a data object's cash", |s| {
        s.objects.get_mut(&NAME).unwrap().process = false;
    }),
    ("a long message", |s| {
        s.objects.get_mut(&NAME).unwrap().messages[0].bytes = vec![0; MAX_MESSAGE + 1];
    }),
    ("a full box", |s| {
        let messages = &mut s.objects.get_mut(&NAME).unwrap().messages;
        messages.extend(vec![Message::default(); 4]);
    }),
    ("the money total", |s| s.house = u32::MAX),
    ("an object without capabilities", |s| {
        s.capabilities.retain(|place, _| place.0 != NAME);
    }),
];

#[test]
fn spoilt_stores_are_found() {
    let CheckedRun { store, ledger } = run();
    for (what, spoil) in SPOILT_CLAIMS {
        let mut spoilt = store.clone();
        spoil(&mut spoilt);
        assert!(check_ledger(&spoilt, &ledger).is_err(), "{what}");
    }
    for (what, spoil) in SPOILT_STORES {
        let mut spoilt = store.clone();
        spoil(&mut spoilt);
        assert!(well_formed(&spoilt).is_err(), "{what}");
    }
}

/// What leaves a store well formed and beside its ledger: the holder's last day at the giver's, and
/// any day.
#[test]
fn sound_days_are_kept() {
    let CheckedRun { store, ledger } = run();
    let sound: [fn(&mut Store); 4] = [
        |s| capability(s, GRANDCHILD).last_day = 30,
        |s| capability(s, CHILD).last_day = 20,
        |s| capability(s, GRANDCHILD).last_day = 0,
        |s| s.day = MAX_DAY,
    ];
    for change in sound {
        let mut changed = store.clone();
        change(&mut changed);
        assert_eq!(well_formed(&changed), Ok(()));
        assert_eq!(check_ledger(&changed, &ledger), Ok(()));
    }
}

/// A ledger that was not fed one of the calls which it takes note of does not match.
#[test]
fn missed_calls_are_found() {
    let store = run().store;
    let noted = &LINES[..LINES.len() - 1];
    for (missed, what) in noted.iter().enumerate() {
        let mut ledger = Ledger::fresh(5, 9);
        for (at, line) in LINES.iter().enumerate() {
            let numbers = read_numbers(line.as_bytes()).expect(line);
            ledger.feed(&read_call(&numbers).expect(line), at != missed);
        }
        assert!(check_ledger(&store, &ledger).is_err(), "{what}");
    }
}

/// The balances of all lines at once are those taken line by line.
#[test]
fn balances_agree() {
    let ledger = run().ledger;
    let each: Vec<i128> = (0..ledger.lines.len()).map(|at| ledger.balance(at)).collect();
    assert_eq!(ledger.balances(), each);
    assert_eq!(each, [0, 90, 70, 100, 120]);
}
