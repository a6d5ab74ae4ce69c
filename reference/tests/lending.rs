//! 02's question what can be lent on the reference: by trying every derive_cap of a cut-down space,
//! the order of the answers, and that free records, fees and drawn numbers are not looked at.

mod boss;

use boss::{by_boss, BOSS};
use reference::call::{Action, Key, Name, Operation};
use reference::kernel::{Capability, Object, Place, Store};
use reference::lending::{LendPlace, Wish};
use reference::numbers::*;
use std::collections::BTreeSet;

/// The pattern that is lent, of this size, and an absent object.
const PATTERN: Name = Name { volume: 2, serial: 7 };
const SIZE: u32 = 4;
const ABSENT: Name = Name { volume: 2, serial: 8 };

/// The p2 of all of its capabilities, and the p1 of none.
const P2: u32 = 9;
const FREE: u32 = 99;

/// p1, the parent's, rights, window, moneyword and last day.
type Row = (u32, Option<u32>, u32, (u32, u32), u32, u32);

/// A store with this tree, on day 1.
fn hall(tree: &[Row]) -> Store {
    let mut store = Store::fresh(1_000_000, BOSS.p1, BOSS.p2);
    store.objects.insert(PATTERN, Object { bytes: vec![0; SIZE as usize], ..Object::default() });
    for &(p1, parent, rights, (start, end), moneyword, last_day) in tree {
        let new = Capability { p2: P2, parent, moneyword, start, end, rights, last_day };
        store.capabilities.insert((PATTERN, p1), new);
    }
    store.day = 1;
    store
}

fn key(p1: u32) -> Key {
    Key { name: PATTERN, p1, p2: P2 }
}

fn asked(keys: &[Key], wish: Wish) -> LendPlace {
    LendPlace { caller: BOSS.name, list: keys.iter().flat_map(|key| key.numbers()).collect(), wish }
}

const READ: u32 = right::READ;
const LEND: u32 = right::DERIVE_CAP;

/// A tree of the cut-down space. Of those that can be derived from 2 and 8 have more than the
/// master, and 5 more than 3, which is between; 4 is expired, and 6 has no DERIVE_CAP.
const TREE: [Row; 8] = [
    (1, None, READ | LEND, (0, SIZE), 2, MAX_DAY),
    (2, Some(1), READ | LEND, (1, 3), 3, 3),
    (3, Some(2), READ | LEND, (1, 2), 1, 2),
    (4, Some(2), READ | LEND, (2, 2), 3, 0),
    (5, Some(3), LEND, (1, 1), 3, 1),
    (6, Some(1), READ, (0, SIZE), 2, 3),
    (7, Some(1), LEND, (0, 3), 0, 1),
    (8, Some(1), READ | LEND, (3, SIZE), 3, 2),
];

/// Wishes, or arguments: rights, start, end, sum and last day, of the space and just outside it.
fn space(beyond: u32) -> Vec<[u32; 5]> {
    let mut found = Vec::new();
    for rights in [0, READ, LEND, READ | LEND, right::SEND, READ | right::SEND, MAX_RIGHTS] {
        for (start, end) in (0..=SIZE + beyond).flat_map(|end| (0..=end).map(move |s| (s, end))) {
            for sum in (0..=3 + beyond).chain([MAX_WORD]) {
                let last_days = (0..=3 + beyond).chain([MAX_DAY]);
                found.extend(last_days.map(|last_day| [rights, start, end, sum, last_day]));
            }
        }
    }
    found
}

/// Every child that a derive_cap of the space gives from a capability.
fn children(store: &Store, p1: u32) -> BTreeSet<[u32; 5]> {
    let mut store = store.clone();
    let mut found = BTreeSet::new();
    for [mask, start, end, limit, last_day] in space(2) {
        let derive = Action::DeriveCap { mask, start, end, limit, last_day, p1: FREE, p2: P2 };
        store.run(&by_boss(Operation::On(key(p1), derive)));
        let child = store.capabilities.remove(&(PATTERN, FREE));
        found.extend(child.map(|c| [c.rights, c.start, c.end, c.moneyword, c.last_day]));
    }
    found
}

/// For every wish of the space the few derive_caps that are tried find a child where all do, from
/// each capability alone, and the first one of several.
#[test]
fn every_derive_cap_of_a_cut_down_space() {
    let store = hall(&TREE);
    let places: Vec<Place> = TREE.iter().map(|row| (PATTERN, row.0)).collect();
    let given: Vec<_> = places.iter().map(|place| children(&store, place.1)).collect();
    let keys: Vec<Key> = TREE.iter().rev().map(|row| key(row.0)).collect();
    let mut answers = BTreeSet::new();
    for numbers in space(1) {
        let [rights, start, end, sum, last_day] = numbers;
        let wish = Wish { rights, start, end, sum, last_day };
        let enough = |place: &Place| store.climb(*place).iter().all(|p| store.moneyword(*p) >= sum);
        let lends: Vec<bool> =
            (0..TREE.len()).map(|at| given[at].contains(&numbers) && enough(&places[at])).collect();
        for (row, lends) in TREE.iter().zip(&lends) {
            let expected = if *lends { Ok(1) } else { Err(Refusal::NoneWillDo) };
            assert_eq!(asked(&[key(row.0)], wish).ask(&store), expected, "{} {wish:?}", row.0);
        }
        let first = lends.iter().rev().position(|lends| *lends);
        let expected = first.map(|before| before as u32 + 1).ok_or(Refusal::NoneWillDo);
        assert_eq!(asked(&keys, wish).ask(&store), expected, "{wish:?}");
        answers.insert(expected);
    }
    // from 4 and 6 nothing can be lent
    assert_eq!(answers.len(), TREE.len() - 1);
}

/// What the master of the tree has, as a wish.
const WHOLE: Wish = Wish { rights: READ | LEND, start: 0, end: SIZE, sum: 2, last_day: MAX_DAY };

/// A fault in a question that would be answered 1.
type Fault = fn(&mut LendPlace);

/// Faults with their answers, in the order of the answers.
const FAULTS: [(Refusal, Fault); 17] = [
    (Refusal::OutOfRange, |asked| asked.list.extend([PATTERN.volume, PATTERN.serial, 1])),
    (Refusal::OutOfRange, |asked| asked.list = key(1).numbers().repeat(MAX_ENTRIES + 1)),
    (Refusal::OutOfRange, |asked| asked.list.extend([MAX_VOLUME + 1, 1, 1, 1])),
    (Refusal::OutOfRange, |asked| asked.list.extend([0, MAX_SERIAL + 1, 1, 1])),
    (Refusal::OutOfRange, |asked| asked.caller.volume = MAX_VOLUME + 1),
    (Refusal::OutOfRange, |asked| asked.caller.serial = MAX_SERIAL + 1),
    (Refusal::OutOfRange, |asked| asked.wish.rights = MAX_RIGHTS + 1),
    (Refusal::OutOfRange, |asked| asked.wish.start = asked.wish.end + 1),
    (Refusal::OutOfRange, |asked| asked.wish.last_day = MAX_DAY + 1),
    (Refusal::NotRunning, |asked| asked.caller = ABSENT),
    (Refusal::NotRunning, |asked| asked.caller = PATTERN),
    (Refusal::NoneWillDo, |asked| asked.list.clear()),
    (Refusal::NoneWillDo, |asked| asked.list = Key { name: ABSENT, ..key(1) }.numbers().into()),
    (Refusal::NoneWillDo, |asked| asked.list = Key { p2: P2 + 1, ..key(1) }.numbers().into()),
    (Refusal::NoneWillDo, |asked| asked.wish.rights |= right::SEND),
    (Refusal::NoneWillDo, |asked| asked.wish.end = SIZE + 1),
    (Refusal::NoneWillDo, |asked| asked.wish.sum = MAX_WORD),
];

/// Any two faults at once: the first in the papers' order is answered. It is made last, so that
/// it stands.
#[test]
fn order_of_answers() {
    let store = hall(&TREE);
    assert_eq!(asked(&[key(1)], WHOLE).ask(&store), Ok(1));
    for (at, (answer, fault)) in FAULTS.into_iter().enumerate() {
        for (_, later) in &FAULTS[at..] {
            let mut asked = asked(&[key(1)], WHOLE);
            later(&mut asked);
            fault(&mut asked);
            assert_eq!(asked.ask(&store), Err(answer), "{asked:?}");
        }
    }
}

/// A caller with a mark is refused, and no cash is asked of one without.
#[test]
fn marks_and_cash() {
    let mut store = hall(&TREE);
    for marks in 0_u32..8 {
        let boss = store.objects.get_mut(&BOSS.name).expect("a process");
        (boss.suspended, boss.waiting, boss.terminated) =
            (marks & 1 != 0, marks & 2 != 0, marks & 4 != 0);
        (boss.cash, store.house) = (0, MAX_WORD - 2);
        let expected = if marks == 0 { Ok(1) } else { Err(Refusal::NotRunning) };
        assert_eq!(asked(&[key(1)], WHOLE).ask(&store), expected, "{marks}");
    }
}

/// "must pass the mill's own password test": a p1 with its top bit is unlocked by the caller's
/// lockword.
#[test]
fn locked_passwords() {
    let mut store = hall(&TREE);
    let stored = Capability { parent: Some(1), ..store.capabilities[&(PATTERN, 1)] };
    store.capabilities.insert((PATTERN, TOP + 5), stored);
    store.objects.get_mut(&BOSS.name).expect("a process").lockword = [6, 1];
    let keys = [key(TOP + 5), Key { p2: P2 ^ 1, ..key(3) }, Key { p2: P2 ^ 1, ..key(TOP + 3) }];
    assert_eq!(asked(&keys, WHOLE).ask(&store), Ok(3));
    assert_eq!(asked(&keys[..2], WHOLE).ask(&store), Err(Refusal::NoneWillDo));
}

/// No record free: a chain, whose lowest lends, and so it does as the last of a list; 512 p1 are
/// taken, the first numbers among them.
#[test]
fn a_full_store() {
    let chain: Vec<Row> = (0..MAX_CAPS as u32 - 1)
        .map(|p1| (p1, p1.checked_sub(1), READ | LEND, (0, SIZE), 2, MAX_DAY))
        .collect();
    let store = hall(&chain);
    assert_eq!(store.capabilities.len(), MAX_CAPS);
    let lowest = key(MAX_CAPS as u32 - 2);
    assert_eq!(asked(&[lowest], WHOLE).ask(&store), Ok(1));
    let mut keys = [BOSS; MAX_ENTRIES];
    keys[MAX_ENTRIES - 1] = lowest;
    assert_eq!(asked(&keys, WHOLE).ask(&store), Ok(MAX_ENTRIES as u32));
    let more = Wish { sum: 3, ..WHOLE };
    assert_eq!(asked(&keys, more).ask(&store), Err(Refusal::NoneWillDo));
    let listed: Vec<Key> = (0..MAX_ENTRIES as u32).map(key).collect();
    assert_eq!(asked(&listed, WHOLE).ask(&store), Ok(1));
}
