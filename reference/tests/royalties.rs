//! 02's royalties on the reference: the charge by both of its forms, bills at every edge, what a
//! bill leaves, the order of the answers, and bills that add up.

mod boss;

use boss::{by_boss, pay, BOSS};
use reference::call::{Action, Key, Name, Operation};
use reference::kernel::{Capability, Store};
use reference::numbers::*;
use reference::royalties::{charge, charge_at_once, charge_by_pick, Bill, Billed, SMALL};

/// Counts with their charges, worked out by hand.
const CHARGES: [(u32, u32); 19] = [
    (0, 0),
    (1, 0),
    (24, 0),
    (25, 1),
    (49, 1),
    (50, 2),
    (9_999, 399),
    (10_000, 400),
    (10_001, 400),
    (10_033, 400),
    (10_034, 401),
    (99_999, 3_099),
    (100_000, 3_100),
    (100_001, 3_100),
    (100_049, 3_100),
    (100_050, 3_101),
    (1_000_000, 21_100),
    (4_294_967_245, 85_900_444),
    (4_294_967_295, 85_900_445),
];

#[test]
fn charges_by_hand() {
    for (count, expected) in CHARGES {
        assert_eq!(charge(count), expected, "{count} picks");
        assert_eq!(charge_at_once(count), expected, "{count} picks");
    }
}

/// The two forms are held to each other on a dense range and around each border.
#[test]
fn both_forms() {
    let borders = [FIRST_PICKS, NEXT_PICKS, SMALL].map(|at| at - 60..=at + 60);
    for count in (0..=2_500).chain(borders.into_iter().flatten()) {
        assert_eq!(charge_by_pick(count), charge_at_once(count), "{count} picks");
    }
}

/// Every count up to well past the last border, by one running sum.
#[test]
fn every_count() {
    let mut thousandths = 0;
    for count in 1..=300_000 {
        thousandths += match count {
            1..=10_000 => 40,
            10_001..=100_000 => 30,
            _ => 20,
        };
        assert_eq!(charge_at_once(count), thousandths / 1_000, "{count} picks");
    }
}

/// A pattern, the purse that its bills are taken from, and one without the right for that.
const PATTERN: Key = Key { name: Name { volume: 2, serial: 3 }, p1: 11, p2: 12 };
const PURSE: Key = Key { p1: 21, p2: 22, ..PATTERN };
const CLOSED: Key = Key { p1: 31, ..PURSE };
/// The same two on the day after their last.
const ENDED: Key = Key { p1: 41, ..PURSE };
const ENDED_CLOSED: Key = Key { p1: 51, ..PURSE };
/// The store's day.
const DAY: u32 = 100;
const CASH: u32 = 1_000;
/// What a withdraw costs.
const FEE: u32 = 2;

/// A store whose purse, a child of the pattern's master, has so much money; the master has more.
fn hall(money: u32) -> Store {
    let mut store = Store::fresh(MAX_WORD, BOSS.p1, BOSS.p2);
    let make = Operation::MakeObj { size: 0, flag: 0, rights: MAX_RIGHTS, drawn: PATTERN };
    let derive = Action::DeriveCap {
        mask: MAX_RIGHTS,
        start: 0,
        end: 0,
        limit: MAX_WORD,
        last_day: DAY,
        p1: PURSE.p1,
        p2: PURSE.p2,
    };
    let deposit = |key, sum| Operation::On(key, Action::Deposit { sum });
    let fill = [deposit(PURSE, money), deposit(PATTERN, 7)];
    for operation in [make, Operation::On(PATTERN, derive)].into_iter().chain(fill) {
        assert_eq!(store.run(&by_boss(operation)).code, DONE);
    }
    let purse = store.capabilities[&(PURSE.name, PURSE.p1)];
    let closed = Capability { rights: MAX_RIGHTS & !right::WITHDRAW, ..purse };
    let ended = Capability { last_day: DAY - 1, ..purse };
    let both = Capability { last_day: DAY - 1, ..closed };
    for (key, capability) in [(CLOSED, closed), (ENDED, ended), (ENDED_CLOSED, both)] {
        store.capabilities.insert((key.name, key.p1), capability);
    }
    store.day = DAY;
    cash(&mut store, CASH);
    store
}

fn cash(store: &mut Store, cash: u32) {
    store.objects.get_mut(&BOSS.name).expect("the caller").cash = cash;
}

fn bill(count: u32, picks: u32) -> Bill {
    Bill { caller: BOSS.name, key: PURSE, count, picks }
}

/// Makes a bill, which is answered with this code and takes this sum, and compares what it leaves.
fn makes(store: &mut Store, bill: &Bill, code: u32, sum: u32) -> u32 {
    let mut expected = store.clone();
    match code {
        COUNT_PASSES | OUT_OF_RANGE | NOT_RUNNING => {}
        CANNOT_PAY => {
            expected.objects.get_mut(&BOSS.name).expect("the caller").terminated = true;
        }
        _ => pay(&mut expected, FEE),
    }
    if code == DONE {
        for p1 in [PURSE.p1, PATTERN.p1] {
            expected.capabilities.get_mut(&(PATTERN.name, p1)).expect("a purse").moneyword -= sum;
        }
        expected.objects.get_mut(&BOSS.name).expect("the caller").cash += sum;
    }
    let count = if code == DONE { bill.count + bill.picks } else { bill.count };
    assert_eq!(bill.run(store), Billed { code, count, sum }, "{bill:?}");
    assert!(*store == expected, "left otherwise: {bill:?}");
    count
}

/// "24 picks and then 1 give bills of 0 and 1; 10,001 picks cost 400."
#[test]
fn the_papers_examples() {
    let mut store = hall(1_000);
    let count = makes(&mut store, &bill(0, 24), DONE, 0);
    makes(&mut store, &bill(count, 1), DONE, 1);
    makes(&mut store, &bill(0, 10_001), DONE, 400);
}

/// Counts and picks with the sum, at each border of the tariff and of the range.
const EDGES: [(u32, u32, u32); 21] = [
    (0, 0, 0),
    (0, 9_999, 399),
    (0, 10_000, 400),
    (0, 99_999, 3_099),
    (0, 100_000, 3_100),
    (0, 100_001, 3_100),
    (0, MAX_WORD, 85_900_445),
    (9_999, 0, 0),
    (9_999, 1, 1),
    (9_999, 2, 1),
    (10_000, 1, 0),
    (10_000, 34, 1),
    (10_001, 89_998, 2_699),
    (10_001, 89_999, 2_700),
    (99_999, 1, 1),
    (99_999, 2, 1),
    (100_000, 49, 0),
    (100_000, 50, 1),
    (100_001, MAX_WORD - 100_001, 85_897_345),
    (MAX_WORD - 1, 1, 0),
    (MAX_WORD, 0, 0),
];

#[test]
fn bills_at_the_edges() {
    for (count, picks, sum) in EDGES {
        makes(&mut hall(100_000_000), &bill(count, picks), DONE, sum);
        makes(&mut hall(sum), &bill(count, picks), DONE, sum);
        if sum > 0 {
            makes(&mut hall(sum - 1), &bill(count, picks), TOO_LITTLE, 0);
        }
    }
    let beyond =
        [(MAX_WORD, 1), (MAX_WORD - 1, 2), (1, MAX_WORD), (TOP, TOP), (MAX_WORD, MAX_WORD)];
    for (count, picks) in beyond {
        makes(&mut hall(100_000_000), &bill(count, picks), COUNT_PASSES, 0);
    }
}

/// A fault in a bill of 25 picks.
type Fault = fn(&mut Bill);

/// Faults with their answers, in the order of the answers.
const FAULTS: [(u32, Fault); 7] = [
    (COUNT_PASSES, |bill| bill.count = MAX_COUNT),
    (OUT_OF_RANGE, |bill| bill.key.name.volume = MAX_VOLUME + 1),
    (NOT_RUNNING, |bill| bill.caller = PATTERN.name),
    (NOT_FOUND, |bill| bill.key.p2 += 1),
    (EXPIRED, |bill| bill.key.p1 = ENDED.p1),
    // with the fault before it, it is both
    (RIGHT_MISSING, |bill| {
        let ended = bill.key.p1 == ENDED.p1;
        bill.key.p1 = if ended { ENDED_CLOSED.p1 } else { CLOSED.p1 };
    }),
    (TOO_LITTLE, |bill| bill.picks = MAX_COUNT),
];

/// Any faults at once, with cash and without: the first is answered. 4 comes after the caller's.
#[test]
fn order_of_answers() {
    for chosen in 0_usize..1 << FAULTS.len() {
        let faults = (0..FAULTS.len()).filter(|at| chosen >> at & 1 == 1).map(|at| FAULTS[at]);
        let mut bill = bill(0, 25);
        faults.clone().for_each(|(_, fault)| fault(&mut bill));
        let first = faults.map(|(code, _)| code).next().unwrap_or(DONE);
        let free = [COUNT_PASSES, OUT_OF_RANGE, NOT_RUNNING].contains(&first);
        for money in [FEE - 1, CASH] {
            let mut store = hall(1_000);
            cash(&mut store, money);
            let code = if money < FEE && !free { CANNOT_PAY } else { first };
            makes(&mut store, &bill, code, u32::from(code == DONE));
        }
    }
}

/// A bill of 0 is paid for and refused as any.
#[test]
fn bills_of_nothing() {
    for (code, fault) in FAULTS.into_iter().filter(|(code, _)| *code != TOO_LITTLE) {
        let mut nothing = bill(0, 1);
        fault(&mut nothing);
        makes(&mut hall(0), &nothing, code, 0);
    }
    for nothing in [bill(0, 24), bill(7, 0), bill(MAX_COUNT, 0)] {
        let mut store = hall(0);
        cash(&mut store, FEE);
        makes(&mut store, &nothing, DONE, 0);
        makes(&mut store, &nothing, CANNOT_PAY, 0);
        makes(&mut store, &nothing, NOT_RUNNING, 0);
    }
}

/// Bills of some picks each, over and over, from 0 up to a count: they add up to its charge, with
/// refused bills before each that is done.
fn adds_up(until: u32, each: &[u32]) {
    let mut store = hall(charge_at_once(until));
    cash(&mut store, 1_000_000);
    let (mut count, mut total) = (0, 0);
    let mut bills = each.iter().cycle().zip(FAULTS[1..6].iter().cycle());
    while count < until {
        let (picks, (code, fault)) = bills.next().expect("a bill");
        let next = bill(count, (*picks).min(until - count));
        let mut spoilt = next;
        fault(&mut spoilt);
        makes(&mut store, &spoilt, *code, 0);
        if count > 0 {
            makes(&mut store, &bill(count, MAX_COUNT), COUNT_PASSES, 0);
        }
        let sum = charge_at_once(count + next.picks) - charge_at_once(count);
        (count, total) = (makes(&mut store, &next, DONE, sum), total + sum);
    }
    assert_eq!(total, charge_at_once(until), "{until} picks by {each:?}");
    assert_eq!(store.moneyword((PURSE.name, PURSE.p1)), 0, "all of the purse is taken");
}

/// "However the picks are split into bills", they add up.
#[test]
fn splits_add_up() {
    adds_up(60, &[1]);
    adds_up(10_001, &[24, 1]);
    for until in [9_999, 10_000, 10_001] {
        adds_up(until, &[999, 0, 7, 26]);
    }
    for until in [99_999, 100_000, 100_001] {
        adds_up(until, &[9_999, 1, 0, 24, 1]);
        adds_up(until, &[until]);
    }
    adds_up(MAX_COUNT, &[1 << 31, 1, 24, 99_999]);
    adds_up(MAX_COUNT, &[MAX_COUNT]);
}
