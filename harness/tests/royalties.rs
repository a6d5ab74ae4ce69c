//! Verified bills of royalties beside the reference: what they give, and the slices after each;
//! and that a pattern's bills add up.

use harness::hall::{by_boss, hall, BLIND, BOSS, CARDS, ENDED, ENDED_BARE, ROWS, WEAVER};
use harness::kernel;
use harness::lengths::{other_lengths, RESIZES};
use harness::pair::{bill_raw, Pair};
use harness::request::{bill_request, BILL_REPLY};
use reference::call::{Action, Key, Operation};
use reference::numbers::*;
use reference::royalties::{charge, Bill, Billed};
use std::collections::{BTreeMap, BTreeSet};
use trials::bills::{Patterns, Tried, SCENES};
use trials::generate::Generator;
use trials::met::Met;
use trials::profiles::{profile, Profile, PROFILES};
use trials::random::Random;
use trials::raw::RawStore;
use trials::samples::damaged_stores_of_runs;

/// How many runs of each profile are made.
const RUNS: u64 = 3;

/// A run of a profile with a bill after each call. Each pattern's bills add up; the most that one
/// had.
fn run(profile: Profile, seed: u64, met: &mut Met<Tried>) -> u32 {
    let (mut patterns, mut longest) = (Patterns::default(), 0);
    Pair::run(profile, seed, &mut |pair, generator, random| {
        let bill = generator.next_bill(&pair.store, &mut patterns);
        let tried = Tried::new(&pair.store, &bill);
        let billed = pair.bill(&bill, random);
        met.note(&tried, billed.code);
        let account = patterns.book(&bill, &billed);
        assert!(account.adds_up(), "{bill:?}: {account:?}");
        longest = longest.max(account.bills);
    });
    longest
}

#[test]
fn random_bills() {
    let (mut met, mut longest) = (Met::new(&SCENES), 0);
    for (seed, profile) in (1..=RUNS).flat_map(|seed| PROFILES.map(|profile| (seed, profile))) {
        longest = run(profile, seed, &mut met).max(longest);
    }
    for (scene, code, count) in met.counts() {
        println!("{code:>2} {scene:40}{count:>8}");
        assert!(count > 5, "not met: {scene}");
    }
    println!("the longest list of accepted bills: {longest}");
    assert!(longest > 50);
}

/// On a store that is not well formed a bill is 18 if its count would pass, else 1. Nothing changes.
/// The code.
fn on_damaged(raw: &mut RawStore, bill: &Bill, random: &mut Random) -> u32 {
    let before = raw.clone();
    let code = if bill.total().is_some() { ILL_FORMED } else { COUNT_PASSES };
    bill_raw(raw, bill, &Billed { code, count: bill.count, sum: 0 }, random);
    assert!(*raw == before, "changed: {bill:?}");
    code
}

#[test]
fn damaged_stores() {
    let faults = profile("faults").expect("a profile");
    let (mut generator, mut random) = (Generator::new(faults, 42), Random::new(42));
    let (mut patterns, mut counts) = (Patterns::default(), BTreeMap::<u32, u32>::new());
    damaged_stores_of_runs(20, &mut random, &mut |store, mut raw, random| {
        let bill = generator.next_bill(store, &mut patterns);
        let passing = Bill { count: MAX_COUNT, picks: bill.picks.max(1), ..bill };
        for bill in [bill, passing] {
            *counts.entry(on_damaged(&mut raw, &bill, random)).or_default() += 1;
        }
    });
    println!("{counts:?}");
    assert!(counts.values().all(|count| *count > 500) && counts.len() == 2);
}

/// What bills are taken from: the one of the hall's capabilities that lacks the right to read alone.
const PURSE: Key = BLIND;
/// One that has no other right than to read.
const CLOSED: Key = ROWS;
/// What a withdraw costs.
const FEE: u32 = 2;

/// The hall, with so much money in the purse and as much more above it.
fn rich_hall(money: u32, random: &mut Random) -> Pair {
    let mut pair = hall(0, random);
    for key in [PURSE, CARDS] {
        by_boss(&mut pair, Operation::On(key, Action::Deposit { sum: money }), random);
    }
    pair
}

fn bill(count: u32, picks: u32) -> Bill {
    Bill { caller: BOSS.name, key: PURSE, count, picks }
}

/// Counts around the borders of the tariff and of the range, and where the first credit after a
/// border is due: at 10,033 a first step one pick longer would show, and at no border.
const COUNTS: [u32; 18] = [
    0,
    1,
    24,
    25,
    9_999,
    10_000,
    10_001,
    10_033,
    10_034,
    99_999,
    100_000,
    100_001,
    100_049,
    100_050,
    TOP,
    MAX_COUNT - 50,
    MAX_COUNT - 1,
    MAX_COUNT,
];

/// From each count to each other, by their difference and by one more, with as much money as the
/// bill is, with a credit less, and with more than enough.
#[test]
fn bills_between_counts() {
    let mut random = Random::new(41);
    let mut codes = BTreeMap::<u32, u32>::new();
    for (count, total) in COUNTS.iter().flat_map(|a| COUNTS.map(|b| (*a, b))) {
        let Some(picks) = total.checked_sub(count) else { continue };
        let sum = charge(total) - charge(count);
        for money in [sum, sum.saturating_sub(1), 100_000_000] {
            let pair = rich_hall(money, &mut random);
            for picks in [picks, picks.saturating_add(1)] {
                let billed = pair.clone().bill(&bill(count, picks), &mut random);
                *codes.entry(billed.code).or_default() += 1;
            }
        }
    }
    println!("{codes:?}");
    let expected = [DONE, TOO_LITTLE, COUNT_PASSES];
    assert!(codes.keys().eq(&expected), "{codes:?}");
}

/// A fault in a bill.
type Fault = fn(&mut Bill);

const FAULTS: [Fault; 10] = [
    |bill| bill.count = MAX_COUNT,
    |bill| (bill.count, bill.picks) = (bill.count.max(1), MAX_COUNT),
    |bill| bill.caller.volume = MAX_VOLUME + 1,
    |bill| bill.key.name.serial = MAX_SERIAL + 1,
    |bill| bill.caller = CARDS.name,
    |bill| bill.key.p2 += 1,
    |bill| bill.key.p1 = ENDED.p1,
    |bill| bill.key.p1 = ENDED_BARE.p1,
    |bill| bill.key.p1 = CLOSED.p1,
    |bill| bill.picks = 100_000,
];

/// Two faults at once, by a caller with cash and by one without: the reference says which is
/// answered.
#[test]
fn two_faults() {
    let mut random = Random::new(43);
    let pair = rich_hall(1_000, &mut random);
    let mut codes = BTreeSet::new();
    for (first, second) in FAULTS.iter().flat_map(|a| FAULTS.iter().map(move |b| (a, b))) {
        for (caller, picks) in [(BOSS.name, 25), (BOSS.name, 1), (WEAVER.name, 25)] {
            let mut spoilt = Bill { caller, ..bill(0, picks) };
            first(&mut spoilt);
            second(&mut spoilt);
            codes.insert(pair.clone().bill(&spoilt, &mut random).code);
        }
    }
    let all = [
        OUT_OF_RANGE,
        NOT_RUNNING,
        CANNOT_PAY,
        NOT_FOUND,
        EXPIRED,
        RIGHT_MISSING,
        TOO_LITTLE,
        COUNT_PASSES,
    ];
    assert_eq!(codes, BTreeSet::from(all));
}

#[test]
fn slices_of_other_lengths() {
    let mut random = Random::new(44);
    let sound = rich_hall(1_000, &mut random).raw;
    for resize in RESIZES {
        let mut raw = sound.clone();
        resize(&mut raw);
        assert_eq!(on_damaged(&mut raw, &bill(0, 25), &mut random), ILL_FORMED);
        for fault in FAULTS {
            let mut spoilt = bill(0, 25);
            fault(&mut spoilt);
            on_damaged(&mut raw, &spoilt, &mut random);
        }
    }
}

/// A request or a reply of another length is 1 on a store that is not well formed, else 2, also
/// where the count would pass. Nothing is written.
#[test]
fn requests_and_replies_of_other_lengths() {
    let mut random = Random::new(45);
    let mut pair = rich_hall(1_000, &mut random);
    let mut damaged = pair.raw.clone();
    damaged.links.fill(0);
    for (bill, right) in [(bill(0, 25), DONE), (bill(MAX_COUNT, 25), COUNT_PASSES)] {
        for (raw, code) in
            [(&pair.raw, OUT_OF_RANGE), (&damaged, ILL_FORMED), (&RawStore::default(), ILL_FORMED)]
        {
            for [request, mut reply] in other_lengths(&bill_request(&bill), BILL_REPLY, &mut random)
            {
                let (mut copy, replied) = (raw.clone(), reply.clone());
                assert_eq!(kernel::bill(&mut copy, &request, &mut reply), code, "{bill:?}");
                assert!(copy == *raw && reply == replied, "written");
            }
        }
        // with the right lengths
        assert_eq!(pair.bill(&bill, &mut random).code, right);
    }
}

/// A pattern's bills on the library up to the largest count, with refused ones between: they add up
/// to the charge, the purse has so much less, and the caller so much more, but for the fees.
#[test]
fn a_list_of_bills() {
    let mut random = Random::new(46);
    let money = 85_900_445;
    let mut pair = rich_hall(money, &mut random);
    let cash = |pair: &Pair| pair.store.objects[&BOSS.name].cash;
    let before = cash(&pair);
    let (mut count, mut total, mut fees) = (0, 0, 0);
    let each = [24, 1, 0, 999, 9_999, 33, 50_000, 7, 400_000_000];
    // with the last fault a bill could be done
    let mut turns = each.iter().cycle().zip(FAULTS[..9].iter().cycle());
    while count < MAX_COUNT {
        let (picks, fault) = turns.next().expect("a turn");
        let mut spoilt = bill(count, 1);
        fault(&mut spoilt);
        let code = pair.bill(&spoilt, &mut random).code;
        assert_ne!(code, DONE, "{spoilt:?}");
        let free = [OUT_OF_RANGE, NOT_RUNNING, COUNT_PASSES].contains(&code);
        let next = bill(count, (*picks).min(MAX_COUNT - count));
        let billed = pair.bill(&next, &mut random);
        assert_eq!(billed.code, DONE, "{next:?}");
        (count, total) = (billed.count, total + billed.sum);
        fees += if free { FEE } else { 2 * FEE };
    }
    assert_eq!((count, total), (MAX_COUNT, money));
    assert_eq!(pair.store.moneyword((PURSE.name, PURSE.p1)), 0);
    assert_eq!(cash(&pair), before + money - fees);
}
