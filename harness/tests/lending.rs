//! The verified question what can be lent beside the reference: what it answers, and that nothing
//! changes.

use harness::hall::{by_boss, hall, BOSS, CARDS, DAY, ENDED, ROWS, WEAVER};
use harness::kernel;
use harness::lengths::{other_lengths, RESIZES};
use harness::pair::{lend_raw, Pair};
use harness::request::{lend_request, LEND_REPLY};
use reference::call::{Action, Key, Operation};
use reference::lending::{LendPlace, Wish};
use reference::numbers::*;
use std::collections::{BTreeMap, BTreeSet};
use trials::encode::encode;
use trials::generate::Generator;
use trials::lends::{Tried, SCENES};
use trials::met::Met;
use trials::profiles::{profile, PROFILES};
use trials::random::Random;
use trials::raw::RawStore;
use trials::samples::{by_depth, damaged_stores_of_runs, shaped, Shape};

/// How many runs of each profile are made.
const RUNS: u64 = 3;

#[test]
fn random_lends() {
    let mut met = Met::new(&SCENES);
    for (seed, profile) in (1..=RUNS).flat_map(|seed| PROFILES.map(|profile| (seed, profile))) {
        Pair::run(profile, seed, &mut |pair, generator, _| {
            for _ in 0..2 {
                let asked = generator.next_lend(&pair.store);
                let [code, _] = pair.lend(&asked);
                met.note(&Tried::new(&pair.store, &asked), code);
            }
        });
    }
    for (scene, code, count) in met.counts() {
        println!("{code:>2} {scene:40}{count:>8}");
        assert!(count > 10, "not met: {scene}");
    }
}

/// "after 1": on a store that is not well formed nothing else is answered.
#[test]
fn damaged_stores() {
    let faults = profile("faults").expect("a profile");
    let (mut generator, mut random) = (Generator::new(faults, 72), Random::new(72));
    let mut tried = 0;
    damaged_stores_of_runs(20, &mut random, &mut |store, raw, _| {
        assert_eq!(lend_raw(&raw, &generator.next_lend(store)), [ILL_FORMED, 0]);
        tried += 1;
    });
    assert!(tried > 500, "{tried}");
}

/// A chain from the cards, each with fewer rights, a smaller window and an earlier last day than the
/// one before.
const MILL: Key = Key { p1: 71, ..CARDS };
const SHED: Key = Key { p1: 81, ..CARDS };
const LOOM: Key = Key { p1: 91, ..CARDS };

/// What the mill, the shed and the loom have; of the money, when they were derived.
const WISHES: [Wish; 3] = [
    Wish { rights: MAX_RIGHTS & !right::SEND, start: 10, end: 90, sum: 500, last_day: DAY + 30 },
    Wish { rights: 0xff, start: 20, end: 80, sum: 400, last_day: DAY + 20 },
    Wish { rights: right::DERIVE_CAP, start: 30, end: 70, sum: 300, last_day: DAY + 10 },
];

/// The hall with the chain. The master has 700 left, the mill 200, and the shed and the loom have
/// what they were given.
fn lending_hall(random: &mut Random) -> Pair {
    let mut pair = hall(64, random);
    by_boss(&mut pair, Operation::On(CARDS, Action::Deposit { sum: 1_000 }), random);
    for ((from, to), wish) in [(CARDS, MILL), (MILL, SHED), (SHED, LOOM)].into_iter().zip(WISHES) {
        let Wish { rights: mask, start, end, sum: limit, last_day } = wish;
        let (p1, p2) = (to.p1, to.p2);
        let derive = Action::DeriveCap { mask, start, end, limit, last_day, p1, p2 };
        by_boss(&mut pair, Operation::On(from, derive), random);
    }
    by_boss(&mut pair, Operation::On(MILL, Action::Withdraw { sum: 300 }), random);
    pair
}

/// A question by the boss.
fn lend(keys: &[Key], wish: Wish) -> LendPlace {
    LendPlace { caller: BOSS.name, list: keys.iter().flat_map(|key| key.numbers()).collect(), wish }
}

/// What the loom lends: no more than the mill has left.
const LENT: Wish = Wish { sum: 200, ..WISHES[2] };

/// Numbers beside this one.
fn beside(number: u32) -> [u32; 3] {
    [number - 1, number, number + 1]
}

/// Wishes around what one has: each field by one less, the same and one more, with sums around every
/// moneyword of the chain.
fn around(wish: Wish) -> Vec<Wish> {
    let mut found = Vec::new();
    let bit = wish.rights & wish.rights.wrapping_neg();
    for rights in [wish.rights, wish.rights ^ bit, wish.rights | right::SEND] {
        for (start, end) in
            beside(wish.start).into_iter().flat_map(|s| beside(wish.end).map(|e| (s, e)))
        {
            for sum in [200, 300, 400, 700].into_iter().flat_map(beside) {
                let wishes = beside(wish.last_day);
                found.extend(wishes.map(|last_day| Wish { rights, start, end, sum, last_day }));
            }
        }
    }
    found
}

/// Each comparison at its border, from each of the chain alone and from all, the lowest first.
#[test]
fn every_comparison() {
    let mut random = Random::new(73);
    let pair = lending_hall(&mut random);
    let mut answers = BTreeMap::<[u32; 2], u32>::new();
    for wish in WISHES.into_iter().flat_map(around) {
        for keys in [&[LOOM][..], &[SHED], &[MILL], &[CARDS], &[LOOM, SHED, MILL, CARDS]] {
            *answers.entry(pair.lend(&lend(keys, wish))).or_default() += 1;
        }
    }
    println!("{answers:?}");
    let all = [[DONE, 1], [DONE, 2], [DONE, 3], [DONE, 4], [NONE_WILL_DO, 0]];
    assert!(answers.keys().eq(&all), "{answers:?}");
}

/// A fault in a question that would be answered 1.
type Fault = fn(&mut LendPlace);

const FAULTS: [Fault; 23] = [
    |_| {},
    |asked| asked.list.push(1),
    |asked| asked.list = LOOM.numbers().repeat(MAX_ENTRIES + 1),
    |asked| asked.list.extend([MAX_VOLUME + 1, 1, 1, 1]),
    |asked| asked.list.extend([0, MAX_SERIAL + 1, 1, 1]),
    |asked| asked.caller.volume = MAX_VOLUME + 1,
    |asked| asked.caller.serial = MAX_SERIAL + 1,
    |asked| asked.wish.rights |= MAX_RIGHTS + 1,
    |asked| asked.wish.end = asked.wish.start - 1,
    |asked| asked.wish.last_day = MAX_DAY + 1,
    |asked| asked.caller.serial = 99,
    |asked| asked.caller = CARDS.name,
    |asked| asked.list.clear(),
    |asked| asked.list = Key { p2: 0, ..LOOM }.numbers().into(),
    |asked| asked.list = ENDED.numbers().into(),
    |asked| asked.list = ROWS.numbers().into(),
    |asked| asked.wish.rights |= right::SEND,
    |asked| asked.wish.end = MAX_SIZE + 1,
    |asked| asked.wish.end = MAX_WORD,
    |asked| asked.wish.last_day = MAX_DAY,
    |asked| asked.wish.sum = LENT.sum + 1,
    |asked| asked.wish.sum = MAX_WORD,
    |asked| asked.list.extend(CARDS.numbers()),
];

/// Two faults at once, by a caller with cash, one without, and one that is suspended: the reference
/// says which is answered.
#[test]
fn two_faults() {
    let mut random = Random::new(74);
    let pair = lending_hall(&mut random);
    let mut suspended = pair.clone();
    by_boss(&mut suspended, Operation::On(WEAVER, Action::Suspend), &mut random);
    let mut codes = BTreeSet::new();
    for (first, second) in FAULTS.iter().flat_map(|a| FAULTS.iter().map(move |b| (a, b))) {
        for (pair, caller) in [(&pair, BOSS.name), (&pair, WEAVER.name), (&suspended, WEAVER.name)]
        {
            let mut asked = LendPlace { caller, ..lend(&[LOOM], LENT) };
            first(&mut asked);
            second(&mut asked);
            codes.insert(pair.lend(&asked));
        }
    }
    let refused = [OUT_OF_RANGE, NOT_RUNNING, NONE_WILL_DO].map(|code| [code, 0]);
    let done = [[DONE, 1], [DONE, 2]];
    assert_eq!(codes, BTreeSet::from_iter(refused.into_iter().chain(done)));
}

/// A list of every length up to more than 32 entries, all of which will do, only the last whole one,
/// or none.
#[test]
fn lists_of_every_length() {
    let mut random = Random::new(75);
    let pair = lending_hall(&mut random);
    let mut answers = BTreeSet::new();
    for length in 0..=ENTRY_NUMBERS * (MAX_ENTRIES + 3) {
        let whole = length / ENTRY_NUMBERS;
        for last in [0, whole.saturating_sub(1), usize::MAX] {
            let key = |at: usize| if at >= last { LOOM } else { ROWS };
            let mut asked = lend(&[], LENT);
            asked.list = (0..=whole).flat_map(|at| key(at).numbers()).take(length).collect();
            answers.insert(pair.lend(&asked));
        }
    }
    let places = (1..=MAX_ENTRIES as u32).map(|place| [DONE, place]);
    let refused = [[OUT_OF_RANGE, 0], [NONE_WILL_DO, 0]];
    assert_eq!(answers, places.chain(refused).collect());
}

/// Full stores, in which no capability is free, by processes without cash: one question for the most
/// capabilities, of which the last alone will do, and for each one alone.
#[test]
fn full_stores() {
    let mut random = Random::new(76);
    for (objects, shape) in [(1, Shape::Deep), (1, Shape::Wide), (64, Shape::Random)] {
        let store = shaped(objects, 8, MAX_CAPS as u32 / objects, shape, &mut random);
        let pair = Pair { raw: encode(&store, &mut random), store };
        let caller = *pair.store.objects.keys().next().expect("a process");
        let keys = by_depth(&pair.store);
        let wish = Wish { rights: MAX_RIGHTS, start: 0, end: 8, sum: 1_000, last_day: 0 };
        for key in keys.iter().step_by(17) {
            let mut list = vec![Key { p2: !key.p2, ..*key }; MAX_ENTRIES - 1];
            list.push(*key);
            let asked = LendPlace { caller, ..lend(&list, wish) };
            assert_eq!(pair.lend(&asked), [DONE, MAX_ENTRIES as u32], "{key:?}");
            let more = LendPlace { caller, ..lend(&list, Wish { sum: 1_001, ..wish }) };
            assert_eq!(pair.lend(&more), [NONE_WILL_DO, 0], "{key:?}");
        }
    }
}

/// A chain of 512 in which one has less than all others: from those above it more can be lent.
#[test]
fn one_with_less_on_a_chain() {
    let mut random = Random::new(77);
    let whole = shaped(1, 8, MAX_CAPS as u32, Shape::Deep, &mut random);
    let keys = by_depth(&whole);
    let lowest: Vec<Key> = keys.iter().rev().copied().take(MAX_ENTRIES).collect();
    let caller = keys[0].name;
    let wish = Wish { rights: 0, start: 8, end: 8, sum: 1_000, last_day: 0 };
    for at in [0, 1, 2, 100, 255, 256, 509, 510, 511] {
        let mut store = whole.clone();
        let less = store.capabilities.get_mut(&(caller, keys[at].p1)).expect("one of the chain");
        less.moneyword = wish.sum - 1;
        let pair = Pair { raw: encode(&store, &mut random), store };
        for (number, key) in keys.iter().enumerate().skip(at.saturating_sub(2)).take(5) {
            let code = if number < at { DONE } else { NONE_WILL_DO };
            let asked = LendPlace { caller, ..lend(&[*key], wish) };
            assert_eq!(pair.lend(&asked)[0], code, "{number} below {at}");
        }
        let place = (MAX_CAPS - at + 1) as u32;
        let listed = at > 0 && place <= MAX_ENTRIES as u32;
        let expected = if listed { [DONE, place] } else { [NONE_WILL_DO, 0] };
        let asked = LendPlace { caller, ..lend(&lowest, wish) };
        assert_eq!(pair.lend(&asked), expected, "{at}");
    }
}

/// A licence lends up to its last day, by calls; whatever last day is wished.
#[test]
fn a_licence_day_by_day() {
    let mut random = Random::new(78);
    let mut pair = lending_hall(&mut random);
    for (day, code) in [(0, DONE), (9, DONE), (10, DONE), (11, NONE_WILL_DO), (1_000, NONE_WILL_DO)]
    {
        by_boss(&mut pair, Operation::SetDay { day: DAY + day }, &mut random);
        for last_day in [0, DAY, LENT.last_day] {
            let asked = lend(&[LOOM], Wish { last_day, ..LENT });
            assert_eq!(pair.lend(&asked)[0], code, "day {day}");
        }
    }
}

#[test]
fn slices_of_other_lengths() {
    let mut random = Random::new(79);
    let sound = lending_hall(&mut random).raw;
    for resize in RESIZES {
        let mut raw = sound.clone();
        resize(&mut raw);
        for fault in FAULTS {
            let mut asked = lend(&[LOOM], LENT);
            fault(&mut asked);
            assert_eq!(lend_raw(&raw, &asked), [ILL_FORMED, 0], "{asked:?}");
        }
    }
}

/// A request or a reply of another length is 1 on a store that is not well formed, else 2, whatever
/// the list. Nothing is written.
#[test]
fn requests_and_replies_of_other_lengths() {
    let mut random = Random::new(80);
    let sound = lending_hall(&mut random).raw;
    let mut damaged = sound.clone();
    damaged.links.fill(0);
    let asked = lend(&[LOOM], LENT);
    let none = RawStore::default();
    for (raw, code) in [(&sound, OUT_OF_RANGE), (&damaged, ILL_FORMED), (&none, ILL_FORMED)] {
        for list in [&asked.list[..], &asked.list[1..], &[]] {
            for [request, mut reply] in
                other_lengths(&lend_request(&asked), LEND_REPLY, &mut random)
            {
                let replied = reply.clone();
                assert_eq!(kernel::lend(raw, list, &request, &mut reply), code);
                assert!(reply == replied, "written");
            }
        }
    }
}
