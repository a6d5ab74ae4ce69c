//! The verified count of passwords beside the reference: what it answers, and that nothing changes.

use harness::hall::{by_boss, hall, BLIND, BOSS, CARDS, DAY, ROWS, WEAVER};
use harness::kernel;
use harness::lengths::{other_lengths, RESIZES};
use harness::pair::{count_raw, Pair};
use harness::request::{count_request, COUNT_REPLY};
use reference::call::{Action, Name, Operation};
use reference::counting::{passwords_within, PasswordCount};
use reference::kernel::Capability;
use reference::numbers::*;
use std::collections::BTreeSet;
use trials::counts::{Tried, SCENES};
use trials::encode::encode;
use trials::generate::Generator;
use trials::met::Met;
use trials::profiles::{profile, PROFILES};
use trials::random::Random;
use trials::raw::RawStore;
use trials::samples::{damaged_stores_of_runs, shaped, Shape};

/// How many runs of each profile are made.
const RUNS: u64 = 3;

#[test]
fn random_counts() {
    let mut met = Met::new(&SCENES);
    for (seed, profile) in (1..=RUNS).flat_map(|seed| PROFILES.map(|profile| (seed, profile))) {
        Pair::run(profile, seed, &mut |pair, generator, _| {
            for _ in 0..2 {
                let asked = generator.next_count(&pair.store);
                let [code, _] = pair.count(&asked);
                met.note(&Tried::new(&pair.store, &asked), code);
            }
        });
    }
    for (scene, code, count) in met.counts() {
        println!("{code:>2} {scene:40}{count:>8}");
        assert!(count > 10, "not met: {scene}");
    }
}

/// "After 1": on a store that is not well formed nothing else is answered.
#[test]
fn damaged_stores() {
    let faults = profile("faults").expect("a profile");
    let (mut generator, mut random) = (Generator::new(faults, 52), Random::new(52));
    let mut tried = 0;
    damaged_stores_of_runs(20, &mut random, &mut |store, raw, _| {
        assert_eq!(count_raw(&raw, &generator.next_count(store)), [ILL_FORMED, 0]);
        tried += 1;
    });
    assert!(tried > 500, "{tried}");
}

fn count(caller: Name, object: Name, right: u32) -> PasswordCount {
    PasswordCount { caller, object, right }
}

/// A fault in a question that would be answered with a number.
type Fault = fn(&mut PasswordCount);

const FAULTS: [Fault; 9] = [
    |_| {},
    |asked| asked.right = right::NONE,
    |asked| asked.right = MAX_RIGHTS,
    |asked| asked.caller.volume = MAX_VOLUME + 1,
    |asked| asked.caller.serial = MAX_SERIAL + 1,
    |asked| asked.object.serial = MAX_SERIAL + 1,
    |asked| asked.caller.serial = 99,
    |asked| asked.caller = CARDS.name,
    |asked| asked.object.serial = 99,
];

/// Two faults at once, by processes with marks and without: the reference says which is answered.
#[test]
fn two_faults() {
    let mut random = Random::new(53);
    let mut pair = hall(64, &mut random);
    by_boss(&mut pair, Operation::On(WEAVER, Action::Suspend), &mut random);
    let mut answers = BTreeSet::new();
    for (first, second) in FAULTS.iter().flat_map(|a| FAULTS.iter().map(move |b| (a, b))) {
        for caller in [BOSS.name, WEAVER.name] {
            let mut asked = count(caller, CARDS.name, right::READ);
            first(&mut asked);
            second(&mut asked);
            answers.insert(pair.count(&asked));
        }
    }
    // the master and ROWS may read, and one that is expired might
    let all = [[DONE, 0], [DONE, 2], [OUT_OF_RANGE, 0], [NOT_RUNNING, 0]];
    assert_eq!(answers, BTreeSet::from(all));
}

/// Every right, before and after a delete that ends one of the object's three capabilities.
#[test]
fn every_right() {
    let mut random = Random::new(54);
    let mut pair = hall(64, &mut random);
    for right in right::ALL {
        // of ROWS and BLIND each right is held by one; the expired one with all rights is left out
        assert_eq!(pair.count(&count(WEAVER.name, CARDS.name, right)), [DONE, 2]);
    }
    by_boss(&mut pair, Operation::On(BLIND, Action::DeleteCap), &mut random);
    for right in right::ALL {
        let expected = if right == right::READ { 2 } else { 1 };
        assert_eq!(pair.count(&count(WEAVER.name, CARDS.name, right)), [DONE, expected]);
    }
    assert!(pair.store.find(BOSS.name, ROWS).is_some());
}

/// Full stores: every capability of one object, and of each of 64.
#[test]
fn full_stores() {
    let mut random = Random::new(55);
    for (objects, shape) in [(1, Shape::Deep), (1, Shape::Wide), (64, Shape::Random)] {
        let mut store = shaped(objects, 8, 512 / objects, shape, &mut random);
        let whole = |capability: &mut Capability| capability.rights = MAX_RIGHTS;
        store.capabilities.values_mut().for_each(whole);
        let pair = Pair { raw: encode(&store, &mut random), store };
        for name in pair.store.objects.keys() {
            let asked = count(*name, *name, right::REVIVE);
            assert_eq!(pair.count(&asked), [DONE, 512 / objects], "{asked:?}");
        }
    }
}

/// Full stores day by day: what is expired is left out, and nothing else, down to the masters.
#[test]
fn full_stores_day_by_day() {
    let mut random = Random::new(59);
    for (objects, shape) in
        [(1, Shape::Deep), (1, Shape::Wide), (1, Shape::Random), (64, Shape::Random)]
    {
        let mut store = shaped(objects, 8, 512 / objects, shape, &mut random);
        let names: Vec<Name> = store.objects.keys().copied().collect();
        let mut counted = BTreeSet::new();
        for day in (0..=601).chain([MAX_DAY - 600, MAX_DAY - 1, MAX_DAY]) {
            store.day = day;
            let pair = Pair { raw: encode(&store, &mut random), store: store.clone() };
            let name = random.pick(&names).expect("an object");
            let good = store.tree(name).filter(|(_, found)| found.last_day >= day).count() as u32;
            assert_eq!(pair.count(&count(name, name, right::SEND)), [DONE, good], "day {day}");
            counted.insert(good);
        }
        assert!(counted.len() > 2, "{counted:?}");
    }
}

/// A licence is counted up to its last day, by calls: derived, then day by day.
#[test]
fn a_licence_day_by_day() {
    let mut random = Random::new(60);
    let mut pair = hall(64, &mut random);
    let asked = count(WEAVER.name, CARDS.name, right::READ);
    assert_eq!(pair.count(&asked), [DONE, 2]);
    let (limit, last_day) = (MAX_WORD, DAY + 2);
    let derive =
        Action::DeriveCap { mask: MAX_RIGHTS, start: 0, end: 9, limit, last_day, p1: 71, p2: 1 };
    by_boss(&mut pair, Operation::On(CARDS, derive), &mut random);
    // ROWS on this day, the licence up to its last, then the master alone
    for (day, expected) in [(0, 3), (0, 3), (1, 2), (2, 2), (3, 1), (1_000, 1)] {
        by_boss(&mut pair, Operation::SetDay { day: DAY + day }, &mut random);
        assert_eq!(pair.count(&asked), [DONE, expected], "day {day}");
    }
}

/// The library's numbers are those of trying every password of a cut-down space, in which there is a
/// capability for every p1, by a process with one lockword of the space after another.
#[test]
fn every_password_of_a_cut_down_space() {
    let mut random = Random::new(56);
    let space = passwords_within([0xc000_0001, 0x8000_0020]);
    let mut pair = hall(64, &mut random);
    let master = pair.store.capabilities[&(CARDS.name, CARDS.p1)];
    for p1 in space.iter().map(|(p1, _)| *p1) {
        let (_, p2) = random.pick(&space).expect("a password");
        let rights = random.between(0, MAX_RIGHTS);
        let last_day = random.between(DAY - 2, DAY + 3);
        let child = Capability { p2, parent: Some(CARDS.p1), rights, last_day, ..master };
        pair.store.capabilities.insert((CARDS.name, p1), child);
    }
    // the hall's own are outside the space, and of these each right is held by two
    for (first, second) in space.iter().filter(|(first, _)| *first < TOP) {
        let weaver = pair.store.objects.get_mut(&WEAVER.name).expect("a process");
        weaver.lockword = [*first, *second];
        pair.raw = encode(&pair.store, &mut random);
        for right in right::ALL {
            let asked = count(WEAVER.name, CARDS.name, right);
            let counted = asked.among(&pair.store, space.iter().copied()) + 2;
            assert_eq!(pair.count(&asked), [DONE, counted], "{first} {second} {right}");
        }
    }
}

#[test]
fn slices_of_other_lengths() {
    let mut random = Random::new(57);
    let sound = hall(64, &mut random).raw;
    for resize in RESIZES {
        let mut raw = sound.clone();
        resize(&mut raw);
        for fault in FAULTS {
            let mut asked = count(BOSS.name, CARDS.name, right::READ);
            fault(&mut asked);
            assert_eq!(count_raw(&raw, &asked), [ILL_FORMED, 0], "{asked:?}");
        }
    }
}

/// A request or a reply of another length is 1 on a store that is not well formed, else 2. Nothing
/// is written.
#[test]
fn requests_and_replies_of_other_lengths() {
    let mut random = Random::new(58);
    let sound = hall(64, &mut random).raw;
    let mut damaged = sound.clone();
    damaged.links.fill(0);
    let request = count_request(&count(BOSS.name, CARDS.name, right::READ));
    let none = RawStore::default();
    for (raw, code) in [(&sound, OUT_OF_RANGE), (&damaged, ILL_FORMED), (&none, ILL_FORMED)] {
        for [request, mut reply] in other_lengths(&request, COUNT_REPLY, &mut random) {
            let replied = reply.clone();
            assert_eq!(kernel::count(raw, &request, &mut reply), code);
            assert!(reply == replied, "written");
        }
    }
}
