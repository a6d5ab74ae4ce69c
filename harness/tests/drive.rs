//! The verified loom drive and the question for a window beside the reference: what they give,
//! every byte of the buffer, and the meaning of the whole store after each pick.

use harness::hall::{by_boss, hall, BLIND, BOSS, CARDS, DAY, ENDED, ENDED_BARE, ROWS, WEAVER};
use harness::kernel::{self, FormedStore};
use harness::lengths::{other_lengths, RESIZES};
use harness::pair::{pick_by, window_raw, Pair};
use harness::request::{pick_request, window_request, PICK_REPLY, WINDOW_REPLY};
use reference::call::{Action, Key, Operation};
use reference::drive::{Pick, Picked, Place, Repeat};
use reference::numbers::*;
use std::collections::{BTreeMap, BTreeSet};
use trials::generate::Generator;
use trials::met::Met;
use trials::picks::SCENES;
use trials::profiles::{profile, PROFILES};
use trials::random::Random;
use trials::raw::RawStore;
use trials::samples::damaged_stores_of_runs;

/// How many runs of each profile are made.
const RUNS: u64 = 3;

/// How often each answer was given.
type Codes = BTreeMap<u32, u64>;

/// A run of each profile with a question and picks after each call.
fn runs(seed: u64, met: &mut Met<Pick>, windows: &mut Codes) {
    for profile in PROFILES {
        Pair::run(profile, seed, &mut |pair, generator, random| {
            let mut next = Some(generator.next_pick(&pair.store));
            while let Some(pick) = next {
                *windows.entry(pair.window(pick.caller, pick.key)).or_default() += 1;
                let picked = pair.pick(&pick, random);
                met.note(&pick, picked.code);
                next = generator.following(&pick, &picked);
            }
        });
    }
}

#[test]
fn random_picks() {
    let (mut met, mut windows) = (Met::new(&[&SCENES]), Codes::new());
    (1..=RUNS).for_each(|seed| runs(seed, &mut met, &mut windows));
    for (scene, code, count) in met.counts() {
        println!("pick {code:>2} {scene:32}{count:>8}");
        assert!(count > 5, "not met: {scene}");
    }
    for code in [DONE, OUT_OF_RANGE, NOT_RUNNING, NOT_FOUND, EXPIRED, RIGHT_MISSING] {
        let count = windows.remove(&code).unwrap_or(0);
        println!("window {code:>2} {count:>8}");
        assert!(count > 50, "not met: {code}");
    }
    assert!(windows.is_empty(), "{windows:?}");
}

/// On a store that is not well formed the question is 1, and so is a pick whose repeat and place are
/// in range, whatever its names, its password and its buffer are; else it is 2. Nothing changes.
/// The pick's code.
fn on_damaged(raw: &mut RawStore, pick: &Pick, random: &mut Random) -> u32 {
    let before = raw.clone();
    assert_eq!(window_raw(raw, pick.caller, pick.key), [ILL_FORMED, 0, 0]);
    let code = if pick.in_range() { ILL_FORMED } else { OUT_OF_RANGE };
    let enter = |buffer: &mut [u8], request: &[u32], reply: &mut [u32]| {
        kernel::pick(raw, buffer, request, reply)
    };
    let refused = Picked { code, step: 0, place: pick.place, bytes: vec![] };
    pick_by(enter, pick, &refused, random);
    assert!(*raw == before, "changed: {pick:?}");
    code
}

#[test]
fn damaged_stores() {
    let faults = profile("faults").expect("a profile");
    let (mut generator, mut random) = (Generator::new(faults, 22), Random::new(22));
    let mut counts = Codes::new();
    damaged_stores_of_runs(20, &mut random, &mut |store, mut raw, random| {
        let code = on_damaged(&mut raw, &generator.next_pick(store), random);
        *counts.entry(code).or_default() += 1;
    });
    println!("{counts:?}");
    assert!(counts.values().all(|count| *count > 100) && counts.len() == 2);
}

/// 640 mm at 20 picks to the centimetre.
const REPEAT: Repeat = Repeat { picks: 64 * 20, counts: 100_003, row: 6 };
const LENGTH: u32 = REPEAT.picks * REPEAT.row;
const PICK: Pick = Pick {
    caller: WEAVER.name,
    key: ROWS,
    repeat: REPEAT,
    place: Place::START,
    buffer: MIN_BUFFER,
};

/// A fault in a pick.
type Fault = fn(&mut Pick);

/// Faults of the repeat and of the place, of the question, the length, and of the read.
const FAULTS: [Fault; 13] = [
    |pick| pick.repeat.picks = 0,
    |pick| pick.repeat.counts = MAX_COUNTS + 1,
    |pick| pick.repeat.row = MAX_ROW + 1,
    |pick| pick.place.next = 0,
    |pick| pick.place.steps += 1,
    |pick| pick.key.name.serial = MAX_SERIAL + 1,
    |pick| pick.caller = CARDS.name,
    |pick| pick.key.p2 += 1,
    |pick| pick.key.p1 = ENDED.p1,
    |pick| pick.key.p1 = ENDED_BARE.p1,
    |pick| pick.key.p1 = BLIND.p1,
    |pick| pick.repeat.row += 1,
    |pick| pick.buffer = MIN_BUFFER - 1,
];

/// Two faults at once, by a caller with cash and by one without: the reference says which is
/// answered, and it is never 4.
#[test]
fn two_faults() {
    let mut random = Random::new(25);
    let mut pair = hall(LENGTH, &mut random);
    let mut codes = BTreeSet::new();
    for (first, second) in FAULTS.iter().flat_map(|a| FAULTS.iter().map(move |b| (a, b))) {
        for caller in [BOSS.name, WEAVER.name] {
            let mut pick = Pick { caller, place: Place::before(4, &REPEAT), ..PICK };
            first(&mut pick);
            second(&mut pick);
            codes.insert(pair.pick(&pick, &mut random).code);
        }
    }
    let all = [OUT_OF_RANGE, NOT_RUNNING, NOT_FOUND, EXPIRED, RIGHT_MISSING, WRONG_LENGTH];
    assert_eq!(codes, BTreeSet::from(all));
}

#[test]
fn slices_of_other_lengths() {
    let mut random = Random::new(26);
    let sound = hall(LENGTH, &mut random).raw;
    for resize in RESIZES {
        let mut raw = sound.clone();
        resize(&mut raw);
        assert_eq!(on_damaged(&mut raw, &PICK, &mut random), ILL_FORMED);
        for fault in FAULTS {
            let mut pick = PICK;
            fault(&mut pick);
            on_damaged(&mut raw, &pick, &mut random);
        }
    }
}

/// A whole repeat on the library, with a refused pick before each that is done. When the weaver has
/// no cash, at first and in the middle, it is revived: the steps total C as if nothing was refused.
#[test]
fn a_repeat_with_refused_picks() {
    let mut random = Random::new(23);
    let mut pair = hall(LENGTH, &mut random);
    let (mut pick, mut total, mut done, mut poor) = (PICK, 0, 0, 0);
    while done < REPEAT.picks {
        let mut spoilt = pick;
        FAULTS[done as usize % FAULTS.len()](&mut spoilt);
        let code = pair.pick(&spoilt, &mut random).code;
        assert!(![DONE, CANNOT_PAY].contains(&code), "{spoilt:?}");
        let mut picked = pair.pick(&pick, &mut random);
        if picked.code == CANNOT_PAY {
            let revive = Action::Revive { sum: REPEAT.picks / 2 };
            by_boss(&mut pair, Operation::On(WEAVER, revive), &mut random);
            picked = pair.pick(&pick, &mut random);
            poor += 1;
        }
        assert_eq!(picked.code, DONE);
        (pick.place, total, done) = (picked.place, total + picked.step, done + 1);
    }
    assert_eq!((pick.place, total, poor), (Place::START, REPEAT.counts, 2));
}

/// The rows' last day goes by in the middle of a repeat: from the next day on picks are refused by 19
/// and not paid for, and the question is; under a new licence the repeat goes on from its place, and
/// the steps total C.
#[test]
fn a_licence_that_ends_in_a_repeat() {
    let mut random = Random::new(27);
    let mut pair = hall(LENGTH, &mut random);
    let new = Key { p1: 71, p2: 72, ..CARDS };
    let (start, end) = pair.store.window(BOSS.name, ROWS).expect("the rows");
    let (mask, limit, last_day) = (right::READ, MAX_WORD, DAY + 30);
    let derive = Action::DeriveCap { mask, start, end, limit, last_day, p1: new.p1, p2: new.p2 };
    by_boss(&mut pair, Operation::On(CARDS, derive), &mut random);
    let (mut pick, mut total) = (Pick { caller: BOSS.name, ..PICK }, 0);
    for at in 0..REPEAT.picks {
        if at == REPEAT.picks / 2 {
            by_boss(&mut pair, Operation::SetDay { day: DAY + 1 }, &mut random);
            assert_eq!(pair.window(pick.caller, pick.key), EXPIRED);
            let refused = pair.pick(&pick, &mut random);
            assert_eq!((refused.code, refused.place), (EXPIRED, pick.place));
            pick.key = new;
        }
        let picked = pair.pick(&pick, &mut random);
        assert_eq!(picked.code, DONE);
        (pick.place, total) = (picked.place, total + picked.step);
    }
    assert_eq!((pick.place, total), (Place::START, REPEAT.counts));
}

/// A request or a reply of another length is 2; by the question, it is 1 on a store that is not well
/// formed. Nothing is written.
#[test]
fn requests_and_replies_of_other_lengths() {
    let mut random = Random::new(24);
    let mut pair = hall(LENGTH, &mut random);
    let pick = Pick { caller: BOSS.name, ..PICK };
    let mut damaged = pair.raw.clone();
    damaged.links.fill(0);
    for (raw, asked) in
        [(&pair.raw, OUT_OF_RANGE), (&damaged, ILL_FORMED), (&RawStore::default(), ILL_FORMED)]
    {
        let numbers = window_request(pick.caller, pick.key);
        for [request, mut reply] in other_lengths(&numbers, WINDOW_REPLY, &mut random) {
            let (before, replied) = (raw.clone(), reply.clone());
            assert_eq!(kernel::window(raw, &request, &mut reply), asked);
            assert!(*raw == before && reply == replied, "written");
        }
        let mut copy = raw.clone();
        unfit(&pick, &mut random, |buffer, request, reply| {
            let code = kernel::pick(&mut copy, buffer, request, reply);
            assert!(copy == *raw, "written");
            code
        });
    }
    let mut formed = FormedStore::new(pair.raw.clone()).expect("a well-formed store");
    unfit(&pick, &mut random, |buffer, request, reply| {
        let code = formed.pick(buffer, request, reply);
        assert!(*formed.raw() == pair.raw, "written");
        code
    });
    // with the right lengths it is done
    assert_eq!(pair.window(pick.caller, pick.key), DONE);
    assert_eq!(pair.pick(&pick, &mut random).code, DONE);
}

/// Makes a pick by a function with requests and replies of other lengths.
fn unfit(
    pick: &Pick,
    random: &mut Random,
    mut enter: impl FnMut(&mut [u8], &[u32], &mut [u32]) -> u32,
) {
    let numbers = pick_request(pick);
    for [request, mut reply] in other_lengths(&numbers, PICK_REPLY, random) {
        let lent = random.bytes(pick.buffer);
        let (mut buffer, replied) = (lent.clone(), reply.clone());
        assert_eq!(enter(&mut buffer, &request, &mut reply), OUT_OF_RANGE);
        assert!(buffer == lent && reply == replied, "written");
    }
}
