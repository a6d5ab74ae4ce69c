//! The verified calls beside the reference: the answer, every byte of the buffer and cell of the
//! scratch, and the meaning of the whole store after each call.

use harness::kernel::{self, FormedStore};
use harness::lengths::other_lengths;
use harness::pair::{call_raw, step_raw, Answers, Pair};
use harness::request::{Request, REPLY};
use reference::call::{Action, Answer, Call, Key, Name, Operation, SET_DAY};
use reference::claims::check_ledger;
use reference::kernel::Store;
use reference::ledger::Ledger;
use reference::numbers::*;
use std::collections::BTreeSet;
use trials::coverage::refusals;
use trials::encode::encode;
use trials::generate::Generator;
use trials::layout::{BYTES, LINKS, WORDS};
use trials::oracle::well_formed;
use trials::profiles::PROFILES;
use trials::random::Random;
use trials::raw::RawStore;
use trials::samples::{damaged_stores_of_runs, shaped, Shape};

/// Calls of each half, of which there are two.
const CALLS: u64 = 500_000;
/// After how many calls the ledger is held to the store; after a done delete_cap, always.
const CLAIMS: u32 = 20;

/// A run of each profile from the fresh store, laid out anew now and then, with the ledger
/// beside it: it is fed each call and whether the verified kernel did it.
fn runs(seed: u64, answers: &mut Answers) {
    for profile in PROFILES {
        let mut generator = Generator::new(profile, seed);
        let mut random = Random::new(seed);
        let [supply, p1, p2] = generator.first();
        let mut raw = junk(&mut random);
        assert_eq!(kernel::fresh(supply, [p1, p2], &mut raw), DONE);
        let mut pair = Pair { raw, store: Store::fresh(supply, p1, p2) };
        let mut ledger = Ledger::fresh(p1, p2);
        for at in 0..profile.calls {
            if random.chance(5) {
                pair.raw = encode(&pair.store, &mut random);
            }
            let call = generator.next_call(&pair.store);
            let done = pair.call(&call, &mut random, answers) == DONE;
            ledger.feed(&call, done);
            if at % CLAIMS == 0 || (done && call.operation.number() == 6) {
                check_ledger(&pair.store, &ledger)
                    .unwrap_or_else(|wrong| panic!("{wrong}: {call:?}"));
            }
        }
        assert!(well_formed(&pair.raw));
        check_ledger(&pair.store, &ledger).unwrap_or_else(|wrong| panic!("{wrong}"));
    }
}

fn junk(random: &mut Random) -> RawStore {
    RawStore {
        bytes: random.bytes(BYTES),
        links: (0..LINKS).map(|_| random.bits() as u16).collect(),
        words: (0..WORDS).map(|_| random.bits() as u32).collect(),
    }
}

/// Runs of every other seed until enough calls were made; every reachable pair of call and answer is
/// met.
fn random_calls(first: u64) {
    let mut answers = Answers::new();
    for seed in (first..).step_by(2) {
        if answers.values().sum::<u64>() >= CALLS {
            break;
        }
        runs(seed, &mut answers);
    }
    for number in 0..=SET_DAY {
        for code in refusals(number).into_iter().chain((number > 0).then_some(DONE)) {
            let count = answers.get(&(number, code)).copied().unwrap_or(0);
            println!("call {number} answer {code}: {count}");
            assert!(count > 0, "not met: call {number} answer {code}");
        }
    }
}

#[test]
fn random_calls_of_odd_seeds() {
    random_calls(1);
}

#[test]
fn random_calls_of_even_seeds() {
    random_calls(2);
}

#[test]
fn calls_on_full_stores() {
    let mut random = Random::new(11);
    let mut answers = Answers::new();
    for shape in [Shape::Wide, Shape::Deep, Shape::Random].repeat(4) {
        for objects in [1, 8, 64] {
            let size = (32_768 / objects as usize).min(8_192);
            let mut store = shaped(objects, size, 512 / objects, shape, &mut random);
            for object in store.objects.values_mut() {
                object.cash = 1_000_000;
            }
            let mut pair = Pair { raw: encode(&store, &mut random), store };
            let mut generator = Generator::new(PROFILES[0], random.bits());
            for _ in 0..200 {
                let call = generator.next_call(&pair.store);
                pair.call(&call, &mut random, &mut answers);
            }
        }
    }
}

/// A call on a store that is not well formed is answered 1 and changes nothing, a day out of range or
/// before the store's too.
#[test]
fn calls_on_damaged_stores() {
    let (mut generator, mut random) = (Generator::new(PROFILES[0], 12), Random::new(12));
    let mut refused = 0;
    damaged_stores_of_runs(10, &mut random, &mut |store, mut raw, random| {
        let before = raw.clone();
        let days = [store.day, MAX_DAY, MAX_DAY + 1, store.day.saturating_sub(1)];
        let days = days.map(|day| by_boss(Operation::SetDay { day }));
        for call in days.into_iter().chain([generator.next_call(store)]) {
            let expected = Answer { code: ILL_FORMED, ..Answer::default() };
            assert_eq!(call_raw(&mut raw, &call, &expected, random), expected);
            assert!(raw == before, "changed: {call:?}");
        }
        refused += 1;
    });
    println!("{refused} damaged stores");
    assert!(refused > 1_000);
}

/// The step that is not checked, call by call, beside the one that is: the reply, the buffer, the
/// scratch and the slices. Every call is among them, and every answer but 1.
#[test]
fn unchecked_steps() {
    let mut random = Random::new(17);
    let mut answers = Answers::new();
    for (seed, profile) in (1..=3).flat_map(|seed| PROFILES.map(|profile| (seed, profile))) {
        let mut generator = Generator::new(profile, seed);
        let [supply, p1, p2] = generator.first();
        let store = Store::fresh(supply, p1, p2);
        let mut pair = Pair { raw: encode(&store, &mut random), store };
        let mut formed = FormedStore::new(pair.raw.clone()).expect("a well-formed store");
        for _ in 0..profile.calls {
            let call = generator.next_call(&pair.store);
            let expected = pair.store.clone().run(&call);
            pair.call(&call, &mut random, &mut answers);
            step_raw(&mut formed, &call, &expected, &mut random);
            assert!(*formed.raw() == pair.raw, "otherwise unchecked: {call:?}");
        }
    }
    let met = |of: fn(&(u32, u32)) -> u32| answers.keys().map(of).collect::<BTreeSet<u32>>();
    assert_eq!(met(|(number, _)| *number), (0..=SET_DAY).collect());
    let of_calls = (DONE..=NOT_REVIVABLE).filter(|code| *code != ILL_FORMED);
    assert_eq!(met(|(_, code)| *code), of_calls.chain([EXPIRED, EARLIER_DAY]).collect());
}

/// A request or a reply of another length is 1 on a store that is not well formed, else 2, unchecked
/// too. Nothing is written. So is a request of 20 numbers, as it was before there were days.
#[test]
fn requests_and_replies_of_other_lengths() {
    let mut random = Random::new(18);
    let store = Store::fresh(1_000, 5, 9);
    let sound = encode(&store, &mut random);
    let mut damaged = sound.clone();
    damaged.links.fill(0);
    let key = Key { name: BOSS, p1: 5, p2: 9 };
    for operation in [derive(key, 7), Operation::SetDay { day: 3 }, Operation::Wait] {
        let numbers = Request::new(&by_boss(operation), 0).numbers;
        let mut handed = other_lengths(&numbers, REPLY, &mut random);
        handed.push([numbers[..20].to_vec(), vec![7; REPLY]]);
        let mut formed = FormedStore::new(sound.clone()).expect("a well-formed store");
        for [request, reply] in handed {
            let (lent, worked) = (random.bytes(MIN_BUFFER), vec![3; MIN_SCRATCH]);
            let none = RawStore::default();
            for (raw, code) in [(&sound, OUT_OF_RANGE), (&damaged, ILL_FORMED), (&none, ILL_FORMED)]
            {
                let mut copy = raw.clone();
                let (mut buffer, mut scratch, mut given) =
                    (lent.clone(), worked.clone(), reply.clone());
                let answer =
                    kernel::call_by(&mut copy, &request, &mut buffer, &mut scratch, &mut given);
                assert_eq!(answer, code, "{} numbers", request.len());
                assert!(copy == *raw && given == reply, "written");
                assert!(buffer == lent && scratch == worked, "written");
            }
            let (mut buffer, mut scratch, mut given) = (lent.clone(), worked, reply.clone());
            let answer = formed.step_by(&request, &mut buffer, &mut scratch, &mut given);
            assert_eq!(answer, OUT_OF_RANGE, "{} numbers", request.len());
            assert!(*formed.raw() == sound && given == reply && buffer == lent, "written");
        }
    }
}

const BOSS: Name = Name { volume: 0, serial: 1 };

fn by_boss(operation: Operation) -> Call {
    Call { caller: BOSS, operation, buffer: MIN_BUFFER, scratch: MIN_SCRATCH }
}

/// 62 objects of 8 blocks and one of 16, then capabilities until none is free, then all is
/// deleted again, over and over.
#[test]
fn filled_and_emptied() {
    let mut random = Random::new(13);
    let mut answers = Answers::new();
    let mut raw = junk(&mut random);
    assert_eq!(kernel::fresh(4_000_000, [5, 9], &mut raw), DONE);
    let mut pair = Pair { raw, store: Store::fresh(4_000_000, 5, 9) };
    for _ in 0..6 {
        let masters: Vec<Key> = (2..=64).map(|serial| key(serial, &mut random)).collect();
        let mut code =
            |operation, random: &mut Random| pair.call(&by_boss(operation), random, &mut answers);
        for (at, drawn) in masters.iter().enumerate() {
            let size = if at == 30 { 1_024 } else { 512 };
            let make = Operation::MakeObj { size, flag: 0, rights: MAX_RIGHTS, drawn: *drawn };
            assert_eq!(code(make, &mut random), DONE);
        }
        let more = Operation::MakeObj { size: 0, flag: 0, rights: 1, drawn: key(70, &mut random) };
        assert_eq!(code(more, &mut random), NO_SPACE);
        for at in 0..448 {
            let master = masters[at % masters.len()];
            let derive = derive(master, 1_000_000 + at as u32);
            assert_eq!(code(derive, &mut random), DONE);
        }
        assert_eq!(code(derive(masters[0], 3_000_000), &mut random), NO_SPACE);
        for at in (0..masters.len()).rev() {
            let delete = Operation::On(masters[(at * 5) % masters.len()], Action::DeleteCap);
            assert_eq!(code(delete, &mut random), DONE);
        }
        assert_eq!(pair.store.objects.len(), 1);
        assert!(well_formed(&pair.raw));
    }
}

fn key(serial: u32, random: &mut Random) -> Key {
    let p1 = random.below(1_000_000);
    Key { name: Name { volume: serial % 4, serial }, p1, p2: random.bits() as u32 }
}

fn derive(parent: Key, p1: u32) -> Operation {
    let (mask, start, end, limit, last_day) = (MAX_RIGHTS, 0, 512, MAX_WORD, DEFAULT_LAST_DAY);
    Operation::On(parent, Action::DeriveCap { mask, start, end, limit, last_day, p1, p2: 7 })
}
