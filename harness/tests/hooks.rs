//! Verified reads and writes by hook beside the reference: what they give, every byte of the
//! buffer, and the slices after each; that a read undoes a write; and turning by itself.

use harness::hall::{hall, BLIND, BOSS, CARDS, ENDED, ENDED_BARE, ROWS, WEAVER};
use harness::kernel;
use harness::lengths::{other_lengths, RESIZES};
use harness::pair::{call_raw, enter_hooked, hooked_raw, Answers, Pair};
use harness::request::{hook_request, REPLY};
use reference::call::{Action, Answer, Call, Key, Name, Operation};
use reference::claims::check_ledger;
use reference::hooks::{turned, Hooked, Transfer};
use reference::kernel::{unlocked, Capability, Store};
use reference::ledger::Ledger;
use reference::numbers::*;
use std::collections::BTreeSet;
use trials::encode::encode;
use trials::generate::Generator;
use trials::hooks::{MetByHook, LENGTHS};
use trials::met::Met;
use trials::oracle::well_formed;
use trials::profiles::{profile, Profile, PROFILES};
use trials::random::Random;
use trials::raw::RawStore;
use trials::samples::damaged_stores_of_runs;

/// How many runs of each profile are made.
const RUNS: u64 = 3;
/// The chance in a thousand that the ledger is held to the store after a call; after a done
/// delete_cap it always is.
const CLAIMS: u32 = 50;

/// A run with the ledger beside it, in which a read or a write by hook is its plain call.
struct Run {
    pair: Pair,
    random: Random,
    ledger: Ledger,
    /// The done writes by hook whose object lives on, and of whose bytes none was written since.
    written: Vec<Hooked>,
}

/// What runs met: by reads and writes by hook at random, and by writes that a read undid.
struct Counts {
    met: MetByHook,
    undone: Met<Hooked>,
}

impl Run {
    fn fresh([supply, p1, p2]: [u32; 3], seed: u64) -> Run {
        let (store, mut random) = (Store::fresh(supply, p1, p2), Random::new(seed));
        let pair = Pair { raw: encode(&store, &mut random), store };
        Run { pair, random, ledger: Ledger::fresh(p1, p2), written: vec![] }
    }

    fn call(&mut self, call: &Call) {
        let code = self.pair.call(call, &mut self.random, &mut Answers::new());
        self.book(call, code == DONE);
    }

    fn hooked(&mut self, hooked: &Hooked) -> Answer {
        let answer = self.pair.hooked(hooked, &mut self.random);
        let done = answer.code == DONE;
        self.book(&hooked.plain(), done);
        let writes = matches!(hooked.transfer, Transfer::Write { .. });
        if done && writes && hooked.start < hooked.end {
            self.written.push(hooked.clone());
        }
        answer
    }

    /// Feeds the ledger, holds it to the store now and then, and forgets what was written over and
    /// what has ended.
    fn book(&mut self, call: &Call, done: bool) {
        self.ledger.feed(call, done);
        if self.random.chance(CLAIMS) || (done && call.operation.number() == 6) {
            self.check_claims();
        }
        match &call.operation {
            Operation::On(key, Action::Write { start, end, .. }) if done => {
                let meets = |was: &Hooked| was.start.max(*start) < was.end.min(*end);
                self.written.retain(|was| was.key.name != key.name || !meets(was));
            }
            _ => {}
        }
        let objects = &self.pair.store.objects;
        self.written.retain(|was| objects.contains_key(&was.key.name));
    }

    fn check_claims(&self) {
        let checked = check_ledger(&self.pair.store, &self.ledger);
        checked.unwrap_or_else(|wrong| panic!("{wrong}"));
    }

    /// Reads one of the writes back, which gives its data again; none if nobody can.
    fn read_back(&mut self) -> Option<Hooked> {
        let at = self.random.below(self.written.len() as u32) as usize;
        let was = self.written.get(at)?.clone();
        let read = reading(&self.pair.store, &was, &mut self.random)?;
        let answer = self.hooked(&read);
        let Transfer::Write { data } = &was.transfer else { panic!("no write: {was:?}") };
        assert_eq!((answer.code, &answer.bytes), (DONE, data), "{was:?}");
        Some(was)
    }
}

/// The read by hook of what was written, by any process that can pay and any capability that can
/// read it.
fn reading(store: &Store, was: &Hooked, random: &mut Random) -> Option<Hooked> {
    let callers = store.objects.iter().filter(|(_, object)| object.runs() && object.cash > 0);
    let callers: Vec<(Name, [u32; 2])> = callers.map(|(name, o)| (*name, o.lockword)).collect();
    let (caller, lockword) = random.pick(&callers)?;
    let name = was.key.name;
    let reads = |c: &Capability| {
        !c.expired(store.day) && c.rights & right::READ != 0 && c.sees(was.start, was.end)
    };
    let readers = store.tree(name).filter(|(_, capability)| reads(capability));
    // unlocking twice gives the password again
    let readers: Vec<(u32, u32)> = readers.map(|(p1, c)| unlocked(p1, c.p2, lockword)).collect();
    let (p1, p2) = random.pick(&readers)?;
    let transfer = Transfer::Read { buffer: MIN_BUFFER };
    Some(Hooked { caller, key: Key { name, p1, p2 }, transfer, ..was.clone() })
}

/// A run of a profile, laid out anew now and then: after each call a read or a write by hook, and
/// often one that reads a write back.
fn run(profile: Profile, seed: u64, counts: &mut Counts) {
    let mut generator = Generator::new(profile, seed);
    let mut run = Run::fresh(generator.first(), seed);
    for _ in 0..profile.calls {
        if run.random.chance(20) {
            run.pair.raw = encode(&run.pair.store, &mut run.random);
        }
        run.call(&generator.next_call(&run.pair.store));
        let hooked = generator.next_hooked(&run.pair.store);
        counts.met.note(&hooked, run.hooked(&hooked).code);
        if run.random.chance(500) {
            run.read_back().iter().for_each(|was| counts.undone.note(was, DONE));
        }
    }
    assert!(well_formed(&run.pair.raw));
    run.check_claims();
}

#[test]
fn random_reads_and_writes() {
    let mut counts = Counts { met: MetByHook::default(), undone: Met::new(&[&LENGTHS]) };
    for seed in 1..=RUNS {
        PROFILES.into_iter().for_each(|profile| run(profile, seed, &mut counts));
    }
    for (scene, code, count) in counts.met.counts() {
        println!("{code:>2} {scene:42}{count:>8}");
        assert!(count > 5, "not met: {scene}");
    }
    for (scene, _, count) in counts.undone.counts() {
        println!("undone {scene:38}{count:>8}");
        assert!(count > 100, "not undone: {scene}");
    }
}

/// Where the cards are written and read: at no multiple of 8.
const START: u32 = 203;
/// How long the window is that the hall's other capabilities have.
const LENGTH: u32 = 4_000;

/// A write by hook to the cards.
fn write(data: &[u8]) -> Hooked {
    let end = START + data.len() as u32;
    let transfer = Transfer::Write { data: data.to_vec() };
    Hooked { caller: BOSS.name, key: CARDS, start: START, end, transfer }
}

/// The read of the same range.
fn read(write: &Hooked) -> Hooked {
    Hooked { transfer: Transfer::Read { buffer: MIN_BUFFER }, ..write.clone() }
}

/// A write by hook and a read of the same bytes.
fn both(random: &mut Random) -> [Hooked; 2] {
    let write = write(&random.bytes(21));
    [read(&write), write]
}

/// A plain call on the cards, which gives what is expected.
fn plain(raw: &mut RawStore, action: Action, expected: &Answer, random: &mut Random) {
    let (buffer, scratch) = (MIN_BUFFER, MIN_SCRATCH);
    let call = Call { caller: BOSS.name, operation: Operation::On(CARDS, action), buffer, scratch };
    assert_eq!(call_raw(raw, &call, expected, random), *expected);
}

/// Of every length: a plain read finds the turned bytes that a write by hook put there, and one by
/// hook the text; after a plain write a read by hook turns it.
#[test]
fn beside_plain_calls() {
    let mut random = Random::new(31);
    let mut raw = hall(LENGTH, &mut random).raw;
    let done = Answer::default();
    let with = |bytes: Vec<u8>| Answer { bytes, ..Answer::default() };
    for length in 0..=MAX_TRANSFER as usize {
        let data = random.bytes(length);
        let by_hook = write(&data);
        let Hooked { start, end, .. } = by_hook;
        hooked_raw(&mut raw, &by_hook, &done, &mut random);
        plain(&mut raw, Action::Read { start, end }, &with(turned(&data)), &mut random);
        hooked_raw(&mut raw, &read(&by_hook), &with(data.clone()), &mut random);
        plain(&mut raw, Action::Write { start, end, data: data.clone() }, &done, &mut random);
        hooked_raw(&mut raw, &read(&by_hook), &with(turned(&data)), &mut random);
    }
}

/// A fault in a read or a write by hook.
type Fault = fn(&mut Hooked);

const FAULTS: [Fault; 12] = [
    |hooked| hooked.caller.volume = MAX_VOLUME + 1,
    |hooked| hooked.key.name.serial = MAX_SERIAL + 1,
    |hooked| hooked.start = hooked.end + 1,
    |hooked| hooked.end = hooked.start + MAX_TRANSFER + 1,
    |hooked| match &mut hooked.transfer {
        Transfer::Read { buffer } => *buffer = MIN_BUFFER - 1,
        Transfer::Write { data } => data.push(0),
    },
    |hooked| match &mut hooked.transfer {
        Transfer::Read { buffer } => *buffer = 0,
        Transfer::Write { data } => data.resize(MAX_TRANSFER as usize + 1, 7),
    },
    |hooked| hooked.caller = CARDS.name,
    |hooked| hooked.key.p2 += 1,
    |hooked| hooked.key = ENDED,
    |hooked| hooked.key = ENDED_BARE,
    |hooked| match &hooked.transfer {
        Transfer::Read { .. } => hooked.key = BLIND,
        Transfer::Write { .. } => hooked.key = ROWS,
    },
    |hooked| (hooked.start, hooked.end) = (MAX_SIZE - 20, MAX_SIZE + 1),
];

/// Two faults at once, by a caller with cash and by one without: the reference says which is
/// answered.
#[test]
fn two_faults() {
    let mut random = Random::new(32);
    let pair = hall(LENGTH, &mut random);
    for hooked in both(&mut random) {
        let mut codes = BTreeSet::new();
        for (first, second) in FAULTS.iter().flat_map(|a| FAULTS.iter().map(move |b| (a, b))) {
            for caller in [BOSS.name, WEAVER.name] {
                let mut spoilt = Hooked { caller, ..hooked.clone() };
                first(&mut spoilt);
                second(&mut spoilt);
                codes.insert(pair.clone().hooked(&spoilt, &mut random).code);
            }
        }
        let all = (OUT_OF_RANGE..=OUTSIDE_WINDOW).chain([EXPIRED]);
        assert_eq!(codes, all.collect(), "{hooked:?}");
    }
}

/// On a store that is not well formed all is 1, and nothing changes.
fn on_damaged(raw: &mut RawStore, hooked: &Hooked, random: &mut Random) {
    let before = raw.clone();
    let refused = Answer { code: ILL_FORMED, ..Answer::default() };
    hooked_raw(raw, hooked, &refused, random);
    assert!(*raw == before, "changed: {hooked:?}");
}

#[test]
fn damaged_stores() {
    let faults = profile("faults").expect("a profile");
    let (mut generator, mut random) = (Generator::new(faults, 33), Random::new(33));
    let mut refused = 0;
    damaged_stores_of_runs(20, &mut random, &mut |store, mut raw, random| {
        on_damaged(&mut raw, &generator.next_hooked(store), random);
        refused += 1;
    });
    println!("{refused} damaged stores");
    assert!(refused > 500);
}

#[test]
fn slices_of_other_lengths() {
    let mut random = Random::new(34);
    let sound = hall(LENGTH, &mut random).raw;
    for resize in RESIZES {
        let mut raw = sound.clone();
        resize(&mut raw);
        for hooked in both(&mut random) {
            on_damaged(&mut raw, &hooked, &mut random);
            for fault in FAULTS {
                let mut spoilt = hooked.clone();
                fault(&mut spoilt);
                on_damaged(&mut raw, &spoilt, &mut random);
            }
        }
    }
}

/// A request or a reply of another length is 1 on a store that is not well formed, else 2. Nothing
/// is written.
#[test]
fn requests_and_replies_of_other_lengths() {
    let mut random = Random::new(35);
    let mut pair = hall(LENGTH, &mut random);
    let mut damaged = pair.raw.clone();
    damaged.links.fill(0);
    for hooked in both(&mut random) {
        for (raw, code) in
            [(&pair.raw, OUT_OF_RANGE), (&damaged, ILL_FORMED), (&RawStore::default(), ILL_FORMED)]
        {
            for [request, mut reply] in other_lengths(&hook_request(&hooked), REPLY, &mut random) {
                let lent = random.bytes(MIN_BUFFER);
                let (mut copy, mut buffer, replied) = (raw.clone(), lent.clone(), reply.clone());
                let given = enter_hooked(&mut copy, &hooked, &mut buffer, &request, &mut reply);
                assert_eq!(given, code, "{hooked:?}");
                assert!(copy == *raw && buffer == lent && reply == replied, "written");
            }
        }
        // with the right lengths it is done
        assert_eq!(pair.hooked(&hooked, &mut random).code, DONE);
    }
}

/// Patterns of every length, at every offset to a multiple of 8, within a longer slice.
#[test]
fn turned_in_place() {
    let mut random = Random::new(36);
    for (length, from) in (0..=300).flat_map(|length| (0..8).map(move |from| (length, from))) {
        let mut given = random.bytes(320);
        let mut expected = given.clone();
        let pattern = from..from + length;
        expected[pattern.clone()].copy_from_slice(&turned(&given[pattern.clone()]));
        kernel::turn(&mut given[pattern]);
        assert!(given == expected, "{length} bytes at {from}");
    }
}
