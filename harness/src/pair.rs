//! The verified code and the reference side by side: a call, a question, a pick, a read or write by
//! hook, or a bill is made on both, and all that it gives and leaves is compared.

use crate::kernel::{self, FormedStore};
use crate::request::{
    answer, bill_request, billed, count_request, hook_request, lend_request, pick_request, picked,
    window_request, Request, BILL_REPLY, COUNT_REPLY, LEND_REPLY, PICK_REPLY, REPLY, WINDOW_REPLY,
};
use reference::call::{Answer, Call, Key, Name, Operation};
use reference::counting::PasswordCount;
use reference::drive::{Pick, Picked};
use reference::hooks::{Hooked, Transfer};
use reference::kernel::Store;
use reference::lending::LendPlace;
use reference::numbers::*;
use reference::royalties::{Bill, Billed};
use std::collections::BTreeMap;
use trials::coverage::counted_as;
use trials::encode::encode;
use trials::generate::Generator;
use trials::layout::DAY;
use trials::oracle::well_formed;
use trials::profiles::Profile;
use trials::random::Random;
use trials::raw::{decode, RawStore};

/// How often each call got each answer; unknown numbers stand under 0.
pub type Answers = BTreeMap<(u32, u32), u64>;

/// A raw store and the store that it means.
#[derive(Clone)]
pub struct Pair {
    pub raw: RawStore,
    pub store: Store,
}

/// What refusals leave: 1 to 3 and 20 nothing changed, 4 one byte, the others the fee's two words; a
/// done read leaves those, too.
fn moves_only_the_fee(code: u32, before: &RawStore, after: &RawStore) -> bool {
    let bytes = differences(&before.bytes, &after.bytes);
    let words = differences(&before.words, &after.words);
    before.links == after.links
        && match code {
            ILL_FORMED..=NOT_RUNNING | EARLIER_DAY => bytes == 0 && words == 0,
            CANNOT_PAY => bytes == 1 && words == 0,
            _ => bytes == 0 && words <= 2,
        }
}

/// What a done call 17 leaves: the day's cell, and no other changed.
fn sets_only_the_day(day: u32, before: &RawStore, after: &RawStore) -> bool {
    let mut expected = before.clone();
    expected.set(DAY, 0, day as u16);
    *after == expected
}

fn differences<T: PartialEq>(before: &[T], after: &[T]) -> usize {
    before.iter().zip(after).filter(|(b, a)| b != a).count()
}

/// The scratch after a call: all zero after a done delete_cap or rename_obj.
fn scratch_after(number: u32, code: u32, scratch: &[u16]) -> Vec<u16> {
    if code == DONE && [6, 7].contains(&number) {
        vec![0; scratch.len()]
    } else {
        scratch.to_vec()
    }
}

/// The buffer after a call: the answer's bytes at its front, and no later byte changed.
fn buffer_after(bytes: &[u8], buffer: &[u8]) -> Vec<u8> {
    let mut after = buffer.to_vec();
    after[..bytes.len()].copy_from_slice(bytes);
    after
}

/// The call's request, with anything in what it does not use, a text too.
pub fn request_of(call: &Call, random: &mut Random) -> Request {
    let mut request = Request::new(call, random.bits() as u32);
    if !Request::takes_text(call) && random.chance(300) {
        let length = random.below(MAX_TRANSFER + 50) as usize;
        request.text = random.bytes(length);
    }
    request
}

/// Makes the call on the raw store alone; its answer, with buffer and scratch as `expected` has them.
pub fn call_raw(raw: &mut RawStore, call: &Call, expected: &Answer, random: &mut Random) -> Answer {
    let enter = |request: &Request, buffer: &mut [u8], scratch: &mut [u16]| {
        kernel::call(raw, request, buffer, scratch)
    };
    call_with(enter, call, expected, random)
}

/// Makes the call unchecked, on slices that are well formed: it gives what is expected.
pub fn step_raw(formed: &mut FormedStore, call: &Call, expected: &Answer, random: &mut Random) {
    let enter = |request: &Request, buffer: &mut [u8], scratch: &mut [u16]| {
        formed.step(request, buffer, scratch)
    };
    assert_eq!(call_with(enter, call, expected, random), *expected, "unchecked: {call:?}");
}

fn call_with(
    enter: impl FnOnce(&Request, &mut [u8], &mut [u16]) -> [u32; REPLY],
    call: &Call,
    expected: &Answer,
    random: &mut Random,
) -> Answer {
    let request = request_of(call, random);
    let mut buffer = random.bytes(call.buffer);
    let mut scratch: Vec<u16> = (0..call.scratch).map(|_| random.bits() as u16).collect();
    let (lent, worked) = (buffer.clone(), scratch.clone());
    let reply = enter(&request, &mut buffer, &mut scratch);
    assert!(buffer == buffer_after(&expected.bytes, &lent), "buffer: {call:?}");
    assert!(
        scratch == scratch_after(request.numbers[0], expected.code, &worked),
        "scratch: {call:?}"
    );
    answer(reply, &buffer)
}

/// Asks the raw store alone, which changes nothing: the reply.
fn ask_raw<const N: usize>(
    ask: impl Fn(&RawStore, &[u32], &mut [u32]) -> u32,
    raw: &RawStore,
    request: &[u32],
) -> [u32; N] {
    let before = raw.clone();
    let mut reply = [MAX_WORD; N];
    let code = ask(raw, request, &mut reply);
    assert_eq!(code, reply[0], "the code is returned, too");
    assert!(*raw == before, "changed by a question: {request:?}");
    reply
}

/// Asks the raw store alone for a window: the code, start and end.
pub fn window_raw(raw: &RawStore, caller: Name, key: Key) -> [u32; WINDOW_REPLY] {
    ask_raw(kernel::window, raw, &window_request(caller, key))
}

/// Asks the raw store alone for the number of passwords: the code and the number.
pub fn count_raw(raw: &RawStore, asked: &PasswordCount) -> [u32; COUNT_REPLY] {
    ask_raw(kernel::count, raw, &count_request(asked))
}

/// Asks the raw store alone what can be lent, which changes neither the list nor the request: the
/// code and the place.
pub fn lend_raw(raw: &RawStore, asked: &LendPlace) -> [u32; LEND_REPLY] {
    let (list, request) = (asked.list.clone(), lend_request(asked));
    let ask = |raw: &RawStore, numbers: &[u32], reply: &mut [u32]| {
        kernel::lend(raw, &list, numbers, reply)
    };
    let reply = ask_raw(ask, raw, &request);
    assert!(list == asked.list && request == lend_request(asked), "changed: {asked:?}");
    reply
}

/// Makes the pick by a function that takes the buffer, the request and the reply: it gives what is
/// expected, and leaves every byte of the buffer so.
pub fn pick_by(
    enter: impl FnOnce(&mut [u8], &[u32], &mut [u32]) -> u32,
    pick: &Pick,
    expected: &Picked,
    random: &mut Random,
) {
    let lent = random.bytes(pick.buffer);
    let (mut buffer, mut reply) = (lent.clone(), [MAX_WORD; PICK_REPLY]);
    let code = enter(&mut buffer, &pick_request(pick), &mut reply);
    assert_eq!(code, reply[0], "the code is returned, too");
    assert_eq!(picked(reply, &buffer), *expected, "{pick:?}");
    assert!(buffer == buffer_after(&expected.bytes, &lent), "buffer: {pick:?}");
}

/// Makes a read or a write by hook by a request and a reply of any length: its code. The buffer is
/// for a read alone.
pub fn enter_hooked(
    raw: &mut RawStore,
    hooked: &Hooked,
    buffer: &mut [u8],
    request: &[u32],
    reply: &mut [u32],
) -> u32 {
    match &hooked.transfer {
        Transfer::Read { .. } => kernel::read_by_hook(raw, buffer, request, reply),
        Transfer::Write { data } => kernel::write_by_hook(raw, data, request, reply),
    }
}

/// Makes a read or a write by hook on the raw store alone: it gives what is expected, and leaves
/// every byte of the buffer so.
pub fn hooked_raw(raw: &mut RawStore, hooked: &Hooked, expected: &Answer, random: &mut Random) {
    let lent = random.bytes(hooked.plain().buffer);
    let (mut buffer, mut reply) = (lent.clone(), [MAX_WORD; REPLY]);
    let code = enter_hooked(raw, hooked, &mut buffer, &hook_request(hooked), &mut reply);
    assert_eq!(code, reply[0], "the code is returned, too");
    assert_eq!(answer(reply, &buffer), *expected, "{hooked:?}");
    assert!(buffer == buffer_after(&expected.bytes, &lent), "buffer: {hooked:?}");
}

/// Makes a bill on the raw store alone: it gives what is expected, whatever its reply held.
pub fn bill_raw(raw: &mut RawStore, bill: &Bill, expected: &Billed, random: &mut Random) {
    let mut reply = [(); BILL_REPLY].map(|()| random.bits() as u32);
    let code = kernel::bill(raw, &bill_request(bill), &mut reply);
    assert_eq!(code, reply[0], "the code is returned, too");
    assert_eq!(billed(reply), *expected, "{bill:?}");
}

impl Pair {
    /// A random run of a profile, laid out anew now and then, with something done after each call;
    /// what it leaves is well formed.
    pub fn run(
        profile: Profile,
        seed: u64,
        after: &mut impl FnMut(&mut Pair, &mut Generator, &mut Random),
    ) {
        let (mut generator, mut random) = (Generator::new(profile, seed), Random::new(seed));
        let [supply, p1, p2] = generator.first();
        let store = Store::fresh(supply, p1, p2);
        let mut pair = Pair { raw: encode(&store, &mut random), store };
        for _ in 0..profile.calls {
            if random.chance(20) {
                pair.raw = encode(&pair.store, &mut random);
            }
            let call = generator.next_call(&pair.store);
            pair.call(&call, &mut random, &mut Answers::new());
            after(&mut pair, &mut generator, &mut random);
        }
        assert!(well_formed(&pair.raw));
    }

    /// Makes the call on both, and compares all that it leaves; the answer's code.
    pub fn call(&mut self, call: &Call, random: &mut Random, answers: &mut Answers) -> u32 {
        let before = self.raw.clone();
        let expected = self.store.run(call);
        let given = call_raw(&mut self.raw, call, &expected, random);
        assert_eq!(given, expected, "{call:?}");
        assert!(
            given.code == DONE || moves_only_the_fee(given.code, &before, &self.raw),
            "changed by a refusal: {call:?}"
        );
        if let (Operation::SetDay { day }, DONE) = (&call.operation, given.code) {
            assert!(sets_only_the_day(*day, &before, &self.raw), "changed more: {call:?}");
        }
        assert!(decode(&self.raw).as_ref() == Some(&self.store), "meaning: {call:?}");
        *answers.entry((counted_as(call), given.code)).or_default() += 1;
        given.code
    }

    /// Asks both for a window, and compares; the answer's code.
    pub fn window(&self, caller: Name, key: Key) -> u32 {
        let expected = match self.store.window(caller, key) {
            Ok((start, end)) => [DONE, start, end],
            Err(refusal) => [refusal.number(), 0, 0],
        };
        assert_eq!(window_raw(&self.raw, caller, key), expected, "{caller:?} {key:?}");
        expected[0]
    }

    /// Asks both for the number of passwords, and compares; the answer's code and the number.
    pub fn count(&self, asked: &PasswordCount) -> [u32; COUNT_REPLY] {
        let expected = match asked.ask(&self.store) {
            Ok(count) => [DONE, count],
            Err(refusal) => [refusal.number(), 0],
        };
        assert_eq!(count_raw(&self.raw, asked), expected, "{asked:?}");
        expected
    }

    /// Asks both what can be lent, and compares; the answer's code and the place.
    pub fn lend(&self, asked: &LendPlace) -> [u32; LEND_REPLY] {
        let expected = match asked.ask(&self.store) {
            Ok(place) => [DONE, place],
            Err(refusal) => [refusal.number(), 0],
        };
        assert_eq!(lend_raw(&self.raw, asked), expected, "{asked:?}");
        expected
    }

    /// Makes the pick on both, and on a copy of the slices unchecked, and compares all that it
    /// leaves. No refusal is paid for.
    pub fn pick(&mut self, pick: &Pick, random: &mut Random) -> Picked {
        let before = self.raw.clone();
        let mut formed = FormedStore::new(before.clone()).expect("a well-formed store");
        let expected = pick.run(&mut self.store);
        let raw = &mut self.raw;
        pick_by(
            |buffer, request, reply| kernel::pick(raw, buffer, request, reply),
            pick,
            &expected,
            random,
        );
        pick_by(
            |buffer, request, reply| formed.pick(buffer, request, reply),
            pick,
            &expected,
            random,
        );
        assert!(*formed.raw() == self.raw, "otherwise unchecked: {pick:?}");
        let changes = [DONE, CANNOT_PAY].contains(&expected.code);
        assert!(changes || self.raw == before, "changed by a refusal: {pick:?}");
        assert!(moves_only_the_fee(expected.code, &before, &self.raw), "changed more: {pick:?}");
        assert!(decode(&self.raw).as_ref() == Some(&self.store), "meaning: {pick:?}");
        expected
    }

    /// Makes the read or the write by hook on both, and compares all that it leaves: the slices to
    /// those that the plain call leaves on a copy, where their meaning is compared.
    pub fn hooked(&mut self, hooked: &Hooked, random: &mut Random) -> Answer {
        let mut plain = self.clone();
        let expected = hooked.run(&mut self.store);
        hooked_raw(&mut self.raw, hooked, &expected, random);
        plain.call(&hooked.plain(), random, &mut Answers::new());
        assert!(self.store == plain.store, "otherwise than the plain call: {hooked:?}");
        assert!(self.raw == plain.raw, "slices: {hooked:?}");
        expected
    }

    /// Makes the bill on both, and compares all that it leaves: the slices to those that the plain
    /// withdraw of its sum leaves on a copy, where their meaning is compared. Where the count would
    /// pass there is none, and nothing changes.
    pub fn bill(&mut self, bill: &Bill, random: &mut Random) -> Billed {
        let mut plain = self.clone();
        let expected = bill.run(&mut self.store);
        bill_raw(&mut self.raw, bill, &expected, random);
        if let Some(total) = bill.total() {
            plain.call(&bill.withdraw(bill.sum(total)), random, &mut Answers::new());
        }
        assert!(self.store == plain.store, "otherwise than the plain call: {bill:?}");
        assert!(self.raw == plain.raw, "slices: {bill:?}");
        expected
    }
}
