//! A small store whose capabilities are known, made by calls.

use crate::pair::{Answers, Pair};
use reference::call::{Action, Call, Key, Name, Operation};
use reference::kernel::Store;
use reference::numbers::*;
use trials::encode::encode;
use trials::random::Random;

/// The fresh store's process, another that weaves, and the rows.
pub const BOSS: Key = Key { name: Name { volume: 0, serial: 1 }, p1: 5, p2: 9 };
pub const WEAVER: Key = Key { name: Name { volume: 1, serial: 2 }, p1: 11, p2: 12 };
pub const CARDS: Key = Key { name: Name { volume: 2, serial: 3 }, p1: 21, p2: 22 };
pub const ROWS: Key = Key { p1: 31, p2: 32, ..CARDS };
/// The rows without the right to read them.
pub const BLIND: Key = Key { p1: 41, ..ROWS };
/// The rows with all rights and with none, on the day after their last.
pub const ENDED: Key = Key { p1: 51, ..ROWS };
pub const ENDED_BARE: Key = Key { p1: 61, ..ROWS };

/// The store's day, which is the last day of the rows.
pub const DAY: u32 = 90;

/// Where the window of the rows starts.
const START: u32 = 77;

/// The boss does something, which is done.
pub fn by_boss(pair: &mut Pair, operation: Operation, random: &mut Random) {
    let (buffer, scratch) = (MIN_BUFFER, MIN_SCRATCH);
    let call = Call { caller: BOSS.name, operation, buffer, scratch };
    assert_eq!(pair.call(&call, random, &mut Answers::new()), DONE, "{call:?}");
}

/// A weaver without cash, and bytes at random, of which two capabilities that are no masters see so
/// many on this day, and two did so up to the day before.
pub fn hall(length: u32, random: &mut Random) -> Pair {
    let store = Store::fresh(MAX_WORD, BOSS.p1, BOSS.p2);
    let mut pair = Pair { raw: encode(&store, random), store };
    for (drawn, size, flag) in [(WEAVER, 0, 1), (CARDS, MAX_SIZE, 0)] {
        let make = Operation::MakeObj { size, flag, rights: MAX_RIGHTS, drawn };
        by_boss(&mut pair, make, random);
    }
    by_boss(&mut pair, Operation::On(WEAVER, Action::Resume), random);
    for start in (0..MAX_SIZE).step_by(MAX_TRANSFER as usize) {
        let data = random.bytes(MAX_TRANSFER as usize);
        let write = Action::Write { start, end: start + MAX_TRANSFER, data };
        by_boss(&mut pair, Operation::On(CARDS, write), random);
    }
    let (start, end, limit) = (START, START + length, MAX_WORD);
    let derived = [
        (ROWS, right::READ, DAY),
        (BLIND, MAX_RIGHTS & !right::READ, DAY),
        (ENDED, MAX_RIGHTS, DAY - 1),
        (ENDED_BARE, right::NONE, DAY - 1),
    ];
    for (Key { p1, p2, .. }, mask, last_day) in derived {
        let derive = Action::DeriveCap { mask, start, end, limit, last_day, p1, p2 };
        by_boss(&mut pair, Operation::On(CARDS, derive), random);
    }
    by_boss(&mut pair, Operation::SetDay { day: DAY }, random);
    pair
}
