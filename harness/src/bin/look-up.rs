//! Presents one password to the verified library, by a cap_info (`store_step_unchecked`) and by a
//! pick (`drive_pick_unchecked`, which asks for the window first), for a profiler that counts
//! instructions. `look-up PASSWORD`, which is
//!
//! - `low`, of a capability whose p1 is below 2,147,483,648, as it is stored;
//! - `high`, of the same one in a store where this p1 has its top bit set as well, locked;
//! - `absent-low` and `absent-high`, of none;
//! - `elsewhere`, low and of the same object, in another slot.

use harness::bench::{call, keys, processes};
use harness::kernel::FormedStore;
use harness::request::{pick_request, Request, PICK_REPLY};
use reference::call::{Action, Key, Name, Operation};
use reference::drive::{Pick, Place, Repeat};
use reference::numbers::{DONE, MIN_BUFFER, MIN_SCRATCH, NOT_FOUND, TOP};
use std::env;
use trials::encode::encode;
use trials::layout::{Record, P1};
use trials::random::Random;
use trials::raw::{slots, RawStore};
use trials::samples::Shape;

const CALLER: Name = Name { volume: 0, serial: 0 };
const OBJECT: Name = Name { volume: 3, serial: 3 };
const LOCKWORD: [u32; 2] = [0x2aaa_aaaa, 0x5555_5555];
/// A repeat as long as an object.
const REPEAT: Repeat = Repeat { picks: 4, counts: 100, row: 16 };
const SIZE: u32 = REPEAT.picks * REPEAT.row;

/// The password as the caller presents it for one with its top bit set.
fn locked(key: Key) -> Key {
    Key { p1: key.p1 ^ LOCKWORD[0], p2: key.p2 ^ LOCKWORD[1], ..key }
}

/// The p1 that stands in one slot, with its top bit set.
fn set_top(raw: &mut RawStore, p1: u32) {
    let mut found = slots(Record::Capability).filter(|slot| raw.get(P1, *slot) == p1);
    let slot = found.next().expect("the p1 is in the store");
    assert_eq!(found.next(), None);
    raw.set(P1, slot, p1 | TOP);
}

/// The store, what is presented, and the answer that it gets.
fn case(name: &str) -> (RawStore, Key, u32) {
    let mut store = processes(4, 8, SIZE as usize, Shape::Random);
    store.objects.get_mut(&CALLER).expect("the caller").lockword = LOCKWORD;
    let keys = keys(&store, OBJECT);
    let mut raw = encode(&store, &mut Random::new(3));
    let (low, absent) = (keys[5], Key { p1: keys[5].p1 ^ 1, ..keys[5] });
    let high = |key: Key| Key { p1: key.p1 | TOP, ..key };
    match name {
        "low" => (raw, low, DONE),
        "high" => {
            set_top(&mut raw, low.p1);
            (raw, locked(high(low)), DONE)
        }
        "absent-low" => (raw, absent, NOT_FOUND),
        "absent-high" => (raw, high(absent), NOT_FOUND),
        "elsewhere" => (raw, keys[0], DONE),
        _ => panic!("not a password: {name}"),
    }
}

fn main() {
    let name = env::args().nth(1).expect("which password");
    let (raw, key, code) = case(&name);
    let mut store = FormedStore::new(raw).expect("a well-formed store");
    let (mut buffer, mut scratch) = ([0; MIN_BUFFER], [0; MIN_SCRATCH]);
    let request = Request::new(&call(CALLER, Operation::On(key, Action::CapInfo)), 0);
    assert_eq!(store.step(&request, &mut buffer, &mut scratch)[0], code);
    let place = Place::before(1, &REPEAT);
    let pick = Pick { caller: CALLER, key, repeat: REPEAT, place, buffer: MIN_BUFFER };
    assert_eq!(store.pick(&mut buffer, &pick_request(&pick), &mut [0; PICK_REPLY]), code);
}
