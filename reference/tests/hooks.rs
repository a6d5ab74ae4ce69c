//! 02's patterns by hook on the reference: every bit of a tile, tiles written out, every length;
//! and what a write and a read by hook do.

mod boss;

use boss::{by_boss, pay, BOSS};
use reference::call::{Action, Key, Name, Operation};
use reference::hooks::{turned, Hooked, Transfer, TILE};
use reference::kernel::{Capability, Store};
use reference::numbers::*;

/// Bytes of no pattern.
fn bytes(length: usize) -> Vec<u8> {
    let mut number = 1_u32;
    let mut next = || {
        number = number.wrapping_mul(1_664_525).wrapping_add(1_013_904_223);
        (number >> 24) as u8
    };
    (0..length).map(|_| next()).collect()
}

#[test]
fn each_bit_of_a_tile() {
    for (i, j) in (0..TILE).flat_map(|i| (0..TILE).map(move |j| (i, j))) {
        let (mut tile, mut expected) = ([0; TILE], [0; TILE]);
        tile[i] = 1 << j;
        expected[j] = 1 << i;
        assert_eq!(turned(&tile), expected, "bit {j} of byte {i}");
    }
}

/// Tiles beside what they turn into.
const TILES: [([u8; TILE], [u8; TILE]); 7] = [
    ([0; TILE], [0; TILE]),
    ([255; TILE], [255; TILE]),
    ([255, 0, 0, 0, 0, 0, 0, 0], [1; TILE]),
    ([1, 2, 4, 8, 16, 32, 64, 128], [1, 2, 4, 8, 16, 32, 64, 128]),
    ([1, 3, 7, 15, 31, 63, 127, 255], [255, 254, 252, 248, 240, 224, 192, 128]),
    ([240, 240, 240, 240, 0, 0, 0, 0], [0, 0, 0, 0, 15, 15, 15, 15]),
    ([0, 0, 0, 6, 0, 0, 0, 0], [0, 8, 8, 0, 0, 0, 0, 0]),
];

#[test]
fn tiles_written_out() {
    for (tile, expected) in TILES {
        assert_eq!(turned(&tile), expected);
        assert_eq!(turned(&expected), tile);
    }
    // one behind the other, and a last one that is incomplete
    let (tiles, expected): (Vec<_>, Vec<_>) = TILES.into_iter().unzip();
    let (mut tiles, mut expected) = (tiles.concat(), expected.concat());
    for last in [1, 2, 3, 4, 5, 6, 7] {
        tiles.push(last);
        expected.push(last);
        assert_eq!(turned(&tiles), expected);
    }
}

#[test]
fn every_length() {
    for length in 0..=2 * MAX_TRANSFER as usize {
        let data = bytes(length);
        let once = turned(&data);
        assert_eq!(turned(&once), data, "{length} bytes turned twice");
        let (whole, last) = data.split_at(length / TILE * TILE);
        let each: Vec<u8> = whole.chunks(TILE).flat_map(turned).collect();
        assert_eq!(once, [&each, last].concat(), "{length} bytes tile by tile");
    }
}

/// A data object.
const CARDS: Key = Key { name: Name { volume: 2, serial: 3 }, p1: 21, p2: 22 };
/// A child of its master on the day after its last.
const ENDED: Key = Key { p1: 31, ..CARDS };
const CASH: u32 = 1_000;
/// What a read costs, and a write.
const FEES: [u32; 2] = [1, 2];

fn hall() -> Store {
    let mut store = Store::fresh(CASH, BOSS.p1, BOSS.p2);
    let make = Operation::MakeObj { size: 512, flag: 0, rights: MAX_RIGHTS, drawn: CARDS };
    assert_eq!(store.run(&by_boss(make)).code, DONE);
    let master = store.capabilities[&(CARDS.name, CARDS.p1)];
    let ended = Capability { parent: Some(CARDS.p1), last_day: 0, ..master };
    store.capabilities.insert((ENDED.name, ENDED.p1), ended);
    store.day = 1;
    store
}

fn write(start: u32, data: &[u8]) -> Hooked {
    let transfer = Transfer::Write { data: data.to_vec() };
    Hooked { caller: BOSS.name, key: CARDS, start, end: start + data.len() as u32, transfer }
}

/// The read of the same range.
fn read_back(write: &Hooked) -> Hooked {
    Hooked { transfer: Transfer::Read { buffer: MIN_BUFFER }, ..write.clone() }
}

/// At any offset a write puts there the turned data, whose tiles are its own and not the object's;
/// the read undoes it. Each costs its fee and changes nothing else.
#[test]
fn written_and_read_back() {
    for start in [0, 1, 8, 13, 64, 255, 256] {
        for length in [0, 1, 7, 8, 9, 16, 63, 64, 65, 255, 256] {
            let (data, mut store) = (bytes(length), hall());
            let mut expected = store.clone();
            let write = write(start, &data);
            assert_eq!(write.run(&mut store).code, DONE);
            let object = expected.objects.get_mut(&CARDS.name).expect("an object");
            object.bytes[start as usize..][..length].copy_from_slice(&turned(&data));
            pay(&mut expected, FEES[1]);
            assert!(store == expected, "{length} bytes at {start}");
            let answer = read_back(&write).run(&mut store);
            assert_eq!((answer.code, answer.bytes), (DONE, data));
            pay(&mut expected, FEES[0]);
            assert!(store == expected, "{length} bytes at {start}");
        }
    }
}

/// "Plain reads and writes remain": a plain read finds what a write by hook put there, and a read
/// by hook turns what a plain write did.
#[test]
fn beside_plain_calls() {
    let (mut store, data) = (hall(), bytes(21));
    let (start, end) = (3, 24);
    assert_eq!(write(start, &data).run(&mut store).code, DONE);
    let read = by_boss(Operation::On(CARDS, Action::Read { start, end }));
    assert_eq!(store.run(&read).bytes, turned(&data));
    let plain = Action::Write { start, end, data: data.clone() };
    assert_eq!(store.run(&by_boss(Operation::On(CARDS, plain))).code, DONE);
    assert_eq!(read_back(&write(start, &data)).run(&mut store).bytes, turned(&data));
}

/// A fault in a write or a read by hook.
type Fault = fn(&mut Hooked);

/// Faults with their answers: each is refused as the plain call is.
const FAULTS: [(u32, Fault); 10] = [
    (OUT_OF_RANGE, |hooked| hooked.caller.volume = MAX_VOLUME + 1),
    (OUT_OF_RANGE, |hooked| hooked.key.name.serial = MAX_SERIAL + 1),
    (OUT_OF_RANGE, |hooked| hooked.start = hooked.end + 1),
    (OUT_OF_RANGE, |hooked| hooked.end = hooked.start + MAX_TRANSFER + 1),
    (OUT_OF_RANGE, |hooked| match &mut hooked.transfer {
        Transfer::Write { data } => data.push(0),
        Transfer::Read { buffer } => *buffer -= 1,
    }),
    (NOT_RUNNING, |hooked| hooked.caller = CARDS.name),
    (NOT_FOUND, |hooked| hooked.key.p2 += 1),
    (NOT_FOUND, |hooked| hooked.key.name = BOSS.name),
    (EXPIRED, |hooked| hooked.key = ENDED),
    (OUTSIDE_WINDOW, |hooked| (hooked.start, hooked.end) = (500, 516)),
];

#[test]
fn refused_as_the_plain_calls() {
    let write = write(8, &bytes(16));
    for hooked in [read_back(&write), write] {
        for (code, fault) in FAULTS {
            let mut hooked = hooked.clone();
            fault(&mut hooked);
            let (mut store, mut expected) = (hall(), hall());
            let answer = hooked.run(&mut store);
            assert_eq!(answer.code, code, "{hooked:?}");
            assert_eq!(answer, expected.run(&hooked.unturned()), "{hooked:?}");
            assert!(store == expected, "{hooked:?}");
        }
    }
}
