//! 02's loom drive on the reference: the question, whole repeats, each range's both sides, the
//! order of the answers, and what a pick leaves.

mod boss;

use boss::{by_boss, pay, BOSS};
use reference::call::{Action, Key, Name, Operation};
use reference::drive::{Pick, Picked, Place, Repeat};
use reference::kernel::{Capability, Object, Store};
use reference::numbers::*;

/// A data object of the largest size.
const CARDS: Key = Key { name: Name { volume: MAX_VOLUME, serial: MAX_SERIAL }, p1: 11, p2: 12 };
/// A capability of it, whose window has the rows.
const ROWS: Key = Key { p1: 21, p2: 22, ..CARDS };
/// The same without the right to read, and the same two on the day after their last.
const BLIND: Key = Key { p1: 31, ..ROWS };
const ENDED: Key = Key { p1: 41, ..ROWS };
const ENDED_BLIND: Key = Key { p1: 51, ..ROWS };
/// The store's day.
const DAY: u32 = 100;
/// The window starts here, unless it is too long for that.
const START: u32 = 100;

const CASH: u32 = 1_000_000;
/// What a read costs.
const FEE: u32 = 1;
/// 640 mm at 20 picks to the centimetre.
const PICKS_OF_640_MM: u32 = 64 * 20;

/// A store with so long a window; the four capabilities that have it are children of the master.
fn hall(length: u32) -> Store {
    let mut store = Store::fresh(CASH, BOSS.p1, BOSS.p2);
    let make = Operation::MakeObj { size: MAX_SIZE, flag: 0, rights: MAX_RIGHTS, drawn: CARDS };
    let start = START.min(MAX_SIZE - length);
    let derive = Action::DeriveCap {
        mask: MAX_RIGHTS,
        start,
        end: start + length,
        limit: MAX_WORD,
        last_day: DAY,
        p1: ROWS.p1,
        p2: ROWS.p2,
    };
    for operation in [make, Operation::On(CARDS, derive)] {
        assert_eq!(store.run(&by_boss(operation)).code, DONE);
    }
    object(&mut store, CARDS).bytes = (0..MAX_SIZE).map(byte).collect();
    let blind = Capability { rights: MAX_RIGHTS & !right::READ, ..*rows(&mut store) };
    let ended = Capability { last_day: DAY - 1, ..*rows(&mut store) };
    let both = Capability { last_day: DAY - 1, ..blind };
    for (key, capability) in [(BLIND, blind), (ENDED, ended), (ENDED_BLIND, both)] {
        store.capabilities.insert((key.name, key.p1), capability);
    }
    store.day = DAY;
    store
}

/// The byte at a place of the object.
fn byte(at: u32) -> u8 {
    (at % 251) as u8
}

fn object(store: &mut Store, key: Key) -> &mut Object {
    store.objects.get_mut(&key.name).expect("an object")
}

fn rows(store: &mut Store) -> &mut Capability {
    store.capabilities.get_mut(&(ROWS.name, ROWS.p1)).expect("a capability")
}

/// A repeat by its N, C and W.
fn repeat(picks: u32, counts: u32, row: u32) -> Repeat {
    Repeat { picks, counts, row }
}

fn pick(repeat: Repeat, place: Place) -> Pick {
    Pick { caller: BOSS.name, key: ROWS, repeat, place, buffer: MIN_BUFFER }
}

/// A pick that is refused with this code changes nothing and hands back the place that it was
/// given.
fn refuses(store: &mut Store, pick: &Pick, code: u32) {
    let before = store.clone();
    let picked = pick.run(store);
    assert_eq!(picked, refused(pick, code), "{pick:?}");
    assert!(*store == before, "changed: {pick:?}");
}

fn refused(pick: &Pick, code: u32) -> Picked {
    Picked { code, step: 0, place: pick.place, bytes: vec![] }
}

/// "the repeat's steps up to it lie below the exact i × C / N by less than one count, or equal it"
fn near(repeat: Repeat, pick: u32, steps: u32) -> bool {
    let [picks, counts, pick, steps] = [repeat.picks, repeat.counts, pick, steps].map(u64::from);
    steps * picks <= pick * counts && pick * counts < (steps + 1) * picks
}

/// Makes the next pick, which is done: it reads its row, pays for it, and takes the steps near to
/// the exact count. Where the drive is then, and the step.
fn follows(store: &mut Store, repeat: Repeat, place: Place) -> (Place, u32) {
    let mut expected = store.clone();
    let picked = pick(repeat, place).run(store);
    assert_eq!(picked.code, DONE, "{repeat:?} {place:?}");
    let start = rows(store).start + (place.next - 1) * repeat.row;
    let row: Vec<u8> = (start..start + repeat.row).map(byte).collect();
    assert_eq!(picked.bytes, row, "{repeat:?} {place:?}");
    pay(&mut expected, FEE);
    assert!(*store == expected, "changed more: {repeat:?} {place:?}");
    let steps = place.steps + picked.step;
    assert!(near(repeat, place.next, steps), "{repeat:?} {place:?} {steps}");
    let last = place.next == repeat.picks;
    let after = Place { next: place.next + 1, steps };
    assert_eq!(picked.place, if last { Place { next: 1, steps: 0 } } else { after });
    (picked.place, picked.step)
}

/// Repeats by N, C and W: the shortest, without counts, with fewer counts than picks, with a
/// multiple of them, in a window of the largest size, and of 640 mm.
const REPEATS: [(u32, u32, u32); 16] = [
    (1, 0, 1),
    (1, 1, MAX_ROW),
    (1, MAX_COUNTS, MAX_ROW),
    (2, MAX_COUNTS, 3),
    (100, 0, 8),
    (100, 1, 8),
    (100, 99, 8),
    (100, 100, 8),
    (100, 101, 8),
    (100, 700, 8),
    (3, MAX_COUNTS, 1),
    (128, 1_000, MAX_ROW),
    (128, 128 * 131_071, MAX_ROW),
    (MAX_SIZE, 12_345, 1),
    (MAX_SIZE, MAX_COUNTS, 1),
    (PICKS_OF_640_MM, 100_003, 6),
];

/// Each repeat twice on end: its steps total C, and its last pick hands back the first.
#[test]
fn whole_repeats() {
    for (picks, counts, row) in REPEATS {
        let repeat = repeat(picks, counts, row);
        let mut store = hall(picks * row);
        for _ in 0..2 {
            let (mut place, mut total) = (Place::START, 0);
            for _ in 0..picks {
                let (after, step) = follows(&mut store, repeat, place);
                (place, total) = (after, total + step);
            }
            assert_eq!((place, total), (Place::START, counts), "{repeat:?}");
        }
    }
}

/// The longest repeat is right in every step, though no window is so long.
#[test]
fn the_longest_repeat() {
    let n = MAX_PICKS;
    for counts in [0, 1, n - 1, n, n + 1, 256 * n, 256 * n - 1, MAX_COUNTS] {
        let repeat = repeat(n, counts, 1);
        let wrong = (0..=n).find(|pick| !near(repeat, *pick, repeat.steps(*pick)));
        assert_eq!(wrong, None, "{repeat:?}");
        assert_eq!((repeat.steps(0), repeat.steps(n)), (0, counts));
        for row in [1, MAX_ROW] {
            let repeat = Repeat { row, ..repeat };
            for next in [1, 2, n] {
                let place = Place::before(next, &repeat);
                refuses(&mut hall(MAX_SIZE), &pick(repeat, place), WRONG_LENGTH);
            }
        }
    }
}

/// What the first pick of a repeat answers where the window has this length.
fn first(length: u32, picks: u32, counts: u32, row: u32, code: u32) {
    let (mut store, repeat) = (hall(length), repeat(picks, counts, row));
    if code == DONE {
        follows(&mut store, repeat, Place::START);
    } else {
        refuses(&mut store, &pick(repeat, Place::START), code);
    }
}

#[test]
fn ranges_of_a_repeat() {
    // N; an empty window is 0 × W bytes long
    first(0, 0, 0, MAX_ROW, OUT_OF_RANGE);
    first(MAX_ROW, 1, 0, MAX_ROW, DONE);
    first(MAX_SIZE, MAX_PICKS, 0, 1, WRONG_LENGTH);
    for picks in [MAX_PICKS + 1, 1 << 26, MAX_WORD] {
        first(MAX_SIZE, picks, 0, 1, OUT_OF_RANGE);
        first(0, picks, 0, MAX_ROW, OUT_OF_RANGE);
    }
    // C
    first(30, 10, 0, 3, DONE);
    first(30, 10, MAX_COUNTS, 3, DONE);
    first(30, 10, MAX_COUNTS + 1, 3, OUT_OF_RANGE);
    first(30, 10, MAX_WORD, 3, OUT_OF_RANGE);
    // W
    first(0, 10, 7, 0, OUT_OF_RANGE);
    first(10, 10, 7, 1, DONE);
    first(10 * MAX_ROW, 10, 7, MAX_ROW, DONE);
    first(10 * (MAX_ROW + 1), 10, 7, MAX_ROW + 1, OUT_OF_RANGE);
    first(MAX_ROW + 1, 1, 7, MAX_ROW + 1, OUT_OF_RANGE);
    first(MAX_SIZE, 1, 7, MAX_WORD, OUT_OF_RANGE);
}

/// Every place of a repeat is in range with its own steps alone, and no other place is.
#[test]
fn ranges_of_a_place() {
    for counts in [0, 7, 10, 37, MAX_COUNTS] {
        let repeat = repeat(10, counts, 3);
        for next in 1..=10 {
            let place = Place::before(next, &repeat);
            follows(&mut hall(30), repeat, place);
            let steps = place.steps;
            for steps in [steps.wrapping_sub(1), steps + 1, steps + (1 << 31)] {
                refuses(&mut hall(30), &pick(repeat, Place { next, steps }), OUT_OF_RANGE);
            }
        }
        for steps in [0, counts] {
            for next in [0, 11, MAX_WORD] {
                refuses(&mut hall(30), &pick(repeat, Place { next, steps }), OUT_OF_RANGE);
            }
        }
    }
}

/// "17, the window is not N × W bytes long": by one byte, one row or one pick.
#[test]
fn lengths_of_the_window() {
    for length in [0, 1, 27, 29, 31, 33, 40, MAX_SIZE] {
        first(length, 10, 7, 3, WRONG_LENGTH);
    }
    first(30, 10, 7, 3, DONE);
}

/// A fault in a pick.
type Fault = fn(&mut Pick);

/// Faults with their answers, in the order of the answers: those of the repeat and of the place, of
/// the question, the length, and of the read.
const FAULTS: [(u32, Fault); 12] = [
    (OUT_OF_RANGE, |pick| pick.repeat.picks = 0),
    (OUT_OF_RANGE, |pick| pick.repeat.counts = MAX_COUNTS + 1),
    (OUT_OF_RANGE, |pick| pick.repeat.row = MAX_ROW + 1),
    (OUT_OF_RANGE, |pick| pick.place.next = 0),
    (OUT_OF_RANGE, |pick| pick.place.steps += 1),
    (OUT_OF_RANGE, |pick| pick.key.name.volume = MAX_VOLUME + 1),
    (NOT_RUNNING, |pick| pick.caller = CARDS.name),
    (NOT_FOUND, |pick| pick.key.p2 += 1),
    (EXPIRED, |pick| pick.key.p1 = ENDED.p1),
    // with the fault before it, it is both
    (RIGHT_MISSING, |pick| {
        let ended = pick.key.p1 == ENDED.p1;
        pick.key.p1 = if ended { ENDED_BLIND.p1 } else { BLIND.p1 };
    }),
    (WRONG_LENGTH, |pick| pick.repeat.row += 1),
    (OUT_OF_RANGE, |pick| pick.buffer = MIN_BUFFER - 1),
];

/// Any faults at once, each two among them, with cash and without: the first is answered, and 4,
/// which comes last, alone changes the store.
#[test]
fn order_of_answers() {
    let repeat = repeat(10, 37, 3);
    for chosen in 0_usize..1 << FAULTS.len() {
        let faults = (0..FAULTS.len()).filter(|at| chosen >> at & 1 == 1).map(|at| FAULTS[at]);
        let mut pick = pick(repeat, Place::before(4, &repeat));
        faults.clone().for_each(|(_, fault)| fault(&mut pick));
        let first = faults.map(|(code, _)| code).next();
        for cash in [FEE - 1, CASH] {
            let mut store = hall(30);
            object(&mut store, BOSS).cash = cash;
            match first {
                Some(code) => refuses(&mut store, &pick, code),
                None if cash < FEE => terminates(&mut store, &pick),
                None => assert_eq!(pick.run(&mut store).code, DONE),
            }
        }
    }
}

/// A pick that cannot be paid for is refused, and its caller becomes terminated.
fn terminates(store: &mut Store, pick: &Pick) {
    let mut expected = store.clone();
    object(&mut expected, BOSS).terminated = true;
    assert_eq!(pick.run(store), refused(pick, CANNOT_PAY));
    assert!(*store == expected, "changed more: {pick:?}");
}

/// The caller runs again, with so much cash.
fn revive(store: &mut Store, cash: u32) {
    let boss = object(store, BOSS);
    (boss.terminated, boss.cash) = (false, cash);
}

/// With cash for one pick that is done, the next is 4, and the one after it 3. When the caller is
/// revived, the drive goes on from where it was.
#[test]
fn a_pick_that_cannot_be_paid() {
    let (mut store, repeat) = (hall(30), repeat(10, 37, 3));
    object(&mut store, BOSS).cash = FEE;
    let (place, _) = follows(&mut store, repeat, Place::START);
    terminates(&mut store, &pick(repeat, place));
    refuses(&mut store, &pick(repeat, place), NOT_RUNNING);
    revive(&mut store, FEE);
    follows(&mut store, repeat, place);
}

/// 640 mm with a refused pick before each that is done, and with an end of the cash in the middle:
/// the steps total C as if there were none.
#[test]
fn a_repeat_with_refused_picks() {
    let repeat = repeat(PICKS_OF_640_MM, 100_003, 6);
    let mut store = hall(repeat.picks * repeat.row);
    let (mut place, mut total) = (Place::START, 0);
    for at in 0..PICKS_OF_640_MM as usize {
        let (code, fault) = FAULTS[at % FAULTS.len()];
        let mut spoilt = pick(repeat, place);
        fault(&mut spoilt);
        refuses(&mut store, &spoilt, code);
        if at == PICKS_OF_640_MM as usize / 2 {
            object(&mut store, BOSS).cash = FEE - 1;
            terminates(&mut store, &pick(repeat, place));
            revive(&mut store, CASH);
        }
        let (after, step) = follows(&mut store, repeat, place);
        (place, total) = (after, total + step);
    }
    assert_eq!((place, total), (Place::START, repeat.counts));
}

/// What the question answers.
fn asked(store: &Store, key: Key) -> Result<(u32, u32), u32> {
    store.window(BOSS.name, key).map_err(Refusal::number)
}

#[test]
fn windows() {
    let mut store = hall(30);
    assert_eq!(asked(&store, ROWS), Ok((START, START + 30)));
    assert_eq!(asked(&store, CARDS), Ok((0, MAX_SIZE)));
    assert_eq!(asked(&store, BOSS), Ok((0, 0)), "an empty window");
    object(&mut store, BOSS).cash = 0;
    assert_eq!(asked(&store, ROWS), Ok((START, START + 30)), "it is free");
    for (rights, found) in [(right::READ, true), (MAX_RIGHTS & !right::READ, false), (0, false)] {
        rows(&mut store).rights = rights;
        let expected = if found { Ok((START, START + 30)) } else { Err(RIGHT_MISSING) };
        assert_eq!(asked(&store, ROWS), expected, "rights {rights}");
    }
    for key in [
        Key { p1: ROWS.p1 + 1, ..ROWS },
        Key { p2: ROWS.p2 + 1, ..ROWS },
        Key { name: BOSS.name, ..ROWS },
        Key { name: Name { volume: MAX_VOLUME, serial: 0 }, ..ROWS },
    ] {
        assert_eq!(asked(&store, key), Err(NOT_FOUND), "{key:?}");
    }
}

/// "19, .. right after 5 in every call and in the drive's window question": from the day after the
/// last day on, whatever the rights.
#[test]
fn days_of_the_question() {
    let mut store = hall(30);
    assert_eq!(asked(&store, ENDED), Err(EXPIRED));
    assert_eq!(asked(&store, ENDED_BLIND), Err(EXPIRED), "19 before 6");
    assert_eq!(asked(&store, Key { p2: 0, ..ENDED }), Err(NOT_FOUND), "5 before 19");
    assert_eq!(store.window(CARDS.name, ENDED), Err(Refusal::NotRunning), "3 before 19");
    assert_eq!(asked(&store, ROWS), Ok((START, START + 30)), "on its last day");
    store.day = DAY + 1;
    assert_eq!(asked(&store, ROWS), Err(EXPIRED));
    assert_eq!(asked(&store, BLIND), Err(EXPIRED));
    assert_eq!(asked(&store, CARDS), Ok((0, MAX_SIZE)), "a master");
    store.day = MAX_DAY;
    assert_eq!(asked(&store, CARDS), Ok((0, MAX_SIZE)), "a master");
}

/// The two names out of range; a name at the end of each range is in it.
#[test]
fn names_of_the_question() {
    let store = hall(30);
    let name = |volume, serial| Name { volume, serial };
    let beyond =
        [name(MAX_VOLUME + 1, 1), name(MAX_WORD, 1), name(0, MAX_SERIAL + 1), name(0, MAX_WORD)];
    for name in beyond {
        assert_eq!(store.window(name, ROWS), Err(Refusal::OutOfRange), "{name:?}");
        let key = Key { name, ..ROWS };
        assert_eq!(store.window(BOSS.name, key), Err(Refusal::OutOfRange), "{name:?}");
        assert_eq!(store.window(CARDS.name, key), Err(Refusal::OutOfRange), "2 before 3");
    }
    let wrong = Key { p2: 0, ..ROWS };
    assert_eq!(store.window(CARDS.name, wrong), Err(Refusal::NotRunning), "3 before 5");
    assert_eq!(store.window(CARDS.name, ROWS), Err(Refusal::NotRunning), "a data object");
    assert_eq!(store.window(name(1, 1), ROWS), Err(Refusal::NotRunning), "absent");
}

#[test]
fn callers_of_the_question() {
    let marks: [fn(&mut Object); 3] =
        [|boss| boss.suspended = true, |boss| boss.waiting = true, |boss| boss.terminated = true];
    for mark in marks {
        let mut store = hall(30);
        mark(object(&mut store, BOSS));
        assert_eq!(asked(&store, ROWS), Err(NOT_RUNNING));
    }
    // a locked caller presents what is unlocked for it, where the top bit says so
    let mut store = hall(30);
    let record = *rows(&mut store);
    store.capabilities.insert((ROWS.name, TOP + 3), record);
    let lockword = [6, 7];
    object(&mut store, BOSS).lockword = lockword;
    let high = Key { p1: TOP + 3, ..ROWS };
    let locked = Key { p1: high.p1 ^ lockword[0], p2: high.p2 ^ lockword[1], ..high };
    assert_eq!(asked(&store, locked), Ok((START, START + 30)));
    assert_eq!(asked(&store, high), Err(NOT_FOUND));
    assert_eq!(asked(&store, ROWS), Ok((START, START + 30)));
}
