//! Picks of 02's loom drive for a store: mostly of a repeat that fills the window of a living
//! capability, at a place that the repeat has. Some are spoilt, so that every answer is met.

use crate::generate::Generator;
use crate::met::Scene;
use reference::drive::{Pick, Picked, Place, Repeat};
use reference::kernel::Store;
use reference::numbers::*;

/// The call that a pick makes.
const READ: u32 = 2;

impl Generator {
    /// The next pick for this store.
    pub fn next_pick(&mut self, store: &Store) -> Pick {
        self.draw_care();
        let caller = self.caller(store, READ);
        let (target, (start, end)) = self.window(store, caller, READ);
        let repeat = self.repeat(end - start);
        let place = self.place(&repeat);
        let key = self.present(store, caller, target);
        let mut pick = Pick { caller, key, repeat, place, buffer: self.length(MIN_BUFFER) };
        self.spoil(&mut pick);
        pick
    }

    /// A repeat in range whose rows fill a window of this length, or do not by a fault.
    fn repeat(&mut self, window: u32) -> Repeat {
        let rows: Vec<u32> = (1..=MAX_ROW).filter(|row| divides(*row, window)).collect();
        let mut row = self.random.pick(&rows).unwrap_or(1);
        let mut picks = (window / row).max(1);
        if self.fault() {
            picks = self.random.pick(&[1, picks + 1, picks.max(2) - 1, MAX_PICKS]).unwrap_or(1);
        }
        if self.fault() {
            row = self.random.between(1, MAX_ROW);
        }
        Repeat { picks, counts: self.counts(picks), row }
    }

    /// Motor counts for so many picks: none, fewer than picks, a multiple of them, or any.
    fn counts(&mut self, picks: u32) -> u32 {
        match self.random.below(8) {
            0 => 0,
            1 => self.random.below(picks),
            2 => picks * self.random.between(1, MAX_COUNTS / picks),
            3 => MAX_COUNTS,
            _ => self.random.between(0, MAX_COUNTS),
        }
    }

    /// A place in a repeat, often its first or last pick.
    fn place(&mut self, repeat: &Repeat) -> Place {
        let next = match self.random.below(4) {
            0 => 1,
            1 => repeat.picks,
            _ => self.random.between(1, repeat.picks),
        };
        Place::before(next, repeat)
    }

    /// Puts numbers of the repeat and of the place out of range, by faults.
    fn spoil(&mut self, pick: &mut Pick) {
        let Pick { repeat, place, .. } = pick;
        let (last, steps) = (repeat.picks, place.steps);
        let mut outside = |number: &mut u32, least: u32, most: u32| {
            if self.fault() {
                let beyond = [least.wrapping_sub(1), most + 1, MAX_WORD];
                *number = self.random.pick(&beyond).unwrap_or(MAX_WORD);
            }
        };
        outside(&mut repeat.picks, 1, MAX_PICKS);
        outside(&mut repeat.counts, 0, MAX_COUNTS);
        outside(&mut repeat.row, 1, MAX_ROW);
        outside(&mut place.next, 1, last);
        outside(&mut place.steps, steps, steps);
    }

    /// The pick that follows in the repeat after a done one; after some, none does.
    pub fn following(&mut self, pick: &Pick, picked: &Picked) -> Option<Pick> {
        let follows = picked.code == DONE && self.random.chance(600);
        follows.then_some(Pick { place: picked.place, ..*pick })
    }
}

/// Every answer to a pick on a well-formed store, with the edges of each range.
pub const SCENES: [Scene<Pick>; 29] = [
    ("one pick", DONE, |pick| pick.repeat.picks == 1),
    ("no counts", DONE, |pick| pick.repeat.counts == 0),
    ("fewer counts than picks", DONE, |pick| (1..pick.repeat.picks).contains(&pick.repeat.counts)),
    ("a multiple of the picks", DONE, |pick| pick.repeat.counts > 0 && even(pick)),
    ("no multiple of the picks", DONE, |pick| !even(pick)),
    ("the most counts", DONE, |pick| pick.repeat.counts == MAX_COUNTS),
    ("the shortest row", DONE, |pick| pick.repeat.row == 1),
    ("the longest row", DONE, |pick| pick.repeat.row == MAX_ROW),
    ("the first pick of several", DONE, |pick| pick.place.next == 1 && pick.repeat.picks > 1),
    ("the last pick of several", DONE, |pick| {
        pick.place.next == pick.repeat.picks && pick.repeat.picks > 1
    }),
    ("a pick between", DONE, |pick| (2..pick.repeat.picks).contains(&pick.place.next)),
    ("no picks", OUT_OF_RANGE, |pick| pick.repeat.picks == 0),
    ("too many picks", OUT_OF_RANGE, |pick| pick.repeat.picks == MAX_PICKS + 1),
    ("too many counts", OUT_OF_RANGE, |pick| pick.repeat.counts == MAX_COUNTS + 1),
    ("an empty row", OUT_OF_RANGE, |pick| pick.repeat.row == 0),
    ("too long a row", OUT_OF_RANGE, |pick| pick.repeat.row == MAX_ROW + 1),
    ("pick 0", OUT_OF_RANGE, |pick| pick.place.next == 0),
    ("a pick after the last", OUT_OF_RANGE, |pick| {
        pick.place.next.checked_sub(1) == Some(pick.repeat.picks)
    }),
    ("a step too few", OUT_OF_RANGE, |pick| steps_off(pick) == -1),
    ("a step too many", OUT_OF_RANGE, |pick| steps_off(pick) == 1),
    ("a name", OUT_OF_RANGE, |pick| pick.in_range() && pick.buffer >= MIN_BUFFER),
    ("a short buffer", OUT_OF_RANGE, |pick| pick.in_range() && pick.buffer < MIN_BUFFER),
    ("the caller does not run", NOT_RUNNING, |_| true),
    ("the caller cannot pay", CANNOT_PAY, |_| true),
    ("no such capability", NOT_FOUND, |_| true),
    ("an expired capability", EXPIRED, |_| true),
    ("no right to read", RIGHT_MISSING, |_| true),
    ("another length", WRONG_LENGTH, |pick| pick.repeat.picks < MAX_PICKS),
    ("another length, the most picks", WRONG_LENGTH, |pick| pick.repeat.picks == MAX_PICKS),
];

fn divides(part: u32, whole: u32) -> bool {
    whole / part * part == whole
}

/// Whether the counts are a multiple of the picks.
fn even(pick: &Pick) -> bool {
    divides(pick.repeat.picks, pick.repeat.counts)
}

/// How many steps so far are too many, where nothing else is out of range.
fn steps_off(pick: &Pick) -> i64 {
    let next = pick.place.next.max(1);
    let righted = Pick { place: Place::before(next, &pick.repeat), ..*pick };
    if pick.place.next == next && righted.in_range() {
        i64::from(pick.place.steps) - i64::from(righted.place.steps)
    } else {
        0
    }
}
