//! Reads and writes by hook for a store: mostly in the window of a living capability, of every
//! kind of length. Some are spoilt, so that every answer is met.

use crate::generate::Generator;
use crate::met::{Met, Scene};
use reference::hooks::{Hooked, Transfer, TILE};
use reference::kernel::Store;
use reference::numbers::*;

/// The plain calls that they make.
const READ: u32 = 2;
const WRITE: u32 = 3;

impl Generator {
    /// The next read or write by hook for this store.
    pub fn next_hooked(&mut self, store: &Store) -> Hooked {
        self.draw_care();
        let writes = self.random.chance(500);
        let number = if writes { WRITE } else { READ };
        let caller = self.caller(store, number);
        let (target, window) = self.window(store, caller, number);
        let (start, end) = self.tiles(window);
        let key = self.present(store, caller, target);
        let transfer = if writes {
            Transfer::Write { data: self.pattern(start, end) }
        } else {
            Transfer::Read { buffer: self.length(MIN_BUFFER) }
        };
        Hooked { caller, key, start, end, transfer }
    }

    /// A range in a window, anywhere: empty, below a tile, of whole tiles, the longest or any; or
    /// spoilt by faults.
    fn tiles(&mut self, (low, high): (u32, u32)) -> (u32, u32) {
        let (tile, most) = (TILE as u32, MAX_TRANSFER.min(high - low));
        let length = match self.random.below(8) {
            0 => 0,
            1 => self.random.below(tile),
            2 | 3 => tile * self.random.between(0, most / tile),
            4 => MAX_TRANSFER,
            _ => self.random.between(0, most),
        };
        let length = length.min(most);
        let start = self.random.between(low, high - length);
        self.spoilt_range((start, start + length), (low, high))
    }

    /// The data of a write, by faults of another length or longer than any write's.
    fn pattern(&mut self, start: u32, end: u32) -> Vec<u8> {
        let data = self.data(start, end);
        if self.fault() {
            let length = MAX_TRANSFER + self.random.between(1, MAX_TRANSFER);
            return self.random.bytes(length as usize);
        }
        data
    }
}

/// What done reads and writes of some bytes must meet.
pub const LENGTHS: [Scene<Hooked>; 6] = [
    ("less than a tile", DONE, |hooked| tiles(hooked) == 0 && rest(hooked) > 0),
    ("whole tiles", DONE, |hooked| tiles(hooked) > 0 && rest(hooked) == 0),
    ("a last, incomplete tile", DONE, |hooked| tiles(hooked) > 0 && rest(hooked) > 0),
    ("the longest range", DONE, |hooked| length(hooked) == Some(MAX_TRANSFER)),
    ("a tile over a border of blocks", DONE, tile_over_border),
    ("a start that is no multiple of 8", DONE, |hooked| {
        tiles(hooked) > 0 && hooked.start % TILE as u32 != 0
    }),
];

/// What else both must meet on a well-formed store.
const OF_BOTH: [Scene<Hooked>; 10] = [
    ("nothing", DONE, |hooked| length(hooked) == Some(0)),
    ("start after end", OUT_OF_RANGE, |hooked| hooked.start > hooked.end),
    ("too long a range", OUT_OF_RANGE, |hooked| length(hooked) > Some(MAX_TRANSFER)),
    ("a name", OUT_OF_RANGE, |hooked| in_range(hooked) && handed(hooked)),
    ("the caller does not run", NOT_RUNNING, |_| true),
    ("the caller cannot pay", CANNOT_PAY, |_| true),
    ("no such capability", NOT_FOUND, |_| true),
    ("an expired capability", EXPIRED, |_| true),
    ("no right", RIGHT_MISSING, |_| true),
    ("outside the window", OUTSIDE_WINDOW, |_| true),
];

/// What reads alone must meet.
const OF_READS: [Scene<Hooked>; 1] =
    [("a short buffer", OUT_OF_RANGE, |hooked| in_range(hooked) && !handed(hooked))];

/// What writes alone must meet.
const OF_WRITES: [Scene<Hooked>; 3] = [
    ("too short a text", OUT_OF_RANGE, |hooked| in_range(hooked) && text(hooked) < length(hooked)),
    ("too long a text", OUT_OF_RANGE, |hooked| {
        in_range(hooked) && text(hooked) > length(hooked) && text(hooked) <= Some(MAX_TRANSFER)
    }),
    ("a text longer than any write's", OUT_OF_RANGE, |hooked| {
        in_range(hooked) && text(hooked) > Some(MAX_TRANSFER)
    }),
];

/// How often reads and writes met what each must meet.
pub struct MetByHook {
    reads: Met<Hooked>,
    writes: Met<Hooked>,
}

impl Default for MetByHook {
    fn default() -> MetByHook {
        let of = |own: &[Scene<Hooked>]| Met::new(&[&LENGTHS, &OF_BOTH, own]);
        MetByHook { reads: of(&OF_READS), writes: of(&OF_WRITES) }
    }
}

impl MetByHook {
    /// Counts a read or a write and its answer's code.
    pub fn note(&mut self, hooked: &Hooked, code: u32) {
        match &hooked.transfer {
            Transfer::Read { .. } => self.reads.note(hooked, code),
            Transfer::Write { .. } => self.writes.note(hooked, code),
        }
    }

    /// All that must be met, with its answer and its count.
    pub fn counts(&self) -> impl Iterator<Item = (String, u32, u64)> + '_ {
        let each = [("read", &self.reads), ("write", &self.writes)].into_iter();
        each.flat_map(|(what, met)| {
            let named = move |scene| format!("{what}, {scene}");
            met.counts().map(move |(scene, code, count)| (named(scene), code, count))
        })
    }
}

/// How long the range is; none if it starts after its end.
fn length(hooked: &Hooked) -> Option<u32> {
    hooked.end.checked_sub(hooked.start)
}

fn in_range(hooked: &Hooked) -> bool {
    length(hooked).is_some_and(|length| length <= MAX_TRANSFER)
}

/// The whole tiles of the range, and the bytes after them.
fn tiles(hooked: &Hooked) -> u32 {
    length(hooked).unwrap_or(0) / TILE as u32
}

fn rest(hooked: &Hooked) -> u32 {
    length(hooked).unwrap_or(0) % TILE as u32
}

/// Whether a whole tile lies in two blocks.
fn tile_over_border(hooked: &Hooked) -> bool {
    let (tile, block) = (TILE as u32, |at: u32| at / BLOCK_SIZE);
    let starts = (0..tiles(hooked)).map(|at| hooked.start + at * tile);
    starts.into_iter().any(|start| block(start) != block(start + tile - 1))
}

/// How long the text of a write is.
fn text(hooked: &Hooked) -> Option<u32> {
    match &hooked.transfer {
        Transfer::Write { data } => u32::try_from(data.len()).ok(),
        Transfer::Read { .. } => None,
    }
}

/// Whether the text is as long as the range, or the buffer long enough.
fn handed(hooked: &Hooked) -> bool {
    match &hooked.transfer {
        Transfer::Write { .. } => text(hooked) == length(hooked),
        Transfer::Read { buffer } => *buffer >= MIN_BUFFER,
    }
}
