//! 02's loom drive, a product above the store: it uses the store by an ordinary read and by the
//! question for a window alone. Motor counts are exact: i × C / N is never divided, but steps × N
//! is compared with i × C.

use crate::call::{Action, Call, Key, Name, Operation};
use crate::kernel::Store;
use crate::numbers::*;

/// A repeat of the weave.
#[derive(Clone, Copy, Debug, PartialEq, Eq)]
pub struct Repeat {
    /// N, how many picks it has.
    pub picks: u32,
    /// C, the motor counts of the take-up in a whole repeat.
    pub counts: u32,
    /// W, the bytes of a row: what one pick reads.
    pub row: u32,
}

/// Where the drive is in a repeat, which its user keeps between picks.
#[derive(Clone, Copy, Debug, PartialEq, Eq)]
pub struct Place {
    /// The next pick, counted from 1.
    pub next: u32,
    /// The steps so far in this repeat.
    pub steps: u32,
}

/// One pick with everything that is handed over with it.
#[derive(Clone, Copy, Debug, PartialEq, Eq)]
pub struct Pick {
    pub caller: Name,
    /// The capability presented, whose window has the rows.
    pub key: Key,
    pub repeat: Repeat,
    pub place: Place,
    /// Length in bytes of the answer buffer.
    pub buffer: usize,
}

/// The answer to a pick. A refusal has the place that was given, and 0 or empty for the rest.
#[derive(Clone, Debug, PartialEq, Eq)]
pub struct Picked {
    /// `DONE`, or the refusal's number.
    pub code: u32,
    /// The take-up step: motor counts to go for this pick.
    pub step: u32,
    /// Where the drive is after the pick.
    pub place: Place,
    /// The row: what is written at the answer buffer's front.
    pub bytes: Vec<u8>,
}

impl Repeat {
    /// "N picks, 1 to 65,535; C motor counts, 0 to 16,777,215; and W bytes a row, 1 to 64"
    fn in_range(&self) -> bool {
        (1..=MAX_PICKS).contains(&self.picks)
            && self.counts <= MAX_COUNTS
            && (1..=MAX_ROW).contains(&self.row)
    }

    /// Whether so many steps are at most the exact i × C / N.
    fn reaches(&self, pick: u32, steps: u32) -> bool {
        let [picks, counts, pick, steps] = [self.picks, self.counts, pick, steps].map(u64::from);
        steps * picks <= pick * counts
    }

    /// "the whole part of i × C / N" for an i of 0 to N: the most steps that are not above it.
    /// They are at most C, and are found by halving.
    pub fn steps(&self, pick: u32) -> u32 {
        let (mut least, mut most) = (0, self.counts);
        while least < most {
            let middle = most - (most - least) / 2;
            if self.reaches(pick, middle) {
                least = middle;
            } else {
                most = middle - 1;
            }
        }
        least
    }

    /// How long the window must be.
    fn length(&self) -> u32 {
        self.picks * self.row
    }
}

impl Place {
    /// The place before pick 1, which pick N hands back, too.
    pub const START: Place = Place { next: 1, steps: 0 };

    /// The place before a pick, counted from 1, of a repeat.
    pub fn before(pick: u32, repeat: &Repeat) -> Place {
        Place { next: pick, steps: repeat.steps(pick - 1) }
    }
}

impl Pick {
    /// Whether the repeat is in range and has the place. If not, the pick is 2 before the question.
    pub fn in_range(&self) -> bool {
        self.repeat.in_range()
            && (1..=self.repeat.picks).contains(&self.place.next)
            && self.place == Place::before(self.place.next, &self.repeat)
    }

    /// Makes the pick on a store.
    pub fn run(&self, store: &mut Store) -> Picked {
        match self.row(store) {
            Ok((start, end)) => {
                let answer = store.run(&self.read(start, end));
                if answer.code == DONE {
                    self.done(answer.bytes)
                } else {
                    self.refused(answer.code)
                }
            }
            Err(refusal) => self.refused(refusal.number()),
        }
    }

    /// All refusals before the read, or the range of the row: row i − 1 of the window.
    fn row(&self, store: &Store) -> Result<(u32, u32), Refusal> {
        if !self.in_range() {
            return Err(Refusal::OutOfRange);
        }
        let (start, end) = store.window(self.caller, self.key)?;
        if end - start != self.repeat.length() {
            return Err(Refusal::WrongLength);
        }
        let start = start + (self.place.next - 1) * self.repeat.row;
        Ok((start, start + self.repeat.row))
    }

    /// The paid read of a row.
    fn read(&self, start: u32, end: u32) -> Call {
        let operation = Operation::On(self.key, Action::Read { start, end });
        Call { caller: self.caller, operation, buffer: self.buffer, scratch: 0 }
    }

    /// The take-up step of a pick in range, and where the drive is after it.
    pub fn taken_up(&self) -> (u32, Place) {
        let Place { next, steps } = self.place;
        let step = self.repeat.steps(next) - self.repeat.steps(next - 1);
        let place = if next == self.repeat.picks {
            Place::START
        } else {
            Place { next: next + 1, steps: steps + step }
        };
        (step, place)
    }

    fn done(&self, bytes: Vec<u8>) -> Picked {
        let (step, place) = self.taken_up();
        Picked { code: DONE, step, place, bytes }
    }

    fn refused(&self, code: u32) -> Picked {
        Picked { code, step: 0, place: self.place, bytes: Vec::new() }
    }
}
