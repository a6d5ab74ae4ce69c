//! Questions of 02's count of passwords for a store: who would present them, for which object and
//! which right. Mostly by a process, whatever its marks, for a living object; some are spoilt, so
//! that every answer is met.

use crate::generate::Generator;
use crate::met::Scene;
use reference::call::Name;
use reference::counting::PasswordCount;
use reference::kernel::{Capability, Object, Store};
use reference::numbers::*;

impl Generator {
    /// The next question for this store.
    pub fn next_count(&mut self, store: &Store) -> PasswordCount {
        self.draw_care();
        let caller = if self.fault() {
            self.name_of(store, |object| !object.process)
        } else {
            self.name_of(store, |object| object.process)
        };
        let own = self.random.chance(50);
        let object = if own { caller } else { self.name_of(store, |_| true) };
        PasswordCount { caller, object, right: self.one_right() }
    }

    /// The name of a wanted object; now and then of none, or out of range.
    pub(crate) fn name_of(&mut self, store: &Store, wanted: impl Fn(&Object) -> bool) -> Name {
        let objects = store.objects.iter().filter(|(_, object)| wanted(object));
        let names: Vec<Name> = objects.map(|(name, _)| *name).collect();
        let name = self.random.pick(&names).unwrap_or_else(|| self.drawn_name());
        if self.fault() {
            self.out_of_range(name)
        } else if self.fault() || self.random.chance(20) {
            self.drawn_name()
        } else {
            name
        }
    }

    /// One of the thirteen, or a number that is none of them.
    fn one_right(&mut self) -> u32 {
        let right = self.random.pick(&right::ALL).unwrap_or(right::NONE);
        if !self.fault() {
            return right;
        }
        match self.random.below(6) {
            0 => right::NONE,
            1 => MAX_RIGHTS,
            2 => MAX_RIGHTS + 1,
            3 => right + MAX_RIGHTS + 1,
            4 => self.random.between(0, u32::MAX),
            _ => right | (right << 1) | 1,
        }
    }
}

/// A question with what the scenes look at.
pub struct Tried {
    asked: PasswordCount,
    caller: Option<Object>,
    object: Option<Object>,
    /// The p1 and the record of each capability of the object.
    tree: Vec<(u32, Capability)>,
    /// The store's day.
    day: u32,
}

impl Tried {
    /// A question that is to be asked of a store.
    pub fn new(store: &Store, asked: &PasswordCount) -> Tried {
        let tree = store.tree(asked.object).map(|(p1, found)| (p1, *found));
        Tried {
            asked: *asked,
            caller: store.objects.get(&asked.caller).cloned(),
            object: store.objects.get(&asked.object).cloned(),
            tree: tree.collect(),
            day: store.day,
        }
    }

    /// Those that have the right, expired or not.
    fn with_right(&self) -> impl Iterator<Item = &(u32, Capability)> {
        let holds = |(_, found): &&(u32, Capability)| found.rights & self.asked.right != 0;
        self.tree.iter().filter(holds)
    }

    /// Those that hold the right on this day.
    fn holding(&self) -> impl Iterator<Item = u32> + '_ {
        let good = self.with_right().filter(|(_, found)| found.last_day >= self.day);
        good.map(|(p1, _)| *p1)
    }

    /// How many have the right and are expired.
    fn expired(&self) -> usize {
        self.with_right().count() - self.count()
    }

    fn count(&self) -> usize {
        self.holding().count()
    }

    fn by(&self, is: fn(&Object) -> bool) -> bool {
        self.caller.as_ref().is_some_and(is)
    }

    fn of(&self, is: fn(&Object) -> bool) -> bool {
        self.object.as_ref().is_some_and(is)
    }

    /// Whether one that holds the right is looked up by another password than its own.
    fn locked(&self) -> bool {
        self.by(|caller| caller.lockword != [0, 0]) && self.holding().any(|p1| p1 >= TOP)
    }

    fn names_fit(&self) -> bool {
        let fits = |name: Name| name.volume <= MAX_VOLUME && name.serial <= MAX_SERIAL;
        fits(self.asked.caller) && fits(self.asked.object)
    }

    fn a_right(&self) -> bool {
        right::ALL.contains(&self.asked.right)
    }
}

/// What answered questions must meet.
const COUNTED: [Scene<Tried>; 22] = [
    ("an absent object", DONE, |tried| tried.object.is_none()),
    ("none", DONE, |tried| tried.object.is_some() && tried.count() == 0),
    ("none of several", DONE, |tried| tried.tree.len() > 1 && tried.count() == 0),
    ("one, the master's", DONE, |tried| tried.tree.len() == 1 && tried.count() == 1),
    ("one of several", DONE, |tried| tried.tree.len() > 1 && tried.count() == 1),
    ("more than ten", DONE, |tried| tried.count() > 10),
    ("all of several", DONE, |tried| tried.count() > 1 && tried.count() == tried.tree.len()),
    ("some of several", DONE, |tried| tried.count() > 1 && tried.count() < tried.tree.len()),
    ("of a data object", DONE, |tried| tried.of(|object| !object.process)),
    ("of another process", DONE, |tried| {
        tried.of(|object| object.process) && tried.asked.object != tried.asked.caller
    }),
    ("of the process itself", DONE, |tried| tried.asked.object == tried.asked.caller),
    ("by a suspended process", DONE, |tried| tried.by(|caller| caller.suspended)),
    ("by a waiting process", DONE, |tried| tried.by(|caller| caller.waiting)),
    ("by a terminated process", DONE, |tried| tried.by(|caller| caller.terminated)),
    ("by a process without cash", DONE, |tried| tried.by(|caller| caller.cash == 0)),
    ("some by another password", DONE, Tried::locked),
    ("with and without a top bit", DONE, |tried| {
        tried.locked() && tried.holding().any(|p1| p1 < TOP)
    }),
    ("one left out that is expired", DONE, |tried| tried.expired() == 1 && tried.count() > 1),
    ("several left out that are expired", DONE, |tried| tried.expired() > 3 && tried.count() > 1),
    ("all but the master's expired", DONE, |tried| tried.expired() > 0 && tried.count() == 1),
    ("one whose last day it is", DONE, |tried| {
        tried.day < MAX_DAY && tried.with_right().any(|(_, found)| found.last_day == tried.day)
    }),
    ("one whose last day was the day before", DONE, |tried| {
        tried.with_right().any(|(_, found)| found.last_day + 1 == tried.day)
    }),
];

/// What refused questions must meet.
const REFUSED: [Scene<Tried>; 12] = [
    ("no right", OUT_OF_RANGE, |tried| tried.asked.right == right::NONE),
    ("two rights or more", OUT_OF_RANGE, |tried| {
        tried.asked.right.count_ones() > 1 && tried.asked.right <= MAX_RIGHTS
    }),
    ("all rights", OUT_OF_RANGE, |tried| tried.asked.right == MAX_RIGHTS),
    ("one more than there are", OUT_OF_RANGE, |tried| tried.asked.right == MAX_RIGHTS + 1),
    ("a right and a higher bit", OUT_OF_RANGE, |tried| {
        tried.asked.right > MAX_RIGHTS && right::ALL.contains(&(tried.asked.right & MAX_RIGHTS))
    }),
    ("a name, the right being one", OUT_OF_RANGE, |tried| tried.a_right() && !tried.names_fit()),
    ("no right, and no such process", OUT_OF_RANGE, |tried| {
        !tried.a_right() && tried.names_fit() && tried.caller.is_none()
    }),
    ("no right, and a data object", OUT_OF_RANGE, |tried| {
        !tried.a_right() && tried.names_fit() && tried.by(|caller| !caller.process)
    }),
    ("no right, and no such object", OUT_OF_RANGE, |tried| {
        !tried.a_right() && tried.names_fit() && tried.object.is_none()
    }),
    ("an absent process", NOT_RUNNING, |tried| tried.caller.is_none()),
    ("a data object as the caller", NOT_RUNNING, |tried| tried.caller.is_some()),
    ("no such object, either", NOT_RUNNING, |tried| tried.object.is_none()),
];

/// Every answer to a question on a well-formed store, with what must not be looked at.
pub const SCENES: [&[Scene<Tried>]; 2] = [&COUNTED, &REFUSED];
