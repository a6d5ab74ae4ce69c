//! Questions of 02 what can be lent, for a store: mostly by a running process that lists living
//! capabilities, and with a wish around one of these, so that each comparison is met on both of its
//! sides. Some are spoilt, so that every answer is met.

use crate::generate::{limit, Generator};
use crate::met::Scene;
use reference::call::{Key, Name};
use reference::kernel::{Capability, Object, Place, Store};
use reference::lending::{LendPlace, Wish};
use reference::numbers::*;

/// The call that would lend.
const DERIVE_CAP: u32 = 5;

/// The most entries, and how many are many.
const MOST: u32 = MAX_ENTRIES as u32;
const MANY: u32 = 7;

impl Generator {
    /// The next question for this store.
    pub fn next_lend(&mut self, store: &Store) -> LendPlace {
        self.draw_care();
        let caller = self.asker(store);
        let all: Vec<Place> = store.capabilities.keys().copied().collect();
        let about = if self.random.chance(300) {
            self.overdrawn(store, &all)
        } else {
            self.target(store, caller, DERIVE_CAP)
        };
        let mut list = self.listed(store, caller, about, &all).concat();
        if self.fault() || self.random.chance(10) {
            let cut = self.random.between(1, ENTRY_NUMBERS as u32 - 1) as usize;
            list.truncate(list.len().saturating_sub(cut));
        }
        LendPlace { caller, list, wish: self.wish(store, about) }
    }

    /// Who asks: mostly a running process, now and then one with a mark.
    fn asker(&mut self, store: &Store) -> Name {
        let marks: [fn(&Object) -> bool; 3] = [|o| o.suspended, |o| o.waiting, |o| o.terminated];
        match self.random.pick(&marks) {
            Some(mark) if self.random.chance(50) => self.name_of(store, mark),
            _ => self.caller(store, DERIVE_CAP),
        }
    }

    /// One with more money than its master, or than one between the two; if there is none among
    /// some, another.
    fn overdrawn(&mut self, store: &Store, all: &[Place]) -> Option<Place> {
        let between = self.random.chance(700);
        let mut drawn = None;
        for _ in 0..24 {
            drawn = self.random.pick(all);
            let climb = moneywords(store, drawn?);
            let (own, master) = (climb[0], climb[climb.len() - 1]);
            let least = climb.iter().min().copied().unwrap_or(own);
            if if between { least < own.min(master) } else { master < own } {
                break;
            }
        }
        drawn
    }

    /// The entries, with the one that the wish is about somewhere among them; where they are many
    /// it is often the last, and no other is presented rightly.
    fn listed(
        &mut self,
        store: &Store,
        caller: Name,
        about: Option<Place>,
        all: &[Place],
    ) -> Vec<[u32; 4]> {
        let count = match self.random.below(60) {
            0 => 0,
            1 | 2 => MOST,
            3 => MOST + 1,
            4 => self.random.between(MANY, MOST - 1),
            5..=14 => 1,
            _ => self.random.between(2, MANY - 1),
        };
        let last = count >= MANY && self.random.chance(500);
        let at = if last { count - 1 } else { self.random.below(count) };
        let mut entry = |number| {
            let place = if number == at { about } else { self.beside(store, about, all) };
            let mut key = self.present(store, caller, place);
            if number != at && (last || self.random.chance(80)) {
                match self.random.below(4) {
                    0 => key.name = self.drawn_name(),
                    _ => key.p2 ^= 1 << self.random.below(u32::BITS),
                }
            }
            key.numbers()
        };
        (0..count).map(&mut entry).collect()
    }

    /// Another to list: on the climb from that one, which may be itself, of its object, one with
    /// little or with much money, or any.
    fn beside(&mut self, store: &Store, about: Option<Place>, all: &[Place]) -> Option<Place> {
        let near: Vec<Place> = match (about, self.random.below(10)) {
            (Some(place), 0..=2) => store.climb(place),
            (Some((name, _)), 3..=5) => store.tree(name).map(|(p1, _)| (name, p1)).collect(),
            (_, 6) => return self.overdrawn(store, all),
            (_, 7 | 8) => {
                let drawn = (0..16).filter_map(|_| self.random.pick(all));
                return drawn.max_by_key(|place| limit(store, *place));
            }
            _ => return self.random.pick(all),
        };
        self.random.pick(&near)
    }

    /// A wish that this one grants, or one that goes beyond it in one field or two; by faults out
    /// of range.
    fn wish(&mut self, store: &Store, about: Option<Place>) -> Wish {
        let found = about.and_then(|place| Some((place, store.capabilities.get(&place)?)));
        let mut wish = match found {
            Some((place, found)) => {
                let mut wish = self.granted(found, limit(store, place));
                let beyond = [0, 0, 0, 0, 1, 1, 1, 1, 1, 2];
                for _ in 0..self.random.pick(&beyond).unwrap_or(0) {
                    self.go_beyond(&mut wish, store, place, found);
                }
                wish
            }
            None => Wish { rights: 0, start: 0, end: 0, sum: 0, last_day: 0 },
        };
        if self.fault() {
            wish.rights |= MAX_RIGHTS + 1 + self.random.below(2) * TOP;
        }
        if self.fault() {
            wish.end = wish.start;
            wish.start += self.random.between(1, 2);
        }
        if self.fault() {
            wish.last_day = self.day_out_of_range();
        }
        wish
    }

    /// A number: mostly the second of these two, the one below it, or the first, else between them.
    fn up_to(&mut self, low: u32, high: u32) -> u32 {
        match self.random.below(6) {
            0..=2 => high,
            3 => high.saturating_sub(1).max(low),
            4 => low,
            _ => self.random.between(low, high),
        }
    }

    /// What a capability with so much on its climb grants.
    fn granted(&mut self, found: &Capability, least: u32) -> Wish {
        let rights = match self.random.below(6) {
            0..=2 => found.rights,
            3 => found.rights & !(1 << self.random.below(13)),
            4 => found.rights & self.random.between(0, MAX_RIGHTS),
            _ => 0,
        };
        let start = found.end - self.up_to(0, found.end - found.start);
        let end = self.up_to(start, found.end);
        let (sum, last_day) = (self.up_to(0, least), self.up_to(0, found.last_day));
        if self.random.chance(350) {
            // a sum, and little else
            return Wish { rights: 0, start, end: start, sum, last_day: 0 };
        }
        Wish { rights, start, end, sum, last_day }
    }

    /// Goes beyond what a capability has, mostly by one, where there is more; often by the sum where
    /// one above it has too little.
    fn go_beyond(&mut self, wish: &mut Wish, store: &Store, place: Place, found: &Capability) {
        let least = limit(store, place);
        let overdrawn = least < found.moneyword && self.random.chance(600);
        match if overdrawn { 6 } else { self.random.below(10) } {
            0 | 1 => {
                let missing = right::ALL.map(|right| right & !found.rights);
                wish.rights |= self.random.pick(&missing).unwrap_or(0);
            }
            2 => wish.start = found.start.saturating_sub(1),
            3 if self.random.chance(200) => wish.end = MAX_WORD,
            3 => wish.end = found.end + 1,
            4 => wish.last_day = (found.last_day + 1).min(MAX_DAY),
            5 if self.random.chance(500) => (wish.start, wish.end) = (found.end + 1, found.end + 1),
            5 => {
                let before = found.start.saturating_sub(1);
                (wish.start, wish.end) = (before, before);
            }
            6..=8 => wish.sum = least.saturating_add(1),
            _ if self.random.chance(200) => wish.sum = MAX_WORD,
            _ => {
                let moneyword = self.random.pick(&moneywords(store, place)).unwrap_or(0);
                wish.sum = moneyword.saturating_add(self.random.below(2));
            }
        }
    }
}

/// The moneywords from a capability up to its master.
fn moneywords(store: &Store, place: Place) -> Vec<u32> {
    store.climb(place).iter().map(|place| store.moneyword(*place)).collect()
}

/// Why an entry will not do.
#[derive(Clone, Copy, Debug, PartialEq, Eq)]
pub enum Reason {
    Object,
    Password,
    Expired,
    NoDeriving,
    Rights,
    Start,
    End,
    LastDay,
    /// The moneyword of the listed one, of one between it and its master, and of the master.
    Own,
    Middle,
    Master,
}

/// What is out of range.
#[derive(Clone, Copy, Debug, PartialEq, Eq)]
pub enum Outside {
    Caller,
    /// The length of the list, which is no multiple of an entry's, and how many entries it has.
    Length,
    Entries,
    EntryVolume,
    EntrySerial,
    Rights,
    Window,
    LastDay,
}

/// An entry, with the capability that it finds.
struct Entry {
    key: Key,
    found: Option<Capability>,
    /// The moneywords from it up to its master.
    climb: Vec<u32>,
    reasons: Vec<Reason>,
}

/// Those that hold of some with their conditions.
fn held<T: Copy>(conditions: &[(T, bool)]) -> Vec<T> {
    conditions.iter().filter(|(_, holds)| *holds).map(|(what, _)| *what).collect()
}

impl Entry {
    fn new(store: &Store, lockword: [u32; 2], key: Key, wish: &Wish) -> Entry {
        let [first, second] = if key.p1 < TOP { [0, 0] } else { lockword };
        let place = (key.name, key.p1 ^ first);
        let found = store.capabilities.get(&place).filter(|found| found.p2 == key.p2 ^ second);
        let Some(found) = found else {
            let absent = !store.objects.contains_key(&key.name);
            let reasons = vec![if absent { Reason::Object } else { Reason::Password }];
            return Entry { key, found: None, climb: Vec::new(), reasons };
        };
        let climb = moneywords(store, place);
        let (last, rest) = climb.split_last().expect("the listed one");
        let reasons = held(&[
            (Reason::Expired, store.day > found.last_day),
            (Reason::NoDeriving, found.rights & right::DERIVE_CAP == 0),
            (Reason::Rights, wish.rights & !found.rights != 0),
            (Reason::Start, wish.start < found.start),
            (Reason::End, wish.end > found.end),
            (Reason::LastDay, wish.last_day > found.last_day),
            (Reason::Own, climb[0] < wish.sum),
            (Reason::Middle, rest.iter().skip(1).any(|moneyword| *moneyword < wish.sum)),
            (Reason::Master, !rest.is_empty() && *last < wish.sum),
        ]);
        Entry { key, found: Some(*found), climb, reasons }
    }

    fn has(&self, is: impl Fn(&Capability) -> bool) -> bool {
        self.found.as_ref().is_some_and(is)
    }
}

/// A question with what the scenes look at: a second writing, which compares.
pub struct Tried {
    asked: LendPlace,
    caller: Option<Object>,
    entries: Vec<Entry>,
    outside: Vec<Outside>,
    /// The store's day, and whether a capability is free.
    day: u32,
    full: bool,
}

impl Tried {
    /// A question that is to be asked of a store.
    pub fn new(store: &Store, asked: &LendPlace) -> Tried {
        let caller = store.objects.get(&asked.caller).cloned();
        let lockword = caller.as_ref().map_or([0, 0], |caller| caller.lockword);
        let entry = |key| Entry::new(store, lockword, key, &asked.wish);
        Tried {
            entries: asked.entries().map(entry).collect(),
            outside: outside(asked),
            asked: asked.clone(),
            caller,
            day: store.day,
            full: store.capabilities.len() == MAX_CAPS,
        }
    }

    /// The answer's code and its place.
    pub fn answer(&self) -> [u32; 2] {
        let runs = self.by(|c| c.process && !(c.suspended || c.waiting || c.terminated));
        match self.place() {
            _ if !self.outside.is_empty() => [OUT_OF_RANGE, 0],
            _ if !runs => [NOT_RUNNING, 0],
            Some(place) => [DONE, place as u32],
            None => [NONE_WILL_DO, 0],
        }
    }

    fn by(&self, is: impl Fn(&Object) -> bool) -> bool {
        self.caller.as_ref().is_some_and(is)
    }

    /// The place of the first that will do.
    fn place(&self) -> Option<usize> {
        self.entries.iter().position(|entry| entry.reasons.is_empty()).map(|before| before + 1)
    }

    /// Of the first that will do.
    fn lends(&self, is: impl Fn(&Entry, &Capability, &Wish) -> bool) -> bool {
        let first = self.place().map(|place| &self.entries[place - 1]);
        first.is_some_and(|entry| entry.has(|found| is(entry, found, &self.asked.wish)))
    }

    /// Whether one before the first that will do will not for this reason alone.
    fn after(&self, reason: Reason) -> bool {
        self.place().is_some_and(|place| {
            self.entries[..place - 1].iter().any(|entry| entry.reasons == [reason])
        })
    }

    /// Whether all that are listed will not do for this reason alone.
    fn all_by(&self, reason: Reason) -> bool {
        !self.entries.is_empty() && self.entries.iter().all(|entry| entry.reasons == [reason])
    }

    /// The same, and of one of them something more.
    fn by_one(&self, reason: Reason, is: impl Fn(&Entry, &Capability, &Wish) -> bool) -> bool {
        let more = |entry: &Entry| entry.has(|found| is(entry, found, &self.asked.wish));
        self.all_by(reason) && self.entries.iter().any(more)
    }

    /// Whether this alone is out of range, and an entry would do.
    fn only(&self, outside: Outside) -> bool {
        self.outside == [outside] && self.place().is_some()
    }

    /// Of one after the first that will do.
    fn later(&self, is: impl Fn(&Entry) -> bool) -> bool {
        self.place().is_some_and(|place| self.entries[place..].iter().any(is))
    }
}

fn outside(asked: &LendPlace) -> Vec<Outside> {
    let LendPlace { caller, list, wish } = asked;
    let numbers = |at: usize| list.iter().skip(at).step_by(ENTRY_NUMBERS);
    let entries = list.len() / ENTRY_NUMBERS;
    held(&[
        (Outside::Caller, caller.volume > MAX_VOLUME || caller.serial > MAX_SERIAL),
        (Outside::Length, list.len() % ENTRY_NUMBERS > 0),
        (Outside::Entries, entries > MAX_ENTRIES),
        (Outside::EntryVolume, numbers(0).take(entries).any(|volume| *volume > MAX_VOLUME)),
        (Outside::EntrySerial, numbers(1).take(entries).any(|serial| *serial > MAX_SERIAL)),
        (Outside::Rights, wish.rights > MAX_RIGHTS),
        (Outside::Window, wish.start > wish.end),
        (Outside::LastDay, wish.last_day > MAX_DAY),
    ])
}

/// What done questions must meet, of the first that will do.
const LENT: [Scene<Tried>; 25] = [
    ("place 1 of several", DONE, |tried| tried.place() == Some(1) && tried.entries.len() > 1),
    ("place 2", DONE, |tried| tried.place() == Some(2)),
    ("place 5 or later", DONE, |tried| tried.place() >= Some(5)),
    ("place 32", DONE, |tried| tried.place() == Some(MAX_ENTRIES)),
    ("a later one would do, too", DONE, |tried| {
        tried.entries.iter().filter(|entry| entry.reasons.is_empty()).count() > 1
    }),
    ("the same one twice", DONE, |tried| {
        tried.lends(|first, _, _| tried.entries.iter().filter(|e| e.key == first.key).count() > 1)
    }),
    ("just what it has", DONE, |tried| {
        tried.lends(|first, found, wish| {
            let has = (found.rights, found.start, found.end, first.climb[0], found.last_day);
            has == (wish.rights, wish.start, wish.end, wish.sum, wish.last_day)
                && found.parent.is_some()
                && wish.sum > 0
        })
    }),
    ("a right less", DONE, |tried| {
        tried.lends(|_, found, wish| (found.rights ^ wish.rights).count_ones() == 1)
    }),
    ("no rights", DONE, |tried| tried.asked.wish.rights == 0),
    ("a start one later", DONE, |tried| {
        tried.lends(|_, found, wish| wish.start == found.start + 1 && wish.end == found.end)
    }),
    ("an end one earlier", DONE, |tried| {
        tried.lends(|_, found, wish| wish.start == found.start && wish.end + 1 == found.end)
    }),
    ("nothing at the window's start", DONE, |tried| {
        tried.lends(|_, found, wish| {
            wish.end == wish.start && wish.start == found.start && found.start < found.end
        })
    }),
    ("nothing at the window's end", DONE, |tried| {
        tried.lends(|_, found, wish| {
            wish.end == wish.start && wish.end == found.end && found.start < found.end
        })
    }),
    ("all of its own, more above", DONE, |tried| {
        tried.lends(|first, _, wish| {
            let (own, above) = (first.climb[0], &first.climb[1..]);
            own == wish.sum && !above.is_empty() && above.iter().all(|more| *more > own)
        })
    }),
    ("all of one in the middle", DONE, |tried| {
        tried.lends(|first, _, wish| {
            let (last, rest) = first.climb.split_last().expect("the listed one");
            let middle = rest.iter().skip(1).any(|moneyword| *moneyword == wish.sum);
            middle && first.climb[0] > wish.sum && *last > wish.sum
        })
    }),
    ("all of the master, the rest more", DONE, |tried| {
        tried.lends(|first, _, wish| {
            let (last, rest) = first.climb.split_last().expect("the listed one");
            !rest.is_empty() && *last == wish.sum && rest.iter().all(|more| more > last)
        })
    }),
    ("more than half of all there can be", DONE, |tried| tried.asked.wish.sum > TOP),
    ("its last day", DONE, |tried| {
        tried.lends(|_, found, wish| wish.last_day == found.last_day && wish.last_day < MAX_DAY)
    }),
    ("up to a day that is over", DONE, |tried| tried.asked.wish.last_day < tried.day),
    ("on its last day", DONE, |tried| tried.lends(|_, found, _| found.last_day == tried.day)),
    ("from a master", DONE, |tried| tried.lends(|_, found, _| found.parent.is_none())),
    ("from one far below", DONE, |tried| tried.lends(|first, _, _| first.climb.len() > 10)),
    ("by a locked password", DONE, |tried| {
        tried.by(|caller| caller.lockword != [0, 0])
            && tried.lends(|first, _, _| first.key.p1 >= TOP)
    }),
    ("by a process without cash", DONE, |tried| tried.by(|caller| caller.cash == 0)),
    ("no capability free", DONE, |tried| tried.full),
];

/// What done questions must meet before it: one that will not do for one reason alone.
const PASSED_OVER: [Scene<Tried>; 11] = [
    ("after an absent object", DONE, |tried| tried.after(Reason::Object)),
    ("after another password", DONE, |tried| tried.after(Reason::Password)),
    ("after an expired one", DONE, |tried| tried.after(Reason::Expired)),
    ("after one without DERIVE_CAP", DONE, |tried| tried.after(Reason::NoDeriving)),
    ("after one with too few rights", DONE, |tried| tried.after(Reason::Rights)),
    ("after one that starts later", DONE, |tried| tried.after(Reason::Start)),
    ("after one that ends earlier", DONE, |tried| tried.after(Reason::End)),
    ("after one with an earlier last day", DONE, |tried| tried.after(Reason::LastDay)),
    ("after one with too little", DONE, |tried| tried.after(Reason::Own)),
    ("after one with too little between", DONE, |tried| tried.after(Reason::Middle)),
    ("after one whose master has too little", DONE, |tried| tried.after(Reason::Master)),
];

/// What questions must meet where none will do, for one reason alone.
const NONE_OF_THEM: [Scene<Tried>; 24] = [
    ("an empty list", NONE_WILL_DO, |tried| tried.asked.list.is_empty()),
    ("the most entries", NONE_WILL_DO, |tried| tried.entries.len() == MAX_ENTRIES),
    ("an absent object", NONE_WILL_DO, |tried| tried.all_by(Reason::Object)),
    ("another password", NONE_WILL_DO, |tried| tried.all_by(Reason::Password)),
    ("an expired one", NONE_WILL_DO, |tried| tried.all_by(Reason::Expired)),
    ("one expired the day before", NONE_WILL_DO, |tried| {
        tried.by_one(Reason::Expired, |_, found, _| found.last_day + 1 == tried.day)
    }),
    ("no DERIVE_CAP", NONE_WILL_DO, |tried| tried.all_by(Reason::NoDeriving)),
    ("too few rights", NONE_WILL_DO, |tried| tried.all_by(Reason::Rights)),
    ("a right too few", NONE_WILL_DO, |tried| {
        tried.by_one(Reason::Rights, |_, found, wish| {
            (wish.rights & !found.rights).count_ones() == 1
        })
    }),
    ("a start one too early", NONE_WILL_DO, |tried| {
        tried.by_one(Reason::Start, |_, found, wish| wish.start + 1 == found.start)
    }),
    ("nothing before the window", NONE_WILL_DO, |tried| {
        tried.by_one(Reason::Start, |_, _, wish| wish.start == wish.end)
    }),
    ("an end one too late", NONE_WILL_DO, |tried| {
        tried.by_one(Reason::End, |_, found, wish| wish.end == found.end + 1)
    }),
    ("the largest end", NONE_WILL_DO, |tried| tried.asked.wish.end == MAX_WORD),
    ("nothing after the window", NONE_WILL_DO, |tried| {
        tried.by_one(Reason::End, |_, _, wish| wish.start == wish.end)
    }),
    ("a last day one too late", NONE_WILL_DO, |tried| {
        tried.by_one(Reason::LastDay, |_, found, wish| wish.last_day == found.last_day + 1)
    }),
    ("one too much for a master", NONE_WILL_DO, |tried| {
        let one = |entry: &Entry| entry.climb == [tried.asked.wish.sum - 1];
        tried.by_one(Reason::Own, |entry, _, _| one(entry))
    }),
    ("one too much, more above", NONE_WILL_DO, |tried| {
        tried.by_one(Reason::Own, |entry, _, wish| {
            entry.climb.len() > 1 && entry.climb[0] == wish.sum - 1
        })
    }),
    ("the largest sum", NONE_WILL_DO, |tried| tried.asked.wish.sum == MAX_WORD),
    ("too little between", NONE_WILL_DO, |tried| tried.all_by(Reason::Middle)),
    ("one too little between", NONE_WILL_DO, |tried| {
        tried.by_one(Reason::Middle, |entry, _, wish| {
            entry.climb.iter().min() == Some(&(wish.sum - 1))
        })
    }),
    ("too little in the master", NONE_WILL_DO, |tried| tried.all_by(Reason::Master)),
    ("one too little in the master", NONE_WILL_DO, |tried| {
        tried.by_one(Reason::Master, |entry, _, wish| entry.climb.last() == Some(&(wish.sum - 1)))
    }),
    ("several, not all for the same reasons", NONE_WILL_DO, |tried| {
        tried.entries.windows(2).filter(|two| two[0].reasons != two[1].reasons).count() > 2
    }),
    ("no capability free", NONE_WILL_DO, |tried| tried.full),
];

/// What refused questions must meet.
const REFUSED: [Scene<Tried>; 19] = [
    ("the caller's name", OUT_OF_RANGE, |tried| tried.outside == [Outside::Caller]),
    ("a piece of an entry", OUT_OF_RANGE, |tried| tried.only(Outside::Length)),
    ("an entry too many", OUT_OF_RANGE, |tried| tried.only(Outside::Entries)),
    ("an entry's volume", OUT_OF_RANGE, |tried| tried.outside == [Outside::EntryVolume]),
    ("an entry's serial", OUT_OF_RANGE, |tried| tried.outside == [Outside::EntrySerial]),
    ("a volume after one that will do", OUT_OF_RANGE, |tried| {
        tried.only(Outside::EntryVolume) && tried.later(|entry| entry.key.name.volume > MAX_VOLUME)
    }),
    ("a serial after one that will do", OUT_OF_RANGE, |tried| {
        tried.only(Outside::EntrySerial) && tried.later(|entry| entry.key.name.serial > MAX_SERIAL)
    }),
    ("rights", OUT_OF_RANGE, |tried| tried.outside == [Outside::Rights]),
    ("a start after the end", OUT_OF_RANGE, |tried| tried.only(Outside::Window)),
    ("a last day", OUT_OF_RANGE, |tried| tried.outside == [Outside::LastDay]),
    ("the first last day that is none", OUT_OF_RANGE, |tried| {
        tried.outside == [Outside::LastDay] && tried.asked.wish.last_day == MAX_DAY + 1
    }),
    ("a wish, and no entry", OUT_OF_RANGE, |tried| tried.asked.list.is_empty()),
    ("a wish, and a caller that is absent", OUT_OF_RANGE, |tried| {
        tried.caller.is_none() && !tried.outside.contains(&Outside::Caller)
    }),
    ("an absent caller", NOT_RUNNING, |tried| tried.caller.is_none()),
    ("a data object as the caller", NOT_RUNNING, |tried| tried.by(|caller| !caller.process)),
    ("a suspended caller", NOT_RUNNING, |tried| tried.by(|c| c.suspended)),
    ("a waiting caller", NOT_RUNNING, |tried| tried.by(|c| c.waiting)),
    ("a terminated caller", NOT_RUNNING, |tried| tried.by(|c| c.terminated)),
    ("the caller does not run, and none will do", NOT_RUNNING, |tried| tried.place().is_none()),
];

/// Every answer to a question on a well-formed store, for each of its reasons.
pub const SCENES: [&[Scene<Tried>]; 4] = [&LENT, &PASSED_OVER, &NONE_OF_THEM, &REFUSED];
