//! 02's question what can be lent, which is free: "the place, counted from 1, of the first one in
//! its list from which some derive_cap gives a capability with exactly those rights, window and
//! last day and the sum as moneyword, every moneyword from the listed one up to its master being at
//! least the sum".
//!
//! Some derive_cap is looked for by trying: calls are made on a copy of the store, and the child
//! that each one gives is held to the wish and taken away again. The arguments tried are the wish's
//! own numbers and those beside them, which are few; in a cut-down space, where all are tried, they
//! find a child where all do.

use crate::call::{Action, Call, Key, Name, Operation};
use crate::kernel::{in_range, refuse_if, Capability, Place, Store};
use crate::numbers::*;
use std::collections::BTreeSet;

/// What derive_cap is tried with: mask, start, end, limit and last day.
type Arguments = [u32; 5];

/// "a wish: rights, a window with start at most end, a sum and a last day"
#[derive(Clone, Copy, Debug, PartialEq, Eq)]
pub struct Wish {
    pub rights: u32,
    pub start: u32,
    pub end: u32,
    pub sum: u32,
    pub last_day: u32,
}

/// A number and those beside it, up to the largest.
fn around(number: u32, largest: u32) -> Vec<u32> {
    let beside = [Some(number), number.checked_sub(1), number.checked_add(1)];
    beside.into_iter().flatten().filter(|number| *number <= largest).collect()
}

/// Rights, the same with one less and with one more, and all.
fn masks(rights: u32) -> Vec<u32> {
    let fewer = rights & rights.saturating_sub(1);
    let more = (rights | (rights + 1)) & MAX_RIGHTS;
    vec![rights, fewer, more, MAX_RIGHTS]
}

impl Wish {
    fn in_range(&self) -> bool {
        self.rights <= MAX_RIGHTS && self.start <= self.end && self.last_day <= MAX_DAY
    }

    /// What is tried: its own numbers first, then all others of each with those of the rest.
    fn arguments(&self) -> Vec<Arguments> {
        let numbers = [
            masks(self.rights),
            around(self.start, MAX_WORD),
            around(self.end, MAX_WORD),
            around(self.sum, MAX_WORD),
            around(self.last_day, MAX_DAY),
        ];
        let mut all = vec![[0; 5]];
        for (at, numbers) in numbers.iter().enumerate() {
            let each = |before: &Arguments| {
                let mut arguments = *before;
                numbers.iter().map(move |number| {
                    arguments[at] = *number;
                    arguments
                })
            };
            all = all.iter().flat_map(each).collect();
        }
        all
    }

    /// Whether a child has "exactly those rights, window and last day and the sum as moneyword".
    fn is(&self, child: &Capability) -> bool {
        let wished = (self.rights, self.start, self.end, self.sum, self.last_day);
        wished == (child.rights, child.start, child.end, child.moneyword, child.last_day)
    }
}

/// The question, with everything that is handed over with it.
#[derive(Clone, Debug, PartialEq, Eq)]
pub struct LendPlace {
    /// "A mill's process, as caller"
    pub caller: Name,
    /// "up to 32 capabilities that it holds", in numbers: volume, serial, p1 and p2 of each.
    pub list: Vec<u32>,
    pub wish: Wish,
}

impl LendPlace {
    /// The entries of the list, as they are presented.
    pub fn entries(&self) -> impl Iterator<Item = Key> + '_ {
        self.list.chunks_exact(ENTRY_NUMBERS).map(|entry| {
            let name = Name { volume: entry[0], serial: entry[1] };
            Key { name, p1: entry[2], p2: entry[3] }
        })
    }

    /// "a longer list, or an entry or a wish out of range, is 2", and so is half an entry.
    fn in_range(&self) -> bool {
        let whole = self.list.len().is_multiple_of(ENTRY_NUMBERS);
        let names = in_range(self.caller) && self.entries().all(|entry| in_range(entry.name));
        whole && self.entries().count() <= MAX_ENTRIES && names && self.wish.in_range()
    }

    /// A copy to try on. "Free records, fees and drawn numbers are not considered": the caller has
    /// cash for all tries; and where no record is free one that is not listed is left out, since a
    /// derive_cap looks at no other than the one it is handed.
    fn copy(&self, store: &Store) -> Store {
        let mut copy = store.clone();
        copy.house = 0;
        copy.objects.entry(self.caller).and_modify(|caller| caller.cash = MAX_WORD);
        let listed: BTreeSet<Place> =
            self.entries().filter_map(|entry| store.find(self.caller, entry)).collect();
        let other = copy.capabilities.keys().find(|place| !listed.contains(place)).copied();
        if let (Some(other), true) = (other, copy.capabilities.len() >= MAX_CAPS) {
            copy.capabilities.remove(&other);
        }
        copy
    }

    /// The child that a derive_cap gives, which is taken away again.
    fn child(&self, copy: &mut Store, entry: Key, p1: u32, tried: Arguments) -> Option<Capability> {
        let [mask, start, end, limit, last_day] = tried;
        let action = Action::DeriveCap { mask, start, end, limit, last_day, p1, p2: 0 };
        let operation = Operation::On(entry, action);
        copy.run(&Call { caller: self.caller, operation, buffer: 0, scratch: 0 });
        copy.capabilities.remove(&(entry.name, p1))
    }

    /// Whether some of these derive_caps gives what is wished from an entry. "That one must pass the
    /// mill's own password test, not be expired, and hold DERIVE_CAP."
    fn lends(&self, store: &Store, copy: &mut Store, entry: Key, tries: &[Arguments]) -> bool {
        let Ok(listed) = store.presented(self.caller, entry, right::DERIVE_CAP) else {
            return false;
        };
        let mut climb = store.climb(listed).into_iter();
        let enough = climb.all(|place| store.moneyword(place) >= self.wish.sum);
        let free = (0..).find(|p1| !copy.capabilities.contains_key(&(entry.name, *p1)));
        let Some(p1) = free.filter(|_| enough) else { return false };
        let mut children = tries.iter().filter_map(|tried| self.child(copy, entry, p1, *tried));
        children.any(|child| self.wish.is(&child))
    }

    /// The place, or the refusal: "21, none in the list will do, after 1 to 3".
    pub fn ask(&self, store: &Store) -> Result<u32, Refusal> {
        refuse_if(!self.in_range(), Refusal::OutOfRange)?;
        store.check_caller(self.caller)?;
        let (mut copy, tries) = (self.copy(store), self.wish.arguments());
        let found = self.entries().position(|entry| self.lends(store, &mut copy, entry, &tries));
        found.map(|before| before as u32 + 1).ok_or(Refusal::NoneWillDo)
    }
}
