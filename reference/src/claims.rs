//! Demand 3 as a check of the store beside the ledger after a call, and 01's well-formedness
//! in meaning. Each check gives what is wrong as text.

use crate::call::{call_kind, Action, Answer, Call, Key, Operation};
use crate::kernel::{blocks_of, Capability, Object, Place, Store};
use crate::ledger::Ledger;
use crate::numbers::*;
use std::collections::{BTreeMap, BTreeSet};

type Checked<T = ()> = Result<T, String>;

fn ensure(holds: bool, wrong: impl FnOnce() -> String) -> Checked {
    if holds {
        Ok(())
    } else {
        Err(wrong())
    }
}

/// A store with its ledger beside it; every call is checked.
#[derive(Clone)]
pub struct CheckedRun {
    pub store: Store,
    pub ledger: Ledger,
}

impl CheckedRun {
    /// A run from the fresh store.
    pub fn fresh(supply: u32, p1: u32, p2: u32) -> CheckedRun {
        CheckedRun { store: Store::fresh(supply, p1, p2), ledger: Ledger::fresh(p1, p2) }
    }

    /// Runs a call, feeds the ledger, and checks demand 3, the money total, the store, that no
    /// process with mail waits, what a refusal changes, and that the day is the host's.
    pub fn run(&mut self, call: &Call) -> Checked<Answer> {
        let before = self.store.clone();
        let ended = ended_by(&self.ledger, call);
        let answer = self.store.run(call);
        let done = answer.code == DONE;
        self.ledger.feed(call, done);
        let kept = money_total(&self.store) == money_total(&before);
        ensure(kept, || "money total".into())?;
        well_formed(&self.store)?;
        check_ledger(&self.store, &self.ledger)?;
        check_mail(&self.store)?;
        match call.operation {
            Operation::SetDay { day } if done => check_set_day(&before, &self.store, day)?,
            _ => ensure(self.store.day == before.day, || "the day".into())?,
        }
        match ended {
            Some(ended) if done => check_delete(before, &self.store, &ended)?,
            _ if !done => check_refusal(before, &self.store, call, &answer)?,
            _ => {}
        }
        Ok(answer)
    }
}

/// All cash, all masters' moneywords, all sums in boxes, and the house.
pub fn money_total(store: &Store) -> u64 {
    let totals = store.totals();
    totals.cash + totals.moneywords + totals.boxes + totals.house
}

/// The presented capability and those derived from it by the ledger, for a delete whose
/// password finds a line.
fn ended_by(ledger: &Ledger, call: &Call) -> Option<BTreeSet<Place>> {
    let Operation::On(key, Action::DeleteCap) = &call.operation else {
        return None;
    };
    let derived = ledger.with_derived(ledger.find(call.caller, *key)?);
    let lines = derived.iter().map(|at| &ledger.lines[*at]);
    Some(lines.filter(|line| line.living).map(|line| place(line.key)).collect())
}

/// "A process with mail should not sleep."
fn check_mail(store: &Store) -> Checked {
    let sleeps = |object: &&Object| object.waiting && !object.messages.is_empty();
    ensure(store.objects.values().find(sleeps).is_none(), || "a process with mail waits".into())
}

/// A done delete ended those and no others, and left every other capability unchanged.
fn check_delete(before: Store, after: &Store, ended: &BTreeSet<Place>) -> Checked {
    let mut expected = before.capabilities;
    for place in ended {
        let was = expected.remove(place);
        ensure(was.is_some(), || format!("no {place:?} before delete"))?;
    }
    ensure(expected == after.capabilities, || format!("delete ended other than {ended:?}"))
}

/// A done call 17 set the day, which is not before the old one, and changed nothing else.
fn check_set_day(before: &Store, after: &Store, day: u32) -> Checked {
    let set = before.day <= day && *after == Store { day, ..before.clone() };
    ensure(set, || format!("day {day} after {}", before.day))
}

/// A refused call changed nothing for 2, 3 and 20, terminated the caller for 4, and moved only the
/// fee for all others; the answer's other fields are 0.
fn check_refusal(before: Store, after: &Store, call: &Call, answer: &Answer) -> Checked {
    let mut expected = before;
    let fee = call_kind(call.operation.number()).map_or(0, |kind| kind.fee);
    if let Some(caller) = expected.objects.get_mut(&call.caller) {
        match answer.code {
            OUT_OF_RANGE | NOT_RUNNING | EARLIER_DAY => {}
            CANNOT_PAY => caller.terminated = true,
            _ => {
                caller.cash -= fee;
                expected.house += fee;
            }
        }
    }
    let blank = Answer { code: answer.code, ..Answer::default() };
    ensure(expected == *after && blank == *answer, || format!("{} changed more", answer.code))
}

fn place(key: Key) -> Place {
    (key.name, key.p1)
}

/// Demand 3 for the store beside the ledger, but for what a delete ends.
pub fn check_ledger(store: &Store, ledger: &Ledger) -> Checked {
    let matched = match_lines(store, ledger)?;
    check_givers(ledger, &matched)?;
    check_purses(ledger, &matched)?;
    check_trees(store, ledger)
}

/// The store's capabilities match the living lines by name, p1 and p2, each once. Gives each
/// line's capability, none for an ended line.
fn match_lines<'a>(store: &'a Store, ledger: &Ledger) -> Checked<Vec<Option<&'a Capability>>> {
    let mut seen = BTreeSet::new();
    let mut matched = Vec::with_capacity(ledger.lines.len());
    for line in &ledger.lines {
        let found = store.capabilities.get(&place(line.key));
        let found = found.filter(|c| line.living && c.p2 == line.key.p2);
        ensure(found.is_some() == line.living, || {
            format!("living line without a capability: {line:?}")
        })?;
        let new = !line.living || seen.insert(place(line.key));
        ensure(new, || format!("capability matched twice: {line:?}"))?;
        matched.push(found);
    }
    let count = store.capabilities.len();
    ensure(count == seen.len(), || "capability without a line".into())?;
    Ok(matched)
}

/// For a living giver and a living holder whose line leads back to it: same object, the holder's
/// rights and window lie in the giver's, and the giver's last day is at or after the holder's.
fn check_givers(ledger: &Ledger, matched: &[Option<&Capability>]) -> Checked {
    for (at, holder) in matched.iter().enumerate() {
        let Some(holder) = holder else { continue };
        for from in ledger.leads_back(at) {
            let Some(giver) = matched[from] else { continue };
            let same = ledger.lines[at].key.name == ledger.lines[from].key.name;
            let within = same && lies_in(holder, giver);
            ensure(within, || format!("holder {at} beyond giver {from}"))?;
        }
    }
    Ok(())
}

/// Whether rights, window and last day lie in another's.
fn lies_in(inner: &Capability, outer: &Capability) -> bool {
    inner.rights & outer.rights == inner.rights
        && outer.sees(inner.start, inner.end)
        && inner.last_day <= outer.last_day
}

/// The purse equation: each living capability's moneyword is its line's balance.
fn check_purses(ledger: &Ledger, matched: &[Option<&Capability>]) -> Checked {
    for (at, balance) in ledger.balances().into_iter().enumerate() {
        let Some(capability) = matched[at] else {
            continue;
        };
        ensure(i128::from(capability.moneyword) == balance, || {
            format!("moneyword of {:?} is not {balance}", ledger.lines[at])
        })?;
    }
    Ok(())
}

/// A master with all whose climb ends at it matches a living line from none with all living
/// lines that lead back to it.
fn check_trees(store: &Store, ledger: &Ledger) -> Checked {
    let masters = masters(store)?;
    let mut origins: Vec<usize> = Vec::with_capacity(ledger.lines.len());
    for (at, line) in ledger.lines.iter().enumerate() {
        let origin = line.from.map_or(at, |from| origins[from]);
        origins.push(origin);
        if line.living {
            let expected = place(ledger.lines[origin].key);
            let same = masters.get(&place(line.key)) == Some(&expected);
            let living = ledger.lines[origin].living;
            ensure(same && living, || format!("tree of {line:?}"))?;
        }
    }
    Ok(())
}

/// The master at which each capability's climb ends.
fn masters(store: &Store) -> Checked<BTreeMap<Place, Place>> {
    let mut masters: BTreeMap<Place, Place> = BTreeMap::new();
    for start in store.capabilities.keys() {
        let mut path = Vec::new();
        let mut at = *start;
        let master = loop {
            if let Some(known) = masters.get(&at) {
                break *known;
            }
            path.push(at);
            let found = store.capabilities.get(&at);
            let found = found.ok_or_else(|| format!("no parent {at:?}"))?;
            let Some(parent) = found.parent else { break at };
            at = (at.0, parent);
            let short = path.len() <= store.capabilities.len();
            ensure(short, || format!("endless climb from {start:?}"))?;
        };
        masters.extend(path.into_iter().map(|passed| (passed, master)));
    }
    Ok(masters)
}

/// A well-formed store, in meaning: ranges, counts, one tree for each object, children within their
/// parents, a master's last day, and the money total. Names and each object's p1 are unique by the
/// maps.
pub fn well_formed(store: &Store) -> Checked {
    check_counts(store)?;
    for (name, object) in &store.objects {
        let in_range = name.volume <= MAX_VOLUME && name.serial <= MAX_SERIAL;
        let sound = in_range && object_in_range(object);
        ensure(sound, || format!("object {name:?}"))?;
        let masters = store.tree(*name).filter(|(_, c)| c.parent.is_none());
        let masters: Vec<_> = masters.map(|(_, c)| (c.start, c.end, c.last_day)).collect();
        let one = masters == [(0, object.size(), MAX_DAY)];
        ensure(one, || format!("master of {name:?}"))?;
    }
    masters(store)?;
    for ((name, p1), capability) in &store.capabilities {
        let parent = match capability.parent {
            Some(parent) => store.capabilities.get(&(*name, parent)),
            None => Some(capability),
        };
        let within = parent.is_some_and(|parent| lies_in(capability, parent));
        let ranges = capability.rights <= MAX_RIGHTS && capability.start <= capability.end;
        let sound = within && ranges && store.objects.contains_key(name);
        ensure(sound, || format!("capability {name:?} {p1}"))?;
    }
    Ok(())
}

fn check_counts(store: &Store) -> Checked {
    let blocks: u32 = store.objects.values().map(|o| blocks_of(o.size())).sum();
    let within = store.objects.len() <= MAX_OBJECTS
        && store.capabilities.len() <= MAX_CAPS
        && blocks <= MAX_BLOCKS
        && store.day <= MAX_DAY
        && money_total(store) <= u64::from(MAX_WORD);
    ensure(within, || "counts, day or money total".into())
}

fn object_in_range(object: &Object) -> bool {
    let marks = (object.suspended, object.waiting, object.terminated);
    let messages = &object.messages;
    let blank = object.lockword == [0, 0]
        && object.cash == 0
        && marks == (false, false, false)
        && messages.is_empty();
    object.size() <= MAX_SIZE
        && object.lockword[0] < TOP
        && messages.len() <= MAX_MESSAGES
        && messages.iter().all(|m| m.bytes.len() <= MAX_MESSAGE)
        && (object.process || blank)
}
