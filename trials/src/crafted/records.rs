//! What the crafted damages do with records: choosing them, taking them out of chains and putting
//! them in. On stores that are damaged already, each gives none or does no harm.

use crate::layout::*;
use crate::random::Random;
use crate::raw::{slots, Cell, RawStore};

/// A slot of a kind of record of which the condition holds.
pub fn some_slot(
    record: Record,
    random: &mut Random,
    wanted: impl Fn(usize) -> bool,
) -> Option<usize> {
    let found: Vec<usize> = slots(record).filter(|at| wanted(*at)).collect();
    random.pick(&found)
}

/// A living object of which the condition holds.
pub fn object(
    raw: &RawStore,
    random: &mut Random,
    wanted: impl Fn(usize) -> bool,
) -> Option<usize> {
    some_slot(Record::Object, random, |at| raw.object_lives(at) && wanted(at))
}

/// A living capability of which the condition holds.
pub fn capability(
    raw: &RawStore,
    random: &mut Random,
    wanted: impl Fn(usize) -> bool,
) -> Option<usize> {
    some_slot(Record::Capability, random, |at| raw.capability_lives(at) && wanted(at))
}

/// A living capability with a parent, of which and of whose parent the condition holds.
pub fn child(
    raw: &RawStore,
    random: &mut Random,
    wanted: impl Fn(usize, usize) -> bool,
) -> Option<(usize, usize)> {
    let parent = |at| raw.link(PARENT, at);
    let found = capability(raw, random, |at| parent(at) != 0 && wanted(at, parent(at)))?;
    Some((found, parent(found)))
}

pub fn is_leaf(raw: &RawStore, at: usize) -> bool {
    raw.link(FIRST_CHILD, at) == 0
}

pub fn some_process(raw: &RawStore, random: &mut Random) -> Option<usize> {
    object(raw, random, |at| raw.is_process(at))
}

pub fn some_master(raw: &RawStore, random: &mut Random) -> Option<usize> {
    object(raw, random, |_| true).map(|at| raw.link(MASTER, at))
}

pub fn set_in_object<T: Cell>(
    raw: &mut RawStore,
    random: &mut Random,
    field: Field<T>,
    value: T,
) -> Option<()> {
    let at = object(raw, random, |_| true)?;
    raw.set(field, at, value);
    Some(())
}

pub fn set_in_process(
    raw: &mut RawStore,
    random: &mut Random,
    field: Field<u8>,
    value: u8,
) -> Option<()> {
    let at = some_process(raw, random)?;
    raw.set(field, at, value);
    Some(())
}

/// The head of a chain of free records, and its links.
pub type FreeChain = (Field<u16>, Field<u16>);

pub const OBJECT_CHAIN: FreeChain = (FREE_OBJECTS, NEXT_OBJECT);
pub const CAPABILITY_CHAIN: FreeChain = (FREE_CAPS, NEXT_CAP);
pub const BLOCK_CHAIN: FreeChain = (FREE_BLOCKS, NEXT_BLOCK);

pub fn free_chain(raw: &RawStore, (head, next): FreeChain) -> Option<Vec<usize>> {
    raw.chain(raw.head(head), next)
}

/// Takes the first record of a free chain out of it.
pub fn take_free(raw: &mut RawStore, (head, next): FreeChain) -> Option<usize> {
    let slot = raw.head(head);
    let taken = (1..next.record.slots()).contains(&slot).then_some(slot)?;
    raw.set_link(head, 0, raw.link(next, taken));
    Some(taken)
}

/// Puts a record in front of a free chain.
pub fn give_free(raw: &mut RawStore, (head, next): FreeChain, slot: usize) {
    raw.set_link(next, slot, raw.head(head));
    raw.set_link(head, 0, slot);
}

pub fn children(raw: &RawStore, parent: usize) -> Option<Vec<usize>> {
    raw.chain(raw.link(FIRST_CHILD, parent), NEXT_CAP)
}

/// Takes a child out of its chain; its own links stay.
pub fn unlink(raw: &mut RawStore, child: usize) -> Option<()> {
    let parent = raw.link(PARENT, child);
    let mut chain = children(raw, parent)?;
    chain.retain(|at| *at != child);
    raw.link_children(parent, &chain);
    Some(())
}

/// Puts a record in front of a parent's children.
pub fn adopt(raw: &mut RawStore, parent: usize, child: usize) -> Option<()> {
    let mut chain = children(raw, parent)?;
    chain.insert(0, child);
    raw.link_children(parent, &chain);
    Some(())
}

/// Takes a free record for a capability that would be well formed as a child of `parent`, but is
/// not linked yet.
pub fn new_leaf(raw: &mut RawStore, parent: usize) -> Option<usize> {
    let at = take_free(raw, CAPABILITY_CHAIN)?;
    let owner = raw.link(OWNER, parent);
    let p1 = (0..=512).find(|p1| !has_p1(raw, owner, *p1))?;
    raw.set_link(OWNER, at, owner);
    raw.set_link(PARENT, at, parent);
    for field in [FIRST_CHILD, NEXT_CAP, PREV_CAP] {
        raw.set_link(field, at, 0);
    }
    raw.set(P1, at, p1);
    fit(raw, at, parent);
    Some(at)
}

/// Gives a capability no rights, an empty window at the start of the parent's, and its last day.
pub fn fit(raw: &mut RawStore, at: usize, parent: usize) {
    raw.set(RIGHTS, at, 0);
    raw.set(START, at, raw.get(START, parent));
    raw.set(END, at, raw.get(START, parent));
    raw.set(LAST_DAY, at, raw.get(LAST_DAY, parent));
}

pub fn has_p1(raw: &RawStore, owner: usize, p1: u32) -> bool {
    let mut all = slots(Record::Capability);
    all.any(|at| raw.link(OWNER, at) == owner && raw.get(P1, at) == p1)
}
