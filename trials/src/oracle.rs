//! 01's sentence "A store is well formed when ..", and what 02 adds to it, checked on slices of any
//! length and content, clause by clause. Chains are collected into lists and sets are compared; nothing is marked
//! and nothing recurs. Written to be read, not to be fast.

use crate::layout::*;
use crate::raw::{slots, RawStore};
use reference::kernel::blocks_of;
use reference::numbers::*;
use std::collections::HashSet;

/// Whether the slices are a well-formed store.
pub fn well_formed(raw: &RawStore) -> bool {
    raw.has_lengths()
        && Chains::collect(raw).is_some_and(|chains| {
            chains.each_record_once()
                && chains.lives_in_its_chain(raw)
                && chains.objects.iter().all(|object| object_holds(raw, *object))
                && chains.masters().all(|(object, master)| master_holds(raw, object, master))
                && chains.children.iter().all(|(parent, chain)| family_holds(raw, *parent, chain))
                && chains.living().all(|at| capability_in_range(raw, at) && climbs(raw, at))
                && chains.names_are_unique(raw)
                && chains.p1_are_unique(raw)
                && chains.total(raw) <= u64::from(u32::MAX)
        })
}

/// Every chain of a store: "Blocks, children, objects and free records are chained".
struct Chains {
    objects: Vec<usize>,
    free_objects: Vec<usize>,
    /// Each object's master, in the order of `objects`.
    masters: Vec<usize>,
    /// Each living capability with its chain of children.
    children: Vec<(usize, Vec<usize>)>,
    free_capabilities: Vec<usize>,
    /// Each object's blocks.
    blocks: Vec<Vec<usize>>,
    free_blocks: Vec<usize>,
}

impl Chains {
    /// None if a link names no record or a chain does not end.
    fn collect(raw: &RawStore) -> Option<Chains> {
        let objects = raw.chain(raw.head(OBJECTS), NEXT_OBJECT)?;
        let first_block = |object: &usize| raw.link(FIRST_BLOCK, *object);
        let living = slots(Record::Capability).filter(|at| raw.capability_lives(*at));
        let family = |at| Some((at, raw.chain(raw.link(FIRST_CHILD, at), NEXT_CAP)?));
        Some(Chains {
            masters: objects.iter().map(|object| raw.link(MASTER, *object)).collect(),
            children: living.map(family).collect::<Option<_>>()?,
            blocks: objects
                .iter()
                .map(|object| raw.chain(first_block(object), NEXT_BLOCK))
                .collect::<Option<_>>()?,
            objects,
            free_objects: raw.chain(raw.head(FREE_OBJECTS), NEXT_OBJECT)?,
            free_capabilities: raw.chain(raw.head(FREE_CAPS), NEXT_CAP)?,
            free_blocks: raw.chain(raw.head(FREE_BLOCKS), NEXT_BLOCK)?,
        })
    }

    fn masters(&self) -> impl Iterator<Item = (usize, usize)> + '_ {
        self.objects.iter().copied().zip(self.masters.iter().copied())
    }

    /// The capabilities in trees: masters and children.
    fn living(&self) -> impl Iterator<Item = usize> + '_ {
        let children = self.children.iter().flat_map(|(_, chain)| chain);
        self.masters.iter().chain(children).copied()
    }

    /// "each record is in exactly one chain of its kind (a master, held by its object, counts as
    /// a chain of one)"
    fn each_record_once(&self) -> bool {
        let objects = self.objects.iter().chain(&self.free_objects).copied();
        let capabilities = self.living().chain(self.free_capabilities.iter().copied());
        let blocks = self.blocks.iter().flatten().chain(&self.free_blocks).copied();
        each_once(objects.collect(), Record::Object)
            && each_once(capabilities.collect(), Record::Capability)
            && each_once(blocks.collect(), Record::Block)
    }

    /// Living records are in the chains of objects and in trees, free ones in the free chains.
    fn lives_in_its_chain(&self, raw: &RawStore) -> bool {
        self.objects.iter().all(|at| raw.object_lives(*at))
            && !self.free_objects.iter().any(|at| raw.object_lives(*at))
            && self.living().all(|at| raw.capability_lives(at))
            && !self.free_capabilities.iter().any(|at| raw.capability_lives(*at))
    }

    /// "names .. are unique"
    fn names_are_unique(&self, raw: &RawStore) -> bool {
        let mut seen = HashSet::new();
        self.objects.iter().all(|at| seen.insert((raw.get(VOLUME, *at), raw.get(SERIAL, *at))))
    }

    /// "each object's p1 are unique"
    fn p1_are_unique(&self, raw: &RawStore) -> bool {
        let mut seen = HashSet::new();
        self.living().all(|at| seen.insert((raw.link(OWNER, at), raw.get(P1, at))))
    }

    /// "The total is all cash, all masters' moneywords, all sums in boxes, and the house."
    fn total(&self, raw: &RawStore) -> u64 {
        let processes = || self.objects.iter().copied().filter(|at| raw.is_process(*at));
        let word = |field, slot| u64::from(raw.get(field, slot));
        let cash: u64 = processes().map(|at| word(CASH, at)).sum();
        let moneywords: u64 = self.masters.iter().map(|at| word(MONEY, *at)).sum();
        let boxes: u64 = processes().flat_map(|at| messages(raw, at)).map(|at| word(SUM, at)).sum();
        cash + moneywords + boxes + word(HOUSE, 0)
    }
}

/// Whether a list has each record of a kind once.
fn each_once(mut list: Vec<usize>, record: Record) -> bool {
    list.sort_unstable();
    list.into_iter().eq(slots(record))
}

/// The slots of the messages in a process's box.
fn messages(raw: &RawStore, object: usize) -> impl Iterator<Item = usize> {
    let count = usize::from(raw.get(COUNT, object));
    (0..count).map(move |place| message_slot(object, place))
}

/// An object's ranges, "and a chain of exactly the blocks that its size needs".
fn object_holds(raw: &RawStore, object: usize) -> bool {
    let size = u32::from(raw.get(SIZE, object));
    let blocks = raw.chain(raw.link(FIRST_BLOCK, object), NEXT_BLOCK);
    u32::from(raw.get(VOLUME, object)) <= MAX_VOLUME
        && raw.get(FLAG, object) <= 1
        && size <= MAX_SIZE
        && blocks.is_some_and(|blocks| blocks.len() == blocks_of(size) as usize)
        && (!raw.is_process(object) || process_holds(raw, object))
}

/// A process's ranges: marks, box, and "each lockword's first word is below 2,147,483,648".
fn process_holds(raw: &RawStore, object: usize) -> bool {
    [SUSPENDED, WAITING, TERMINATED].iter().all(|mark| raw.get(*mark, object) <= 1)
        && usize::from(raw.get(COUNT, object)) <= MAX_MESSAGES
        && messages(raw, object).all(|slot| usize::from(raw.get(LENGTH, slot)) <= MAX_MESSAGE)
        && raw.get(LOCK1, object) < TOP
}

/// "every object has one tree with one sound master, whose window is 0 to the size", and whose last
/// day is 65,535
fn master_holds(raw: &RawStore, object: usize, master: usize) -> bool {
    let links = [OWNER, PARENT, NEXT_CAP, PREV_CAP].map(|field| raw.link(field, master));
    let window = (raw.get(START, master), raw.get(END, master));
    links == [object, 0, 0, 0]
        && window == (0, raw.get(SIZE, object).into())
        && u32::from(raw.get(LAST_DAY, master)) == MAX_DAY
}

/// "A record is sound when its links agree with its neighbours'", "each child's rights and window
/// lie in its parent's", and its last day is not after its parent's.
fn family_holds(raw: &RawStore, parent: usize, chain: &[usize]) -> bool {
    let owner = raw.link(OWNER, parent);
    let mut previous = 0;
    chain.iter().all(|child| {
        let links = [OWNER, PARENT, PREV_CAP].map(|field| raw.link(field, *child));
        let agree = links == [owner, parent, previous];
        previous = *child;
        agree && lies_in(raw, *child, parent)
    })
}

fn lies_in(raw: &RawStore, child: usize, parent: usize) -> bool {
    raw.get(RIGHTS, child) & !raw.get(RIGHTS, parent) == 0
        && raw.get(START, child) >= raw.get(START, parent)
        && raw.get(END, child) <= raw.get(END, parent)
        && raw.get(LAST_DAY, child) <= raw.get(LAST_DAY, parent)
}

/// Rights are 0 to 8191, and a window does not start after its end.
fn capability_in_range(raw: &RawStore, at: usize) -> bool {
    u32::from(raw.get(RIGHTS, at)) <= MAX_RIGHTS && raw.get(START, at) <= raw.get(END, at)
}

/// "every climb by parents ends at that master"
fn climbs(raw: &RawStore, from: usize) -> bool {
    let mut at = from;
    for _ in slots(Record::Capability) {
        if raw.link(PARENT, at) == 0 {
            return raw.link(MASTER, raw.link(OWNER, from)) == at;
        }
        at = raw.link(PARENT, at);
    }
    false
}
