//! Lays a store in meaning out in slices, with everything that 01 leaves open drawn at random:
//! which slots, the order in chains of children, objects and free records, and what stands in
//! the cells that may hold anything.

use crate::layout::*;
use crate::random::Random;
use crate::raw::{slots, Cell, RawStore};
use reference::call::Name;
use reference::kernel::{Object, Place, Store};
use std::collections::BTreeMap;

/// What the cells that may hold anything are filled with.
#[derive(Clone, Copy)]
enum Junk {
    Zeros,
    Ones,
    /// Numbers that could be slots, marks or lengths.
    Small,
    Any,
}

const JUNK: [Junk; 4] = [Junk::Zeros, Junk::Ones, Junk::Small, Junk::Any];

fn junk<T: Cell>(random: &mut Random) -> Vec<T> {
    let kind = random.pick(&JUNK);
    let mut draw = || match kind.unwrap_or(Junk::Any) {
        Junk::Zeros => 0,
        Junk::Ones => u64::MAX,
        Junk::Small => (random.bits() >> 32) % 66,
        Junk::Any => random.bits() >> 32,
    };
    (0..T::LENGTH).map(|_| T::from_bits(draw())).collect()
}

/// Slices of the right lengths full of junk.
fn junk_store(random: &mut Random) -> RawStore {
    RawStore { bytes: junk(random), links: junk(random), words: junk(random) }
}

/// The items in a random order.
pub fn shuffled<T>(items: impl IntoIterator<Item = T>, random: &mut Random) -> Vec<T> {
    let mut items: Vec<T> = items.into_iter().collect();
    for at in (1..items.len()).rev() {
        items.swap(at, random.between(0, at as u32) as usize);
    }
    items
}

/// The slices of a store that keeps 01's limits; one that does not makes this panic.
pub fn encode(store: &Store, random: &mut Random) -> RawStore {
    let mut encoder = Encoder {
        raw: junk_store(random),
        free_objects: shuffled(slots(Record::Object), random),
        free_capabilities: shuffled(slots(Record::Capability), random),
        free_blocks: shuffled(slots(Record::Block), random),
    };
    encoder.raw.set(HOUSE, 0, store.house);
    encoder.raw.set(DAY, 0, narrow(store.day));
    let objects: BTreeMap<Name, usize> =
        store.objects.iter().map(|(name, object)| (*name, encoder.object(*name, object))).collect();
    encoder.capabilities(store, &objects, random);
    let order = shuffled(objects.into_values(), random);
    encoder.raw.link_up(OBJECTS, 0, NEXT_OBJECT, &order);
    encoder.finish()
}

struct Encoder {
    raw: RawStore,
    free_objects: Vec<usize>,
    free_capabilities: Vec<usize>,
    free_blocks: Vec<usize>,
}

fn take(free: &mut Vec<usize>) -> usize {
    free.pop().expect("no more records than the store has")
}

fn narrow<T: Cell>(value: u32) -> T {
    T::from_bits(value.into())
}

impl RawStore {
    /// Makes the slots a chain whose first is named by the cell of `head` at slot `of`.
    pub fn link_up(&mut self, head: Field<u16>, of: usize, next: Field<u16>, chain: &[usize]) {
        self.set_link(head, of, chain.first().copied().unwrap_or(0));
        for (at, slot) in chain.iter().enumerate() {
            self.set_link(next, *slot, chain.get(at + 1).copied().unwrap_or(0));
        }
    }

    /// Makes the slots the children of a parent.
    pub fn link_children(&mut self, parent: usize, children: &[usize]) {
        self.link_up(FIRST_CHILD, parent, NEXT_CAP, children);
        let mut previous = 0;
        for child in children {
            self.set_link(PARENT, *child, parent);
            self.set_link(PREV_CAP, *child, previous);
            previous = *child;
        }
    }
}

impl Encoder {
    fn object(&mut self, name: Name, object: &Object) -> usize {
        let at = take(&mut self.free_objects);
        self.raw.set(VOLUME, at, narrow(name.volume));
        self.raw.set(SERIAL, at, narrow(name.serial));
        self.raw.set(SIZE, at, narrow(object.size()));
        self.raw.set(FLAG, at, object.process.into());
        let mut chain = Vec::new();
        for content in object.bytes.chunks(DATA.width) {
            let block = take(&mut self.free_blocks);
            self.raw.bytes[DATA.at(block)..][..content.len()].copy_from_slice(content);
            chain.push(block);
        }
        self.raw.link_up(FIRST_BLOCK, at, NEXT_BLOCK, &chain);
        if object.process {
            self.process(at, object);
        }
        at
    }

    fn process(&mut self, at: usize, object: &Object) {
        let raw = &mut self.raw;
        raw.set(SUSPENDED, at, object.suspended.into());
        raw.set(WAITING, at, object.waiting.into());
        raw.set(TERMINATED, at, object.terminated.into());
        raw.set(CASH, at, object.cash);
        raw.set(LOCK1, at, object.lockword[0]);
        raw.set(LOCK2, at, object.lockword[1]);
        raw.set(COUNT, at, object.messages.len() as u8);
        for (place, message) in object.messages.iter().enumerate() {
            let slot = message_slot(at, place);
            raw.set(SUM, slot, message.sum);
            raw.set(LENGTH, slot, message.bytes.len() as u8);
            raw.bytes[TEXT.at(slot)..][..message.bytes.len()].copy_from_slice(&message.bytes);
        }
    }

    /// All capabilities with their trees.
    fn capabilities(
        &mut self,
        store: &Store,
        objects: &BTreeMap<Name, usize>,
        random: &mut Random,
    ) {
        let mut taken: BTreeMap<Place, usize> = BTreeMap::new();
        for place in store.capabilities.keys() {
            taken.insert(*place, take(&mut self.free_capabilities));
        }
        let mut children: BTreeMap<usize, Vec<usize>> = BTreeMap::new();
        for (place, capability) in &store.capabilities {
            let (at, owner) = (taken[place], objects[&place.0]);
            self.raw.set_link(OWNER, at, owner);
            self.raw.set(P1, at, place.1);
            self.raw.set(P2, at, capability.p2);
            self.raw.set(MONEY, at, capability.moneyword);
            self.raw.set(START, at, capability.start);
            self.raw.set(END, at, capability.end);
            self.raw.set(RIGHTS, at, narrow(capability.rights));
            self.raw.set(LAST_DAY, at, narrow(capability.last_day));
            match capability.parent {
                Some(p1) => children.entry(taken[&(place.0, p1)]).or_default().push(at),
                None => self.master(owner, at),
            }
        }
        for at in taken.into_values() {
            let chain = shuffled(children.remove(&at).unwrap_or_default(), random);
            self.raw.link_children(at, &chain);
        }
    }

    /// A master, held by its object, is a chain of one.
    fn master(&mut self, owner: usize, at: usize) {
        self.raw.set_link(MASTER, owner, at);
        for field in [PARENT, NEXT_CAP, PREV_CAP] {
            self.raw.set_link(field, at, 0);
        }
    }

    /// Chains the free records.
    fn finish(mut self) -> RawStore {
        for object in &self.free_objects {
            self.raw.set_link(MASTER, *object, 0);
        }
        for capability in &self.free_capabilities {
            self.raw.set_link(OWNER, *capability, 0);
        }
        self.raw.link_up(FREE_OBJECTS, 0, NEXT_OBJECT, &self.free_objects);
        self.raw.link_up(FREE_CAPS, 0, NEXT_CAP, &self.free_capabilities);
        self.raw.link_up(FREE_BLOCKS, 0, NEXT_BLOCK, &self.free_blocks);
        self.raw
    }
}
