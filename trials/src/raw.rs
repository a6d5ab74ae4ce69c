//! A store as three slices, laid out by docs/LAYOUT.md, and what it means.

use crate::layout::*;
use reference::call::Name;
use reference::kernel::{Capability, Message, Object, Store};
use reference::numbers::BLOCK_SIZE;

/// A store's three slices, of any length and content.
#[derive(Clone, Debug, Default, PartialEq, Eq)]
pub struct RawStore {
    pub bytes: Vec<u8>,
    pub links: Vec<u16>,
    pub words: Vec<u32>,
}

/// A cell's type, which tells the slice that it stands in.
pub trait Cell: Copy + Default + PartialEq + Into<u32> {
    /// The slice's length in docs/LAYOUT.md.
    const LENGTH: usize;
    fn slice(raw: &RawStore) -> &[Self];
    fn slice_mut(raw: &mut RawStore) -> &mut Vec<Self>;
    /// The lowest bits, as many as the cell has.
    fn from_bits(bits: u64) -> Self;
}

macro_rules! cell {
    ($type:ty, $slice:ident, $length:expr) => {
        impl Cell for $type {
            const LENGTH: usize = $length;
            fn slice(raw: &RawStore) -> &[Self] {
                &raw.$slice
            }
            fn slice_mut(raw: &mut RawStore) -> &mut Vec<Self> {
                &mut raw.$slice
            }
            fn from_bits(bits: u64) -> Self {
                bits as Self
            }
        }
    };
}

cell!(u8, bytes, BYTES);
cell!(u16, links, LINKS);
cell!(u32, words, WORDS);

/// Cells by field and slot. A cell that is not there reads as 0 and is not written.
impl RawStore {
    pub fn get<T: Cell>(&self, field: Field<T>, slot: usize) -> T {
        let cell = T::slice(self).get(field.at(slot));
        cell.filter(|_| slot < field.record.slots()).copied().unwrap_or_default()
    }

    pub fn set<T: Cell>(&mut self, field: Field<T>, slot: usize, value: T) {
        let cell = T::slice_mut(self).get_mut(field.at(slot));
        if let Some(cell) = cell.filter(|_| slot < field.record.slots()) {
            *cell = value;
        }
    }

    /// All cells of a slot whose field has several.
    pub fn row(&self, field: Field<u8>, slot: usize) -> &[u8] {
        self.bytes.get(field.at(slot)..field.at(slot + 1)).unwrap_or(&[])
    }

    /// A cell that names a slot.
    pub fn link(&self, field: Field<u16>, slot: usize) -> usize {
        usize::from(self.get(field, slot))
    }

    pub fn set_link(&mut self, field: Field<u16>, slot: usize, to: usize) {
        self.set(field, slot, u16::try_from(to).unwrap_or(u16::MAX));
    }

    /// The head of a chain.
    pub fn head(&self, field: Field<u16>) -> usize {
        self.link(field, 0)
    }

    /// Whether each slice has exactly its length.
    pub fn has_lengths(&self) -> bool {
        (self.bytes.len(), self.links.len(), self.words.len()) == (BYTES, LINKS, WORDS)
    }

    /// The slots of a chain from its first record on; none if a link names no slot or the chain
    /// does not end.
    pub fn chain(&self, first: usize, next: Field<u16>) -> Option<Vec<usize>> {
        let mut slots = Vec::new();
        let mut at = first;
        while at != 0 {
            if at >= next.record.slots() || slots.len() >= next.record.slots() {
                return None;
            }
            slots.push(at);
            at = self.link(next, at);
        }
        Some(slots)
    }

    /// An object lives when its MASTER is not 0.
    pub fn object_lives(&self, object: usize) -> bool {
        self.link(MASTER, object) != 0
    }

    /// A capability lives when its OWNER is not 0.
    pub fn capability_lives(&self, capability: usize) -> bool {
        self.link(OWNER, capability) != 0
    }

    pub fn is_process(&self, object: usize) -> bool {
        self.get(FLAG, object) == 1
    }
}

/// The slots of a kind of record, without slot 0.
pub fn slots(record: Record) -> std::ops::Range<usize> {
    1..record.slots()
}

/// What a well-formed store means. Of other stores some mean nothing; none is answered by a
/// panic or an endless loop.
pub fn decode(raw: &RawStore) -> Option<Store> {
    if !raw.has_lengths() {
        return None;
    }
    let (house, day) = (raw.get(HOUSE, 0), raw.get(DAY, 0).into());
    let mut store = Store { house, day, ..Store::default() };
    let mut names = [None; Record::Object.slots()];
    for object in raw.chain(raw.head(OBJECTS), NEXT_OBJECT)? {
        let name = decode_name(raw, object);
        names[object] = Some(name);
        let twice = store.objects.insert(name, decode_object(raw, object)?).is_some();
        if twice {
            return None;
        }
    }
    for at in slots(Record::Capability).filter(|at| raw.capability_lives(*at)) {
        let name = (*names.get(raw.link(OWNER, at))?)?;
        let place = (name, raw.get(P1, at));
        if store.capabilities.insert(place, decode_capability(raw, at)).is_some() {
            return None;
        }
    }
    Some(store)
}

fn decode_name(raw: &RawStore, object: usize) -> Name {
    Name { volume: raw.get(VOLUME, object).into(), serial: raw.get(SERIAL, object).into() }
}

fn decode_object(raw: &RawStore, object: usize) -> Option<Object> {
    let bytes = decode_bytes(raw, object)?;
    if !raw.is_process(object) {
        return Some(Object { bytes, ..Object::default() });
    }
    let mark = |field| raw.get(field, object) == 1;
    let count = usize::from(raw.get(COUNT, object)).min(4);
    Some(Object {
        bytes,
        process: true,
        lockword: [raw.get(LOCK1, object), raw.get(LOCK2, object)],
        cash: raw.get(CASH, object),
        suspended: mark(SUSPENDED),
        waiting: mark(WAITING),
        terminated: mark(TERMINATED),
        messages: (0..count).map(|m| decode_message(raw, message_slot(object, m))).collect(),
    })
}

/// Byte i stands in the block that comes i / 64 blocks after the first.
fn decode_bytes(raw: &RawStore, object: usize) -> Option<Vec<u8>> {
    let size = raw.link(SIZE, object);
    let blocks = raw.chain(raw.link(FIRST_BLOCK, object), NEXT_BLOCK)?;
    if blocks.len() != size.div_ceil(BLOCK_SIZE as usize) {
        return None;
    }
    let mut bytes: Vec<u8> = blocks.iter().flat_map(|b| raw.row(DATA, *b)).copied().collect();
    bytes.truncate(size);
    Some(bytes)
}

fn decode_message(raw: &RawStore, slot: usize) -> Message {
    let length = usize::from(raw.get(LENGTH, slot));
    let bytes = raw.row(TEXT, slot).iter().take(length).copied().collect();
    Message { bytes, sum: raw.get(SUM, slot) }
}

fn decode_capability(raw: &RawStore, at: usize) -> Capability {
    let parent = raw.link(PARENT, at);
    Capability {
        p2: raw.get(P2, at),
        parent: (parent != 0).then(|| raw.get(P1, parent)),
        moneyword: raw.get(MONEY, at),
        start: raw.get(START, at),
        end: raw.get(END, at),
        rights: raw.get(RIGHTS, at).into(),
        last_day: raw.get(LAST_DAY, at).into(),
    }
}
