//! The plain way to check that a store is well formed, as a measure of speed: one pass over the
//! trees by recursion, marks and hash tables in arrays of fixed size. Nothing is allocated.
//! `oracle` is the same question in readable form; tests hold the two together.

use crate::layout::*;
use reference::numbers::*;

/// Whether the slices are a well-formed store; p1 are looked up in a hash table.
pub fn check(bytes: &[u8], links: &[u16], words: &[u32]) -> bool {
    check_with::<false>(bytes, links, words)
}

/// The same, with the p1 compared in pairs of slots.
pub fn check_in_pairs(bytes: &[u8], links: &[u16], words: &[u32]) -> bool {
    check_with::<true>(bytes, links, words)
}

fn check_with<const PAIRS: bool>(bytes: &[u8], links: &[u16], words: &[u32]) -> bool {
    if (bytes.len(), links.len(), words.len()) != (BYTES, LINKS, WORDS) {
        return false;
    }
    let mut pass = Pass::<PAIRS> {
        bytes,
        links,
        words,
        total: words[HOUSE.first].into(),
        objects: Marks::new(),
        capabilities: Marks::new(),
        blocks: Marks::new(),
        names: Table::new(),
        passwords: Table::new(),
    };
    pass.all_objects()
        && pass.free_records()
        && (!PAIRS || pass.p1_differ())
        && pass.total <= u64::from(u32::MAX)
}

/// Which slots below `N` were met. Slot 0 counts as met.
struct Marks<const N: usize> {
    met: [bool; N],
    count: usize,
}

impl<const N: usize> Marks<N> {
    fn new() -> Self {
        let mut met = [false; N];
        met[0] = true;
        Marks { met, count: 1 }
    }

    /// Marks a slot; false if there is no such slot or it was marked before.
    fn mark(&mut self, slot: usize) -> bool {
        match self.met.get_mut(slot) {
            Some(met) if !*met => {
                *met = true;
                self.count += 1;
                true
            }
            _ => false,
        }
    }

    /// Marks the records of a chain, each of which must be free.
    fn mark_chain(
        &mut self,
        links: &[u16],
        head: Field<u16>,
        next: Field<u16>,
        free: impl Fn(usize) -> bool,
    ) -> bool {
        let mut at = usize::from(links[head.first]);
        while at != 0 {
            if !(self.mark(at) && free(at)) {
                return false;
            }
            at = links[next.first + at].into();
        }
        true
    }
}

/// A hash table of `N` places, a power of two, for at most half as many keys.
struct Table<const N: usize> {
    keys: [u64; N],
}

/// No key: keys have their top bit clear.
const NO_KEY: u64 = u64::MAX;

impl<const N: usize> Table<N> {
    fn new() -> Self {
        Table { keys: [NO_KEY; N] }
    }

    /// Adds a key; false if it was there.
    fn insert(&mut self, key: u64) -> bool {
        let mut at = (key.wrapping_mul(0x9e37_79b9_7f4a_7c15) >> 48) as usize % N;
        while self.keys[at] != NO_KEY {
            if self.keys[at] == key {
                return false;
            }
            at = (at + 1) % N;
        }
        self.keys[at] = key;
        true
    }
}

struct Pass<'a, const PAIRS: bool> {
    bytes: &'a [u8],
    links: &'a [u16],
    words: &'a [u32],
    total: u64,
    objects: Marks<65>,
    capabilities: Marks<513>,
    blocks: Marks<513>,
    names: Table<128>,
    passwords: Table<1024>,
}

impl<const PAIRS: bool> Pass<'_, PAIRS> {
    fn byte(&self, field: Field<u8>, slot: usize) -> u32 {
        self.bytes[field.first + slot].into()
    }

    fn link(&self, field: Field<u16>, slot: usize) -> usize {
        self.links[field.first + slot].into()
    }

    fn word(&self, field: Field<u32>, slot: usize) -> u32 {
        self.words[field.first + slot]
    }

    fn all_objects(&mut self) -> bool {
        let mut at = self.link(OBJECTS, 0);
        while at != 0 {
            if !(self.objects.mark(at) && self.object(at)) {
                return false;
            }
            at = self.link(NEXT_OBJECT, at);
        }
        true
    }

    fn object(&mut self, object: usize) -> bool {
        let (volume, serial) = (self.byte(VOLUME, object), self.link(SERIAL, object));
        let size = self.link(SIZE, object);
        let master = self.link(MASTER, object);
        volume <= MAX_VOLUME
            && self.names.insert(u64::from(volume) << 16 | serial as u64)
            && size <= MAX_SIZE as usize
            && self.chain_of_blocks(object, size)
            && match self.byte(FLAG, object) {
                0 => true,
                1 => self.process(object),
                _ => false,
            }
            && self.sound(master, object, 0, 0)
            && self.master(master, size)
    }

    fn process(&mut self, object: usize) -> bool {
        let count = self.byte(COUNT, object) as usize;
        let marks = [SUSPENDED, WAITING, TERMINATED].map(|field| self.byte(field, object));
        if marks.iter().any(|mark| *mark > 1)
            || count > MAX_MESSAGES
            || self.word(LOCK1, object) >= TOP
        {
            return false;
        }
        self.total += u64::from(self.word(CASH, object));
        for place in 0..count {
            let slot = message_slot(object, place);
            if self.byte(LENGTH, slot) as usize > MAX_MESSAGE {
                return false;
            }
            self.total += u64::from(self.word(SUM, slot));
        }
        true
    }

    fn chain_of_blocks(&mut self, object: usize, size: usize) -> bool {
        let mut at = self.link(FIRST_BLOCK, object);
        for _ in 0..size.div_ceil(DATA.width) {
            if !self.blocks.mark(at) {
                return false;
            }
            at = self.link(NEXT_BLOCK, at);
        }
        at == 0
    }

    /// What a master has beyond a sound record: no sibling, the whole window, and the last day of
    /// all.
    fn master(&mut self, master: usize, size: usize) -> bool {
        self.total += u64::from(self.word(MONEY, master));
        self.link(NEXT_CAP, master) == 0
            && self.word(START, master) == 0
            && self.word(END, master) as usize == size
            && self.link(LAST_DAY, master) == MAX_DAY as usize
    }

    /// A record whose links agree with its neighbours' and whose children are sound.
    fn sound(&mut self, at: usize, owner: usize, parent: usize, previous: usize) -> bool {
        if !(self.capabilities.mark(at)
            && self.link(OWNER, at) == owner
            && self.link(PARENT, at) == parent
            && self.link(PREV_CAP, at) == previous
            && self.in_range(at, parent)
            && self.p1_is_new(owner, at))
        {
            return false;
        }
        let (mut child, mut before) = (self.link(FIRST_CHILD, at), 0);
        while child != 0 {
            if !self.sound(child, owner, at, before) {
                return false;
            }
            before = child;
            child = self.link(NEXT_CAP, child);
        }
        true
    }

    fn p1_is_new(&mut self, owner: usize, at: usize) -> bool {
        PAIRS || self.passwords.insert((owner as u64) << 32 | u64::from(self.word(P1, at)))
    }

    /// No two capabilities of an object have the same p1: each slot is compared with those after it.
    fn p1_differ(&self) -> bool {
        let last = Record::Capability.slots();
        for at in 1..last {
            let owner = self.link(OWNER, at);
            if owner == 0 {
                continue;
            }
            let p1 = self.word(P1, at);
            for other in at + 1..last {
                if self.word(P1, other) == p1 && self.link(OWNER, other) == owner {
                    return false;
                }
            }
        }
        true
    }

    /// A capability's own ranges, and that it lies in its parent, if it has one.
    fn in_range(&self, at: usize, parent: usize) -> bool {
        let (start, end) = (self.word(START, at), self.word(END, at));
        let rights = self.link(RIGHTS, at);
        rights <= MAX_RIGHTS as usize
            && start <= end
            && (parent == 0
                || rights & !self.link(RIGHTS, parent) == 0
                    && self.word(START, parent) <= start
                    && end <= self.word(END, parent)
                    && self.link(LAST_DAY, at) <= self.link(LAST_DAY, parent))
    }

    /// Every record not met so far is free and in its chain.
    fn free_records(&mut self) -> bool {
        let links = self.links;
        let free_object = |at: usize| links[MASTER.first + at] == 0;
        let free_capability = |at: usize| links[OWNER.first + at] == 0;
        self.objects.mark_chain(links, FREE_OBJECTS, NEXT_OBJECT, free_object)
            && self.capabilities.mark_chain(links, FREE_CAPS, NEXT_CAP, free_capability)
            && self.blocks.mark_chain(links, FREE_BLOCKS, NEXT_BLOCK, |_| true)
            && self.objects.count == Record::Object.slots()
            && self.capabilities.count == Record::Capability.slots()
            && self.blocks.count == Record::Block.slots()
    }
}
