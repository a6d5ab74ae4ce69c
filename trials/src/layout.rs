//! Where each field of a store stands in its three slices: docs/LAYOUT.md as constants.

use std::marker::PhantomData;

/// What has a slot: a message's slot is 4 times its object's and its place in the box.
#[derive(Clone, Copy, Debug, PartialEq, Eq)]
pub enum Record {
    /// The store itself, for the heads of chains, the house and the day.
    Store,
    Object,
    Message,
    Capability,
    Block,
}

impl Record {
    /// How many slots there are; but for the store, slot 0 is no record's.
    pub const fn slots(self) -> usize {
        match self {
            Record::Store => 1,
            Record::Object => 65,
            Record::Message => 260,
            Record::Capability | Record::Block => 513,
        }
    }
}

/// A row of cells of one slice, `width` cells for each slot of a kind of record.
#[derive(Clone, Copy, Debug, PartialEq, Eq)]
pub struct Field<T> {
    pub name: &'static str,
    pub first: usize,
    pub record: Record,
    pub width: usize,
    cell: PhantomData<T>,
}

impl<T> Field<T> {
    const fn new(name: &'static str, first: usize, record: Record, width: usize) -> Field<T> {
        Field { name, first, record, width, cell: PhantomData }
    }

    pub const fn cells(&self) -> usize {
        self.record.slots() * self.width
    }

    /// The slot's first cell.
    pub const fn at(&self, slot: usize) -> usize {
        self.first + slot * self.width
    }
}

pub const BYTES: usize = 37_642;
pub const LINKS: usize = 4_434;
pub const WORDS: usize = 3_021;

pub const VOLUME: Field<u8> = Field::new("VOLUME", 0, Record::Object, 1);
pub const FLAG: Field<u8> = Field::new("FLAG", 65, Record::Object, 1);
pub const SUSPENDED: Field<u8> = Field::new("SUSPENDED", 130, Record::Object, 1);
pub const WAITING: Field<u8> = Field::new("WAITING", 195, Record::Object, 1);
pub const TERMINATED: Field<u8> = Field::new("TERMINATED", 260, Record::Object, 1);
pub const COUNT: Field<u8> = Field::new("COUNT", 325, Record::Object, 1);
pub const LENGTH: Field<u8> = Field::new("LENGTH", 390, Record::Message, 1);
pub const TEXT: Field<u8> = Field::new("TEXT", 650, Record::Message, 16);
pub const DATA: Field<u8> = Field::new("DATA", 4_810, Record::Block, 64);

pub const OBJECTS: Field<u16> = Field::new("OBJECTS", 0, Record::Store, 1);
pub const FREE_OBJECTS: Field<u16> = Field::new("FREE_OBJECTS", 1, Record::Store, 1);
pub const FREE_CAPS: Field<u16> = Field::new("FREE_CAPS", 2, Record::Store, 1);
pub const FREE_BLOCKS: Field<u16> = Field::new("FREE_BLOCKS", 3, Record::Store, 1);
pub const MASTER: Field<u16> = Field::new("MASTER", 4, Record::Object, 1);
pub const SERIAL: Field<u16> = Field::new("SERIAL", 69, Record::Object, 1);
pub const SIZE: Field<u16> = Field::new("SIZE", 134, Record::Object, 1);
pub const FIRST_BLOCK: Field<u16> = Field::new("FIRST_BLOCK", 199, Record::Object, 1);
pub const NEXT_OBJECT: Field<u16> = Field::new("NEXT_OBJECT", 264, Record::Object, 1);
pub const OWNER: Field<u16> = Field::new("OWNER", 329, Record::Capability, 1);
pub const PARENT: Field<u16> = Field::new("PARENT", 842, Record::Capability, 1);
pub const FIRST_CHILD: Field<u16> = Field::new("FIRST_CHILD", 1_355, Record::Capability, 1);
pub const NEXT_CAP: Field<u16> = Field::new("NEXT_CAP", 1_868, Record::Capability, 1);
pub const PREV_CAP: Field<u16> = Field::new("PREV_CAP", 2_381, Record::Capability, 1);
pub const RIGHTS: Field<u16> = Field::new("RIGHTS", 2_894, Record::Capability, 1);
pub const NEXT_BLOCK: Field<u16> = Field::new("NEXT_BLOCK", 3_407, Record::Block, 1);
pub const LAST_DAY: Field<u16> = Field::new("LAST_DAY", 3_920, Record::Capability, 1);
pub const DAY: Field<u16> = Field::new("DAY", 4_433, Record::Store, 1);

pub const HOUSE: Field<u32> = Field::new("HOUSE", 0, Record::Store, 1);
pub const CASH: Field<u32> = Field::new("CASH", 1, Record::Object, 1);
pub const LOCK1: Field<u32> = Field::new("LOCK1", 66, Record::Object, 1);
pub const LOCK2: Field<u32> = Field::new("LOCK2", 131, Record::Object, 1);
pub const SUM: Field<u32> = Field::new("SUM", 196, Record::Message, 1);
pub const P1: Field<u32> = Field::new("P1", 456, Record::Capability, 1);
pub const P2: Field<u32> = Field::new("P2", 969, Record::Capability, 1);
pub const MONEY: Field<u32> = Field::new("MONEY", 1_482, Record::Capability, 1);
pub const START: Field<u32> = Field::new("START", 1_995, Record::Capability, 1);
pub const END: Field<u32> = Field::new("END", 2_508, Record::Capability, 1);

/// The rows of each slice, in order.
pub const BYTE_FIELDS: [Field<u8>; 9] =
    [VOLUME, FLAG, SUSPENDED, WAITING, TERMINATED, COUNT, LENGTH, TEXT, DATA];
pub const LINK_FIELDS: [Field<u16>; 18] = [
    OBJECTS,
    FREE_OBJECTS,
    FREE_CAPS,
    FREE_BLOCKS,
    MASTER,
    SERIAL,
    SIZE,
    FIRST_BLOCK,
    NEXT_OBJECT,
    OWNER,
    PARENT,
    FIRST_CHILD,
    NEXT_CAP,
    PREV_CAP,
    RIGHTS,
    NEXT_BLOCK,
    LAST_DAY,
    DAY,
];
pub const WORD_FIELDS: [Field<u32>; 10] =
    [HOUSE, CASH, LOCK1, LOCK2, SUM, P1, P2, MONEY, START, END];

/// The slot of message `place`, 0 to 3 and oldest first, of the object at a slot.
pub const fn message_slot(object: usize, place: usize) -> usize {
    4 * object + place
}
