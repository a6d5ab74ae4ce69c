//! Damages a store in slices, in one place or several: any cell of any row, of living records,
//! free ones and slot 0, or one of the crafted kinds. Some damages leave the store well formed.

use crate::crafted::Crafted;
use crate::layout::*;
use crate::random::Random;
use crate::raw::{slots, Cell, RawStore};
use std::collections::HashSet;
use std::fmt;

/// Whose cell is damaged. The store's own cells count as living.
#[derive(Clone, Copy, Debug, PartialEq, Eq, PartialOrd, Ord)]
pub enum Slot {
    Zero,
    Free,
    Living,
}

/// A kind of damage: a cell of a row, by the row's place in the table of its slice, or a
/// crafted one.
#[derive(Clone, Copy, Debug, PartialEq, Eq, PartialOrd, Ord)]
pub enum Kind {
    Byte(usize, Slot),
    Link(usize, Slot),
    Word(usize, Slot),
    Crafted(Crafted),
}

impl Kind {
    /// Every kind.
    pub fn all() -> Vec<Kind> {
        let mut kinds = rows(&BYTE_FIELDS, Kind::Byte);
        kinds.extend(rows(&LINK_FIELDS, Kind::Link));
        kinds.extend(rows(&WORD_FIELDS, Kind::Word));
        kinds.extend(Crafted::all().map(Kind::Crafted));
        kinds
    }

    /// The row's name and whose cell it is, or the crafted kind.
    fn row(self) -> Result<(&'static str, Slot), Crafted> {
        match self {
            Kind::Byte(row, slot) => Ok((BYTE_FIELDS[row].name, slot)),
            Kind::Link(row, slot) => Ok((LINK_FIELDS[row].name, slot)),
            Kind::Word(row, slot) => Ok((WORD_FIELDS[row].name, slot)),
            Kind::Crafted(crafted) => Err(crafted),
        }
    }

    /// What is known of the answer to a well-formed store damaged by this kind alone: cells that
    /// may hold anything leave it well formed, and so does any day; links of free records do not.
    pub fn well_formed_after(self) -> Option<bool> {
        let (name, slot) = match self.row() {
            Ok(row) => row,
            Err(crafted) => return Some(crafted.keeps_well_formed()),
        };
        let of_free = [MASTER, OWNER, NEXT_OBJECT, NEXT_CAP, NEXT_BLOCK].map(|field| field.name);
        match slot {
            Slot::Zero => Some(true),
            Slot::Free => Some(!of_free.contains(&name)),
            Slot::Living => (name == DAY.name).then_some(true),
        }
    }

    /// Damages the store; false if it has no place for this kind, and then it is unchanged.
    pub fn apply(self, raw: &mut RawStore, random: &mut Random) -> bool {
        match self {
            Kind::Byte(row, slot) => damage_cell(raw, BYTE_FIELDS[row], slot, random).is_some(),
            Kind::Link(row, slot) => damage_cell(raw, LINK_FIELDS[row], slot, random).is_some(),
            Kind::Word(row, slot) => damage_cell(raw, WORD_FIELDS[row], slot, random).is_some(),
            Kind::Crafted(crafted) => crafted.apply(raw, random),
        }
    }
}

impl fmt::Display for Kind {
    fn fmt(&self, to: &mut fmt::Formatter) -> fmt::Result {
        match self.row() {
            Ok((name, slot)) => to.pad(&format!("{name} {}", format!("{slot:?}").to_lowercase())),
            Err(crafted) => to.pad(&format!("{crafted:?}")),
        }
    }
}

/// The kinds of a slice's rows; the store's own cells have no free ones and no slot 0.
fn rows<T>(fields: &[Field<T>], kind: fn(usize, Slot) -> Kind) -> Vec<Kind> {
    let mut kinds = Vec::new();
    for (row, field) in fields.iter().enumerate() {
        if field.record != Record::Store {
            kinds.extend([kind(row, Slot::Zero), kind(row, Slot::Free)]);
        }
        kinds.push(kind(row, Slot::Living));
    }
    kinds
}

/// Changes a cell of the row.
fn damage_cell<T: Cell>(
    raw: &mut RawStore,
    field: Field<T>,
    slot: Slot,
    random: &mut Random,
) -> Option<()> {
    let chosen = random.pick(&slots_of(raw, field.record, slot))?;
    let cell = field.at(chosen) + random.below(field.width as u32) as usize;
    let other = field.first + random.below(field.cells() as u32) as usize;
    let other = T::slice(raw).get(other).copied().unwrap_or_default();
    let cell = T::slice_mut(raw).get_mut(cell)?;
    let changed = other_value((*cell).into(), other.into(), random);
    let changed = T::from_bits(changed.into());
    *cell = if changed == *cell { T::from_bits(u64::from(changed.into()) + 1) } else { changed };
    Some(())
}

/// A value near the old one, at an end of the range, that of another cell, or any.
fn other_value(old: u32, other: u32, random: &mut Random) -> u32 {
    match random.below(9) {
        0 => 0,
        1 => u32::MAX,
        2 => old.wrapping_add(1),
        3 => old.wrapping_sub(1),
        4 => old ^ 1 << random.below(32),
        5 => random.between(1, 65),
        6 => random.between(1, 513),
        7 => random.bits() as u32,
        _ => other,
    }
}

/// The slots of a kind of record that are 0, free or living.
fn slots_of(raw: &RawStore, record: Record, slot: Slot) -> Vec<usize> {
    let of = |lives: &dyn Fn(usize) -> bool| -> Vec<usize> {
        slots(record).filter(|at| lives(*at) == (slot == Slot::Living)).collect()
    };
    match record {
        Record::Store => vec![0],
        Record::Message if slot == Slot::Zero => (0..4).collect(),
        _ if slot == Slot::Zero => vec![0],
        Record::Object => of(&|at| raw.object_lives(at)),
        Record::Capability => of(&|at| raw.capability_lives(at)),
        Record::Block => {
            let free = raw.chain(raw.head(FREE_BLOCKS), NEXT_BLOCK).unwrap_or_default();
            let free: HashSet<usize> = free.into_iter().collect();
            of(&|at| !free.contains(&at))
        }
        Record::Message => {
            let mut found = of(&|at| counts(raw, at / 4, at % 4));
            found.retain(|at| *at >= message_slot(1, 0));
            found
        }
    }
}

/// Whether a message counts: its object is a living process, its place below COUNT.
fn counts(raw: &RawStore, object: usize, place: usize) -> bool {
    raw.object_lives(object)
        && raw.is_process(object)
        && place < usize::from(raw.get(COUNT, object))
}

/// Damages the store by so many kinds drawn from the list; gives those that had a place.
pub fn damage(raw: &mut RawStore, kinds: &[Kind], count: u32, random: &mut Random) -> Vec<Kind> {
    let drawn: Vec<Kind> = (0..count).filter_map(|_| random.pick(kinds)).collect();
    drawn.into_iter().filter(|kind| kind.apply(raw, random)).collect()
}
