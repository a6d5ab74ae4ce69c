//! Crafted changes to values: ranges, names, days and money, and those that leave a store well
//! formed.

use super::records::*;
use crate::encode::shuffled;
use crate::layout::*;
use crate::random::Random;
use crate::raw::{decode, slots, RawStore};
use reference::numbers::{MAX_DAY, MAX_MESSAGE, MAX_RIGHTS, TOP};

pub fn slice_length(raw: &mut RawStore, random: &mut Random) -> Option<()> {
    match random.below(6) {
        0 => raw.bytes.push(0),
        1 => raw.links.push(0),
        2 => raw.words.push(0),
        3 => raw.bytes.truncate(BYTES - 1),
        4 => raw.links.truncate(LINKS - 1),
        _ => raw.words.truncate(WORDS - 1),
    }
    Some(())
}

pub fn duplicate_name(raw: &mut RawStore, random: &mut Random) -> Option<()> {
    let one = object(raw, random, |_| true)?;
    let other = object(raw, random, |at| at != one)?;
    raw.set(VOLUME, one, raw.get(VOLUME, other));
    raw.set(SERIAL, one, raw.get(SERIAL, other));
    Some(())
}

pub fn duplicate_p1(raw: &mut RawStore, random: &mut Random) -> Option<()> {
    let (one, _) = child(raw, random, |_, _| true)?;
    let owner = raw.link(OWNER, one);
    let other = capability(raw, random, |at| at != one && raw.link(OWNER, at) == owner)?;
    raw.set(P1, one, raw.get(P1, other));
    Some(())
}

pub fn lock_top_bit(raw: &mut RawStore, random: &mut Random) -> Option<()> {
    let at = some_process(raw, random)?;
    raw.set(LOCK1, at, raw.get(LOCK1, at) | TOP);
    Some(())
}

pub fn window_outside_parent(raw: &mut RawStore, random: &mut Random) -> Option<()> {
    let (at, parent) = child(raw, random, |_, _| true)?;
    match raw.get(START, parent).checked_sub(1).filter(|_| random.chance(500)) {
        Some(before) => raw.set(START, at, before),
        None => raw.set(END, at, raw.get(END, parent).checked_add(1)?),
    }
    Some(())
}

pub fn window_of_master(raw: &mut RawStore, random: &mut Random) -> Option<()> {
    let master = some_master(raw, random)?;
    raw.set(END, master, raw.get(END, master).checked_add(1)?);
    Some(())
}

/// Both ends lie in the parent's window, but the start after the end.
pub fn start_after_end(raw: &mut RawStore, random: &mut Random) -> Option<()> {
    let not_empty = |at| raw.get(START, at) < raw.get(END, at);
    let (at, parent) = child(raw, random, |at, parent| is_leaf(raw, at) && not_empty(parent))?;
    raw.set(START, at, raw.get(END, parent));
    raw.set(END, at, raw.get(START, parent));
    Some(())
}

/// A parent loses a right that its child has.
pub fn rights_outside_parent(raw: &mut RawStore, random: &mut Random) -> Option<()> {
    let (at, parent) = child(raw, random, |at, _| raw.get(RIGHTS, at) != 0)?;
    let lost = 1 << raw.get(RIGHTS, at).trailing_zeros();
    raw.set(RIGHTS, parent, raw.get(RIGHTS, parent) & !lost);
    Some(())
}

pub fn rights_out_of_range(raw: &mut RawStore, random: &mut Random) -> Option<()> {
    let master = some_master(raw, random)?;
    raw.set(RIGHTS, master, raw.get(RIGHTS, master) | (MAX_RIGHTS as u16 + 1));
    Some(())
}

/// A child's last day is one after its parent's.
pub fn last_day_after_parent(raw: &mut RawStore, random: &mut Random) -> Option<()> {
    let early = |parent| raw.get(LAST_DAY, parent) < u16::MAX;
    let (at, parent) = child(raw, random, |_, parent| early(parent))?;
    raw.set(LAST_DAY, at, raw.get(LAST_DAY, parent) + 1);
    Some(())
}

/// The last day of a parent that is no master is one before a child's.
pub fn last_day_before_child(raw: &mut RawStore, random: &mut Random) -> Option<()> {
    let no_master = |parent| raw.link(PARENT, parent) != 0;
    let later = |at| raw.get(LAST_DAY, at) > 0;
    let (at, parent) = child(raw, random, |at, parent| later(at) && no_master(parent))?;
    raw.set(LAST_DAY, parent, raw.get(LAST_DAY, at) - 1);
    Some(())
}

/// A master's last day is one too early, and those of its tree are not after it.
pub fn last_day_of_master(raw: &mut RawStore, random: &mut Random) -> Option<()> {
    let owner = raw.link(OWNER, some_master(raw, random)?);
    for at in slots(Record::Capability) {
        if raw.link(OWNER, at) == owner {
            raw.set(LAST_DAY, at, raw.get(LAST_DAY, at).min(MAX_DAY as u16 - 1));
        }
    }
    Some(())
}

pub fn mark_2(raw: &mut RawStore, random: &mut Random) -> Option<()> {
    let mark = random.pick(&[SUSPENDED, WAITING, TERMINATED])?;
    set_in_process(raw, random, mark, 2)
}

pub fn message_length_17(raw: &mut RawStore, random: &mut Random) -> Option<()> {
    let count = |at| u32::from(raw.get(COUNT, at));
    let at = object(raw, random, |at| raw.is_process(at) && count(at) > 0)?;
    let place = random.below(count(at)) as usize;
    raw.set(LENGTH, message_slot(at, place), MAX_MESSAGE as u8 + 1);
    Some(())
}

/// Gives the house what makes the money total this number.
pub fn set_total(raw: &mut RawStore, total: u64) -> Option<()> {
    let totals = decode(raw)?.totals();
    let house = total.checked_sub(totals.cash + totals.moneywords + totals.boxes)?;
    raw.set(HOUSE, 0, u32::try_from(house).ok()?);
    Some(())
}

// Still well formed

pub fn same_p1_in_other_object(raw: &mut RawStore, random: &mut Random) -> Option<()> {
    let one = capability(raw, random, |_| true)?;
    let owner = raw.link(OWNER, one);
    let other = capability(raw, random, |at| {
        raw.link(OWNER, at) != owner && !has_p1(raw, owner, raw.get(P1, at))
    })?;
    raw.set(P1, one, raw.get(P1, other));
    Some(())
}

pub fn same_serial_on_other_volume(raw: &mut RawStore, random: &mut Random) -> Option<()> {
    let one = object(raw, random, |_| true)?;
    let other = object(raw, random, |at| raw.get(VOLUME, at) != raw.get(VOLUME, one))?;
    let name = |at, serial| (raw.get(VOLUME, at), raw.get(SERIAL, serial));
    let taken = |at| raw.object_lives(at) && name(at, at) == name(one, other);
    if slots(Record::Object).any(taken) {
        return None;
    }
    raw.set(SERIAL, one, raw.get(SERIAL, other));
    Some(())
}

pub fn empty_window_at_end(raw: &mut RawStore, random: &mut Random) -> Option<()> {
    let (at, parent) = child(raw, random, |at, _| is_leaf(raw, at))?;
    raw.set(START, at, raw.get(END, parent));
    raw.set(END, at, raw.get(END, parent));
    Some(())
}

pub fn reordered_children(raw: &mut RawStore, random: &mut Random) -> Option<()> {
    let (_, parent) = child(raw, random, |at, _| raw.link(NEXT_CAP, at) != 0)?;
    let order = shuffled(children(raw, parent)?, random);
    raw.link_children(parent, &order);
    Some(())
}

pub fn last_day_at_parent(raw: &mut RawStore, random: &mut Random) -> Option<()> {
    let (at, parent) = child(raw, random, |_, _| true)?;
    raw.set(LAST_DAY, at, raw.get(LAST_DAY, parent));
    Some(())
}

pub fn last_day_0(raw: &mut RawStore, random: &mut Random) -> Option<()> {
    let (at, _) = child(raw, random, |at, _| is_leaf(raw, at))?;
    raw.set(LAST_DAY, at, 0);
    Some(())
}

/// The store's day is any number: before, at or after last days, or at an end of the range.
pub fn any_day(raw: &mut RawStore, random: &mut Random) -> Option<()> {
    let of_some = capability(raw, random, |_| true).map_or(0, |at| raw.get(LAST_DAY, at));
    let days = [0, of_some.saturating_sub(1), of_some, of_some.saturating_add(1), u16::MAX];
    let any = random.bits() as u16;
    raw.set(DAY, 0, random.pick(&days).filter(|_| random.chance(800)).unwrap_or(any));
    Some(())
}
