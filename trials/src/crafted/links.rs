//! Crafted damages to links: trees, free records and blocks.

use super::records::*;
use crate::layout::*;
use crate::random::Random;
use crate::raw::RawStore;
use reference::numbers::MAX_SIZE;

pub fn new_leaves(raw: &mut RawStore, random: &mut Random) -> Option<Vec<usize>> {
    let parent = some_master(raw, random)?;
    (0..random.between(1, 4)).map(|_| new_leaf(raw, parent)).collect()
}

/// Capabilities each of which is the only child of the one before, and the first of the last.
pub fn ring_of_parents(raw: &mut RawStore, random: &mut Random) -> Option<()> {
    let ring = new_leaves(raw, random)?;
    for (at, parent) in ring.iter().enumerate() {
        raw.link_children(*parent, &[ring[(at + 1) % ring.len()]]);
    }
    Some(())
}

/// Siblings chained in a ring, which their parent does not name.
pub fn ring_of_siblings(raw: &mut RawStore, random: &mut Random) -> Option<()> {
    let ring = new_leaves(raw, random)?;
    for (at, one) in ring.iter().enumerate() {
        let next = ring[(at + 1) % ring.len()];
        raw.set_link(NEXT_CAP, *one, next);
        raw.set_link(PREV_CAP, next, *one);
    }
    Some(())
}

/// Two parents name one first child.
pub fn shared_first_child(raw: &mut RawStore, random: &mut Random) -> Option<()> {
    let parent = capability(raw, random, |at| !is_leaf(raw, at))?;
    let other = capability(raw, random, |at| is_leaf(raw, at))?;
    raw.set_link(FIRST_CHILD, other, raw.link(FIRST_CHILD, parent));
    Some(())
}

/// Two children of different parents exchange what follows them; gives the two.
pub fn crossed(raw: &mut RawStore, random: &mut Random) -> Option<[usize; 2]> {
    let (one, parent) = child(raw, random, |at, _| raw.link(NEXT_CAP, at) != 0)?;
    let (other, _) = child(raw, random, |_, its| its != parent)?;
    let next = raw.link(NEXT_CAP, one);
    raw.set_link(NEXT_CAP, one, raw.link(NEXT_CAP, other));
    raw.set_link(NEXT_CAP, other, next);
    Some([one, other])
}

/// Crossed, and the links back agree; only the parents of the tails are wrong.
pub fn crossed_tails(raw: &mut RawStore, random: &mut Random) -> Option<()> {
    for at in crossed(raw, random)? {
        let next = raw.link(NEXT_CAP, at);
        if next != 0 {
            raw.set_link(PREV_CAP, next, at);
        }
    }
    Some(())
}

pub fn master_with_sibling(raw: &mut RawStore, random: &mut Random) -> Option<()> {
    let master = some_master(raw, random)?;
    let sibling = new_leaf(raw, master)?;
    raw.set_link(PARENT, sibling, 0);
    raw.set_link(PREV_CAP, sibling, master);
    raw.set_link(NEXT_CAP, master, sibling);
    Some(())
}

pub fn master_with_previous(raw: &mut RawStore, random: &mut Random) -> Option<()> {
    let master = some_master(raw, random)?;
    let previous = some_slot(Record::Capability, random, |_| true)?;
    raw.set_link(PREV_CAP, master, previous);
    Some(())
}

pub fn first_child_with_previous(raw: &mut RawStore, random: &mut Random) -> Option<()> {
    let (first, _) = child(raw, random, |at, parent| raw.link(FIRST_CHILD, parent) == at)?;
    let previous = some_slot(Record::Capability, random, |_| true)?;
    raw.set_link(PREV_CAP, first, previous);
    Some(())
}

/// A leaf moves to the tree of an object that is not its own.
pub fn child_of_other_tree(raw: &mut RawStore, random: &mut Random) -> Option<()> {
    let (leaf, _) = child(raw, random, |at, _| is_leaf(raw, at))?;
    let owner = raw.link(OWNER, leaf);
    let parent = capability(raw, random, |at| raw.link(OWNER, at) != owner)?;
    unlink(raw, leaf)?;
    fit(raw, leaf, parent);
    adopt(raw, parent, leaf)
}

/// A capability without a parent that no object names.
pub fn second_master(raw: &mut RawStore, random: &mut Random) -> Option<()> {
    let master = some_master(raw, random)?;
    let second = new_leaf(raw, master)?;
    raw.set_link(PARENT, second, 0);
    Some(())
}

/// Two objects name one master.
pub fn shared_master(raw: &mut RawStore, random: &mut Random) -> Option<()> {
    let one = object(raw, random, |_| true)?;
    let other = object(raw, random, |at| at != one)?;
    raw.set_link(MASTER, one, raw.link(MASTER, other));
    Some(())
}

/// A leaf is in no chain; gives it.
pub fn lose_leaf(raw: &mut RawStore, random: &mut Random) -> Option<usize> {
    let (leaf, _) = child(raw, random, |at, _| is_leaf(raw, at))?;
    unlink(raw, leaf)?;
    Some(leaf)
}

// Free records

pub fn free_in_tree(raw: &mut RawStore, random: &mut Random) -> Option<()> {
    let parent = capability(raw, random, |_| true)?;
    let free = new_leaf(raw, parent)?;
    raw.set_link(OWNER, free, 0);
    adopt(raw, parent, free)
}

pub fn living_in_free_chain(raw: &mut RawStore, random: &mut Random) -> Option<()> {
    let leaf = lose_leaf(raw, random)?;
    give_free(raw, CAPABILITY_CHAIN, leaf);
    Some(())
}

/// A free record is in no chain.
pub fn lose_free(raw: &mut RawStore, random: &mut Random, kind: FreeChain) -> Option<()> {
    let mut chain = free_chain(raw, kind)?;
    let lost = random.pick(&chain)?;
    chain.retain(|at| *at != lost);
    raw.link_up(kind.0, 0, kind.1, &chain);
    Some(())
}

/// The last record of a free chain names one of the chain.
pub fn free_chain_ring(raw: &mut RawStore, random: &mut Random) -> Option<()> {
    let kind = random.pick(&[OBJECT_CHAIN, CAPABILITY_CHAIN, BLOCK_CHAIN])?;
    let chain = free_chain(raw, kind)?;
    raw.set_link(kind.1, *chain.last()?, random.pick(&chain)?);
    Some(())
}

// Blocks

pub fn blocks(raw: &RawStore, object: usize) -> Option<Vec<usize>> {
    raw.chain(raw.link(FIRST_BLOCK, object), NEXT_BLOCK)
}

pub fn set_blocks(raw: &mut RawStore, object: usize, chain: &[usize]) -> Option<()> {
    raw.link_up(FIRST_BLOCK, object, NEXT_BLOCK, chain);
    Some(())
}

pub fn has_block(raw: &RawStore, object: usize) -> bool {
    raw.link(FIRST_BLOCK, object) != 0
}

/// The last block of one object is that of another too, and its own is free.
pub fn block_in_two_chains(raw: &mut RawStore, random: &mut Random) -> Option<()> {
    let one = object(raw, random, |at| has_block(raw, at))?;
    let other = object(raw, random, |at| at != one && has_block(raw, at))?;
    let mut chain = blocks(raw, one)?;
    give_free(raw, BLOCK_CHAIN, chain.pop()?);
    chain.push(*blocks(raw, other)?.last()?);
    set_blocks(raw, one, &chain)
}

pub fn blocks_too_many(raw: &mut RawStore, random: &mut Random) -> Option<()> {
    let at = object(raw, random, |_| true)?;
    let mut chain = blocks(raw, at)?;
    chain.push(take_free(raw, BLOCK_CHAIN)?);
    set_blocks(raw, at, &chain)
}

pub fn blocks_too_few(raw: &mut RawStore, random: &mut Random) -> Option<()> {
    let at = object(raw, random, |at| has_block(raw, at))?;
    let mut chain = blocks(raw, at)?;
    give_free(raw, BLOCK_CHAIN, chain.pop()?);
    set_blocks(raw, at, &chain)
}

/// An object with a byte more than 01 allows, its blocks and its master's window to match.
pub fn size_too_large(raw: &mut RawStore, random: &mut Random) -> Option<()> {
    let at = object(raw, random, |_| true)?;
    let size = MAX_SIZE + 1;
    let mut chain = blocks(raw, at)?;
    while chain.len() < (size as usize).div_ceil(DATA.width) {
        chain.push(take_free(raw, BLOCK_CHAIN)?);
    }
    raw.set_link(SIZE, at, size as usize);
    raw.set(END, raw.link(MASTER, at), size);
    set_blocks(raw, at, &chain)
}
