//! The crafted damages: each makes a clause of 01's "A store is well formed when .." or of what 02
//! adds to it fail, and as far as can be no other, or changes the store and leaves it well formed.

mod links;
mod records;
mod values;

use crate::layout::*;
use crate::random::Random;
use crate::raw::RawStore;
use links::*;
use records::*;
use values::*;

/// A crafted kind of damage.
#[derive(Clone, Copy, Debug, PartialEq, Eq, PartialOrd, Ord)]
pub enum Crafted {
    // Trees
    RingOfParents,
    RingOfSiblings,
    SharedFirstChild,
    CrossedSiblings,
    CrossedTails,
    MasterWithSibling,
    MasterWithPrevious,
    FirstChildWithPrevious,
    ChildOfOtherTree,
    SecondMaster,
    SharedMaster,
    LostChild,
    // Free records
    FreeInTree,
    LivingInFreeChain,
    FreeObjectLost,
    FreeCapabilityLost,
    FreeBlockLost,
    FreeChainRing,
    // Blocks
    BlockInTwoChains,
    BlocksTooMany,
    BlocksTooFew,
    SizeTooLarge,
    // Ranges, names and money
    SliceLength,
    VolumeOutOfRange,
    DuplicateName,
    DuplicateP1,
    LockTopBit,
    WindowOutsideParent,
    WindowOfMaster,
    StartAfterEnd,
    RightsOutsideParent,
    RightsOutOfRange,
    LastDayAfterParent,
    LastDayBeforeChild,
    LastDayOfMaster,
    Flag2,
    Mark2,
    Count5,
    MessageLength17,
    TotalTooLarge,
    // Still well formed
    TotalAtLimit,
    SameP1InOtherObject,
    SameSerialOnOtherVolume,
    EmptyWindowAtEnd,
    ReorderedChildren,
    LastDayAtParent,
    LastDay0,
    AnyDay,
}

/// How a kind is done; none if the store has no place for it.
type Craft = fn(&mut RawStore, &mut Random) -> Option<()>;

const TREES: &[(Crafted, Craft)] = &[
    (Crafted::RingOfParents, ring_of_parents),
    (Crafted::RingOfSiblings, ring_of_siblings),
    (Crafted::SharedFirstChild, shared_first_child),
    (Crafted::CrossedSiblings, |raw, random| crossed(raw, random).map(|_| ())),
    (Crafted::CrossedTails, crossed_tails),
    (Crafted::MasterWithSibling, master_with_sibling),
    (Crafted::MasterWithPrevious, master_with_previous),
    (Crafted::FirstChildWithPrevious, first_child_with_previous),
    (Crafted::ChildOfOtherTree, child_of_other_tree),
    (Crafted::SecondMaster, second_master),
    (Crafted::SharedMaster, shared_master),
    (Crafted::LostChild, |raw, random| lose_leaf(raw, random).map(|_| ())),
];

const FREE_RECORDS: &[(Crafted, Craft)] = &[
    (Crafted::FreeInTree, free_in_tree),
    (Crafted::LivingInFreeChain, living_in_free_chain),
    (Crafted::FreeObjectLost, |raw, random| lose_free(raw, random, OBJECT_CHAIN)),
    (Crafted::FreeCapabilityLost, |raw, random| lose_free(raw, random, CAPABILITY_CHAIN)),
    (Crafted::FreeBlockLost, |raw, random| lose_free(raw, random, BLOCK_CHAIN)),
    (Crafted::FreeChainRing, free_chain_ring),
];

const BLOCK_CHAINS: &[(Crafted, Craft)] = &[
    (Crafted::BlockInTwoChains, block_in_two_chains),
    (Crafted::BlocksTooMany, blocks_too_many),
    (Crafted::BlocksTooFew, blocks_too_few),
    (Crafted::SizeTooLarge, size_too_large),
];

const RANGES: &[(Crafted, Craft)] = &[
    (Crafted::SliceLength, slice_length),
    (Crafted::VolumeOutOfRange, |raw, random| set_in_object(raw, random, VOLUME, 4)),
    (Crafted::DuplicateName, duplicate_name),
    (Crafted::DuplicateP1, duplicate_p1),
    (Crafted::LockTopBit, lock_top_bit),
    (Crafted::WindowOutsideParent, window_outside_parent),
    (Crafted::WindowOfMaster, window_of_master),
    (Crafted::StartAfterEnd, start_after_end),
    (Crafted::RightsOutsideParent, rights_outside_parent),
    (Crafted::RightsOutOfRange, rights_out_of_range),
    (Crafted::LastDayAfterParent, last_day_after_parent),
    (Crafted::LastDayBeforeChild, last_day_before_child),
    (Crafted::LastDayOfMaster, last_day_of_master),
    (Crafted::Flag2, |raw, random| set_in_object(raw, random, FLAG, 2)),
    (Crafted::Mark2, mark_2),
    (Crafted::Count5, |raw, random| set_in_process(raw, random, COUNT, 5)),
    (Crafted::MessageLength17, message_length_17),
    (Crafted::TotalTooLarge, |raw, _| set_total(raw, 1 << 32)),
];

const STILL_WELL_FORMED: &[(Crafted, Craft)] = &[
    (Crafted::TotalAtLimit, |raw, _| set_total(raw, u32::MAX.into())),
    (Crafted::SameP1InOtherObject, same_p1_in_other_object),
    (Crafted::SameSerialOnOtherVolume, same_serial_on_other_volume),
    (Crafted::EmptyWindowAtEnd, empty_window_at_end),
    (Crafted::ReorderedChildren, reordered_children),
    (Crafted::LastDayAtParent, last_day_at_parent),
    (Crafted::LastDay0, last_day_0),
    (Crafted::AnyDay, any_day),
];

fn table() -> impl Iterator<Item = &'static (Crafted, Craft)> {
    let spoiling = TREES.iter().chain(FREE_RECORDS).chain(BLOCK_CHAINS).chain(RANGES);
    spoiling.chain(STILL_WELL_FORMED)
}

impl Crafted {
    /// Every crafted kind.
    pub fn all() -> impl Iterator<Item = Crafted> {
        table().map(|(kind, _)| *kind)
    }

    /// Whether a well-formed store is one still after this kind.
    pub fn keeps_well_formed(self) -> bool {
        STILL_WELL_FORMED.iter().any(|(kind, _)| *kind == self)
    }

    /// Damages the store; false if it has no place for this kind, and then it is unchanged.
    pub fn apply(self, raw: &mut RawStore, random: &mut Random) -> bool {
        let mut damaged = raw.clone();
        let craft = table().find(|(kind, _)| *kind == self).map(|(_, craft)| craft);
        let done = craft.and_then(|craft| craft(&mut damaged, random)).is_some();
        if done {
            *raw = damaged;
        }
        done
    }
}
