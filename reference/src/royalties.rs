//! 02's royalties by the pick, a product above the store: a bill for picks of a pattern, taken by
//! the plain withdraw. The count of picks is its user's, who passes it in and gets it back.

use crate::call::{Action, Call, Key, Name, Operation};
use crate::kernel::Store;
use crate::numbers::*;

/// Counts up to this one are small: their charge is added up pick by pick. The others, and they
/// lie past all steps of the tariff, have theirs by a closed form.
pub const SMALL: u32 = 120_000;

/// What one pick costs in thousandths, counted from 1: "The first 10,000 picks cost 40 thousandths
/// each, those after up to 100,000 cost 30, and the rest 20."
fn rate(pick: u32) -> u32 {
    if pick <= FIRST_PICKS {
        FIRST_RATE
    } else if pick <= NEXT_PICKS {
        NEXT_RATE
    } else {
        LAST_RATE
    }
}

/// The charge with the thousandths added pick by pick, each thousand of them made a credit.
pub fn charge_by_pick(count: u32) -> u32 {
    let (mut credits, mut thousandths) = (0, 0);
    for pick in 1..=count {
        thousandths += rate(pick);
        if thousandths >= CREDIT {
            (credits, thousandths) = (credits + 1, thousandths - CREDIT);
        }
    }
    credits
}

/// The charge by a closed form: all picks at the last rate, with what the earlier picks cost above
/// that. No pick costs a credit, so it fits as the count does.
pub fn charge_at_once(count: u32) -> u32 {
    let up_to = |most: u32| u64::from(count.min(most));
    let above_next = u64::from(FIRST_RATE - NEXT_RATE) * up_to(FIRST_PICKS);
    let above_last = u64::from(NEXT_RATE - LAST_RATE) * up_to(NEXT_PICKS);
    let thousandths = u64::from(LAST_RATE) * u64::from(count) + above_last + above_next;
    (thousandths / u64::from(CREDIT)) as u32
}

/// "The charge for p picks in total is the whole part of the exact sum of thousandths divided by
/// 1,000."
pub fn charge(count: u32) -> u32 {
    if count <= SMALL {
        charge_by_pick(count)
    } else {
        charge_at_once(count)
    }
}

/// A bill with everything that is handed over with it.
#[derive(Clone, Copy, Debug, PartialEq, Eq)]
pub struct Bill {
    pub caller: Name,
    /// The capability presented, from which the sum is taken.
    pub key: Key,
    /// p, the picks billed so far.
    pub count: u32,
    /// n, the picks to bill.
    pub picks: u32,
}

/// The answer to a bill.
#[derive(Clone, Copy, Debug, PartialEq, Eq)]
pub struct Billed {
    /// `DONE`, or the refusal's number.
    pub code: u32,
    /// "A done bill hands back p + n, a refused one p."
    pub count: u32,
    /// What was taken; a refused bill takes 0.
    pub sum: u32,
}

impl Bill {
    /// p + n, where that does not pass the largest count.
    pub fn total(&self) -> Option<u32> {
        let total = u64::from(self.count) + u64::from(self.picks);
        (total <= u64::from(MAX_COUNT)).then_some(total as u32)
    }

    /// "A bill for n more picks is the charge for p + n less the charge for p", here up to a total.
    pub fn sum(&self, total: u32) -> u32 {
        charge(total) - charge(self.count)
    }

    /// The plain withdraw of a sum.
    pub fn withdraw(&self, sum: u32) -> Call {
        let operation = Operation::On(self.key, Action::Withdraw { sum });
        Call { caller: self.caller, operation, buffer: 0, scratch: 0 }
    }

    /// Makes the bill on a store. 18 is "given before the withdraw is tried"; then the answer is
    /// the withdraw's.
    pub fn run(&self, store: &mut Store) -> Billed {
        let Some(count) = self.total() else {
            return self.refused(Refusal::CountPasses.number());
        };
        let sum = self.sum(count);
        match store.run(&self.withdraw(sum)).code {
            DONE => Billed { code: DONE, count, sum },
            code => self.refused(code),
        }
    }

    fn refused(&self, code: u32) -> Billed {
        Billed { code, count: self.count, sum: 0 }
    }
}
