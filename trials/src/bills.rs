//! Bills of 02's royalties for a store, by patterns whose counts are carried on from bill to bill:
//! mostly such that the presented capability can pay, of every kind of picks. Some are passed
//! another count or are spoilt, so that every answer is met.

use crate::conditions::{holding, Condition};
use crate::generate::{limit, Generator};
use crate::met::Scene;
use reference::call::Name;
use reference::kernel::Store;
use reference::numbers::*;
use reference::royalties::{charge, charge_at_once, Bill, Billed};
use std::collections::BTreeMap;

/// The call that a bill makes.
const WITHDRAW: u32 = 8;

/// The last picks of the tariff's steps, and the largest count.
const BORDERS: [u32; 3] = [FIRST_PICKS, NEXT_PICKS, MAX_COUNT];

/// Patterns by their objects' names, each with its accepted bills: "the first passed 0 and each
/// later one the count last handed back".
#[derive(Default)]
pub struct Patterns(BTreeMap<Name, Account>);

/// The accepted bills of a pattern.
#[derive(Clone, Copy, Debug, Default)]
pub struct Account {
    /// The count last handed back.
    pub count: u32,
    /// How many there were, and their picks and sums in all.
    pub bills: u32,
    pub picks: u64,
    pub sums: u64,
}

impl Patterns {
    fn count(&self, name: Name) -> u32 {
        self.0.get(&name).map_or(0, |account| account.count)
    }

    /// Books a bill with its answer; one that was passed another count is not of the list. The
    /// pattern's bills so far.
    pub fn book(&mut self, bill: &Bill, billed: &Billed) -> Account {
        let account = self.0.entry(bill.key.name).or_default();
        if bill.count == account.count {
            account.count = billed.count;
            if billed.code == DONE {
                account.bills += 1;
                account.picks += u64::from(bill.picks);
                account.sums += u64::from(billed.sum);
            }
        }
        *account
    }
}

impl Account {
    /// Whether the bills "add up to the charge for their picks", and the count is that of these.
    pub fn adds_up(&self) -> bool {
        self.picks == u64::from(self.count) && self.sums == u64::from(charge(self.count))
    }
}

impl Generator {
    /// The next bill for this store.
    pub fn next_bill(&mut self, store: &Store, patterns: &mut Patterns) -> Bill {
        self.draw_care();
        let caller = self.caller(store, WITHDRAW);
        let target = self.target(store, caller, WITHDRAW);
        let key = self.present(store, caller, target);
        let count = self.passed(patterns, key.name);
        let purse = target.map_or(0, |place| limit(store, place));
        Bill { caller, key, count, picks: self.billed_picks(count, purse) }
    }

    /// The count that is passed: mostly the pattern's own, else one at a border, or any. Now and
    /// then, more often where few picks are left to bill, a new pattern begins.
    fn passed(&mut self, patterns: &mut Patterns, name: Name) -> u32 {
        let own = patterns.count(name);
        if self.random.chance(if own > MAX_COUNT / 2 { 300 } else { 10 }) {
            patterns.0.remove(&name);
        }
        match self.random.below(10) {
            0 | 1 => self.border(),
            2 => self.random.between(0, MAX_COUNT),
            _ => patterns.count(name),
        }
    }

    /// A count at a border, one below, or one above it.
    fn border(&mut self) -> u32 {
        let border = self.random.pick(&BORDERS).unwrap_or(0);
        (border - 1).saturating_add(self.random.below(3))
    }

    /// Picks to bill after a count: none, a few, up to the next border or near any, all that a
    /// purse pays for or one more, to the end of the range or one beyond, or any.
    fn billed_picks(&mut self, count: u32, purse: u32) -> u32 {
        let most = affordable(count, purse);
        match self.random.below(12) {
            0 => 0,
            1 | 2 => self.random.between(1, 60),
            3 | 4 => BORDERS.iter().find(|border| **border > count).map_or(0, |next| next - count),
            5 => self.border().saturating_sub(count),
            6 => most,
            7 => most.saturating_add(1),
            8 => (MAX_COUNT - count).saturating_add(self.random.below(2)),
            9 => self.random.between(0, MAX_WORD),
            _ => self.random.between(0, most),
        }
    }
}

/// The most picks after a count whose bill is not above a sum. They are found by halving.
fn affordable(count: u32, sum: u32) -> u32 {
    let (mut least, mut most) = (count, MAX_COUNT);
    while least < most {
        let middle = most - (most - least) / 2;
        if charge_at_once(middle) - charge_at_once(count) <= sum {
            least = middle;
        } else {
            most = middle - 1;
        }
    }
    least - count
}

/// A bill with what the scenes look at.
pub struct Tried {
    bill: Bill,
    /// p + n and the sum; none where the count would pass.
    total: Option<u32>,
    sum: Option<u32>,
    /// All conditions of the withdraw that hold, where there is no sum of one of 0.
    held: Vec<Condition>,
    /// The most that could be withdrawn.
    purse: Option<u32>,
}

impl Tried {
    /// A bill that is to be made on a store.
    pub fn new(store: &Store, bill: &Bill) -> Tried {
        let total = bill.total();
        let sum = total.map(|total| bill.sum(total));
        let held = holding(store, &bill.withdraw(sum.unwrap_or(0)));
        let purse = store.find(bill.caller, bill.key).map(|place| limit(store, place));
        Tried { bill: *bill, total, sum, held, purse }
    }

    fn nothing(&self) -> bool {
        self.sum == Some(0)
    }

    /// Whether it bills picks on both sides of a border.
    fn crosses(&self, border: u32) -> bool {
        self.bill.count < border && self.total > Some(border)
    }

    fn ends_on(&self, border: u32) -> bool {
        self.bill.count < border && self.total == Some(border)
    }

    fn starts_on(&self, border: u32) -> bool {
        self.bill.count == border && self.bill.picks > 0
    }

    fn holds(&self, refusal: u32) -> bool {
        self.held.iter().any(|condition| condition.refusal == refusal)
    }

    /// Whether a moneyword above is below the sum, and the capability's own is not.
    fn only_above(&self) -> bool {
        self.held.iter().all(|condition| condition.case != "own moneyword")
    }
}

/// What done bills must meet.
const DONE_BILLS: [Scene<Tried>; 17] = [
    ("no picks", DONE, |tried| tried.bill.picks == 0),
    ("some picks for nothing", DONE, |tried| tried.nothing() && tried.bill.picks > 0),
    ("one credit", DONE, |tried| tried.sum == Some(1)),
    ("more than a million credits", DONE, |tried| tried.sum > Some(1_000_000)),
    ("all of the purse", DONE, |tried| !tried.nothing() && tried.sum == tried.purse),
    ("pick 10,000 the last", DONE, |tried| tried.ends_on(FIRST_PICKS)),
    ("pick 10,000 and later ones", DONE, |tried| tried.crosses(FIRST_PICKS)),
    ("from pick 10,001 on", DONE, |tried| tried.starts_on(FIRST_PICKS)),
    ("pick 10,000 alone", DONE, |tried| tried.ends_on(FIRST_PICKS) && tried.bill.picks == 1),
    ("pick 100,000 the last", DONE, |tried| tried.ends_on(NEXT_PICKS)),
    ("pick 100,000 and later ones", DONE, |tried| tried.crosses(NEXT_PICKS)),
    ("from pick 100,001 on", DONE, |tried| tried.starts_on(NEXT_PICKS)),
    ("pick 100,000 alone", DONE, |tried| tried.ends_on(NEXT_PICKS) && tried.bill.picks == 1),
    ("picks at all three rates", DONE, |tried| {
        tried.crosses(FIRST_PICKS) && tried.crosses(NEXT_PICKS)
    }),
    ("up to the largest count", DONE, |tried| tried.ends_on(MAX_COUNT)),
    ("all picks up to the largest count", DONE, |tried| tried.bill.picks == MAX_COUNT),
    ("no picks at the largest count", DONE, |tried| tried.bill.count == MAX_COUNT),
];

/// What bills whose count would pass must meet, whatever else is wrong.
const PASSING_BILLS: [Scene<Tried>; 10] = [
    ("nothing else wrong", COUNT_PASSES, |tried| tried.held.is_empty()),
    ("by one pick", COUNT_PASSES, |tried| passes_by_one(&tried.bill)),
    ("one pick at the largest count", COUNT_PASSES, |tried| {
        tried.bill.count == MAX_COUNT && tried.bill.picks == 1
    }),
    ("the most picks after some", COUNT_PASSES, |tried| {
        tried.bill.count < NEXT_PICKS && passes_by_one(&tried.bill)
    }),
    ("a name, too", COUNT_PASSES, |tried| tried.holds(OUT_OF_RANGE)),
    ("the caller does not run, too", COUNT_PASSES, |tried| tried.holds(NOT_RUNNING)),
    ("the caller cannot pay, either", COUNT_PASSES, |tried| tried.holds(CANNOT_PAY)),
    ("no such capability, either", COUNT_PASSES, |tried| tried.holds(NOT_FOUND)),
    ("an expired capability, too", COUNT_PASSES, |tried| tried.holds(EXPIRED)),
    ("no right, either", COUNT_PASSES, |tried| tried.holds(RIGHT_MISSING)),
];

/// What bills that the withdraw refuses must meet.
const REFUSED_BILLS: [Scene<Tried>; 16] = [
    ("a name", OUT_OF_RANGE, |tried| !tried.nothing()),
    ("a name, a bill of 0", OUT_OF_RANGE, Tried::nothing),
    ("the caller does not run", NOT_RUNNING, |tried| !tried.nothing()),
    ("the caller does not run, a bill of 0", NOT_RUNNING, Tried::nothing),
    ("the caller cannot pay", CANNOT_PAY, |tried| !tried.nothing()),
    ("the caller cannot pay, a bill of 0", CANNOT_PAY, Tried::nothing),
    ("no such capability", NOT_FOUND, |tried| !tried.nothing()),
    ("no such capability, a bill of 0", NOT_FOUND, Tried::nothing),
    ("an expired capability", EXPIRED, |tried| !tried.nothing()),
    ("an expired capability, a bill of 0", EXPIRED, Tried::nothing),
    ("an expired capability with too little", EXPIRED, |tried| tried.holds(TOO_LITTLE)),
    ("no right to withdraw", RIGHT_MISSING, |tried| !tried.nothing()),
    ("no right to withdraw, a bill of 0", RIGHT_MISSING, Tried::nothing),
    ("a credit too little", TOO_LITTLE, |tried| {
        tried.sum == tried.purse.and_then(|purse| purse.checked_add(1))
    }),
    ("far too little", TOO_LITTLE, |tried| tried.sum > Some(1_000_000)),
    ("too little above alone", TOO_LITTLE, Tried::only_above),
];

/// Every answer to a bill on a well-formed store, with the edges of the tariff and of the range.
pub const SCENES: [&[Scene<Tried>]; 3] = [&DONE_BILLS, &PASSING_BILLS, &REFUSED_BILLS];

fn passes_by_one(bill: &Bill) -> bool {
    u64::from(bill.count) + u64::from(bill.picks) == u64::from(MAX_COUNT) + 1
}
