//! Random bills of royalties on the reference, between the calls of random runs: the answer and
//! the sum by a second writing, what a bill leaves, that each pattern's bills add up, and every
//! scene met. And the examples of the verified definitions.

use reference::call::{Key, Name};
use reference::claims;
use reference::kernel::Store;
use reference::numbers::*;
use reference::royalties::{Bill, Billed};
use trials::bills::{Patterns, Tried, SCENES};
use trials::conditions::{holding, leave_fee};
use trials::met::Met;
use trials::profiles::PROFILES;
use trials::samples::calls_of_run;
use trials::table;

/// The charge, step by step of the tariff: the picks above each count, up to the next, at a rate.
fn charge(count: u64) -> u64 {
    let steps = [(0, 10_000, 40), (10_000, 100_000, 30), (100_000, u64::MAX, 20)];
    let of_step = |(above, up_to, rate): (u64, u64, u64)| {
        let picks = count.min(up_to).saturating_sub(above);
        picks * rate
    };
    steps.map(of_step).iter().sum::<u64>() / 1_000
}

/// The answer, and the store after it.
fn expected(before: &Store, bill: &Bill) -> (Billed, Store) {
    let (count, mut store) = (u64::from(bill.count), before.clone());
    let total = count + u64::from(bill.picks);
    let refused = |code| Billed { code, count: bill.count, sum: 0 };
    if total > 4_294_967_295 {
        return (refused(COUNT_PASSES), store);
    }
    let sum = (charge(total) - charge(count)) as u32;
    let call = bill.withdraw(sum);
    let code = holding(before, &call).first().map_or(DONE, |condition| condition.refusal);
    leave_fee(&mut store, &call, code);
    if code != DONE {
        return (refused(code), store);
    }
    store.objects.get_mut(&bill.caller).expect("the caller").cash += sum;
    let place = before.find(bill.caller, bill.key).expect("a capability");
    for place in before.climb(place) {
        store.capabilities.get_mut(&place).expect("a capability").moneyword -= sum;
    }
    (Billed { code, count: total as u32, sum }, store)
}

/// A run of each profile with a bill after each call; the most bills that one pattern had.
fn runs(seed: u64, met: &mut Met<Tried>) -> u32 {
    let mut longest = 0;
    for profile in PROFILES {
        let mut patterns = Patterns::default();
        calls_of_run(profile, seed, &mut |generator, store| {
            let bill = generator.next_bill(store, &mut patterns);
            let tried = Tried::new(store, &bill);
            let (billed, after) = expected(store, &bill);
            assert_eq!(bill.run(store), billed, "{bill:?}");
            assert!(*store == after, "changed otherwise: {bill:?}");
            assert_eq!(claims::well_formed(store), Ok(()), "{bill:?}");
            met.note(&tried, billed.code);
            let account = patterns.book(&bill, &billed);
            assert!(account.adds_up(), "{bill:?}: {account:?}");
            longest = longest.max(account.bills);
        });
    }
    longest
}

#[test]
fn random_bills() {
    let mut met = Met::new(&SCENES);
    let longest = (1..=4).map(|seed| runs(seed, &mut met)).max();
    for (scene, code, count) in met.counts() {
        println!("{code:>2} {scene:40}{count:>8}");
        assert!(count > 10, "not met: {scene}");
    }
    println!("the longest list of accepted bills: {longest:?}");
    assert!(longest > Some(50));
}

/// The table of examples that the definitions of verified royalties are proved to hold.
const EDGES: &str = include_str!("../../crates/product_royalties/specs/Edges.antt");

/// The reference gives for each example what the definitions do: the count and the picks; whether
/// they fit, the sum, and the count that a done bill hands back.
#[test]
fn edges() {
    let edges = table::edges(EDGES);
    assert_eq!(edges.len(), 23);
    for [count, picks, fits, sum, after] in edges {
        let bill = Bill { caller: Name::default(), key: Key::default(), count, picks };
        let total = bill.total();
        let expected = total.map_or((0, count), |total| (bill.sum(total), total));
        assert_eq!(u32::from(total.is_some()), fits, "{bill:?}");
        assert_eq!((sum, after), expected, "{bill:?}");
    }
}
