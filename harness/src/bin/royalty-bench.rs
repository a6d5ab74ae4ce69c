//! Times a bill beside the plain withdraw of its sum, both checked, in one run on a small and on a
//! full store. Prints medians and ratios.

use harness::bench::{keys, median, processes, time};
use harness::kernel;
use harness::request::{bill_request, Request, BILL_REPLY, BILL_REQUEST};
use reference::call::Key;
use reference::numbers::{DONE, NEXT_PICKS};
use reference::royalties::Bill;
use trials::encode::encode;
use trials::random::Random;
use trials::raw::RawStore;
use trials::samples::Shape;

const ROUNDS: usize = 301;

/// A bill by each capability of each process, all done, and the plain withdraws of their sums.
struct Case {
    name: String,
    raw: RawStore,
    bills: Vec<[u32; BILL_REQUEST]>,
    withdraws: Vec<Request>,
    /// The times of the list in nanoseconds, of bills and of withdraws.
    times: [Vec<u64>; 2],
}

/// Bills of picks at two rates.
fn case(objects: u32) -> Case {
    let store = processes(objects, 8, 512, Shape::Random);
    let keys = store.objects.keys().flat_map(|name| keys(&store, *name));
    let (count, total) = (NEXT_PICKS - 100, NEXT_PICKS + 100);
    let bill = |key: Key| Bill { caller: key.name, key, count, picks: total - count };
    let bills: Vec<Bill> = keys.map(bill).collect();
    let withdraw = |bill: &Bill| Request::new(&bill.withdraw(bill.sum(total)), 0);
    Case {
        name: format!("{objects} objects of 8"),
        raw: encode(&store, &mut Random::new(3)),
        bills: bills.iter().map(bill_request).collect(),
        withdraws: bills.iter().map(withdraw).collect(),
        times: Default::default(),
    }
}

impl Case {
    /// Times both; they go first by turns.
    fn round(&mut self) {
        let Case { raw, bills, withdraws, times, .. } = self;
        let (mut billed, mut plain, mut reply) = (raw.clone(), raw.clone(), [0; BILL_REPLY]);
        let first = times[0].len() % 2;
        for which in [first, 1 - first] {
            times[which].push(time(|| match which {
                0 => bills.iter().for_each(|bill| {
                    assert_eq!(kernel::bill(&mut billed, bill, &mut reply), DONE);
                }),
                _ => withdraws.iter().for_each(|withdraw| {
                    assert_eq!(kernel::call(&mut plain, withdraw, &mut [], &mut [])[0], DONE);
                }),
            }));
        }
        assert!(billed == plain, "otherwise than the plain calls");
    }

    fn print(&self) {
        let each = |times: &Vec<u64>| median(times) / self.bills.len() as f64;
        let [bill, withdraw] = self.times.each_ref().map(each);
        println!("{:28}{bill:>12.0}{withdraw:>12.0}{:>16.3}", self.name, bill / withdraw);
    }
}

fn main() {
    let mut cases = [4, 64].map(case);
    for _ in 0..ROUNDS {
        cases.iter_mut().for_each(Case::round);
    }
    println!("medians of {ROUNDS} rounds, nanoseconds for each, and ratios");
    println!("{:28}{:>12}{:>12}{:>16}", "store", "bill", "withdraw", "bill/withdraw");
    cases.iter().for_each(Case::print);
}
