//! An independent reference of the hall store: a second reading of the scope paper ("01") and of
//! its changes ("02") over ordinary maps, to compare the verified kernel and its program with.
//!
//! `numbers` has the papers' numbers by name; `call` and `kernel` are the calls and the store;
//! `script` runs 01's scripts (`hall-reference`); `ledger` and `claims` check demand 3 beside a
//! run. 02's season licences are in all of these. `counting` is 02's count of passwords, and
//! `lending` its question what can be lent. Above the store, `drive` is its loom drive, in exact
//! rational arithmetic, `hooks` has its reads and writes by hook, and `royalties` its bills by the
//! pick.

pub mod call;
pub mod claims;
pub mod counting;
pub mod drive;
pub mod hooks;
pub mod kernel;
pub mod ledger;
pub mod lending;
pub mod numbers;
pub mod royalties;
pub mod script;
