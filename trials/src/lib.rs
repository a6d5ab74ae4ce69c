//! What is tried on the reference and on the verified kernel.
//!
//! `generate`, with `profiles` and `random`, makes random calls and scripts (`make-script`);
//! `conditions`, `scenes` and `coverage` count what they meet (`coverage`). `picks` makes picks of
//! the loom drive, `hooks` reads and writes by hook, `bills` those of royalties, `counts` questions
//! for the number of passwords, and `lends` questions what can be lent; `met` counts what those
//! meet. `edges` is 01's edges and 02's as scripts; `examples` prints answered scripts as
//! definitions (`script-table`), and `table` reads examples that stand among definitions.
//!
//! `raw` is a store in slices (`layout` has the offsets, `encode` lays a store out), `oracle` and
//! `plain` check that slices are well formed, `damage` and `crafted` spoil them, and `samples`
//! has random runs and stores to do so with.

pub mod bills;
pub mod conditions;
pub mod counts;
pub mod coverage;
pub mod crafted;
pub mod damage;
pub mod edges;
pub mod encode;
pub mod examples;
pub mod generate;
pub mod hooks;
pub mod layout;
pub mod lends;
pub mod met;
pub mod oracle;
pub mod picks;
pub mod plain;
pub mod profiles;
pub mod random;
pub mod raw;
pub mod samples;
pub mod scenes;
pub mod table;
