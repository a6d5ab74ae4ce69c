//! The verified static library beside the independent reference: its functions on slices
//! (`kernel`), what a call hands over to it (`request`), the two held together (`pair`), a count
//! of the check's answers (`tally`), how deep it goes on the stack (`stack`), what benchmarks share
//! (`bench`), a store that tests share (`hall`), what they hand over with another length than it must
//! have (`lengths`), and the verified programs (`program`).

pub mod bench;
pub mod hall;
pub mod kernel;
pub mod lengths;
pub mod pair;
pub mod program;
pub mod request;
pub mod stack;
pub mod tally;
