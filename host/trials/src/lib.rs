//! What the tests try: numbers at random, the same in every run, calls that a guest might make, the rows of document 01, lists that stop at each of their
//! entries, callers of each VMPL, and every set of live records; of document 02, the discovery fields.

mod calls;
pub mod confined;
pub mod discovery;
pub mod lists;
mod random;
pub mod records;
pub mod refusals;
pub mod rows;
pub mod sixteen;

pub use calls::{draw_call, Call};
pub use random::{steps_or, Random};
