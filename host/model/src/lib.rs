//! The rule sheet (document 01), and what the change requests (document 02) add to it, as a plain Rust program on flat byte buffers.
//!
//! It is written from the two documents and our readings of them (docs/DECISIONS.md), and from nothing else, so that the core and this model can be held against
//! each other: the tests give both the same input and compare the answers and every byte. So it aims at being read beside the documents, in their order and with
//! their words, and not at speed.
//!
//! Launch, store, mark, call, announce and discover take the arguments of the exported ones in the same order and answer with the documents' numbers.

pub mod answers;
pub mod call;
pub mod discovery;
pub mod launch;
pub mod lists;
pub mod machine;
pub mod sound;
pub mod steps;
pub mod vcpus;

pub use call::call;
pub use discovery::{announce, discover};
pub use launch::launch;
pub use sound::sound;
pub use steps::{mark, store};
