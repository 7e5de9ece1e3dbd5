//! Tests of the crate, over the library that `build.rs` found.

mod checkpoint;
mod exchange;
mod functions;
mod header;
mod hints;
mod moments;
mod renewals;
mod replica;
mod slots;
mod support;
mod sync;
mod threads;
