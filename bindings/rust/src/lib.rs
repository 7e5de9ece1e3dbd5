#![doc = include_str!("../README.md")]
#![deny(missing_docs, unsafe_op_in_unsafe_fn)]
#![warn(clippy::all, clippy::pedantic, clippy::undocumented_unsafe_blocks)]
// A call without a section of errors is refused only as `NoMemory`, or as the call that its text names. The library's
// numbers are cut to types that hold its limits. A result on the stack needs no allocation. Fields of `sys` have the
// names of the header. Public names are the crate's, not its private modules'. Debian's clippy doesn't have one of
// these lints.
#![allow(
    unknown_lints,
    clippy::missing_errors_doc,
    clippy::cast_possible_truncation,
    clippy::large_stack_arrays,
    clippy::module_name_repetitions,
    clippy::struct_field_names
)]

mod beside;
mod checkpoint;
mod exchange;
mod functions;
mod handle;
mod hints;
mod moment;
mod packed;
mod portion;
mod refusal;
mod renewal;
mod replica;
mod rows;
mod slots;
mod snapshot;
mod sync;
mod sys;
mod values;

pub use beside::{exchange_beside, renew_beside, renew_if_due, snapshot_beside, sync_beside, Lock};
pub use checkpoint::{CheckpointError, Damage};
pub use exchange::Exchange;
pub use functions::{compare, merge, place, read_offer, version};
pub use hints::Hints;
pub use packed::Packed;
pub use portion::Portion;
pub use refusal::Refusal;
pub use replica::{Config, Replica, RowsRefused};
pub use slots::Slots;
pub use snapshot::Snapshot;
pub use sync::Synced;
pub use values::{
    About, Bounds, Bytes, Clock, Counts, Entry, Hint, HintCounts, Kind, Loaded, OfferParts, Order, Pair, Progress,
    Receipt, Report, Root, SlotCounts, Source, Spot, Verdict, VerdictKind, Version,
};
