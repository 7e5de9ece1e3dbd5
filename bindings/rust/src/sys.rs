//! The declarations of `include/antientropy.h`. `tests/header.rs` compares them with the header.
//!
//! A call is sound under these conditions. The SAFETY comments of the other modules refer to them:
//!
//! - The handle belongs to an `Owned`, which is borrowed exclusively, so no other call has it.
//! - A share is a copy of the handle of an `Owned`, and no other call has it meanwhile. The `Owned` is borrowed, so all
//!   concurrent calls of its handle are by shares.
//! - A pointer with a length points to one slice. An empty slice has an aligned pointer other than NULL.
//! - A result is written to a local variable or to a buffer of the length passed, and overlaps nothing.

use std::ffi::c_void;

use crate::values::{Bytes, Counts, HintCounts, Pair, Receipt, Root, SlotCounts};

/// Length of an ask. In a buffer of this length, no ask is an outline.
pub const ASK_LEN: usize = 8;

/// A handle. Hints have all of these fields, the other five structs of handles in the header the first two.
#[repr(C)]
#[derive(Clone, Copy)]
pub struct Handle {
    pub at: *mut c_void,
    pub held: bool,
    pub before: u64,
}

#[repr(C)]
#[derive(Default)]
pub struct Reading {
    pub versions: u64,
    pub pairs: u64,
    pub bytes: u64,
    pub kind: u64,
}

#[repr(C)]
#[derive(Default)]
pub struct Spot {
    pub range: u64,
    pub leaf: u64,
}

#[repr(C)]
#[derive(Default)]
pub struct OfferParts {
    pub number: u64,
    pub format: u64,
    pub range: u64,
    pub root: Root,
}

#[repr(C)]
pub struct Bounds {
    pub asks: u64,
    pub bytes: u64,
    pub bad: u64,
    pub lost: u64,
}

#[repr(C)]
#[derive(Default)]
pub struct Verdict {
    pub verdict: u64,
    pub cause: u64,
    pub accepted: u64,
    pub known: u64,
}

#[repr(C)]
#[derive(Default)]
pub struct Progress {
    pub report: u64,
    pub cause: u64,
    pub asks: u64,
    pub in_flight: u64,
    pub bytes_in_flight: u64,
    pub bad: u64,
    pub lost: u64,
    pub accepted: u64,
    pub known: u64,
    pub leaves: u64,
}

#[repr(C)]
#[derive(Default)]
pub struct Node {
    pub depth: u64,
    pub index: u64,
}

#[repr(C)]
#[derive(Default)]
pub struct Loaded {
    pub taken: u64,
    pub known: u64,
    pub offset: u64,
}

#[repr(C)]
#[derive(Default)]
pub struct About {
    pub format: u64,
    pub bits: u64,
    pub range: u64,
    pub entries: u64,
}

#[repr(C)]
#[derive(Default)]
pub struct Percentile {
    pub found: u64,
    pub micros: u64,
}

// The calls that read a replica or a snapshot. `share` is a copy of its handle, which only the call uses.
extern "C" {
    pub fn antientropy_share_renew(share: *mut Handle, into: *mut Handle, limit: u64) -> u32;
    pub fn antientropy_share_renewal_begin(share: *mut Handle, limit: u64, renewal: *mut Handle) -> u32;
    pub fn antientropy_share_renewal_catch_up(
        renewal: *mut Handle,
        share: *mut Handle,
        most: u64,
        left: *mut u64,
    ) -> u32;
    pub fn antientropy_share_count(share: *mut Handle, counts: *mut Counts) -> u32;
    pub fn antientropy_share_about(share: *mut Handle, about: *mut About) -> u32;
    pub fn antientropy_share_bytes(share: *mut Handle, bytes: *mut Bytes) -> u32;
    pub fn antientropy_share_get(
        share: *mut Handle,
        key: *const u8,
        key_len: usize,
        out: *mut u8,
        out_len: usize,
        need: *mut u64,
    ) -> u32;
    pub fn antientropy_share_read(
        share: *mut Handle,
        key: *const u8,
        key_len: usize,
        index: u64,
        reading: *mut Reading,
        pairs: *mut Pair,
        pairs_len: usize,
        value: *mut u8,
        value_len: usize,
    ) -> u32;
    pub fn antientropy_share_key_next(
        share: *mut Handle,
        leaf: u64,
        key: *mut u8,
        key_room: usize,
        key_len: *mut u64,
    ) -> u32;
    pub fn antientropy_share_entries(
        share: *mut Handle,
        from: u64,
        out: *mut u8,
        out_len: usize,
        need: *mut u64,
        next: *mut u64,
    ) -> u32;
    pub fn antientropy_share_entry_key(
        share: *mut Handle,
        number: u64,
        out: *mut u8,
        out_len: usize,
        need: *mut u64,
    ) -> u32;
    pub fn antientropy_share_entry_value(
        share: *mut Handle,
        number: u64,
        kind: *mut u8,
        out: *mut u8,
        out_len: usize,
        need: *mut u64,
    ) -> u32;
    pub fn antientropy_share_entry_clock(
        share: *mut Handle,
        number: u64,
        out: *mut Pair,
        out_len: usize,
        need: *mut u64,
    ) -> u32;
    pub fn antientropy_share_entry_source(share: *mut Handle, number: u64, source: *mut u64) -> u32;
    pub fn antientropy_share_top_counter(
        share: *mut Handle,
        node: u64,
        key: *const u8,
        key_len: usize,
        entries: u64,
        counter: *mut u64,
    ) -> u32;
    pub fn antientropy_share_take_portion(share: *mut Handle, most: u64, portion: *mut Handle) -> u32;
    pub fn antientropy_share_moment(share: *mut Handle, snapshot: *mut Handle) -> u32;
    pub fn antientropy_share_snapshot(share: *mut Handle, snapshot: *mut Handle) -> u32;
    pub fn antientropy_share_snapshot_share(share: *mut Handle, other: *mut Handle) -> u32;
    pub fn antientropy_share_snapshot_about(share: *mut Handle, about: *mut About) -> u32;
    pub fn antientropy_share_snapshot_bytes(share: *mut Handle, bytes: *mut u64) -> u32;
    pub fn antientropy_share_snapshot_get(
        share: *mut Handle,
        key: *const u8,
        key_len: usize,
        out: *mut u8,
        out_len: usize,
        need: *mut u64,
    ) -> u32;
    pub fn antientropy_share_snapshot_key_next(
        share: *mut Handle,
        leaf: u64,
        key: *mut u8,
        key_room: usize,
        key_len: *mut u64,
    ) -> u32;
    pub fn antientropy_share_digest(
        share: *mut Handle,
        depth: u64,
        index: u64,
        out: *mut u8,
        out_len: usize,
        need: *mut u64,
    ) -> u32;
    pub fn antientropy_share_root(share: *mut Handle, out: *mut u8, out_len: usize, need: *mut u64) -> u32;
    pub fn antientropy_share_offer(
        share: *mut Handle,
        number: u32,
        out: *mut u8,
        out_len: usize,
        need: *mut u64,
    ) -> u32;
    pub fn antientropy_share_serve(
        share: *mut Handle,
        number: u32,
        ask: *const u8,
        ask_len: usize,
        out: *mut u8,
        out_len: usize,
        need: *mut u64,
    ) -> u32;
    pub fn antientropy_share_rows(share: *mut Handle, leaf: u64, out: *mut u8, out_len: usize, need: *mut u64) -> u32;
    pub fn antientropy_share_exchange_next(
        exchange: *mut Handle,
        share: *mut Handle,
        out: *mut u8,
        out_len: usize,
        need: *mut u64,
    ) -> u32;
    pub fn antientropy_share_exchange_report(exchange: *mut Handle, share: *mut Handle, progress: *mut Progress)
        -> u32;
    pub fn antientropy_share_exchange_left(
        exchange: *mut Handle,
        share: *mut Handle,
        place: u64,
        node: *mut Node,
    ) -> u32;
}

// The other calls.
extern "C" {
    pub fn antientropy_version() -> u32;
    pub fn antientropy_name(number: u32, out: *mut u8, out_len: usize, need: *mut u64) -> u32;
    pub fn antientropy_place(format: u64, bits: u64, key: *const u8, key_len: usize, spot: *mut Spot) -> u32;
    pub fn antientropy_new(replica: *mut Handle, format: u64, bits: u64, range: u64, limit: u64) -> u32;
    pub fn antientropy_new_seeded(
        replica: *mut Handle,
        format: u64,
        bits: u64,
        range: u64,
        limit: u64,
        first: u64,
        second: u64,
    ) -> u32;
    pub fn antientropy_free(replica: *mut Handle);
    pub fn antientropy_migrate(replica: *mut Handle) -> u32;
    pub fn antientropy_put_read(
        replica: *mut Handle,
        node: u64,
        key: *const u8,
        key_len: usize,
        context: *const Pair,
        context_len: usize,
        kind: u8,
        value: *const u8,
        value_len: usize,
        receipt: *mut Receipt,
    ) -> u32;
    pub fn antientropy_put(
        replica: *mut Handle,
        node: u64,
        key: *const u8,
        key_len: usize,
        context: *const Pair,
        context_len: usize,
        kind: u8,
        value: *const u8,
        value_len: usize,
        receipt: *mut Receipt,
    ) -> u32;
    pub fn antientropy_accept(
        replica: *mut Handle,
        key: *const u8,
        key_len: usize,
        clock: *const Pair,
        clock_len: usize,
        kind: u8,
        value: *const u8,
        value_len: usize,
        taken: *mut u64,
    ) -> u32;
    pub fn antientropy_compare(
        first: *const Pair,
        first_len: usize,
        second: *const Pair,
        second_len: usize,
        order: *mut u64,
    ) -> u32;
    pub fn antientropy_merge(
        first: *const Pair,
        first_len: usize,
        second: *const Pair,
        second_len: usize,
        out: *mut Pair,
        out_len: usize,
        need: *mut u64,
    ) -> u32;
    pub fn antientropy_rehash(replica: *mut Handle) -> u32;
    pub fn antientropy_rehash_some(replica: *mut Handle, most: u64, left: *mut u64) -> u32;
    pub fn antientropy_hold(replica: *mut Handle) -> u32;
    pub fn antientropy_drop_moment(replica: *mut Handle) -> u32;
    pub fn antientropy_hash_moment(replica: *mut Handle, most: u64, left: *mut u64) -> u32;
    pub fn antientropy_hash_portion(portion: *mut Handle) -> u32;
    pub fn antientropy_install_portion(replica: *mut Handle, portion: *mut Handle, left: *mut u64) -> u32;
    pub fn antientropy_portion_free(portion: *mut Handle);
    pub fn antientropy_renewal_build(renewal: *mut Handle) -> u32;
    pub fn antientropy_renewal_finish(renewal: *mut Handle, replica: *mut Handle) -> u32;
    pub fn antientropy_renewal_free(renewal: *mut Handle);
    pub fn antientropy_snapshot_free(snapshot: *mut Handle);
    pub fn antientropy_read_offer(offer: *const u8, offer_len: usize, parts: *mut OfferParts) -> u32;
    pub fn antientropy_load(replica: *mut Handle, rows: *const u8, rows_len: usize, loaded: *mut Loaded) -> u32;
    pub fn antientropy_load_format(
        replica: *mut Handle,
        format: u64,
        rows: *const u8,
        rows_len: usize,
        loaded: *mut Loaded,
    ) -> u32;
    pub fn antientropy_drop_sessions(replica: *mut Handle) -> u32;
    pub fn antientropy_exchange_open(
        replica: *mut Handle,
        exchange: *mut Handle,
        partner: u64,
        offer: *const u8,
        offer_len: usize,
        bounds: *const Bounds,
    ) -> u32;
    pub fn antientropy_exchange_take(
        exchange: *mut Handle,
        replica: *mut Handle,
        answer: *const u8,
        answer_len: usize,
        verdict: *mut Verdict,
    ) -> u32;
    pub fn antientropy_exchange_lose(exchange: *mut Handle, ask: *const u8, ask_len: usize) -> u32;
    pub fn antientropy_exchange_go_on(exchange: *mut Handle) -> u32;
    pub fn antientropy_exchange_close(exchange: *mut Handle, replica: *mut Handle) -> u32;
    pub fn antientropy_exchange_free(exchange: *mut Handle);
    pub fn antientropy_hints_new(hints: *mut Handle) -> u32;
    pub fn antientropy_hints_restore(hints: *mut Handle, first: u64) -> u32;
    pub fn antientropy_hints_free(hints: *mut Handle);
    pub fn antientropy_hint_keep(
        hints: *mut Handle,
        owner: u64,
        key: *const u8,
        key_len: usize,
        clock: *const Pair,
        clock_len: usize,
        kind: u8,
        value: *const u8,
        value_len: usize,
        id: *mut u64,
    ) -> u32;
    pub fn antientropy_hint_next(hints: *mut Handle, owner: u64, after: u64, id: *mut u64) -> u32;
    pub fn antientropy_hint_owner(hints: *mut Handle, id: u64, owner: *mut u64) -> u32;
    pub fn antientropy_hint_key(hints: *mut Handle, id: u64, out: *mut u8, out_len: usize, need: *mut u64) -> u32;
    pub fn antientropy_hint_value(
        hints: *mut Handle,
        id: u64,
        kind: *mut u8,
        out: *mut u8,
        out_len: usize,
        need: *mut u64,
    ) -> u32;
    pub fn antientropy_hint_clock(hints: *mut Handle, id: u64, out: *mut Pair, out_len: usize, need: *mut u64) -> u32;
    pub fn antientropy_hint_confirm(hints: *mut Handle, id: u64, known: bool) -> u32;
    pub fn antientropy_hints_renew(hints: *mut Handle) -> u32;
    pub fn antientropy_hints_count(hints: *mut Handle, counts: *mut HintCounts) -> u32;
    pub fn antientropy_hints_bytes(hints: *mut Handle, bytes: *mut u64) -> u32;
    pub fn antientropy_slots_new(slots: *mut Handle, floor: u32, ceiling: u32, threshold: u32) -> u32;
    pub fn antientropy_slots_free(slots: *mut Handle);
    pub fn antientropy_slot_lend(slots: *mut Handle) -> u32;
    pub fn antientropy_slot_give_back(slots: *mut Handle) -> u32;
    pub fn antientropy_slots_sample(slots: *mut Handle, moment: u64, micros: u32) -> u32;
    pub fn antientropy_slots_adjust(slots: *mut Handle, now: u64, p99: *mut Percentile) -> u32;
    pub fn antientropy_slots_set_target(slots: *mut Handle, target: u32) -> u32;
    pub fn antientropy_slots_count(slots: *mut Handle, counts: *mut SlotCounts) -> u32;
}
