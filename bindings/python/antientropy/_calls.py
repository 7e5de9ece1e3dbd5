"""The raw calls: declarations of all calls of include/antientropy.h for ctypes.

A struct that a call writes is an array of 64-bit words here, named by the fields of a tuple in `_values`.
"""

from __future__ import annotations

from ctypes import Structure, c_bool, c_char_p, c_size_t, c_uint8, c_uint32, c_uint64, c_void_p
from typing import Any, Dict, Tuple

PREFIX = "antientropy_"

#: Prefix of the names of calls by a share, after the library's prefix.
SHARE = "share_"

#: Bytes of the longest key.
KEY_MAX = 255

#: Maximum number of pairs of a clock.
CLOCK_MAX = 32

#: Bytes of a digest.
ROOT_LEN = 32

#: Bytes of an ask. In a buffer of this length, no ask is an outline.
ASK_LEN = 8

#: Bytes of the longest packed entry.
ENTRY_MAX = 66_122


class HandleStruct(Structure):
    """A handle: hints have all of these fields, the other structs of the header the first two."""

    _fields_ = [("at", c_void_p), ("held", c_bool), ("before", c_uint64)]


_HANDLE = (c_void_p,)
_STRUCT = (c_void_p,)
_NUMBER = (c_void_p,)
_BYTES = (c_char_p, c_size_t)
_PAIRS = (c_void_p, c_size_t)
_OUT = (c_void_p, c_size_t, c_void_p)
_KIND_OUT = (c_void_p, *_OUT)
_VERSION = (*_PAIRS, c_uint8, *_BYTES)

#: The result type and the argument types of each call, by its name without the prefix.
CALLS: Dict[str, Tuple[Any, Tuple[Any, ...]]] = {
    "version": (c_uint32, ()),
    "name": (c_uint32, (c_uint32, *_OUT)),
    "place": (c_uint32, (c_uint64, c_uint64, *_BYTES, *_STRUCT)),
    "new": (c_uint32, (*_HANDLE, c_uint64, c_uint64, c_uint64, c_uint64)),
    "new_seeded": (c_uint32, (*_HANDLE, *(c_uint64,) * 6)),
    "free": (None, _HANDLE),
    "migrate": (c_uint32, _HANDLE),
    "put_read": (c_uint32, (*_HANDLE, c_uint64, *_BYTES, *_VERSION, *_STRUCT)),
    "put": (c_uint32, (*_HANDLE, c_uint64, *_BYTES, *_VERSION, *_STRUCT)),
    "accept": (c_uint32, (*_HANDLE, *_BYTES, *_VERSION, *_NUMBER)),
    "compare": (c_uint32, (*_PAIRS, *_PAIRS, *_NUMBER)),
    "merge": (c_uint32, (*_PAIRS, *_PAIRS, *_OUT)),
    "rehash": (c_uint32, _HANDLE),
    "rehash_some": (c_uint32, (*_HANDLE, c_uint64, *_NUMBER)),
    "hold": (c_uint32, _HANDLE),
    "drop_moment": (c_uint32, _HANDLE),
    "hash_moment": (c_uint32, (*_HANDLE, c_uint64, *_NUMBER)),
    "hash_portion": (c_uint32, _HANDLE),
    "install_portion": (c_uint32, (*_HANDLE, *_HANDLE, *_NUMBER)),
    "portion_free": (None, _HANDLE),
    "renewal_build": (c_uint32, _HANDLE),
    "renewal_finish": (c_uint32, (*_HANDLE, *_HANDLE)),
    "renewal_free": (None, _HANDLE),
    "snapshot_free": (None, _HANDLE),
    "read_offer": (c_uint32, (*_BYTES, *_STRUCT)),
    "load": (c_uint32, (*_HANDLE, *_BYTES, *_STRUCT)),
    "load_format": (c_uint32, (*_HANDLE, c_uint64, *_BYTES, *_STRUCT)),
    "open": (c_uint32, (*_HANDLE, c_uint64, *_BYTES, *_NUMBER)),
    "open_at_moment": (c_uint32, (*_HANDLE, c_uint64, *_BYTES, *_NUMBER)),
    "take": (c_uint32, (*_HANDLE, c_uint64, c_uint32, *_BYTES, *_STRUCT)),
    "cancel": (c_uint32, (*_HANDLE, c_uint64)),
    "drop_sessions": (c_uint32, _HANDLE),
    "exchange_open": (c_uint32, (*_HANDLE, *_HANDLE, c_uint64, *_BYTES, *_STRUCT)),
    "exchange_take": (c_uint32, (*_HANDLE, *_HANDLE, *_BYTES, *_STRUCT)),
    "exchange_lose": (c_uint32, (*_HANDLE, *_BYTES)),
    "exchange_go_on": (c_uint32, _HANDLE),
    "exchange_close": (c_uint32, (*_HANDLE, *_HANDLE)),
    "exchange_free": (None, _HANDLE),
    "hints_new": (c_uint32, _HANDLE),
    "hints_restore": (c_uint32, (*_HANDLE, c_uint64)),
    "hints_free": (None, _HANDLE),
    "hint_keep": (c_uint32, (*_HANDLE, c_uint64, *_BYTES, *_VERSION, *_NUMBER)),
    "hint_next": (c_uint32, (*_HANDLE, c_uint64, c_uint64, *_NUMBER)),
    "hint_owner": (c_uint32, (*_HANDLE, c_uint64, *_NUMBER)),
    "hint_key": (c_uint32, (*_HANDLE, c_uint64, *_OUT)),
    "hint_value": (c_uint32, (*_HANDLE, c_uint64, *_KIND_OUT)),
    "hint_clock": (c_uint32, (*_HANDLE, c_uint64, *_OUT)),
    "hint_confirm": (c_uint32, (*_HANDLE, c_uint64, c_bool)),
    "hints_renew": (c_uint32, _HANDLE),
    "hints_count": (c_uint32, (*_HANDLE, *_STRUCT)),
    "hints_bytes": (c_uint32, (*_HANDLE, *_NUMBER)),
    "slots_new": (c_uint32, (*_HANDLE, c_uint32, c_uint32, c_uint32)),
    "slots_free": (None, _HANDLE),
    "slot_lend": (c_uint32, _HANDLE),
    "slot_give_back": (c_uint32, _HANDLE),
    "slots_sample": (c_uint32, (*_HANDLE, c_uint64, c_uint32)),
    "slots_adjust": (c_uint32, (*_HANDLE, c_uint64, *_STRUCT)),
    "slots_set_target": (c_uint32, (*_HANDLE, c_uint32)),
    "slots_count": (c_uint32, (*_HANDLE, *_STRUCT)),
    # calls by shares: the handle is a copy, which only the call uses
    "share_renew": (c_uint32, (*_HANDLE, *_HANDLE, c_uint64)),
    "share_renewal_begin": (c_uint32, (*_HANDLE, c_uint64, *_HANDLE)),
    "share_count": (c_uint32, (*_HANDLE, *_STRUCT)),
    "share_about": (c_uint32, (*_HANDLE, *_STRUCT)),
    "share_bytes": (c_uint32, (*_HANDLE, *_STRUCT)),
    "share_get": (c_uint32, (*_HANDLE, *_BYTES, *_OUT)),
    "share_versions": (c_uint32, (*_HANDLE, *_BYTES, *_NUMBER)),
    "share_value": (c_uint32, (*_HANDLE, *_BYTES, c_uint64, *_KIND_OUT)),
    "share_clock": (c_uint32, (*_HANDLE, *_BYTES, c_uint64, *_OUT)),
    "share_read": (c_uint32, (*_HANDLE, *_BYTES, c_uint64, *_STRUCT, *_PAIRS, c_void_p, c_size_t)),
    "share_key_after": (c_uint32, (*_HANDLE, c_uint64, *_BYTES, *_OUT)),
    "share_key_next": (c_uint32, (*_HANDLE, c_uint64, *_OUT)),
    "share_entries": (c_uint32, (*_HANDLE, c_uint64, *_OUT, *_NUMBER)),
    "share_entry_key": (c_uint32, (*_HANDLE, c_uint64, *_OUT)),
    "share_entry_value": (c_uint32, (*_HANDLE, c_uint64, *_KIND_OUT)),
    "share_entry_clock": (c_uint32, (*_HANDLE, c_uint64, *_OUT)),
    "share_entry_source": (c_uint32, (*_HANDLE, c_uint64, *_NUMBER)),
    "share_top_counter": (c_uint32, (*_HANDLE, c_uint64, *_BYTES, c_uint64, *_NUMBER)),
    "share_outstanding": (c_uint32, (*_HANDLE, c_uint64, *_NUMBER)),
    "share_ask_at": (c_uint32, (*_HANDLE, c_uint64, c_uint64, c_uint32, *_OUT)),
    "share_ask": (c_uint32, (*_HANDLE, c_uint64, c_uint32, *_OUT)),
    "share_outline_at": (c_uint32, (*_HANDLE, c_uint64, c_uint64, c_uint32, c_uint64, *_OUT)),
    "share_session": (c_uint32, (*_HANDLE, c_uint64, *_NUMBER)),
    "share_take_portion": (c_uint32, (*_HANDLE, c_uint64, *_HANDLE)),
    "share_moment": (c_uint32, (*_HANDLE, *_HANDLE)),
    "share_snapshot": (c_uint32, (*_HANDLE, *_HANDLE)),
    "share_snapshot_share": (c_uint32, (*_HANDLE, *_HANDLE)),
    "share_snapshot_about": (c_uint32, (*_HANDLE, *_STRUCT)),
    "share_snapshot_bytes": (c_uint32, (*_HANDLE, *_NUMBER)),
    "share_snapshot_get": (c_uint32, (*_HANDLE, *_BYTES, *_OUT)),
    "share_snapshot_key_next": (c_uint32, (*_HANDLE, c_uint64, *_OUT)),
    "share_digest": (c_uint32, (*_HANDLE, c_uint64, c_uint64, *_OUT)),
    "share_root": (c_uint32, (*_HANDLE, *_OUT)),
    "share_offer": (c_uint32, (*_HANDLE, c_uint32, *_OUT)),
    "share_serve": (c_uint32, (*_HANDLE, c_uint32, *_BYTES, *_OUT)),
    "share_rows": (c_uint32, (*_HANDLE, c_uint64, *_OUT)),
    # of a renewal or an exchange, by a share of its replica
    "share_renewal_catch_up": (c_uint32, (*_HANDLE, *_HANDLE, c_uint64, *_NUMBER)),
    "share_exchange_next": (c_uint32, (*_HANDLE, *_HANDLE, *_OUT)),
    "share_exchange_report": (c_uint32, (*_HANDLE, *_HANDLE, *_STRUCT)),
    "share_exchange_left": (c_uint32, (*_HANDLE, *_HANDLE, c_uint64, *_STRUCT)),
}

#: Prefixes of the names of calls that change only their own handle, and read a replica.
_BY_REPLICA = ("share_renewal_catch_up", "share_exchange")

#: The calls that only read a handle, by their names without `share_`.
READS = frozenset(
    name[len(SHARE) :] for name in CALLS if name.startswith(SHARE) and not name.startswith(_BY_REPLICA)
)
