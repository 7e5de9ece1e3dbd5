/* antientropy for C: one replica of a range of a Dynamo-style store, over the proved core.
 *
 * A program makes a replica, puts and reads versions, rehashes its tree, and syncs it with another replica by messages,
 * which it carries itself. Hints and slots are separate, and optional. The library starts no thread, opens no file or
 * socket, and takes no lock.
 * docs/EMBEDDING_C.md shows how to use it.
 *
 * RETURN VALUES
 *
 * Each call, except those that free, returns 0, or the number of the first cause in its list for which it was refused.
 * A refused call changes nothing, with three exceptions: an antientropy_rehash that runs out of memory may have made
 * some nodes clean, an antientropy_take that returns ANTIENTROPY_NOT_CANONICAL has failed its session, and a renewal
 * that is refused when it catches up or finishes may have accepted some entries. Unless a call says otherwise, it
 * writes through its result pointers only if it returns 0. A call of an empty handle (EMPTY) writes nothing, and
 * changes no other handle.
 *
 * RESULTS OF VARIABLE LENGTH
 *
 * A call that returns bytes takes a buffer of out_len bytes at `out`, and writes the number of bytes to `need`. If they
 * don't fit, it copies nothing and returns ANTIENTROPY_SMALL: nothing is lost, so call again with a larger buffer. If
 * it is refused for another cause, it leaves `need` unchanged.
 *
 * THE CALLER'S SIDE (nothing checks it)
 *
 * - Each pointer is valid, aligned and not NULL, even if its length is 0; a call that frees accepts NULL. Memory for
 *   out, need and the like belongs to the caller, and doesn't overlap the call's other arguments. No call gets one
 *   handle twice. The library keeps no pointer that it is passed.
 * - A handle (struct antientropy_replica, antientropy_renewal, antientropy_snapshot, antientropy_portion,
 *   antientropy_exchange, antientropy_hints, antientropy_slots) is initialised with `= {0}`, and the program doesn't
 *   touch its fields. It may be moved in memory between calls; only one of its copies is used. A handle whose bytes are
 *   all zero is empty.
 * - CONCURRENT READS, EXCLUSIVE CHANGES. A call that takes a handle as const reads it, and any number of threads may
 *   make such calls of one handle at once. A call that takes it without const has exclusive access: no other call of
 *   that handle, not even a read, is in progress meanwhile. A reader-writer lock does that. A handle may go to another
 *   thread if the program orders that: by a lock, by a thread's start or join, or by a sequentially consistent atomic.
 *   Different handles may be used at once, even a replica, its renewal, its snapshots and its portions.
 * - No call from a signal handler, or from the forked child of a process with threads.
 * - malloc, realloc and free belong to one allocator, which aligns blocks to 16 bytes.
 * - A put that follows a read is antientropy_put_read, which replaces only versions that its client has read. Before
 *   antientropy_put, no held version of the key has a greater counter of the node than the context. Otherwise the put
 *   may replace a version that its client never read. See docs/EMBEDDING_C.md, "A replica".
 * - Counters don't go back: a replica that lost entries returns under a node number that was never used (versions that
 *   no partner holds are lost), or with every version that it ever acknowledged, showed to a reader or sent to a
 *   partner (antientropy_accept accepts them). Otherwise a put can reuse a clock that another replica holds, and is
 *   silently lost. Therefore responses, copies, hints and offers are sent only after the versions in them are on disk.
 *   A clock has at most 32 pairs, and a node number that was used stays in it. See docs/EMBEDDING_C.md, "Restarts", and
 *   examples/restart.c.
 * - A renewal catches up with the replica that it began with, and replaces that one: another replica isn't always
 *   refused.
 * - Everything that was made is freed: antientropy_free, antientropy_renewal_free, antientropy_snapshot_free,
 *   antientropy_portion_free, antientropy_exchange_free, antientropy_hints_free, antientropy_slots_free. A renewal, a
 *   snapshot, a portion or an exchange may outlive its replica.
 */
#ifndef ANTIENTROPY_H
#define ANTIENTROPY_H

#include <stdbool.h>
#include <stddef.h>
#include <stdint.h>

#ifdef __cplusplus
extern "C" {
#endif

/* The version of this header. A new field of a struct, or a new argument of a call, needs a new soname. */
#define ANTIENTROPY_VERSION_MAJOR 2
#define ANTIENTROPY_VERSION_MINOR 0
#define ANTIENTROPY_VERSION_PATCH 0
#define ANTIENTROPY_VERSION \
    (10000 * ANTIENTROPY_VERSION_MAJOR + 100 * ANTIENTROPY_VERSION_MINOR + ANTIENTROPY_VERSION_PATCH)

/* Limits, in bytes unless noted otherwise. */
#define ANTIENTROPY_KEY_MAX 255
#define ANTIENTROPY_VALUE_MAX_1 4096      /* a value in format 1 */
#define ANTIENTROPY_VALUE_MAX_2 65536     /* a value in format 2 */
#define ANTIENTROPY_CLOCK_MAX 32          /* pairs of a clock */
#define ANTIENTROPY_VERSIONS_MAX 64       /* versions of a key */
#define ANTIENTROPY_NODE_MAX 65535        /* the greatest node number */
#define ANTIENTROPY_BITS_MAX 8            /* bits of a range's number */
#define ANTIENTROPY_ENTRIES_MAX 1000000   /* entries of a journal */
#define ANTIENTROPY_SESSIONS_MAX 1024     /* sessions that a replica keeps */
#define ANTIENTROPY_OPEN_SESSIONS_MAX 64  /* open sessions of a replica */
#define ANTIENTROPY_LEAVES_1 256          /* leaves of a tree of format 1 */
#define ANTIENTROPY_LEAVES_2 4096         /* leaves of a tree of format 2 */
#define ANTIENTROPY_NODES_1 273           /* nodes of a tree of format 1, and the most asks of a session */
#define ANTIENTROPY_NODES_2 4369          /* nodes of a tree of format 2 */
#define ANTIENTROPY_ROOT_LEN 32
#define ANTIENTROPY_OFFER_LEN 39
#define ANTIENTROPY_ASK_LEN 8
#define ANTIENTROPY_ASK_ROOM 4096         /* buffer for an ask, or for the outline of a leaf of up to 1,361 rows */
#define ANTIENTROPY_ROW_MAX 4215427       /* the text of a row */
#define ANTIENTROPY_ENTRY_MAX 66122       /* the text of an entry */
#define ANTIENTROPY_HINTS_MAX 10000       /* pending hints of a carrier */
#define ANTIENTROPY_SLOTS_MAX 1024        /* the greatest ceiling of slots */
#define ANTIENTROPY_NAME_MAX 14           /* a name of a number that a call returns */

/* Causes of refusal. Numbers 1 to 32 belong to the causes that scripts print; docs/FORMATS.md says how to handle each.
 * Numbers that no call here returns are left out. */
enum {
    ANTIENTROPY_OK = 0,
    ANTIENTROPY_BAD_CLOCK = 1,        /* a node is 0, over 65,535 or repeated, or a counter is 0 */
    ANTIENTROPY_CLOCK_FULL = 2,       /* the clock would have more than 32 pairs */
    ANTIENTROPY_COUNTER_FULL = 3,     /* the counter to raise is 2^64 - 1 */
    ANTIENTROPY_BAD_KEY = 4,          /* the key has no byte, or over 255; in key_next, more than the buffer */
    ANTIENTROPY_BAD_VALUE = 5,        /* too long; a tombstone with a value, or in format 1; or an unknown kind */
    ANTIENTROPY_STALE_CONTEXT = 6,    /* a held version has seen all of the new clock; in put_read, more of the node */
    ANTIENTROPY_CROWDED = 7,          /* the key would have over 64 versions */
    ANTIENTROPY_JOURNAL_FULL = 8,     /* the entries don't fit into the journal; in renew, or no numbers are left */
    ANTIENTROPY_OTHER_RANGE = 9,      /* a key or an offer belongs to another range, or the rows to two leaves */
    ANTIENTROPY_DIRTY = 10,           /* some node has no digest, or the replica has no moment */
    ANTIENTROPY_STALE = 11,           /* the replica isn't the renewal's */
    ANTIENTROPY_UNKNOWN_SESSION = 12, /* no session has this number */
    ANTIENTROPY_NOT_ASKED = 13,       /* the node isn't outstanding */
    ANTIENTROPY_WRONG_DIGEST = 14,    /* the text's digest isn't the expected one */
    ANTIENTROPY_NOT_CANONICAL = 15,   /* the digest matches, but the text isn't a node's: the session has failed */
    ANTIENTROPY_OTHER_FORMAT = 16,    /* the offer or the rows have another format */
    ANTIENTROPY_SESSIONS_FULL = 17,   /* 64 sessions are open, or 1,024 are kept: drop the ended ones */
    ANTIENTROPY_NO_SLOT = 18,         /* no slot is free, or none is lent */
    ANTIENTROPY_CLOCK_BACK = 19,      /* the time is before the latest one accepted */
    ANTIENTROPY_UNKNOWN_HINT = 20,    /* no pending hint has this number, or no hint can have it */
    ANTIENTROPY_HINTS_FULL = 21,      /* 10,000 hints are pending, or the last number was used */
    ANTIENTROPY_GONE = 22,            /* the ask is for another offer */
    ANTIENTROPY_BAD_RING = 27,        /* a format, or the numbers of a range or of slots, are outside the limits */
    ANTIENTROPY_ROW_BROKEN = 30,      /* the bytes aren't texts of rows */
    ANTIENTROPY_BAD_MESSAGE = 31,     /* not a message, not the expected kind, or a node that isn't in the tree */
    ANTIENTROPY_NO_MEMORY = 32,       /* malloc or realloc failed */
    ANTIENTROPY_SMALL = 33,           /* the buffer is too small */
    ANTIENTROPY_EMPTY = 34,           /* the handle is empty */
    ANTIENTROPY_HELD = 35,            /* the handle isn't empty */
    ANTIENTROPY_NO_VERSION = 36,      /* no such version, entry, hint or leaf, or none follows */
    ANTIENTROPY_BAD_POSITION = 37     /* entries can't be read from this number on: see antientropy_entries */
};

/* Kinds of versions. */
enum { ANTIENTROPY_LIVE = 0, ANTIENTROPY_TOMBSTONE = 1 };

/* Sources of an entry's version. */
enum {
    ANTIENTROPY_PUT = 0,    /* a put at this replica */
    ANTIENTROPY_COPY = 1,   /* accepted or loaded here, or carried over by a renewal */
    ANTIENTROPY_HINT = 2,   /* a delivered hint; this library accepts hints as copies */
    ANTIENTROPY_PARTNER = 3 /* a partner's, in a session */
};

/* States of a session. */
enum {
    ANTIENTROPY_OPEN = 0,      /* some node is outstanding */
    ANTIENTROPY_FINISHED = 1,  /* each ask was answered */
    ANTIENTROPY_FAILED = 2,    /* an answer had the right digest, but its text can't be a node's */
    ANTIENTROPY_CANCELLED = 3  /* ended before it was finished */
};

/* Verdicts of an exchange on an answer. */
enum {
    ANTIENTROPY_VERDICT_TAKEN = 0,   /* the session took it */
    ANTIENTROPY_VERDICT_LEFT = 1,    /* the leaf was left: a key in its text is crowded */
    ANTIENTROPY_VERDICT_BAD = 2,     /* it counts as bad: its cause is BAD_MESSAGE, NOT_ASKED or WRONG_DIGEST */
    ANTIENTROPY_VERDICT_LATE = 3,    /* late, for another offer, or after the exchange was over: not counted */
    ANTIENTROPY_VERDICT_REFUSED = 4, /* it was refused: its cause is JOURNAL_FULL or NO_MEMORY */
    ANTIENTROPY_VERDICT_FAILED = 5   /* the digest matches, but the text isn't a node's: the session has failed */
};

/* Reports of an exchange. It sends asks while it is WAITING. */
enum {
    ANTIENTROPY_REPORT_FINISHED = 0,      /* the replica holds each version of the offer, or one that has seen it */
    ANTIENTROPY_REPORT_WAITING = 1,       /* some node is to be asked for, or its ask is in progress */
    ANTIENTROPY_REPORT_LEFT = 2,          /* only leaves that were left are outstanding */
    ANTIENTROPY_REPORT_STOPPED = 3,       /* an answer was refused: call antientropy_exchange_go_on, or close */
    ANTIENTROPY_REPORT_TOO_MANY_BAD = 4,  /* more answers were bad than the bounds allow */
    ANTIENTROPY_REPORT_TOO_MANY_LOST = 5, /* more asks were lost than the bounds allow */
    ANTIENTROPY_REPORT_FAILED = 6,        /* the session has failed */
    ANTIENTROPY_REPORT_CLOSED = 7,        /* antientropy_exchange_close closed it */
    ANTIENTROPY_REPORT_GONE = 8           /* the replica doesn't have the session, or it was cancelled */
};

/* A handle of a replica of a range. It may hold nothing. (In C its name before version 1.0.0 still works.) */
struct antientropy_replica {
    void *at;
    bool held;
};
#ifndef __cplusplus
#define antientropy antientropy_replica
#endif

/* A handle of a renewal of a replica. It may hold nothing. */
struct antientropy_renewal {
    void *at;
    bool held;
};

/* A handle of a snapshot of a replica's rows. It may hold nothing. (C++ names it antientropy_offered, since there is a
 * function antientropy_snapshot.) */
struct antientropy_snapshot {
    void *at;
    bool held;
};
typedef struct antientropy_snapshot antientropy_offered;

/* A handle of a portion of the nodes of a replica's moment. It may hold nothing. */
struct antientropy_portion {
    void *at;
    bool held;
};

/* A handle of an exchange with a partner. It may hold nothing. */
struct antientropy_exchange {
    void *at;
    bool held;
};

/* A handle of the hints that a node carries for others. It may hold nothing. */
struct antientropy_hints {
    void *at;
    bool held;
    uint64_t before; /* the number before the store's first one */
};

/* A handle of slots for background work. It may hold nothing. */
struct antientropy_slots {
    void *at;
    bool held;
};

/* A pair of a clock: a node and its counter. */
struct antientropy_pair {
    uint64_t node;
    uint64_t counter;
};

/* The result of a put. */
struct antientropy_receipt {
    uint64_t number;  /* the entry's number; after a renewal it may name a version carried over */
    uint64_t counter; /* the node's counter in the new version's clock; the context has the other counters */
};

/* The sizes and the kind of a version. */
struct antientropy_reading {
    uint64_t versions; /* number of versions held for the key */
    uint64_t pairs;    /* number of pairs of the version's clock */
    uint64_t bytes;    /* number of bytes of its value */
    uint64_t kind;     /* LIVE or TOMBSTONE */
};

/* The range and the leaf of a key. */
struct antientropy_spot {
    uint64_t range; /* the range of the ring, from 0 */
    uint64_t leaf;  /* the leaf of the range's tree, from 0 */
};

/* The parts of an offer. Format and range are as received: the ring may not have them. */
struct antientropy_offer_parts {
    uint64_t number; /* the number that the partner gave the offer: asks and answers have it too */
    uint64_t format;
    uint64_t range;
    uint8_t root[ANTIENTROPY_ROOT_LEN]; /* digest of the root: replicas with equal roots hold the same versions */
};

/* The result of taking an answer. */
struct antientropy_taken {
    uint64_t accepted; /* number of new versions: they are now entries of the journal */
    uint64_t known;    /* number of known versions */
    uint64_t state;    /* state of the session */
};

/* The bounds of an exchange. `asks`, `bad` and `lost` over 2^32 - 1 count as that number. */
struct antientropy_bounds {
    uint64_t asks;  /* maximum number of asks in progress; one is always allowed */
    uint64_t bytes; /* maximum size of their answers in bytes, as far as it can be estimated; one may be longer */
    uint64_t bad;   /* maximum number of bad answers: after one more the exchange is over */
    uint64_t lost;  /* maximum number of lost asks: after one more the exchange is over */
};

/* The verdict on an answer. */
struct antientropy_verdict {
    uint64_t verdict;  /* the verdict */
    uint64_t cause;    /* the number of the cause, if it is BAD or REFUSED; otherwise 0 */
    uint64_t accepted; /* number of new versions, if it is TAKEN: they are now entries of the journal; otherwise 0 */
    uint64_t known;    /* number of known versions, if it is TAKEN; otherwise 0 */
};

/* The progress of an exchange. */
struct antientropy_progress {
    uint64_t report;          /* the report */
    uint64_t cause;           /* JOURNAL_FULL or NO_MEMORY if it is STOPPED; otherwise 0 */
    uint64_t asks;            /* asks that were sent, except outlines that brought no text */
    uint64_t in_flight;       /* asks in progress */
    uint64_t bytes_in_flight; /* size of their answers in bytes, as far as it can be estimated */
    uint64_t bad;             /* bad answers */
    uint64_t lost;            /* lost asks */
    uint64_t accepted;        /* new versions in the answers that were taken */
    uint64_t known;           /* known versions in them */
    uint64_t leaves;          /* leaves that were taken */
};

/* A node of a tree: its depth, 0 for the root, and its index there, from 0. */
struct antientropy_node {
    uint64_t depth;
    uint64_t index;
};

/* The result of a load. */
struct antientropy_loaded {
    uint64_t taken;  /* number of new versions: they are now entries of the journal */
    uint64_t known;  /* number of known versions */
    uint64_t offset; /* after ROW_BROKEN, which writes only this field: the offset in bytes of the broken field */
};

/* Counts of a replica. */
struct antientropy_counts {
    uint64_t entries;       /* entries, with those before renewals: the number of the next entry */
    uint64_t limit;         /* maximum of `entries` minus `first`: at that number the journal is full (JOURNAL_FULL) */
    uint64_t dirty;         /* nodes of the tree that have no digest */
    uint64_t sessions;      /* sessions that are kept: at 1,024 no other can be opened until ended ones are dropped */
    uint64_t open_sessions; /* open sessions: at 64 no other can be opened until one has ended */
    uint64_t first;         /* the number of the journal's first entry: 0 before the first renewal */
    uint64_t front;         /* `entries` at the last moment that was whole; `first` if there was none since a renewal */
};

/* The size of a replica: lengths of contents in bytes. Memory differs, since rows, entries and sessions share values.
 * The moment isn't counted. */
struct antientropy_bytes {
    uint64_t rows;     /* the rows, as antientropy_rows copies them out */
    uint64_t journal;  /* the keys, values and clocks of the entries since `first`: 10 bytes for each pair of a clock */
    uint64_t sessions; /* the texts that sessions took, and the leaves of their rows that have changed since or have no
                        * digest now (each counts once, with the last session that has it): no more than they keep */
};

/* The range of a replica or a snapshot, and the position of its journal. A checkpoint or a log has to name both. */
struct antientropy_about {
    uint64_t format;  /* 1 or 2 */
    uint64_t bits;    /* bits of the range's number: the ring has 2^bits ranges */
    uint64_t range;   /* the range's number, from 0 */
    uint64_t entries; /* entries, as in the counts: the number of the next entry */
};

/* Counts of hints. */
struct antientropy_hint_counts {
    uint64_t pending;   /* hints that wait for their owners: at 10,000 no other can be kept */
    uint64_t delivered; /* hints that were delivered: they are kept until a renewal */
};

/* Counts of slots. */
struct antientropy_slot_counts {
    uint64_t target; /* maximum number of slots lent */
    uint64_t lent;   /* slots lent */
    uint64_t free;   /* slots that could be lent now */
};

/* The 99th percentile of the latencies of the last minute. */
struct antientropy_percentile {
    uint64_t found;  /* 1 if there were samples, and 0 otherwise */
    uint64_t micros; /* the percentile in microseconds */
};

/* ---- shares: the calls that the inline functions below make */

/* A program in C or C++ calls the inline functions, whose names are these without `share_`. A program in a language
 * without a C compiler makes these calls, with a copy of the handle's struct as `share`. Only this call uses the copy:
 * it writes it, and restores it before it returns. It doesn't write the handle. */
uint32_t antientropy_share_renew(struct antientropy_replica *share, struct antientropy_replica *into, uint64_t limit);
uint32_t antientropy_share_renewal_begin(struct antientropy_replica *share, uint64_t limit,
                                         struct antientropy_renewal *renewal);
uint32_t antientropy_share_renewal_catch_up(struct antientropy_renewal *renewal, struct antientropy_replica *share,
                                            uint64_t most, uint64_t *left);
uint32_t antientropy_share_count(struct antientropy_replica *share, struct antientropy_counts *counts);
uint32_t antientropy_share_about(struct antientropy_replica *share, struct antientropy_about *about);
uint32_t antientropy_share_bytes(struct antientropy_replica *share, struct antientropy_bytes *bytes);
uint32_t antientropy_share_get(struct antientropy_replica *share, const uint8_t *key, size_t key_len, uint8_t *out,
                               size_t out_len, uint64_t *need);
uint32_t antientropy_share_versions(struct antientropy_replica *share, const uint8_t *key, size_t key_len,
                                    uint64_t *count);
uint32_t antientropy_share_value(struct antientropy_replica *share, const uint8_t *key, size_t key_len, uint64_t index,
                                 uint8_t *kind, uint8_t *out, size_t out_len, uint64_t *need);
uint32_t antientropy_share_clock(struct antientropy_replica *share, const uint8_t *key, size_t key_len, uint64_t index,
                                 struct antientropy_pair *out, size_t out_len, uint64_t *need);
uint32_t antientropy_share_read(struct antientropy_replica *share, const uint8_t *key, size_t key_len, uint64_t index,
                                struct antientropy_reading *reading, struct antientropy_pair *pairs, size_t pairs_len,
                                uint8_t *value, size_t value_len);
uint32_t antientropy_share_key_after(struct antientropy_replica *share, uint64_t leaf, const uint8_t *key,
                                     size_t key_len, uint8_t *out, size_t out_len, uint64_t *need);
uint32_t antientropy_share_key_next(struct antientropy_replica *share, uint64_t leaf, uint8_t *key, size_t key_room,
                                    uint64_t *key_len);
uint32_t antientropy_share_entries(struct antientropy_replica *share, uint64_t from, uint8_t *out, size_t out_len,
                                   uint64_t *need, uint64_t *next);
uint32_t antientropy_share_entry_key(struct antientropy_replica *share, uint64_t number, uint8_t *out, size_t out_len,
                                     uint64_t *need);
uint32_t antientropy_share_entry_value(struct antientropy_replica *share, uint64_t number, uint8_t *kind, uint8_t *out,
                                       size_t out_len, uint64_t *need);
uint32_t antientropy_share_entry_clock(struct antientropy_replica *share, uint64_t number, struct antientropy_pair *out,
                                       size_t out_len, uint64_t *need);
uint32_t antientropy_share_entry_source(struct antientropy_replica *share, uint64_t number, uint64_t *source);
uint32_t antientropy_share_top_counter(struct antientropy_replica *share, uint64_t node, const uint8_t *key,
                                       size_t key_len, uint64_t entries, uint64_t *counter);
uint32_t antientropy_share_take_portion(struct antientropy_replica *share, uint64_t most,
                                        struct antientropy_portion *portion);
uint32_t antientropy_share_moment(struct antientropy_replica *share, struct antientropy_snapshot *snapshot);
uint32_t antientropy_share_snapshot(struct antientropy_replica *share, struct antientropy_snapshot *snapshot);
uint32_t antientropy_share_snapshot_share(struct antientropy_snapshot *share, struct antientropy_snapshot *other);
uint32_t antientropy_share_snapshot_about(struct antientropy_snapshot *share, struct antientropy_about *about);
uint32_t antientropy_share_snapshot_bytes(struct antientropy_snapshot *share, uint64_t *bytes);
uint32_t antientropy_share_snapshot_get(struct antientropy_snapshot *share, const uint8_t *key, size_t key_len,
                                        uint8_t *out, size_t out_len, uint64_t *need);
uint32_t antientropy_share_snapshot_key_next(struct antientropy_snapshot *share, uint64_t leaf, uint8_t *key,
                                             size_t key_room, uint64_t *key_len);
uint32_t antientropy_share_digest(struct antientropy_snapshot *share, uint64_t depth, uint64_t index, uint8_t *out,
                                  size_t out_len, uint64_t *need);
uint32_t antientropy_share_root(struct antientropy_snapshot *share, uint8_t *out, size_t out_len, uint64_t *need);
uint32_t antientropy_share_offer(struct antientropy_snapshot *share, uint32_t number, uint8_t *out, size_t out_len,
                                 uint64_t *need);
uint32_t antientropy_share_serve(struct antientropy_snapshot *share, uint32_t number, const uint8_t *ask,
                                 size_t ask_len, uint8_t *out, size_t out_len, uint64_t *need);
uint32_t antientropy_share_rows(struct antientropy_snapshot *share, uint64_t leaf, uint8_t *out, size_t out_len,
                                uint64_t *need);
uint32_t antientropy_share_outstanding(struct antientropy_replica *share, uint64_t session, uint64_t *count);
uint32_t antientropy_share_ask_at(struct antientropy_replica *share, uint64_t session, uint64_t place, uint32_t number,
                                  uint8_t *out, size_t out_len, uint64_t *need);
uint32_t antientropy_share_ask(struct antientropy_replica *share, uint64_t session, uint32_t number, uint8_t *out,
                               size_t out_len, uint64_t *need);
uint32_t antientropy_share_outline_at(struct antientropy_replica *share, uint64_t session, uint64_t place,
                                      uint32_t number, uint64_t width, uint8_t *out, size_t out_len, uint64_t *need);
uint32_t antientropy_share_session(struct antientropy_replica *share, uint64_t session, uint64_t *state);
uint32_t antientropy_share_exchange_next(struct antientropy_exchange *exchange, struct antientropy_replica *share,
                                         uint8_t *out, size_t out_len, uint64_t *need);
uint32_t antientropy_share_exchange_report(struct antientropy_exchange *exchange, struct antientropy_replica *share,
                                           struct antientropy_progress *progress);
uint32_t antientropy_share_exchange_left(struct antientropy_exchange *exchange, struct antientropy_replica *share,
                                         uint64_t place, struct antientropy_node *node);

/* ---- the library */

/* Returns the version of the library, as ANTIENTROPY_VERSION. */
uint32_t antientropy_version(void);

/* Returns the name of a number that a call returned, in ASCII without a zero byte: "BadKey" for 4. Other numbers have
 * no bytes. Refused: SMALL. */
uint32_t antientropy_name(uint32_t number, uint8_t *out, size_t out_len, uint64_t *need);

/* Returns the name of a number that a call returned, as antientropy_name does, with a zero byte: "BadKey" for 4. Other
 * numbers are "unknown". */
static inline const char *antientropy_strerror(uint32_t number)
{
    static const char *const names[] = {
        "Ok", "BadClock", "ClockFull", "CounterFull", "BadKey", "BadValue", "StaleContext", "Crowded", "JournalFull",
        "OtherRange", "Dirty", "Stale", "UnknownSession", "NotAsked", "WrongDigest", "NotCanonical", "OtherFormat",
        "SessionsFull", "NoSlot", "ClockBack", "UnknownHint", "HintsFull", "Gone", "Behind", "Unsettled", "Stranger",
        "LinkLost", "BadRing", "Down", "BadLine", "RowBroken", "BadMessage", "NoMemory", "Small", "Empty", "Held",
        "NoVersion", "BadPosition"};
    return number < sizeof names / sizeof *names ? names[number] : "unknown";
}

/* Returns the range and the leaf of a key, in a ring of 2^bits ranges (bits 0 to 8) of format 1 or 2. Needs no replica.
 * Refused, in order: BAD_RING (the format or the bits), BAD_KEY. */
uint32_t antientropy_place(uint64_t format, uint64_t bits, const uint8_t *key, size_t key_len,
                           struct antientropy_spot *spot);

/* ---- making and freeing */

/* Makes a replica of range number `range`, from 0, of a ring of 2^bits ranges (bits 0 to 8), in format 1 (256 leaves,
 * no tombstones) or 2 (4,096 leaves), with a journal of at most `limit` entries, 1 to 1,000,000.
 * Refused, in order: HELD (the handle holds one already), BAD_RING (a number is outside its limits), NO_MEMORY. */
uint32_t antientropy_new(struct antientropy_replica *replica, uint64_t format, uint64_t bits, uint64_t range,
                         uint64_t limit);

/* Makes a replica as antientropy_new does, with a seed of two words for the hash that finds keys. Random words make it
 * hard for clients to choose keys with equal hashes, which are slow to find. A renewal keeps the seed.
 * Refused, in order: HELD, BAD_RING, NO_MEMORY. */
uint32_t antientropy_new_seeded(struct antientropy_replica *replica, uint64_t format, uint64_t bits, uint64_t range,
                                uint64_t limit, uint64_t first, uint64_t second);

/* Frees the replica of a handle, if any. In C and C++ each call that frees accepts NULL, and does nothing; a pointer to
 * the call, and the call from another language, don't. */
void antientropy_free(struct antientropy_replica *replica);

/* Makes a new replica in the empty handle `into`, which begins with the versions that `from` holds: one entry for each,
 * with the same rows and digests, no sessions, and a journal of at most `limit` entries, 1 to 1,000,000. `from` is
 * unchanged: free it, and continue with the new one under the same node number. The numbers of entries continue: the
 * last entries of both replicas have the same number, so both have the same count of entries, and the next entry gets a
 * number that was never used. The entries from the new `first` to that count are the versions carried over.
 * Refused, in order: EMPTY (`from`), HELD (`into` holds one already), BAD_RING (the limit), JOURNAL_FULL (more versions
 * are held than the limit, or `entries` + 1,000,000 is over 2^64 - 1), NO_MEMORY. */
static inline uint32_t antientropy_renew(const struct antientropy_replica *from, struct antientropy_replica *into,
                                         uint64_t limit)
{
    struct antientropy_replica share = *from;
    return antientropy_share_renew(&share, into, limit);
}

/* A renewal in parallel with puts. antientropy_renew takes time in proportion to the rows, and no put can be made
 * meanwhile. These calls make the new replica in another thread: antientropy_renewal_begin takes the rows of the
 * moment, antientropy_renewal_build makes the new replica from them, antientropy_renewal_catch_up accepts the entries
 * that the old one accepted since then, and antientropy_renewal_finish replaces the old one with the new one, without
 * sessions and moment. */

/* Begins a renewal in an empty handle: takes the rows of the replica's moment, which must be whole (antientropy_hold,
 * antientropy_hash_moment). Copies no row. The new journal has at most `limit` entries, 1 to 1,000,000:
 * antientropy_renewal_build tests the limit.
 * Refused, in order: EMPTY (the replica), HELD (the handle holds a renewal already), DIRTY (the replica has no moment,
 * or some node of it has no digest), NO_MEMORY. */
static inline uint32_t antientropy_renewal_begin(const struct antientropy_replica *replica, uint64_t limit,
                                                 struct antientropy_renewal *renewal)
{
    struct antientropy_replica share = *replica;
    return antientropy_share_renewal_begin(&share, limit, renewal);
}

/* Makes the new replica from the rows of the moment: one entry for each version, as antientropy_renew does. It uses no
 * replica, so any thread can make the call while the replica is in other calls. It takes time in proportion to the
 * rows.
 * Refused, in order: EMPTY, HELD (it is made already), BAD_RING (the limit), JOURNAL_FULL (the moment has more versions
 * than the limit), NO_MEMORY. */
uint32_t antientropy_renewal_build(struct antientropy_renewal *renewal);

/* Accepts the next entries that the replica accepted since the moment, at most `most` of them, and returns the number
 * of those that are left. It only reads the replica. A program that repeats it until few are left finishes in a short
 * time; with `most` 0 it accepts none. If an entry is refused, those before it are accepted.
 * Refused, in order: EMPTY (the renewal or the replica; or the new one isn't made, or is in a replica's place), STALE
 * (the replica isn't the renewal's: its journal begins at another number, its format, bits or range differs, or it has
 * fewer entries than were accepted); then, for an entry, STALE (it isn't new), CROWDED, JOURNAL_FULL, NO_MEMORY, which
 * may replace the three before it. */
static inline uint32_t antientropy_renewal_catch_up(struct antientropy_renewal *renewal,
                                                    const struct antientropy_replica *replica, uint64_t most,
                                                    uint64_t *left)
{
    struct antientropy_replica share = *replica;
    return antientropy_share_renewal_catch_up(renewal, &share, most, left);
}

/* Accepts all entries that are left, and replaces the old replica with the new one, under the same handle. The numbers
 * of entries continue: the entries since the moment keep their numbers, the versions carried over have those before,
 * and the next entry gets a number that was never used. Afterwards the renewal holds the old replica: free it in a
 * thread that nobody waits for. If the call is refused, the replica is unchanged.
 * Refused, in order: EMPTY (the renewal or the replica; or the new one isn't made, or is in a replica's place), STALE
 * (its journal begins at another number), JOURNAL_FULL (`entries` + 1,000,000 is over 2^64 - 1); then as
 * antientropy_renewal_catch_up is: STALE, CROWDED, JOURNAL_FULL, NO_MEMORY. */
uint32_t antientropy_renewal_finish(struct antientropy_renewal *renewal, struct antientropy_replica *replica);

/* Frees the contents of a renewal, if any: the rows, the new replica, or the old one. */
void antientropy_renewal_free(struct antientropy_renewal *renewal);

/* Converts a replica of format 1 to format 2. All nodes become dirty, and open sessions are cancelled. A replica of
 * format 2 is unchanged. Refused, in order: EMPTY, NO_MEMORY. */
uint32_t antientropy_migrate(struct antientropy_replica *replica);

/* Returns the counts of a replica. Refused: EMPTY. */
static inline uint32_t antientropy_count(const struct antientropy_replica *replica, struct antientropy_counts *counts)
{
    struct antientropy_replica share = *replica;
    return antientropy_share_count(&share, counts);
}

/* Returns the range of a replica, and the number of its entries. Refused: EMPTY. */
static inline uint32_t antientropy_about(const struct antientropy_replica *replica, struct antientropy_about *about)
{
    struct antientropy_replica share = *replica;
    return antientropy_share_about(&share, about);
}

/* Returns the size of a replica. It looks at each chunk of 15 rows and at the digests of each session's leaves, so call
 * it every few seconds, not at each put. Refused: EMPTY. */
static inline uint32_t antientropy_bytes(const struct antientropy_replica *replica, struct antientropy_bytes *bytes)
{
    struct antientropy_replica share = *replica;
    return antientropy_share_bytes(&share, bytes);
}

/* ---- versions */

/* Only puts and accept check the range of a key. Reads find no version of a key that belongs to another range, or isn't
 * 1 to 255 bytes long (only antientropy_get refuses such a length). Lengths are checked first: no byte of a longer key
 * is read, and no value or clock that is too long is copied. */

/* Puts a value (LIVE) or a tombstone (TOMBSTONE, with no value) for a key at a node, 1 to 65,535, after a read. Prefer
 * it to antientropy_put. The context is the clock of all that the client has read, its pairs in any order; the new
 * version's clock is the context with the node's counter raised by one. The new version replaces every held version
 * whose clock is at most its clock, and the client has read each of these: a put is refused as STALE_CONTEXT if a held
 * version has a greater counter of the node than the context. In that case another client has put at this node in
 * between: read again.
 * Refused, in order: EMPTY; BAD_CLOCK (the node is 0 or over 65,535, or the context isn't a clock), CLOCK_FULL (the
 * context has over 32 pairs), BAD_VALUE (unknown kind); BAD_KEY, BAD_VALUE (too long for the format, or a tombstone
 * that has a value or is in format 1), OTHER_RANGE, CLOCK_FULL and COUNTER_FULL (the context can't be raised),
 * STALE_CONTEXT, CROWDED, JOURNAL_FULL, NO_MEMORY. NO_MEMORY may be returned instead of any from OTHER_RANGE on. */
uint32_t antientropy_put_read(struct antientropy_replica *replica, uint64_t node, const uint8_t *key, size_t key_len,
                              const struct antientropy_pair *context, size_t context_len, uint8_t kind,
                              const uint8_t *value, size_t value_len, struct antientropy_receipt *receipt);

/* Puts a value as antientropy_put_read does, without its check, which the caller must make: the new version replaces
 * even a held version that the client hasn't read, if its clock is at most the new one. It is refused as STALE_CONTEXT
 * only if a held version has seen all of the new version's clock.
 * Refused, in order: EMPTY; BAD_CLOCK (the node is 0 or over 65,535, or the context isn't a clock), CLOCK_FULL (the
 * context has over 32 pairs), BAD_VALUE (unknown kind); BAD_KEY, BAD_VALUE (too long for the format, or a tombstone
 * that has a value or is in format 1), OTHER_RANGE, CLOCK_FULL and COUNTER_FULL (the context can't be raised),
 * STALE_CONTEXT, CROWDED, JOURNAL_FULL, NO_MEMORY. NO_MEMORY may be returned instead of any from OTHER_RANGE on. */
uint32_t antientropy_put(struct antientropy_replica *replica, uint64_t node, const uint8_t *key, size_t key_len,
                         const struct antientropy_pair *context, size_t context_len, uint8_t kind,
                         const uint8_t *value, size_t value_len, struct antientropy_receipt *receipt);

/* Accepts a version of another replica, as a copy. `taken` is 1 if it is new and now an entry of the journal, 0 if it
 * was known. Refused, in order: EMPTY; BAD_CLOCK (the pairs aren't a clock), CLOCK_FULL, BAD_VALUE (unknown kind);
 * BAD_KEY, BAD_VALUE, OTHER_RANGE; then, if it is new, CROWDED, JOURNAL_FULL; NO_MEMORY, which may be returned instead
 * of any from OTHER_RANGE on. */
uint32_t antientropy_accept(struct antientropy_replica *replica, const uint8_t *key, size_t key_len,
                            const struct antientropy_pair *clock, size_t clock_len, uint8_t kind, const uint8_t *value,
                            size_t value_len, uint64_t *taken);

/* Returns the text of the row of a key (docs/FORMATS.md): the key with all versions held for it. If none is held,
 * `need` is 0. Refused, in order: EMPTY, BAD_KEY, NO_MEMORY, SMALL. */
static inline uint32_t antientropy_get(const struct antientropy_replica *replica, const uint8_t *key, size_t key_len,
                                       uint8_t *out, size_t out_len, uint64_t *need)
{
    struct antientropy_replica share = *replica;
    return antientropy_share_get(&share, key, key_len, out, out_len, need);
}

/* Returns the number of versions held for a key. Several are concurrent. Refused: EMPTY. */
static inline uint32_t antientropy_versions(const struct antientropy_replica *replica, const uint8_t *key,
                                            size_t key_len, uint64_t *count)
{
    struct antientropy_replica share = *replica;
    return antientropy_share_versions(&share, key, key_len, count);
}

/* Returns the value and the kind of one of the versions held for a key, by its index from 0.
 * Refused, in order: EMPTY, NO_VERSION, SMALL (`kind` is written anyway). */
static inline uint32_t antientropy_value(const struct antientropy_replica *replica, const uint8_t *key, size_t key_len,
                                         uint64_t index, uint8_t *kind, uint8_t *out, size_t out_len, uint64_t *need)
{
    struct antientropy_replica share = *replica;
    return antientropy_share_value(&share, key, key_len, index, kind, out, out_len, need);
}

/* Returns the clock of one of the versions held for a key, by its index from 0: at most 32 pairs, by rising node.
 * `out_len` and `need` count pairs. Refused, in order: EMPTY, NO_VERSION, SMALL. */
static inline uint32_t antientropy_clock(const struct antientropy_replica *replica, const uint8_t *key, size_t key_len,
                                         uint64_t index, struct antientropy_pair *out, size_t out_len, uint64_t *need)
{
    struct antientropy_replica share = *replica;
    return antientropy_share_clock(&share, key, key_len, index, out, out_len, need);
}

/* Returns one of the versions held for a key, by its index from 0, in one call: its clock in `pairs`, its value in
 * `value`, and in `reading` its kind, the sizes of both, and the number of versions held.
 * Refused, in order: EMPTY, NO_VERSION, SMALL (the clock or the value doesn't fit: `reading` is written anyway, and so
 * is the one that fits). */
static inline uint32_t antientropy_read(const struct antientropy_replica *replica, const uint8_t *key, size_t key_len,
                                        uint64_t index, struct antientropy_reading *reading,
                                        struct antientropy_pair *pairs, size_t pairs_len, uint8_t *value,
                                        size_t value_len)
{
    struct antientropy_replica share = *replica;
    return antientropy_share_read(&share, key, key_len, index, reading, pairs, pairs_len, value, value_len);
}

/* Returns the least key of a leaf above a key, or the first one for a key of no bytes. Use it to list the keys of a
 * replica leaf by leaf. Leaves are numbered from 0 to 255, in format 2 to 4,095. Keys that are put meanwhile are listed
 * if they are ahead. Refused, in order: EMPTY, BAD_MESSAGE (the tree has no such leaf), NO_VERSION (no key follows),
 * SMALL. */
static inline uint32_t antientropy_key_after(const struct antientropy_replica *replica, uint64_t leaf,
                                             const uint8_t *key, size_t key_len, uint8_t *out, size_t out_len,
                                             uint64_t *need)
{
    struct antientropy_replica share = *replica;
    return antientropy_share_key_after(&share, leaf, key, key_len, out, out_len, need);
}

/* Lists the keys of a leaf with one buffer. The previous key is the first `key_len` bytes of `key`: none at first. The
 * least key of the leaf above it replaces it, and `key_len` becomes its length. `key_room` is the size of the buffer;
 * 255 bytes are enough. After a refusal `key` and `key_len` are unchanged.
 * Refused, in order: EMPTY, BAD_MESSAGE (the tree has no such leaf), BAD_KEY (`key_len` is over `key_room`), NO_VERSION
 * (no key follows), SMALL. */
static inline uint32_t antientropy_key_next(const struct antientropy_replica *replica, uint64_t leaf, uint8_t *key,
                                            size_t key_room, uint64_t *key_len)
{
    struct antientropy_replica share = *replica;
    return antientropy_share_key_next(&share, leaf, key, key_room, key_len);
}

/* Orders of two clocks. */
enum {
    ANTIENTROPY_BEFORE = 0, /* the second has seen everything the first has, and more */
    ANTIENTROPY_AFTER = 1,  /* the first has seen everything the second has, and more */
    ANTIENTROPY_EQUAL = 2,  /* both have seen the same */
    ANTIENTROPY_APART = 3   /* each has seen something the other hasn't: versions under them are concurrent */
};

/* Compares two clocks. Needs no replica. Refused, in order: BAD_CLOCK and CLOCK_FULL of the first, BAD_CLOCK and
 * CLOCK_FULL of the second, NO_MEMORY. */
uint32_t antientropy_compare(const struct antientropy_pair *first, size_t first_len,
                             const struct antientropy_pair *second, size_t second_len, uint64_t *order);

/* Merges two clocks, for the context of a put that replaces the versions of both: for each node the result has the
 * greater counter. Needs no replica. `out_len` and `need` count pairs; there are at most 32. Refused, in order:
 * BAD_CLOCK and CLOCK_FULL of the first, BAD_CLOCK and CLOCK_FULL of the second, CLOCK_FULL (over 32 nodes), NO_MEMORY,
 * which may be returned instead of this CLOCK_FULL, SMALL. */
uint32_t antientropy_merge(const struct antientropy_pair *first, size_t first_len,
                           const struct antientropy_pair *second, size_t second_len, struct antientropy_pair *out,
                           size_t out_len, uint64_t *need);

/* ---- the journal */

/* Every accepted version is an entry, numbered from 0 in the order of acceptance. The new entries of a put, an accept,
 * a load or a take are numbered from the count of entries before the call up to the count after it. After a renewal the
 * numbers continue. The journal then has one entry for each version that is held, leaf by leaf, each with the source
 * COPY, and numbered from `first` of the counts up to the count at the renewal. The order of acceptance and the sources
 * before the renewal are lost, and a number below that count may name another version than before. The entries that
 * follow have numbers that were never used. The entries of a load are in the order of its rows, also with the source
 * COPY. */

/* Returns whole entries from number `from` on, until the next one doesn't fit. Each is one byte, its source, and the
 * text of the row of its key with its one version (docs/FORMATS.md). `need` is the number of bytes written, and `next`
 * the number after the last of these entries: continue there. If no entry is left, `need` is 0 and `next` is `from`. A
 * log reads from the count of entries that it has, and misses none after a renewal. At SMALL the first entry needs
 * `need` bytes, at most ANTIENTROPY_ENTRY_MAX; `next` is unchanged.
 * Refused, in order: EMPTY; BAD_POSITION (`from` is over the count of entries; or it is below the count at the last
 * renewal, and isn't `first`: read from `first` instead, to get the whole journal); SMALL. */
static inline uint32_t antientropy_entries(const struct antientropy_replica *replica, uint64_t from, uint8_t *out,
                                           size_t out_len, uint64_t *need, uint64_t *next)
{
    struct antientropy_replica share = *replica;
    return antientropy_share_entries(&share, from, out, out_len, need, next);
}

/* Returns the key of an entry. Refused, in order: EMPTY, NO_VERSION (no such entry), SMALL. */
static inline uint32_t antientropy_entry_key(const struct antientropy_replica *replica, uint64_t number, uint8_t *out,
                                             size_t out_len, uint64_t *need)
{
    struct antientropy_replica share = *replica;
    return antientropy_share_entry_key(&share, number, out, out_len, need);
}

/* Returns the value and the kind of an entry's version.
 * Refused, in order: EMPTY, NO_VERSION (no such entry), SMALL (`kind` is written anyway). */
static inline uint32_t antientropy_entry_value(const struct antientropy_replica *replica, uint64_t number,
                                               uint8_t *kind, uint8_t *out, size_t out_len, uint64_t *need)
{
    struct antientropy_replica share = *replica;
    return antientropy_share_entry_value(&share, number, kind, out, out_len, need);
}

/* Returns the clock of an entry's version: at most 32 pairs, by rising node. `out_len` and `need` count pairs.
 * Refused, in order: EMPTY, NO_VERSION (no such entry), SMALL. */
static inline uint32_t antientropy_entry_clock(const struct antientropy_replica *replica, uint64_t number,
                                               struct antientropy_pair *out, size_t out_len, uint64_t *need)
{
    struct antientropy_replica share = *replica;
    return antientropy_share_entry_clock(&share, number, out, out_len, need);
}

/* Returns the source of an entry's version: PUT, COPY, HINT or PARTNER. Refused, in order: EMPTY, NO_VERSION (no such
 * entry). */
static inline uint32_t antientropy_entry_source(const struct antientropy_replica *replica, uint64_t number,
                                                uint64_t *source)
{
    struct antientropy_replica share = *replica;
    return antientropy_share_entry_source(&share, number, source);
}

/* Returns the greatest counter of a node in the clocks of a key's versions, among the journal's entries with numbers
 * below `entries` (all, if there are fewer; none, if `entries` is at most `first`): 0 if no clock has the node. A host
 * uses it to find out whether a partner holds a version with a counter of the host's node number that the host has
 * lost.
 * Refused, in order: EMPTY, BAD_CLOCK (the node is 0 or over 65,535). */
static inline uint32_t antientropy_top_counter(const struct antientropy_replica *replica, uint64_t node,
                                               const uint8_t *key, size_t key_len, uint64_t entries, uint64_t *counter)
{
    struct antientropy_replica share = *replica;
    return antientropy_share_top_counter(&share, node, key, key_len, entries, counter);
}

/* ---- the tree */

/* Hashes all nodes that have no digest. Refused, in order: EMPTY, NO_MEMORY. */
uint32_t antientropy_rehash(struct antientropy_replica *replica);

/* Hashes at most `most` of the nodes that have no digest though all their children have one, and returns the number of
 * nodes without a digest afterwards. A program that repeats it until that is 0 can make other calls in between; with
 * `most` 0 no node is hashed. Refused, in order: EMPTY, NO_MEMORY. */
uint32_t antientropy_rehash_some(struct antientropy_replica *replica, uint64_t most, uint64_t *left);

/* ---- moments: the rows at a time, which are hashed and offered while the replica changes */

/* A busy replica may never have a digest at each node at once. Therefore it keeps one moment: its rows at the time of
 * antientropy_hold, which no later call changes. A moment is whole when each of its nodes has a digest.
 * antientropy_moment makes a snapshot of a whole moment, and antientropy_open_at_moment compares it with a partner's
 * offer. */

/* Keeps the current rows as the replica's moment, in place of the previous one. Copies no row, and keeps the digests
 * that nodes have: only nodes that have changed since they were hashed have to be hashed. While the moment is kept, the
 * first change of each block of some rows copies the block.
 * Refused, in order: EMPTY, NO_MEMORY. */
uint32_t antientropy_hold(struct antientropy_replica *replica);

/* Releases the replica's moment, if any. Its snapshots are unchanged, and so is `front` of the counts.
 * antientropy_migrate also releases the moment. Refused: EMPTY. */
uint32_t antientropy_drop_moment(struct antientropy_replica *replica);

/* Hashes some of the moment's nodes that have no digest though all their children have one: at most `most`, up to the
 * one with which their texts reach 262,144 bytes. Returns the number of the moment's nodes without a digest afterwards:
 * 0 if the moment is whole, or if the replica doesn't have one. A program that repeats it until that is 0 can make
 * other calls in between; with `most` 0 no node is hashed. A node that no put has changed since also gets its digest in
 * the replica's tree.
 * Refused, in order: EMPTY, NO_MEMORY. */
uint32_t antientropy_hash_moment(struct antientropy_replica *replica, uint64_t most, uint64_t *left);

/* Takes a portion of the moment's nodes, those that antientropy_hash_moment would hash, so that another thread can hash
 * them by antientropy_hash_portion while the replica is in other calls. If nothing is left to hash, or if the replica
 * has no moment, the handle holds a portion without nodes. Refused, in order: EMPTY (the replica), HELD (the portion
 * holds one already), NO_MEMORY. */
static inline uint32_t antientropy_take_portion(const struct antientropy_replica *replica, uint64_t most,
                                                struct antientropy_portion *portion)
{
    struct antientropy_replica share = *replica;
    return antientropy_share_take_portion(&share, most, portion);
}

/* Hashes the nodes of a portion. Uses no replica, and takes no memory. Refused: EMPTY. */
uint32_t antientropy_hash_portion(struct antientropy_portion *portion);

/* Installs the digests of a portion in the moment, as antientropy_hash_moment does, and empties the portion's handle.
 * Returns the number of the moment's nodes without a digest afterwards: 0 if the moment is whole, or if the replica
 * doesn't have one. Nodes that antientropy_hash_portion has not hashed are hashed here. The digest of another moment's
 * node is left out if the node has another text.
 * Refused: EMPTY (the replica or the portion). */
uint32_t antientropy_install_portion(struct antientropy_replica *replica, struct antientropy_portion *portion,
                                     uint64_t *left);

/* Frees the portion of a handle, if any. */
void antientropy_portion_free(struct antientropy_portion *portion);

/* Makes a snapshot of the moment, as antientropy_snapshot does of the current rows. Refused, in order: EMPTY (the
 * replica), HELD (the snapshot holds one already), DIRTY (the replica has no moment, or it isn't whole), NO_MEMORY. */
static inline uint32_t antientropy_moment(const struct antientropy_replica *replica,
                                          struct antientropy_snapshot *snapshot)
{
    struct antientropy_replica share = *replica;
    return antientropy_share_moment(&share, snapshot);
}

/* ---- snapshots and offers */

/* Makes a snapshot of the current rows. It shares them with the replica, which copies those that it changes later.
 * Refused, in order: EMPTY (the replica), HELD (the snapshot holds one already), DIRTY, NO_MEMORY. */
static inline uint32_t antientropy_snapshot(const struct antientropy_replica *replica,
                                            struct antientropy_snapshot *snapshot)
{
    struct antientropy_replica share = *replica;
    return antientropy_share_snapshot(&share, snapshot);
}

/* Makes another handle of a snapshot's rows, in `other`. Copies no row. A thread with its own handle needs no lock,
 * even if others free theirs. The rows are freed with the last handle.
 * Refused, in order: EMPTY (the snapshot), HELD (`other` holds one already), NO_MEMORY. */
static inline uint32_t antientropy_snapshot_share(const struct antientropy_snapshot *snapshot,
                                                  struct antientropy_snapshot *other)
{
    struct antientropy_snapshot share = *snapshot;
    return antientropy_share_snapshot_share(&share, other);
}

/* Returns the range of a snapshot, and the number of entries that made its rows: for a moment, the number at the time
 * of antientropy_hold. A checkpoint of the snapshot has all entries below that number. Refused: EMPTY. */
static inline uint32_t antientropy_snapshot_about(const struct antientropy_snapshot *snapshot,
                                                  struct antientropy_about *about)
{
    struct antientropy_snapshot share = *snapshot;
    return antientropy_share_snapshot_about(&share, about);
}

/* Returns the size of a snapshot's rows in bytes, as antientropy_rows copies them out. Refused: EMPTY. */
static inline uint32_t antientropy_snapshot_bytes(const struct antientropy_snapshot *snapshot, uint64_t *bytes)
{
    struct antientropy_snapshot share = *snapshot;
    return antientropy_share_snapshot_bytes(&share, bytes);
}

/* Frees the snapshot of a handle, if any. */
void antientropy_snapshot_free(struct antientropy_snapshot *snapshot);

/* Returns the text of a key's row in a snapshot, as antientropy_get does for a replica: no bytes if the key has no row.
 * Uses a binary search. Refused, in order: EMPTY, BAD_KEY, NO_MEMORY, SMALL. */
static inline uint32_t antientropy_snapshot_get(const struct antientropy_snapshot *snapshot, const uint8_t *key,
                                                size_t key_len, uint8_t *out, size_t out_len, uint64_t *need)
{
    struct antientropy_snapshot share = *snapshot;
    return antientropy_share_snapshot_get(&share, key, key_len, out, out_len, need);
}

/* Lists the keys of a leaf of a snapshot with one buffer, as antientropy_key_next does for a replica.
 * Refused, in order: EMPTY, BAD_MESSAGE (the tree has no such leaf), BAD_KEY (`key_len` is over `key_room`), NO_VERSION
 * (no key follows), SMALL. */
static inline uint32_t antientropy_snapshot_key_next(const struct antientropy_snapshot *snapshot, uint64_t leaf,
                                                     uint8_t *key, size_t key_room, uint64_t *key_len)
{
    struct antientropy_snapshot share = *snapshot;
    return antientropy_share_snapshot_key_next(&share, leaf, key, key_room, key_len);
}

/* Returns the digest of a node of a snapshot's tree: 32 bytes. The root is node 0 at depth 0; the leaves are at depth
 * 2, or at 3 in format 2. Refused, in order: EMPTY, BAD_MESSAGE (the tree has no such node), SMALL. */
static inline uint32_t antientropy_digest(const struct antientropy_snapshot *snapshot, uint64_t depth, uint64_t index,
                                          uint8_t *out, size_t out_len, uint64_t *need)
{
    struct antientropy_snapshot share = *snapshot;
    return antientropy_share_digest(&share, depth, index, out, out_len, need);
}

/* Returns the digest of a snapshot's root: 32 bytes. Two replicas of a range with equal roots hold the same versions,
 * so neither needs a session. Refused, in order: EMPTY, SMALL. */
static inline uint32_t antientropy_root(const struct antientropy_snapshot *snapshot, uint8_t *out, size_t out_len,
                                        uint64_t *need)
{
    struct antientropy_snapshot share = *snapshot;
    return antientropy_share_root(&share, out, out_len, need);
}

/* Returns the message that offers a snapshot: 39 bytes. The caller gives each of its offers a number.
 * Refused, in order: EMPTY, NO_MEMORY, SMALL. */
static inline uint32_t antientropy_offer(const struct antientropy_snapshot *snapshot, uint32_t number, uint8_t *out,
                                         size_t out_len, uint64_t *need)
{
    struct antientropy_snapshot share = *snapshot;
    return antientropy_share_offer(&share, number, out, out_len, need);
}

/* Returns the parts of a partner's offer. Needs no replica. Refused, in order: BAD_MESSAGE (the bytes aren't an offer),
 * NO_MEMORY, which may be returned instead. */
uint32_t antientropy_read_offer(const uint8_t *offer, size_t offer_len, struct antientropy_offer_parts *parts);

/* Returns the answer to an ask for the offer of that number, or the patch for an outline. The answer of a leaf has no
 * fixed limit: a single row can have 4,215,427 bytes. Refused, in order: EMPTY, BAD_MESSAGE (the bytes are neither),
 * GONE (it is for another offer), BAD_MESSAGE (the node isn't in the tree), NO_MEMORY, SMALL. NO_MEMORY may be returned
 * instead of the first BAD_MESSAGE. */
static inline uint32_t antientropy_serve(const struct antientropy_snapshot *snapshot, uint32_t number,
                                         const uint8_t *ask, size_t ask_len, uint8_t *out, size_t out_len,
                                         uint64_t *need)
{
    struct antientropy_snapshot share = *snapshot;
    return antientropy_share_serve(&share, number, ask, ask_len, out, out_len, need);
}

/* Returns the texts of the rows of a leaf, 0 to 255, or to 4,095 in format 2: the bytes to save, and to load again.
 * Refused, in order: EMPTY, BAD_MESSAGE (the tree has no such leaf), NO_MEMORY, SMALL. */
static inline uint32_t antientropy_rows(const struct antientropy_snapshot *snapshot, uint64_t leaf, uint8_t *out,
                                        size_t out_len, uint64_t *need)
{
    struct antientropy_snapshot share = *snapshot;
    return antientropy_share_rows(&share, leaf, out, out_len, need);
}

/* Loads rows of one leaf, in ascending order of key, as antientropy_rows or antientropy_get returns them: accepts all
 * of their versions as copies, or none. Refused, in order: EMPTY, ROW_BROKEN, OTHER_RANGE (also for rows of two
 * leaves), CROWDED, JOURNAL_FULL, NO_MEMORY, which may be returned instead of any but EMPTY. */
uint32_t antientropy_load(struct antientropy_replica *replica, const uint8_t *rows, size_t rows_len,
                          struct antientropy_loaded *loaded);

/* Loads rows of a given format and of any leaves of the range, in ascending order of key, as copies, all or none. Rows
 * that were saved before a migration can be loaded after it, and rows of many keys in one call.
 * Refused, in order: EMPTY, BAD_RING (the format is neither 1 nor 2), OTHER_FORMAT (rows of format 2, replica of format
 * 1), ROW_BROKEN, OTHER_RANGE (a key of another range), CROWDED, JOURNAL_FULL, NO_MEMORY, which may be returned instead
 * of any but EMPTY, BAD_RING and OTHER_FORMAT. */
uint32_t antientropy_load_format(struct antientropy_replica *replica, uint64_t format, const uint8_t *rows,
                                 size_t rows_len, struct antientropy_loaded *loaded);

/* ---- sessions */

/* Opens a session with a partner's offer, and returns its number: one more than the last, from 0, also over renewals.
 * The partner's number, at most 65,535, is kept in the session's record, and no call returns it. A session is kept
 * until antientropy_drop_sessions, so compare first (antientropy_read_offer, antientropy_root): an offer with the
 * replica's format, range and root needs no session.
 * Refused, in order: EMPTY, BAD_CLOCK (the partner is over 65,535), BAD_MESSAGE, OTHER_FORMAT, OTHER_RANGE,
 * SESSIONS_FULL, DIRTY, NO_MEMORY. NO_MEMORY may be returned instead of BAD_MESSAGE. */
uint32_t antientropy_open(struct antientropy_replica *replica, uint64_t partner, const uint8_t *offer, size_t offer_len,
                          uint64_t *session);

/* Opens a session as antientropy_open does, but compares the rows of the replica's moment with the offer, so it doesn't
 * wait until each node of the tree has a digest. It may ask for leaves that differ only because the replica has changed
 * since.
 * Refused, in order: EMPTY, BAD_CLOCK (the partner is over 65,535), BAD_MESSAGE, OTHER_FORMAT, OTHER_RANGE,
 * SESSIONS_FULL, DIRTY (the replica has no moment, or it isn't whole), NO_MEMORY. NO_MEMORY may be returned instead of
 * BAD_MESSAGE. */
uint32_t antientropy_open_at_moment(struct antientropy_replica *replica, uint64_t partner, const uint8_t *offer,
                                    size_t offer_len, uint64_t *session);

/* Returns the number of outstanding nodes of a session: 0 if it has ended.
 * Refused, in order: EMPTY, UNKNOWN_SESSION. */
static inline uint32_t antientropy_outstanding(const struct antientropy_replica *replica, uint64_t session,
                                               uint64_t *count)
{
    struct antientropy_replica share = *replica;
    return antientropy_share_outstanding(&share, session, count);
}

/* Returns the ask for one of the outstanding nodes of a session, by its place from 0. `number` is the number in the
 * partner's offer. If there are no more, `need` is 0. Several asks may be in progress at once: answers are taken in any
 * order. Each taken answer changes the places. Refused, in order: EMPTY, UNKNOWN_SESSION, NO_MEMORY, SMALL. */
static inline uint32_t antientropy_ask_at(const struct antientropy_replica *replica, uint64_t session, uint64_t place,
                                          uint32_t number, uint8_t *out, size_t out_len, uint64_t *need)
{
    struct antientropy_replica share = *replica;
    return antientropy_share_ask_at(&share, session, place, number, out, out_len, need);
}

/* Returns the ask for the first outstanding node of a session, as antientropy_ask_at does for place 0.
 * Refused, in order: EMPTY, UNKNOWN_SESSION, NO_MEMORY, SMALL. */
static inline uint32_t antientropy_ask(const struct antientropy_replica *replica, uint64_t session, uint32_t number,
                                       uint8_t *out, size_t out_len, uint64_t *need)
{
    struct antientropy_replica share = *replica;
    return antientropy_share_ask(&share, session, number, out, out_len, need);
}

/* Returns the outline of one of the outstanding nodes of a session, by its place from 0: the ask for it, with marks of
 * `width` bytes, 1 to 8, of the parts of the node's text that the session's snapshot has. The partner's
 * antientropy_serve replies with a patch, which has only the other parts. If there are no more, `need` is 0. Send it in
 * place of the ask if the partner has most of the parts, too: for example with marks of 3 bytes for a leaf with over
 * 255 bytes of rows. Refused, in order: EMPTY, BAD_MESSAGE (the width isn't 1 to 8), UNKNOWN_SESSION, NO_MEMORY,
 * SMALL. */
static inline uint32_t antientropy_outline_at(const struct antientropy_replica *replica, uint64_t session,
                                              uint64_t place, uint32_t number, uint64_t width, uint8_t *out,
                                              size_t out_len, uint64_t *need)
{
    struct antientropy_replica share = *replica;
    return antientropy_share_outline_at(&share, session, place, number, width, out, out_len, need);
}

/* Takes a partner's answer to an ask, or its patch for an outline, for the offer of that number. The text that a patch
 * makes is taken as an answer's is. The partner isn't trusted.
 * Refused, in order: EMPTY, BAD_MESSAGE (neither, or for another offer), UNKNOWN_SESSION, NOT_ASKED, WRONG_DIGEST,
 * NOT_CANONICAL (the session has failed), CROWDED, JOURNAL_FULL, NO_MEMORY. NO_MEMORY may be returned instead of any
 * but EMPTY.
 * A patch is refused, in order: EMPTY, BAD_MESSAGE (for another offer), UNKNOWN_SESSION, NOT_ASKED, BAD_MESSAGE (its
 * steps make no text), and from WRONG_DIGEST on as an answer is. NO_MEMORY may be returned instead of any from the
 * second BAD_MESSAGE on. A true patch may also be refused as WRONG_DIGEST, if two parts share a mark: in that case send
 * the ask. After BAD_MESSAGE, NOT_ASKED and WRONG_DIGEST ask again, with a bound on the number of bad answers. After
 * CROWDED, JOURNAL_FULL and NO_MEMORY the session stays open, and antientropy_ask names the same node: cancel the
 * session, or ask for another node by antientropy_ask_at. NOT_ASKED means that the node isn't outstanding. */
uint32_t antientropy_take(struct antientropy_replica *replica, uint64_t session, uint32_t number, const uint8_t *answer,
                          size_t answer_len, struct antientropy_taken *taken);

/* Cancels a session if it is open; otherwise the session is unchanged. Refused, in order: EMPTY, UNKNOWN_SESSION. */
uint32_t antientropy_cancel(struct antientropy_replica *replica, uint64_t session);

/* Drops the sessions that have ended, and all that they keep: rows that later puts have changed, and texts. Call it
 * after each sync. Open sessions are unchanged, and keep their numbers. The number of a dropped session is refused as
 * UNKNOWN_SESSION afterwards, and no later session gets it. Entries with the source PARTNER get the source COPY. Takes
 * time in proportion to the entries since the last such call, and to the freed data.
 * Refused: EMPTY. */
uint32_t antientropy_drop_sessions(struct antientropy_replica *replica);

/* Returns the state of a session. Refused, in order: EMPTY, UNKNOWN_SESSION. */
static inline uint32_t antientropy_session(const struct antientropy_replica *replica, uint64_t session, uint64_t *state)
{
    struct antientropy_replica share = *replica;
    return antientropy_share_session(&share, session, state);
}

/* ---- exchanges: the loop of a sync */

/* An exchange runs a session with a partner: it returns the next ask, takes the answers in any order, counts the bad
 * answers and the lost asks, and reports its progress. It sends nothing: the program sends the asks, and passes the
 * answers to it. It lasts as long as the program wants: between two of its calls the replica may change in any way, but
 * a renewal or a migration ends it. Each of its calls gets the replica with which it was opened. */

/* Opens an exchange with a partner by its offer, at the replica's moment, as antientropy_open_at_moment opens a
 * session. If the moment has the offered root, the exchange is FINISHED, and no session is opened.
 * Refused, in order: EMPTY (the replica), HELD (the exchange holds one already), BAD_CLOCK (the partner is over
 * 65,535), BAD_MESSAGE (the bytes aren't an offer), OTHER_FORMAT, OTHER_RANGE, DIRTY (the replica has no moment, or it
 * isn't whole), SESSIONS_FULL, NO_MEMORY, which may be returned instead of the two before it. */
uint32_t antientropy_exchange_open(struct antientropy_replica *replica, struct antientropy_exchange *exchange,
                                   uint64_t partner, const uint8_t *offer, size_t offer_len,
                                   const struct antientropy_bounds *bounds);

/* Returns the next ask to send: 8 bytes, or an outline in its place. An outline is the ask with marks of the parts of
 * the node's text that the replica has, so that the partner sends only the other parts. It is sent if a patch is likely
 * to be smaller than the text, and if it fits into the buffer: ANTIENTROPY_ASK_ROOM is enough for most leaves, and with
 * a buffer of ANTIENTROPY_ASK_LEN no outline is sent. An outline that brings no text isn't counted, and the node is
 * asked for plainly; after three in a row no more are sent, since the partner may not know them. Without memory for an
 * outline the ask is sent. `need` is 0 if no ask is to be sent now: each outstanding node has an ask in progress or was
 * left, the bounds are reached, asks have stopped, or the exchange is over. A refused call sends no ask; after SMALL
 * `need` is 8.
 * Refused, in order: EMPTY (the exchange or the replica), SMALL (the buffer has fewer than 8 bytes, even if no ask is
 * to be sent). */
static inline uint32_t antientropy_exchange_next(struct antientropy_exchange *exchange,
                                                 const struct antientropy_replica *replica, uint8_t *out,
                                                 size_t out_len, uint64_t *need)
{
    struct antientropy_replica share = *replica;
    return antientropy_share_exchange_next(exchange, &share, out, out_len, need);
}

/* Takes a partner's answer or patch, and returns the verdict on it. Answers may arrive in any order, late or twice. The
 * partner isn't trusted: any bytes may be passed. The replica changes as antientropy_take changes it, or not at all.
 * Refused: EMPTY (the exchange or the replica). */
uint32_t antientropy_exchange_take(struct antientropy_exchange *exchange, struct antientropy_replica *replica,
                                   const uint8_t *answer, size_t answer_len, struct antientropy_verdict *verdict);

/* Counts an ask or an outline as lost if it is in progress, so that an ask may be sent again: for example, its link was
 * lost, it timed out, or the partner refused it. One for another offer changes nothing.
 * Refused, in order: EMPTY, BAD_MESSAGE (the bytes are neither). */
uint32_t antientropy_exchange_lose(struct antientropy_exchange *exchange, const uint8_t *ask, size_t ask_len);

/* Lets asks be sent again after an answer was refused as JOURNAL_FULL or NO_MEMORY (STOPPED). Each ask whose answer was
 * refused for that counts as lost. Refused: EMPTY. */
uint32_t antientropy_exchange_go_on(struct antientropy_exchange *exchange);

/* Returns the progress of an exchange. Refused: EMPTY (the exchange or the replica). */
static inline uint32_t antientropy_exchange_report(struct antientropy_exchange *exchange,
                                                   const struct antientropy_replica *replica,
                                                   struct antientropy_progress *progress)
{
    struct antientropy_replica share = *replica;
    return antientropy_share_exchange_report(exchange, &share, progress);
}

/* Returns a leaf that was left, by its place from 0 among the leaves that were left, in the session's order. In each of
 * them a key is crowded.
 * Refused, in order: EMPTY (the exchange or the replica), NO_VERSION (fewer were left). */
static inline uint32_t antientropy_exchange_left(struct antientropy_exchange *exchange,
                                                 const struct antientropy_replica *replica, uint64_t place,
                                                 struct antientropy_node *node)
{
    struct antientropy_replica share = *replica;
    return antientropy_share_exchange_left(exchange, &share, place, node);
}

/* Closes an exchange: cancels its session if it is in progress, so that antientropy_drop_sessions drops it. An exchange
 * that has ended is unchanged. Refused: EMPTY (the exchange or the replica). */
uint32_t antientropy_exchange_close(struct antientropy_exchange *exchange, struct antientropy_replica *replica);

/* Frees the exchange of a handle, if any. Its session is unchanged: close the exchange first. */
void antientropy_exchange_free(struct antientropy_exchange *exchange);

/* ---- hints: versions that a node carries for replicas that are down */

/* No number ever names two hints. A number that was used names its hint or, after a renewal, no hint. In the second
 * case it is refused as NO_VERSION or UNKNOWN_HINT, and the hint, which has a new number, is sent once more and is
 * known to its owner. */

/* Makes an empty store of hints. The first hint gets the number 1.
 * Refused, in order: HELD (the handle holds one already), NO_MEMORY. */
uint32_t antientropy_hints_new(struct antientropy_hints *hints);

/* Makes an empty store of hints, after a restart. The first hint gets the number `first`, which must be above all
 * numbers in the host's log: the hints that are kept again get new numbers, which are logged, and no old number names
 * another hint.
 * Refused, in order: HELD (the handle holds one already), UNKNOWN_HINT (`first` is 0), NO_MEMORY. */
uint32_t antientropy_hints_restore(struct antientropy_hints *hints, uint64_t first);

/* Frees the hints of a handle, if any. */
void antientropy_hints_free(struct antientropy_hints *hints);

/* Keeps a version for its owner, a node that is down, and returns the number of the hint: one more than the last. A
 * hint belongs to no range: the owner checks the key and the format when it accepts the version.
 * Refused, in order: EMPTY; BAD_CLOCK (the owner is 0 or over 65,535, or the pairs aren't a clock), CLOCK_FULL,
 * BAD_VALUE (unknown kind); BAD_KEY, BAD_VALUE (too long for format 2, or a tombstone that has a value), HINTS_FULL
 * (10,000 are pending, 2^32 - 1 were kept since the last renewal, or the number would be over 2^64 - 1), NO_MEMORY. */
uint32_t antientropy_hint_keep(struct antientropy_hints *hints, uint64_t owner, const uint8_t *key, size_t key_len,
                               const struct antientropy_pair *clock, size_t clock_len, uint8_t kind,
                               const uint8_t *value, size_t value_len, uint64_t *id);

/* Returns the pending hint of an owner with the least number over `after`: the first one for 0.
 * Refused, in order: EMPTY, NO_VERSION (no hint follows). */
uint32_t antientropy_hint_next(struct antientropy_hints *hints, uint64_t owner, uint64_t after, uint64_t *id);

/* Returns the owner of a hint, pending or delivered. Refused, in order: EMPTY, NO_VERSION (no such hint). */
uint32_t antientropy_hint_owner(struct antientropy_hints *hints, uint64_t id, uint64_t *owner);

/* Returns the key of a hint. Refused, in order: EMPTY, NO_VERSION (no such hint), SMALL. */
uint32_t antientropy_hint_key(struct antientropy_hints *hints, uint64_t id, uint8_t *out, size_t out_len,
                              uint64_t *need);

/* Returns the value and the kind of a hint's version.
 * Refused, in order: EMPTY, NO_VERSION (no such hint), SMALL (`kind` is written anyway). */
uint32_t antientropy_hint_value(struct antientropy_hints *hints, uint64_t id, uint8_t *kind, uint8_t *out,
                                size_t out_len, uint64_t *need);

/* Returns the clock of a hint's version: at most 32 pairs, by rising node. `out_len` and `need` count pairs.
 * Refused, in order: EMPTY, NO_VERSION (no such hint), SMALL. */
uint32_t antientropy_hint_clock(struct antientropy_hints *hints, uint64_t id, struct antientropy_pair *out,
                                size_t out_len, uint64_t *need);

/* Marks a pending hint as delivered: its owner has accepted the version, or knew it. Call it after the owner has the
 * version on its disk. Refused, in order: EMPTY, UNKNOWN_HINT (no pending hint has this number). */
uint32_t antientropy_hint_confirm(struct antientropy_hints *hints, uint64_t id, bool known);

/* Drops the delivered hints. The pending ones get new numbers, in order, after the last one that was used. A host that
 * logs hints logs the new numbers. Refused, in order: EMPTY, HINTS_FULL (a number would be over 2^64 - 1),
 * NO_MEMORY. */
uint32_t antientropy_hints_renew(struct antientropy_hints *hints);

/* Returns the counts of hints. Refused: EMPTY. */
uint32_t antientropy_hints_count(struct antientropy_hints *hints, struct antientropy_hint_counts *counts);

/* Returns the size of hints in bytes, pending or delivered: their keys, values and clocks, 10 bytes for each pair of a
 * clock. Refused: EMPTY. */
uint32_t antientropy_hints_bytes(struct antientropy_hints *hints, uint64_t *bytes);

/* ---- slots: background work that backs off when the foreground is slow */

/* Slots are only counted here: the program must give each lent slot back once. */

/* Makes slots: none is lent, and the target is the ceiling. The target stays between the floor and the ceiling, 1 to
 * 1,024. It falls if the latency of the foreground is above the threshold, in microseconds. Refused, in order: HELD
 * (the handle holds slots already), BAD_RING (the floor is 0 or above the ceiling, or the ceiling above 1,024),
 * NO_MEMORY. */
uint32_t antientropy_slots_new(struct antientropy_slots *slots, uint32_t floor, uint32_t ceiling, uint32_t threshold);

/* Frees the slots of a handle, if any. */
void antientropy_slots_free(struct antientropy_slots *slots);

/* Lends a slot, before background work. Refused, in order: EMPTY, NO_SLOT (the slots lent reach the target). */
uint32_t antientropy_slot_lend(struct antientropy_slots *slots);

/* Gives a slot back, after background work. Refused, in order: EMPTY, NO_SLOT (none is lent). */
uint32_t antientropy_slot_give_back(struct antientropy_slots *slots);

/* Takes the latency of a reply of the foreground, in microseconds, with its moment in milliseconds. The last 1,024 are
 * kept. Refused, in order: EMPTY, CLOCK_BACK (a later moment was accepted before). */
uint32_t antientropy_slots_sample(struct antientropy_slots *slots, uint64_t moment, uint32_t micros);

/* Sets the target by the samples of the last 60,000 milliseconds, and returns their 99th percentile. Above the
 * threshold the target becomes half, but not below the floor. At half of the threshold or less it rises by one, up to
 * the ceiling. Without samples it is unchanged. Refused, in order: EMPTY, CLOCK_BACK (a later moment was accepted
 * before). */
uint32_t antientropy_slots_adjust(struct antientropy_slots *slots, uint64_t now, struct antientropy_percentile *p99);

/* Sets the target. Slots that are lent stay lent.
 * Refused, in order: EMPTY, BAD_RING (the target is below the floor or above the ceiling). */
uint32_t antientropy_slots_set_target(struct antientropy_slots *slots, uint32_t target);

/* Returns the counts of slots. Refused: EMPTY. */
uint32_t antientropy_slots_count(struct antientropy_slots *slots, struct antientropy_slot_counts *counts);

#ifdef __cplusplus
}
#endif

/* The calls that free, also for NULL. The library's calls, which other languages link, take a handle. */
#define ANTIENTROPY_ACCEPTS_NULL(call, handle) \
    static inline void call##_any(struct handle *at) \
    { \
        if (at) \
            call(at); \
    }
ANTIENTROPY_ACCEPTS_NULL(antientropy_free, antientropy_replica)
ANTIENTROPY_ACCEPTS_NULL(antientropy_renewal_free, antientropy_renewal)
ANTIENTROPY_ACCEPTS_NULL(antientropy_snapshot_free, antientropy_snapshot)
ANTIENTROPY_ACCEPTS_NULL(antientropy_portion_free, antientropy_portion)
ANTIENTROPY_ACCEPTS_NULL(antientropy_exchange_free, antientropy_exchange)
ANTIENTROPY_ACCEPTS_NULL(antientropy_hints_free, antientropy_hints)
ANTIENTROPY_ACCEPTS_NULL(antientropy_slots_free, antientropy_slots)
#undef ANTIENTROPY_ACCEPTS_NULL
#define antientropy_free(replica) antientropy_free_any(replica)
#define antientropy_renewal_free(renewal) antientropy_renewal_free_any(renewal)
#define antientropy_snapshot_free(snapshot) antientropy_snapshot_free_any(snapshot)
#define antientropy_portion_free(portion) antientropy_portion_free_any(portion)
#define antientropy_exchange_free(exchange) antientropy_exchange_free_any(exchange)
#define antientropy_hints_free(hints) antientropy_hints_free_any(hints)
#define antientropy_slots_free(slots) antientropy_slots_free_any(slots)

#endif
