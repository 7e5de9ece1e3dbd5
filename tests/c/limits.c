/* Compares the limits of the header with the values that the library takes and refuses. Ends with status 1 if one is
 * wrong. */
#include "antientropy.h"

#include <stdio.h>
#include <stdlib.h>
#include <string.h>

/* A number whose lowest 32 bits are 0. */
#define FAR (UINT64_C(1) << 32)

enum { PAIRS = ANTIENTROPY_CLOCK_MAX, MANY = ANTIENTROPY_VERSIONS_MAX };

static uint8_t bytes[ANTIENTROPY_ROW_MAX + 1], value[ANTIENTROPY_VALUE_MAX_2 + 1];
static uint64_t len, taken;

/* Ends the program if something isn't as the header says. */
static void is(const char *what, int holds)
{
    if (!holds) {
        printf("%s\n", what);
        exit(1);
    }
}

/* Accepts a version of a key of `key_len` bytes with a value of `value_len` bytes. */
static uint32_t accept(struct antientropy_replica *replica, size_t key_len, const struct antientropy_pair *clock,
                       size_t pairs, size_t value_len)
{
    return antientropy_accept(replica, value, key_len, clock, pairs, ANTIENTROPY_LIVE, value, value_len, &taken);
}

/* Replicas of both formats: lengths, leaves, nodes. */
static void formats(void)
{
    static const size_t values[] = {ANTIENTROPY_VALUE_MAX_1, ANTIENTROPY_VALUE_MAX_2};
    static const uint64_t leaves[] = {ANTIENTROPY_LEAVES_1, ANTIENTROPY_LEAVES_2};
    static const uint64_t nodes[] = {ANTIENTROPY_NODES_1, ANTIENTROPY_NODES_2};
    for (int n = 0; n < 2; n++) {
        struct antientropy_replica replica = {0};
        struct antientropy_pair pair = {ANTIENTROPY_NODE_MAX, 1}, over = {ANTIENTROPY_NODE_MAX + 1, 1};
        struct antientropy_counts counts;
        is("new", antientropy_new(&replica, n + 1, 0, 0, ANTIENTROPY_ENTRIES_MAX) == ANTIENTROPY_OK);
        is("NODES", antientropy_count(&replica, &counts) == ANTIENTROPY_OK && counts.dirty == nodes[n]);
        is("ENTRIES_MAX", counts.limit == ANTIENTROPY_ENTRIES_MAX);
        is("KEY_MAX", accept(&replica, ANTIENTROPY_KEY_MAX, &pair, 1, 1) == ANTIENTROPY_OK);
        is("KEY_MAX + 1", accept(&replica, ANTIENTROPY_KEY_MAX + 1, &pair, 1, 1) == ANTIENTROPY_BAD_KEY);
        is("VALUE_MAX", accept(&replica, 1, &pair, 1, values[n]) == ANTIENTROPY_OK);
        is("VALUE_MAX + 1", accept(&replica, 1, &pair, 1, values[n] + 1) == ANTIENTROPY_BAD_VALUE);
        is("NODE_MAX + 1", accept(&replica, 1, &over, 1, 1) == ANTIENTROPY_BAD_CLOCK);
        uint32_t last = antientropy_key_after(&replica, leaves[n] - 1, bytes, 0, bytes, sizeof bytes, &len);
        uint32_t beyond = antientropy_key_after(&replica, leaves[n], bytes, 0, bytes, sizeof bytes, &len);
        is("LEAVES", last == ANTIENTROPY_OK || last == ANTIENTROPY_NO_VERSION);
        is("LEAVES + 1", beyond == ANTIENTROPY_BAD_MESSAGE);
        len = 0;
        last = antientropy_key_next(&replica, leaves[n] - 1, bytes, sizeof bytes, &len);
        beyond = antientropy_key_next(&replica, leaves[n], bytes, sizeof bytes, &len);
        is("LEAVES of key_next", last == ANTIENTROPY_OK || last == ANTIENTROPY_NO_VERSION);
        is("LEAVES + 1 of key_next", beyond == ANTIENTROPY_BAD_MESSAGE);
        antientropy_free(&replica);
    }
}

/* The longest row: a key of 255 bytes with 64 versions, each with a clock of 32 pairs and the longest value. */
static void greatest_row(void)
{
    struct antientropy_replica replica = {0};
    struct antientropy_pair clock[PAIRS + 1];
    uint64_t next;
    is("new", antientropy_new(&replica, 2, 0, 0, 1000) == ANTIENTROPY_OK);
    for (unsigned n = 0; n < MANY; n++) {
        for (unsigned p = 0; p <= PAIRS; p++)
            clock[p] = (struct antientropy_pair){n * (PAIRS + 1) + p + 1, 1};
        is("CLOCK_MAX + 1", accept(&replica, 1, clock, PAIRS + 1, 1) == ANTIENTROPY_CLOCK_FULL);
        is("CLOCK_MAX", accept(&replica, ANTIENTROPY_KEY_MAX, clock, PAIRS, ANTIENTROPY_VALUE_MAX_2) == ANTIENTROPY_OK);
    }
    clock[0].node = ANTIENTROPY_NODE_MAX;
    is("VERSIONS_MAX + 1", accept(&replica, ANTIENTROPY_KEY_MAX, clock, 1, 1) == ANTIENTROPY_CROWDED);
    is("ROW_MAX", antientropy_get(&replica, value, ANTIENTROPY_KEY_MAX, bytes, sizeof bytes, &len) == ANTIENTROPY_OK
                      && len == ANTIENTROPY_ROW_MAX);
    is("ENTRY_MAX", antientropy_entries(&replica, 0, bytes, ANTIENTROPY_ENTRY_MAX, &len, &next) == ANTIENTROPY_OK
                        && len == ANTIENTROPY_ENTRY_MAX && next == 1);
    antientropy_free(&replica);
}

/* The lengths of messages, and the numbers of sessions. */
static void sessions(void)
{
    struct antientropy_replica replica = {0}, other = {0};
    struct antientropy_snapshot snapshot = {0};
    struct antientropy_pair pair = {1, 1};
    uint8_t offer[ANTIENTROPY_OFFER_LEN];
    struct antientropy_spot spot;
    uint64_t session = 0;
    is("place", antientropy_place(1, ANTIENTROPY_BITS_MAX, value, 1, &spot) == ANTIENTROPY_OK);
    is("new", antientropy_new(&replica, 1, ANTIENTROPY_BITS_MAX, spot.range, 1000) == ANTIENTROPY_OK);
    is("new", antientropy_new(&other, 1, ANTIENTROPY_BITS_MAX, spot.range, 1000) == ANTIENTROPY_OK);
    is("accept", accept(&other, 1, &pair, 1, 1) == ANTIENTROPY_OK);
    is("rehash", antientropy_rehash(&replica) == ANTIENTROPY_OK && antientropy_rehash(&other) == ANTIENTROPY_OK);
    is("snapshot", antientropy_snapshot(&other, &snapshot) == ANTIENTROPY_OK);
    is("root", antientropy_root(&snapshot, bytes, sizeof bytes, &len) == ANTIENTROPY_OK);
    is("ROOT_LEN", len == ANTIENTROPY_ROOT_LEN);
    is("offer", antientropy_offer(&snapshot, 1, offer, sizeof offer, &len) == ANTIENTROPY_OK);
    is("OFFER_LEN", len == ANTIENTROPY_OFFER_LEN);
    for (unsigned n = 0; n < ANTIENTROPY_SESSIONS_MAX; n++) {
        is("SESSIONS_MAX", antientropy_open(&replica, 1, offer, sizeof offer, &session) == ANTIENTROPY_OK);
        if (n == ANTIENTROPY_OPEN_SESSIONS_MAX - 1)
            is("OPEN_SESSIONS_MAX + 1",
               antientropy_open(&replica, 1, offer, sizeof offer, &session) == ANTIENTROPY_SESSIONS_FULL);
        if (n >= ANTIENTROPY_OPEN_SESSIONS_MAX - 1)
            is("cancel", antientropy_cancel(&replica, n) == ANTIENTROPY_OK);
    }
    is("SESSIONS_MAX + 1", antientropy_open(&replica, 1, offer, sizeof offer, &session) == ANTIENTROPY_SESSIONS_FULL);
    is("ask", antientropy_ask(&replica, 0, 1, bytes, sizeof bytes, &len) == ANTIENTROPY_OK);
    is("ASK_LEN", len == ANTIENTROPY_ASK_LEN);
    is("drop_sessions", antientropy_drop_sessions(&replica) == ANTIENTROPY_OK);
    is("open", antientropy_open(&replica, 1, offer, sizeof offer, &session) == ANTIENTROPY_OK);
    is("the numbers go on", session == ANTIENTROPY_SESSIONS_MAX);
    is("open sessions stay", antientropy_cancel(&replica, 0) == ANTIENTROPY_OK);
    is("ended ones go",
       antientropy_cancel(&replica, ANTIENTROPY_SESSIONS_MAX - 1) == ANTIENTROPY_UNKNOWN_SESSION);
    antientropy_snapshot_free(&snapshot);
    antientropy_free(&replica);
    antientropy_free(&other);
}

/* Accepts a version of one more key of leaf 0 at a replica, and a newer one at its partner. */
static void add_row(struct antientropy_replica *replica, struct antientropy_replica *partner)
{
    static unsigned n;
    struct antientropy_pair first = {1, 1}, next = {1, 2};
    struct antientropy_spot spot;
    uint8_t key[16];
    size_t size;
    do {
        size = (size_t)snprintf((char *)key, sizeof key, "%u", n++);
        is("place", antientropy_place(1, 0, key, size, &spot) == ANTIENTROPY_OK);
    } while (spot.leaf != 0);
    is("accept", antientropy_accept(replica, key, size, &first, 1, ANTIENTROPY_LIVE, value, 1, &taken)
                     == ANTIENTROPY_OK);
    is("accept", antientropy_accept(partner, key, size, &next, 1, ANTIENTROPY_LIVE, value, 1, &taken)
                     == ANTIENTROPY_OK);
}

/* Returns the length of an exchange's ask for leaf 0, the only leaf that differs, from a buffer of ANTIENTROPY_ASK_ROOM
 * bytes. */
static uint64_t leaf_ask(struct antientropy_replica *replica, struct antientropy_replica *partner)
{
    static const struct antientropy_bounds bounds = {.asks = 1, .bytes = 1, .bad = 0, .lost = 0};
    struct antientropy_exchange exchange = {0};
    struct antientropy_snapshot snapshot = {0};
    struct antientropy_verdict verdict;
    uint8_t offer[ANTIENTROPY_OFFER_LEN], ask[ANTIENTROPY_ASK_ROOM];
    uint64_t ask_len;
    is("rehash", antientropy_rehash(replica) == ANTIENTROPY_OK && antientropy_rehash(partner) == ANTIENTROPY_OK);
    is("hold", antientropy_hold(replica) == ANTIENTROPY_OK);
    is("hash_moment", antientropy_hash_moment(replica, ANTIENTROPY_NODES_1, &len) == ANTIENTROPY_OK && len == 0);
    is("snapshot", antientropy_snapshot(partner, &snapshot) == ANTIENTROPY_OK);
    is("offer", antientropy_offer(&snapshot, 1, offer, sizeof offer, &len) == ANTIENTROPY_OK);
    is("exchange_open",
       antientropy_exchange_open(replica, &exchange, 1, offer, sizeof offer, &bounds) == ANTIENTROPY_OK);
    for (unsigned depth = 0;; depth++) {
        is("exchange_next", antientropy_exchange_next(&exchange, replica, ask, sizeof ask, &ask_len) == ANTIENTROPY_OK);
        if (depth == 2)
            break;
        is("serve", antientropy_serve(&snapshot, 1, ask, ask_len, bytes, sizeof bytes, &len) == ANTIENTROPY_OK);
        is("exchange_take", antientropy_exchange_take(&exchange, replica, bytes, len, &verdict) == ANTIENTROPY_OK);
    }
    antientropy_exchange_free(&exchange);
    antientropy_snapshot_free(&snapshot);
    return ask_len;
}

/* ANTIENTROPY_ASK_ROOM: the outline of a leaf of 1,361 rows fits into it, and the outline of one with 1,362 doesn't. */
static void outlines(void)
{
    struct antientropy_replica replica = {0}, partner = {0};
    is("new", antientropy_new(&replica, 1, 0, 0, 2000) == ANTIENTROPY_OK);
    is("new", antientropy_new(&partner, 1, 0, 0, 2000) == ANTIENTROPY_OK);
    for (unsigned rows = 0; rows < 1361; rows++)
        add_row(&replica, &partner);
    is("ASK_ROOM", leaf_ask(&replica, &partner) == ANTIENTROPY_ASK_ROOM);
    add_row(&replica, &partner);
    is("ASK_ROOM + 1", leaf_ask(&replica, &partner) == ANTIENTROPY_ASK_LEN);
    antientropy_free(&replica);
    antientropy_free(&partner);
}

/* Numbers that a narrower type would truncate to small ones: nodes, partners and leaves. */
static void replica_numbers(void)
{
    static const uint64_t nodes[] = {ANTIENTROPY_NODE_MAX + 1, ANTIENTROPY_NODE_MAX + 2, FAR + 1};
    static const uint64_t leaves[] = {ANTIENTROPY_NODE_MAX + 1, FAR, FAR + 1};
    struct antientropy_replica replica = {0};
    struct antientropy_snapshot snapshot = {0};
    struct antientropy_receipt receipt;
    struct antientropy_pair none = {1, 1};
    uint8_t offer[ANTIENTROPY_OFFER_LEN], key[ANTIENTROPY_KEY_MAX];
    uint64_t counter, session;
    is("new", antientropy_new(&replica, 2, 0, 0, 1000) == ANTIENTROPY_OK);
    is("rehash", antientropy_rehash(&replica) == ANTIENTROPY_OK);
    is("snapshot", antientropy_snapshot(&replica, &snapshot) == ANTIENTROPY_OK);
    is("offer", antientropy_offer(&snapshot, 1, offer, sizeof offer, &len) == ANTIENTROPY_OK);
    for (int n = 0; n < 3; n++) {
        is("put over NODE_MAX", antientropy_put(&replica, nodes[n], value, 1, &none, 0, ANTIENTROPY_LIVE, value, 1,
                                                &receipt) == ANTIENTROPY_BAD_CLOCK);
        is("put_read over NODE_MAX", antientropy_put_read(&replica, nodes[n], value, 1, &none, 0, ANTIENTROPY_LIVE,
                                                          value, 1, &receipt) == ANTIENTROPY_BAD_CLOCK);
        is("top_counter over NODE_MAX",
           antientropy_top_counter(&replica, nodes[n], value, 1, 1, &counter) == ANTIENTROPY_BAD_CLOCK);
        is("open over NODE_MAX",
           antientropy_open(&replica, nodes[n], offer, sizeof offer, &session) == ANTIENTROPY_BAD_CLOCK);
        is("key_after beyond the leaves",
           antientropy_key_after(&replica, leaves[n], value, 0, key, sizeof key, &len) == ANTIENTROPY_BAD_MESSAGE);
        len = 0;
        is("key_next beyond the leaves",
           antientropy_key_next(&replica, leaves[n], key, sizeof key, &len) == ANTIENTROPY_BAD_MESSAGE);
        is("rows beyond the leaves",
           antientropy_rows(&snapshot, leaves[n], bytes, sizeof bytes, &len) == ANTIENTROPY_BAD_MESSAGE);
    }
    is("open at NODE_MAX",
       antientropy_open(&replica, ANTIENTROPY_NODE_MAX, offer, sizeof offer, &session) == ANTIENTROPY_OK);
    is("put at NODE_MAX", antientropy_put(&replica, ANTIENTROPY_NODE_MAX, value, 1, &none, 0, ANTIENTROPY_LIVE, value,
                                          1, &receipt) == ANTIENTROPY_OK);
    antientropy_snapshot_free(&snapshot);
    antientropy_free(&replica);
}

/* Owners and hints with such numbers. The hint that a narrower type would name exists. */
static void hint_numbers(void)
{
    static const uint64_t owners[] = {ANTIENTROPY_NODE_MAX + 1, ANTIENTROPY_NODE_MAX + 2, FAR + 1};
    struct antientropy_hints hints = {0};
    struct antientropy_pair pair = {1, 1};
    uint64_t id, owner;
    uint8_t kind;
    is("hints_new", antientropy_hints_new(&hints) == ANTIENTROPY_OK);
    is("hint_keep", antientropy_hint_keep(&hints, 1, value, 1, &pair, 1, ANTIENTROPY_LIVE, value, 1, &id)
                        == ANTIENTROPY_OK && id == 1);
    for (int n = 0; n < 3; n++) {
        is("hint_keep over NODE_MAX", antientropy_hint_keep(&hints, owners[n], value, 1, &pair, 1, ANTIENTROPY_LIVE,
                                                            value, 1, &id) == ANTIENTROPY_BAD_CLOCK);
        is("hint_next over NODE_MAX", antientropy_hint_next(&hints, owners[n], 0, &id) == ANTIENTROPY_NO_VERSION);
    }
    is("hint_owner", antientropy_hint_owner(&hints, FAR + 1, &owner) == ANTIENTROPY_NO_VERSION);
    is("hint_key", antientropy_hint_key(&hints, FAR + 1, bytes, sizeof bytes, &len) == ANTIENTROPY_NO_VERSION);
    is("hint_value",
       antientropy_hint_value(&hints, FAR + 1, &kind, bytes, sizeof bytes, &len) == ANTIENTROPY_NO_VERSION);
    is("hint_clock", antientropy_hint_clock(&hints, FAR + 1, &pair, 1, &len) == ANTIENTROPY_NO_VERSION);
    is("hint_confirm", antientropy_hint_confirm(&hints, FAR + 1, false) == ANTIENTROPY_UNKNOWN_HINT);
    is("hint_next after all", antientropy_hint_next(&hints, 1, FAR, &id) == ANTIENTROPY_NO_VERSION);
    is("hint_owner of hint 1", antientropy_hint_owner(&hints, 1, &owner) == ANTIENTROPY_OK && owner == 1);
    is("hint_confirm of hint 1", antientropy_hint_confirm(&hints, 1, false) == ANTIENTROPY_OK);
    antientropy_hints_free(&hints);
}

/* Lengths that no memory has. They are checked before a byte is read. */
static void lengths(void)
{
    struct antientropy_replica replica = {0};
    struct antientropy_hints hints = {0};
    struct antientropy_pair pair = {1, 1}, pairs[1];
    struct antientropy_reading reading;
    struct antientropy_receipt receipt;
    struct antientropy_spot spot;
    uint64_t count;
    uint8_t kind;
    is("new", antientropy_new(&replica, 2, 0, 0, 1000) == ANTIENTROPY_OK);
    is("hints_new", antientropy_hints_new(&hints) == ANTIENTROPY_OK);
    is("accept", accept(&replica, 1, &pair, 1, 1) == ANTIENTROPY_OK);
    is("put of an endless key", antientropy_put(&replica, 1, value, SIZE_MAX, &pair, 1, ANTIENTROPY_LIVE, value, 1,
                                                &receipt) == ANTIENTROPY_BAD_KEY);
    is("put of an endless value", antientropy_put(&replica, 1, value, 1, &pair, 1, ANTIENTROPY_LIVE, value, SIZE_MAX,
                                                  &receipt) == ANTIENTROPY_BAD_VALUE);
    is("put of an endless context", antientropy_put(&replica, 1, value, 1, &pair, SIZE_MAX, ANTIENTROPY_LIVE, value, 1,
                                                    &receipt) == ANTIENTROPY_BAD_CLOCK);
    is("put_read of an endless key", antientropy_put_read(&replica, 1, value, SIZE_MAX, &pair, 1, ANTIENTROPY_LIVE,
                                                          value, 1, &receipt) == ANTIENTROPY_BAD_KEY);
    is("accept of an endless key", accept(&replica, SIZE_MAX, &pair, 1, 1) == ANTIENTROPY_BAD_KEY);
    is("accept of an endless value", accept(&replica, 1, &pair, 1, SIZE_MAX) == ANTIENTROPY_BAD_VALUE);
    is("accept of an endless clock", accept(&replica, 1, &pair, SIZE_MAX, 1) == ANTIENTROPY_BAD_CLOCK);
    is("hint_keep of an endless key", antientropy_hint_keep(&hints, 1, value, SIZE_MAX, &pair, 1, ANTIENTROPY_LIVE,
                                                            value, 1, &len) == ANTIENTROPY_BAD_KEY);
    is("hint_keep of an endless value", antientropy_hint_keep(&hints, 1, value, 1, &pair, 1, ANTIENTROPY_LIVE, value,
                                                              SIZE_MAX, &len) == ANTIENTROPY_BAD_VALUE);
    is("compare of an endless clock", antientropy_compare(&pair, 1, &pair, SIZE_MAX, &len) == ANTIENTROPY_BAD_CLOCK);
    is("place of an endless key", antientropy_place(2, 0, value, SIZE_MAX, &spot) == ANTIENTROPY_BAD_KEY);
    is("get of an endless key",
       antientropy_get(&replica, value, SIZE_MAX, bytes, sizeof bytes, &len) == ANTIENTROPY_BAD_KEY);
    is("versions of an endless key",
       antientropy_versions(&replica, value, SIZE_MAX, &count) == ANTIENTROPY_OK && count == 0);
    is("read of an endless key", antientropy_read(&replica, value, SIZE_MAX, 0, &reading, pairs, 1, bytes,
                                                  sizeof bytes) == ANTIENTROPY_NO_VERSION);
    is("value of an endless key", antientropy_value(&replica, value, SIZE_MAX, 0, &kind, bytes, sizeof bytes, &len)
                                      == ANTIENTROPY_NO_VERSION);
    is("clock of an endless key",
       antientropy_clock(&replica, value, SIZE_MAX, 0, pairs, 1, &len) == ANTIENTROPY_NO_VERSION);
    is("top_counter of an endless key",
       antientropy_top_counter(&replica, 1, value, SIZE_MAX, 1, &count) == ANTIENTROPY_OK && count == 0);
    is("place", antientropy_place(2, 0, value, 1, &spot) == ANTIENTROPY_OK);
    is("key_after an endless key", antientropy_key_after(&replica, spot.leaf, value, SIZE_MAX, bytes, sizeof bytes,
                                                         &len) == ANTIENTROPY_NO_VERSION);
    antientropy_hints_free(&hints);
    antientropy_free(&replica);
}

/* The version and the names. */
static void names(void)
{
    uint64_t longest = 0;
    is("VERSION", antientropy_version() == ANTIENTROPY_VERSION);
    for (uint32_t number = 0; number <= ANTIENTROPY_BAD_POSITION; number++) {
        is("name", antientropy_name(number, bytes, sizeof bytes, &len) == ANTIENTROPY_OK && len > 0);
        const char *name = antientropy_strerror(number);
        is("strerror", strlen(name) == len && memcmp(name, bytes, len) == 0);
        longest = len > longest ? len : longest;
    }
    is("NAME_MAX", longest == ANTIENTROPY_NAME_MAX);
    is("a number without a name",
       antientropy_name(ANTIENTROPY_BAD_POSITION + 1, bytes, sizeof bytes, &len) == ANTIENTROPY_OK && len == 0);
    is("strerror of a number without a name", strcmp(antientropy_strerror(ANTIENTROPY_BAD_POSITION + 1), "unknown") == 0
                                                  && strcmp(antientropy_strerror(UINT32_MAX), "unknown") == 0);
    is("BAD_KEY", antientropy_name(ANTIENTROPY_BAD_KEY, bytes, sizeof bytes, &len) == ANTIENTROPY_OK && len == 6
                      && memcmp(bytes, "BadKey", 6) == 0);
}

int main(void)
{
    formats();
    greatest_row();
    sessions();
    outlines();
    replica_numbers();
    hint_numbers();
    lengths();
    names();
    printf("the header's limits are the library's\n");
    return 0;
}
