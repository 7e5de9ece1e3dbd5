/* Two replicas of a range: one is away while the other takes writes, and messages bring them together.
 *
 * It prints what happens, and ends with status 1 if a call returns another number than the one wanted. */
#include "antientropy.h"

#include <stdio.h>
#include <stdlib.h>
#include <string.h>

/* A session takes each of the 4,369 nodes of a tree of format 2 at most once. Bad answers are counted separately: more
 * than a few mean that the link or the partner is at fault. */
enum { OFFER = 7, MOST_ASKS = 10000, MOST_BAD = 8, PORTION = 64, MARK_WIDTH = 3 };

static uint8_t offer[ANTIENTROPY_OFFER_LEN], ask[ANTIENTROPY_ASK_ROOM], text[ANTIENTROPY_VALUE_MAX_2];

/* The buffer of an answer, which grows: the answer of a leaf has no fixed limit. */
static uint8_t *answer;
static size_t room;

/* Ends the program unless a call returned the number that is wanted. */
static void want(const char *call, uint32_t got, uint32_t wanted)
{
    if (got != wanted) {
        printf("%s returned %s, not %s\n", call, antientropy_strerror(got), antientropy_strerror(wanted));
        exit(1);
    }
}

/* Grows the buffer to the length of an answer. */
static void make_room(uint64_t len)
{
    free(answer);
    answer = malloc(len);
    room = len;
    if (answer == NULL) {
        printf("no room for an answer\n");
        exit(1);
    }
}

static void put(struct antientropy_replica *replica, uint64_t node, const char *key, const char *value,
                const struct antientropy_pair *context, size_t context_len)
{
    struct antientropy_receipt receipt;
    uint32_t got = antientropy_put_read(replica, node, (const uint8_t *)key, strlen(key), context, context_len,
                                        ANTIENTROPY_LIVE, (const uint8_t *)value, strlen(value), &receipt);
    want("put", got, ANTIENTROPY_OK);
}

/* Returns the number of versions of a key. */
static unsigned long long versions(const struct antientropy_replica *replica, const char *key)
{
    uint64_t count;
    want("versions", antientropy_versions(replica, (const uint8_t *)key, strlen(key), &count), ANTIENTROPY_OK);
    return (unsigned long long)count;
}

/* Holds a replica's current rows as its moment, and hashes them in portions. Puts may be made between the portions:
 * they don't change the moment. */
static void hold(struct antientropy_replica *replica)
{
    uint64_t left;
    want("hold", antientropy_hold(replica), ANTIENTROPY_OK);
    do
        want("hash_moment", antientropy_hash_moment(replica, PORTION, &left), ANTIENTROPY_OK);
    while (left > 0);
}

/* Writes the message that offers a replica's current rows under a number, and returns its length. */
static uint64_t offer_now(struct antientropy_replica *replica, struct antientropy_snapshot *snapshot, uint32_t number)
{
    uint64_t len;
    hold(replica);
    want("moment", antientropy_moment(replica, snapshot), ANTIENTROPY_OK);
    want("offer", antientropy_offer(snapshot, number, offer, sizeof offer, &len), ANTIENTROPY_OK);
    return len;
}

/* Writes the root of a replica's current rows. */
static void root_of(struct antientropy_replica *replica, uint8_t *root)
{
    struct antientropy_snapshot snapshot = {0};
    uint64_t len;
    hold(replica);
    want("moment", antientropy_moment(replica, &snapshot), ANTIENTROPY_OK);
    want("root", antientropy_root(&snapshot, root, ANTIENTROPY_ROOT_LEN, &len), ANTIENTROPY_OK);
    antientropy_snapshot_free(&snapshot);
}

/* Returns true if two replicas have equal roots. */
static bool equal_roots(struct antientropy_replica *a, struct antientropy_replica *b)
{
    uint8_t first[ANTIENTROPY_ROOT_LEN], second[ANTIENTROPY_ROOT_LEN];
    root_of(a, first);
    root_of(b, second);
    return memcmp(first, second, sizeof first) == 0;
}

/* Returns true if an answer was refused without harm: the next ask is for the same node. */
static bool is_bad_answer(uint32_t got)
{
    return got == ANTIENTROPY_BAD_MESSAGE || got == ANTIENTROPY_NOT_ASKED || got == ANTIENTROPY_WRONG_DIGEST;
}

/* Writes the message for the outstanding node at a place, and returns the number of its bytes: an outline, so that the
 * partner sends only the missing parts, or the ask, if the outline doesn't fit or the answer before was bad. */
static uint64_t message_for(const struct antientropy_replica *replica, uint64_t session, uint64_t place,
                            uint32_t number, bool was_bad)
{
    uint64_t len;
    uint32_t got = antientropy_outline_at(replica, session, place, number, MARK_WIDTH, ask, sizeof ask, &len);
    if (got == ANTIENTROPY_OK && !was_bad)
        return len;
    want("ask", antientropy_ask_at(replica, session, place, number, ask, sizeof ask, &len), ANTIENTROPY_OK);
    return len;
}

/* Answers the ask from a snapshot, and returns the number of bytes. If they don't fit, the buffer grows and the ask is
 * served again. */
static uint64_t serve(const struct antientropy_snapshot *offered, uint64_t ask_len)
{
    uint64_t len;
    uint32_t got = antientropy_serve(offered, OFFER, ask, ask_len, answer, room, &len);
    if (got == ANTIENTROPY_SMALL) {
        make_room(len);
        got = antientropy_serve(offered, OFFER, ask, ask_len, answer, room, &len);
    }
    want("serve", got, ANTIENTROPY_OK);
    return len;
}

/* Syncs a replica from a partner, and prints the numbers of asks and of new versions. The second answer is forged, and
 * is refused. A leaf with a crowded key is left, and the nodes after it are asked. The session is dropped at the
 * end. */
static void sync(struct antientropy_replica *replica, struct antientropy_replica *partner)
{
    struct antientropy_snapshot offered = {0};
    struct antientropy_offer_parts parts;
    struct antientropy_taken taken;
    uint64_t len = offer_now(partner, &offered, OFFER), session, state, accepted = 0;
    unsigned asks, bad = 0, crowded = 0;
    want("read_offer", antientropy_read_offer(offer, len, &parts), ANTIENTROPY_OK);
    uint32_t got = ANTIENTROPY_OK, number = (uint32_t)parts.number;
    hold(replica);
    want("open", antientropy_open_at_moment(replica, 2, offer, len, &session), ANTIENTROPY_OK);
    for (asks = 0; asks < MOST_ASKS && bad < MOST_BAD; asks++) {
        len = message_for(replica, session, crowded, number, is_bad_answer(got));
        if (len == 0)
            break;
        len = serve(&offered, len);
        if (asks == 1)
            answer[len - 1] ^= 1;
        got = antientropy_take(replica, session, number, answer, len, &taken);
        if (got == ANTIENTROPY_OK) {
            accepted += taken.accepted;
        } else if (got == ANTIENTROPY_CROWDED) {
            crowded++;
        } else if (is_bad_answer(got)) {
            printf("a forged answer is refused\n");
            bad++;
        } else {
            break; /* JOURNAL_FULL or NO_MEMORY */
        }
    }
    /* A session that has ended is unchanged. */
    want("cancel", antientropy_cancel(replica, session), ANTIENTROPY_OK);
    want("session", antientropy_session(replica, session, &state), ANTIENTROPY_OK);
    want("drop_sessions", antientropy_drop_sessions(replica), ANTIENTROPY_OK);
    antientropy_snapshot_free(&offered);
    printf("asks %u, accepted %llu, session %s\n", asks, (unsigned long long)accepted,
           state == ANTIENTROPY_FINISHED ? "finished" : "not finished");
}

/* Prints the entries of a replica's journal from a number on: the results of the calls since then. */
static void follow(const struct antientropy_replica *replica, uint64_t from)
{
    static const char *const sources[] = {"a put", "a copy", "a hint", "a partner"};
    struct antientropy_counts counts;
    uint8_t key[ANTIENTROPY_KEY_MAX], kind;
    uint64_t key_len, len, source;
    want("count", antientropy_count(replica, &counts), ANTIENTROPY_OK);
    for (uint64_t n = from; n < counts.entries; n++) {
        want("entry_key", antientropy_entry_key(replica, n, key, sizeof key, &key_len), ANTIENTROPY_OK);
        want("entry_value", antientropy_entry_value(replica, n, &kind, text, sizeof text, &len), ANTIENTROPY_OK);
        want("entry_source", antientropy_entry_source(replica, n, &source), ANTIENTROPY_OK);
        printf("entry %llu: %.*s = %.*s, of %s\n", (unsigned long long)n, (int)key_len, (const char *)key, (int)len,
               (const char *)text, sources[source]);
    }
}

/* Prints the keys of a replica, leaf by leaf. */
static void list(struct antientropy_replica *replica)
{
    uint8_t key[ANTIENTROPY_KEY_MAX];
    printf("keys:");
    for (uint64_t leaf = 0; leaf < ANTIENTROPY_LEAVES_2; leaf++) {
        uint64_t len = 0;
        while (antientropy_key_next(replica, leaf, key, sizeof key, &len) == ANTIENTROPY_OK)
            printf(" %.*s", (int)len, (const char *)key);
    }
    printf("\n");
}

/* Reads the versions of a key, and puts one value in place of all of them. */
static void merge(struct antientropy_replica *replica, uint64_t node, const char *key, const char *value)
{
    struct antientropy_pair context[ANTIENTROPY_CLOCK_MAX], clock[ANTIENTROPY_CLOCK_MAX], merged[ANTIENTROPY_CLOCK_MAX];
    struct antientropy_reading reading = {.versions = 1};
    const uint8_t *bytes = (const uint8_t *)key;
    size_t len = strlen(key);
    uint64_t seen = 0;
    for (uint64_t n = 0; n < reading.versions; n++) {
        uint32_t got = antientropy_read(replica, bytes, len, n, &reading, clock, ANTIENTROPY_CLOCK_MAX, text,
                                        sizeof text);
        want("read", got, ANTIENTROPY_OK);
        printf("%s: %.*s\n", key, (int)reading.bytes, (const char *)text);
        got = antientropy_merge(context, seen, clock, reading.pairs, merged, ANTIENTROPY_CLOCK_MAX, &seen);
        want("merge", got, ANTIENTROPY_OK);
        memcpy(context, merged, sizeof context);
    }
    put(replica, node, key, value, context, seen);
    want("read", antientropy_read(replica, bytes, len, 1, &reading, clock, ANTIENTROPY_CLOCK_MAX, text, sizeof text),
         ANTIENTROPY_NO_VERSION);
}

/* Sends a replica twice a hint that was kept for it while it was away, and compares its clock with another one. */
static void deliver(struct antientropy_replica *replica)
{
    const struct antientropy_pair clock[] = {{3, 1}}, other[] = {{1, 1}};
    uint64_t taken, order;
    for (int n = 0; n < 2; n++) {
        want("accept", antientropy_accept(replica, (const uint8_t *)"gift", 4, clock, 1, ANTIENTROPY_LIVE,
                                          (const uint8_t *)"wrapped", 7, &taken), ANTIENTROPY_OK);
        printf("a hint is %s\n", taken ? "taken" : "known");
    }
    want("compare", antientropy_compare(clock, 1, other, 1, &order), ANTIENTROPY_OK);
    printf("its clock and node 1's first are %s\n", order == ANTIENTROPY_APART ? "concurrent" : "in order");
}

/* Replaces a replica by a new one that begins with the versions that the old one holds. */
static void renew(struct antientropy_replica *replica)
{
    struct antientropy_replica old = *replica;
    struct antientropy_counts counts;
    *replica = (struct antientropy_replica){0};
    want("renew", antientropy_renew(&old, replica, 0), ANTIENTROPY_BAD_RING);
    want("renew", antientropy_renew(&old, replica, 1), ANTIENTROPY_JOURNAL_FULL);
    want("renew", antientropy_renew(&old, replica, 1000), ANTIENTROPY_OK);
    want("renew", antientropy_renew(&old, replica, 1000), ANTIENTROPY_HELD);
    want("count", antientropy_count(replica, &counts), ANTIENTROPY_OK);
    printf("renewed with %llu entries and %llu sessions, ", (unsigned long long)(counts.entries - counts.first),
           (unsigned long long)counts.sessions);
    printf("roots equal: %s\n", equal_roots(&old, replica) ? "yes" : "no");
    antientropy_free(&old);
    want("renew", antientropy_renew(&old, replica, 1000), ANTIENTROPY_EMPTY);
}

int main(void)
{
    struct antientropy_replica a = {0}, b = {0};
    struct antientropy_pair seen[] = {{1, 1}};
    uint64_t need;
    make_room(64);
    want("versions", antientropy_versions(&a, (const uint8_t *)"k", 1, &need), ANTIENTROPY_EMPTY);
    want("new", antientropy_new(&a, 3, 0, 0, 1000), ANTIENTROPY_BAD_RING);
    want("new", antientropy_new(&a, 2, 0, 0, 1000), ANTIENTROPY_OK);
    want("new", antientropy_new(&a, 2, 0, 0, 1000), ANTIENTROPY_HELD);
    want("new", antientropy_new(&b, 2, 0, 0, 1000), ANTIENTROPY_OK);

    put(&a, 1, "cart", "milk", seen, 0);
    put(&b, 2, "cart", "eggs", seen, 0);
    printf("cart: %llu version at a, %llu at b\n", versions(&a, "cart"), versions(&b, "cart"));
    printf("b is away\n");
    put(&a, 1, "cart", "milk, bread", seen, 1);
    put(&a, 1, "order", "paid", seen, 0);
    printf("roots equal: %s\n", equal_roots(&a, &b) ? "yes" : "no");

    sync(&b, &a);
    follow(&b, 1);
    sync(&a, &b);
    printf("cart: %llu versions at a, %llu at b; order: %llu at b\n", versions(&a, "cart"), versions(&b, "cart"),
           versions(&b, "order"));
    printf("roots equal: %s\n", equal_roots(&a, &b) ? "yes" : "no");

    merge(&b, 2, "cart", "milk, bread, eggs");
    printf("cart: %llu version at b\n", versions(&b, "cart"));
    sync(&a, &b);
    printf("cart: %llu version at a\n", versions(&a, "cart"));

    deliver(&b);
    want("cancel", antientropy_cancel(&b, 0), ANTIENTROPY_UNKNOWN_SESSION);
    want("get", antientropy_get(&a, (const uint8_t *)"order", 5, text, 3, &need), ANTIENTROPY_SMALL);
    want("get", antientropy_get(&a, (const uint8_t *)"order", 5, text, need, &need), ANTIENTROPY_OK);
    printf("the row of order has %llu bytes\n", (unsigned long long)need);
    renew(&b);
    list(&b);
    antientropy_free(&a);
    antientropy_free(&b);
    want("migrate", antientropy_migrate(&a), ANTIENTROPY_EMPTY);
    free(answer);
    return 0;
}
