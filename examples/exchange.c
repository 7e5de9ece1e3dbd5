/* Exchanges with a partner: the loop of a sync. A replica takes all versions of a partner. A partner sends the text of
 * the first leaf, which is crowded, for each ask for a leaf, and only that leaf is left (for a leaf that isn't asked
 * for yet, such an answer would count as bad). A partner sends patches, forges each of them, or refuses outlines, and
 * the replica takes all its versions. A sync under a deadline continues later, after a put, in the same session. The
 * program prints the progress of each exchange, and ends with status 1 if a call returns another number than the one
 * wanted. */
#include "antientropy.h"

#include <stdio.h>
#include <stdlib.h>
#include <string.h>

enum { FORMAT = 2, LIMIT = 10000, PARTNER = 2, OFFER = 7, KEYS = 40, ROOM = 1 << 16, DEPTH_AT = 5, LEAF_DEPTH = 3 };
enum { MANY = 100000, DIFFER = 1100, VALUE = 300, OUTLINE = 4, PATCH = 5 };

static const char *const reports[] = {"finished",      "waiting", "left",   "stopped", "too many bad",
                                      "too many lost", "failed",  "closed", "gone"};
static const struct antientropy_bounds bounds = {.asks = 8, .bytes = ROOM, .bad = 2, .lost = 4};
static uint8_t offer[ANTIENTROPY_OFFER_LEN], ask[ANTIENTROPY_ASK_ROOM], answer[ROOM];

/* Ends the program if a call was refused. */
static void ok(const char *call, uint32_t got)
{
    if (got != ANTIENTROPY_OK) {
        printf("%s: %s\n", call, antientropy_strerror(got));
        exit(1);
    }
}

/* Puts a value for a key. */
static void put(struct antientropy_replica *replica, uint64_t node, const char *key)
{
    const struct antientropy_pair none = {1, 1};
    struct antientropy_receipt receipt;
    ok("put", antientropy_put_read(replica, node, (const uint8_t *)key, strlen(key), &none, 0, ANTIENTROPY_LIVE,
                                   (const uint8_t *)"milk", 4, &receipt));
}

/* Makes a replica with a whole moment, with values that a node put for some keys. */
static void fill(struct antientropy_replica *replica, uint64_t node, unsigned keys)
{
    char key[16];
    uint64_t left;
    ok("new", antientropy_new(replica, FORMAT, 0, 0, LIMIT));
    for (unsigned n = 0; n < keys; n++) {
        snprintf(key, sizeof key, "key-%u", n);
        put(replica, node, key);
    }
    ok("hold", antientropy_hold(replica));
    do
        ok("hash_moment", antientropy_hash_moment(replica, 1000, &left));
    while (left > 0);
}

/* Makes the offer of a partner's moment. */
static void offer_now(const struct antientropy_replica *partner, struct antientropy_snapshot *offered)
{
    uint64_t len;
    ok("moment", antientropy_moment(partner, offered));
    ok("offer", antientropy_offer(offered, OFFER, offer, sizeof offer, &len));
}

/* Prints the progress of an exchange. */
static void show(const char *name, struct antientropy_exchange *exchange, const struct antientropy_replica *replica)
{
    struct antientropy_progress progress;
    ok("exchange_report", antientropy_exchange_report(exchange, replica, &progress));
    printf("%s: %s, accepted %llu, bad %llu, lost %llu, on their way %llu\n", name, reports[progress.report],
           (unsigned long long)progress.accepted, (unsigned long long)progress.bad, (unsigned long long)progress.lost,
           (unsigned long long)progress.in_flight);
}

/* Sends asks and takes the partner's answers, until no ask is left or `most` were sent. Returns their bytes. */
static uint64_t sync_some(struct antientropy_exchange *exchange, struct antientropy_replica *replica,
                          const struct antientropy_snapshot *offered, unsigned most)
{
    struct antientropy_verdict verdict;
    uint64_t len, bytes = 0;
    for (unsigned sent = 0; sent < most; sent++) {
        ok("exchange_next", antientropy_exchange_next(exchange, replica, ask, sizeof ask, &len));
        if (len == 0)
            break;
        bytes += len;
        ok("serve", antientropy_serve(offered, OFFER, ask, len, answer, sizeof answer, &len));
        bytes += len;
        ok("exchange_take", antientropy_exchange_take(exchange, replica, answer, len, &verdict));
    }
    return bytes;
}

/* Ends an exchange, and drops its session. */
static void end(struct antientropy_exchange *exchange, struct antientropy_replica *replica)
{
    ok("exchange_close", antientropy_exchange_close(exchange, replica));
    ok("drop_sessions", antientropy_drop_sessions(replica));
    antientropy_exchange_free(exchange);
}

/* Syncs a replica with a partner. */
static void sync_all(const struct antientropy_snapshot *offered)
{
    struct antientropy_replica replica = {0};
    struct antientropy_exchange exchange = {0};
    fill(&replica, 1, 4);
    ok("exchange_open", antientropy_exchange_open(&replica, &exchange, PARTNER, offer, sizeof offer, &bounds));
    sync_some(&exchange, &replica, offered, UINT32_MAX);
    show("a sync", &exchange, &replica);
    end(&exchange, &replica);
    antientropy_free(&replica);
}

/* Accepts the maximum number of versions of a key. */
static void crowd(struct antientropy_replica *replica, const char *key)
{
    uint64_t taken, left;
    for (unsigned node = 1; node <= ANTIENTROPY_VERSIONS_MAX; node++) {
        struct antientropy_pair clock = {1000 + node, 1};
        ok("accept", antientropy_accept(replica, (const uint8_t *)key, strlen(key), &clock, 1, ANTIENTROPY_LIVE,
                                        (const uint8_t *)"milk", 4, &taken));
    }
    ok("hold", antientropy_hold(replica));
    do
        ok("hash_moment", antientropy_hash_moment(replica, 1000, &left));
    while (left > 0);
}

/* Writes the key of the partner whose leaf is asked for first, and returns the leaf. */
static uint64_t first_leaf(char *first, size_t room)
{
    struct antientropy_spot spot;
    char key[16];
    uint64_t least = ANTIENTROPY_LEAVES_2;
    for (unsigned n = 0; n < KEYS; n++) {
        snprintf(key, sizeof key, "key-%u", n);
        ok("place", antientropy_place(FORMAT, 0, (const uint8_t *)key, strlen(key), &spot));
        if (spot.leaf < least) {
            least = spot.leaf;
            snprintf(first, room, "%s", key);
        }
    }
    return least;
}

/* Syncs with a partner that sends the text of a crowded key's leaf for each ask for a leaf. The other asks are lost. */
static void sync_crowded(const struct antientropy_snapshot *offered)
{
    static uint8_t crowded[ROOM];
    struct antientropy_replica replica = {0};
    struct antientropy_exchange exchange = {0};
    struct antientropy_verdict verdict;
    struct antientropy_node node;
    char key[16];
    uint64_t sent, len, crowded_len, leaf = first_leaf(key, sizeof key), count = 0;
    const uint8_t of_leaf[] = {2, 0, 0, 0, OFFER, LEAF_DEPTH, (uint8_t)(leaf >> 8), (uint8_t)leaf};
    ok("serve", antientropy_serve(offered, OFFER, of_leaf, sizeof of_leaf, crowded, sizeof crowded, &crowded_len));
    fill(&replica, 1, 0);
    crowd(&replica, key);
    ok("exchange_open", antientropy_exchange_open(&replica, &exchange, PARTNER, offer, sizeof offer, &bounds));
    while (ok("exchange_next", antientropy_exchange_next(&exchange, &replica, ask, sizeof ask, &sent)), sent > 0) {
        if (ask[DEPTH_AT] == LEAF_DEPTH) {
            ok("exchange_take", antientropy_exchange_take(&exchange, &replica, crowded, crowded_len, &verdict));
        } else {
            ok("serve", antientropy_serve(offered, OFFER, ask, sent, answer, sizeof answer, &len));
            ok("exchange_take", antientropy_exchange_take(&exchange, &replica, answer, len, &verdict));
        }
        if (verdict.verdict == ANTIENTROPY_VERDICT_LATE)
            ok("exchange_lose", antientropy_exchange_lose(&exchange, ask, sent));
    }
    show("one crowded leaf", &exchange, &replica);
    while (antientropy_exchange_left(&exchange, &replica, count, &node) == ANTIENTROPY_OK)
        count += node.depth == LEAF_DEPTH && node.index == leaf;
    printf("  left %llu: the crowded leaf\n", (unsigned long long)count);
    end(&exchange, &replica);
    antientropy_free(&replica);
}

/* Makes a replica with a whole moment, with some keys, whose values have `bytes` bytes. It holds this version of one in
 * `after` keys, up to 1,100 keys, and the first version of the others. */
static void fill_versions(struct antientropy_replica *replica, unsigned keys, unsigned after, size_t bytes,
                          uint64_t version)
{
    static const uint8_t value[VALUE];
    struct antientropy_pair clock = {100, 1};
    char key[16];
    uint64_t taken, left;
    ok("new", antientropy_new(replica, FORMAT, 0, 0, 2 * MANY));
    for (unsigned n = 0; n < keys; n++) {
        clock.counter = n % after == 0 && n / after < DIFFER ? version : 1;
        ok("accept", antientropy_accept(replica, (const uint8_t *)key, (size_t)snprintf(key, sizeof key, "key-%u", n),
                                        &clock, 1, ANTIENTROPY_LIVE, value, bytes, &taken));
    }
    ok("hold", antientropy_hold(replica));
    do
        ok("hash_moment", antientropy_hash_moment(replica, 1000, &left));
    while (left > 0);
}

/* A partner's handling of outlines: it serves them, changes a byte of each patch, or has a version without outlines. */
enum partner { SERVES, LIES, REFUSES };

/* Syncs with a partner that has another version of ten keys, each in a leaf of its own. An outline is sent for each of
 * these leaves, since a row has over 255 bytes. If the first three lead to no text, no more are sent. */
static void sync_by_outlines(const char *name, enum partner does)
{
    struct antientropy_replica replica = {0}, partner = {0};
    struct antientropy_snapshot offered = {0};
    struct antientropy_exchange exchange = {0};
    struct antientropy_verdict verdict;
    unsigned patches = 0, without = 0;
    uint64_t len, answer_len;
    fill_versions(&partner, KEYS, 4, VALUE, 2);
    offer_now(&partner, &offered);
    fill_versions(&replica, KEYS, 4, VALUE, 1);
    ok("exchange_open", antientropy_exchange_open(&replica, &exchange, PARTNER, offer, sizeof offer, &bounds));
    while (ok("exchange_next", antientropy_exchange_next(&exchange, &replica, ask, sizeof ask, &len)), len > 0) {
        if (ask[0] == OUTLINE && does == REFUSES) {
            ok("exchange_lose", antientropy_exchange_lose(&exchange, ask, len));
            without++;
            continue;
        }
        ok("serve", antientropy_serve(&offered, OFFER, ask, len, answer, sizeof answer, &answer_len));
        if (answer[0] == PATCH && does == LIES)
            answer[answer_len - 1] ^= 1;
        ok("exchange_take", antientropy_exchange_take(&exchange, &replica, answer, answer_len, &verdict));
        without += verdict.verdict == ANTIENTROPY_VERDICT_LATE;
        patches += answer[0] == PATCH && ask[DEPTH_AT] == LEAF_DEPTH && verdict.accepted == 1;
    }
    show(name, &exchange, &replica);
    printf("  leaves by patches %u, outlines without a text %u\n", patches, without);
    end(&exchange, &replica);
    antientropy_snapshot_free(&offered);
    antientropy_free(&partner);
    antientropy_free(&replica);
}

/* Runs a sync that stops at a deadline after each 100 asks, and continues in the same session after a put. Patches are
 * sent in place of texts of 3 MB. */
static void sync_by_ticks(void)
{
    struct antientropy_replica replica = {0}, partner = {0};
    struct antientropy_snapshot offered = {0};
    struct antientropy_exchange exchange = {0};
    struct antientropy_progress progress;
    struct antientropy_counts counts;
    char key[16];
    uint64_t bytes = sizeof offer, ticks = 0;
    fill_versions(&partner, MANY, 90, 100, 2);
    offer_now(&partner, &offered);
    fill_versions(&replica, MANY, 90, 100, 1);
    ok("exchange_open", antientropy_exchange_open(&replica, &exchange, PARTNER, offer, sizeof offer, &bounds));
    do {
        bytes += sync_some(&exchange, &replica, &offered, 100);
        snprintf(key, sizeof key, "tick-%u", (unsigned)ticks++);
        put(&replica, 1, key);
        ok("exchange_report", antientropy_exchange_report(&exchange, &replica, &progress));
    } while (progress.report == ANTIENTROPY_REPORT_WAITING);
    show("by ticks", &exchange, &replica);
    ok("count", antientropy_count(&replica, &counts));
    printf("  sessions %llu, %s 0.4 MB\n", (unsigned long long)counts.sessions, bytes <= 400000 ? "at most" : "over");
    end(&exchange, &replica);
    antientropy_snapshot_free(&offered);
    antientropy_free(&partner);
    antientropy_free(&replica);
}

int main(void)
{
    struct antientropy_replica partner = {0};
    struct antientropy_snapshot offered = {0};
    fill(&partner, 100, KEYS);
    offer_now(&partner, &offered);
    sync_all(&offered);
    sync_crowded(&offered);
    sync_by_outlines("by patches", SERVES);
    sync_by_outlines("lies in patches", LIES);
    sync_by_outlines("outlines refused", REFUSES);
    sync_by_ticks();
    antientropy_snapshot_free(&offered);
    antientropy_free(&partner);
    return 0;
}
