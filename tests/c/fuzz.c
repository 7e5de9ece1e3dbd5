/* Passes hostile bytes to each call of the C library that reads a message or rows: 16 MiB of them, and mutated ones.
 *
 *     fuzz [MUTATIONS]     (100,000 for each call by default)
 *
 * Each call must refuse them, unless an ask, an outline or rows happen to be valid, and leave the replica unchanged,
 * with equal counts and equal rows. An empty replica that refuses rows must stay empty. A mutated patch may end its
 * outline, which isn't counted. Prints the number of bytes and mutations, and ends with status 1 at the first call that
 * does otherwise. */
#include "antientropy.h"

#include <stdio.h>
#include <stdlib.h>
#include <string.h>

enum { ROOM = 1 << 16, HOSTILE = 16 << 20, KEYS = 200, NUMBER = 7, SEED = 20260101, LEAF_DEPTH = 3, PATCH = 5 };

static uint8_t out[ROOM], before[KEYS][512], after[ROOM];
static uint64_t before_len[KEYS];
static uint32_t state = SEED;

/* Returns the next of a fixed list of numbers (xorshift32). */
static uint32_t next(void)
{
    state ^= state << 13;
    state ^= state >> 17;
    state ^= state << 5;
    return state;
}

static void fail(const char *what, uint32_t number)
{
    printf("%s: %u\n", what, number);
    exit(1);
}

static void must(const char *call, uint32_t number)
{
    if (number != ANTIENTROPY_OK)
        fail(call, number);
}

static size_t key_of(unsigned n, uint8_t *key)
{
    return (size_t)snprintf((char *)key, 16, "key %u", n);
}

static void fill(struct antientropy_replica *replica, uint64_t node, unsigned first, unsigned step)
{
    struct antientropy_pair none[1] = {{0, 0}};
    struct antientropy_receipt receipt;
    uint8_t key[16];
    for (unsigned n = first; n < KEYS; n += step)
        must("put", antientropy_put(replica, node, key, key_of(n, key), none, 0, ANTIENTROPY_LIVE, key, 3, &receipt));
    must("rehash", antientropy_rehash(replica));
}

static void remember(const struct antientropy_replica *replica, struct antientropy_counts *counts)
{
    uint8_t key[16];
    must("count", antientropy_count(replica, counts));
    for (unsigned n = 0; n < KEYS; n++)
        must("get", antientropy_get(replica, key, key_of(n, key), before[n], sizeof before[n], &before_len[n]));
}

/* Ends the program unless the replica is unchanged. */
static void compare(const struct antientropy_replica *replica, const struct antientropy_counts *counts)
{
    struct antientropy_counts now;
    uint8_t key[16];
    uint64_t len;
    must("count", antientropy_count(replica, &now));
    if (memcmp(&now, counts, sizeof now) != 0)
        fail("the counts changed", 0);
    for (unsigned n = 0; n < KEYS; n++) {
        must("get", antientropy_get(replica, key, key_of(n, key), after, sizeof after, &len));
        if (len != before_len[n] || memcmp(after, before[n], len) != 0)
            fail("a row changed", n);
    }
}

/* A replica with 64 open sessions, the maximum, the first one of an exchange that has asked for the root; a partner's
 * snapshot; a message of each kind; the rows of a leaf. */
static struct antientropy_replica replica, partner;
static struct antientropy_exchange exchange;
static struct antientropy_snapshot offered;
static const struct antientropy_bounds bounds = {.asks = 8, .bytes = ROOM, .bad = UINT32_MAX, .lost = UINT32_MAX};
static uint8_t offer[64], ask[64], answer[ROOM], rows[ROOM];
static uint64_t offer_len, ask_len, answer_len, rows_len;

static void prepare(void)
{
    uint64_t session = 0, left;
    must("new", antientropy_new(&replica, 2, 0, 0, 1000));
    must("new", antientropy_new(&partner, 2, 0, 0, 1000));
    fill(&replica, 1, 0, 2);
    fill(&partner, 2, 0, 1);
    must("snapshot", antientropy_snapshot(&partner, &offered));
    must("offer", antientropy_offer(&offered, NUMBER, offer, sizeof offer, &offer_len));
    must("hold", antientropy_hold(&replica));
    must("hash_moment", antientropy_hash_moment(&replica, 10000, &left));
    must("exchange_open", antientropy_exchange_open(&replica, &exchange, 2, offer, offer_len, &bounds));
    must("exchange_next", antientropy_exchange_next(&exchange, &replica, ask, sizeof ask, &ask_len));
    for (unsigned n = 1; n < 64; n++)
        must("open", antientropy_open(&replica, 2, offer, offer_len, &session));
    must("ask", antientropy_ask(&replica, session, NUMBER, ask, sizeof ask, &ask_len));
    must("serve", antientropy_serve(&offered, NUMBER, ask, ask_len, answer, sizeof answer, &answer_len));
    for (uint64_t leaf = 0; rows_len < 60; leaf++)
        must("rows", antientropy_rows(&offered, leaf, rows, sizeof rows, &rows_len));
}

/* A replica without one of the partner's versions, in a leaf with a long row; its exchange, which awaits a patch for
 * the node at a depth above that row; the outline, and the patch. */
static struct antientropy_replica asker;
static struct antientropy_exchange awaiting;
static unsigned awaited;
static uint8_t outline[ANTIENTROPY_ASK_ROOM], patch[ROOM];
static uint64_t outline_len, patch_len;

static void prepare_asker(void)
{
    struct antientropy_pair none[1] = {{0, 0}};
    struct antientropy_receipt receipt;
    uint8_t key[16];
    uint64_t left;
    must("new", antientropy_new(&asker, 2, 0, 0, 1000));
    must("put", antientropy_put(&asker, 3, key, key_of(0, key), none, 0, ANTIENTROPY_LIVE, out, 300, &receipt));
    fill(&asker, 2, 1, 1);
    must("hold", antientropy_hold(&asker));
    must("hash_moment", antientropy_hash_moment(&asker, 10000, &left));
}

/* Lets a new exchange take the texts above the awaited node, and send that node's outline. */
static void await_patch(void)
{
    struct antientropy_verdict verdict;
    uint64_t len;
    antientropy_exchange_close(&awaiting, &asker);
    antientropy_exchange_free(&awaiting);
    must("drop_sessions", antientropy_drop_sessions(&asker));
    must("exchange_open", antientropy_exchange_open(&asker, &awaiting, 2, offer, offer_len, &bounds));
    for (unsigned depth = 0; depth < awaited; depth++) {
        must("exchange_next", antientropy_exchange_next(&awaiting, &asker, outline, ANTIENTROPY_ASK_LEN, &len));
        must("serve", antientropy_serve(&offered, NUMBER, outline, len, out, sizeof out, &len));
        must("exchange_take", antientropy_exchange_take(&awaiting, &asker, out, len, &verdict));
    }
    must("exchange_next", antientropy_exchange_next(&awaiting, &asker, outline, sizeof outline, &outline_len));
}

/* Passes an answer or a patch to a session, which must refuse it. */
static void bring_answer(const uint8_t *bytes, size_t len)
{
    struct antientropy_taken taken;
    uint32_t got = antientropy_take(&replica, 63, NUMBER, bytes, len, &taken);
    if (got != ANTIENTROPY_BAD_MESSAGE && got != ANTIENTROPY_NOT_ASKED && got != ANTIENTROPY_WRONG_DIGEST)
        fail("take", got);
}

/* Passes a patch that makes another text than the awaited one, or none. It may end the outline. */
static void bring_patch(const uint8_t *bytes, size_t len)
{
    struct antientropy_verdict verdict;
    struct antientropy_progress progress;
    bring_answer(bytes, len);
    must("exchange_take", antientropy_exchange_take(&awaiting, &asker, bytes, len, &verdict));
    if (verdict.verdict != ANTIENTROPY_VERDICT_BAD && verdict.verdict != ANTIENTROPY_VERDICT_LATE)
        fail("the verdict on a patch", (uint32_t)verdict.verdict);
    must("exchange_report", antientropy_exchange_report(&awaiting, &asker, &progress));
    if (progress.lost > 0)
        fail("an outline counts as lost", 0);
    if (progress.in_flight == 0)
        await_patch();
}

/* Passes an outline. If it is valid, its answer is a patch. */
static void bring_outline(const uint8_t *bytes, size_t len)
{
    uint64_t need;
    uint32_t got = antientropy_serve(&offered, NUMBER, bytes, len, out, sizeof out, &need);
    if (got != ANTIENTROPY_OK && got != ANTIENTROPY_BAD_MESSAGE && got != ANTIENTROPY_GONE)
        fail("serve of an outline", got);
    if (got == ANTIENTROPY_OK && out[0] != bytes[0] + 1)
        fail("the kind of an answer", out[0]);
}

/* Passes an offer, which must not open a session: it is refused, if only because 64 sessions are open. Its parts can be
 * read unless it isn't an offer. */
static void bring_offer(const uint8_t *bytes, size_t len)
{
    struct antientropy_offer_parts parts;
    uint64_t number;
    uint32_t got = antientropy_open(&replica, 2, bytes, len, &number);
    uint32_t read = antientropy_read_offer(bytes, len, &parts);
    if (read != (got == ANTIENTROPY_BAD_MESSAGE ? ANTIENTROPY_BAD_MESSAGE : ANTIENTROPY_OK))
        fail("read_offer", read);
    if (got != ANTIENTROPY_BAD_MESSAGE && got != ANTIENTROPY_OTHER_FORMAT && got != ANTIENTROPY_OTHER_RANGE
        && got != ANTIENTROPY_SESSIONS_FULL)
        fail("open", got);
}

/* Opens an exchange with an offer, which is refused like the offer of `open`. */
static void bring_exchange_offer(const uint8_t *bytes, size_t len)
{
    struct antientropy_exchange other = {0};
    uint32_t got = antientropy_exchange_open(&replica, &other, 2, bytes, len, &bounds);
    if (got != ANTIENTROPY_BAD_MESSAGE && got != ANTIENTROPY_OTHER_FORMAT && got != ANTIENTROPY_OTHER_RANGE
        && got != ANTIENTROPY_SESSIONS_FULL)
        fail("exchange_open", got);
}

/* Passes an ask, which may be a valid one for another node. To the exchange it is that, an ask for another offer, or
 * not an ask. */
static void bring_ask(const uint8_t *bytes, size_t len)
{
    uint64_t need;
    uint32_t got = antientropy_serve(&offered, NUMBER, bytes, len, out, sizeof out, &need);
    if (got != ANTIENTROPY_OK && got != ANTIENTROPY_BAD_MESSAGE && got != ANTIENTROPY_GONE)
        fail("serve", got);
    uint32_t lost = antientropy_exchange_lose(&exchange, bytes, len);
    if (lost != (got == ANTIENTROPY_BAD_MESSAGE ? ANTIENTROPY_BAD_MESSAGE : ANTIENTROPY_OK))
        fail("exchange_lose", lost);
}

/* Passes an answer to the exchange: it is bad, or for another offer. */
static void bring_exchange_answer(const uint8_t *bytes, size_t len)
{
    struct antientropy_verdict verdict;
    must("exchange_take", antientropy_exchange_take(&exchange, &replica, bytes, len, &verdict));
    if (verdict.verdict != ANTIENTROPY_VERDICT_BAD && verdict.verdict != ANTIENTROPY_VERDICT_LATE)
        fail("the verdict", (uint32_t)verdict.verdict);
}

/* Loads rows of a format into an empty replica, by the call for one leaf if the format is 0. If they are valid, the
 * replica is replaced by a new one. */
static void load(uint64_t format, const uint8_t *bytes, size_t len)
{
    static struct antientropy_replica empty;
    struct antientropy_loaded loaded = {0};
    struct antientropy_counts counts;
    if (!empty.held)
        must("new", antientropy_new(&empty, 2, 0, 0, 1000));
    uint32_t got = format == 0 ? antientropy_load(&empty, bytes, len, &loaded)
                               : antientropy_load_format(&empty, format, bytes, len, &loaded);
    must("count", antientropy_count(&empty, &counts));
    if (got != ANTIENTROPY_OK && got != ANTIENTROPY_ROW_BROKEN && got != ANTIENTROPY_OTHER_RANGE)
        fail("load", got);
    if (counts.entries != loaded.taken || (got == ANTIENTROPY_ROW_BROKEN && loaded.offset > len))
        fail("what was loaded", got);
    if (counts.entries > 0 || bytes == rows)
        antientropy_free(&empty);
}

/* Passes rows to the calls that load them, in both formats. */
static void bring_rows(const uint8_t *bytes, size_t len)
{
    for (uint64_t format = 0; format <= 2; format++)
        load(format, bytes, len);
}

/* Passes bytes to each call that reads a message. */
static void bring(const uint8_t *bytes, size_t len)
{
    bring_offer(bytes, len);
    bring_exchange_offer(bytes, len);
    bring_ask(bytes, len);
    bring_answer(bytes, len);
    bring_exchange_answer(bytes, len);
}

/* Changes some bytes of a message, and may cut it or add a byte. Returns its new length. */
static size_t mutate(const uint8_t *message, size_t len, uint8_t *to)
{
    memcpy(to, message, len);
    for (unsigned n = next() % 4 + 1; n > 0; n--)
        to[next() % len] ^= (uint8_t)(next() % 255 + 1);
    switch (next() % 4) {
    case 0:
        return next() % len;
    case 1:
        to[len] = (uint8_t)next();
        return len + 1;
    default:
        return len;
    }
}

/* Passes mutations of a message to one call, each in a block of its own, so that reads past the block are seen. */
static void mutations(unsigned count, const uint8_t *message, size_t len, void (*to)(const uint8_t *, size_t))
{
    static uint8_t mutant[ROOM + 1];
    for (unsigned n = 0; n < count; n++) {
        size_t length = mutate(message, len, mutant);
        if (length == len && memcmp(mutant, message, len) == 0)
            continue;
        uint8_t *own = malloc(length > 0 ? length : 1);
        if (own == NULL)
            fail("malloc", n);
        memcpy(own, mutant, length);
        to(own, length);
        free(own);
    }
}

/* Passes mutations of the outline of the asker's node to the partner, and of its patch to the asker. Both are
 * unchanged. The patch itself is taken afterwards. */
static void mutate_patches(unsigned count, unsigned depth)
{
    struct antientropy_counts counts;
    struct antientropy_verdict verdict;
    uint64_t len;
    awaited = depth;
    await_patch();
    must("serve", antientropy_serve(&offered, NUMBER, outline, outline_len, patch, sizeof patch, &patch_len));
    if (patch[0] != PATCH)
        fail("no patch", depth);
    remember(&partner, &counts);
    mutations(count, outline, outline_len, bring_outline);
    compare(&partner, &counts);
    must("serve", antientropy_serve(&offered, NUMBER, outline, outline_len, out, sizeof out, &len));
    if (len != patch_len || memcmp(out, patch, len) != 0)
        fail("the patch changed", depth);
    remember(&asker, &counts);
    mutations(count, patch, patch_len, bring_patch);
    compare(&asker, &counts);
    must("exchange_take", antientropy_exchange_take(&awaiting, &asker, patch, patch_len, &verdict));
    if (verdict.verdict != ANTIENTROPY_VERDICT_TAKEN || verdict.accepted != (depth == LEAF_DEPTH))
        fail("the verdict on the true patch", (uint32_t)verdict.verdict);
}

int main(int argc, char **argv)
{
    unsigned count = argc > 1 ? (unsigned)strtoul(argv[1], NULL, 10) : 100000;
    struct antientropy_counts counts;
    uint64_t brought = 0;
    prepare();
    remember(&replica, &counts);
    while (brought < HOSTILE) {
        size_t len = next() % 16 == 0 ? next() % ROOM : next() % 64;
        for (size_t n = 0; n < len; n++)
            out[n] = (uint8_t)next();
        if (len > 0 && next() % 2 == 0)
            out[0] = (uint8_t)(next() % 5 + 1);
        uint8_t *own = malloc(len > 0 ? len : 1);
        if (own == NULL)
            fail("malloc", 0);
        memcpy(own, out, len);
        bring(own, len);
        free(own);
        brought += len;
    }
    compare(&replica, &counts);
    printf("16 MiB of hostile bytes: refused, and nothing changed\n");
    mutations(count, offer, offer_len, bring_offer);
    mutations(count, offer, offer_len, bring_exchange_offer);
    mutations(count, ask, ask_len, bring_ask);
    mutations(count, answer, answer_len, bring_answer);
    mutations(count, answer, answer_len, bring_exchange_answer);
    mutations(count, rows, rows_len, bring_rows);
    bring_rows(rows, rows_len);
    compare(&replica, &counts);
    prepare_asker();
    mutate_patches(count / 2, 0);
    mutate_patches(count / 2, LEAF_DEPTH);
    printf("mutated messages and rows, %u for each call: refused, and nothing changed\n", count);
    antientropy_exchange_free(&exchange);
    antientropy_exchange_free(&awaiting);
    antientropy_snapshot_free(&offered);
    antientropy_free(&asker);
    antientropy_free(&replica);
    antientropy_free(&partner);
    return 0;
}
