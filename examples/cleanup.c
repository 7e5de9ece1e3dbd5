/* Removes keys that can no longer be put from a range.
 *
 * A partner, hostile or at fault, sent two versions: one with 32 unused nodes, so that a put of its key would need a
 * clock of 33 pairs, and one with the maximum counter of node 1. Both keys can no longer be put, and a renewal keeps
 * them. Each replica is rebuilt from its rows without the two keys. As long as one replica has them, a sync restores
 * them. The program prints each step, and ends with status 1 if a call returns another number than the one wanted. */
#include "antientropy.h"

#include <stdbool.h>
#include <stdio.h>
#include <stdlib.h>
#include <string.h>

enum { OFFER = 1, LIMIT = 1000, MOST_TRIES = 10000, ROOM = 1 << 16 };

static const char *const unwritable[] = {"cart", "order"};

/* Ends the program unless a call returned the number that is wanted. */
static void want(const char *call, uint32_t got, uint32_t wanted)
{
    if (got != wanted) {
        printf("%s returned %s, not %s\n", call, antientropy_strerror(got), antientropy_strerror(wanted));
        exit(1);
    }
}

/* Accepts a version from a partner. */
static void accept(struct antientropy_replica *replica, const char *key, const struct antientropy_pair *clock,
                   size_t pairs, const char *value)
{
    uint64_t taken;
    want("accept", antientropy_accept(replica, (const uint8_t *)key, strlen(key), clock, pairs, ANTIENTROPY_LIVE,
                                      (const uint8_t *)value, strlen(value), &taken), ANTIENTROPY_OK);
}

/* Puts a value at a node, with the held version's clock as the context, and prints the result. No key here has two
 * versions. */
static void put(struct antientropy_replica *replica, unsigned node, const char *key, const char *value)
{
    struct antientropy_pair context[ANTIENTROPY_CLOCK_MAX];
    struct antientropy_receipt receipt;
    uint64_t pairs = 0;
    uint32_t got = antientropy_clock(replica, (const uint8_t *)key, strlen(key), 0, context, ANTIENTROPY_CLOCK_MAX,
                                     &pairs);
    if (got != ANTIENTROPY_NO_VERSION)
        want("clock", got, ANTIENTROPY_OK);
    got = antientropy_put_read(replica, node, (const uint8_t *)key, strlen(key), context, pairs, ANTIENTROPY_LIVE,
                               (const uint8_t *)value, strlen(value), &receipt);
    printf("  put %s at node %u: %s\n", key, node, antientropy_strerror(got));
}

/* Syncs a replica from a partner. Each call has to succeed here: examples/embed.c has a sync with bounds. */
static void sync(struct antientropy_replica *replica, unsigned node, struct antientropy_replica *partner,
                 unsigned partner_node)
{
    static uint8_t offer[64], ask[64], answer[ROOM];
    struct antientropy_snapshot offered = {0};
    struct antientropy_taken taken;
    uint64_t len, session, accepted = 0;
    want("rehash", antientropy_rehash(partner), ANTIENTROPY_OK);
    want("snapshot", antientropy_snapshot(partner, &offered), ANTIENTROPY_OK);
    want("offer", antientropy_offer(&offered, OFFER, offer, sizeof offer, &len), ANTIENTROPY_OK);
    want("rehash", antientropy_rehash(replica), ANTIENTROPY_OK);
    want("open", antientropy_open(replica, partner_node, offer, len, &session), ANTIENTROPY_OK);
    for (unsigned tries = 0; tries < MOST_TRIES; tries++) {
        want("ask", antientropy_ask(replica, session, OFFER, ask, sizeof ask, &len), ANTIENTROPY_OK);
        if (len == 0)
            break;
        want("serve", antientropy_serve(&offered, OFFER, ask, len, answer, sizeof answer, &len), ANTIENTROPY_OK);
        want("take", antientropy_take(replica, session, OFFER, answer, len, &taken), ANTIENTROPY_OK);
        accepted += taken.accepted;
    }
    antientropy_snapshot_free(&offered);
    printf("  node %u syncs from node %u: %llu new\n", node, partner_node, (unsigned long long)accepted);
}

/* Rebuilds a replica by a renewal. */
static void renew(struct antientropy_replica *replica)
{
    struct antientropy_replica renewed = {0};
    want("renew", antientropy_renew(replica, &renewed, LIMIT), ANTIENTROPY_OK);
    antientropy_free(replica);
    *replica = renewed;
}

/* Returns true if a key can no longer be put. */
static bool is_unwritable(const uint8_t *key, size_t len)
{
    for (size_t at = 0; at < sizeof unwritable / sizeof *unwritable; at++)
        if (strlen(unwritable[at]) == len && memcmp(unwritable[at], key, len) == 0)
            return true;
    return false;
}

/* Rebuilds a replica by a load of its rows, without the unwritable keys. */
static void clean(struct antientropy_replica *replica, unsigned node)
{
    static uint8_t key[ANTIENTROPY_KEY_MAX], row[ROOM];
    struct antientropy_replica cleaned = {0};
    struct antientropy_loaded loaded;
    uint64_t key_len, row_len, rows = 0;
    want("new", antientropy_new(&cleaned, 2, 0, 0, LIMIT), ANTIENTROPY_OK);
    for (uint64_t leaf = 0; leaf < ANTIENTROPY_LEAVES_2; leaf++) {
        key_len = 0;
        while (antientropy_key_next(replica, leaf, key, sizeof key, &key_len) == ANTIENTROPY_OK) {
            if (is_unwritable(key, key_len))
                continue;
            want("get", antientropy_get(replica, key, key_len, row, sizeof row, &row_len), ANTIENTROPY_OK);
            want("load", antientropy_load(&cleaned, row, row_len, &loaded), ANTIENTROPY_OK);
            rows++;
        }
    }
    antientropy_free(replica);
    *replica = cleaned;
    printf("  node %u is made anew from %llu rows\n", node, (unsigned long long)rows);
}

int main(void)
{
    struct antientropy_replica first = {0}, second = {0};
    struct antientropy_pair strangers[ANTIENTROPY_CLOCK_MAX];
    const struct antientropy_pair last[] = {{1, UINT64_MAX}};
    for (unsigned at = 0; at < ANTIENTROPY_CLOCK_MAX; at++)
        strangers[at] = (struct antientropy_pair){101 + at, 1};
    want("new", antientropy_new(&first, 2, 0, 0, LIMIT), ANTIENTROPY_OK);
    want("new", antientropy_new(&second, 2, 0, 0, LIMIT), ANTIENTROPY_OK);

    printf("two versions come to node 2, and by a sync to node 1\n");
    put(&first, 1, "list", "milk");
    accept(&second, "cart", strangers, ANTIENTROPY_CLOCK_MAX, "junk");
    accept(&second, "order", last, 1, "junk");
    sync(&second, 2, &first, 1);
    sync(&first, 1, &second, 2);
    put(&first, 1, "cart", "milk");
    put(&first, 1, "order", "paid");

    printf("a renewal keeps them\n");
    renew(&first);
    put(&first, 1, "cart", "milk");
    put(&first, 1, "order", "paid");

    printf("node 1 alone is cleaned: a sync brings them back\n");
    clean(&first, 1);
    sync(&first, 1, &second, 2);
    put(&first, 1, "cart", "milk");

    printf("both nodes are cleaned, with no sync between\n");
    clean(&first, 1);
    clean(&second, 2);
    put(&first, 1, "cart", "milk");
    put(&first, 1, "order", "paid");
    sync(&second, 2, &first, 1);
    sync(&first, 1, &second, 2);
    put(&second, 2, "cart", "milk, bread");

    antientropy_free(&first);
    antientropy_free(&second);
    return 0;
}
