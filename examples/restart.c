/* Shows why a replica that lost its entries must not return under its old node number.
 *
 * Node 1 restarts empty and takes a put under its old number: the put is lost, although it was acknowledged. A sync
 * before the first put would have shown that node 1 had put more than it holds. It restarts as node 3 instead, with a
 * sync, and takes the put again: nothing is lost, since node 2 holds the earlier versions. A version that no partner
 * holds would be lost. The program prints each step, and ends with status 1 if a call returns another number than the
 * one wanted. */
#include "antientropy.h"

#include <stdio.h>
#include <stdlib.h>
#include <string.h>

enum { OFFER = 1, MOST_TRIES = 10000 };

static const uint8_t KEY[] = {'c', 'a', 'r', 't'};

/* Ends the program unless a call returned the number that is wanted. */
static void want(const char *call, uint32_t got, uint32_t wanted)
{
    if (got != wanted) {
        printf("%s returned %s, not %s\n", call, antientropy_strerror(got), antientropy_strerror(wanted));
        exit(1);
    }
}

/* Puts a value, and prints the clock of the new version: the context here has at most the node's own counter. */
static void put(struct antientropy_replica *replica, unsigned node, const char *value,
                const struct antientropy_pair *context, size_t context_len)
{
    struct antientropy_receipt receipt;
    want("put", antientropy_put_read(replica, node, KEY, sizeof KEY, context, context_len, ANTIENTROPY_LIVE,
                                     (const uint8_t *)value, strlen(value), &receipt), ANTIENTROPY_OK);
    printf("  put at node %u: %s, clock (%u,%llu)\n", node, value, node, (unsigned long long)receipt.counter);
}

/* Prints the versions of the key at a node. */
static void show(const struct antientropy_replica *replica, unsigned node)
{
    struct antientropy_pair clock[32];
    uint8_t value[64], kind;
    uint64_t count, len, pairs;
    want("versions", antientropy_versions(replica, KEY, sizeof KEY, &count), ANTIENTROPY_OK);
    for (uint64_t n = 0; n < count; n++) {
        want("value", antientropy_value(replica, KEY, sizeof KEY, n, &kind, value, sizeof value, &len), ANTIENTROPY_OK);
        want("clock", antientropy_clock(replica, KEY, sizeof KEY, n, clock, 32, &pairs), ANTIENTROPY_OK);
        printf("  node %u holds: %.*s, clock", node, (int)len, (const char *)value);
        for (uint64_t pair = 0; pair < pairs; pair++)
            printf(" (%llu,%llu)", (unsigned long long)clock[pair].node, (unsigned long long)clock[pair].counter);
        printf("\n");
    }
}

/* Syncs a replica from a partner, and prints the number of new versions. Each call has to succeed here.
 * examples/embed.c has a sync that grows its buffer for long answers and bounds the bad ones. */
static void sync(struct antientropy_replica *replica, unsigned node, struct antientropy_replica *partner,
                 unsigned partner_node)
{
    static uint8_t offer[64], ask[64], answer[1 << 16];
    struct antientropy_snapshot offered = {0};
    struct antientropy_taken taken;
    uint64_t len, session, state, accepted = 0;
    want("rehash", antientropy_rehash(partner), ANTIENTROPY_OK);
    want("snapshot", antientropy_snapshot(partner, &offered), ANTIENTROPY_OK);
    want("offer", antientropy_offer(&offered, OFFER, offer, sizeof offer, &len), ANTIENTROPY_OK);
    want("rehash", antientropy_rehash(replica), ANTIENTROPY_OK);
    want("open", antientropy_open(replica, partner_node, offer, len, &session), ANTIENTROPY_OK);
    for (unsigned tries = 0; tries < MOST_TRIES; tries++) {
        want("ask", antientropy_ask(replica, session, OFFER, ask, sizeof ask, &len), ANTIENTROPY_OK);
        if (len == 0)
            break;
        want("serve", antientropy_serve(&offered, OFFER, ask, len, answer, sizeof answer, &len), ANTIENTROPY_OK);
        want("take", antientropy_take(replica, session, OFFER, answer, len, &taken), ANTIENTROPY_OK);
        accepted += taken.accepted;
    }
    want("session", antientropy_session(replica, session, &state), ANTIENTROPY_OK);
    want("session state", (uint32_t)state, ANTIENTROPY_FINISHED);
    antientropy_snapshot_free(&offered);
    printf("  node %u syncs from node %u: %llu new\n", node, partner_node, (unsigned long long)accepted);
}

/* Compares the entries of a sync, from `before` on, with the replica's earlier entries of its own node. */
static void compare(const struct antientropy_replica *replica, unsigned node, uint64_t before)
{
    struct antientropy_counts counts;
    struct antientropy_pair clock[32];
    uint64_t pairs, top;
    want("count", antientropy_count(replica, &counts), ANTIENTROPY_OK);
    want("top_counter", antientropy_top_counter(replica, node, KEY, sizeof KEY, before, &top), ANTIENTROPY_OK);
    for (uint64_t entry = before; entry < counts.entries; entry++) {
        want("entry_clock", antientropy_entry_clock(replica, entry, clock, 32, &pairs), ANTIENTROPY_OK);
        for (uint64_t pair = 0; pair < pairs; pair++)
            if (clock[pair].node == node && clock[pair].counter > top)
                printf("  node %u had counter %llu, and gets its own counter %llu: it can't go on under its number\n",
                       node, (unsigned long long)top, (unsigned long long)clock[pair].counter);
    }
}

/* A process that ends and starts again: the replica is empty. */
static void restart(struct antientropy_replica *replica)
{
    antientropy_free(replica);
    want("new", antientropy_new(replica, 2, 0, 0, 1000), ANTIENTROPY_OK);
}

int main(void)
{
    struct antientropy_replica first = {0}, second = {0};
    const struct antientropy_pair seen[] = {{1, 1}};
    want("new", antientropy_new(&first, 2, 0, 0, 1000), ANTIENTROPY_OK);
    want("new", antientropy_new(&second, 2, 0, 0, 1000), ANTIENTROPY_OK);

    printf("before the restart\n");
    put(&first, 1, "milk", seen, 0);
    put(&first, 1, "milk, bread", seen, 1);
    sync(&second, 2, &first, 1);

    printf("wrong: node 1 restarts empty, under its old number\n");
    restart(&first);
    put(&first, 1, "eggs", seen, 0);
    sync(&second, 2, &first, 1);
    sync(&first, 1, &second, 2);
    show(&first, 1);
    show(&second, 2);
    printf("  eggs are lost\n");

    printf("seen: node 1 restarts empty, and syncs before its first put\n");
    restart(&first);
    sync(&first, 1, &second, 2);
    compare(&first, 1, 0);

    printf("right: node 1 restarts empty, under the new number 3, and syncs\n");
    restart(&first);
    sync(&first, 3, &second, 2);
    put(&first, 3, "eggs", seen, 0);
    sync(&second, 2, &first, 3);
    show(&first, 3);
    show(&second, 2);
    printf("  both are held until a client merges them\n");

    antientropy_free(&first);
    antientropy_free(&second);
    return 0;
}
