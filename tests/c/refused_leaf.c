/* The cost of a refused leaf. A replica with a limit of ten entries takes a leaf of 2,000 rows. Another one takes the
 * same leaf, in which one version would be its key's 65th. Both are refused, and meanwhile the library has at most
 * twice the message's bytes in memory. It is linked with -Wl,--wrap=malloc,--wrap=realloc,--wrap=free. It ends with
 * status 1 if a call returns another number than the one wanted. */
#include "antientropy.h"

#include <malloc.h>
#include <stdio.h>
#include <stdlib.h>
#include <string.h>

enum { ROWS = 2000, LEAF = 7, NODE = 100, OFFER = 1, ROOM = 1 << 20, VERSIONS = ANTIENTROPY_VERSIONS_MAX };

void *__real_malloc(size_t size);
void *__real_realloc(void *at, size_t size);
void __real_free(void *at);
void *__wrap_malloc(size_t size);
void *__wrap_realloc(void *at, size_t size);
void __wrap_free(void *at);

/* The growth of memory since the start of the call, in bytes, and its maximum. */
static long live, most;
static char keys[ROWS][16];

/* Counts a block that the library got. */
static void *got(void *at)
{
    live += (long)malloc_usable_size(at);
    most = live > most ? live : most;
    return at;
}

void *__wrap_malloc(size_t size)
{
    return got(__real_malloc(size));
}

void *__wrap_realloc(void *at, size_t size)
{
    long old = (long)malloc_usable_size(at);
    void *now = __real_realloc(at, size);
    /* (both blocks exist while the bytes are copied) */
    got(now);
    live -= old;
    return now;
}

void __wrap_free(void *at)
{
    live -= (long)malloc_usable_size(at);
    __real_free(at);
}

static void want(const char *call, uint32_t got, uint32_t wanted)
{
    if (got != wanted) {
        printf("%s returned %s, not %s\n", call, antientropy_strerror(got), antientropy_strerror(wanted));
        exit(1);
    }
}

/* Makes keys of one leaf. */
static void make_keys(void)
{
    struct antientropy_spot spot;
    for (unsigned n = 0, found = 0; found < ROWS; n++) {
        snprintf(keys[found], sizeof *keys, "key-%u", n);
        want("place", antientropy_place(1, 0, (const uint8_t *)keys[found], strlen(keys[found]), &spot),
             ANTIENTROPY_OK);
        found += spot.leaf == LEAF;
    }
}

/* Puts a value for each key at the partner, and makes its offer. */
static void fill(struct antientropy_replica *partner, struct antientropy_snapshot *offered)
{
    static const uint8_t value[100];
    const struct antientropy_pair none = {1, 1};
    struct antientropy_receipt receipt;
    for (unsigned n = 0; n < ROWS; n++)
        want("put", antientropy_put_read(partner, NODE, (const uint8_t *)keys[n], strlen(keys[n]), &none, 0,
                                         ANTIENTROPY_LIVE, value, sizeof value, &receipt), ANTIENTROPY_OK);
    want("rehash", antientropy_rehash(partner), ANTIENTROPY_OK);
    want("snapshot", antientropy_snapshot(partner, offered), ANTIENTROPY_OK);
}

/* Accepts the maximum number of versions of the last key. */
static void crowd(struct antientropy_replica *replica)
{
    const uint8_t *key = (const uint8_t *)keys[ROWS - 1];
    uint64_t taken;
    for (unsigned node = 1; node <= VERSIONS; node++) {
        struct antientropy_pair clock = {node, 1};
        want("accept", antientropy_accept(replica, key, strlen(keys[ROWS - 1]), &clock, 1, ANTIENTROPY_LIVE, key, 1,
                                          &taken), ANTIENTROPY_OK);
    }
}

/* Syncs a replica up to the leaf, which is refused. */
static void refuse(struct antientropy_replica *replica, const struct antientropy_snapshot *offered, uint32_t cause)
{
    static uint8_t offer[ANTIENTROPY_OFFER_LEN], ask[ANTIENTROPY_ASK_LEN], answer[ROOM];
    struct antientropy_taken taken;
    uint64_t len, session;
    uint32_t number = ANTIENTROPY_OK;
    want("rehash", antientropy_rehash(replica), ANTIENTROPY_OK);
    want("offer", antientropy_offer(offered, OFFER, offer, sizeof offer, &len), ANTIENTROPY_OK);
    want("open", antientropy_open(replica, NODE, offer, len, &session), ANTIENTROPY_OK);
    while (number == ANTIENTROPY_OK) {
        want("ask", antientropy_ask(replica, session, OFFER, ask, sizeof ask, &len), ANTIENTROPY_OK);
        want("serve", antientropy_serve(offered, OFFER, ask, len, answer, sizeof answer, &len), ANTIENTROPY_OK);
        live = most = 0;
        number = antientropy_take(replica, session, OFFER, answer, len, &taken);
    }
    want("take", number, cause);
    printf("%s: %s twice the message's bytes\n", antientropy_strerror(cause),
        most <= 2 * (long)len ? "at most" : "over");
}

int main(void)
{
    struct antientropy_replica partner = {0}, small = {0}, crowded = {0};
    struct antientropy_snapshot offered = {0};
    make_keys();
    want("new", antientropy_new(&partner, 1, 0, 0, 10000), ANTIENTROPY_OK);
    want("new", antientropy_new(&small, 1, 0, 0, 10), ANTIENTROPY_OK);
    want("new", antientropy_new(&crowded, 1, 0, 0, 10000), ANTIENTROPY_OK);
    fill(&partner, &offered);
    crowd(&crowded);
    refuse(&small, &offered, ANTIENTROPY_JOURNAL_FULL);
    refuse(&crowded, &offered, ANTIENTROPY_CROWDED);
    antientropy_snapshot_free(&offered);
    antientropy_free(&partner);
    antientropy_free(&small);
    antientropy_free(&crowded);
    return 0;
}
