/* Syncs a replica many times with puts in between, and prints the memory that it keeps and the time to free it.
 *
 *     syncs KEYS KEY_BYTES VALUE_BYTES FORMAT ROUNDS REWRITES NEWS WAY
 *
 * The keys and values are defined in entries.h. Two replicas hold each key. In each round, node 1 rewrites REWRITES
 * keys drawn at random and sends copies to node 2; then node 2 rewrites NEWS keys, which node 1 gets:
 *
 *     copies    as copies, without a session
 *     syncs     by a sync, which drops its session at its end
 *     keeps     by a sync that keeps its session
 *
 * In each way both trees are hashed after each round, and node 2 makes a snapshot. The output is the bytes that malloc
 * has allocated at the end, including mapped blocks, the number of sessions kept, the milliseconds of freeing node 1's
 * replica, and the mean milliseconds of a round's session; then the bytes of node 1's rows, journal and sessions, and
 * the milliseconds of asking for them. The status is 1 if a call is refused, or the roots differ at the end. */
#include "entries.h"

#include <malloc.h>

enum { LIMIT = ANTIENTROPY_ENTRIES_MAX, ANSWER_ROOM = 1 << 20, ROOT_LEN = 32 };

enum way { COPIES, SYNCS, KEEPS };

static struct antientropy_replica here, there;
static unsigned long keys;
static uint64_t (*counters)[2];
static uint64_t state = 1;

/* Draws the number of a key at random. */
static unsigned long draw(void)
{
    state = state * UINT64_C(6364136223846793005) + UINT64_C(1442695040888963407);
    return (state >> 33) % keys;
}

/* Writes the clock of a key into two pairs, and returns their number. */
static size_t clock_of(unsigned long number, struct antientropy_pair *pairs)
{
    size_t len = 0;
    for (uint64_t node = 1; node <= 2; node++)
        if (counters[number][node - 1] > 0)
            pairs[len++] = (struct antientropy_pair){node, counters[number][node - 1]};
    return len;
}

/* Puts a key at a node, and sends a copy to another replica unless it is NULL. */
static void put(struct antientropy_replica *at, unsigned node, struct antientropy_replica *to, unsigned long number)
{
    static uint8_t value[ANTIENTROPY_VALUE_MAX_2];
    struct antientropy_pair clock[2];
    struct antientropy_receipt receipt;
    uint8_t key[KEY_ROOM];
    uint64_t taken;
    size_t len = key_of(number, key), pairs = clock_of(number, clock);
    value_of(number + counters[number][0] + counters[number][1], value);
    must("put",
        antientropy_put(at, node, key, len, clock, pairs, ANTIENTROPY_LIVE, value, shape.value_bytes, &receipt));
    counters[number][node - 1] = receipt.counter;
    if (to == NULL)
        return;
    pairs = clock_of(number, clock);
    must("accept",
         antientropy_accept(to, key, len, clock, pairs, ANTIENTROPY_LIVE, value, shape.value_bytes, &taken));
}

/* Syncs node 1 with a snapshot of node 2. */
static void sync_with(const struct antientropy_snapshot *snapshot, enum way way)
{
    static uint8_t answer[ANSWER_ROOM];
    uint8_t offer[ANTIENTROPY_OFFER_LEN], ask[ANTIENTROPY_ASK_LEN];
    uint64_t need, session, left;
    must("offer", antientropy_offer(snapshot, 1, offer, sizeof offer, &need));
    must("open", antientropy_open(&here, 2, offer, sizeof offer, &session));
    must("outstanding", antientropy_outstanding(&here, session, &left));
    while (left > 0) {
        struct antientropy_taken taken;
        must("ask", antientropy_ask(&here, session, 1, ask, sizeof ask, &need));
        must("serve", antientropy_serve(snapshot, 1, ask, sizeof ask, answer, sizeof answer, &need));
        must("take", antientropy_take(&here, session, 1, answer, need, &taken));
        must("outstanding", antientropy_outstanding(&here, session, &left));
    }
    if (way == SYNCS)
        must("drop_sessions", antientropy_drop_sessions(&here));
}

/* Hashes both trees, and returns the milliseconds of the round's session, if any. */
static double end_round(enum way way)
{
    struct antientropy_snapshot snapshot = {0};
    must("rehash", antientropy_rehash(&here));
    must("rehash", antientropy_rehash(&there));
    must("snapshot", antientropy_snapshot(&there, &snapshot));
    double begin = now_ms();
    if (way != COPIES)
        sync_with(&snapshot, way);
    double took = now_ms() - begin;
    antientropy_snapshot_free(&snapshot);
    return took;
}

/* Ends the program if the roots differ. */
static void compare_roots(void)
{
    struct antientropy_snapshot snapshot = {0};
    uint8_t roots[2][ROOT_LEN];
    uint64_t need;
    struct antientropy_replica *replicas[2] = {&here, &there};
    for (int i = 0; i < 2; i++) {
        must("rehash", antientropy_rehash(replicas[i]));
        must("snapshot", antientropy_snapshot(replicas[i], &snapshot));
        must("root", antientropy_root(&snapshot, roots[i], sizeof roots[i], &need));
        antientropy_snapshot_free(&snapshot);
    }
    if (memcmp(roots[0], roots[1], sizeof roots[0]) != 0) {
        fprintf(stderr, "the roots differ\n");
        exit(1);
    }
}

int main(int count, char **words)
{
    if (count != 9 || !read_shape(3, words + 2)) {
        fprintf(stderr, "usage: syncs KEYS KEY_BYTES VALUE_BYTES FORMAT ROUNDS REWRITES NEWS WAY\n");
        return 2;
    }
    keys = strtoul(words[1], NULL, 10);
    unsigned long rounds = strtoul(words[5], NULL, 10), rewrites = strtoul(words[6], NULL, 10);
    unsigned long news = strtoul(words[7], NULL, 10);
    enum way way = words[8][0] == 'c' ? COPIES : words[8][0] == 's' ? SYNCS : KEEPS;
    counters = calloc(keys, sizeof *counters);
    must("new", antientropy_new(&here, shape.format, 0, 0, LIMIT));
    must("new", antientropy_new(&there, shape.format, 0, 0, LIMIT));
    for (unsigned long number = 0; number < keys; number++)
        put(&here, 1, &there, number);
    double sessions = 0;
    for (unsigned long round = 0; round < rounds; round++) {
        for (unsigned long n = 0; n < rewrites; n++)
            put(&here, 1, &there, draw());
        for (unsigned long n = 0; n < news; n++)
            put(&there, 2, way == COPIES ? &here : NULL, draw());
        sessions += end_round(way);
    }
    compare_roots();
    struct antientropy_counts counts;
    must("count", antientropy_count(&here, &counts));
    struct antientropy_bytes bytes;
    struct mallinfo2 lent = mallinfo2();
    size_t kept = lent.uordblks + lent.hblkhd;
    double begin = now_ms();
    must("bytes", antientropy_bytes(&here, &bytes));
    double asked = now_ms() - begin;
    begin = now_ms();
    antientropy_free(&here);
    printf("%zu %" PRIu64 " %.1f %.2f ", kept, counts.sessions, now_ms() - begin, sessions / (double)rounds);
    printf("%" PRIu64 " %" PRIu64 " %" PRIu64 " %.2f\n", bytes.rows, bytes.journal, bytes.sessions, asked);
    antientropy_free(&there);
    free(counters);
    return 0;
}
