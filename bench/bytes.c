/* Syncs two replicas that differ in some keys, and prints the size of the sync's messages.
 *
 *     bytes KEYS KEY_BYTES VALUE_BYTES FORMAT DIFFERENT ROOM
 *
 * The keys and values are defined in entries.h. Two replicas hold each key. DIFFERENT keys, drawn at random, are
 * rewritten at node 2. Then node 1 gets them by one exchange: in each round it sends all asks that it may, with ROOM
 * bytes for each (8: only plain asks), and takes the answers. The output is the bytes of the offer and the asks, the
 * bytes of the answers, the rounds, the number of plain asks that the exchange counts, the number of patches, and the
 * milliseconds of processor time of both sides. The status is 1 if a call is refused, or the exchange isn't
 * finished. */
#include "entries.h"

enum { LIMIT = ANTIENTROPY_ENTRIES_MAX, ANSWER_ROOM = 64 << 20, OFFER = 1, ASKS = 8192 };

static struct antientropy_replica here, there;
static struct antientropy_exchange exchange;
static uint8_t asks[ASKS][ANTIENTROPY_ASK_ROOM];
static uint64_t lens[ASKS];
static uint64_t state = 1;

/* Returns a random number below `most`. */
static unsigned long draw(unsigned long most)
{
    state = state * UINT64_C(6364136223846793005) + UINT64_C(1442695040888963407);
    return (state >> 33) % most;
}

/* Puts a key at node 2: for the first time, with a copy to node 1, if `copied`, otherwise in place of its first
 * version. */
static void put(unsigned long number, bool copied)
{
    static uint8_t value[ANTIENTROPY_VALUE_MAX_2];
    struct antientropy_pair clock = {2, 1};
    struct antientropy_receipt receipt;
    uint8_t key[KEY_ROOM];
    uint64_t taken;
    size_t len = key_of(number, key);
    value_of(copied ? number : ~number, value);
    must("put", antientropy_put(&there, 2, key, len, &clock, copied ? 0 : 1, ANTIENTROPY_LIVE, value, shape.value_bytes,
                                &receipt));
    if (copied)
        must("accept",
            antientropy_accept(&here, key, len, &clock, 1, ANTIENTROPY_LIVE, value, shape.value_bytes, &taken));
}

/* Rewrites different keys at node 2. */
static void rewrite(unsigned long keys, unsigned long different)
{
    bool *was = calloc(keys, sizeof *was);
    for (unsigned long done = 0; done < different;) {
        unsigned long number = draw(keys);
        if (was[number])
            continue;
        was[number] = true;
        put(number, false);
        done++;
    }
    free(was);
}

/* Returns the number of asks that may be sent now. */
static unsigned next_asks(size_t room)
{
    for (unsigned count = 0; count < ASKS; count++) {
        must("exchange_next", antientropy_exchange_next(&exchange, &here, asks[count], room, &lens[count]));
        if (lens[count] == 0)
            return count;
    }
    return ASKS;
}

int main(int count, char **words)
{
    static uint8_t answer[ANSWER_ROOM];
    static const struct antientropy_bounds bounds = {.asks = ASKS, .bytes = UINT64_MAX, .bad = 0, .lost = 0};
    struct antientropy_snapshot snapshot = {0};
    struct antientropy_progress progress;
    struct antientropy_verdict verdict;
    uint8_t offer[ANTIENTROPY_OFFER_LEN];
    uint64_t need, asked = sizeof offer, answered = 0, patches = 0, left;
    unsigned rounds = 0;
    if (count != 7 || !read_shape(3, words + 2)) {
        fprintf(stderr, "usage: bytes KEYS KEY_BYTES VALUE_BYTES FORMAT DIFFERENT ROOM\n");
        return 2;
    }
    unsigned long keys = strtoul(words[1], NULL, 10), different = strtoul(words[5], NULL, 10);
    size_t room = strtoul(words[6], NULL, 10);
    must("new", antientropy_new(&here, shape.format, 0, 0, LIMIT));
    must("new", antientropy_new(&there, shape.format, 0, 0, LIMIT));
    for (unsigned long number = 0; number < keys; number++)
        put(number, true);
    rewrite(keys, different);
    must("rehash", antientropy_rehash(&here));
    must("rehash", antientropy_rehash(&there));
    must("hold", antientropy_hold(&here));
    must("hash_moment", antientropy_hash_moment(&here, 10000, &left));
    must("snapshot", antientropy_snapshot(&there, &snapshot));
    must("offer", antientropy_offer(&snapshot, OFFER, offer, sizeof offer, &need));
    double begin = now_ms();
    must("exchange_open", antientropy_exchange_open(&here, &exchange, 2, offer, sizeof offer, &bounds));
    for (unsigned sent; (sent = next_asks(room)) > 0; rounds++)
        for (unsigned n = 0; n < sent; n++) {
            asked += lens[n];
            must("serve", antientropy_serve(&snapshot, OFFER, asks[n], lens[n], answer, sizeof answer, &need));
            answered += need;
            patches += answer[0] == 5;
            must("exchange_take", antientropy_exchange_take(&exchange, &here, answer, need, &verdict));
        }
    double took = now_ms() - begin;
    must("exchange_report", antientropy_exchange_report(&exchange, &here, &progress));
    if (progress.report != ANTIENTROPY_REPORT_FINISHED || progress.accepted != different) {
        fprintf(stderr, "the exchange is not finished\n");
        return 1;
    }
    printf("%" PRIu64 " %" PRIu64 " %u %" PRIu64 " %" PRIu64 " %.2f\n", asked, answered, rounds, progress.asks, patches,
        took);
    return 0;
}
