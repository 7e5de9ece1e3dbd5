/* Refuses each growth of memory in a run of the library in turn. The call must return NO_MEMORY and leave the counts of
 * the replicas unchanged. When repeated, it must do its work, so that each run gives the same bytes. An exchange must
 * send an ask if the memory for an outline is refused, and refuse an answer whose memory is refused. It is linked with
 * -Wl,--wrap=malloc,--wrap=realloc. It prints each call that was refused a growth, such as "antientropy_put NO_MEMORY",
 * and the number of growths on standard error. It ends with status 1 if something differs. */
#include "antientropy.h"

#include <stdio.h>
#include <stdlib.h>
#include <string.h>

enum { OFFER = 7, CALLS = 48, NAME = 40, LOG = 1 << 16, ROOM = 1 << 14, KEYS = 12 };

/* Makes a call until it isn't refused as NO_MEMORY. */
#define DO(name, got) \
    do { \
        uint32_t number; \
        while (begin(), number = (got), refused(name, number)) \
            ; \
        add(&number, sizeof number); \
    } while (0)

void *__real_malloc(size_t size);
void *__real_realloc(void *at, size_t size);
void *__wrap_malloc(size_t size);
void *__wrap_realloc(void *at, size_t size);

/* The number of growths in this run so far, and of the growth to refuse, or 0. */
static unsigned long growths, refuse;
static int inside;
/* 1 if memory for an outline or a patch was refused in this run: an ask is sent instead, and no call is repeated. */
static int asked;

static char seen[CALLS][NAME];
static int seen_count;
static uint8_t log_bytes[LOG], first_log[LOG], out[ROOM], text[ROOM];
static uint8_t ask[ANTIENTROPY_ASK_ROOM];
static size_t log_len, first_len;
static struct antientropy_replica a, b;
static struct antientropy_hints hints;
static struct counts {
    struct antientropy_counts of[2];
    struct antientropy_hint_counts hints;
} before;
static uint64_t need;

void *__wrap_malloc(size_t size)
{
    return inside && ++growths == refuse ? NULL : __real_malloc(size);
}

void *__wrap_realloc(void *at, size_t size)
{
    return inside && ++growths == refuse ? NULL : __real_realloc(at, size);
}

static void fail(const char *what)
{
    printf("growth %lu: %s\n", refuse, what);
    exit(1);
}

/* Adds bytes to the log of a run. */
static void add(const void *bytes, size_t len)
{
    if (LOG - log_len < len)
        fail("the log is full");
    memcpy(log_bytes + log_len, bytes, len);
    log_len += len;
}

/* Writes the counts of both replicas and of the hints, all 0 for an empty handle. */
static void count(struct counts *counts)
{
    memset(counts, 0, sizeof *counts);
    antientropy_count(&a, &counts->of[0]);
    antientropy_count(&b, &counts->of[1]);
    antientropy_hints_count(&hints, &counts->hints);
}

static void begin(void)
{
    count(&before);
    inside = 1;
}

/* Ends the program unless the counts are unchanged by a call. Only a rehash may have made nodes clean. */
static void unchanged(const char *name)
{
    struct counts now;
    count(&now);
    if (strcmp(name, "antientropy_rehash") == 0)
        for (int n = 0; n < 2; n++)
            now.of[n].dirty = before.of[n].dirty;
    if (memcmp(&now, &before, sizeof now) != 0)
        fail(name);
}

/* Returns true if a call was refused as NO_MEMORY. It must have changed nothing. */
static int refused(const char *name, uint32_t number)
{
    inside = 0;
    if (number != ANTIENTROPY_NO_MEMORY)
        return 0;
    unchanged(name);
    int n = 0;
    while (n < seen_count && strcmp(seen[n], name) != 0)
        n++;
    if (n == seen_count)
        strcpy(seen[seen_count++], name);
    return 1;
}

/* Puts a value for a key, with a context of the pairs, and another one as after a read of them. */
static void put(struct antientropy_replica *replica, uint64_t node, int key, const struct antientropy_pair *context,
                size_t len)
{
    struct antientropy_receipt receipt = {0};
    uint8_t name[2] = {'k', (uint8_t)key};
    DO("antientropy_put", antientropy_put(replica, node, name, 2, context, len, ANTIENTROPY_LIVE,
                                          (const uint8_t *)"a value of more than 14 bytes", 29, &receipt));
    add(&receipt, sizeof receipt);
    DO("antientropy_put_read", antientropy_put_read(replica, node + 6, name, 2, context, len, ANTIENTROPY_LIVE,
                                                    (const uint8_t *)"a value of more than 14 bytes", 29, &receipt));
    add(&receipt, sizeof receipt);
}

/* Hashes the moment of a replica. */
static void hash_moment(struct antientropy_replica *replica)
{
    uint64_t left;
    do
        DO("antientropy_hash_moment", antientropy_hash_moment(replica, 2, &left));
    while (left > 0);
}

/* Sends the next ask of an exchange of replica b. Returns 1 if it is an outline, or an ask in place of one. */
static int send_next(struct antientropy_exchange *exchange, uint64_t *len)
{
    unsigned long start = growths;
    inside = 1;
    uint32_t number = antientropy_exchange_next(exchange, &b, ask, sizeof ask, len);
    inside = 0;
    int lacked = start < refuse && refuse <= growths;
    if (number != ANTIENTROPY_OK || (lacked && *len != ANTIENTROPY_ASK_LEN))
        fail("antientropy_exchange_next");
    asked |= lacked;
    return lacked || *len > ANTIENTROPY_ASK_LEN;
}

/* Lets an exchange of replica b take the versions of replica a, by patches if possible. */
static void take_patches(struct antientropy_exchange *exchange, const struct antientropy_snapshot *snapshot)
{
    struct antientropy_progress progress;
    struct antientropy_verdict verdict;
    uint64_t len, outlines = 0;
    size_t start = log_len;
    while (outlines += (uint64_t)send_next(exchange, &len), len > 0) {
        DO("antientropy_serve", antientropy_serve(snapshot, OFFER, ask, len, out, ROOM, &need));
        begin();
        antientropy_exchange_take(exchange, &b, out, need, &verdict);
        inside = 0;
        if (verdict.cause == ANTIENTROPY_NO_MEMORY) {
            unchanged("antientropy_exchange_take");
            asked = 1;
            antientropy_exchange_go_on(exchange);
        } else if (verdict.verdict != ANTIENTROPY_VERDICT_TAKEN) {
            fail("the verdict");
        }
    }
    antientropy_exchange_report(exchange, &b, &progress);
    if (outlines == 0 || progress.report != ANTIENTROPY_REPORT_FINISHED)
        fail("the exchange");
    log_len = start; /* without the numbers of `antientropy_serve`: it is called once more for an ask after a patch */
    add(&outlines, sizeof outlines);
    add(&progress.accepted, sizeof progress.accepted);
}

/* Holds a moment of each replica, and opens a session and an exchange at the one of b, which takes all. */
static void hold(void)
{
    static const struct antientropy_bounds bounds = {.asks = 1, .bytes = ROOM, .bad = 1, .lost = 1};
    struct antientropy_exchange exchange = {0};
    struct antientropy_portion portion = {0};
    struct antientropy_snapshot snapshot = {0};
    uint8_t offer[ANTIENTROPY_OFFER_LEN];
    uint64_t session, len;
    DO("antientropy_hold", antientropy_hold(&a));
    DO("antientropy_take_portion", antientropy_take_portion(&a, 2, &portion));
    DO("antientropy_hash_portion", antientropy_hash_portion(&portion));
    DO("antientropy_install_portion", antientropy_install_portion(&a, &portion, &len));
    hash_moment(&a);
    DO("antientropy_moment", antientropy_moment(&a, &snapshot));
    DO("antientropy_offer", antientropy_offer(&snapshot, OFFER, offer, sizeof offer, &len));
    DO("antientropy_hold", antientropy_hold(&b));
    hash_moment(&b);
    DO("antientropy_open_at_moment", antientropy_open_at_moment(&b, 1, offer, sizeof offer, &session));
    DO("antientropy_exchange_open", antientropy_exchange_open(&b, &exchange, 1, offer, sizeof offer, &bounds));
    take_patches(&exchange, &snapshot);
    DO("antientropy_drop_moment", antientropy_drop_moment(&b));
    antientropy_cancel(&b, session);
    antientropy_exchange_close(&exchange, &b);
    antientropy_exchange_free(&exchange);
    antientropy_snapshot_free(&snapshot);
}

/* Lets replica b take the versions of replica a. */
static void sync(void)
{
    struct antientropy_snapshot snapshot = {0}, shared = {0};
    struct antientropy_offer_parts parts;
    struct antientropy_taken taken = {0};
    uint8_t offer[ANTIENTROPY_OFFER_LEN];
    uint64_t session, len;
    DO("antientropy_rehash_some", antientropy_rehash_some(&a, 2, &len));
    add(&len, sizeof len);
    DO("antientropy_rehash", antientropy_rehash(&a));
    DO("antientropy_rehash", antientropy_rehash(&b));
    DO("antientropy_snapshot", antientropy_snapshot(&a, &snapshot));
    DO("antientropy_offer", antientropy_offer(&snapshot, OFFER, offer, sizeof offer, &len));
    DO("antientropy_read_offer", antientropy_read_offer(offer, sizeof offer, &parts));
    DO("antientropy_open", antientropy_open(&b, 1, offer, sizeof offer, &session));
    for (int turn = 0;; turn++) {
        DO("antientropy_ask", antientropy_ask(&b, session, OFFER, ask, sizeof ask, &len));
        DO("antientropy_ask_at", antientropy_ask_at(&b, session, 1, OFFER, out, ROOM, &need));
        if (len == 0)
            break;
        /* Every second node is asked by an outline, and the answer is a patch. */
        if (turn % 2 == 1)
            DO("antientropy_outline_at", antientropy_outline_at(&b, session, 0, OFFER, 3, ask, sizeof ask, &len));
        DO("antientropy_serve", antientropy_serve(&snapshot, OFFER, ask, len, out, ROOM, &need));
        if (turn == 0)
            DO("antientropy_read_offer", antientropy_read_offer(out, need, &parts));
        DO("antientropy_take", antientropy_take(&b, session, OFFER, out, need, &taken));
        add(&taken, sizeof taken);
    }
    for (uint64_t leaf = 0; leaf < ANTIENTROPY_LEAVES_1; leaf++) {
        DO("antientropy_rows", antientropy_rows(&snapshot, leaf, out, ROOM, &need));
        add(out, need);
    }
    DO("antientropy_snapshot_share", antientropy_snapshot_share(&snapshot, &shared));
    antientropy_snapshot_free(&snapshot);
    DO("antientropy_snapshot_get", antientropy_snapshot_get(&shared, (const uint8_t *)"k\001", 2, out, ROOM, &need));
    add(out, need);
    antientropy_snapshot_free(&shared);
}

/* Renews replica b alongside a put, which the new range accepts later. */
static void renew_beside(const struct antientropy_pair *context)
{
    struct antientropy_renewal renewal = {0};
    uint64_t left;
    DO("antientropy_hold", antientropy_hold(&b));
    hash_moment(&b);
    DO("antientropy_renewal_begin", antientropy_renewal_begin(&b, 1000, &renewal));
    put(&b, 2, KEYS + 1, context, 0);
    DO("antientropy_renewal_build", antientropy_renewal_build(&renewal));
    DO("antientropy_renewal_catch_up", antientropy_renewal_catch_up(&renewal, &b, 1, &left));
    add(&left, sizeof left);
    DO("antientropy_renewal_finish", antientropy_renewal_finish(&renewal, &b));
    antientropy_renewal_free(&renewal);
}

/* Keeps hints, renews them, and makes slots. */
static void keep_hints(const struct antientropy_pair *clock, size_t len)
{
    struct antientropy_hints restored = {0};
    struct antientropy_slots slots = {0};
    uint64_t id;
    DO("antientropy_hints_restore", antientropy_hints_restore(&restored, 7));
    antientropy_hints_free(&restored);
    DO("antientropy_hints_new", antientropy_hints_new(&hints));
    for (int n = 0; n < KEYS; n++)
        DO("antientropy_hint_keep",
           antientropy_hint_keep(&hints, 2, (const uint8_t *)"key", 3, clock, len, ANTIENTROPY_LIVE,
                                 (const uint8_t *)"a value of more than 14 bytes", 29, &id));
    DO("antientropy_hint_confirm", antientropy_hint_confirm(&hints, 1, false));
    DO("antientropy_hints_renew", antientropy_hints_renew(&hints));
    DO("antientropy_slots_new", antientropy_slots_new(&slots, 1, 4, 1000));
    antientropy_slots_free(&slots);
}

/* One run: puts at both, copies, a sync, reads, two renewals, loads, a migration, hints. */
static void run(void)
{
    struct antientropy_pair six[6] = {{1, 1}, {2, 1}, {3, 1}, {4, 1}, {5, 1}, {6, 1}}, merged[ANTIENTROPY_CLOCK_MAX];
    struct antientropy_loaded loaded;
    struct antientropy_replica renewed = {0};
    uint8_t key[2] = {'k', 0};
    uint64_t taken, order;
    log_len = 0;
    growths = 0;
    asked = 0;
    DO("antientropy_new", antientropy_new(&a, 1, 0, 0, 1000));
    DO("antientropy_new_seeded", antientropy_new_seeded(&b, 1, 0, 0, 1000, 1, 2));
    for (int n = 0; n < KEYS; n++)
        put(n % 3 ? &a : &b, n % 3 ? 1 : 2, n / 2, six + 2, n % 5);
    DO("antientropy_accept", antientropy_accept(&b, key, 2, six, 6, ANTIENTROPY_LIVE, key, 2, &taken));
    sync();
    put(&a, 1, KEYS, six, 1);
    put(&b, 2, KEYS, six, 6);
    put(&b, 3, KEYS, six, 6);
    hold();
    DO("antientropy_compare", antientropy_compare(six, 6, six + 1, 5, &order));
    DO("antientropy_merge", antientropy_merge(six, 6, six + 1, 5, merged, ANTIENTROPY_CLOCK_MAX, &need));
    add(merged, need * sizeof *merged);
    DO("antientropy_renew", antientropy_renew(&b, &renewed, 1000));
    antientropy_free(&renewed);
    renew_beside(six);
    for (int n = 0; n < KEYS / 2; n++) {
        key[1] = (uint8_t)n;
        DO("antientropy_get", antientropy_get(&b, key, 2, text, ROOM, &need));
        add(text, need);
        DO("antientropy_load", antientropy_load(&a, text, need, &loaded));
        add(&loaded, 2 * sizeof loaded.taken);
    }
    DO("antientropy_migrate", antientropy_migrate(&a));
    DO("antientropy_load_format", antientropy_load_format(&a, 1, text, need, &loaded));
    add(&loaded, 2 * sizeof loaded.taken);
    keep_hints(six, 6);
    count(&before);
    add(&before, sizeof before);
    antientropy_free(&a);
    antientropy_free(&b);
    antientropy_hints_free(&hints);
}

int main(void)
{
    unsigned long total;
    run();
    total = growths;
    memcpy(first_log, log_bytes, log_len);
    first_len = log_len;
    for (refuse = 1; refuse <= total; refuse++) {
        run();
        if (log_len != first_len || memcmp(log_bytes, first_log, log_len) != 0)
            fail("another result");
        if (growths <= total && !asked)
            fail("no call was made again");
    }
    for (int n = 0; n < seen_count; n++)
        printf("%s NO_MEMORY\n", seen[n]);
    fprintf(stderr, "%lu growths refused\n", total);
    return 0;
}
