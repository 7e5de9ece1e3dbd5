/* Makes each call that takes a replica or a snapshot as const, in several threads at once. First a single thread makes
 * each of them, and folds the results into one number. Then four threads do the same many times at once, without a
 * lock, since nothing changes the handles, and must get the same number each time. The program ends with status 1 if
 * one doesn't, or if a call is refused. */
#include "antientropy.h"

#include <pthread.h>
#include <stdio.h>
#include <stdlib.h>
#include <string.h>

enum { READERS = 4, ROUNDS = 100, KEYS = 64, OFFER = 7, ROOM = 1 << 16 };

/* The handles to read: a replica with a whole moment and an open session, one whose moment isn't hashed yet, and a
 * snapshot. */
struct handles {
    struct antientropy_replica replica, late;
    struct antientropy_snapshot snapshot;
    uint64_t session;
    uint64_t sum; /* the result of the single thread */
};

/* A sum of the results so far, and a buffer for the next one. */
struct reading {
    uint64_t sum, calls, need;
    uint8_t room[ROOM];
};

/* Ends the program unless a call succeeded. */
static void must(const char *call, uint32_t got)
{
    if (got != ANTIENTROPY_OK) {
        printf("%s returned %s\n", call, antientropy_strerror(got));
        exit(1);
    }
}

/* Folds bytes of a result into the sum. */
static void fold(struct reading *to, const void *bytes, size_t len)
{
    for (size_t n = 0; n < len; n++)
        to->sum = (to->sum ^ ((const uint8_t *)bytes)[n]) * UINT64_C(1099511628211);
}

/* Folds the result of a call, which must have succeeded, into the sum. */
#define READ(to, call, result, len)                                                                                    \
    do {                                                                                                               \
        must(#call, call);                                                                                             \
        fold(to, result, len);                                                                                         \
        (to)->calls++;                                                                                                 \
    } while (0)

static void read_versions(const struct antientropy_replica *replica, const uint8_t *key, size_t len, struct reading *to)
{
    struct antientropy_pair clock[ANTIENTROPY_CLOCK_MAX];
    struct antientropy_reading sizes;
    uint64_t count, *need = &to->need;
    uint8_t kind, *room = to->room;
    READ(to, antientropy_get(replica, key, len, room, ROOM, need), room, *need);
    READ(to, antientropy_versions(replica, key, len, &count), &count, sizeof count);
    READ(to, antientropy_value(replica, key, len, 0, &kind, room, ROOM, need), room, *need);
    READ(to, antientropy_clock(replica, key, len, 0, clock, ANTIENTROPY_CLOCK_MAX, need), clock, *need * sizeof *clock);
    READ(to, antientropy_read(replica, key, len, 0, &sizes, clock, ANTIENTROPY_CLOCK_MAX, room, ROOM), &sizes,
         sizeof sizes);
    READ(to, antientropy_top_counter(replica, 1, key, len, KEYS, &count), &count, sizeof count);
}

static void read_keys(const struct antientropy_replica *replica, uint64_t leaf, struct reading *to)
{
    uint8_t key[ANTIENTROPY_KEY_MAX] = {0};
    uint64_t len = 0;
    READ(to, antientropy_key_after(replica, leaf, key, 0, to->room, ROOM, &to->need), to->room, to->need);
    READ(to, antientropy_key_next(replica, leaf, key, sizeof key, &len), key, len);
}

static void read_journal(const struct antientropy_replica *replica, uint64_t number, struct reading *to)
{
    struct antientropy_pair clock[ANTIENTROPY_CLOCK_MAX];
    uint64_t next, source, *need = &to->need;
    uint8_t kind, *room = to->room;
    READ(to, antientropy_entries(replica, number, room, ROOM, need, &next), room, *need);
    READ(to, antientropy_entry_key(replica, number, room, ROOM, need), room, *need);
    READ(to, antientropy_entry_value(replica, number, &kind, room, ROOM, need), room, *need);
    READ(to, antientropy_entry_clock(replica, number, clock, ANTIENTROPY_CLOCK_MAX, need), clock,
         *need * sizeof *clock);
    READ(to, antientropy_entry_source(replica, number, &source), &source, sizeof source);
}

static void read_counts(const struct antientropy_replica *replica, struct reading *to)
{
    struct antientropy_counts counts;
    struct antientropy_about about;
    struct antientropy_bytes bytes;
    READ(to, antientropy_count(replica, &counts), &counts, sizeof counts);
    READ(to, antientropy_about(replica, &about), &about, sizeof about);
    READ(to, antientropy_bytes(replica, &bytes), &bytes, sizeof bytes);
}

static void read_session(const struct antientropy_replica *replica, uint64_t session, struct reading *to)
{
    uint64_t number, *need = &to->need;
    uint8_t *room = to->room;
    READ(to, antientropy_session(replica, session, &number), &number, sizeof number);
    READ(to, antientropy_outstanding(replica, session, &number), &number, sizeof number);
    READ(to, antientropy_ask(replica, session, OFFER, room, ROOM, need), room, *need);
    READ(to, antientropy_ask_at(replica, session, 0, OFFER, room, ROOM, need), room, *need);
    READ(to, antientropy_outline_at(replica, session, 0, OFFER, 3, room, ROOM, need), room, *need);
}

static void read_snapshot(const struct antientropy_snapshot *snapshot, const uint8_t *key, size_t key_len,
                          uint64_t leaf, struct reading *to)
{
    static const uint8_t ask[ANTIENTROPY_ASK_LEN] = {2, 0, 0, 0, OFFER, 0, 0, 0}; /* for the root */
    struct antientropy_about about;
    uint8_t next[ANTIENTROPY_KEY_MAX], *room = to->room;
    uint64_t len = 0, *need = &to->need;
    READ(to, antientropy_snapshot_about(snapshot, &about), &about, sizeof about);
    READ(to, antientropy_snapshot_bytes(snapshot, &len), &len, sizeof len);
    READ(to, antientropy_snapshot_get(snapshot, key, key_len, room, ROOM, need), room, *need);
    len = 0;
    READ(to, antientropy_snapshot_key_next(snapshot, leaf, next, sizeof next, &len), next, len);
    READ(to, antientropy_digest(snapshot, 1, 3, room, ROOM, need), room, *need);
    READ(to, antientropy_root(snapshot, room, ROOM, need), room, *need);
    READ(to, antientropy_offer(snapshot, OFFER, room, ROOM, need), room, *need);
    READ(to, antientropy_serve(snapshot, OFFER, ask, sizeof ask, room, ROOM, need), room, *need);
    READ(to, antientropy_rows(snapshot, leaf, room, ROOM, need), room, *need);
}

/* Begins a renewal of a replica, lets it catch up, and frees it. */
static void begin_renewal(const struct antientropy_replica *replica, struct reading *to)
{
    struct antientropy_renewal renewal = {0};
    uint64_t left;
    READ(to, antientropy_renewal_begin(replica, KEYS, &renewal), NULL, 0);
    must("renewal_build", antientropy_renewal_build(&renewal));
    READ(to, antientropy_renewal_catch_up(&renewal, replica, 1, &left), &left, sizeof left);
    antientropy_renewal_free(&renewal);
}

/* Makes other handles from these, reads a little of each, and frees it. */
static void make_others(const struct handles *of, struct reading *to)
{
    struct antientropy_snapshot now = {0}, moment = {0}, shared = {0};
    struct antientropy_replica renewed = {0};
    struct antientropy_portion portion = {0};
    uint8_t *room = to->room;
    READ(to, antientropy_snapshot(&of->replica, &now), NULL, 0);
    must("root", antientropy_root(&now, room, ROOM, &to->need));
    READ(to, antientropy_moment(&of->replica, &moment), room, to->need);
    must("root", antientropy_root(&moment, room, ROOM, &to->need));
    READ(to, antientropy_snapshot_share(&of->snapshot, &shared), room, to->need);
    must("root", antientropy_root(&shared, room, ROOM, &to->need));
    READ(to, antientropy_renew(&of->replica, &renewed, KEYS), room, to->need);
    must("entries", antientropy_entries(&renewed, KEYS, room, ROOM, &to->need, &to->need));
    READ(to, antientropy_take_portion(&of->late, 16, &portion), NULL, 0);
    must("hash_portion", antientropy_hash_portion(&portion));
    antientropy_portion_free(&portion);
    antientropy_free(&renewed);
    antientropy_snapshot_free(&shared);
    antientropy_snapshot_free(&moment);
    antientropy_snapshot_free(&now);
}

/* Makes each call that reads. Returns the results as one number, and counts the calls. */
static uint64_t read_all(const struct handles *of, struct reading *to)
{
    const uint8_t key[] = "key 9";
    struct antientropy_spot spot;
    to->sum = to->calls = 0;
    must("place", antientropy_place(2, 0, key, sizeof key - 1, &spot));
    read_versions(&of->replica, key, sizeof key - 1, to);
    read_keys(&of->replica, spot.leaf, to);
    read_journal(&of->replica, 9, to);
    read_counts(&of->replica, to);
    read_session(&of->replica, of->session, to);
    read_snapshot(&of->snapshot, key, sizeof key - 1, spot.leaf, to);
    make_others(of, to);
    begin_renewal(&of->replica, to);
    return to->sum;
}

/* Makes each call many times, in a thread. */
static void *read_often(void *handles)
{
    static _Thread_local struct reading reading;
    const struct handles *of = handles;
    for (int n = 0; n < ROUNDS; n++)
        if (read_all(of, &reading) != of->sum) {
            printf("a call returned another result than that of a thread alone\n");
            exit(1);
        }
    return NULL;
}

/* Puts the key of a number at a node. */
static void put(struct antientropy_replica *replica, uint64_t node, int number)
{
    struct antientropy_pair none[1] = {{0, 0}};
    struct antientropy_receipt receipt;
    char key[16];
    size_t len = (size_t)snprintf(key, sizeof key, "key %d", number);
    must("put", antientropy_put_read(replica, node, (const uint8_t *)key, len, none, 0, ANTIENTROPY_LIVE,
                                     (const uint8_t *)"value", 5, &receipt));
}

/* Makes a replica with keys, whose tree is hashed. */
static void make(struct antientropy_replica *replica, uint64_t node)
{
    must("new", antientropy_new(replica, 2, 0, 0, 1000));
    for (int n = 0; n < KEYS; n++)
        put(replica, node, n);
    must("rehash", antientropy_rehash(replica));
}

/* Makes the handles. The session has the offer of the other replica, which holds a moment after another put. */
static void make_all(struct handles *made)
{
    uint8_t offer[ANTIENTROPY_OFFER_LEN];
    uint64_t len;
    make(&made->replica, 1);
    make(&made->late, 2);
    must("snapshot", antientropy_snapshot(&made->late, &made->snapshot));
    must("offer", antientropy_offer(&made->snapshot, OFFER, offer, sizeof offer, &len));
    must("hold", antientropy_hold(&made->replica));
    must("open", antientropy_open(&made->replica, 2, offer, sizeof offer, &made->session));
    put(&made->late, 2, KEYS);
    must("hold", antientropy_hold(&made->late));
}

int main(void)
{
    static struct handles handles;
    static struct reading alone;
    pthread_t threads[READERS];
    make_all(&handles);
    handles.sum = read_all(&handles, &alone);
    for (int n = 0; n < READERS; n++)
        if (pthread_create(&threads[n], NULL, read_often, &handles) != 0)
            return 1;
    for (int n = 0; n < READERS; n++)
        pthread_join(threads[n], NULL);
    printf("%d threads made %llu calls that read %d times at once\n", READERS, (unsigned long long)alone.calls, ROUNDS);
    antientropy_snapshot_free(&handles.snapshot);
    antientropy_free(&handles.late);
    antientropy_free(&handles.replica);
    return 0;
}
