/* Renewals of a replica while another thread puts into it. The writer puts its keys again and again, each after a read,
 * and notes the key of each entry's number. The other thread renews the replica: it hashes a moment and builds the new
 * range without the lock, catches up with a lock to read, and needs exclusive access only to hold the moment and to
 * finish. After each renewal the entries since the moment have the keys that the writer noted, and older numbers aren't
 * positions. Then a renewal is refused for another replica. The program ends with status 1 if a call returns another
 * number than the one wanted, or if a condition doesn't hold. */
#include "shared.h"

#include <sched.h>
#include <string.h>

enum { KEYS = 200, RENEWALS = 5, PUTS_MAX = 1000000, BEHIND = 20, STEP = 7, PORTION = 64 };

/* Under the lock: the number of puts, the key of each entry's number, and 1 when the renewals are over. */
static unsigned put_count;
static unsigned char noted[PUTS_MAX];
static int over;

static void ok(const char *call, uint32_t got)
{
    want(call, got, ANTIENTROPY_OK);
}

/* Ends the program if a condition doesn't hold. */
static void is(const char *what, bool holds)
{
    if (!holds) {
        printf("it isn't so that %s\n", what);
        exit(1);
    }
}

/* ---- the writer */

/* Reads the only version of a key. Returns the counter of its clock, which has one pair, or 0 if the key has no
 * version. */
static uint64_t read_counter(unsigned char key, struct antientropy_pair *pair)
{
    struct antientropy_reading reading;
    struct antientropy_pair pairs[ANTIENTROPY_CLOCK_MAX];
    uint8_t value[1];
    uint32_t got = antientropy_read(&shared, &key, 1, 0, &reading, pairs, ANTIENTROPY_CLOCK_MAX, value, sizeof value);
    if (got == ANTIENTROPY_NO_VERSION)
        return 0;
    ok("read", got);
    is("a key has one version, of node 1", reading.versions == 1 && reading.pairs == 1 && pairs[0].node == 1);
    is("the value is its key", reading.bytes == 1 && value[0] == key);
    *pair = pairs[0];
    return pair->counter;
}

/* Puts a key after a read, and notes the number of its entry: the next one. The lock is held. */
static void put(unsigned char key)
{
    struct antientropy_pair context;
    struct antientropy_receipt receipt;
    size_t len = read_counter(key, &context) > 0;
    ok("put_read", antientropy_put_read(&shared, 1, &key, 1, &context, len, ANTIENTROPY_LIVE, &key, 1, &receipt));
    is("numbers of entries go on", receipt.number == put_count);
    is("counters go on", receipt.counter == put_count / KEYS + 1);
    noted[put_count++] = key;
}

/* The writer puts its keys in turn, until the renewals are over. */
static void *write_keys(void *none)
{
    for (int stop = 0; !stop;) {
        lock_to_write();
        is("there is room for notes", put_count < PUTS_MAX);
        put((unsigned char)(put_count % KEYS));
        stop = over;
        unlock();
    }
    return none;
}

/* Waits until the writer has put more. */
static void wait_for_puts(unsigned more)
{
    unsigned until = 0, now = 0;
    do {
        lock_to_read();
        now = put_count;
        unlock();
        until = until > 0 ? until : now + more;
        sched_yield();
    } while (now < until);
}

/* ---- the renewals */

/* Hashes a portion of the moment without the lock. Returns the number of nodes left. */
static uint64_t hash_portion(void)
{
    struct antientropy_portion portion = {0};
    uint64_t left;
    lock_to_read();
    ok("take_portion", antientropy_take_portion(&shared, PORTION, &portion));
    unlock();
    ok("hash_portion", antientropy_hash_portion(&portion));
    lock_to_write();
    ok("install_portion", antientropy_install_portion(&shared, &portion, &left));
    unlock();
    return left;
}

/* Holds a moment of the replica and hashes it. Returns the number of entries at the moment. */
static uint64_t hold(void)
{
    struct antientropy_counts counts;
    lock_to_write();
    ok("hold", antientropy_hold(&shared));
    ok("count", antientropy_count(&shared, &counts));
    unlock();
    while (hash_portion() > 0)
        ;
    return counts.entries;
}

/* Makes the new range from the moment's rows without the lock, and lets it catch up until it is only a little
 * behind. */
static void build(struct antientropy_renewal *renewal)
{
    uint64_t left;
    lock_to_read();
    ok("renewal_begin", antientropy_renewal_begin(&shared, PUTS_MAX, renewal));
    unlock();
    ok("renewal_build", antientropy_renewal_build(renewal));
    wait_for_puts(2 * BEHIND);
    do {
        lock_to_read();
        ok("renewal_catch_up", antientropy_renewal_catch_up(renewal, &shared, STEP, &left));
        unlock();
    } while (left > BEHIND);
}

/* Checks that the entries from a number on have the noted keys, and that the number before it isn't a position. The
 * lock is held. */
static void check_numbers(uint64_t began)
{
    struct antientropy_counts counts;
    uint8_t key[1], entry[64];
    uint64_t len, next;
    ok("count", antientropy_count(&shared, &counts));
    is("all entries are here", counts.entries == put_count && counts.first < began && counts.limit == PUTS_MAX);
    is("only versions that were held are carried over", began - counts.first <= KEYS);
    for (uint64_t number = began; number < counts.entries; number++) {
        ok("entry_key", antientropy_entry_key(&shared, number, key, sizeof key, &len));
        is("an entry has its key", len == 1 && key[0] == noted[number]);
    }
    ok("entries", antientropy_entries(&shared, began, entry, sizeof entry, &len, &next));
    if (counts.first < began - 1)
        want("entries", antientropy_entries(&shared, began - 1, entry, sizeof entry, &len, &next),
             ANTIENTROPY_BAD_POSITION);
}

/* Replaces the old range by the new one, and frees the old one without the lock. Returns the number of entries since a
 * number. */
static uint64_t finish(struct antientropy_renewal *renewal, uint64_t began)
{
    lock_to_write();
    ok("renewal_finish", antientropy_renewal_finish(renewal, &shared));
    check_numbers(began);
    uint64_t beside = put_count - began;
    unlock();
    antientropy_renewal_free(renewal);
    return beside;
}

/* Renews the replica while the writer puts. Returns the number of entries that were put meanwhile. */
static uint64_t renew(void)
{
    struct antientropy_renewal renewal = {0};
    uint64_t began = hold();
    build(&renewal);
    return finish(&renewal, began);
}

/* Checks that a renewal of the shared replica, which no longer has a writer, is refused for another replica, and
 * finishes it. */
static void refuse_another(void)
{
    struct antientropy_replica other = {0};
    struct antientropy_renewal renewal = {0};
    uint64_t left;
    hold();
    ok("new", antientropy_new(&other, 2, 0, 0, PUTS_MAX));
    ok("renewal_begin", antientropy_renewal_begin(&shared, PUTS_MAX, &renewal));
    ok("renewal_build", antientropy_renewal_build(&renewal));
    want("renewal_catch_up", antientropy_renewal_catch_up(&renewal, &other, 1, &left), ANTIENTROPY_STALE);
    want("renewal_finish", antientropy_renewal_finish(&renewal, &other), ANTIENTROPY_STALE);
    ok("renewal_finish", antientropy_renewal_finish(&renewal, &shared));
    antientropy_renewal_free(&renewal);
    antientropy_free(&other);
}

/* Returns the number of keys whose only version has the counter of the last put. */
static unsigned right_keys(void)
{
    unsigned right = 0;
    for (unsigned key = 0; key < KEYS; key++) {
        struct antientropy_pair pair;
        right += read_counter((unsigned char)key, &pair) == (put_count + KEYS - 1 - key) / KEYS;
    }
    return right;
}

int main(void)
{
    pthread_t writer;
    unsigned busy = 0;
    ok("new", antientropy_new(&shared, 2, 0, 0, PUTS_MAX));
    if (pthread_create(&writer, NULL, write_keys, NULL) != 0)
        return 1;
    wait_for_puts(2 * KEYS);
    for (int n = 0; n < RENEWALS; n++)
        busy += renew() >= BEHIND;
    lock_to_write();
    over = 1;
    unlock();
    pthread_join(writer, NULL);
    printf("%u renewals while the writer put\n", busy);
    refuse_another();
    printf("Stale for another replica\n");
    printf("%u of %d keys have their last version\n", right_keys(), KEYS);
    antientropy_free(&shared);
    return 0;
}
