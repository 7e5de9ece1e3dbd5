/* A replica and its snapshots in several threads, under a reader-writer lock. Four threads put into one replica, and
 * four others read it at once. A ninth makes snapshots of it, whose nodes it hashes without the lock, and syncs another
 * replica from them. Then four threads read one snapshot without a lock: through one handle at once, and each through a
 * handle of its own. The program ends with status 1 if a call returns another number than the one wanted, or a read
 * returns another version. */
#include "shared.h"

#include <string.h>

enum { WRITERS = 4, READERS = 4, KEYS = 500, SYNCS = 10, ROOM = 1 << 16, PORTION = 16 };

/* The names of the writers, which are the prefixes of their keys. */
static char names[WRITERS][2] = {"a", "b", "c", "d"};

/* Returns the key of a number. The numbers go through the writers in turn. */
static const char *key_of(int number, char *key, size_t len)
{
    snprintf(key, len, "%s%d", names[number % WRITERS], number / WRITERS);
    return key;
}

/* Reads a key and puts it again, with the clock of its only version as the context. */
static void put(const char *key)
{
    struct antientropy_pair context[ANTIENTROPY_CLOCK_MAX];
    struct antientropy_reading reading = {0};
    struct antientropy_receipt receipt;
    const uint8_t *bytes = (const uint8_t *)key;
    size_t len = strlen(key);
    uint8_t value[32];
    lock_to_write();
    uint32_t got = antientropy_read(&shared, bytes, len, 0, &reading, context, ANTIENTROPY_CLOCK_MAX, value,
                                    sizeof value);
    if (got != ANTIENTROPY_NO_VERSION)
        want("read", got, ANTIENTROPY_OK);
    got = antientropy_put_read(&shared, 1, bytes, len, context, reading.pairs, ANTIENTROPY_LIVE, bytes, len, &receipt);
    unlock();
    want("put", got, ANTIENTROPY_OK);
}

/* Puts the keys of a writer twice. */
static void *write_keys(void *name)
{
    char key[16];
    for (int n = 0; n < 2 * KEYS; n++) {
        snprintf(key, sizeof key, "%s%d", (const char *)name, n % KEYS);
        put(key);
    }
    return NULL;
}

/* Reads a key of the shared replica by three calls that must agree. Returns false if it has no version yet. The caller
 * holds the lock to read. */
static bool read_version(const char *key)
{
    struct antientropy_pair clock[ANTIENTROPY_CLOCK_MAX];
    struct antientropy_reading reading = {0};
    const uint8_t *bytes = (const uint8_t *)key;
    size_t len = strlen(key);
    uint64_t versions, row_len;
    uint8_t value[32], row[128];
    uint32_t got = antientropy_read(&shared, bytes, len, 0, &reading, clock, ANTIENTROPY_CLOCK_MAX, value,
                                    sizeof value);
    bool found = got != ANTIENTROPY_NO_VERSION;
    want("read", got, found ? ANTIENTROPY_OK : ANTIENTROPY_NO_VERSION);
    want("versions", antientropy_versions(&shared, bytes, len, &versions), ANTIENTROPY_OK);
    want("get", antientropy_get(&shared, bytes, len, row, sizeof row, &row_len), ANTIENTROPY_OK);
    bool right = found ? versions == 1 && row_len > 0 && reading.bytes == len && memcmp(value, key, len) == 0
                             && reading.pairs == 1 && clock[0].node == 1 && clock[0].counter <= 2
                       : versions == 0 && row_len == 0;
    want("the version", right ? ANTIENTROPY_OK : ANTIENTROPY_BAD_VALUE, ANTIENTROPY_OK);
    return found;
}

/* Reads each key of each writer again and again, until each has a version. */
static void *read_versions(void *none)
{
    char key[16];
    for (int found = 0; found < WRITERS * KEYS;) {
        found = 0;
        for (int n = 0; n < WRITERS * KEYS; n++) {
            lock_to_read();
            found += read_version(key_of(n, key, sizeof key));
            unlock();
        }
    }
    return none;
}

/* Hashes a portion of the shared replica's moment, without the lock. When nothing is left, it makes the snapshot before
 * the lock is released, since another thread may hold another moment later, and drops the moment, so that its rows are
 * freed with the snapshot and not by the next hold under the lock. Returns true if it made the snapshot. */
static bool hash_portion(struct antientropy_snapshot *snapshot)
{
    struct antientropy_portion portion = {0};
    uint64_t left;
    lock_to_read();
    want("take_portion", antientropy_take_portion(&shared, PORTION, &portion), ANTIENTROPY_OK);
    unlock();
    want("hash_portion", antientropy_hash_portion(&portion), ANTIENTROPY_OK);
    lock_to_write();
    want("install_portion", antientropy_install_portion(&shared, &portion, &left), ANTIENTROPY_OK);
    if (left == 0) {
        want("moment", antientropy_moment(&shared, snapshot), ANTIENTROPY_OK);
        want("drop_moment", antientropy_drop_moment(&shared), ANTIENTROPY_OK);
    }
    unlock();
    return left == 0;
}

/* Makes a snapshot of the shared replica: holds a moment, and hashes it while the writers continue. */
static void publish(struct antientropy_snapshot *snapshot)
{
    lock_to_write();
    want("hold", antientropy_hold(&shared), ANTIENTROPY_OK);
    unlock();
    while (!hash_portion(snapshot))
        ;
}

/* Takes the versions of a snapshot into another replica, and frees the snapshot. */
static void sync_from(struct antientropy_snapshot *snapshot, struct antientropy_replica *replica, uint32_t number)
{
    static _Thread_local uint8_t text[ROOM];
    uint8_t offer[ANTIENTROPY_OFFER_LEN], ask[ANTIENTROPY_ASK_LEN];
    struct antientropy_taken taken = {0};
    uint64_t session, len;
    want("rehash", antientropy_rehash(replica), ANTIENTROPY_OK);
    want("offer", antientropy_offer(snapshot, number, offer, sizeof offer, &len), ANTIENTROPY_OK);
    want("open", antientropy_open(replica, 1, offer, sizeof offer, &session), ANTIENTROPY_OK);
    for (;;) {
        want("ask", antientropy_ask(replica, session, number, ask, sizeof ask, &len), ANTIENTROPY_OK);
        if (len == 0)
            break;
        want("serve", antientropy_serve(snapshot, number, ask, len, text, sizeof text, &len), ANTIENTROPY_OK);
        want("take", antientropy_take(replica, session, number, text, len, &taken), ANTIENTROPY_OK);
    }
    antientropy_snapshot_free(snapshot);
}

/* Syncs a replica from snapshots while the writers continue, in the ninth thread. */
static void *sync_often(void *replica)
{
    for (uint32_t number = 1; number <= SYNCS; number++) {
        struct antientropy_snapshot snapshot = {0};
        publish(&snapshot);
        sync_from(&snapshot, replica, number);
    }
    return NULL;
}

/* Gets the row of each key of each writer from a snapshot. */
static void get_rows(const struct antientropy_snapshot *snapshot)
{
    uint8_t row[128];
    uint64_t len;
    char key[16];
    for (int n = 0; n < WRITERS * KEYS; n++) {
        key_of(n, key, sizeof key);
        want("snapshot_get",
             antientropy_snapshot_get(snapshot, (const uint8_t *)key, strlen(key), row, sizeof row, &len),
             ANTIENTROPY_OK);
        want("the row", len > 0 ? ANTIENTROPY_OK : ANTIENTROPY_NO_VERSION, ANTIENTROPY_OK);
    }
}

/* Gets the rows of a snapshot in a thread, through the handle that all threads use, then through a handle of its
 * own. */
static void *read_rows(void *handle)
{
    const struct antientropy_snapshot *snapshot = handle;
    struct antientropy_snapshot own = {0};
    get_rows(snapshot);
    want("snapshot_share", antientropy_snapshot_share(snapshot, &own), ANTIENTROPY_OK);
    get_rows(&own);
    antientropy_snapshot_free(&own);
    return NULL;
}

/* Reads a snapshot in several threads. Returns false if a thread can't be started. */
static bool read_beside(struct antientropy_snapshot *snapshot)
{
    pthread_t threads[READERS];
    for (int n = 0; n < READERS; n++)
        if (pthread_create(&threads[n], NULL, read_rows, snapshot) != 0)
            return false;
    for (int n = 0; n < READERS; n++)
        pthread_join(threads[n], NULL);
    return true;
}

/* Writes the root of a replica's current rows. */
static void root_of(struct antientropy_replica *replica, uint8_t *root)
{
    struct antientropy_snapshot snapshot = {0};
    uint64_t len;
    want("rehash", antientropy_rehash(replica), ANTIENTROPY_OK);
    want("snapshot", antientropy_snapshot(replica, &snapshot), ANTIENTROPY_OK);
    want("root", antientropy_root(&snapshot, root, ANTIENTROPY_ROOT_LEN, &len), ANTIENTROPY_OK);
    antientropy_snapshot_free(&snapshot);
}

int main(void)
{
    uint8_t here[ANTIENTROPY_ROOT_LEN], there[ANTIENTROPY_ROOT_LEN];
    struct antientropy_replica other = {0};
    struct antientropy_snapshot last = {0};
    struct antientropy_counts counts;
    pthread_t threads[WRITERS + READERS + 1];
    want("new", antientropy_new(&shared, 2, 0, 0, 100000), ANTIENTROPY_OK);
    want("new", antientropy_new(&other, 2, 0, 0, 100000), ANTIENTROPY_OK);
    for (int n = 0; n < WRITERS; n++)
        if (pthread_create(&threads[n], NULL, write_keys, names[n]) != 0)
            return 1;
    for (int n = WRITERS; n < WRITERS + READERS; n++)
        if (pthread_create(&threads[n], NULL, read_versions, NULL) != 0)
            return 1;
    if (pthread_create(&threads[WRITERS + READERS], NULL, sync_often, &other) != 0)
        return 1;
    for (int n = 0; n <= WRITERS + READERS; n++)
        pthread_join(threads[n], NULL);
    publish(&last);
    if (!read_beside(&last))
        return 1;
    sync_from(&last, &other, SYNCS + 1);
    root_of(&shared, here);
    root_of(&other, there);
    want("count", antientropy_count(&shared, &counts), ANTIENTROPY_OK);
    printf("%d threads put %llu versions\n", WRITERS, (unsigned long long)counts.entries);
    printf("%d threads read %d versions at once\n", READERS, WRITERS * KEYS);
    printf("roots equal: %s\n", memcmp(here, there, sizeof here) == 0 ? "yes" : "no");
    printf("%d threads got %d rows of one snapshot at once\n", READERS, WRITERS * KEYS);
    antientropy_free(&shared);
    antientropy_free(&other);
    return 0;
}
