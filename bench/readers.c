/* Gets rows of one snapshot in threads, each through a handle of its own, and prints the number of gets.
 *
 *     readers KEYS KEY_BYTES VALUE_BYTES FORMAT THREADS
 *
 * The keys and values are defined in entries.h. For two seconds each thread gets the rows of keys that it draws at
 * random. The output is the thousands of gets a second, of all threads together. The status is 1 if a call is refused
 * or a row is missing. */
#include "entries.h"

#include <pthread.h>
#include <stdatomic.h>

enum { SECONDS = 2, THREADS_MAX = 64, ROUND = 1000 };

struct reader {
    struct antientropy_snapshot snapshot;
    uint64_t random;
    unsigned long gets;
};

static unsigned keys;

/* Gets keys until the time is over. */
static void *read_keys(void *words)
{
    static _Thread_local uint8_t row[KEY_ROOM + ANTIENTROPY_VALUE_MAX_2 + 64];
    struct reader *reader = words;
    uint8_t key[KEY_ROOM];
    uint64_t len;
    for (double end = now_ms() + SECONDS * 1e3; now_ms() < end;)
        for (int n = 0; n < ROUND; n++) {
            reader->random = reader->random * UINT64_C(6364136223846793005) + UINT64_C(1442695040888963407);
            size_t key_len = key_of((reader->random >> 33) % keys, key);
            must("get", antientropy_snapshot_get(&reader->snapshot, key, key_len, row, sizeof row, &len));
            if (len == 0)
                exit(1);
            reader->gets++;
        }
    return NULL;
}

/* Makes a snapshot of a replica with the keys. */
static void publish(struct antientropy_snapshot *snapshot)
{
    static uint8_t value[ANTIENTROPY_VALUE_MAX_2];
    struct antientropy_replica replica = {0};
    struct antientropy_pair none[1] = {{0, 0}};
    struct antientropy_receipt receipt;
    uint8_t key[KEY_ROOM];
    must("new", antientropy_new(&replica, shape.format, 0, 0, keys));
    for (unsigned n = 0; n < keys; n++) {
        size_t len = key_of(n, key);
        value_of(n, value);
        must("put", antientropy_put(&replica, 1, key, len, none, 0, ANTIENTROPY_LIVE, value, shape.value_bytes,
                                    &receipt));
    }
    must("rehash", antientropy_rehash(&replica));
    must("snapshot", antientropy_snapshot(&replica, snapshot));
    antientropy_free(&replica);
}

int main(int argc, char **argv)
{
    static struct reader readers[THREADS_MAX];
    pthread_t threads[THREADS_MAX];
    struct antientropy_snapshot snapshot = {0};
    unsigned long gets = 0;
    if (argc != 6 || !read_shape(3, argv + 2))
        return 2;
    keys = (unsigned)strtoul(argv[1], NULL, 10);
    unsigned count = (unsigned)strtoul(argv[5], NULL, 10);
    if (count == 0 || count > THREADS_MAX)
        return 2;
    publish(&snapshot);
    for (unsigned n = 0; n < count; n++) {
        readers[n].random = n + 1;
        must("share", antientropy_snapshot_share(&snapshot, &readers[n].snapshot));
    }
    for (unsigned n = 0; n < count; n++)
        if (pthread_create(&threads[n], NULL, read_keys, &readers[n]) != 0)
            return 1;
    for (unsigned n = 0; n < count; n++) {
        pthread_join(threads[n], NULL);
        gets += readers[n].gets;
        antientropy_snapshot_free(&readers[n].snapshot);
    }
    antientropy_snapshot_free(&snapshot);
    printf("%.0f\n", (double)gets / SECONDS / 1e3);
    return 0;
}
