/* Puts at a pace alongside a worker that makes snapshots, and prints the times that both wait.
 *
 *     load KEYS KEY_BYTES VALUE_BYTES FORMAT PUTS_PER_S WORKER
 *
 * The keys and values are defined in entries.h. First each key is put, and all nodes are hashed. Then, for six seconds,
 * a thread rewrites keys drawn at random, and another one works. It begins a snapshot each half second, or when the
 * previous one is made:
 *
 *     nothing   it does nothing
 *     moments   it holds a moment, hashes it in portions alongside the puts, and makes its snapshot
 *     rounds    it hashes some nodes under the lock, again and again, and makes a snapshot when each has a digest
 *     whole     it hashes all nodes and makes a snapshot under the lock
 *
 * The output is the milliseconds of hashing all nodes without puts; the number of snapshots, and the median and the
 * maximum of the milliseconds from a snapshot's start to its end; the number of puts a second, and the 99.99th
 * percentile and the maximum of their microseconds. The status is 1 if a call is refused. */
#include "entries.h"

#include <pthread.h>
#include <stdatomic.h>

enum { SECONDS = 6, PERIOD = 500, MOST = 16, SNAPSHOTS = SECONDS * 1000 / PERIOD + 1 };

static pthread_mutex_t lock = PTHREAD_MUTEX_INITIALIZER;
static struct antientropy_replica replica;
static atomic_bool is_over;
static unsigned keys;
static uint64_t *counters;
static double pace, *put_times, snapshot_times[SNAPSHOTS];
static size_t put_count, snapshots;

/* Puts a key with the context of its last put. */
static void put(unsigned long number)
{
    static uint8_t value[ANTIENTROPY_VALUE_MAX_2];
    struct antientropy_pair context[1] = {{1, counters[number]}};
    struct antientropy_receipt receipt;
    uint8_t key[KEY_ROOM];
    size_t len = key_of(number, key);
    value_of(number + counters[number], value);
    must("put", antientropy_put(&replica, 1, key, len, context, counters[number] > 0, ANTIENTROPY_LIVE, value,
                                shape.value_bytes, &receipt));
    counters[number]++;
}

/* Sleeps until a time, in milliseconds. */
static void wait_until(double time)
{
    struct timespec at = {(time_t)(time / 1e3), 0};
    at.tv_nsec = (long)((time - (double)at.tv_sec * 1e3) * 1e6);
    clock_nanosleep(CLOCK_MONOTONIC, TIMER_ABSTIME, &at, NULL);
}

/* Rewrites keys at the pace, and keeps the time that each put takes, with its wait for the lock. */
static void *write_keys(void *unused)
{
    uint64_t random = 1;
    double begin = now_ms();
    for (size_t n = 0; n < (size_t)(SECONDS * pace); n++) {
        double due = begin + (double)n * 1e3 / pace;
        if (due > now_ms())
            wait_until(due);
        random = random * UINT64_C(6364136223846793005) + UINT64_C(1442695040888963407);
        double start = now_ms();
        pthread_mutex_lock(&lock);
        put((random >> 33) % keys);
        pthread_mutex_unlock(&lock);
        put_times[put_count++] = now_ms() - start;
        if (start - begin > SECONDS * 1e3)
            break;
    }
    atomic_store(&is_over, true);
    return unused;
}

/* Holds a moment, hashes it alongside the puts, and makes its snapshot. Then it drops the moment, so that its rows are
 * freed with the snapshot, not by the next hold under the lock. */
static void snapshot_moment(struct antientropy_snapshot *snapshot)
{
    uint64_t left = 1;
    pthread_mutex_lock(&lock);
    must("hold", antientropy_hold(&replica));
    pthread_mutex_unlock(&lock);
    while (left > 0) {
        struct antientropy_portion portion = {0};
        pthread_mutex_lock(&lock);
        must("take_portion", antientropy_take_portion(&replica, MOST, &portion));
        pthread_mutex_unlock(&lock);
        must("hash_portion", antientropy_hash_portion(&portion));
        pthread_mutex_lock(&lock);
        must("install_portion", antientropy_install_portion(&replica, &portion, &left));
        if (left == 0) {
            must("moment", antientropy_moment(&replica, snapshot));
            must("drop_moment", antientropy_drop_moment(&replica));
        }
        pthread_mutex_unlock(&lock);
    }
}

/* Hashes some nodes under the lock until each has a digest, and makes a snapshot, if that is before the end. */
static void snapshot_when_clean(struct antientropy_snapshot *snapshot)
{
    uint64_t left = 1;
    while (left > 0 && !atomic_load(&is_over)) {
        pthread_mutex_lock(&lock);
        must("rehash_some", antientropy_rehash_some(&replica, MOST, &left));
        if (left == 0)
            must("snapshot", antientropy_snapshot(&replica, snapshot));
        pthread_mutex_unlock(&lock);
    }
}

/* Hashes all nodes, and makes a snapshot, under the lock. */
static void snapshot_whole(struct antientropy_snapshot *snapshot)
{
    pthread_mutex_lock(&lock);
    must("rehash", antientropy_rehash(&replica));
    must("snapshot", antientropy_snapshot(&replica, snapshot));
    pthread_mutex_unlock(&lock);
}

/* Makes snapshots until the puts end, and keeps the time that each takes. */
static void make_snapshots(void (*make)(struct antientropy_snapshot *))
{
    while (!atomic_load(&is_over) && snapshots < SNAPSHOTS) {
        struct antientropy_snapshot snapshot = {0};
        double begin = now_ms();
        make(&snapshot);
        if (snapshot.held)
            snapshot_times[snapshots++] = now_ms() - begin;
        antientropy_snapshot_free(&snapshot);
        wait_until(begin + PERIOD);
    }
}

static int compare(const void *a, const void *b)
{
    double x = *(const double *)a, y = *(const double *)b;
    return (x > y) - (x < y);
}

/* Returns the time at a part of the sorted times, or 0 if `count` is 0. */
static double at_part(double *times, size_t count, double part)
{
    size_t place = (size_t)((double)count * part);
    return count == 0 ? 0 : times[place < count ? place : count - 1];
}

int main(int argc, char **argv)
{
    static const struct {
        const char *name;
        void (*make)(struct antientropy_snapshot *);
    } workers[] = {{"moments", snapshot_moment}, {"rounds", snapshot_when_clean}, {"whole", snapshot_whole}};
    if (argc != 7 || !read_shape(3, argv + 2))
        return 2;
    keys = (unsigned)strtoul(argv[1], NULL, 10);
    pace = strtod(argv[5], NULL);
    counters = calloc(keys, sizeof *counters);
    put_times = calloc((size_t)(SECONDS * pace) + 1, sizeof *put_times);
    if (keys == 0 || counters == NULL || put_times == NULL)
        return 1;
    must("new", antientropy_new(&replica, shape.format, 0, 0, ANTIENTROPY_ENTRIES_MAX));
    for (unsigned n = 0; n < keys; n++)
        put(n);
    double begin = now_ms();
    must("rehash", antientropy_rehash(&replica));
    double alone = now_ms() - begin;

    pthread_t writer;
    if (pthread_create(&writer, NULL, write_keys, NULL) != 0)
        return 1;
    begin = now_ms();
    for (size_t n = 0; n < sizeof workers / sizeof workers[0]; n++)
        if (strcmp(argv[6], workers[n].name) == 0)
            make_snapshots(workers[n].make);
    pthread_join(writer, NULL);
    double seconds = (now_ms() - begin) / 1e3;
    qsort(put_times, put_count, sizeof *put_times, compare);
    qsort(snapshot_times, snapshots, sizeof *snapshot_times, compare);
    printf("%.0f %zu %.0f %.0f %.0f %.0f %.0f\n", alone, snapshots, at_part(snapshot_times, snapshots, 0.5),
           at_part(snapshot_times, snapshots, 1), (double)put_count / seconds,
           at_part(put_times, put_count, 0.9999) * 1e3, at_part(put_times, put_count, 1) * 1e3);
    antientropy_free(&replica);
    return 0;
}
