/* Renews a replica while another thread puts into it, and prints the times that the puts waited.
 *
 *     pauses KEYS KEY_BYTES VALUE_BYTES FORMAT stopped|beside
 *
 * The keys and values are defined in entries.h. The writer rewrites keys in turn, 10,000 a second, and notes the time
 * that each put takes from the time at which it is due. The other thread renews the replica: with the writer stopped
 * (antientropy_renew), or alongside its puts (antientropy_renewal_begin and the calls after it). The output is the
 * milliseconds of the renewal, with the old replica freed; the milliseconds of its thread's processor time; the number
 * of puts from the start of the renewal to a tenth of a second after its end; the microseconds that one of 10,000 puts
 * took at least, and the maximum; and the number of entries that the new replica caught up with. The status is 1 if a
 * call is refused. */
#include "entries.h"

#include <pthread.h>
#include <stdatomic.h>
#include <unistd.h>

enum { LIMIT = 1000000, STEP = 64, FEW = 64, PUTS_MAX = 100000, US_A_PUT = 100, WAIT_MS = 100 };

static struct antientropy_replica shared;
static pthread_rwlock_t lock;

static unsigned keys;
static unsigned *counters; /* the counter of each key's version */
static double took[PUTS_MAX];
static unsigned put_count;
static atomic_bool noting, over;

/* Puts a key again: its context is its last version. */
static uint32_t put(unsigned n)
{
    static uint8_t value[ANTIENTROPY_VALUE_MAX_2];
    struct antientropy_pair context[1] = {{1, counters[n]}};
    struct antientropy_receipt receipt;
    uint8_t key[KEY_ROOM];
    size_t len = key_of(n, key);
    value_of(n + counters[n], value);
    return antientropy_put(&shared, 1, key, len, context, counters[n] > 0, ANTIENTROPY_LIVE, value, shape.value_bytes,
                           &receipt);
}

static void put_all(void)
{
    for (unsigned n = 0; n < keys; n++) {
        must("put", put(n));
        counters[n]++;
    }
}

/* Waits until a time, in milliseconds. */
static void wait_until(double at)
{
    while (now_ms() < at)
        ;
}

/* Rewrites keys in turn until the time is over. */
static void *rewrite(void *none)
{
    double due = now_ms();
    for (unsigned n = 0; !atomic_load(&over); n = (n + 1) % keys) {
        wait_until(due);
        pthread_rwlock_wrlock(&lock);
        must("put", put(n));
        pthread_rwlock_unlock(&lock);
        counters[n]++;
        if (atomic_load(&noting) && put_count < PUTS_MAX)
            took[put_count++] = now_ms() - due;
        due += US_A_PUT / 1e3;
    }
    return none;
}

/* Renews the replica under the lock. */
static unsigned renew_stopped(void)
{
    struct antientropy_replica new = {0}, old;
    pthread_rwlock_wrlock(&lock);
    must("renew", antientropy_renew(&shared, &new, LIMIT));
    old = shared;
    shared = new;
    pthread_rwlock_unlock(&lock);
    antientropy_free(&old);
    return 0;
}

/* Renews the replica alongside the puts. Returns the number of entries that it caught up with. */
static unsigned renew_beside(void)
{
    struct antientropy_renewal renewal = {0};
    struct antientropy_counts before, after;
    uint64_t left = 0;
    pthread_rwlock_rdlock(&lock);
    must("count", antientropy_count(&shared, &before));
    must("begin", antientropy_renewal_begin(&shared, LIMIT, &renewal));
    pthread_rwlock_unlock(&lock);
    must("build", antientropy_renewal_build(&renewal));
    for (;;) {
        pthread_rwlock_rdlock(&lock);
        double begin = now_ms();
        must("catch_up", antientropy_renewal_catch_up(&renewal, &shared, STEP, &left));
        double took = now_ms() - begin;
        pthread_rwlock_unlock(&lock);
        if (left <= FEW)
            break;
        usleep((useconds_t)(1e3 * took)); /* the puts that waited are made */
    }
    pthread_rwlock_wrlock(&lock);
    must("finish", antientropy_renewal_finish(&renewal, &shared));
    must("count", antientropy_count(&shared, &after));
    pthread_rwlock_unlock(&lock);
    antientropy_renewal_free(&renewal);
    return (unsigned)(after.entries - before.entries);
}

/* Returns this thread's processor time in milliseconds. */
static double processor_ms(void)
{
    struct timespec at;
    clock_gettime(CLOCK_THREAD_CPUTIME_ID, &at);
    return (double)at.tv_sec * 1e3 + (double)at.tv_nsec / 1e6;
}

static int compare(const void *a, const void *b)
{
    double x = *(const double *)a, y = *(const double *)b;
    return (x > y) - (x < y);
}

/* Makes a lock that lets a waiting writer go first. */
static void make_lock(void)
{
    pthread_rwlockattr_t kind;
    pthread_rwlockattr_init(&kind);
    pthread_rwlockattr_setkind_np(&kind, PTHREAD_RWLOCK_PREFER_WRITER_NONRECURSIVE_NP);
    pthread_rwlock_init(&lock, &kind);
}

int main(int argc, char **argv)
{
    if (argc != 6 || !read_shape(3, argv + 2))
        return 2;
    keys = (unsigned)strtoul(argv[1], NULL, 10);
    bool beside = strcmp(argv[5], "beside") == 0;
    counters = calloc(keys, sizeof *counters);
    if (counters == NULL)
        return 1;
    make_lock();
    must("new", antientropy_new(&shared, shape.format, 0, 0, LIMIT));
    put_all();
    must("rehash", antientropy_rehash(&shared));
    must("hold", antientropy_hold(&shared));

    pthread_t writer;
    if (pthread_create(&writer, NULL, rewrite, NULL) != 0)
        return 1;
    wait_until(now_ms() + WAIT_MS);
    atomic_store(&noting, true);
    double begin = now_ms(), processor = processor_ms();
    unsigned caught_up = beside ? renew_beside() : renew_stopped();
    double renewed = now_ms() - begin;
    processor = processor_ms() - processor;
    wait_until(now_ms() + WAIT_MS);
    atomic_store(&over, true);
    pthread_join(writer, NULL);
    qsort(took, put_count, sizeof *took, compare);
    printf("%.0f %.0f %u %.0f %.0f %u\n", renewed, processor, put_count,
           1e3 * took[put_count - 1 - put_count / 10000], 1e3 * took[put_count - 1], caught_up);
    return 0;
}
