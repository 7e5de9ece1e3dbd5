/* Measures the number of calls of the C library that one thread makes in a second, for bench/c and bench/crdts.
 *
 *     calls [KEYS [KEY_BYTES VALUE_BYTES [FORMAT]]]
 *     calls KEYS FORMAT
 *
 * The first prints a line of JSON, with members named as in the peer's `calls`. By default there are 20000 keys
 * `key-N` with values of 32 bytes, in format 1. With KEY_BYTES over 0 the keys are in no order: see entries.h. Three
 * members are measured in a separate process, which runs first: `longest_put_us`, `bytes_per_key` (the growth of
 * resident memory over the puts) and `rehash_peak_bytes_per_key` (the growth of its peak over the first full rehash).
 * If a journal is too small for two versions of each key, no key is put again.
 *
 * The second measures the memory that sessions keep, for bench/sessions. */
#include "entries.h"

#include <malloc.h>
#include <sys/wait.h>
#include <time.h>
#include <unistd.h>

/* (the largest leaf has some 4200 rows of 4096 bytes in format 1, and 320 of 65536 in format 2) */
enum { ROOM = 1 << 25, TURNS = 200, SESSIONS = 500 };

static uint8_t offer[64], ask[64], answer[ROOM], value[ANTIENTROPY_VALUE_MAX_2];

static double now(void)
{
    struct timespec at;
    clock_gettime(CLOCK_MONOTONIC, &at);
    return (double)at.tv_sec + (double)at.tv_nsec / 1e9;
}

static void make(struct antientropy *replica)
{
    must("new", antientropy_new(replica, shape.format, 0, 0, ANTIENTROPY_ENTRIES_MAX));
}

static void put(struct antientropy *replica, unsigned long i, unsigned long of, size_t context_len)
{
    static const struct antientropy_pair context[] = {{1, 1}};
    struct antientropy_receipt receipt;
    uint8_t key[KEY_ROOM];
    size_t len = key_of(i, key);
    value_of(of, value);
    must("put", antientropy_put(replica, 1, key, len, context, context_len, ANTIENTROPY_LIVE, value, shape.value_bytes,
                                &receipt));
}

static void get(const struct antientropy *replica, unsigned long i)
{
    uint8_t key[KEY_ROOM];
    uint64_t need;
    size_t len = key_of(i, key);
    must("get", antientropy_get(replica, key, len, answer, sizeof answer, &need));
}

/* Reads the clock and the value of a key's only version. */
static void read_version(const struct antientropy *replica, unsigned long i)
{
    struct antientropy_reading reading;
    struct antientropy_pair clock[ANTIENTROPY_CLOCK_MAX];
    uint8_t key[KEY_ROOM];
    size_t len = key_of(i, key);
    must("read", antientropy_read(replica, key, len, 0, &reading, clock, ANTIENTROPY_CLOCK_MAX, answer, sizeof answer));
}

static void copy(struct antientropy *replica, unsigned long i, unsigned long of, uint64_t counter)
{
    const struct antientropy_pair clock[] = {{1, counter}};
    uint8_t key[KEY_ROOM];
    uint64_t taken;
    size_t len = key_of(i, key);
    value_of(of, value);
    must("accept", antientropy_accept(replica, key, len, clock, 1, ANTIENTROPY_LIVE, value, shape.value_bytes, &taken));
}

/* Takes over the one key of a partner's snapshot that this replica is missing. */
static void sync_one(struct antientropy *replica, struct antientropy_snapshot *snapshot)
{
    struct antientropy_taken taken = {0, 0, 0};
    uint64_t len, session;
    must("offer", antientropy_offer(snapshot, 1, offer, sizeof offer, &len));
    must("open", antientropy_open(replica, 1, offer, len, &session));
    for (;;) {
        must("ask", antientropy_ask(replica, session, 1, ask, sizeof ask, &len));
        if (len == 0)
            break;
        must("serve", antientropy_serve(snapshot, 1, ask, len, answer, sizeof answer, &len));
        must("take", antientropy_take(replica, session, 1, answer, len, &taken));
    }
    if (taken.accepted != 1 || taken.state != ANTIENTROPY_FINISHED)
        must("one key", 1);
}

static size_t used(void)
{
    struct mallinfo2 now = mallinfo2();
    return now.uordblks + now.hblkhd;
}

/* Puts a key at one replica, and sends it to the other, by a session or as a copy. Both are rehashed. */
static void bring(struct antientropy *a, struct antientropy *b, unsigned long i, int by_session)
{
    struct antientropy_snapshot snapshot = {0};
    put(a, i, i, 0);
    must("rehash", antientropy_rehash(a));
    must("snapshot", antientropy_snapshot(a, &snapshot));
    if (by_session)
        sync_one(b, &snapshot);
    else
        copy(b, i, i, 1);
    must("rehash", antientropy_rehash(b));
    antientropy_snapshot_free(&snapshot);
}

/* Prints the bytes that a session keeps: one with equal roots, and one that takes a key, in addition to the entries and
 * rows of that key. Sessions of each kind follow one another. */
static void sessions(unsigned long keys)
{
    struct antientropy a = {0}, b = {0};
    struct antientropy_snapshot snapshot = {0};
    uint64_t len, session;
    make(&a);
    make(&b);
    for (unsigned long i = 0; i < keys; i++) {
        put(&a, i, i, 0);
        copy(&b, i, i, 1);
    }
    must("rehash", antientropy_rehash(&a));
    must("rehash", antientropy_rehash(&b));
    must("snapshot", antientropy_snapshot(&a, &snapshot));
    must("offer", antientropy_offer(&snapshot, 1, offer, sizeof offer, &len));
    size_t before = used();
    for (int i = 0; i < SESSIONS; i++)
        must("open", antientropy_open(&b, 1, offer, len, &session));
    size_t equal = used() - before;
    antientropy_snapshot_free(&snapshot);
    before = used();
    for (unsigned long i = keys; i < keys + SESSIONS; i++)
        bring(&a, &b, i, 0);
    size_t copies = used() - before;
    before = used();
    for (unsigned long i = keys + SESSIONS; i < keys + 2 * SESSIONS; i++)
        bring(&a, &b, i, 1);
    size_t taken = used() - before;
    antientropy_free(&a);
    antientropy_free(&b);
    printf("{\"keys\":%lu,\"format\":%lu,\"equal_bytes\":%ld,\"taken_bytes\":%ld}\n", keys, (unsigned long)shape.format,
           (long)(equal / SESSIONS), ((long)taken - (long)copies) / SESSIONS);
}

/* Opens a file of /proc/self, or ends the program. */
static FILE *open_self(const char *path, const char *mode)
{
    FILE *file = fopen(path, mode);
    if (file == NULL) {
        perror(path);
        exit(1);
    }
    return file;
}

/* Returns the resident memory, in bytes. */
static double resident(void)
{
    unsigned long pages = 0;
    FILE *statm = open_self("/proc/self/statm", "r");
    must("statm", fscanf(statm, "%*u %lu", &pages) != 1);
    fclose(statm);
    return (double)pages * (double)sysconf(_SC_PAGESIZE);
}

/* Makes the resident memory the peak of resident memory. */
static void reset_peak(void)
{
    FILE *clear_refs = open_self("/proc/self/clear_refs", "w");
    fputs("5", clear_refs);
    must("clear_refs", fclose(clear_refs) != 0);
}

/* Returns the peak of resident memory since it was reset, in bytes. */
static double peak(void)
{
    char line[128];
    unsigned long kib = 0;
    FILE *status = open_self("/proc/self/status", "r");
    while (kib == 0 && fgets(line, sizeof line, status) != NULL)
        sscanf(line, "VmHWM: %lu", &kib);
    fclose(status);
    must("VmHWM", kib == 0);
    return 1024.0 * (double)kib;
}

/* Puts the keys, each timed by itself, and rehashes. Prints the longest put, and the growth of memory for each key. */
static void print_growth(unsigned long keys)
{
    struct antientropy a = {0};
    double longest = 0, before, grown;
    make(&a);
    before = resident();
    for (unsigned long i = 0; i < keys; i++) {
        double from = now();
        put(&a, i, i, 0);
        double took = now() - from;
        longest = took > longest ? took : longest;
    }
    grown = resident() - before;
    reset_peak();
    before = peak();
    must("rehash", antientropy_rehash(&a));
    printf("\"longest_put_us\":%.1f,\"bytes_per_key\":%.0f,\"rehash_peak_bytes_per_key\":%.0f,", 1e6 * longest,
           grown / (double)keys, (peak() - before) / (double)keys);
}

/* Prints the growth from a separate process, so that the other calls begin with an empty heap. */
static void print_growth_apart(unsigned long keys)
{
    int status;
    fflush(stdout);
    pid_t child = fork();
    if (child == 0) {
        print_growth(keys);
        exit(0);
    }
    must("the process for the growth", child < 0 || waitpid(child, &status, 0) != child || status != 0);
}

/* Makes the calls that are made for each key, and prints the number of each in a second. */
static void print_phases(struct antientropy *a, struct antientropy *b, unsigned long keys)
{
    bool twice = keys <= (ANTIENTROPY_ENTRIES_MAX - TURNS) / 2;
    double at[6];
    at[0] = now();
    for (unsigned long i = 0; i < keys; i++)
        put(a, i, i, 0);
    at[1] = now();
    for (unsigned long i = 0; i < keys; i++)
        get(a, i);
    at[2] = now();
    for (unsigned long i = 0; i < keys; i++)
        read_version(a, i);
    at[3] = now();
    if (twice) {
        for (unsigned long i = 0; i < keys; i++)
            put(a, i, keys + i, 1);
    }
    at[4] = now();
    for (unsigned long i = 0; i < keys; i++)
        copy(b, i, twice ? keys + i : i, twice ? 2 : 1);
    at[5] = now();
    printf("\"puts_per_s\":%.0f,\"gets_per_s\":%.0f,\"reads_per_s\":%.0f,\"rewrites_per_s\":%.0f,"
           "\"accepts_per_s\":%.0f,",
           keys / (at[1] - at[0]), keys / (at[2] - at[1]), keys / (at[3] - at[2]),
           twice ? keys / (at[4] - at[3]) : 0.0, keys / (at[5] - at[4]));
}

/* Runs the turns, and prints the number of each of their calls in a second. In each turn one more key goes from one
 * replica to the other. */
static void print_turns(struct antientropy *a, struct antientropy *b, unsigned long keys)
{
    double parts[4] = {0, 0, 0, 0};
    for (unsigned long i = 2 * keys; i < 2 * keys + TURNS; i++) {
        struct antientropy_snapshot snapshot = {0};
        double from = now();
        put(a, i, i, 0);
        parts[0] += now() - from;
        from = now();
        must("rehash", antientropy_rehash(a));
        parts[1] += now() - from;
        from = now();
        must("snapshot", antientropy_snapshot(a, &snapshot));
        parts[2] += now() - from;
        from = now();
        sync_one(b, &snapshot);
        parts[3] += now() - from;
        must("rehash", antientropy_rehash(b));
        antientropy_snapshot_free(&snapshot);
    }
    printf("\"put_after_snapshot_per_s\":%.0f,\"rehash_after_put_per_s\":%.0f,\"snapshots_per_s\":%.0f,"
           "\"sync_one_key_per_s\":%.0f",
           TURNS / parts[0], TURNS / parts[1], TURNS / parts[2], TURNS / parts[3]);
}

static void calls(unsigned long keys)
{
    struct antientropy a = {0}, b = {0};
    printf("{\"keys\":%lu,", keys);
    print_growth_apart(keys);
    make(&a);
    make(&b);
    print_phases(&a, &b, keys);
    must("rehash", antientropy_rehash(&a));
    must("rehash", antientropy_rehash(&b));
    print_turns(&a, &b, keys);
    printf("}\n");
    antientropy_free(&a);
    antientropy_free(&b);
}

int main(int argc, char **argv)
{
    unsigned long keys = argc > 1 ? strtoul(argv[1], NULL, 10) : 20000;
    if (argc > 5 || (argc > 3 && !read_shape(argc - 2, argv + 2)))
        return 2;
    if (argc == 3) {
        shape.format = strtoul(argv[2], NULL, 10);
        sessions(keys);
    } else {
        calls(keys);
    }
    return 0;
}
