/* A replica with a log on disk. After a crash it returns from the log under its own node number.
 *
 *     log FOLDER
 *
 * A store is killed while it writes a record, and started again; it renews its replica, migrates it, and makes a
 * checkpoint. Then a bit of its log flips: it can't continue under its number, and returns as another node, with a sync
 * from a partner. log_store.h describes its files, and log_faults.c tries each single fault of the files. The program
 * prints what happens, and ends with status 1 if a call returns another number than the one wanted. Build it with
 * log_store.c, checkpoint.c and disk.c. */
#define _POSIX_C_SOURCE 200809L
#include "log_store.h"

#include <stdio.h>
#include <stdlib.h>
#include <sys/stat.h>
#include <unistd.h>

enum { NODE = 1, PARTNER = 2, NEW_NODE = 3, LIMIT = 4, PATH_ROOM = 4096 };

static void put(struct store *store, const char *key, uint8_t kind, const char *value)
{
    uint64_t counter = store_put(store, key, kind, value);
    printf("node %llu: %s = %s, counter %llu\n", (unsigned long long)store->node, key, value,
           (unsigned long long)counter);
}

/* Starts a store, and prints its contents or the damage. */
static bool show_start(struct store *store, struct antientropy_snapshot *partner)
{
    struct antientropy_counts counts;
    const char *wrong = store_start(store, partner);
    if (wrong != NULL) {
        printf("node %llu can't go on under its number: %s\n", (unsigned long long)store->node, wrong);
        return false;
    }
    want("count", antientropy_count(&store->replica, &counts), ANTIENTROPY_OK);
    printf("node %llu starts: %llu records, %llu bytes cut off, %llu entries\n", (unsigned long long)store->node,
           (unsigned long long)store->place, (unsigned long long)store->torn,
           (unsigned long long)(counts.entries - counts.first));
    return true;
}

/* Makes a new store. */
static void make(struct store *store, uint64_t format)
{
    const char *used = store_make(store, format);
    if (used != NULL) {
        printf("%s: %s\n", store->folder, used);
        exit(1);
    }
}

/* Flips a bit of a file. */
static void flip(const char *folder, const char *name, size_t byte)
{
    struct bytes file = {0};
    if (!read_file(folder, name, &file))
        fail(name);
    file.at[byte] ^= 1;
    write_file(folder, name, &file);
    free(file.at);
}

/* Runs a store through a kill, renewals, a migration and a checkpoint. Then a bit of its log flips, and it continues as
 * another node. */
static void live(const char *folder, const char *next_folder)
{
    struct store store = {.folder = folder, .node = NODE, .limit = LIMIT};
    struct store next = {.folder = next_folder, .node = NEW_NODE, .limit = LIMIT};
    struct antientropy_replica partner = {0};
    struct antientropy_snapshot rows = {0};
    struct antientropy_receipt receipt;
    const struct antientropy_pair none = {0, 0};
    make(&store, 1);
    put(&store, "cart", ANTIENTROPY_LIVE, "milk");
    put(&store, "cart", ANTIENTROPY_LIVE, "milk, bread");
    put(&store, "order", ANTIENTROPY_LIVE, "paid");
    /* The process is killed while it writes a record. */
    if (write(store.file, "\0\0\0\0\0\0\0\3\1\0\0\0", 12) != 12)
        fail("write");
    store_close(&store);

    show_start(&store, NULL);
    put(&store, "cart", ANTIENTROPY_LIVE, "bread");
    put(&store, "order", ANTIENTROPY_LIVE, "sent"); /* after a renewal: the journal was full */
    store_migrate(&store);
    put(&store, "list", ANTIENTROPY_TOMBSTONE, "");
    store_close(&store);

    show_start(&store, NULL); /* the records are of both formats */
    store_checkpoint(&store);
    put(&store, "cart", ANTIENTROPY_LIVE, "eggs");
    put(&store, "order", ANTIENTROPY_LIVE, "lost");
    want("new", antientropy_new(&partner, 2, 0, 0, LIMIT), ANTIENTROPY_OK);
    snapshot_of(&store.replica, &rows);
    store_sync(&partner, &rows);
    antientropy_snapshot_free(&rows);
    store_close(&store);

    flip(folder, "log.2", 20);
    snapshot_of(&partner, &rows);
    if (show_start(&store, &rows) || show_start(&store, &rows))
        exit(1);
    make(&next, 2);
    store_sync(&next.replica, &rows);
    store_log(&next);
    put(&next, "order", ANTIENTROPY_LIVE, "found");
    store_close(&next);
    show_start(&next, NULL);
    store_close(&next);
    antientropy_snapshot_free(&rows);

    want("put_read", antientropy_put_read(&partner, PARTNER, (const uint8_t *)"tea", 3, &none, 0, ANTIENTROPY_LIVE,
                                          (const uint8_t *)"green", 5, &receipt), ANTIENTROPY_OK);
    snapshot_of(&partner, &rows);
    show_start(&next, &rows); /* after a renewal: the journal was full */
    store_close(&next);
    antientropy_snapshot_free(&rows);
    antientropy_free(&partner);
}

int main(int argc, char **argv)
{
    char first[PATH_ROOM], next[PATH_ROOM];
    if (argc != 2) {
        printf("log FOLDER\n");
        return 2;
    }
    snprintf(first, sizeof first, "%s/node-1", argv[1]);
    snprintf(next, sizeof next, "%s/node-3", argv[1]);
    if (mkdir(first, 0700) != 0 || mkdir(next, 0700) != 0)
        fail(argv[1]);
    live(first, next);
    return 0;
}
