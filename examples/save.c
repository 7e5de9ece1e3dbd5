/* A replica that is saved to a file and loaded from it: a checkpoint, as docs/FORMATS.md defines it.
 *
 *     save FOLDER
 *
 * It writes FOLDER/one.checkpoint, which has the only row of the example in docs/FORMATS.md, and
 * FOLDER/cart.checkpoint, and loads them. It refuses a truncated file, one with a changed byte, and one of another
 * range. Then a checkpoint and a log of format 1 are loaded after a migration. It ends with status 1 if a call returns
 * another number than the one wanted. Build it with checkpoint.c and disk.c. */
#include "checkpoint.h"

#include <stdio.h>
#include <stdlib.h>
#include <string.h>

enum { LIMIT = 1000 };

/* Tries to load a file, and prints the outcome. */
static void try(const char *name, struct range range, const struct bytes *file)
{
    struct antientropy_replica replica = {0};
    struct antientropy_counts counts;
    const char *wrong = load_checkpoint(&replica, range, LIMIT, file);
    if (wrong != NULL) {
        printf("%s: refused, %s\n", name, wrong);
        return;
    }
    want("count", antientropy_count(&replica, &counts), ANTIENTROPY_OK);
    printf("%s: loaded, %llu entries, %llu dirty\n", name, (unsigned long long)counts.entries,
           (unsigned long long)counts.dirty);
    antientropy_free(&replica);
}

/* Puts the first version of a key. */
static void put(struct antientropy_replica *replica, const char *key, const char *value, uint8_t kind)
{
    struct antientropy_pair none[1] = {{0, 0}};
    struct antientropy_receipt receipt;
    want("put", antientropy_put_read(replica, 1, (const uint8_t *)key, strlen(key), none, 0, kind,
                                     (const uint8_t *)value, strlen(value), &receipt), ANTIENTROPY_OK);
}

/* Returns the checkpoint of a replica. */
static struct bytes checkpoint_of(struct antientropy_replica *replica, struct range range)
{
    struct antientropy_snapshot snapshot = {0};
    snapshot_of(replica, &snapshot);
    struct bytes file = make_checkpoint(&snapshot, range);
    antientropy_snapshot_free(&snapshot);
    return file;
}

/* Saves a replica, and loads the file. */
static struct bytes save(const char *folder, const char *name, struct antientropy_replica *replica, struct range range)
{
    struct bytes made = checkpoint_of(replica, range), file = {0};
    write_file(folder, name, &made);
    printf("%s: %zu bytes\n", name, made.len);
    free(made.at);
    if (!read_file(folder, name, &file))
        fail(name);
    try(name, range, &file);
    return file;
}

/* Returns the text of a key's row, as a log keeps it. */
static struct bytes row_of(const struct antientropy_replica *replica, const char *key)
{
    struct bytes row = {0};
    uint64_t len;
    uint8_t *at = more(&row, 4096);
    want("get", antientropy_get(replica, (const uint8_t *)key, strlen(key), at, row.room, &len), ANTIENTROPY_OK);
    row.len = len;
    return row;
}

/* Loads a log's row of format 1 and migrates the replica. Writes the root of the result, and frees it. */
static void finish(struct antientropy_replica *replica, const struct bytes *row, uint8_t *root)
{
    struct antientropy_snapshot snapshot = {0};
    struct antientropy_loaded loaded;
    uint64_t len;
    want("load_format", antientropy_load_format(replica, 1, row->at, row->len, &loaded), ANTIENTROPY_OK);
    want("migrate", antientropy_migrate(replica), ANTIENTROPY_OK);
    snapshot_of(replica, &snapshot);
    want("root", antientropy_root(&snapshot, root, ANTIENTROPY_ROOT_LEN, &len), ANTIENTROPY_OK);
    antientropy_snapshot_free(&snapshot);
    antientropy_free(replica);
}

/* Saves a checkpoint of a range of format 1, and a log of one more put. They are loaded and then migrated, and also
 * loaded into a range that already has format 2. */
static void outlive_a_migration(struct antientropy_replica *replica)
{
    const struct range first = {1, 0, 0};
    uint8_t before[ANTIENTROPY_ROOT_LEN], after[ANTIENTROPY_ROOT_LEN];
    struct antientropy_replica migrated = {0}, loaded = {0};
    struct bytes file = checkpoint_of(replica, first);
    put(replica, "b", "y", ANTIENTROPY_LIVE);
    struct bytes row = row_of(replica, "b");
    want("new", antientropy_new(&loaded, 1, 0, 0, LIMIT), ANTIENTROPY_OK);
    want("new", antientropy_new(&migrated, 2, 0, 0, LIMIT), ANTIENTROPY_OK);
    if (load_leaves(&loaded, 1, &file) != NULL || load_leaves(&migrated, 1, &file) != NULL) {
        printf("the checkpoint is refused\n");
        exit(1);
    }
    finish(&loaded, &row, after);
    finish(&migrated, &row, before);
    printf("migrated after the load and before it: %s roots\n",
           memcmp(before, after, sizeof before) == 0 ? "equal" : "different");
    free(file.at);
    free(row.at);
}

int main(int argc, char **argv)
{
    const struct range first = {1, 0, 0}, second = {2, 0, 0}, other = {2, 4, 9};
    struct antientropy_replica one = {0}, cart = {0};
    if (argc != 2) {
        printf("save FOLDER\n");
        return 1;
    }
    want("new", antientropy_new(&one, 1, 0, 0, LIMIT), ANTIENTROPY_OK);
    put(&one, "a", "x", ANTIENTROPY_LIVE);
    struct bytes file = save(argv[1], "one.checkpoint", &one, first);
    try("in a range of format 2", second, &file);
    outlive_a_migration(&one);
    free(file.at);
    antientropy_free(&one);

    want("new", antientropy_new(&cart, 2, 0, 0, LIMIT), ANTIENTROPY_OK);
    put(&cart, "cart", "milk", ANTIENTROPY_LIVE);
    put(&cart, "list", "", ANTIENTROPY_TOMBSTONE);
    for (char key[] = "key 0"; key[4] <= '9'; key[4]++)
        put(&cart, key, "value", ANTIENTROPY_LIVE);
    file = save(argv[1], "cart.checkpoint", &cart, second);
    antientropy_free(&cart);

    try("for another range", other, &file);
    try("for a range of format 1", first, &file);
    file.len--;
    try("truncated by a byte", second, &file);
    file.len++;
    uint8_t *milk = file.at;
    while (memcmp(milk, "milk", 4) != 0)
        milk++;
    milk[0] ^= 1;
    try("with another value", second, &file);
    milk[0] ^= 1;
    milk[-1]++;
    try("with another length", second, &file);
    milk[-1]--;
    try("whole again", second, &file);
    free(file.at);
    return 0;
}
