/* Renews a replica, saves it, loads it, and prints the times.
 *
 *     renewals KEYS KEY_BYTES VALUE_BYTES FORMAT
 *
 * The keys and values are defined in entries.h. Each key has one version, whose clock has one pair. The output is the
 * milliseconds of the renewal, of writing all rows into memory, and of loading them into a new replica, and the bytes
 * of the rows. The status is 1 if a call is refused or the rows differ in the end. */
#include "entries.h"

/* (a row has 20 bytes in addition to its key and its value) */
enum { LIMIT = 1000000, ROOT_AT = 7, ROOT_LEN = 32, ROW_ROOM = KEY_ROOM + 32 };

static uint8_t value[ANTIENTROPY_VALUE_MAX_2];

static void fill(struct antientropy *replica, unsigned keys)
{
    struct antientropy_pair none[1] = {{0, 0}};
    struct antientropy_receipt receipt;
    uint8_t key[KEY_ROOM];
    for (unsigned n = 0; n < keys; n++) {
        size_t len = key_of(n, key);
        value_of(n, value);
        must("put", antientropy_put(replica, 1, key, len, none, 0, ANTIENTROPY_LIVE, value, shape.value_bytes,
                                    &receipt));
    }
}

static void root_of(struct antientropy *replica, struct antientropy_snapshot *snapshot, uint8_t *root)
{
    uint8_t offer[64];
    uint64_t len;
    must("rehash", antientropy_rehash(replica));
    must("snapshot", antientropy_snapshot(replica, snapshot));
    must("offer", antientropy_offer(snapshot, 1, offer, sizeof offer, &len));
    memcpy(root, offer + ROOT_AT, ROOT_LEN);
}

int main(int argc, char **argv)
{
    if (argc != 5 || !read_shape(3, argv + 2))
        return 2;
    unsigned keys = (unsigned)strtoul(argv[1], NULL, 10);
    unsigned leaves = shape.format == 1 ? ANTIENTROPY_LEAVES_1 : ANTIENTROPY_LEAVES_2;
    struct antientropy old = {0}, new = {0}, loaded = {0};
    struct antientropy_snapshot snapshot = {0}, other = {0};
    struct antientropy_loaded counts;
    uint8_t root[ROOT_LEN], root_now[ROOT_LEN];
    size_t room = (size_t)keys * (ROW_ROOM + shape.value_bytes), used = 0;
    uint8_t *rows = malloc(room);
    uint64_t *lens = calloc(leaves, sizeof *lens);
    if (rows == NULL || lens == NULL)
        return 1;
    must("new", antientropy_new(&old, shape.format, 0, 0, LIMIT));
    fill(&old, keys);
    root_of(&old, &snapshot, root);

    double begin = now_ms();
    must("renew", antientropy_renew(&old, &new, LIMIT));
    double renewed = now_ms() - begin;

    begin = now_ms();
    for (unsigned leaf = 0; leaf < leaves; leaf++) {
        must("rows", antientropy_rows(&snapshot, (uint16_t)leaf, rows + used, room - used, &lens[leaf]));
        used += lens[leaf];
    }
    double saved = now_ms() - begin;

    must("new", antientropy_new(&loaded, shape.format, 0, 0, LIMIT));
    size_t at = 0;
    begin = now_ms();
    for (unsigned leaf = 0; leaf < leaves; leaf++) {
        must("load", antientropy_load(&loaded, rows + at, lens[leaf], &counts));
        at += lens[leaf];
    }
    double read = now_ms() - begin;
    root_of(&loaded, &other, root_now);
    if (memcmp(root, root_now, ROOT_LEN) != 0)
        return 1;
    printf("%.0f %.0f %.0f %zu\n", renewed, saved, read, used);
    return 0;
}
