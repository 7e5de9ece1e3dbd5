/* Checkpoints: makes the file of a snapshot, and loads it. */
#include "checkpoint.h"

#include <stdlib.h>
#include <string.h>

enum { HEAD_LEN = 44, PORTION = 64 };

static const uint8_t MAGIC[8] = {'a', 'n', 't', 'i', 'e', 'n', 't', 1};

static unsigned leaves(uint64_t format)
{
    return format == 1 ? ANTIENTROPY_LEAVES_1 : ANTIENTROPY_LEAVES_2;
}

void snapshot_of(struct antientropy_replica *replica, struct antientropy_snapshot *snapshot)
{
    uint64_t left;
    want("hold", antientropy_hold(replica), ANTIENTROPY_OK);
    do
        want("hash_moment", antientropy_hash_moment(replica, PORTION, &left), ANTIENTROPY_OK);
    while (left > 0);
    want("moment", antientropy_moment(replica, snapshot), ANTIENTROPY_OK);
}

/* Writes the root of a snapshot, of ANTIENTROPY_ROOT_LEN bytes. */
static void root_of(const struct antientropy_snapshot *snapshot, uint8_t *root)
{
    uint64_t len;
    want("root", antientropy_root(snapshot, root, ANTIENTROPY_ROOT_LEN, &len), ANTIENTROPY_OK);
}

/* Appends the rows of a leaf, with their length before them. */
static void add_leaf(struct bytes *file, const struct antientropy_snapshot *snapshot, unsigned leaf)
{
    uint64_t len;
    uint8_t *at = more(file, 8);
    uint32_t got = antientropy_rows(snapshot, leaf, at + 8, file->room - file->len - 8, &len);
    if (got == ANTIENTROPY_SMALL) {
        at = more(file, 8 + len);
        got = antientropy_rows(snapshot, leaf, at + 8, len, &len);
    }
    want("rows", got, ANTIENTROPY_OK);
    add_number(file, len, 8);
    file->len += len;
}

struct bytes make_checkpoint(struct antientropy_snapshot *snapshot, struct range range)
{
    struct bytes file = {0};
    memcpy(more(&file, HEAD_LEN), MAGIC, sizeof MAGIC);
    file.len = sizeof MAGIC;
    add_number(&file, range.format, 1);
    add_number(&file, range.bits, 1);
    add_number(&file, range.number, 2);
    root_of(snapshot, more(&file, ANTIENTROPY_ROOT_LEN));
    file.len += ANTIENTROPY_ROOT_LEN;
    for (unsigned leaf = 0; leaf < leaves(range.format); leaf++)
        add_leaf(&file, snapshot, leaf);
    return file;
}

const char *load_leaves(struct antientropy_replica *replica, uint64_t format, const struct bytes *file)
{
    struct antientropy_loaded loaded;
    size_t at = HEAD_LEN;
    if (file->len < HEAD_LEN)
        return "the file is truncated, or a length in it is damaged";
    for (unsigned leaf = 0; leaf < leaves(format); leaf++) {
        if (file->len - at < 8)
            return "the file is truncated, or a length in it is damaged";
        uint64_t len = number_at(file->at + at, 8);
        at += 8;
        if (file->len - at < len)
            return "the file is truncated, or a length in it is damaged";
        uint32_t got = antientropy_load_format(replica, format, file->at + at, len, &loaded);
        if (got == ANTIENTROPY_ROW_BROKEN || got == ANTIENTROPY_OTHER_RANGE || got == ANTIENTROPY_CROWDED)
            return "the rows are damaged";
        want("load_format", got, ANTIENTROPY_OK);
        at += len;
    }
    return at == file->len ? NULL : "the file is too long";
}

const char *load_checkpoint(struct antientropy_replica *replica, struct range range, uint64_t limit,
                            const struct bytes *file)
{
    struct antientropy_snapshot snapshot = {0};
    uint8_t root[ANTIENTROPY_ROOT_LEN];
    if (file->len < HEAD_LEN || memcmp(file->at, MAGIC, sizeof MAGIC) != 0)
        return "this isn't a checkpoint";
    uint64_t format = file->at[CHECKPOINT_FORMAT_AT];
    if (format < 1 || format > range.format || file->at[9] != range.bits
        || number_at(file->at + 10, 2) != range.number)
        return "it is of another range, or of a later format";
    want("new", antientropy_new(replica, format, range.bits, range.number, limit), ANTIENTROPY_OK);
    const char *wrong = load_leaves(replica, format, file);
    if (wrong == NULL) {
        snapshot_of(replica, &snapshot);
        root_of(&snapshot, root);
        antientropy_snapshot_free(&snapshot);
        if (memcmp(root, file->at + CHECKPOINT_ROOT_AT, sizeof root) != 0)
            wrong = "its root differs";
    }
    /* The root belongs to the file's format, so the migration follows its comparison. */
    if (wrong == NULL && format < range.format)
        want("migrate", antientropy_migrate(replica), ANTIENTROPY_OK);
    if (wrong != NULL)
        antientropy_free(replica);
    return wrong;
}
