/* Tries each single fault in the files of a store with a log (log_store.h).
 *
 *     log_faults FOLDER
 *
 * It makes a small store in FOLDER. Then it flips each bit of its files, cuts each file at each byte (for the
 * checkpoint, only some bits and bytes), and removes each file, one at a time. After each fault the store is started,
 * without a partner and with a sync from a partner that has its versions, and takes a put of each key. The program
 * counts the starts after which the node is whole: it continues with everything that it acknowledged. Other starts are
 * refused: the node can't continue under its number. After a crash of the machine, a fault of the last file can make a
 * start lose the end of its log and use clocks a second time, but only without the partner. The program also tries
 * first starts in a folder that isn't new, starts of another node, and the files that a kill leaves. It ends with
 * status 1 if any of this doesn't hold, or if a call returns another number than the one wanted. Build it with
 * log_store.c, checkpoint.c and disk.c. */
#define _POSIX_C_SOURCE 200809L
#include "log_store.h"

#include <fcntl.h>
#include <stdio.h>
#include <stdlib.h>
#include <string.h>
#include <unistd.h>

enum { NODE = 1, LIMIT = 100, MOST_FILES = 5, MOST_ACKS = 8, CHECKPOINT_STEP = 33 };

/* The gate links it with --wrap=fsync and gives it a folder in memory, since no machine is killed here and a disk would
 * be slow. */
int __wrap_fsync(int file);
int __wrap_fsync(int file)
{
    return file < 0;
}

static void stop(const char *what)
{
    printf("%s\n", what);
    exit(1);
}

/* A file of the store before the fault. */
struct file {
    const char *name;
    struct bytes bytes;
};

/* A put that was acknowledged. */
struct ack {
    const char *key, *value;
    uint64_t counter;
};

/* A small store on disk, its acknowledged puts, and a partner's rows. */
struct small {
    const char *folder;
    size_t files, acks;
    struct file file[MOST_FILES];
    struct ack ack[MOST_ACKS];
    struct antientropy_snapshot rows;
};

/* Outcomes of the starts after faults. */
struct tally {
    unsigned all;     /* nothing that was acknowledged is lost */
    unsigned refused; /* the node says that it can't go on under its number */
    unsigned twice;   /* clocks are used a second time */
};

/* Writes a file directly, without a sync. */
static void write_plain(const char *folder, const char *name, const uint8_t *at, size_t len)
{
    int file = open_file(folder, name, O_WRONLY | O_CREAT | O_TRUNC);
    if (file < 0 || write(file, at, len) != (ssize_t)len || close(file) != 0)
        fail(name);
}

/* Restores all files except one, which gets other bytes, or is removed if `at` is NULL. */
static void restore(const struct small *small, size_t changed, const uint8_t *at, size_t len)
{
    for (size_t n = 0; n < small->files; n++) {
        const struct file *file = &small->file[n];
        if (n != changed)
            write_plain(small->folder, file->name, file->bytes.at, file->bytes.len);
        else if (at != NULL)
            write_plain(small->folder, file->name, at, len);
        else
            remove_file(small->folder, file->name);
    }
}

/* Returns the last acknowledged put of a key. */
static const struct ack *last_ack(const struct small *small, const char *key)
{
    const struct ack *last = NULL;
    for (size_t n = 0; n < small->acks; n++)
        if (strcmp(small->ack[n].key, key) == 0)
            last = &small->ack[n];
    return last;
}

/* Returns true if a key has only the value of an acknowledged put. */
static bool holds(struct store *store, const struct ack *ack)
{
    struct antientropy_pair clock[ANTIENTROPY_CLOCK_MAX];
    struct antientropy_reading reading;
    uint8_t value[64];
    uint32_t got = antientropy_read(&store->replica, (const uint8_t *)ack->key, strlen(ack->key), 0, &reading, clock,
                                    ANTIENTROPY_CLOCK_MAX, value, sizeof value);
    return got == ANTIENTROPY_OK && reading.versions == 1 && reading.bytes == strlen(ack->value)
        && memcmp(value, ack->value, reading.bytes) == 0;
}

/* Puts each key again, and returns the number of acknowledged puts whose clocks would be used a second time. */
static unsigned put_again(struct store *store, const struct small *small)
{
    unsigned lost = 0;
    for (size_t n = 0; n < small->acks; n++) {
        const struct ack *ack = &small->ack[n];
        if (ack != last_ack(small, ack->key))
            continue;
        bool held = holds(store, ack);
        uint64_t counter = store_put(store, ack->key, ANTIENTROPY_LIVE, "again");
        if (counter <= ack->counter)
            lost += (unsigned)(ack->counter + 1 - counter);
        else if (counter == ack->counter + 1 && !held)
            stop("an acknowledged value is lost, but its clock isn't");
    }
    return lost;
}

/* Starts the store from its files, and counts the outcome. Returns the number of lost puts that were acknowledged. */
static unsigned judge(struct small *small, bool alone, struct tally *tally)
{
    struct store store = {.folder = small->folder, .node = NODE, .limit = LIMIT};
    if (store_start(&store, alone ? NULL : &small->rows) != NULL) {
        tally->refused++;
        if (store_start(&store, NULL) == NULL)
            stop("a store that was refused starts alone");
        return 0;
    }
    unsigned lost = put_again(&store, small);
    uint64_t place = store.place;
    store_close(&store);
    if (store_start(&store, NULL) != NULL || store.place != place)
        stop("a store that went on can't be started again");
    store_close(&store);
    if (lost > 0)
        tally->twice++;
    else
        tally->all++;
    return lost;
}

/* The starts after the faults of a kind. */
struct count {
    unsigned faults;
    struct tally alone, synced;
};

/* Starts the store after a fault, without and with the partner. Without, it may lose at most `most_lost` puts. */
static void try_fault(struct small *small, struct count *count, size_t changed, const uint8_t *at, size_t len,
                      unsigned most_lost)
{
    count->faults++;
    restore(small, changed, at, len);
    if (judge(small, true, &count->alone) > most_lost)
        stop("more than the end of the log is lost");
    restore(small, changed, at, len);
    if (judge(small, false, &count->synced) > 0)
        stop("a clock is used twice, although a partner has it");
}

/* Prints a line of the table of faults. */
static void show(const char *what, const struct count *count)
{
    printf("%-36s %6u %12u %9u %14u %13u %9u\n", what, count->faults, count->alone.all, count->alone.refused,
           count->alone.twice, count->synced.all, count->synced.refused);
}

/* Flips each bit of a file whose number is a multiple of `step`, one at a time. */
static struct count flip_each(struct small *small, size_t changed, size_t step, unsigned most_lost)
{
    struct bytes *file = &small->file[changed].bytes;
    struct count count = {0};
    for (size_t bit = 0; bit < 8 * file->len; bit += step) {
        uint8_t mask = (uint8_t)(1 << bit % 8);
        file->at[bit / 8] ^= mask;
        try_fault(small, &count, changed, file->at, file->len, most_lost);
        file->at[bit / 8] ^= mask;
    }
    return count;
}

/* Cuts a file to each length from one up to, but not including, another, in steps. */
static struct count cut_each(struct small *small, size_t changed, size_t step, size_t from, size_t to,
                             unsigned most_lost)
{
    struct count count = {0};
    for (size_t len = from; len < to; len += step)
        try_fault(small, &count, changed, small->file[changed].bytes.at, len, most_lost);
    return count;
}

static void small_put(struct store *store, struct small *small, const char *key, const char *value)
{
    small->ack[small->acks++] = (struct ack){key, value, store_put(store, key, ANTIENTROPY_LIVE, value)};
}

static void keep_file(struct small *small, const char *name)
{
    struct file *file = &small->file[small->files++];
    file->name = name;
    if (!read_file(small->folder, name, &file->bytes))
        fail(name);
}

enum { MANIFEST, SYNCED, CHECKPOINT, LOG_2, LOG_3 };

/* Other states of the files of the small store. */
struct states {
    struct bytes old_manifest; /* before the last file was begun */
    struct bytes old_synced;   /* when the last file was begun: a crash of the machine can leave it */
    struct bytes no_rows;      /* a checkpoint of an empty replica */
    struct bytes first;        /* the last file, with only its first record */
    struct bytes longer;       /* the last file, with one record more that wasn't acknowledged */
};

/* Makes the checkpoint of an empty replica of format 1. */
static struct bytes checkpoint_of_none(void)
{
    struct antientropy_replica none = {0};
    struct antientropy_snapshot rows = {0};
    want("new", antientropy_new(&none, 1, 0, 0, LIMIT), ANTIENTROPY_OK);
    snapshot_of(&none, &rows);
    struct bytes file = make_checkpoint(&rows, (struct range){1, 0, 0});
    antientropy_snapshot_free(&rows);
    antientropy_free(&none);
    return file;
}

/* Makes the small store: a checkpoint, a file of records of both formats, and a last file of two records. */
static void make_small(struct small *small, struct states *states)
{
    struct store store = {.folder = small->folder, .node = NODE, .limit = LIMIT};
    struct antientropy_replica partner = {0};
    struct antientropy_snapshot rows = {0};
    states->no_rows = checkpoint_of_none();
    if (store_make(&store, 1) != NULL)
        stop("the folder has a store");
    small_put(&store, small, "cart", "milk");
    small_put(&store, small, "order", "paid");
    store_checkpoint(&store);
    small_put(&store, small, "cart", "bread");
    store_migrate(&store);
    small_put(&store, small, "order", "sent");
    read_file(small->folder, "manifest", &states->old_manifest);
    store_begin_file(&store); /* and is killed before it has its checkpoint */
    read_file(small->folder, "synced", &states->old_synced);
    small_put(&store, small, "cart", "eggs");
    read_file(small->folder, "log.3", &states->first);
    small_put(&store, small, "list", "nuts");
    keep_file(small, "manifest");
    keep_file(small, "synced");
    keep_file(small, "checkpoint.2");
    keep_file(small, "log.2");
    keep_file(small, "log.3");
    want("new", antientropy_new(&partner, 2, 0, 0, LIMIT), ANTIENTROPY_OK);
    snapshot_of(&store.replica, &rows);
    store_sync(&partner, &rows);
    snapshot_of(&partner, &small->rows);
    antientropy_snapshot_free(&rows);
    antientropy_free(&partner);
    store_put(&store, "order", ANTIENTROPY_LIVE, "unsent");
    read_file(small->folder, "log.3", &states->longer);
    store_close(&store);
}

/* Flips each bit of the last file, and cuts it at each byte. If `some` is 1, a start without the partner may lose the
 * last record after a flip, and the records that are cut off after a cut; if it is 0, it may lose none. */
static void try_last(struct small *small, const struct states *states, unsigned some)
{
    size_t first = states->first.len, len = small->file[LOG_3].bytes.len;
    struct count count = flip_each(small, LOG_3, 1, some);
    show("log.3: each bit flipped", &count);
    count = cut_each(small, LOG_3, 1, first, len, some);
    show("log.3: cut in its last record", &count);
    count = cut_each(small, LOG_3, 1, 0, first, 2 * some);
    show("log.3: cut before its last record", &count);
}

/* Flips bits of a file and cuts it, each in steps. No start may lose anything. */
static void try_file(struct small *small, size_t changed, size_t step)
{
    const struct file *file = &small->file[changed];
    char what[64];
    struct count count = flip_each(small, changed, step, 0);
    snprintf(what, sizeof what, step == 1 ? "%s: each bit flipped" : "%s: each %zurd bit", file->name, step);
    show(what, &count);
    count = cut_each(small, changed, step, 0, file->bytes.len, 0);
    snprintf(what, sizeof what, step == 1 ? "%s: cut at each byte" : "%s: cut at each %zurd byte", file->name, step);
    show(what, &count);
}

/* Starts the small store after a kill at each byte of a record that isn't acknowledged, and after a kill in one with a
 * value that looks like a record of the log. */
static void try_kills(struct small *small, const struct states *states)
{
    const struct bytes *longer = &states->longer, *first = &states->first;
    size_t begin = small->file[LOG_3].bytes.len;
    struct count count = {0};
    struct bytes tail = {0};
    for (size_t len = begin; len <= longer->len; len++)
        try_fault(small, &count, LOG_3, longer->at, len, 0);
    memcpy(more(&tail, begin + RECORD_BYTES_AT + first->len), longer->at, begin + RECORD_BYTES_AT);
    memcpy(tail.at + begin + RECORD_BYTES_AT, first->at, first->len);
    try_fault(small, &count, LOG_3, tail.at, begin + RECORD_BYTES_AT + first->len, 0);
    free(tail.at);
    show("killed at each byte of a record", &count);
    if (count.alone.refused + count.synced.refused > 0)
        stop("a torn tail was taken for damage");
}

/* Starts the small store without each of its files, with an older or another file, and without a record. */
static void try_missing(struct small *small, const struct states *states)
{
    struct count removed = {0}, other = {0};
    size_t first = states->first.len, len = small->file[LOG_3].bytes.len;
    for (size_t n = 0; n < small->files; n++)
        try_fault(small, &removed, n, NULL, 0, 0);
    show("each file removed", &removed);
    try_fault(small, &other, MANIFEST, states->old_manifest.at, states->old_manifest.len, 0);
    try_fault(small, &other, CHECKPOINT, states->no_rows.at, states->no_rows.len, 0);
    try_fault(small, &other, LOG_3, small->file[LOG_3].bytes.at + first, len - first, 0);
    show("an older file, or a record removed", &other);
}

/* Tries a first start in a folder that lost its manifest and perhaps another file. Then starts the store with another
 * node number or range, and with the files that a kill leaves: a checkpoint and a log file that were to be removed, and
 * an empty log file. */
static void try_others(struct small *small)
{
    struct store store = {.folder = small->folder, .node = NODE, .limit = LIMIT};
    struct store other_node = {.folder = small->folder, .node = NODE + 1, .limit = LIMIT};
    struct store other_range = {.folder = small->folder, .node = NODE, .bits = 1, .number = 1, .limit = LIMIT};
    for (size_t n = 0; n < small->files; n++) {
        restore(small, n, NULL, 0);
        remove_file(small->folder, "manifest");
        if (store_make(&store, 2) == NULL)
            stop("a folder without a manifest begins anew");
    }
    restore(small, small->files, NULL, 0);
    if (store_start(&other_node, NULL) == NULL || store_start(&other_range, NULL) == NULL)
        stop("another node or range starts in the folder");
    write_plain(small->folder, "log.1", NULL, 0);
    write_plain(small->folder, "log.4", NULL, 0);
    write_plain(small->folder, "checkpoint.1.new", NULL, 0);
    if (store_start(&store, NULL) != NULL)
        stop("what a kill leaves over is damage");
    store_close(&store);
    if (last_file(small->folder, "log") != 3 || open_file(small->folder, "log.1", O_RDONLY) >= 0
        || open_file(small->folder, "checkpoint.1.new", O_RDONLY) >= 0)
        stop("what a kill leaves over remains");
    printf("first starts without the manifest, and starts of another node or range: refused\n");
}

/* Kills a first start before it writes the manifest, and starts again. */
static void try_first_start(const char *folder)
{
    struct store store = {.folder = folder, .node = NODE, .limit = LIMIT};
    for (int n = 0; n < 2; n++) {
        if (store_make(&store, 1) != NULL)
            stop("a first start that was killed can't be made again");
        store_close(&store);
        remove_file(folder, "manifest");
    }
}

/* Starts the small store with an older synced place. The start notes the place before anything goes out, so a bit of
 * the last record that flips afterwards is damage. */
static void try_noted(struct small *small)
{
    struct store store = {.folder = small->folder, .node = NODE, .limit = LIMIT};
    struct bytes *last = &small->file[LOG_3].bytes;
    restore(small, small->files, NULL, 0);
    if (store_start(&store, NULL) != NULL)
        stop("an older synced place is damage");
    store_close(&store);
    last->at[last->len - 1] ^= 1;
    write_plain(small->folder, "log.3", last->at, last->len);
    last->at[last->len - 1] ^= 1;
    if (store_start(&store, NULL) == NULL)
        stop("a start doesn't note the synced place");
}

/* Starts the small store after each kill and each fault. */
static void try_faults(const char *folder)
{
    struct small small = {.folder = folder};
    struct states states = {0};
    try_first_start(folder);
    make_small(&small, &states);
    printf("%-36s %6s %12s %9s %14s %13s %9s\n", "", "faults", "alone: whole", "refused", "loses its end",
           "synced: whole", "refused");
    try_kills(&small, &states);
    try_last(&small, &states, 0);
    try_file(&small, LOG_2, 1);
    try_file(&small, MANIFEST, 1);
    try_file(&small, SYNCED, 1);
    try_file(&small, CHECKPOINT, CHECKPOINT_STEP);
    try_missing(&small, &states);
    try_others(&small);

    printf("after a crash of the machine, with an older synced place:\n");
    memcpy(small.file[SYNCED].bytes.at, states.old_synced.at, states.old_synced.len);
    try_kills(&small, &states);
    try_noted(&small);
    try_last(&small, &states, 1);
    try_missing(&small, &states);

    antientropy_snapshot_free(&small.rows);
    for (size_t n = 0; n < small.files; n++)
        free(small.file[n].bytes.at);
    free(states.old_manifest.at);
    free(states.old_synced.at);
    free(states.no_rows.at);
    free(states.first.at);
    free(states.longer.at);
}

int main(int argc, char **argv)
{
    if (argc != 2) {
        printf("log_faults FOLDER\n");
        return 2;
    }
    try_faults(argv[1]);
    return 0;
}
