/* A replica with a log on disk: log_store.h describes its files. */
#define _XOPEN_SOURCE 700
#include "log_store.h"

#include <fcntl.h>
#include <stdio.h>
#include <stdlib.h>
#include <string.h>
#include <unistd.h>

/* The numbers of the partner, and of its offer. */
enum { PARTNER = 2, OFFER = 1 };

/* A manifest is its magic, eight numbers of 8 bytes, the root, and a checksum. */
enum { NUMBERS_AT = 8, NUMBERS = 8, ROOT_AT = 72, MANIFEST_SUM_AT = 104, MANIFEST_LEN = 112 };

static const uint8_t MAGIC[8] = {'a', 'n', 't', 'i', 'l', 'o', 'g', 1};

/* A key of an entry. */
struct key {
    uint64_t len;
    uint8_t bytes[ANTIENTROPY_KEY_MAX];
};

/* ---- the manifest */

static void write_manifest(const struct store *store)
{
    const struct manifest *manifest = &store->manifest;
    const uint64_t numbers[NUMBERS] = {store->node,     store->bits,           store->number,  manifest->format,
                                       manifest->first, manifest->first_place, manifest->last, manifest->given_up};
    struct bytes file = {0};
    memcpy(more(&file, MANIFEST_LEN), MAGIC, sizeof MAGIC);
    file.len = sizeof MAGIC;
    for (size_t n = 0; n < NUMBERS; n++)
        add_number(&file, numbers[n], 8);
    memcpy(file.at + ROOT_AT, manifest->root, sizeof manifest->root);
    file.len = MANIFEST_SUM_AT;
    add_number(&file, checksum(file.at, MANIFEST_SUM_AT), SUM_LEN);
    write_file(store->folder, "manifest", &file);
    free(file.at);
}

/* Reads the manifest. Returns the reason why the folder can't be this store's, or NULL. If the manifest is damaged, its
 * format is 0. */
static const char *read_manifest(struct store *store)
{
    struct manifest *manifest = &store->manifest;
    struct bytes file = {0};
    uint64_t numbers[NUMBERS];
    const char *wrong = NULL;
    if (!read_file(store->folder, "manifest", &file)) {
        wrong = "there is no manifest";
    } else if (file.len == MANIFEST_LEN && memcmp(file.at, MAGIC, sizeof MAGIC) == 0
               && checksum(file.at, MANIFEST_SUM_AT) == number_at(file.at + MANIFEST_SUM_AT, SUM_LEN)) {
        for (size_t n = 0; n < NUMBERS; n++)
            numbers[n] = number_at(file.at + NUMBERS_AT + 8 * n, 8);
        *manifest = (struct manifest){.format = numbers[3], .first = numbers[4], .first_place = numbers[5],
                                      .last = numbers[6], .given_up = numbers[7]};
        memcpy(manifest->root, file.at + ROOT_AT, sizeof manifest->root);
        if (numbers[0] != store->node || numbers[1] != store->bits || numbers[2] != store->number)
            wrong = "the folder is of another node, or of another range";
        else if (manifest->given_up != 0)
            wrong = "it was given up";
    }
    free(file.at);
    return wrong;
}

/* ---- records */

static int compare_keys(const void *first, const void *second)
{
    const struct key *a = first, *b = second;
    int order = memcmp(a->bytes, b->bytes, a->len < b->len ? a->len : b->len);
    return order != 0 ? order : (a->len > b->len) - (a->len < b->len);
}

/* Returns the keys of the entries that aren't logged, in ascending order. */
static struct key *new_keys(struct store *store, size_t count)
{
    struct key *keys = malloc(count * sizeof *keys);
    if (keys == NULL)
        fail("malloc");
    for (size_t n = 0; n < count; n++)
        want("entry_key", antientropy_entry_key(&store->replica, store->logged + n, keys[n].bytes,
                                                sizeof keys[n].bytes, &keys[n].len), ANTIENTROPY_OK);
    qsort(keys, count, sizeof *keys, compare_keys);
    return keys;
}

/* Appends the row of a key. */
static void add_row(struct bytes *record, const struct antientropy_replica *replica, const struct key *key)
{
    uint64_t len;
    uint8_t *at = more(record, 4096);
    uint32_t got = antientropy_get(replica, key->bytes, key->len, at, record->room - record->len, &len);
    if (got == ANTIENTROPY_SMALL) {
        at = more(record, len);
        got = antientropy_get(replica, key->bytes, key->len, at, len, &len);
    }
    want("get", got, ANTIENTROPY_OK);
    record->len += len;
}

/* Makes the record of the rows of some keys: its kind is their format. A key of several entries has one row. */
static struct bytes make_record(struct store *store, const struct key *keys, size_t count)
{
    struct bytes record = {0};
    size_t begin = begin_record(&record, store->place, (uint8_t)store->manifest.format);
    for (size_t n = 0; n < count; n++)
        if (n == 0 || compare_keys(&keys[n - 1], &keys[n]) != 0)
            add_row(&record, &store->replica, &keys[n]);
    end_record(&record, begin);
    return record;
}

void store_log(struct store *store)
{
    struct antientropy_counts counts;
    want("count", antientropy_count(&store->replica, &counts), ANTIENTROPY_OK);
    size_t count = counts.entries - store->logged;
    if (count == 0)
        return;
    struct key *keys = new_keys(store, count);
    struct bytes record = make_record(store, keys, count);
    append_record(store->file, &record);
    free(record.at);
    free(keys);
    store->place++;
    store->logged = counts.entries;
    note_synced(store->synced, store->place);
}

/* Renews the replica. All its entries are logged, and all entries of the new journal are too: one for each version
 * held. */
static void renew(struct store *store)
{
    struct antientropy_replica old = store->replica;
    struct antientropy_counts counts;
    store->replica = (struct antientropy_replica){0};
    want("renew", antientropy_renew(&old, &store->replica, store->limit), ANTIENTROPY_OK);
    antientropy_free(&old);
    want("count", antientropy_count(&store->replica, &counts), ANTIENTROPY_OK);
    store->logged = counts.entries;
}

/* ---- the start */

/* Opens the file of the synced place, if it is there, and locks it until it is closed: two processes of one number are
 * as bad as counters that go back. */
static void lock(struct store *store, int flags)
{
    store->synced = open_file(store->folder, "synced", flags);
    if (store->synced >= 0 && lockf(store->synced, F_TLOCK, 0) != 0)
        fail("another process has the store");
}

/* Makes an empty log file, and syncs the file of the synced place with it. */
static void make_log(struct store *store)
{
    store->file = open_file(store->folder, name_of("log", store->manifest.last).text, O_RDWR | O_CREAT | O_APPEND);
    if (store->file < 0 || lseek(store->file, 0, SEEK_END) != 0)
        fail("a new log file");
    sync_file(store->file);
    sync_file(store->synced);
    sync_folder(store->folder);
}

static struct range range_of(const struct store *store)
{
    return (struct range){(uint8_t)store->manifest.format, store->bits, store->number};
}

static void new_replica(struct store *store)
{
    want("new", antientropy_new(&store->replica, store->manifest.format, store->bits, store->number, store->limit),
         ANTIENTROPY_OK);
}

/* Returns a description of a folder's contents that a first start would lose, or NULL. A first start that was killed
 * leaves an empty log file, and a synced place that is 0 or wasn't written. */
static const char *is_used(const struct store *store)
{
    int manifest = open_file(store->folder, "manifest", O_RDONLY);
    struct bytes log = {0};
    uint64_t place = 0;
    const char *used = NULL;
    read_file(store->folder, "log.1", &log);
    if (manifest >= 0)
        used = "it has a manifest";
    else if (last_file(store->folder, "checkpoint") > 0 || last_file(store->folder, "log") > 1 || log.len > 0)
        used = "the manifest is missing, but there is a log or a checkpoint";
    else if (lseek(store->synced, 0, SEEK_END) > 0 && (!read_synced(store->synced, &place) || place > 0))
        used = "the manifest is missing, but there is a synced place";
    if (manifest >= 0)
        close(manifest);
    free(log.at);
    return used;
}

const char *store_make(struct store *store, uint64_t format)
{
    store->replica = (struct antientropy_replica){0};
    store->manifest = (struct manifest){.format = format, .first = 1, .last = 1};
    store->place = store->logged = store->torn = 0;
    store->file = -1;
    lock(store, O_RDWR | O_CREAT);
    const char *used = is_used(store);
    if (used != NULL) {
        store_close(store);
        return used;
    }
    note_synced(store->synced, 0);
    make_log(store);
    write_manifest(store);
    new_replica(store);
    return NULL;
}

/* Makes the replica with which the first log file began. */
static const char *load_first(struct store *store)
{
    struct bytes file = {0};
    const char *wrong = NULL;
    if (store->manifest.first == 1) {
        new_replica(store);
        return NULL;
    }
    if (!read_file(store->folder, name_of("checkpoint", store->manifest.first).text, &file))
        return "the checkpoint is missing";
    if (load_checkpoint(&store->replica, range_of(store), store->limit, &file) != NULL
        || memcmp(file.at + CHECKPOINT_ROOT_AT, store->manifest.root, ANTIENTROPY_ROOT_LEN) != 0)
        wrong = "the checkpoint is damaged";
    free(file.at);
    return wrong;
}

/* Loads a whole record. After renewals a log has more versions than a journal may have entries. */
static const char *load_record(struct store *store, const uint8_t *at)
{
    struct antientropy_loaded loaded;
    uint64_t len = number_at(at + RECORD_LEN_AT, 4);
    if (number_at(at, 8) != store->place)
        return "a record is missing";
    uint32_t got = antientropy_load_format(&store->replica, at[RECORD_KIND_AT], at + RECORD_BYTES_AT, len, &loaded);
    if (got == ANTIENTROPY_JOURNAL_FULL) {
        renew(store);
        got = antientropy_load_format(&store->replica, at[RECORD_KIND_AT], at + RECORD_BYTES_AT, len, &loaded);
    }
    if (got == ANTIENTROPY_NO_MEMORY || got == ANTIENTROPY_JOURNAL_FULL)
        want("load_format", got, ANTIENTROPY_OK);
    store->place++;
    return got == ANTIENTROPY_OK ? NULL : "the rows of a record are damaged";
}

/* Cuts off a torn tail, and leaves the last file open. The file is synced, since after a crash of only the process it
 * can have records that aren't on disk. */
static void open_last(struct store *store, const char *name, size_t whole, size_t len)
{
    store->torn = len - whole;
    store->file = open_file(store->folder, name, O_RDWR | O_APPEND);
    if (store->file < 0 || ftruncate(store->file, (off_t)whole) != 0)
        fail(name);
    sync_file(store->file);
}

/* Loads the records of a log file. All records before the place `synced` must exist. */
static const char *load_file(struct store *store, uint64_t number, uint64_t synced)
{
    const bool last = number == store->manifest.last;
    const struct name name = name_of("log", number);
    struct bytes file = {0};
    const char *wrong = NULL;
    size_t at = 0;
    if (!read_file(store->folder, name.text, &file))
        return "a log file is missing";
    for (size_t len = 1; wrong == NULL && len > 0; at += len) {
        len = record_len(file.at + at, file.len - at);
        if (len > 0)
            wrong = load_record(store, file.at + at);
    }
    if (wrong == NULL && at < file.len && has_later(file.at + at + 1, file.len - at - 1, store->place))
        wrong = "a record is damaged, and others were logged after it";
    if (wrong == NULL && last && store->place < synced)
        wrong = "the end of the log is damaged or lost";
    if (wrong == NULL && last)
        open_last(store, name.text, at, file.len);
    free(file.at);
    return wrong;
}

/* Returns true if the file after the last one has records, so that the manifest is older than the log. An empty file is
 * left from a kill, and is removed. */
static bool is_old(const struct store *store)
{
    const struct name name = name_of("log", store->manifest.last + 1);
    struct bytes file = {0};
    read_file(store->folder, name.text, &file);
    bool old = file.len > 0;
    if (!old)
        remove_file(store->folder, name.text);
    free(file.at);
    return old;
}

/* Removes the files before the first log file, from before a checkpoint or from one that a kill has ended. */
static void remove_old(const struct store *store)
{
    remove_before(store->folder, "log", store->manifest.first);
    remove_before(store->folder, "checkpoint", store->manifest.first);
}

/* Makes the folder's replica. */
static const char *load_all(struct store *store)
{
    struct antientropy_counts counts;
    uint64_t synced = 0;
    const char *wrong = NULL;
    if (store->manifest.format == 0)
        wrong = "the manifest is damaged";
    else if (store->synced < 0 || !read_synced(store->synced, &synced))
        wrong = "the synced place is missing or damaged";
    else if (is_old(store))
        wrong = "the manifest is older than the log";
    else
        wrong = load_first(store);
    store->place = store->manifest.first_place;
    for (uint64_t file = store->manifest.first; wrong == NULL && file <= store->manifest.last; file++)
        wrong = load_file(store, file, synced);
    if (wrong != NULL)
        return wrong;
    want("count", antientropy_count(&store->replica, &counts), ANTIENTROPY_OK);
    store->logged = counts.entries;
    note_synced(store->synced, store->place);
    remove_old(store);
    return NULL;
}

/* Returns true if an entry's clock has a greater counter of the node than the logged entries of its key. */
static bool is_lost(struct store *store, uint64_t entry)
{
    struct antientropy_pair clock[ANTIENTROPY_CLOCK_MAX];
    struct key key;
    uint64_t pairs, top;
    want("entry_key", antientropy_entry_key(&store->replica, entry, key.bytes, sizeof key.bytes, &key.len),
         ANTIENTROPY_OK);
    want("entry_clock", antientropy_entry_clock(&store->replica, entry, clock, ANTIENTROPY_CLOCK_MAX, &pairs),
         ANTIENTROPY_OK);
    want("top_counter", antientropy_top_counter(&store->replica, store->node, key.bytes, key.len, store->logged, &top),
         ANTIENTROPY_OK);
    for (uint64_t pair = 0; pair < pairs; pair++)
        if (clock[pair].node == store->node && clock[pair].counter > top)
            return true;
    return false;
}

/* Compares the entries that aren't logged with the logged ones, and logs them. */
static const char *log_synced(struct store *store)
{
    struct antientropy_counts counts;
    want("count", antientropy_count(&store->replica, &counts), ANTIENTROPY_OK);
    for (uint64_t entry = store->logged; entry < counts.entries; entry++)
        if (is_lost(store, entry))
            return "a partner has a version of this node that the log lacks";
    store_log(store);
    return NULL;
}

/* Each call has to succeed here. examples/embed.c has a sync that grows its buffer for long answers and bounds the bad
 * ones. */
void store_sync(struct antientropy_replica *replica, struct antientropy_snapshot *partner)
{
    static uint8_t offer[ANTIENTROPY_OFFER_LEN], ask[ANTIENTROPY_ASK_LEN], answer[1 << 16];
    struct antientropy_snapshot local = {0};
    struct antientropy_taken taken;
    uint64_t len, session, state;
    want("offer", antientropy_offer(partner, OFFER, offer, sizeof offer, &len), ANTIENTROPY_OK);
    snapshot_of(replica, &local);
    antientropy_snapshot_free(&local);
    want("open", antientropy_open_at_moment(replica, PARTNER, offer, len, &session), ANTIENTROPY_OK);
    for (;;) {
        want("ask", antientropy_ask(replica, session, OFFER, ask, sizeof ask, &len), ANTIENTROPY_OK);
        if (len == 0)
            break;
        want("serve", antientropy_serve(partner, OFFER, ask, len, answer, sizeof answer, &len), ANTIENTROPY_OK);
        want("take", antientropy_take(replica, session, OFFER, answer, len, &taken), ANTIENTROPY_OK);
    }
    want("session", antientropy_session(replica, session, &state), ANTIENTROPY_OK);
    want("session state", (uint32_t)state, ANTIENTROPY_FINISHED);
    want("drop_sessions", antientropy_drop_sessions(replica), ANTIENTROPY_OK);
}

/* Loads the log, syncs from the partner, and compares. A renewal before the sync frees capacity in the journal; between
 * the sync and the comparison it would renumber the entries. */
static const char *load_and_sync(struct store *store, struct antientropy_snapshot *partner)
{
    const char *wrong = load_all(store);
    if (wrong != NULL || partner == NULL)
        return wrong;
    renew(store);
    store_sync(&store->replica, partner);
    return log_synced(store);
}

const char *store_start(struct store *store, struct antientropy_snapshot *partner)
{
    store->replica = (struct antientropy_replica){0};
    store->manifest = (struct manifest){0};
    store->file = -1;
    lock(store, O_RDWR);
    const char *wrong = read_manifest(store);
    if (wrong == NULL) {
        wrong = load_and_sync(store, partner);
        /* A later start, for example without a partner, may not detect the damage. */
        if (wrong != NULL) {
            store->manifest.given_up = 1;
            write_manifest(store);
        }
    }
    if (wrong != NULL)
        store_close(store);
    return wrong;
}

void store_close(struct store *store)
{
    if (store->file >= 0)
        close(store->file);
    if (store->synced >= 0)
        close(store->synced);
    antientropy_free(&store->replica);
}

/* ---- puts, checkpoints, and a migration */

/* Merges the clocks of all versions of a key: the context of a put in their place. Returns the number of pairs. */
static uint64_t context_of(const struct antientropy_replica *replica, const uint8_t *key, size_t key_len,
                           struct antientropy_pair *context)
{
    struct antientropy_pair clock[ANTIENTROPY_CLOCK_MAX], merged[ANTIENTROPY_CLOCK_MAX];
    uint64_t versions, pairs, len = 0;
    want("versions", antientropy_versions(replica, key, key_len, &versions), ANTIENTROPY_OK);
    for (uint64_t n = 0; n < versions; n++) {
        want("clock", antientropy_clock(replica, key, key_len, n, clock, ANTIENTROPY_CLOCK_MAX, &pairs),
             ANTIENTROPY_OK);
        want("merge", antientropy_merge(context, len, clock, pairs, merged, ANTIENTROPY_CLOCK_MAX, &len),
             ANTIENTROPY_OK);
        memcpy(context, merged, len * sizeof *merged);
    }
    return len;
}

uint64_t store_put(struct store *store, const char *key, uint8_t kind, const char *value)
{
    const uint8_t *bytes = (const uint8_t *)key, *of = (const uint8_t *)value;
    struct antientropy_pair context[ANTIENTROPY_CLOCK_MAX];
    struct antientropy_receipt receipt;
    uint64_t pairs = context_of(&store->replica, bytes, strlen(key), context);
    uint32_t got = antientropy_put_read(&store->replica, store->node, bytes, strlen(key), context, pairs, kind, of,
                                        strlen(value), &receipt);
    if (got == ANTIENTROPY_JOURNAL_FULL) {
        renew(store);
        got = antientropy_put_read(&store->replica, store->node, bytes, strlen(key), context, pairs, kind, of,
                                   strlen(value), &receipt);
    }
    want("put_read", got, ANTIENTROPY_OK);
    store_log(store);
    return receipt.counter;
}

void store_migrate(struct store *store)
{
    want("migrate", antientropy_migrate(&store->replica), ANTIENTROPY_OK);
    store->manifest.format = 2;
    write_manifest(store);
}

void store_begin_file(struct store *store)
{
    store_log(store);
    close(store->file);
    store->manifest.last++;
    make_log(store);
    write_manifest(store);
}

void store_checkpoint(struct store *store)
{
    struct antientropy_snapshot snapshot = {0};
    store_begin_file(store);
    uint64_t place = store->place;
    snapshot_of(&store->replica, &snapshot);
    /* From here on others may put: the snapshot has the first rows of the new file. */
    struct bytes file = make_checkpoint(&snapshot, range_of(store));
    antientropy_snapshot_free(&snapshot);
    write_file(store->folder, name_of("checkpoint", store->manifest.last).text, &file);
    memcpy(store->manifest.root, file.at + CHECKPOINT_ROOT_AT, sizeof store->manifest.root);
    free(file.at);
    store->manifest.first = store->manifest.last;
    store->manifest.first_place = place;
    write_manifest(store);
    remove_old(store);
}
