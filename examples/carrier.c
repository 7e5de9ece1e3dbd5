/* Hints for a node that is down, delivered when it is up again; and slots, which admit background work while the
 * foreground is fast.
 *
 *     carrier FOLDER
 *
 * The hints are the second copies of their versions, so a log in FOLDER keeps them. The carrier is killed, and keeps
 * its pending hints again. Then each bit of the log's files flips, one at a time. That takes 1,700 starts, so a folder
 * in memory is faster. The program prints what happens, and ends with status 1 if a call returns another number than
 * the one wanted. Build it with disk.c.
 *
 * The log is the file hints.N. Each start and each renewal begins the next one, with the pending hints, in one step.
 * Its places, and the numbers that a start gives to hints, begin at N * 2^40, so no number names two hints, even if a
 * log is damaged. */
#define _POSIX_C_SOURCE 200809L
#include "antientropy.h"
#include "disk.h"

#include <fcntl.h>
#include <stdio.h>
#include <stdlib.h>
#include <string.h>
#include <unistd.h>

enum { OWNER = 2, FLOOR = 1, CEILING = 4, THRESHOLD = 10000, BASE = 40 };

/* The kinds of records. */
enum { KEPT = 1, CONFIRMED = 2 };

/* A store of hints, with its log. */
struct carrier {
    const char *folder;
    struct antientropy_hints hints;
    uint64_t number; /* of the log */
    uint64_t place;  /* of its next record */
    int log;         /* its file */
    int synced;      /* the file of the synced place */
};

/* The version of a hint. */
struct version {
    uint8_t kind, key[ANTIENTROPY_KEY_MAX], value[256];
    uint64_t key_len, len, pairs;
    struct antientropy_pair clock[ANTIENTROPY_CLOCK_MAX];
};

static void show_hint(uint64_t id, const char *what)
{
    printf("hint %llu.%llu: %s\n", (unsigned long long)(id >> BASE),
           (unsigned long long)(id & (((uint64_t)1 << BASE) - 1)), what);
}

/* ---- the log */

static struct version version_of(struct antientropy_hints *hints, uint64_t id)
{
    struct version of;
    want("key", antientropy_hint_key(hints, id, of.key, sizeof of.key, &of.key_len), ANTIENTROPY_OK);
    want("clock", antientropy_hint_clock(hints, id, of.clock, ANTIENTROPY_CLOCK_MAX, &of.pairs), ANTIENTROPY_OK);
    want("value", antientropy_hint_value(hints, id, &of.kind, of.value, sizeof of.value, &of.len), ANTIENTROPY_OK);
    return of;
}

/* Appends the record of a kept hint: its number, kind, clock, key and value. All hints here are for one owner. */
static void add_kept(struct carrier *carrier, struct bytes *log, uint64_t id)
{
    struct version version = version_of(&carrier->hints, id);
    size_t begin = begin_record(log, carrier->place++, KEPT);
    add_number(log, id, 8);
    add_number(log, version.kind, 1);
    add_number(log, version.pairs, 1);
    for (uint64_t n = 0; n < version.pairs; n++) {
        add_number(log, version.clock[n].node, 8);
        add_number(log, version.clock[n].counter, 8);
    }
    add_number(log, version.key_len, 2);
    memcpy(more(log, version.key_len), version.key, version.key_len);
    log->len += version.key_len;
    memcpy(more(log, version.len), version.value, version.len);
    log->len += version.len;
    end_record(log, begin);
}

/* Returns the version in the record of a kept hint. */
static struct version logged_version(const uint8_t *record)
{
    const uint8_t *at = record + RECORD_BYTES_AT, *end = at + number_at(record + RECORD_LEN_AT, 4);
    struct version version = {.kind = at[8], .pairs = at[9]};
    at += 10;
    for (uint64_t n = 0; n < version.pairs; n++, at += 16)
        version.clock[n] = (struct antientropy_pair){number_at(at, 8), number_at(at + 8, 8)};
    version.key_len = number_at(at, 2);
    memcpy(version.key, at + 2, version.key_len);
    at += 2 + version.key_len;
    version.len = (uint64_t)(end - at);
    memcpy(version.value, at, version.len);
    return version;
}

/* Writes a record at the end of the log. Its contents may not go out before. */
static void log_record(struct carrier *carrier, struct bytes *record)
{
    append_record(carrier->log, record);
    note_synced(carrier->synced, carrier->place);
    free(record->at);
}

/* Begins the next log, with the pending hints, and removes the old one. */
static void begin_log(struct carrier *carrier)
{
    struct bytes file = {0};
    uint64_t id = 0;
    const struct name name = name_of("hints", ++carrier->number);
    carrier->place = carrier->number << BASE;
    while (antientropy_hint_next(&carrier->hints, OWNER, id, &id) == ANTIENTROPY_OK)
        add_kept(carrier, &file, id);
    write_file(carrier->folder, name.text, &file);
    free(file.at);
    if (carrier->log >= 0)
        close(carrier->log);
    carrier->log = open_file(carrier->folder, name.text, O_WRONLY | O_APPEND);
    note_synced(carrier->synced, carrier->place);
    sync_file(carrier->synced);
    remove_before(carrier->folder, "hints", carrier->number);
}

/* ---- the start */

/* Returns true if a log has the confirmation of a hint. */
static bool is_confirmed(const uint8_t *log, size_t len, uint64_t id)
{
    for (size_t at = 0; at < len; at += record_len(log + at, len - at))
        if (log[at + RECORD_KIND_AT] == CONFIRMED && number_at(log + at + RECORD_BYTES_AT, 8) == id)
            return true;
    return false;
}

static uint64_t keep_version(struct antientropy_hints *hints, const struct version *of)
{
    uint64_t id;
    want("keep", antientropy_hint_keep(hints, OWNER, of->key, of->key_len, of->clock, of->pairs, of->kind, of->value,
                                       of->len, &id), ANTIENTROPY_OK);
    return id;
}

/* Keeps the unconfirmed hints of an old log again, under new numbers. */
static void keep_again(struct antientropy_hints *hints, const uint8_t *log, size_t len)
{
    for (size_t at = 0; at < len; at += record_len(log + at, len - at)) {
        if (log[at + RECORD_KIND_AT] == KEPT && !is_confirmed(log, len, number_at(log + at + RECORD_BYTES_AT, 8))) {
            struct version version = logged_version(log + at);
            keep_version(hints, &version);
        }
    }
}

/* Starts the carrier with the log's unconfirmed hints. A first start has no log, and no synced place above 0. Returns
 * false if the log is damaged: hints after the damage are lost, and their owners get the versions only by a sync. */
static bool start(struct carrier *carrier)
{
    struct bytes log = {0};
    uint64_t synced = 0;
    size_t at = 0;
    carrier->log = -1;
    carrier->synced = open_file(carrier->folder, "hints.synced", O_RDWR | O_CREAT);
    carrier->number = last_file(carrier->folder, "hints");
    carrier->place = carrier->number << BASE;
    bool found = read_file(carrier->folder, name_of("hints", carrier->number).text, &log);
    bool noted = read_synced(carrier->synced, &synced);
    for (size_t len; found && (len = record_len(log.at + at, log.len - at)) > 0; at += len, carrier->place++)
        if (number_at(log.at + at, 8) != carrier->place)
            break;
    bool whole = found && noted && carrier->place >= synced
        && !has_later(log.at + at, log.len - at, carrier->place);
    bool first = !found && synced == 0 && (noted || lseek(carrier->synced, 0, SEEK_END) == 0);
    if (first) {
        note_synced(carrier->synced, 0);
        sync_file(carrier->synced);
    }
    if (carrier->number < synced >> BASE)
        carrier->number = synced >> BASE;
    want("restore", antientropy_hints_restore(&carrier->hints, ((carrier->number + 1) << BASE) + 1), ANTIENTROPY_OK);
    keep_again(&carrier->hints, log.at, at);
    begin_log(carrier);
    free(log.at);
    return whole || first;
}

static void end(struct carrier *carrier)
{
    antientropy_hints_free(&carrier->hints);
    close(carrier->log);
    close(carrier->synced);
}

/* ---- hints */

/* Puts a value at node 1, and keeps it as a hint for the owner, which is down. Afterwards the put may be
 * acknowledged. */
static uint64_t put(struct antientropy_replica *replica, struct carrier *carrier, const char *key, const char *value)
{
    struct version version = {.kind = ANTIENTROPY_LIVE, .key_len = strlen(key), .len = strlen(value), .pairs = 1};
    struct antientropy_receipt receipt;
    struct bytes record = {0};
    memcpy(version.key, key, version.key_len);
    memcpy(version.value, value, version.len);
    want("put", antientropy_put_read(replica, 1, version.key, version.key_len, version.clock, 0, version.kind,
                                     version.value, version.len, &receipt), ANTIENTROPY_OK);
    version.clock[0] = (struct antientropy_pair){1, receipt.counter};
    uint64_t id = keep_version(&carrier->hints, &version);
    add_kept(carrier, &record, id);
    log_record(carrier, &record);
    show_hint(id, key);
    return id;
}

/* Confirms a hint after the owner has its version on disk, and logs the confirmation. A hint whose confirmation isn't
 * in the log is sent once more, and the owner knows it. */
static void confirm(struct carrier *carrier, uint64_t id, bool known)
{
    struct bytes record = {0};
    want("confirm", antientropy_hint_confirm(&carrier->hints, id, known), ANTIENTROPY_OK);
    size_t begin = begin_record(&record, carrier->place++, CONFIRMED);
    add_number(&record, id, 8);
    end_record(&record, begin);
    log_record(carrier, &record);
    show_hint(id, known ? "known" : "taken");
}

/* Sends a hint to its owner. Returns true if the owner knew the version. */
static bool send(struct antientropy_hints *hints, uint64_t id, struct antientropy_replica *owner)
{
    struct version of = version_of(hints, id);
    uint64_t taken;
    want("accept", antientropy_accept(owner, of.key, of.key_len, of.clock, of.pairs, of.kind, of.value, of.len, &taken),
         ANTIENTROPY_OK);
    return !taken;
}

/* Delivers all pending hints of the owner to it. */
static void deliver(struct carrier *carrier, struct antientropy_replica *owner)
{
    uint64_t id = 0;
    while (antientropy_hint_next(&carrier->hints, OWNER, id, &id) == ANTIENTROPY_OK)
        confirm(carrier, id, send(&carrier->hints, id, owner));
}

static void show(const char *what, struct antientropy_hints *hints)
{
    struct antientropy_hint_counts counts;
    want("count", antientropy_hints_count(hints, &counts), ANTIENTROPY_OK);
    printf("%s: %llu pending, %llu delivered\n", what, (unsigned long long)counts.pending,
           (unsigned long long)counts.delivered);
}

/* Starts the carrier again, with a log that is whole or damaged. */
static void restart(struct carrier *carrier, bool whole)
{
    end(carrier);
    want("a restart", start(carrier), whole);
}

/* Starts the carrier with other bytes in the first of two files of its log, or without that file, and with the
 * second. */
static void try_start(struct carrier *carrier, const char *name, const struct bytes *file, const char *other_name,
                      const struct bytes *other, bool whole)
{
    remove_before(carrier->folder, "hints", UINT64_MAX);
    remove_file(carrier->folder, name);
    if (file != NULL)
        write_file(carrier->folder, name, file);
    write_file(carrier->folder, other_name, other);
    restart(carrier, whole);
}

/* Flips each bit of a file of the log, cuts it at each byte, and removes it, one at a time. Each start must detect the
 * damage, and its numbers must be above the used ones. Afterwards both files are unchanged. */
static void damage(struct carrier *carrier, const char *name, const char *other_name)
{
    struct bytes file = {0}, other = {0};
    uint64_t last = 0;
    while (antientropy_hint_next(&carrier->hints, OWNER, last, &last) == ANTIENTROPY_OK)
        continue;
    if (!read_file(carrier->folder, name, &file) || !read_file(carrier->folder, other_name, &other))
        fail(name);
    const size_t len = file.len;
    for (size_t n = 0; n <= 9 * len; n++) {
        const uint8_t mask = (uint8_t)(n < 8 * len ? 1 << n % 8 : 0);
        file.len = n < 8 * len ? len : n - 8 * len;
        file.at[n / 8 % len] ^= mask;
        try_start(carrier, name, n < 9 * len ? &file : NULL, other_name, &other, false);
        file.at[n / 8 % len] ^= mask;
        want("a later log", carrier->number > last >> BASE, 1);
    }
    printf("%s: %zu faults, all seen\n", name, 9 * len + 1);
    file.len = len;
    try_start(carrier, name, &file, other_name, &other, true);
    free(file.at);
    free(other.at);
}

/* Lends slots for as many syncs as possible, and returns their number. */
static unsigned lend_all(struct antientropy_slots *slots)
{
    unsigned lent = 0;
    while (antientropy_slot_lend(slots) == ANTIENTROPY_OK)
        lent++;
    return lent;
}

/* Samples a latency at a moment, and adjusts the target by it. */
static void adjust(struct antientropy_slots *slots, uint64_t moment, uint32_t micros)
{
    struct antientropy_percentile p99;
    struct antientropy_slot_counts counts;
    want("sample", antientropy_slots_sample(slots, moment, micros), ANTIENTROPY_OK);
    want("adjust", antientropy_slots_adjust(slots, moment, &p99), ANTIENTROPY_OK);
    want("count", antientropy_slots_count(slots, &counts), ANTIENTROPY_OK);
    printf("p99 of %llu microseconds: target %llu, %llu lent, %llu free\n", (unsigned long long)p99.micros,
           (unsigned long long)counts.target, (unsigned long long)counts.lent, (unsigned long long)counts.free);
}

/* Carries hints through restarts, and delivers them. */
static void carry(struct carrier *carrier)
{
    struct antientropy_replica here = {0}, owner = {0};
    want("new", antientropy_new(&here, 2, 0, 0, 1000), ANTIENTROPY_OK);
    want("new", antientropy_new(&owner, 2, 0, 0, 1000), ANTIENTROPY_OK);
    want("a first start", start(carrier), 1);
    uint64_t cart = put(&here, carrier, "cart", "milk");
    uint64_t order = put(&here, carrier, "order", "paid");
    put(&here, carrier, "list", "nuts");
    show("node 2 is down", &carrier->hints);
    confirm(carrier, cart, send(&carrier->hints, cart, &owner));
    send(&carrier->hints, order, &owner);

    /* The owner has taken the order, but its response arrives after a kill. By then the number names no other hint. */
    if (write(carrier->log, "\0\0\1\0", 4) != 4)
        fail("write");
    restart(carrier, true);
    show("killed in a record, and restarted", &carrier->hints);
    want("a late confirm", antientropy_hint_confirm(&carrier->hints, order, false), ANTIENTROPY_UNKNOWN_HINT);
    show_hint(order, "a late confirm, UnknownHint");

    put(&here, carrier, "tea", "green");
    damage(carrier, "hints.2", "hints.synced");
    damage(carrier, "hints.synced", "hints.3");
    show("restarted", &carrier->hints);
    deliver(carrier, &owner);
    show("node 2 is back", &carrier->hints);
    want("renew", antientropy_hints_renew(&carrier->hints), ANTIENTROPY_OK);
    begin_log(carrier);
    show("renewed", &carrier->hints);
    end(carrier);
    antientropy_free(&here);
    antientropy_free(&owner);
}

/* Lends slots, and adjusts their number by the latency. */
static void admit(void)
{
    struct antientropy_slots slots = {0};
    want("slots_new", antientropy_slots_new(&slots, FLOOR, CEILING, THRESHOLD), ANTIENTROPY_OK);
    printf("%u slots are lent\n", lend_all(&slots));
    adjust(&slots, 1000, 50000);
    want("give_back", antientropy_slot_give_back(&slots), ANTIENTROPY_OK);
    want("give_back", antientropy_slot_give_back(&slots), ANTIENTROPY_OK);
    want("give_back", antientropy_slot_give_back(&slots), ANTIENTROPY_OK);
    printf("%u slot is lent\n", lend_all(&slots));
    adjust(&slots, 70000, 100);
    antientropy_slots_free(&slots);
}

int main(int argc, char **argv)
{
    struct carrier carrier = {0};
    if (argc != 2) {
        printf("carrier FOLDER\n");
        return 2;
    }
    carrier.folder = argv[1];
    carry(&carrier);
    admit();
    return 0;
}
