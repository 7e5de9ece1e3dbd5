/* Versions of keys: puts, copies, reads, also of a snapshot's rows, and the journal. */
#include <string.h>

#include "handles.h"
#include "terms.h"

/* Versions that are read in far less than a millisecond, even with the longest values. */
enum { FEW_VERSIONS = 4 };

/* Size of the buffer for entries that don't fit in FEW_BYTES. */
enum { ENTRIES_BYTES = 1 << 20 };

/* Returns {ok, Receipt} or a refusal. */
static ERL_NIF_TERM receipt_result(ErlNifEnv *env, uint32_t number, const struct antientropy_receipt *receipt)
{
    if (number != ANTIENTROPY_OK)
        return refused(env, number);
    const ERL_NIF_TERM keys[] = {atoms.number, atoms.counter};
    const ERL_NIF_TERM values[] = {enif_make_uint64(env, receipt->number), enif_make_uint64(env, receipt->counter)};
    return ok(env, make_map(env, 2, keys, values));
}

/* Puts a version: after a read by the put that checks, or by the other one. */
static ERL_NIF_TERM put_by(ErlNifEnv *env, struct resource *at, const ERL_NIF_TERM argv[], bool after_read)
{
    uint64_t node;
    ErlNifBinary key;
    struct value value;
    struct clock context;
    struct antientropy_receipt receipt;
    if (!get_u64(env, argv[1], &node) || !get_key(env, argv[2], &key))
        return WRONG;
    uint32_t number = get_value(env, argv[3], &value);
    if (number == ANTIENTROPY_OK)
        number = get_clock(env, argv[4], &context);
    if (number != ANTIENTROPY_OK)
        return refused(env, number);
    if (after_read)
        number = antientropy_put_read(&at->replica, node, key.data, key.size, context.pairs, context.len, value.kind,
                                      value.bytes.data, value.bytes.size, &receipt);
    else
        number = antientropy_put(&at->replica, node, key.data, key.size, context.pairs, context.len, value.kind,
                                 value.bytes.data, value.bytes.size, &receipt);
    drop_clock(&context);
    return after_change(env, at, receipt_result(env, number, &receipt));
}

/* put(Replica, Node, Key, Value, Context) -> {ok, Receipt} | {renew, Replica, Result} */
CALL(REPLICA, put)
{
    return put_by(env, at, argv, true);
}

/* put_unread(Replica, Node, Key, Value, Context) -> {ok, Receipt} | {renew, Replica, Result} */
CALL(REPLICA, put_unread)
{
    return put_by(env, at, argv, false);
}

/* accept(Replica, Key, Version) -> {ok, new | known} | {renew, Replica, Result} */
CALL(REPLICA, accept)
{
    ErlNifBinary key;
    struct version version;
    uint64_t taken;
    if (!get_key(env, argv[1], &key))
        return WRONG;
    uint32_t number = get_version(env, argv[2], &version);
    if (number != ANTIENTROPY_OK)
        return refused(env, number);
    number = antientropy_accept(&at->replica, key.data, key.size, version.clock.pairs, version.clock.len,
                                version.value.kind, version.value.bytes.data, version.value.bytes.size, &taken);
    drop_clock(&version.clock);
    if (number != ANTIENTROPY_OK)
        return after_change(env, at, refused(env, number));
    return after_change(env, at, ok(env, taken == 1 ? atoms.new : atoms.known));
}

/* Reads one of the versions of a key. `versions` becomes the number of them. */
static uint32_t read_version(ErlNifEnv *env, const struct resource *at, const ErlNifBinary *key, uint64_t index,
                             uint64_t *versions, ERL_NIF_TERM *version)
{
    struct antientropy_reading reading = {0};
    struct antientropy_pair pairs[ANTIENTROPY_CLOCK_MAX];
    struct room room;
    uint32_t number;
    open_room(&room);
    do {
        number = antientropy_read(&at->replica, key->data, key->size, index, &reading, pairs, ANTIENTROPY_CLOCK_MAX,
                                  room.at, room.len);
        room.need = reading.bytes;
    } while (grows(&room, &number));
    if (number != ANTIENTROPY_OK) {
        drop_room(&room);
        return number;
    }
    *versions = reading.versions;
    *version = make_version(env, make_clock(env, pairs, reading.pairs), room_value(env, &room, reading.kind));
    return ANTIENTROPY_OK;
}

/* get(Replica, Key) -> {ok, [Version]} */
READ(REPLICA, get)
{
    ErlNifBinary key;
    ERL_NIF_TERM versions[ANTIENTROPY_VERSIONS_MAX];
    uint64_t count = 0, len = 0;
    if (!get_key(env, argv[1], &key))
        return WRONG;
    do {
        uint32_t number = read_version(env, at, &key, len, &count, &versions[len]);
        if (number == ANTIENTROPY_NO_VERSION)
            break;
        if (number != ANTIENTROPY_OK)
            return refused(env, number);
        if (count > FEW_VERSIONS && on_normal_scheduler())
            return ELSEWHERE;
        len++;
    } while (len < count && len < ANTIENTROPY_VERSIONS_MAX);
    return ok(env, enif_make_list_from_array(env, versions, (unsigned)len));
}

/* read(Replica, Key, Index) -> {ok, Version} */
READ(REPLICA, read)
{
    ErlNifBinary key;
    uint64_t index, versions;
    ERL_NIF_TERM version;
    if (!get_key(env, argv[1], &key) || !get_u64(env, argv[2], &index))
        return WRONG;
    uint32_t number = read_version(env, at, &key, index, &versions, &version);
    return number == ANTIENTROPY_OK ? ok(env, version) : refused(env, number);
}

/* count_versions(Replica, Key) -> {ok, Count} */
READ(REPLICA, count_versions)
{
    ErlNifBinary key;
    uint64_t count;
    if (!get_key(env, argv[1], &key))
        return WRONG;
    uint32_t number = antientropy_versions(&at->replica, key.data, key.size, &count);
    return number == ANTIENTROPY_OK ? ok(env, enif_make_uint64(env, count)) : refused(env, number);
}

/* value(Replica, Key, Index) -> {ok, Value} */
READ(REPLICA, value)
{
    ErlNifBinary key;
    uint64_t index;
    struct room room;
    uint8_t kind;
    uint32_t number;
    if (!get_key(env, argv[1], &key) || !get_u64(env, argv[2], &index))
        return WRONG;
    open_room(&room);
    do
        number = antientropy_value(&at->replica, key.data, key.size, index, &kind, room.at, room.len, &room.need);
    while (grows(&room, &number));
    if (number != ANTIENTROPY_OK)
        return room_result(env, &room, number);
    return ok(env, room_value(env, &room, kind));
}

/* clock(Replica, Key, Index) -> {ok, Clock} */
READ(REPLICA, clock)
{
    ErlNifBinary key;
    uint64_t index, len;
    struct antientropy_pair pairs[ANTIENTROPY_CLOCK_MAX];
    if (!get_key(env, argv[1], &key) || !get_u64(env, argv[2], &index))
        return WRONG;
    uint32_t number =
        antientropy_clock(&at->replica, key.data, key.size, index, pairs, ANTIENTROPY_CLOCK_MAX, &len);
    return number == ANTIENTROPY_OK ? ok(env, make_clock(env, pairs, len)) : refused(env, number);
}

/* Reads the row of a key of a replica or of a snapshot. */
static ERL_NIF_TERM row_by(ErlNifEnv *env, const struct resource *at, const ERL_NIF_TERM argv[], enum kind kind)
{
    ErlNifBinary key;
    struct room room;
    uint32_t number;
    if (!get_key(env, argv[1], &key))
        return WRONG;
    open_room(&room);
    do {
        if (kind == REPLICA)
            number = antientropy_get(&at->replica, key.data, key.size, room.at, room.len, &room.need);
        else
            number = antientropy_snapshot_get(&at->snapshot, key.data, key.size, room.at, room.len, &room.need);
        if (number == ANTIENTROPY_SMALL && on_normal_scheduler())
            return ELSEWHERE;
    } while (grows(&room, &number));
    return room_result(env, &room, number);
}

/* row(Replica, Key) -> {ok, Text} */
READ(REPLICA, row)
{
    return row_by(env, at, argv, REPLICA);
}

/* snapshot_row(Snapshot, Key) -> {ok, Text} */
READ(SNAPSHOT, snapshot_row)
{
    return row_by(env, at, argv, SNAPSHOT);
}

/* key_after(Replica, Leaf, Key) -> {ok, Key} */
READ(REPLICA, key_after)
{
    uint64_t leaf, len;
    ErlNifBinary key;
    uint8_t next[ANTIENTROPY_KEY_MAX];
    if (!get_u64(env, argv[1], &leaf) || !get_key(env, argv[2], &key))
        return WRONG;
    uint32_t number = antientropy_key_after(&at->replica, leaf, key.data, key.size, next, sizeof next, &len);
    return number == ANTIENTROPY_OK ? ok(env, make_bytes(env, next, len)) : refused(env, number);
}

/* snapshot_key_after(Snapshot, Leaf, Key) -> {ok, Key} */
READ(SNAPSHOT, snapshot_key_after)
{
    uint64_t leaf, len;
    ErlNifBinary key;
    uint8_t next[ANTIENTROPY_KEY_MAX + 1]; /* of a key that is too long get_key leaves one byte too many */
    if (!get_u64(env, argv[1], &leaf) || !get_key(env, argv[2], &key))
        return WRONG;
    memcpy(next, key.data, key.size);
    len = key.size;
    uint32_t number = antientropy_snapshot_key_next(&at->snapshot, leaf, next, ANTIENTROPY_KEY_MAX, &len);
    return number == ANTIENTROPY_OK ? ok(env, make_bytes(env, next, len)) : refused(env, number);
}

static ERL_NIF_TERM source_atom(ErlNifEnv *env, uint64_t source)
{
    const ERL_NIF_TERM sources[] = {
        [ANTIENTROPY_PUT] = atoms.put,
        [ANTIENTROPY_COPY] = atoms.copy,
        [ANTIENTROPY_HINT] = atoms.hint,
        [ANTIENTROPY_PARTNER] = atoms.partner,
    };
    return one_of(env, sizeof sources / sizeof *sources, sources, source);
}

/* entry(Replica, Number) -> {ok, Entry} */
READ(REPLICA, entry)
{
    uint64_t entry, key_len, clock_len, source;
    uint8_t key[ANTIENTROPY_KEY_MAX], kind;
    struct antientropy_pair pairs[ANTIENTROPY_CLOCK_MAX];
    struct room room;
    if (!get_u64(env, argv[1], &entry))
        return WRONG;
    uint32_t number = antientropy_entry_key(&at->replica, entry, key, sizeof key, &key_len);
    if (number == ANTIENTROPY_OK)
        number = antientropy_entry_clock(&at->replica, entry, pairs, ANTIENTROPY_CLOCK_MAX, &clock_len);
    if (number == ANTIENTROPY_OK)
        number = antientropy_entry_source(&at->replica, entry, &source);
    if (number != ANTIENTROPY_OK)
        return refused(env, number);
    open_room(&room);
    do
        number = antientropy_entry_value(&at->replica, entry, &kind, room.at, room.len, &room.need);
    while (grows(&room, &number));
    if (number != ANTIENTROPY_OK)
        return room_result(env, &room, number);
    const ERL_NIF_TERM keys[] = {atoms.number, atoms.key, atoms.clock, atoms.value, atoms.source};
    const ERL_NIF_TERM values[] = {enif_make_uint64(env, entry), make_bytes(env, key, key_len),
                                   make_clock(env, pairs, clock_len), room_value(env, &room, kind),
                                   source_atom(env, source)};
    return ok(env, make_map(env, 5, keys, values));
}

/* Returns entries from a number on: all if they fit in FEW_BYTES, and otherwise up to ENTRIES_BYTES.
 * packed_entries(Replica, From) -> {ok, Packed} */
READ(REPLICA, packed_entries)
{
    uint64_t from, next;
    struct antientropy_about about;
    struct room room;
    if (!get_u64(env, argv[1], &from))
        return WRONG;
    uint32_t number = antientropy_about(&at->replica, &about);
    if (number != ANTIENTROPY_OK)
        return refused(env, number);
    open_room(&room);
    do {
        number = antientropy_entries(&at->replica, from, room.at, room.len, &room.need, &next);
        if (number == ANTIENTROPY_OK && next < about.entries && room.at == room.few)
            number = ANTIENTROPY_SMALL;
        if (number == ANTIENTROPY_SMALL && on_normal_scheduler())
            return ELSEWHERE;
        if (number == ANTIENTROPY_SMALL && room.need < ENTRIES_BYTES)
            room.need = ENTRIES_BYTES;
    } while (grows(&room, &number));
    trim_room(&room, &number);
    if (number != ANTIENTROPY_OK)
        return room_result(env, &room, number);
    const ERL_NIF_TERM keys[] = {atoms.format, atoms.from, atoms.next, atoms.bytes};
    const ERL_NIF_TERM values[] = {enif_make_uint64(env, about.format), enif_make_uint64(env, from),
                                   enif_make_uint64(env, next), room_bytes(env, &room)};
    return ok(env, make_map(env, 4, keys, values));
}

/* top_counter(Replica, Node, Key, Entries) -> {ok, Counter} */
READ(REPLICA, top_counter)
{
    uint64_t node, entries, counter;
    ErlNifBinary key;
    if (!get_u64(env, argv[1], &node) || !get_key(env, argv[2], &key) || !get_u64(env, argv[3], &entries))
        return WRONG;
    uint32_t number = antientropy_top_counter(&at->replica, node, key.data, key.size, entries, &counter);
    return number == ANTIENTROPY_OK ? ok(env, enif_make_uint64(env, counter)) : refused(env, number);
}
