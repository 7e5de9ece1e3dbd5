/* Snapshots of a replica's rows. */
#include "handles.h"
#include "terms.h"

/* snapshot(Replica) -> {ok, Snapshot} */
READ(REPLICA, snapshot)
{
    struct resource *made = make_resource(SNAPSHOT);
    if (made == NULL)
        return refused(env, ANTIENTROPY_NO_MEMORY);
    return handle_result(env, made, antientropy_snapshot(&at->replica, &made->snapshot));
}

/* snapshot_share(Snapshot) -> {ok, Snapshot} */
READ(SNAPSHOT, snapshot_share)
{
    struct resource *made = make_resource(SNAPSHOT);
    if (made == NULL)
        return refused(env, ANTIENTROPY_NO_MEMORY);
    return handle_result(env, made, antientropy_snapshot_share(&at->snapshot, &made->snapshot));
}

/* snapshot_close(Snapshot) -> ok */
CALL(SNAPSHOT, snapshot_close)
{
    antientropy_snapshot_free(&at->snapshot);
    return done(env, ANTIENTROPY_OK);
}

/* Reads the root of a snapshot. */
static uint32_t root_of(const struct resource *at, uint8_t root[static ANTIENTROPY_ROOT_LEN])
{
    uint64_t len;
    return antientropy_root(&at->snapshot, root, ANTIENTROPY_ROOT_LEN, &len);
}

/* snapshot_info(Snapshot) -> {ok, Info} */
READ(SNAPSHOT, snapshot_info)
{
    struct antientropy_about about;
    uint8_t root[ANTIENTROPY_ROOT_LEN];
    uint32_t number = antientropy_snapshot_about(&at->snapshot, &about);
    if (number == ANTIENTROPY_OK)
        number = root_of(at, root);
    if (number != ANTIENTROPY_OK)
        return refused(env, number);
    const ERL_NIF_TERM keys[] = {atoms.format, atoms.bits, atoms.range, atoms.entries, atoms.root};
    const ERL_NIF_TERM values[] = {enif_make_uint64(env, about.format), enif_make_uint64(env, about.bits),
                                   enif_make_uint64(env, about.range), enif_make_uint64(env, about.entries),
                                   make_bytes(env, root, sizeof root)};
    return ok(env, make_map(env, 5, keys, values));
}

/* snapshot_bytes(Snapshot) -> {ok, Bytes} */
READ(SNAPSHOT, snapshot_bytes)
{
    uint64_t bytes;
    uint32_t number = antientropy_snapshot_bytes(&at->snapshot, &bytes);
    return number == ANTIENTROPY_OK ? ok(env, enif_make_uint64(env, bytes)) : refused(env, number);
}

/* root(Snapshot) -> {ok, Root} */
READ(SNAPSHOT, root)
{
    uint8_t root[ANTIENTROPY_ROOT_LEN];
    uint32_t number = root_of(at, root);
    return number == ANTIENTROPY_OK ? ok(env, make_bytes(env, root, sizeof root)) : refused(env, number);
}

/* digest(Snapshot, Depth, Index) -> {ok, Digest} */
READ(SNAPSHOT, digest)
{
    uint64_t depth, index, len;
    uint8_t digest[ANTIENTROPY_ROOT_LEN];
    if (!get_u64(env, argv[1], &depth) || !get_u64(env, argv[2], &index))
        return WRONG;
    uint32_t number = antientropy_digest(&at->snapshot, depth, index, digest, sizeof digest, &len);
    return number == ANTIENTROPY_OK ? ok(env, make_bytes(env, digest, len)) : refused(env, number);
}

/* offer(Snapshot, Number) -> {ok, Offer} */
READ(SNAPSHOT, offer)
{
    uint32_t offer;
    uint8_t message[ANTIENTROPY_OFFER_LEN];
    uint64_t len;
    if (!get_u32(env, argv[1], &offer))
        return WRONG;
    uint32_t number = antientropy_offer(&at->snapshot, offer, message, sizeof message, &len);
    return number == ANTIENTROPY_OK ? ok(env, make_bytes(env, message, len)) : refused(env, number);
}

/* serve(Snapshot, Number, Ask) -> {ok, Answer} */
READ(SNAPSHOT, serve)
{
    uint32_t offer, number;
    ErlNifBinary ask;
    struct room room;
    if (!get_u32(env, argv[1], &offer))
        return WRONG;
    number = get_bytes(env, argv[2], &ask);
    if (number != ANTIENTROPY_OK)
        return refused(env, number);
    open_room(&room);
    do {
        number = antientropy_serve(&at->snapshot, offer, ask.data, ask.size, room.at, room.len, &room.need);
        if (number == ANTIENTROPY_SMALL && on_normal_scheduler())
            return ELSEWHERE;
    } while (grows(&room, &number));
    return room_result(env, &room, number);
}

/* rows(Snapshot, Leaf) -> {ok, Rows} */
READ(SNAPSHOT, rows)
{
    uint64_t leaf;
    struct room room;
    uint32_t number;
    if (!get_u64(env, argv[1], &leaf))
        return WRONG;
    open_room(&room);
    do {
        number = antientropy_rows(&at->snapshot, leaf, room.at, room.len, &room.need);
        if (number == ANTIENTROPY_SMALL && on_normal_scheduler())
            return ELSEWHERE;
    } while (grows(&room, &number));
    return room_result(env, &room, number);
}
