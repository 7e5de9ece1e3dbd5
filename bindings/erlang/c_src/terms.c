/* Terms of Erlang, to and from the values of C. */
#include "terms.h"

#include <ctype.h>
#include <string.h>

enum { NUMBERS = 256, ATOM_ROOM = 2 * ANTIENTROPY_NAME_MAX };

/* Pairs of a clock that are read in far less than a millisecond, and lists within lists that are looked into. */
enum { FEW_PAIRS = 1024, NESTED = 256 };

struct atoms atoms;

/* The atoms of the numbers that calls return. */
static ERL_NIF_TERM names[NUMBERS];

/* Makes the atom of a number: `bad_key` of "BadKey". */
static ERL_NIF_TERM make_name(ErlNifEnv *env, uint32_t number)
{
    uint8_t name[ANTIENTROPY_NAME_MAX];
    char atom[ATOM_ROOM];
    uint64_t len;
    size_t end = 0;
    if (antientropy_name(number, name, sizeof name, &len) != ANTIENTROPY_OK || len == 0)
        return atoms.undefined;
    for (uint64_t place = 0; place < len; place++) {
        if (isupper(name[place]) && place > 0)
            atom[end++] = '_';
        atom[end++] = (char)tolower(name[place]);
    }
    return enif_make_atom_len(env, atom, end);
}

void make_atoms(ErlNifEnv *env)
{
#define MAKE_ATOM(field, text) atoms.field = enif_make_atom(env, text);
    ATOMS(MAKE_ATOM)
    for (uint32_t number = 0; number < NUMBERS; number++)
        names[number] = make_name(env, number);
}

/* ---- results */

ERL_NIF_TERM name_of(uint32_t number)
{
    return number < NUMBERS ? names[number] : atoms.undefined;
}

ERL_NIF_TERM one_of(ErlNifEnv *env, size_t len, const ERL_NIF_TERM of[], uint64_t number)
{
    return number < len ? of[number] : enif_make_uint64(env, number);
}

ERL_NIF_TERM ok(ErlNifEnv *env, ERL_NIF_TERM term)
{
    return enif_make_tuple2(env, atoms.ok, term);
}

ERL_NIF_TERM refused(ErlNifEnv *env, uint32_t number)
{
    if (number == BADARG)
        return WRONG;
    if (number == LONG_ARGUMENT)
        return ELSEWHERE;
    return enif_make_tuple2(env, atoms.error, name_of(number));
}

ERL_NIF_TERM done(ErlNifEnv *env, uint32_t number)
{
    return number == ANTIENTROPY_OK ? atoms.ok : refused(env, number);
}

ERL_NIF_TERM make_map(ErlNifEnv *env, size_t len, const ERL_NIF_TERM keys[], const ERL_NIF_TERM values[])
{
    ERL_NIF_TERM map = atoms.undefined;
    enif_make_map_from_arrays(env, (ERL_NIF_TERM *)keys, (ERL_NIF_TERM *)values, len, &map);
    return map;
}

ERL_NIF_TERM make_bytes(ErlNifEnv *env, const uint8_t *bytes, size_t len)
{
    ERL_NIF_TERM term;
    memcpy(enif_make_new_binary(env, len, &term), bytes, len);
    return term;
}

ERL_NIF_TERM make_clock(ErlNifEnv *env, const struct antientropy_pair *pairs, size_t len)
{
    ERL_NIF_TERM nodes[ANTIENTROPY_CLOCK_MAX], counters[ANTIENTROPY_CLOCK_MAX];
    for (size_t place = 0; place < len; place++) {
        nodes[place] = enif_make_uint64(env, pairs[place].node);
        counters[place] = enif_make_uint64(env, pairs[place].counter);
    }
    return make_map(env, len, nodes, counters);
}

ERL_NIF_TERM make_version(ErlNifEnv *env, ERL_NIF_TERM clock, ERL_NIF_TERM value)
{
    return make_map(env, 2, (ERL_NIF_TERM[]){atoms.clock, atoms.value}, (ERL_NIF_TERM[]){clock, value});
}

/* ---- arguments */

bool get_u32(ErlNifEnv *env, ERL_NIF_TERM term, uint32_t *number)
{
    unsigned got;
    if (!enif_get_uint(env, term, &got))
        return false;
    *number = got;
    return true;
}

bool get_u64(ErlNifEnv *env, ERL_NIF_TERM term, uint64_t *number)
{
    ErlNifUInt64 got;
    if (!enif_get_uint64(env, term, &got))
        return false;
    *number = got;
    return true;
}

bool get_bool(ERL_NIF_TERM term, bool *flag)
{
    *flag = enif_is_identical(term, atoms.yes);
    return *flag || enif_is_identical(term, atoms.no);
}

bool get_key(ErlNifEnv *env, ERL_NIF_TERM term, ErlNifBinary *key)
{
    if (!enif_inspect_binary(env, term, key))
        return false;
    if (key->size > ANTIENTROPY_KEY_MAX)
        key->size = ANTIENTROPY_KEY_MAX + 1;
    return true;
}

/* Known facts about the number of bytes of iodata. */
enum size { FITS, TOO_LONG, UNKNOWN };

/* Tells whether iodata has at most `most` bytes. A normal scheduler looks at no more than FEW_BYTES elements of lists.
 * The search ends at a term that isn't iodata with FITS, and enif_inspect_iolist_as_binary fails there too. */
static enum size size_of(ErlNifEnv *env, ERL_NIF_TERM term, size_t most)
{
    ERL_NIF_TERM rests[NESTED], head;
    ErlNifBinary bytes;
    unsigned byte;
    size_t nested = 0, len = 0, steps = on_normal_scheduler() ? FEW_BYTES : SIZE_MAX;
    for (rests[nested++] = term; nested > 0;) {
        ERL_NIF_TERM list = rests[--nested];
        while (enif_get_list_cell(env, list, &head, &list)) {
            if (steps-- == 0)
                return UNKNOWN;
            if (!enif_get_uint(env, head, &byte)) {
                if (nested == NESTED)
                    return UNKNOWN;
                rests[nested++] = list;
                list = head;
            } else if (byte > UINT8_MAX) {
                return FITS;
            } else if (++len > most) {
                return TOO_LONG;
            }
        }
        if (enif_inspect_binary(env, list, &bytes)) {
            if (bytes.size > most - len)
                return TOO_LONG;
            len += bytes.size;
        } else if (!enif_is_empty_list(env, list)) {
            return FITS;
        }
    }
    return FITS;
}

uint32_t get_bytes(ErlNifEnv *env, ERL_NIF_TERM term, ErlNifBinary *bytes)
{
    if (on_normal_scheduler() && size_of(env, term, FEW_BYTES) != FITS)
        return LONG_ARGUMENT;
    return enif_inspect_iolist_as_binary(env, term, bytes) ? ANTIENTROPY_OK : BADARG;
}

uint32_t get_value(ErlNifEnv *env, ERL_NIF_TERM term, struct value *value)
{
    static uint8_t too_long[ANTIENTROPY_VALUE_MAX_2 + 1];
    value->kind = enif_is_identical(term, atoms.tombstone) ? ANTIENTROPY_TOMBSTONE : ANTIENTROPY_LIVE;
    value->bytes.data = too_long;
    value->bytes.size = 0;
    if (value->kind == ANTIENTROPY_TOMBSTONE)
        return ANTIENTROPY_OK;
    enum size size = size_of(env, term, ANTIENTROPY_VALUE_MAX_2);
    if (size == UNKNOWN && on_normal_scheduler())
        return LONG_ARGUMENT;
    if (size != TOO_LONG && !enif_inspect_iolist_as_binary(env, term, &value->bytes))
        return BADARG;
    if (size == TOO_LONG || value->bytes.size > sizeof too_long)
        value->bytes.size = sizeof too_long;
    return ANTIENTROPY_OK;
}

static bool get_pair(ErlNifEnv *env, ERL_NIF_TERM node, ERL_NIF_TERM counter, struct antientropy_pair *pair)
{
    return get_u64(env, node, &pair->node) && get_u64(env, counter, &pair->counter);
}

static bool fill_from_map(ErlNifEnv *env, ERL_NIF_TERM map, struct clock *clock)
{
    ErlNifMapIterator iterator;
    ERL_NIF_TERM node, counter;
    bool fits = enif_map_iterator_create(env, map, &iterator, ERL_NIF_MAP_ITERATOR_FIRST);
    if (!fits)
        return false;
    for (size_t place = 0; fits && place < clock->len; place++) {
        fits = enif_map_iterator_get_pair(env, &iterator, &node, &counter)
            && get_pair(env, node, counter, &clock->pairs[place]);
        enif_map_iterator_next(env, &iterator);
    }
    enif_map_iterator_destroy(env, &iterator);
    return fits;
}

static bool fill_from_list(ErlNifEnv *env, ERL_NIF_TERM list, struct clock *clock)
{
    ERL_NIF_TERM head;
    const ERL_NIF_TERM *pair;
    int arity;
    for (size_t place = 0; place < clock->len; place++) {
        if (!enif_get_list_cell(env, list, &head, &list) || !enif_get_tuple(env, head, &arity, &pair) || arity != 2
            || !get_pair(env, pair[0], pair[1], &clock->pairs[place]))
            return false;
    }
    return true;
}

/* Counts the elements of a list, up to `most`. Returns false if it isn't a list to there. */
static bool count_elements(ErlNifEnv *env, ERL_NIF_TERM list, size_t most, size_t *len)
{
    ERL_NIF_TERM head;
    for (*len = 0; *len < most; ++*len) {
        if (!enif_get_list_cell(env, list, &head, &list))
            return enif_is_empty_list(env, list);
    }
    return true;
}

uint32_t get_clock(ErlNifEnv *env, ERL_NIF_TERM term, struct clock *clock)
{
    size_t most = on_normal_scheduler() ? FEW_PAIRS + 1 : MOST_PAIRS;
    bool is_map = enif_get_map_size(env, term, &clock->len);
    if (!is_map && !count_elements(env, term, most, &clock->len))
        return BADARG;
    if (clock->len > FEW_PAIRS && on_normal_scheduler())
        return LONG_ARGUMENT;
    if (clock->len > MOST_PAIRS)
        clock->len = MOST_PAIRS;
    clock->pairs = clock->few;
    if (clock->len > ANTIENTROPY_CLOCK_MAX) {
        clock->pairs = enif_alloc(clock->len * sizeof *clock->pairs);
        if (clock->pairs == NULL)
            return ANTIENTROPY_NO_MEMORY;
    }
    if (is_map ? fill_from_map(env, term, clock) : fill_from_list(env, term, clock))
        return ANTIENTROPY_OK;
    drop_clock(clock);
    return BADARG;
}

uint32_t get_version(ErlNifEnv *env, ERL_NIF_TERM term, struct version *version)
{
    ERL_NIF_TERM clock, value;
    if (!enif_get_map_value(env, term, atoms.clock, &clock) || !enif_get_map_value(env, term, atoms.value, &value))
        return BADARG;
    uint32_t number = get_value(env, value, &version->value);
    return number == ANTIENTROPY_OK ? get_clock(env, clock, &version->clock) : number;
}

void drop_clock(struct clock *clock)
{
    if (clock->pairs != clock->few)
        enif_free(clock->pairs);
}

/* ---- bytes that calls return */

void open_room(struct room *room)
{
    room->at = room->few;
    room->len = sizeof room->few;
    room->need = 0;
}

bool grows(struct room *room, uint32_t *number)
{
    if (*number != ANTIENTROPY_SMALL)
        return false;
    drop_room(room);
    if (!enif_alloc_binary(room->need, &room->many)) {
        *number = ANTIENTROPY_NO_MEMORY;
        return false;
    }
    room->at = room->many.data;
    room->len = room->many.size;
    return true;
}

void trim_room(struct room *room, uint32_t *number)
{
    if (*number == ANTIENTROPY_OK && room->at != room->few && !enif_realloc_binary(&room->many, room->need))
        *number = ANTIENTROPY_NO_MEMORY;
}

ERL_NIF_TERM room_bytes(ErlNifEnv *env, struct room *room)
{
    if (room->at == room->few)
        return make_bytes(env, room->few, room->need);
    return enif_make_binary(env, &room->many);
}

void drop_room(struct room *room)
{
    if (room->at != room->few)
        enif_release_binary(&room->many);
    room->at = room->few;
}

ERL_NIF_TERM room_result(ErlNifEnv *env, struct room *room, uint32_t number)
{
    if (number == ANTIENTROPY_OK)
        return ok(env, room_bytes(env, room));
    drop_room(room);
    return refused(env, number);
}

ERL_NIF_TERM room_value(ErlNifEnv *env, struct room *room, uint64_t kind)
{
    if (kind == ANTIENTROPY_LIVE)
        return room_bytes(env, room);
    drop_room(room);
    return atoms.tombstone;
}
