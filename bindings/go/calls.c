#include "calls.h"

struct antientropy_go_receipt antientropy_go_put_read(antientropy_go_handle *replica, uint64_t node,
                                                      const uint8_t *key, size_t key_len,
                                                      const struct antientropy_pair *context, size_t context_len,
                                                      uint8_t kind, const uint8_t *value, size_t value_len)
{
    struct antientropy_go_receipt result = {0};
    result.number = antientropy_put_read((struct antientropy_replica *)replica, node, key, key_len, context,
                                         context_len, kind, value, value_len, &result.receipt);
    return result;
}

struct antientropy_go_receipt antientropy_go_put(antientropy_go_handle *replica, uint64_t node, const uint8_t *key,
                                                 size_t key_len, const struct antientropy_pair *context,
                                                 size_t context_len, uint8_t kind, const uint8_t *value,
                                                 size_t value_len)
{
    struct antientropy_go_receipt result = {0};
    result.number = antientropy_put((struct antientropy_replica *)replica, node, key, key_len, context, context_len,
                                    kind, value, value_len, &result.receipt);
    return result;
}

/* Returns the size of a record in bytes, including the bytes that follow it. */
static uint64_t size_of(const struct antientropy_go_record *record)
{
    return (sizeof *record + record->key_len + record->value_len + 7) / 8 * 8;
}

/* Returns the bytes that follow a record. */
static uint8_t *bytes_of(struct antientropy_go_record *record)
{
    return (uint8_t *)(record + 1);
}

/* Returns the result of a call that needs a number of bytes. */
static uint32_t fit(uint64_t bytes, size_t out_len, uint64_t *need)
{
    *need = bytes;
    return bytes <= out_len ? ANTIENTROPY_OK : ANTIENTROPY_SMALL;
}

uint32_t antientropy_go_read(const antientropy_go_handle *replica, const uint8_t *key, size_t key_len, uint8_t *out,
                             size_t out_len, uint64_t *need)
{
    struct antientropy_go_record spare;
    struct antientropy_reading reading;
    uint64_t used = 0, index = 0;
    for (bool last = false; !last; index++) {
        /* A record that doesn't fit is read for its size. */
        bool fits = used + sizeof spare <= out_len;
        struct antientropy_go_record *record = fits ? (struct antientropy_go_record *)(out + used) : &spare;
        uint8_t *bytes = fits ? bytes_of(record) : out;
        size_t len = fits ? out_len - used - sizeof spare : 0;
        uint32_t got = antientropy_read((const struct antientropy_replica *)replica, key, key_len, index, &reading,
                                        record->clock, ANTIENTROPY_CLOCK_MAX, bytes, len);
        if (got == ANTIENTROPY_NO_VERSION)
            break;
        if (got != ANTIENTROPY_OK && got != ANTIENTROPY_SMALL)
            return got;
        record->number = index;
        record->origin = 0;
        record->kind = reading.kind;
        record->pairs = reading.pairs;
        record->key_len = 0;
        record->value_len = reading.bytes;
        used += size_of(record);
        last = index + 1 == reading.versions;
    }
    return fit(used, out_len, need);
}

uint32_t antientropy_go_entry(const struct antientropy_replica *replica, uint64_t number, uint8_t *out, size_t out_len,
                              uint64_t *need)
{
    struct antientropy_go_record *record = (struct antientropy_go_record *)out;
    uint8_t kind, *bytes = bytes_of(record);
    size_t len = out_len - sizeof *record;
    uint32_t got = antientropy_entry_key(replica, number, bytes, len, &record->key_len);
    if (got != ANTIENTROPY_OK)
        return got;
    got = antientropy_entry_value(replica, number, &kind, bytes + record->key_len, len - record->key_len,
                                  &record->value_len);
    if (got != ANTIENTROPY_OK && got != ANTIENTROPY_SMALL)
        return got;
    got = antientropy_entry_clock(replica, number, record->clock, ANTIENTROPY_CLOCK_MAX, &record->pairs);
    if (got == ANTIENTROPY_OK)
        got = antientropy_entry_source(replica, number, &record->origin);
    if (got != ANTIENTROPY_OK)
        return got;
    record->number = number;
    record->kind = kind;
    return fit(size_of(record), out_len, need);
}

uint32_t antientropy_go_hint(struct antientropy_hints *hints, uint64_t id, uint8_t *out, size_t out_len,
                             uint64_t *need)
{
    struct antientropy_go_record *record = (struct antientropy_go_record *)out;
    uint8_t kind, *bytes = bytes_of(record);
    size_t len = out_len - sizeof *record;
    uint32_t got = antientropy_hint_key(hints, id, bytes, len, &record->key_len);
    if (got != ANTIENTROPY_OK)
        return got;
    got = antientropy_hint_value(hints, id, &kind, bytes + record->key_len, len - record->key_len, &record->value_len);
    if (got != ANTIENTROPY_OK && got != ANTIENTROPY_SMALL)
        return got;
    got = antientropy_hint_clock(hints, id, record->clock, ANTIENTROPY_CLOCK_MAX, &record->pairs);
    if (got == ANTIENTROPY_OK)
        got = antientropy_hint_owner(hints, id, &record->origin);
    if (got != ANTIENTROPY_OK)
        return got;
    record->number = id;
    record->kind = kind;
    return fit(size_of(record), out_len, need);
}

uint32_t antientropy_go_hint_next(struct antientropy_hints *hints, uint64_t owner, uint64_t after, uint8_t *out,
                                  size_t out_len, uint64_t *need)
{
    uint64_t id;
    uint32_t got = antientropy_hint_next(hints, owner, after, &id);
    if (got != ANTIENTROPY_OK)
        return got;
    return antientropy_go_hint(hints, id, out, out_len, need);
}
