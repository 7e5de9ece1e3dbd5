/* Calls that combine several of the library's, so that a method of the package crosses from Go to C once.
 *
 * They are refused as the calls that they make. */
#ifndef ANTIENTROPY_GO_CALLS_H
#define ANTIENTROPY_GO_CALLS_H

#include <antientropy.h>

/* The memory of a handle. Go searches the arguments of a call for pointers to Go's memory, unless they are bytes. */
typedef uint8_t antientropy_go_handle;

/* The result of a put. Go would allocate memory for a receipt that is written through a pointer. */
struct antientropy_go_receipt {
    uint32_t number; /* the number that the put returned */
    struct antientropy_receipt receipt;
};

/* Puts a version by antientropy_put_read. */
struct antientropy_go_receipt antientropy_go_put_read(antientropy_go_handle *replica, uint64_t node,
                                                      const uint8_t *key, size_t key_len,
                                                      const struct antientropy_pair *context, size_t context_len,
                                                      uint8_t kind, const uint8_t *value, size_t value_len);

/* Puts a version by antientropy_put. */
struct antientropy_go_receipt antientropy_go_put(antientropy_go_handle *replica, uint64_t node, const uint8_t *key,
                                                 size_t key_len, const struct antientropy_pair *context,
                                                 size_t context_len, uint8_t kind, const uint8_t *value,
                                                 size_t value_len);

/* A version. The bytes of its key and of its value follow it, and then bytes up to a multiple of 8. */
struct antientropy_go_record {
    uint64_t number;    /* number of the entry or of the hint; of a version that is read, its index */
    uint64_t origin;    /* source of the entry, or owner of the hint; of a version that is read, 0 */
    uint64_t kind;      /* LIVE or TOMBSTONE */
    uint64_t pairs;     /* number of pairs of the clock */
    uint64_t key_len;   /* number of bytes of the key: 0 for a version that is read */
    uint64_t value_len; /* number of bytes of the value */
    struct antientropy_pair clock[ANTIENTROPY_CLOCK_MAX];
};

/* Minimum size of the buffer of a call that writes records, in bytes. It is aligned for records. */
#define ANTIENTROPY_GO_ROOM_MIN (sizeof(struct antientropy_go_record) + ANTIENTROPY_KEY_MAX)

/* Writes a record for each version held for a key. For an unknown key, `need` is 0. */
uint32_t antientropy_go_read(const antientropy_go_handle *replica, const uint8_t *key, size_t key_len, uint8_t *out,
                             size_t out_len, uint64_t *need);

/* Writes the record of an entry. */
uint32_t antientropy_go_entry(const struct antientropy_replica *replica, uint64_t number, uint8_t *out, size_t out_len,
                              uint64_t *need);

/* Writes the record of a hint. */
uint32_t antientropy_go_hint(struct antientropy_hints *hints, uint64_t id, uint8_t *out, size_t out_len,
                             uint64_t *need);

/* Writes the record of the owner's pending hint with the least number over `after`. */
uint32_t antientropy_go_hint_next(struct antientropy_hints *hints, uint64_t owner, uint64_t after, uint8_t *out,
                                  size_t out_len, uint64_t *need);

#endif
