/* Helpers of the programs in this folder: the keys and values that they put through the C library, equal to those of
 * the peer's `calls`, refusals and times. */
#ifndef BENCH_ENTRIES_H
#define BENCH_ENTRIES_H

#include "antientropy.h"

#include <inttypes.h>
#include <stdbool.h>
#include <stdio.h>
#include <stdlib.h>
#include <string.h>
#include <time.h>

enum { KEY_ROOM = ANTIENTROPY_KEY_MAX + 1, SCRAMBLED_KEY_MIN = 13, FIRST_BYTES = 32, FILL = 7 };

#define SCRAMBLE UINT64_C(0x9e3779b97f4a7c15)

/* The format of the replicas, and the lengths of keys and values. Keys of 0 bytes are `key-` and a number. The
 * program's arguments set it once. */
static struct {
    uint64_t format;
    size_t key_bytes, value_bytes;
} shape = {1, 0, FIRST_BYTES};

/* Sets the shape by two or three arguments: the lengths of keys and of values, and the format. Returns true if no
 * length is over the format's limit. */
static bool read_shape(int count, char **words)
{
    shape.key_bytes = strtoul(words[0], NULL, 10);
    shape.value_bytes = strtoul(words[1], NULL, 10);
    shape.format = count > 2 ? strtoul(words[2], NULL, 10) : 1;
    size_t most = shape.format == 1 ? ANTIENTROPY_VALUE_MAX_1 : ANTIENTROPY_VALUE_MAX_2;
    return shape.key_bytes <= ANTIENTROPY_KEY_MAX && shape.value_bytes <= most;
}

/* Writes the key of a number into KEY_ROOM bytes, and returns its length. Scrambled keys are in no order. */
static size_t key_of(unsigned long number, uint8_t *key)
{
    if (shape.key_bytes == 0)
        return (size_t)sprintf((char *)key, "key-%lu", number);
    size_t len = shape.key_bytes < SCRAMBLED_KEY_MIN ? SCRAMBLED_KEY_MIN : shape.key_bytes;
    size_t made = (size_t)sprintf((char *)key, "user:%016" PRIx64, (uint64_t)number * SCRAMBLE);
    if (made < len)
        memset(key + made, 'z', len - made);
    return len;
}

/* Writes the value of a number into ANTIENTROPY_VALUE_MAX_2 bytes. Its first 32 bytes differ for each number. */
static void value_of(unsigned long number, uint8_t *value)
{
    uint64_t x = number;
    for (int part = 0; part < FIRST_BYTES / 8; part++) {
        x += SCRAMBLE;
        uint64_t y = (x ^ (x >> 30)) * UINT64_C(0xbf58476d1ce4e5b9);
        y ^= y >> 27;
        for (int byte = 0; byte < 8; byte++)
            value[8 * part + byte] = (uint8_t)(y >> (56 - 8 * byte));
    }
    if (FIRST_BYTES < shape.value_bytes)
        memset(value + FIRST_BYTES, FILL, shape.value_bytes - FIRST_BYTES);
}

/* Ends the program if a call was refused. */
static inline void must(const char *call, uint32_t number)
{
    if (number != ANTIENTROPY_OK) {
        fprintf(stderr, "%s: %u\n", call, number);
        exit(1);
    }
}

/* Returns the time in milliseconds. */
static inline double now_ms(void)
{
    struct timespec at;
    clock_gettime(CLOCK_MONOTONIC, &at);
    return (double)at.tv_sec * 1e3 + (double)at.tv_nsec / 1e6;
}

#endif
