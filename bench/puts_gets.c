/* Measures the calls of the C library that the bindings make, for bench/bindings.
 *
 *     puts_gets [KEYS [FORMAT]]
 *
 * There are 100000 keys by default, at most 1000000, in format 1. Keys have 10 bytes and values 32; they are made
 * beforehand. One thread puts them, gets each as a version, and then as a row's text. Prints a line of JSON: calls a
 * second by the clock, and the processor time of a call in nanoseconds. */
#include "antientropy.h"

#include <stdio.h>
#include <stdlib.h>
#include <time.h>

enum { KEY_BYTES = 10, KEY_ROOM = 32, VALUE_BYTES = 32, ROOM = 4096 };

struct item {
    uint8_t key[KEY_ROOM], value[VALUE_BYTES];
};

typedef void call_of_item(struct antientropy_replica *replica, const struct item *item);

/* Ends the program if a call was refused. */
static void must(const char *call, uint32_t number)
{
    if (number != ANTIENTROPY_OK) {
        fprintf(stderr, "%s: %u\n", call, number);
        exit(1);
    }
}

static double seconds(clockid_t clock)
{
    struct timespec at;
    clock_gettime(clock, &at);
    return (double)at.tv_sec + (double)at.tv_nsec / 1e9;
}

/* Makes keys that ascend, and values of the number's bytes, four times. */
static void make_items(struct item *items, unsigned long keys)
{
    for (unsigned long i = 0; i < keys; i++) {
        snprintf((char *)items[i].key, sizeof items[i].key, "key-%06lu", i);
        for (size_t byte = 0; byte < VALUE_BYTES; byte++)
            items[i].value[byte] = (uint8_t)(i >> (56 - 8 * (byte % 8)));
    }
}

static void put(struct antientropy_replica *replica, const struct item *item)
{
    static const struct antientropy_pair none;
    struct antientropy_receipt receipt;
    must("put", antientropy_put_read(replica, 1, item->key, KEY_BYTES, &none, 0, ANTIENTROPY_LIVE, item->value,
                                     VALUE_BYTES, &receipt));
}

static void get(struct antientropy_replica *replica, const struct item *item)
{
    struct antientropy_reading reading;
    struct antientropy_pair clock[ANTIENTROPY_CLOCK_MAX];
    uint8_t value[ROOM];
    must("get", antientropy_read(replica, item->key, KEY_BYTES, 0, &reading, clock, ANTIENTROPY_CLOCK_MAX, value,
                                 sizeof value));
}

static void row(struct antientropy_replica *replica, const struct item *item)
{
    uint8_t text[ROOM];
    uint64_t need;
    must("row", antientropy_get(replica, item->key, KEY_BYTES, text, sizeof text, &need));
}

/* Makes a call of each item, and prints the number of calls in a second, and the processor time of one. */
static void measure(const char *rate, const char *time, call_of_item *call, struct antientropy_replica *replica,
                    const struct item *items, unsigned long keys)
{
    double from = seconds(CLOCK_MONOTONIC), used_before = seconds(CLOCK_PROCESS_CPUTIME_ID);
    for (unsigned long i = 0; i < keys; i++)
        call(replica, &items[i]);
    double used = seconds(CLOCK_PROCESS_CPUTIME_ID) - used_before, took = seconds(CLOCK_MONOTONIC) - from;
    printf(",\"%s\":%.0f,\"%s\":%.0f", rate, (double)keys / took, time, 1e9 * used / (double)keys);
}

int main(int argc, char **argv)
{
    unsigned long keys = argc > 1 ? strtoul(argv[1], NULL, 10) : 100000;
    unsigned long format = argc > 2 ? strtoul(argv[2], NULL, 10) : 1;
    struct antientropy_replica replica = {0};
    struct item *items = malloc(keys * sizeof *items);
    if (items == NULL)
        return 1;
    make_items(items, keys);
    must("new", antientropy_new(&replica, format, 0, 0, ANTIENTROPY_ENTRIES_MAX));
    printf("{\"keys\":%lu", keys);
    measure("puts_per_s", "put_ns", put, &replica, items, keys);
    measure("gets_per_s", "get_ns", get, &replica, items, keys);
    measure("rows_per_s", "row_ns", row, &replica, items, keys);
    printf("}\n");
    antientropy_free(&replica);
    free(items);
    return 0;
}
