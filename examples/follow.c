/* A reader that follows the journal of a replica by antientropy_entries, like a log or an index. It keeps one number,
 * the count of entries that it has, which continues across renewals. A reader that missed entries from before a renewal
 * reads the whole journal. The program prints the entries, and ends with status 1 if a call returns another number than
 * the one wanted. */
#include "antientropy.h"

#include <stdio.h>
#include <stdlib.h>
#include <string.h>

/* LIMIT is the limit of the journal. ROOM bytes hold two of the entries here, not three. */
enum { LIMIT = 4, ROOM = 60 };

static const char *const sources[] = {"a put", "a copy", "a hint", "a partner"};

/* Ends the program if a call returned another number than the one wanted. */
static void want(const char *call, uint32_t got, uint32_t wanted)
{
    if (got != wanted) {
        printf("%s: %s\n", call, antientropy_strerror(got));
        exit(1);
    }
}

static uint64_t number_at(const uint8_t *bytes, size_t len)
{
    uint64_t number = 0;
    for (size_t n = 0; n < len; n++)
        number = number << 8 | bytes[n];
    return number;
}

/* Prints an entry of format 2, and returns the number of its bytes. */
static size_t show(uint64_t number, const uint8_t *entry)
{
    size_t key_len = number_at(entry + 1, 2);
    const uint8_t *key = entry + 3, *version = key + key_len + 2;
    size_t pairs = version[1];
    const uint8_t *value = version + 2 + 10 * pairs + 4;
    size_t value_len = number_at(value - 4, 4);
    printf("  entry %llu: %.*s = %.*s, of %s\n", (unsigned long long)number, (int)key_len, (const char *)key,
           (int)value_len, (const char *)value, sources[entry[0]]);
    return value + value_len - entry;
}

/* Reads the entries from a position on, and moves it. Returns false if it isn't a position of the journal. */
static bool follow(const struct antientropy_replica *replica, uint64_t *position)
{
    uint8_t packed[ROOM];
    uint64_t len, next;
    uint32_t got;
    while ((got = antientropy_entries(replica, *position, packed, sizeof packed, &len, &next)) == ANTIENTROPY_OK
           && len > 0) {
        printf("  %llu bytes:\n", (unsigned long long)len);
        for (size_t at = 0; *position < next; (*position)++)
            at += show(*position, packed + at);
    }
    if (got != ANTIENTROPY_BAD_POSITION)
        want("entries", got, ANTIENTROPY_OK);
    return got == ANTIENTROPY_OK;
}

static struct antientropy_counts counts_of(struct antientropy_replica *replica)
{
    struct antientropy_counts counts;
    want("count", antientropy_count(replica, &counts), ANTIENTROPY_OK);
    return counts;
}

/* Makes a new replica in place of one whose journal is full. */
static void renew(struct antientropy_replica *replica)
{
    struct antientropy_replica old = *replica;
    *replica = (struct antientropy_replica){0};
    want("renew", antientropy_renew(&old, replica, LIMIT), ANTIENTROPY_OK);
    antientropy_free(&old);
    printf("renewed: the journal begins with entry %llu\n", (unsigned long long)counts_of(replica).first);
}

/* Puts a value in place of all held versions of its key. */
static void put(struct antientropy_replica *replica, const char *key, const char *value)
{
    struct antientropy_pair context[ANTIENTROPY_CLOCK_MAX];
    struct antientropy_receipt receipt;
    struct antientropy_counts counts = counts_of(replica);
    uint64_t pairs = 0;
    uint32_t got = antientropy_clock(replica, (const uint8_t *)key, strlen(key), 0, context, ANTIENTROPY_CLOCK_MAX,
                                     &pairs);
    if (got != ANTIENTROPY_NO_VERSION)
        want("clock", got, ANTIENTROPY_OK);
    if (counts.entries - counts.first == counts.limit)
        renew(replica);
    want("put_read", antientropy_put_read(replica, 1, (const uint8_t *)key, strlen(key), context, pairs,
                                          ANTIENTROPY_LIVE, (const uint8_t *)value, strlen(value), &receipt),
         ANTIENTROPY_OK);
    printf("put %s = %s: entry %llu\n", key, value, (unsigned long long)receipt.number);
}

int main(void)
{
    struct antientropy_replica replica = {0};
    struct antientropy_about about;
    uint64_t position = 0, late = 1, ahead = 100;
    want("new", antientropy_new(&replica, 2, 0, 0, LIMIT), ANTIENTROPY_OK);
    put(&replica, "cart", "milk");
    put(&replica, "order", "paid");
    put(&replica, "cart", "milk, bread");
    printf("a reader at 0:\n");
    follow(&replica, &position);
    put(&replica, "cart", "eggs");
    printf("the reader at %llu:\n", (unsigned long long)position);
    follow(&replica, &position);
    put(&replica, "order", "sent");
    printf("the reader at %llu:\n", (unsigned long long)position);
    follow(&replica, &position);
    want("about", antientropy_about(&replica, &about), ANTIENTROPY_OK);
    printf("format %llu, range %llu of %llu, %llu entries\n", (unsigned long long)about.format,
           (unsigned long long)about.range, 1ull << about.bits, (unsigned long long)about.entries);
    if (!follow(&replica, &late))
        printf("a reader at 1 has missed entries\n");
    if (!follow(&replica, &ahead))
        printf("no replica of that number of entries was here: 100\n");
    late = counts_of(&replica).first;
    printf("it reads the whole journal, from %llu:\n", (unsigned long long)late);
    follow(&replica, &late);
    antientropy_free(&replica);
    return 0;
}
