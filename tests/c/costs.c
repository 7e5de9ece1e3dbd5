/* The costs of calls. For ranges of 2,000 keys in no order, of 9 and of 36 bytes, in both formats, it prints the number
 * of growths of memory that a call makes, and the bytes that it asks for. With the argument "instructions" it makes the
 * calls whose instructions callgrind counts: the functions named `counted_..`, on a range with short values and some
 * 230 rows in a leaf, so that a second search is noticeable.
 *
 * It is linked with -Wl,--wrap=malloc,--wrap=realloc. check_c compares its output with costs.out. It ends with status 1
 * if a call is refused. */
#include "antientropy.h"

#include <stdio.h>
#include <stdlib.h>
#include <string.h>

enum { KEYS = 2000, MANY_KEYS = 60000, MANY = 1000, VALUE = 100, SHORT_VALUE = 8 };
enum { OFFER = 7, ROOM = 1 << 16, LONG = 1 << 20, HEAD = 16 };

/* A function whose instructions are counted: it isn't copied into its callers. */
#define COUNTED __attribute__((noinline)) static void

/* Makes a call, and prints its cost if it returns the number that is wanted. */
#define COST_OF(what, wanted, call) \
    do { \
        growths = bytes = 0; \
        inside = 1; \
        uint32_t number = (call); \
        inside = 0; \
        want(what, number, wanted); \
        printf("  %s: %lu growths, %lu bytes\n", what, growths, bytes); \
    } while (0)
#define COST(what, call) COST_OF(what, ANTIENTROPY_OK, call)

void *__real_malloc(size_t size);
void *__real_realloc(void *at, size_t size);
void *__wrap_malloc(size_t size);
void *__wrap_realloc(void *at, size_t size);

/* The growths of the call, and the bytes asked for. */
static unsigned long growths, bytes;
static int inside;

static struct antientropy_replica replica;
static struct antientropy_snapshot first, second;
static struct antientropy_receipt receipt;
static struct antientropy_bytes sizes;
static const struct antientropy_pair clock_1 = {1, 1}, clock_2 = {1, 2};
static uint8_t value[ANTIENTROPY_VALUE_MAX_2 + 1], out[ROOM], message[HEAD + LONG];
static char keys[MANY_KEYS + MANY][40];
static size_t key_len, value_len = VALUE;
static uint8_t offer[ANTIENTROPY_OFFER_LEN];
static uint64_t len, session;

void *__wrap_malloc(size_t size)
{
    growths += inside;
    bytes += inside ? size : 0;
    return __real_malloc(size);
}

void *__wrap_realloc(void *at, size_t size)
{
    growths += inside;
    bytes += inside ? size : 0;
    return __real_realloc(at, size);
}

static void want(const char *what, uint32_t got, uint32_t wanted)
{
    if (got != wanted) {
        printf("%s: %s, not %s\n", what, antientropy_strerror(got), antientropy_strerror(wanted));
        exit(1);
    }
}

/* Makes the keys: of 9 bytes as "k9e3779b1", or of 36 bytes in the form of a UUID. */
static void make_keys(size_t len_of_keys)
{
    key_len = len_of_keys;
    for (uint32_t n = 0; n < MANY_KEYS + MANY; n++) {
        uint32_t a = (n + 1) * 2654435761u, b = (n + 1) * 2246822519u;
        if (key_len == 9)
            snprintf(keys[n], sizeof keys[n], "k%08x", a);
        else
            snprintf(keys[n], sizeof keys[n], "%08x-%04x-4%03x-8%03x-%08x%04x", a, b >> 16, b & 0xfff, a & 0xfff, b,
                     a >> 16);
    }
}

/* Returns a key by its number. */
static const uint8_t *key(uint32_t n)
{
    return (const uint8_t *)keys[n];
}

static uint32_t put(uint32_t n, const struct antientropy_pair *context, size_t pairs)
{
    return antientropy_put_read(&replica, 1, key(n), key_len, context, pairs, ANTIENTROPY_LIVE, value, value_len,
                                &receipt);
}

static uint32_t read(uint32_t n)
{
    struct antientropy_reading reading;
    struct antientropy_pair pairs[ANTIENTROPY_CLOCK_MAX];
    return antientropy_read(&replica, key(n), key_len, 0, &reading, pairs, ANTIENTROPY_CLOCK_MAX, out, ROOM);
}

static uint32_t get(uint32_t n)
{
    return antientropy_get(&replica, key(n), key_len, out, ROOM, &len);
}

/* Makes the replica with the first keys. */
static void fill(uint64_t format, size_t len_of_keys, uint32_t count)
{
    make_keys(len_of_keys);
    want("new", antientropy_new(&replica, format, 0, 0, 100000), ANTIENTROPY_OK);
    for (uint32_t n = 0; n < count; n++)
        want("put", put(n, &clock_1, 0), ANTIENTROPY_OK);
}

static void rehash(void)
{
    want("rehash", antientropy_rehash(&replica), ANTIENTROPY_OK);
}

/* Makes a partner's offer, whose root differs from the snapshot's root. */
static void make_offer(void)
{
    want("offer", antientropy_offer(&first, OFFER, offer, sizeof offer, &len), ANTIENTROPY_OK);
    offer[sizeof offer - 1] ^= 1;
}

static uint32_t open(void)
{
    return antientropy_open(&replica, 2, offer, sizeof offer, &session);
}

/* Prints the costs of one range. Its numbers don't depend on another range. */
static void range(uint64_t format, size_t len_of_keys)
{
    printf("format %d, keys of %d bytes\n", (int)format, (int)len_of_keys);
    fill(format, len_of_keys, KEYS);
    COST("a put of a new key", put(KEYS, &clock_1, 0));
    COST("a rewrite", put(0, &clock_1, 1));
    COST("a read", read(1));
    COST("a get of the row's text", get(1));
    COST_OF("a value that is too long", ANTIENTROPY_BAD_VALUE,
            antientropy_put_read(&replica, 1, key(1), key_len, &clock_1, 1, ANTIENTROPY_LIVE, value, sizeof value,
                                 &receipt));
    rehash();
    COST("a snapshot", antientropy_snapshot(&replica, &first));
    COST("a second one", antientropy_snapshot(&replica, &second));
    antientropy_snapshot_free(&second);
    make_offer();
    COST("an opening", open());
    COST("a second one over equal rows", open());
    COST("a snapshot after it", antientropy_snapshot(&replica, &second));
    COST("a rewrite after a snapshot", put(2, &clock_1, 1));
    COST("a second one of the same key", put(2, &clock_2, 1));
    COST("a rehash after it", antientropy_rehash(&replica));
    COST("an opening after it", open());
    COST("the sizes with sessions", antientropy_bytes(&replica, &sizes));
    antientropy_snapshot_free(&first);
    antientropy_snapshot_free(&second);
    antientropy_free(&replica);
}

COUNTED counted_puts(void)
{
    for (uint32_t n = MANY_KEYS; n < MANY_KEYS + MANY; n++)
        want("put", put(n, &clock_1, 0), ANTIENTROPY_OK);
}

COUNTED counted_reads(void)
{
    for (uint32_t n = 0; n < MANY; n++)
        want("read", read(n), ANTIENTROPY_OK);
}

COUNTED counted_gets(void)
{
    for (uint32_t n = 0; n < MANY; n++)
        want("get", get(n), ANTIENTROPY_OK);
}

COUNTED counted_rewrites(void)
{
    for (uint32_t n = 0; n < MANY; n++)
        want("put", put(n, &clock_1, 1), ANTIENTROPY_OK);
}

/* Makes an answer with a text of 1 MiB. */
static void make_answer(void)
{
    message[0] = 3;
    message[4] = OFFER;
    message[13] = LONG >> 16;
}

/* Takes the answer for a node of a depth. */
static uint32_t take(uint8_t depth)
{
    struct antientropy_taken taken;
    message[5] = depth;
    return antientropy_take(&replica, session, OFFER, message, HEAD + LONG, &taken);
}

/* The root was asked, so the text is hashed. */
COUNTED counted_wrong(void)
{
    want("take", take(0), ANTIENTROPY_WRONG_DIGEST);
}

/* No other node was asked, so the text isn't hashed. */
COUNTED counted_unasked(void)
{
    want("take", take(1), ANTIENTROPY_NOT_ASKED);
}

static void instructions(void)
{
    value_len = SHORT_VALUE;
    fill(1, 9, MANY_KEYS);
    rehash();
    want("snapshot", antientropy_snapshot(&replica, &first), ANTIENTROPY_OK);
    make_offer();
    want("open", open(), ANTIENTROPY_OK);
    antientropy_snapshot_free(&first);
    make_answer();
    counted_puts();
    counted_reads();
    counted_gets();
    counted_rewrites();
    counted_wrong();
    counted_unasked();
    antientropy_free(&replica);
}

int main(int words, char **word)
{
    memset(value, 'v', sizeof value);
    if (words == 2 && strcmp(word[1], "instructions") == 0) {
        instructions();
        return 0;
    }
    for (uint64_t format = 1; format <= 2; format++) {
        range(format, 9);
        range(format, 36);
    }
    return 0;
}
