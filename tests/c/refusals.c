/* Shows each number that a call of the header can return for a refusal, except for NO_MEMORY, which growths.c covers.
 * It prints a line for each, such as "antientropy_put BAD_KEY", and check_c compares the lines with the header's lists.
 * It ends with status 1 if a call returns another number than the one wanted, or if a call of an empty handle writes
 * something. */
#include "antientropy.h"

#include <stdio.h>
#include <stdlib.h>
#include <string.h>

enum { OFFER = 7, OTHER_OFFER = 8, PAIRS = ANTIENTROPY_CLOCK_MAX + 1, ANSWER_HEAD = 16, ROOM = 1 << 16 };

/* An outline of the root: its head, and a mark of one byte for each child. */
enum { ROOT_OUTLINE_LEN = 13 + 16 };

#define SEE(name, number, got) SEE_OF("antientropy_" #name, number, got)
#define SEE_OF(call, number, got) see(call, #number, got, ANTIENTROPY_##number)
#define OK(got) ok(#got, got)

/* SHA-256 of the text "abc" (FIPS 180-4). */
static const uint8_t ABC_DIGEST[32] = {0xba, 0x78, 0x16, 0xbf, 0x8f, 0x01, 0xcf, 0xea, 0x41, 0x41, 0x40,
                                       0xde, 0x5d, 0xae, 0x22, 0x23, 0xb0, 0x03, 0x61, 0xa3, 0x96, 0x17,
                                       0x7a, 0x9c, 0xb4, 0x10, 0xff, 0x61, 0xf2, 0x00, 0x15, 0xad};

/* Patches for the root: without steps, and with a step of an unknown kind. */
static const uint8_t NO_STEPS[] = {5, 0, 0, 0, OFFER, 0, 0, 0, 0, 0, 0, 0, 0, 0, 0, 0};
static const uint8_t BROKEN_STEP[] = {5, 0, 0, 0, OFFER, 0, 0, 0, 0, 0, 0, 0, 0, 0, 0, 1, 2};

static const uint8_t KEY[] = "cart", VALUE[] = "milk";
static uint8_t LONG[ANTIENTROPY_VALUE_MAX_2 + 1], out[ROOM];
static struct antientropy_pair many[PAIRS], pairs[ANTIENTROPY_CLOCK_MAX];
static struct antientropy_replica none, made;
static struct antientropy_snapshot nothing;
static struct antientropy_portion no_portion;
static uint64_t need;

/* Prints a refusal, or ends the program if it is another one. */
static void see(const char *call, const char *number, uint32_t got, uint32_t wanted)
{
    if (got != wanted) {
        printf("%s returned %s, not %s\n", call, antientropy_strerror(got), number);
        exit(1);
    }
    printf("%s %s\n", call, number);
}

/* Ends the program if a call was refused. */
static void ok(const char *call, uint32_t got)
{
    if (got != ANTIENTROPY_OK) {
        printf("%s returned %s\n", call, antientropy_strerror(got));
        exit(1);
    }
}

/* Ends the program if a condition doesn't hold. */
static void is(const char *what, bool holds)
{
    if (!holds) {
        printf("it isn't so that %s\n", what);
        exit(1);
    }
}

/* Accepts versions of a key, each with a clock of its own node. */
static void accept(struct antientropy_replica *replica, unsigned first, unsigned count)
{
    for (unsigned n = 0; n < count; n++) {
        struct antientropy_pair pair = {first + n, 1};
        uint64_t taken;
        OK(antientropy_accept(replica, KEY, 4, &pair, 1, ANTIENTROPY_LIVE, VALUE, 4, &taken));
    }
}

/* Returns a key of the second of two ranges. */
static uint8_t key_of_range_1(void)
{
    struct antientropy_spot spot;
    for (uint8_t key = 1;; key++) {
        OK(antientropy_place(1, 1, &key, 1, &spot));
        if (spot.range == 1)
            return key;
    }
}

static void makes(void)
{
    struct antientropy_replica into = {0}, full = {0};
    struct antientropy_counts counts;
    OK(antientropy_new(&made, 2, 0, 0, 1000));
    OK(antientropy_new(&full, 2, 0, 0, 1000));
    accept(&made, 1, 2);
    SEE(new, HELD, antientropy_new(&made, 2, 0, 0, 1000));
    SEE(new, BAD_RING, antientropy_new(&none, 3, 0, 0, 1000));
    SEE(new, BAD_RING, antientropy_new(&none, 1, ANTIENTROPY_BITS_MAX + 1, 0, 1000));
    SEE(new, BAD_RING, antientropy_new(&none, 1, 1, 2, 1000));
    SEE(new, BAD_RING, antientropy_new(&none, 1, 0, 0, 0));
    SEE(new, BAD_RING, antientropy_new(&none, 1, 0, 0, ANTIENTROPY_ENTRIES_MAX + 1));
    SEE(new_seeded, HELD, antientropy_new_seeded(&made, 2, 0, 0, 1000, 1, 2));
    SEE(new_seeded, BAD_RING, antientropy_new_seeded(&none, 3, 0, 0, 1000, 1, 2));
    SEE(renew, EMPTY, antientropy_renew(&none, &into, 1000));
    SEE(renew, HELD, antientropy_renew(&made, &full, 1000));
    SEE(renew, BAD_RING, antientropy_renew(&made, &into, 0));
    SEE(renew, JOURNAL_FULL, antientropy_renew(&made, &into, 1));
    antientropy_free(&full);
    SEE(migrate, EMPTY, antientropy_migrate(&none));
    SEE(count, EMPTY, antientropy_count(&none, &counts));
    SEE(rehash, EMPTY, antientropy_rehash(&none));
    SEE(rehash_some, EMPTY, antientropy_rehash_some(&none, 1, &need));
}

/* Moments of a replica that has accepted some versions. */
static void moments(void)
{
    struct antientropy_replica replica = {0};
    struct antientropy_snapshot snapshot = {0};
    struct antientropy_portion portion = {0};
    struct antientropy_counts counts;
    OK(antientropy_new(&replica, 2, 0, 0, 1000));
    accept(&replica, 1, 2);
    SEE(hold, EMPTY, antientropy_hold(&none));
    SEE(drop_moment, EMPTY, antientropy_drop_moment(&none));
    SEE(hash_moment, EMPTY, antientropy_hash_moment(&none, 1, &need));
    SEE(moment, EMPTY, antientropy_moment(&none, &snapshot));
    SEE(moment, DIRTY, antientropy_moment(&replica, &snapshot));
    OK(antientropy_hold(&replica));
    SEE(moment, DIRTY, antientropy_moment(&replica, &snapshot));
    SEE(take_portion, EMPTY, antientropy_take_portion(&none, 1, &portion));
    OK(antientropy_take_portion(&replica, 1, &portion));
    SEE(take_portion, HELD, antientropy_take_portion(&replica, 1, &portion));
    SEE(hash_portion, EMPTY, antientropy_hash_portion(&no_portion));
    OK(antientropy_hash_portion(&portion));
    SEE(install_portion, EMPTY, antientropy_install_portion(&none, &portion, &need));
    SEE(install_portion, EMPTY, antientropy_install_portion(&replica, &no_portion, &need));
    OK(antientropy_install_portion(&replica, &portion, &need));
    is("a portion of one node was hashed", need == ANTIENTROPY_NODES_2 - 1 && !portion.held);
    OK(antientropy_count(&replica, &counts));
    is("no moment was whole", counts.front == 0);
    while (need > 0)
        OK(antientropy_hash_moment(&replica, 1000, &need));
    OK(antientropy_moment(&replica, &snapshot));
    SEE(moment, HELD, antientropy_moment(&replica, &snapshot));
    OK(antientropy_count(&replica, &counts));
    is("the moment has two entries", counts.front == 2 && counts.dirty == 0);
    accept(&replica, 3, 1);
    OK(antientropy_hold(&replica));
    OK(antientropy_count(&replica, &counts));
    is("the last whole moment has two entries", counts.front == 2 && counts.dirty == 4);
    OK(antientropy_take_portion(&replica, 1, &portion));
    antientropy_portion_free(&portion);
    OK(antientropy_drop_moment(&replica));
    SEE(moment, DIRTY, antientropy_moment(&replica, &nothing));
    OK(antientropy_count(&replica, &counts));
    is("front stays after a drop", counts.front == 2);
    antientropy_snapshot_free(&snapshot);
    antientropy_free(&replica);
}

/* Holds a moment of a replica, and hashes it. */
static void hold(struct antientropy_replica *replica)
{
    uint64_t left;
    OK(antientropy_hold(replica));
    do
        OK(antientropy_hash_moment(replica, 1000, &left));
    while (left > 0);
}

/* Begins a renewal of a replica, and makes the new range. */
static void build(struct antientropy_replica *replica, uint64_t limit, struct antientropy_renewal *renewal)
{
    hold(replica);
    OK(antientropy_renewal_begin(replica, limit, renewal));
    OK(antientropy_renewal_build(renewal));
}

/* The calls that make a renewal of a replica with two versions. */
static void begins(struct antientropy_replica *replica, struct antientropy_renewal *renewal)
{
    SEE(renewal_begin, EMPTY, antientropy_renewal_begin(&none, 1000, renewal));
    SEE(renewal_begin, DIRTY, antientropy_renewal_begin(replica, 1000, renewal));
    OK(antientropy_hold(replica));
    SEE(renewal_begin, DIRTY, antientropy_renewal_begin(replica, 1000, renewal));
    SEE(renewal_build, EMPTY, antientropy_renewal_build(renewal));
    SEE(renewal_catch_up, EMPTY, antientropy_renewal_catch_up(renewal, replica, 1, &need));
    SEE(renewal_finish, EMPTY, antientropy_renewal_finish(renewal, replica));
    hold(replica);
    OK(antientropy_renewal_begin(replica, 0, renewal));
    SEE(renewal_begin, HELD, antientropy_renewal_begin(replica, 1000, renewal));
    SEE(renewal_build, BAD_RING, antientropy_renewal_build(renewal));
    antientropy_renewal_free(renewal);
    OK(antientropy_renewal_begin(replica, 1, renewal));
    SEE(renewal_build, JOURNAL_FULL, antientropy_renewal_build(renewal));
    SEE(renewal_catch_up, EMPTY, antientropy_renewal_catch_up(renewal, replica, 1, &need));
    SEE(renewal_finish, EMPTY, antientropy_renewal_finish(renewal, replica));
    antientropy_renewal_free(renewal);
}

/* The calls on a renewal that is made, and on one that is finished. */
static void ends(struct antientropy_replica *replica, struct antientropy_renewal *renewal)
{
    build(replica, 1000, renewal);
    SEE(renewal_build, HELD, antientropy_renewal_build(renewal));
    SEE(renewal_catch_up, EMPTY, antientropy_renewal_catch_up(renewal, &none, 1, &need));
    SEE(renewal_finish, EMPTY, antientropy_renewal_finish(renewal, &none));
    accept(replica, 3, 2);
    OK(antientropy_renewal_catch_up(renewal, replica, 1, &need));
    is("one entry is left", need == 1);
    OK(antientropy_renewal_finish(renewal, replica));
    SEE(renewal_build, HELD, antientropy_renewal_build(renewal));
    SEE(renewal_catch_up, EMPTY, antientropy_renewal_catch_up(renewal, replica, 1, &need));
    SEE(renewal_finish, EMPTY, antientropy_renewal_finish(renewal, replica));
    antientropy_renewal_free(renewal);
}

/* Lets the renewal of a replica, which has a version of node 1, catch up with another replica. The other replica's
 * entries after its first are `count` versions of the same key, of the nodes from `first` on. The calls must be
 * refused. */
static void stops(unsigned first, unsigned count, uint64_t limit, const char *number, uint32_t wanted)
{
    struct antientropy_replica replica = {0}, other = {0};
    struct antientropy_renewal renewal = {0};
    struct antientropy_pair pair = {1, 1};
    uint64_t taken;
    OK(antientropy_new(&replica, 2, 0, 0, 1000));
    OK(antientropy_new(&other, 2, 0, 0, 1000));
    accept(&replica, 1, 1);
    OK(antientropy_accept(&other, VALUE, 4, &pair, 1, ANTIENTROPY_LIVE, VALUE, 4, &taken));
    accept(&other, first, count);
    build(&replica, limit, &renewal);
    see("antientropy_renewal_catch_up", number, antientropy_renewal_catch_up(&renewal, &other, 1000, &need), wanted);
    see("antientropy_renewal_finish", number, antientropy_renewal_finish(&renewal, &other), wanted);
    antientropy_renewal_free(&renewal);
    antientropy_free(&replica);
    antientropy_free(&other);
}

/* A renewal is refused for a replica whose first number differs, and for one with other bits. */
static void strangers(struct antientropy_replica *renewed)
{
    struct antientropy_replica replica = {0}, half = {0};
    struct antientropy_renewal renewal = {0};
    OK(antientropy_new(&replica, 2, 0, 0, 1000));
    OK(antientropy_new(&half, 2, 1, 0, 1000));
    build(&replica, 1000, &renewal);
    SEE(renewal_catch_up, STALE, antientropy_renewal_catch_up(&renewal, renewed, 1, &need));
    SEE(renewal_finish, STALE, antientropy_renewal_finish(&renewal, renewed));
    SEE(renewal_catch_up, STALE, antientropy_renewal_catch_up(&renewal, &half, 1, &need));
    SEE(renewal_finish, STALE, antientropy_renewal_finish(&renewal, &half));
    antientropy_renewal_free(&renewal);
    antientropy_free(&replica);
    antientropy_free(&half);
}

/* Renewals alongside puts. */
static void renewals(void)
{
    struct antientropy_replica replica = {0};
    struct antientropy_renewal renewal = {0};
    struct antientropy_counts counts;
    struct antientropy_pair later = {1, 2};
    uint64_t taken;
    OK(antientropy_new(&replica, 2, 0, 0, 1000));
    accept(&replica, 1, 2);
    begins(&replica, &renewal);
    OK(antientropy_accept(&replica, KEY, 4, &later, 1, ANTIENTROPY_LIVE, VALUE, 4, &taken));
    ends(&replica, &renewal);
    OK(antientropy_count(&replica, &counts));
    is("the numbers go on", counts.entries == 5 && counts.first == 1 && counts.limit == 1000);
    SEE(entries, BAD_POSITION, antientropy_entries(&replica, 2, out, ROOM, &need, &taken));
    OK(antientropy_entries(&replica, 3, out, ROOM, &need, &taken));
    is("two entries are read", taken == 5);
    strangers(&replica);
    stops(1, 1, 1000, "STALE", ANTIENTROPY_STALE);
    stops(2, ANTIENTROPY_VERSIONS_MAX, 1000, "CROWDED", ANTIENTROPY_CROWDED);
    stops(2, 2, 2, "JOURNAL_FULL", ANTIENTROPY_JOURNAL_FULL);
    antientropy_free(&replica);
}

/* One of the two puts, and its name. */
typedef uint32_t put_call(struct antientropy_replica *replica, uint64_t node, const uint8_t *key, size_t key_len,
                          const struct antientropy_pair *context, size_t context_len, uint8_t kind,
                          const uint8_t *value, size_t value_len, struct antientropy_receipt *receipt);
static put_call *put_with;

static uint32_t put(struct antientropy_replica *replica, uint64_t node, const uint8_t *key, size_t key_len,
                    size_t context_len, uint8_t kind, size_t value_len)
{
    struct antientropy_receipt receipt;
    return put_with(replica, node, key, key_len, many, context_len, kind, LONG, value_len, &receipt);
}

static void puts_by(const char *name, put_call *call)
{
    struct antientropy_replica half = {0}, full = {0};
    struct antientropy_pair top = {1, UINT64_MAX};
    struct antientropy_receipt receipt;
    uint8_t other = key_of_range_1();
    put_with = call;
    OK(antientropy_new(&half, 1, 1, 0, 1));
    OK(antientropy_new(&full, 2, 0, 0, ANTIENTROPY_VERSIONS_MAX + 1));
    accept(&full, 1, ANTIENTROPY_VERSIONS_MAX);
    SEE_OF(name, EMPTY, put(&none, 0, KEY, 4, 0, ANTIENTROPY_LIVE, 1));
    SEE_OF(name, BAD_CLOCK, put(&made, 0, KEY, 4, 0, ANTIENTROPY_LIVE, 1));
    SEE_OF(name, BAD_CLOCK, put(&made, ANTIENTROPY_NODE_MAX + 1, KEY, 0, PAIRS, ANTIENTROPY_LIVE, 1));
    SEE_OF(name, CLOCK_FULL, put(&made, 1, KEY, 4, PAIRS, ANTIENTROPY_LIVE, 1));
    SEE_OF(name, BAD_VALUE, put(&made, 1, KEY, 4, 0, 2, 1));
    SEE_OF(name, BAD_KEY, put(&made, 1, KEY, 0, 0, ANTIENTROPY_LIVE, 1));
    SEE_OF(name, BAD_VALUE, put(&made, 1, KEY, 4, 0, ANTIENTROPY_LIVE, ANTIENTROPY_VALUE_MAX_2 + 1));
    SEE_OF(name, BAD_VALUE, put(&made, 1, KEY, 4, 0, ANTIENTROPY_TOMBSTONE, 1));
    SEE_OF(name, OTHER_RANGE, put(&half, 1, &other, 1, 0, ANTIENTROPY_LIVE, 1));
    SEE_OF(name, CLOCK_FULL, put(&made, PAIRS, KEY, 4, ANTIENTROPY_CLOCK_MAX, ANTIENTROPY_LIVE, 1));
    SEE_OF(name, COUNTER_FULL, call(&made, 1, KEY, 4, &top, 1, ANTIENTROPY_LIVE, VALUE, 4, &receipt));
    SEE_OF(name, STALE_CONTEXT, put(&made, 1, KEY, 4, 0, ANTIENTROPY_LIVE, 1));
    SEE_OF(name, CROWDED, put(&full, 1000, KEY, 4, 0, ANTIENTROPY_LIVE, 1));
    OK(put(&full, 1000, LONG, 1, 0, ANTIENTROPY_LIVE, 1));
    SEE_OF(name, JOURNAL_FULL, put(&full, 1001, LONG, 1, 0, ANTIENTROPY_LIVE, 1));
    antientropy_free(&half);
    antientropy_free(&full);
}

/* Two clients read the same versions. The second client to put replaces the version of the first by the put that
 * doesn't check, and is refused by the put that does. */
static void two_clients(void)
{
    static const struct antientropy_pair seen[] = {{1, 1}, {2, 1}}, counters[] = {{1, 2}, {2, 1}};
    struct antientropy_replica replica = {0};
    struct antientropy_receipt receipt;
    uint64_t count, counter;
    OK(antientropy_new(&replica, 2, 0, 0, 1000));
    accept(&replica, 1, 2);
    OK(antientropy_put_read(&replica, 1, KEY, 4, seen, 1, ANTIENTROPY_LIVE, VALUE, 4, &receipt));
    SEE(put_read, STALE_CONTEXT,
        antientropy_put_read(&replica, 1, KEY, 4, seen, 2, ANTIENTROPY_LIVE, VALUE, 3, &receipt));
    OK(antientropy_versions(&replica, KEY, 4, &count));
    is("both versions are held", count == 2);
    for (int n = 0; n < 2; n++) {
        OK(antientropy_top_counter(&replica, counters[n].node, KEY, 4, UINT64_MAX, &counter));
        is("the greatest counter", counter == counters[n].counter);
    }
    OK(antientropy_top_counter(&replica, 1, KEY, 4, 2, &counter));
    is("the greatest counter of two entries", counter == 1);
    OK(antientropy_put(&replica, 1, KEY, 4, seen, 2, ANTIENTROPY_LIVE, VALUE, 3, &receipt));
    OK(antientropy_versions(&replica, KEY, 4, &count));
    is("one version is held", count == 1);
    antientropy_free(&replica);
}

static void puts_and_accepts(void)
{
    struct antientropy_replica half = {0}, full = {0};
    struct antientropy_pair twice[2] = {{1, 1}, {1, 2}}, far = {1000, 1};
    uint8_t other = key_of_range_1();
    uint64_t taken;
    puts_by("antientropy_put", antientropy_put);
    puts_by("antientropy_put_read", antientropy_put_read);
    two_clients();
    OK(antientropy_new(&half, 1, 1, 0, 1));
    OK(antientropy_new(&full, 2, 0, 0, ANTIENTROPY_VERSIONS_MAX));
    accept(&full, 1, ANTIENTROPY_VERSIONS_MAX);
    SEE(accept, EMPTY, antientropy_accept(&none, KEY, 4, many, 1, 0, VALUE, 4, &taken));
    SEE(accept, BAD_CLOCK, antientropy_accept(&made, KEY, 4, twice, 2, 0, VALUE, 4, &taken));
    SEE(accept, CLOCK_FULL, antientropy_accept(&made, KEY, 4, many, PAIRS, 0, VALUE, 4, &taken));
    SEE(accept, BAD_VALUE, antientropy_accept(&made, KEY, 4, many, 1, 2, VALUE, 4, &taken));
    SEE(accept, BAD_KEY, antientropy_accept(&made, LONG, ANTIENTROPY_KEY_MAX + 1, many, 1, 0, VALUE, 4, &taken));
    SEE(accept, OTHER_RANGE, antientropy_accept(&half, &other, 1, many, 1, 0, VALUE, 4, &taken));
    SEE(accept, CROWDED, antientropy_accept(&full, KEY, 4, &far, 1, 0, VALUE, 4, &taken));
    SEE(accept, JOURNAL_FULL, antientropy_accept(&full, VALUE, 4, many, 1, 0, VALUE, 4, &taken));
    antientropy_free(&half);
    antientropy_free(&full);
}

/* The keys of a leaf in one buffer, which a refused call leaves unchanged. */
static void keys_in_one_buffer(uint64_t leaf)
{
    uint8_t key[8] = "c-------";
    uint64_t len = 1;
    SEE(key_next, EMPTY, antientropy_key_next(&none, leaf, key, sizeof key, &len));
    SEE(key_next, BAD_MESSAGE, antientropy_key_next(&made, ANTIENTROPY_LEAVES_2, key, sizeof key, &len));
    SEE(key_next, SMALL, antientropy_key_next(&made, leaf, key, 3, &len));
    is("key_next changes nothing", len == 1 && memcmp(key, "c-------", sizeof key) == 0);
    OK(antientropy_key_next(&made, leaf, key, sizeof key, &len));
    is("the key takes the place of the one before", len == 4 && memcmp(key, "cart----", sizeof key) == 0);
    SEE(key_next, NO_VERSION, antientropy_key_next(&made, leaf, key, sizeof key, &len));
    len = sizeof key + 1;
    SEE(key_next, BAD_KEY, antientropy_key_next(&made, leaf, key, sizeof key, &len));
    is("key_next leaves all unchanged", len == sizeof key + 1 && memcmp(key, "cart----", sizeof key) == 0);
}

/* The packed entry of docs/FORMATS.md. */
static void one_entry(void)
{
    static const uint8_t ENTRY[] = {0, 0, 1, 'a', 0, 1, 0, 1, 0, 1, 0, 0, 0, 0, 0, 0, 0, 1, 0, 0, 0, 1, 'x'};
    struct antientropy_replica replica = {0};
    struct antientropy_receipt receipt;
    uint64_t next;
    OK(antientropy_new(&replica, 2, 0, 0, 1000));
    OK(antientropy_put(&replica, 1, (const uint8_t *)"a", 1, many, 0, ANTIENTROPY_LIVE, (const uint8_t *)"x", 1,
                       &receipt));
    OK(antientropy_entries(&replica, 0, out, sizeof ENTRY, &need, &next));
    is("the entry is as in docs/FORMATS.md",
       need == sizeof ENTRY && next == 1 && memcmp(out, ENTRY, sizeof ENTRY) == 0);
    SEE(entries, SMALL, antientropy_entries(&replica, 0, out, sizeof ENTRY - 1, &need, &next));
    is("the length of its text is told", need == sizeof ENTRY && next == 1);
    antientropy_free(&replica);
}

/* Positions of a replica with two versions of three entries, which is renewed, and accepts one more. */
static void positions(void)
{
    struct antientropy_replica old = {0}, replica = {0};
    struct antientropy_counts counts;
    struct antientropy_snapshot snapshot = {0};
    struct antientropy_about about;
    struct antientropy_pair later = {1, 2};
    uint64_t next = 0, taken;
    one_entry();
    OK(antientropy_new(&old, 2, 0, 0, 1000));
    accept(&old, 1, 2);
    OK(antientropy_accept(&old, KEY, 4, &later, 1, ANTIENTROPY_LIVE, VALUE, 4, &taken));
    OK(antientropy_entries(&old, 1, out, ROOM, &need, &next));
    is("two entries are read", next == 3);
    OK(antientropy_renew(&old, &replica, 1000));
    OK(antientropy_count(&replica, &counts));
    is("the numbers go on", counts.entries == 3 && counts.first == 1 && counts.front == 1);
    accept(&replica, 3, 1);
    OK(antientropy_count(&replica, &counts));
    is("the next entry has number 3", counts.entries == 4 && counts.first == 1);
    OK(antientropy_entry_key(&replica, 3, out, ROOM, &need));
    OK(antientropy_entry_key(&replica, 1, out, ROOM, &need));
    SEE(entry_key, NO_VERSION, antientropy_entry_key(&replica, 0, out, ROOM, &need));
    SEE(entry_key, NO_VERSION, antientropy_entry_key(&replica, 4, out, ROOM, &need));
    OK(antientropy_top_counter(&replica, 3, KEY, 4, 3, &taken));
    is("entry 3 isn't below 3", taken == 0);
    OK(antientropy_top_counter(&replica, 3, KEY, 4, 4, &taken));
    is("entry 3 is below 4", taken == 1);
    OK(antientropy_entries(&replica, 3, out, ROOM, &need, &next));
    is("one entry is new", next == 4 && need > 0);
    OK(antientropy_entries(&replica, 4, out, ROOM, &need, &next));
    is("nothing is left", next == 4 && need == 0);
    SEE(entries, BAD_POSITION, antientropy_entries(&replica, 0, out, ROOM, &need, &next));
    SEE(entries, BAD_POSITION, antientropy_entries(&replica, 2, out, ROOM, &need, &next));
    SEE(entries, BAD_POSITION, antientropy_entries(&replica, 5, out, ROOM, &need, &next));
    OK(antientropy_entries(&replica, counts.first, out, ROOM, &need, &next));
    is("the first number gives the whole journal", next == 4);
    OK(antientropy_hold(&replica));
    accept(&replica, 4, 1);
    do
        OK(antientropy_hash_moment(&replica, 1000, &need));
    while (need > 0);
    OK(antientropy_moment(&replica, &snapshot));
    OK(antientropy_snapshot_about(&snapshot, &about));
    is("four entries made the rows of the moment", about.entries == 4);
    OK(antientropy_count(&replica, &counts));
    is("the front is the moment's number", counts.entries == 5 && counts.front == 4);
    antientropy_snapshot_free(&snapshot);
    antientropy_free(&old);
    antientropy_free(&replica);
}

/* The sizes of the replica `made`, which has two versions of one key and no session, and of its row. */
static void sizes(void)
{
    struct antientropy_bytes bytes;
    SEE(bytes, EMPTY, antientropy_bytes(&none, &bytes));
    OK(antientropy_bytes(&made, &bytes));
    OK(antientropy_get(&made, KEY, 4, out, ROOM, &need));
    is("the rows have the length of the row", bytes.rows == need && need > 0);
    is("the journal has two keys, two values and two pairs", bytes.journal == 2 * (4 + 4 + 10));
    is("no session keeps anything", bytes.sessions == 0);
}

static void reads(void)
{
    struct antientropy_reading reading;
    struct antientropy_about about;
    uint64_t count, source;
    uint8_t kind;
    SEE(get, EMPTY, antientropy_get(&none, KEY, 4, out, ROOM, &need));
    SEE(get, BAD_KEY, antientropy_get(&made, KEY, 0, out, ROOM, &need));
    SEE(get, SMALL, antientropy_get(&made, KEY, 4, out, 1, &need));
    SEE(versions, EMPTY, antientropy_versions(&none, KEY, 4, &count));
    SEE(value, EMPTY, antientropy_value(&none, KEY, 4, 0, &kind, out, ROOM, &need));
    SEE(value, NO_VERSION, antientropy_value(&made, KEY, 4, 2, &kind, out, ROOM, &need));
    SEE(value, SMALL, antientropy_value(&made, KEY, 4, 0, &kind, out, 3, &need));
    SEE(clock, EMPTY, antientropy_clock(&none, KEY, 4, 0, pairs, 32, &need));
    SEE(clock, NO_VERSION, antientropy_clock(&made, KEY, 4, 2, pairs, 32, &need));
    SEE(clock, SMALL, antientropy_clock(&made, KEY, 4, 0, pairs, 0, &need));
    SEE(read, EMPTY, antientropy_read(&none, KEY, 4, 0, &reading, pairs, 32, out, ROOM));
    SEE(read, NO_VERSION, antientropy_read(&made, KEY, 4, 2, &reading, pairs, 32, out, ROOM));
    SEE(read, SMALL, antientropy_read(&made, KEY, 4, 0, &reading, pairs, 0, out, ROOM));
    SEE(read, SMALL, antientropy_read(&made, KEY, 4, 0, &reading, pairs, 32, out, 3));
    struct antientropy_spot spot;
    OK(antientropy_place(2, 0, KEY, 4, &spot));
    SEE(key_after, EMPTY, antientropy_key_after(&none, spot.leaf, KEY, 0, out, ROOM, &need));
    SEE(key_after, BAD_MESSAGE, antientropy_key_after(&made, ANTIENTROPY_LEAVES_2, KEY, 0, out, ROOM, &need));
    SEE(key_after, NO_VERSION, antientropy_key_after(&made, spot.leaf, KEY, 4, out, ROOM, &need));
    SEE(key_after, SMALL, antientropy_key_after(&made, spot.leaf, KEY, 0, out, 3, &need));
    keys_in_one_buffer(spot.leaf);
    SEE(entry_key, EMPTY, antientropy_entry_key(&none, 0, out, ROOM, &need));
    SEE(entry_key, NO_VERSION, antientropy_entry_key(&made, 2, out, ROOM, &need));
    SEE(entry_key, SMALL, antientropy_entry_key(&made, 0, out, 3, &need));
    SEE(entry_value, EMPTY, antientropy_entry_value(&none, 0, &kind, out, ROOM, &need));
    SEE(entry_value, NO_VERSION, antientropy_entry_value(&made, 2, &kind, out, ROOM, &need));
    SEE(entry_value, SMALL, antientropy_entry_value(&made, 0, &kind, out, 3, &need));
    SEE(entry_clock, EMPTY, antientropy_entry_clock(&none, 0, pairs, 32, &need));
    SEE(entry_clock, NO_VERSION, antientropy_entry_clock(&made, 2, pairs, 32, &need));
    SEE(entry_clock, SMALL, antientropy_entry_clock(&made, 0, pairs, 0, &need));
    SEE(entry_source, EMPTY, antientropy_entry_source(&none, 0, &source));
    SEE(entry_source, NO_VERSION, antientropy_entry_source(&made, 2, &source));
    SEE(entries, EMPTY, antientropy_entries(&none, 0, out, ROOM, &need, &source));
    SEE(entries, BAD_POSITION, antientropy_entries(&made, 3, out, ROOM, &need, &source));
    SEE(entries, SMALL, antientropy_entries(&made, 0, out, 3, &need, &source));
    positions();
    SEE(about, EMPTY, antientropy_about(&none, &about));
    OK(antientropy_about(&made, &about));
    is("two entries of format 2 in the only range",
       about.format == 2 && about.bits == 0 && about.range == 0 && about.entries == 2);
    sizes();
    SEE(top_counter, EMPTY, antientropy_top_counter(&none, 0, KEY, 4, 2, &source));
    SEE(top_counter, BAD_CLOCK, antientropy_top_counter(&made, 0, KEY, 4, 2, &source));
    SEE(top_counter, BAD_CLOCK, antientropy_top_counter(&made, ANTIENTROPY_NODE_MAX + 1, KEY, 4, 2, &source));
}

static void clocks(void)
{
    struct antientropy_pair zero = {0, 1};
    struct antientropy_spot spot;
    uint64_t order;
    SEE(compare, BAD_CLOCK, antientropy_compare(many, 1, &zero, 1, &order));
    SEE(compare, CLOCK_FULL, antientropy_compare(many, PAIRS, many, 1, &order));
    SEE(merge, BAD_CLOCK, antientropy_merge(&zero, 1, many, 1, pairs, 32, &need));
    SEE(merge, CLOCK_FULL, antientropy_merge(many, 1, many, PAIRS, pairs, 32, &need));
    SEE(merge, CLOCK_FULL, antientropy_merge(many, 32, many + 32, 1, pairs, 32, &need));
    SEE(merge, SMALL, antientropy_merge(many, 1, many, 2, pairs, 1, &need));
    SEE(name, SMALL, antientropy_name(ANTIENTROPY_BAD_KEY, out, 5, &need));
    SEE(place, BAD_RING, antientropy_place(3, 0, KEY, 4, &spot));
    SEE(place, BAD_RING, antientropy_place(1, ANTIENTROPY_BITS_MAX + 1, KEY, 4, &spot));
    SEE(place, BAD_KEY, antientropy_place(1, 0, KEY, 0, &spot));
}

/* Writes the message that offers a replica's current rows. */
static void offer_now(struct antientropy_replica *replica, struct antientropy_snapshot *snapshot, uint8_t *offer)
{
    OK(antientropy_rehash(replica));
    OK(antientropy_snapshot(replica, snapshot));
    OK(antientropy_offer(snapshot, OFFER, offer, ANTIENTROPY_OFFER_LEN, &need));
}

/* Handles of one snapshot of the replica `made`, and reads of it. */
static void read_snapshot(struct antientropy_snapshot *snapshot)
{
    struct antientropy_snapshot other = {0};
    struct antientropy_spot spot;
    uint8_t row[ROOM], key[8] = "c-------", digest[ANTIENTROPY_ROOT_LEN];
    uint64_t row_len, len = 1, leaf;
    SEE(snapshot_share, EMPTY, antientropy_snapshot_share(&nothing, &other));
    OK(antientropy_snapshot_share(snapshot, &other));
    SEE(snapshot_share, HELD, antientropy_snapshot_share(snapshot, &other));
    OK(antientropy_root(snapshot, digest, sizeof digest, &need));
    antientropy_snapshot_free(snapshot);
    OK(antientropy_digest(&other, 0, 0, out, ROOM, &need));
    is("the rows are freed with the last handle", memcmp(digest, out, sizeof digest) == 0);

    SEE(snapshot_get, EMPTY, antientropy_snapshot_get(&nothing, KEY, 4, out, ROOM, &need));
    SEE(snapshot_get, BAD_KEY, antientropy_snapshot_get(&other, KEY, 0, out, ROOM, &need));
    SEE(snapshot_get, SMALL, antientropy_snapshot_get(&other, KEY, 4, out, 1, &need));
    OK(antientropy_snapshot_get(&other, KEY, 4, out, ROOM, &need));
    OK(antientropy_get(&made, KEY, 4, row, ROOM, &row_len));
    is("the row is the replica's", need == row_len && need > 0 && memcmp(row, out, need) == 0);
    OK(antientropy_snapshot_get(&other, KEY, 3, out, ROOM, &need));
    is("another key has no row", need == 0);

    OK(antientropy_place(2, 0, KEY, 4, &spot));
    leaf = spot.leaf;
    SEE(snapshot_key_next, EMPTY, antientropy_snapshot_key_next(&nothing, leaf, key, sizeof key, &len));
    SEE(snapshot_key_next, BAD_MESSAGE,
        antientropy_snapshot_key_next(&other, ANTIENTROPY_LEAVES_2, key, sizeof key, &len));
    SEE(snapshot_key_next, SMALL, antientropy_snapshot_key_next(&other, leaf, key, 3, &len));
    OK(antientropy_snapshot_key_next(&other, leaf, key, sizeof key, &len));
    is("snapshot_key_next finds the key", len == 4 && memcmp(key, "cart----", sizeof key) == 0);
    SEE(snapshot_key_next, NO_VERSION, antientropy_snapshot_key_next(&other, leaf, key, sizeof key, &len));
    len = sizeof key + 1;
    SEE(snapshot_key_next, BAD_KEY, antientropy_snapshot_key_next(&other, leaf, key, sizeof key, &len));

    SEE(digest, EMPTY, antientropy_digest(&nothing, 0, 0, out, ROOM, &need));
    SEE(digest, BAD_MESSAGE, antientropy_digest(&other, 4, 0, out, ROOM, &need));
    SEE(digest, BAD_MESSAGE, antientropy_digest(&other, 1, 16, out, ROOM, &need));
    SEE(digest, SMALL, antientropy_digest(&other, 3, leaf, out, ANTIENTROPY_ROOT_LEN - 1, &need));
    antientropy_snapshot_free(&other);
}

static void snapshots_and_loads(void)
{
    struct antientropy_snapshot snapshot = {0};
    struct antientropy_offer_parts parts;
    struct antientropy_loaded loaded;
    struct antientropy_replica half = {0}, full = {0}, small = {0}, one = {0};
    uint8_t offer[ANTIENTROPY_OFFER_LEN], ask[ANTIENTROPY_ASK_LEN] = {2, 0, 0, 0, OFFER, 0, 0, 0}, row[ROOM];
    struct antientropy_about about;
    uint64_t row_len, bytes;
    SEE(snapshot, DIRTY, antientropy_snapshot(&made, &snapshot));
    offer_now(&made, &snapshot, offer);
    SEE(snapshot, EMPTY, antientropy_snapshot(&none, &nothing));
    SEE(snapshot, HELD, antientropy_snapshot(&made, &snapshot));
    SEE(snapshot_about, EMPTY, antientropy_snapshot_about(&nothing, &about));
    OK(antientropy_snapshot_about(&snapshot, &about));
    is("the snapshot has two entries of format 2", about.format == 2 && about.range == 0 && about.entries == 2);
    SEE(snapshot_bytes, EMPTY, antientropy_snapshot_bytes(&nothing, &bytes));
    OK(antientropy_snapshot_bytes(&snapshot, &bytes));
    OK(antientropy_get(&made, KEY, 4, out, ROOM, &need));
    is("the snapshot has the length of the row", bytes == need);
    SEE(root, EMPTY, antientropy_root(&nothing, out, ROOM, &need));
    SEE(root, SMALL, antientropy_root(&snapshot, out, ANTIENTROPY_ROOT_LEN - 1, &need));
    SEE(offer, EMPTY, antientropy_offer(&nothing, OFFER, out, ROOM, &need));
    SEE(offer, SMALL, antientropy_offer(&snapshot, OFFER, out, ANTIENTROPY_OFFER_LEN - 1, &need));
    SEE(read_offer, BAD_MESSAGE, antientropy_read_offer(ask, sizeof ask, &parts));
    SEE(serve, EMPTY, antientropy_serve(&nothing, OFFER, ask, sizeof ask, out, ROOM, &need));
    SEE(serve, BAD_MESSAGE, antientropy_serve(&snapshot, OFFER, offer, sizeof offer, out, ROOM, &need));
    SEE(serve, GONE, antientropy_serve(&snapshot, OTHER_OFFER, ask, sizeof ask, out, ROOM, &need));
    SEE(serve, SMALL, antientropy_serve(&snapshot, OFFER, ask, sizeof ask, out, 1, &need));
    SEE(rows, EMPTY, antientropy_rows(&nothing, 0, out, ROOM, &need));
    SEE(rows, BAD_MESSAGE, antientropy_rows(&snapshot, ANTIENTROPY_LEAVES_2, out, ROOM, &need));
    struct antientropy_spot spot;
    OK(antientropy_place(2, 0, KEY, 4, &spot));
    SEE(rows, SMALL, antientropy_rows(&snapshot, spot.leaf, out, 1, &need));
    read_snapshot(&snapshot);

    OK(antientropy_get(&made, KEY, 4, row, ROOM, &row_len));
    OK(antientropy_new(&half, 2, 1, 0, 1000));
    OK(antientropy_new(&full, 2, 0, 0, 1000));
    OK(antientropy_new(&small, 2, 0, 0, 1));
    OK(antientropy_place(2, 1, KEY, 4, &spot));
    if (spot.range == 0) {
        antientropy_free(&half);
        OK(antientropy_new(&half, 2, 1, 1, 1000));
    }
    accept(&full, 100, ANTIENTROPY_VERSIONS_MAX);
    SEE(load, EMPTY, antientropy_load(&none, row, row_len, &loaded));
    SEE(load, ROW_BROKEN, antientropy_load(&made, row, row_len - 1, &loaded));
    SEE(load, OTHER_RANGE, antientropy_load(&half, row, row_len, &loaded));
    SEE(load, CROWDED, antientropy_load(&full, row, row_len, &loaded));
    SEE(load, JOURNAL_FULL, antientropy_load(&small, row, row_len, &loaded));
    OK(antientropy_new(&one, 1, 0, 0, 1000));
    SEE(load_format, EMPTY, antientropy_load_format(&none, 3, row, row_len, &loaded));
    SEE(load_format, BAD_RING, antientropy_load_format(&one, 0, row, row_len, &loaded));
    SEE(load_format, BAD_RING, antientropy_load_format(&one, 3, row, row_len, &loaded));
    SEE(load_format, OTHER_FORMAT, antientropy_load_format(&one, 2, row, row_len - 1, &loaded));
    SEE(load_format, ROW_BROKEN, antientropy_load_format(&made, 1, row, row_len, &loaded));
    SEE(load_format, ROW_BROKEN, antientropy_load_format(&made, 2, row, row_len - 1, &loaded));
    SEE(load_format, OTHER_RANGE, antientropy_load_format(&half, 2, row, row_len, &loaded));
    SEE(load_format, CROWDED, antientropy_load_format(&full, 2, row, row_len, &loaded));
    SEE(load_format, JOURNAL_FULL, antientropy_load_format(&small, 2, row, row_len, &loaded));
    antientropy_free(&one);
    antientropy_free(&half);
    antientropy_free(&full);
    antientropy_free(&small);
}

/* The bytes of an answer for the root. */
static size_t root_answer(uint8_t *answer, const char *text)
{
    uint8_t head[ANSWER_HEAD] = {3, 0, 0, 0, OFFER, 0, 0, 0};
    head[ANSWER_HEAD - 1] = (uint8_t)strlen(text);
    memcpy(answer, head, ANSWER_HEAD);
    memcpy(answer + ANSWER_HEAD, text, strlen(text));
    return ANSWER_HEAD + strlen(text);
}

/* Takes answers from a snapshot until one is refused, and returns the refusal. */
static uint32_t take_all(struct antientropy_replica *replica, uint64_t session, struct antientropy_snapshot *snapshot)
{
    struct antientropy_taken taken;
    uint8_t ask[ANTIENTROPY_ASK_LEN];
    uint32_t got = ANTIENTROPY_OK;
    uint64_t len;
    while (got == ANTIENTROPY_OK) {
        OK(antientropy_ask(replica, session, OFFER, ask, sizeof ask, &len));
        OK(antientropy_serve(snapshot, OFFER, ask, len, out, ROOM, &need));
        got = antientropy_take(replica, session, OFFER, out, need, &taken);
    }
    return got;
}

static void sessions(void)
{
    struct antientropy_replica replica = {0}, one = {0}, half = {0}, full = {0}, small = {0};
    struct antientropy_snapshot snapshot = {0};
    struct antientropy_taken taken;
    uint8_t offer[ANTIENTROPY_OFFER_LEN], forged[ANTIENTROPY_OFFER_LEN], answer[ROOM];
    uint64_t session, count, state, other;
    size_t len;
    offer_now(&made, &snapshot, offer);
    OK(antientropy_new(&replica, 2, 0, 0, 1000));
    OK(antientropy_new(&one, 1, 0, 0, 1000));
    OK(antientropy_new(&half, 2, 1, 1, 1000));
    SEE(open, EMPTY, antientropy_open(&none, 2, offer, sizeof offer, &session));
    SEE(open, BAD_CLOCK, antientropy_open(&replica, ANTIENTROPY_NODE_MAX + 1, offer, sizeof offer - 1, &session));
    SEE(open, BAD_MESSAGE, antientropy_open(&replica, 2, offer, sizeof offer - 1, &session));
    SEE(open, OTHER_FORMAT, antientropy_open(&one, 2, offer, sizeof offer, &session));
    SEE(open, OTHER_RANGE, antientropy_open(&half, 2, offer, sizeof offer, &session));
    SEE(open, DIRTY, antientropy_open(&replica, 2, offer, sizeof offer, &session));
    SEE(open_at_moment, EMPTY, antientropy_open_at_moment(&none, 2, offer, sizeof offer, &session));
    SEE(open_at_moment, BAD_CLOCK,
        antientropy_open_at_moment(&replica, ANTIENTROPY_NODE_MAX + 1, offer, sizeof offer - 1, &session));
    SEE(open_at_moment, BAD_MESSAGE, antientropy_open_at_moment(&replica, 2, offer, sizeof offer - 1, &session));
    SEE(open_at_moment, OTHER_FORMAT, antientropy_open_at_moment(&one, 2, offer, sizeof offer, &session));
    SEE(open_at_moment, OTHER_RANGE, antientropy_open_at_moment(&half, 2, offer, sizeof offer, &session));
    SEE(open_at_moment, DIRTY, antientropy_open_at_moment(&replica, 2, offer, sizeof offer, &session));
    OK(antientropy_hold(&replica));
    SEE(open_at_moment, DIRTY, antientropy_open_at_moment(&replica, 2, offer, sizeof offer, &session));
    OK(antientropy_hash_moment(&replica, ANTIENTROPY_LEAVES_2, &need));
    is("two levels are left", need == 1 + 16 + 256);
    while (need > 0)
        OK(antientropy_hash_moment(&replica, ANTIENTROPY_LEAVES_2, &need));
    OK(antientropy_open_at_moment(&replica, 2, offer, sizeof offer, &session));
    OK(antientropy_cancel(&replica, session));
    OK(antientropy_open(&replica, 2, offer, sizeof offer, &session));
    SEE(outstanding, EMPTY, antientropy_outstanding(&none, session, &count));
    SEE(outstanding, UNKNOWN_SESSION, antientropy_outstanding(&replica, session + 1, &count));
    SEE(ask, EMPTY, antientropy_ask(&none, session, OFFER, out, ROOM, &need));
    SEE(ask, UNKNOWN_SESSION, antientropy_ask(&replica, session + 1, OFFER, out, ROOM, &need));
    SEE(ask, SMALL, antientropy_ask(&replica, session, OFFER, out, ANTIENTROPY_ASK_LEN - 1, &need));
    SEE(ask_at, EMPTY, antientropy_ask_at(&none, session, 0, OFFER, out, ROOM, &need));
    SEE(ask_at, UNKNOWN_SESSION, antientropy_ask_at(&replica, session + 1, 0, OFFER, out, ROOM, &need));
    SEE(ask_at, SMALL, antientropy_ask_at(&replica, session, 0, OFFER, out, ANTIENTROPY_ASK_LEN - 1, &need));
    SEE(outline_at, EMPTY, antientropy_outline_at(&none, session, 0, OFFER, 0, out, ROOM, &need));
    SEE(outline_at, BAD_MESSAGE, antientropy_outline_at(&replica, session + 1, 0, OFFER, 0, out, ROOM, &need));
    SEE(outline_at, BAD_MESSAGE, antientropy_outline_at(&replica, session + 1, 0, OFFER, 9, out, ROOM, &need));
    SEE(outline_at, UNKNOWN_SESSION, antientropy_outline_at(&replica, session + 1, 0, OFFER, 8, out, ROOM, &need));
    SEE(outline_at, SMALL, antientropy_outline_at(&replica, session, 0, OFFER, 1, out, ROOT_OUTLINE_LEN - 1, &need));
    OK(antientropy_outline_at(&replica, session, 0, OFFER, 1, out, ROOT_OUTLINE_LEN, &need));
    is("an outline has a mark for each child", need == ROOT_OUTLINE_LEN);
    OK(antientropy_outline_at(&replica, session, 1, OFFER, 1, out, ROOM, &need));
    is("no second node is outstanding", need == 0);
    len = root_answer(answer, "abc");
    SEE(take, EMPTY, antientropy_take(&none, session, OFFER, answer, len, &taken));
    SEE(take, BAD_MESSAGE, antientropy_take(&replica, session, OTHER_OFFER, answer, len, &taken));
    SEE(take, UNKNOWN_SESSION, antientropy_take(&replica, session + 1, OFFER, answer, len, &taken));
    SEE(take, WRONG_DIGEST, antientropy_take(&replica, session, OFFER, answer, len, &taken));
    SEE(take, BAD_MESSAGE,
        antientropy_take(&replica, session + 1, OTHER_OFFER, BROKEN_STEP, sizeof BROKEN_STEP, &taken));
    SEE(take, UNKNOWN_SESSION,
        antientropy_take(&replica, session + 1, OFFER, BROKEN_STEP, sizeof BROKEN_STEP, &taken));
    SEE(take, BAD_MESSAGE, antientropy_take(&replica, session, OFFER, BROKEN_STEP, sizeof BROKEN_STEP, &taken));
    SEE(take, WRONG_DIGEST, antientropy_take(&replica, session, OFFER, NO_STEPS, sizeof NO_STEPS, &taken));
    memcpy(forged, offer, sizeof offer);
    memcpy(forged + ANTIENTROPY_OFFER_LEN - ANTIENTROPY_ROOT_LEN, ABC_DIGEST, ANTIENTROPY_ROOT_LEN);
    OK(antientropy_open(&replica, 2, forged, sizeof forged, &other));
    SEE(take, NOT_CANONICAL, antientropy_take(&replica, other, OFFER, answer, len, &taken));
    SEE(take, NOT_ASKED, antientropy_take(&replica, other, OFFER, answer, len, &taken));
    SEE(take, NOT_ASKED, antientropy_take(&replica, other, OFFER, BROKEN_STEP, sizeof BROKEN_STEP, &taken));
    SEE(cancel, EMPTY, antientropy_cancel(&none, session));
    SEE(cancel, UNKNOWN_SESSION, antientropy_cancel(&replica, session + 2));
    SEE(drop_sessions, EMPTY, antientropy_drop_sessions(&none));
    SEE(session, EMPTY, antientropy_session(&none, session, &state));
    SEE(session, UNKNOWN_SESSION, antientropy_session(&replica, session + 2, &state));
    for (unsigned n = 1; n < ANTIENTROPY_OPEN_SESSIONS_MAX; n++)
        OK(antientropy_open(&replica, 2, offer, sizeof offer, &session));
    SEE(open, SESSIONS_FULL, antientropy_open(&replica, 2, offer, sizeof offer, &session));
    SEE(open_at_moment, SESSIONS_FULL, antientropy_open_at_moment(&replica, 2, offer, sizeof offer, &session));

    OK(antientropy_new(&full, 2, 0, 0, 1000));
    OK(antientropy_new(&small, 2, 0, 0, 1));
    accept(&full, 100, ANTIENTROPY_VERSIONS_MAX);
    OK(antientropy_rehash(&full));
    OK(antientropy_rehash(&small));
    OK(antientropy_open(&full, 2, offer, sizeof offer, &session));
    SEE(take, CROWDED, take_all(&full, session, &snapshot));
    OK(antientropy_open(&small, 2, offer, sizeof offer, &session));
    SEE(take, JOURNAL_FULL, take_all(&small, session, &snapshot));
    antientropy_snapshot_free(&snapshot);
    antientropy_free(&replica);
    antientropy_free(&one);
    antientropy_free(&half);
    antientropy_free(&full);
    antientropy_free(&small);
}

/* Exchanges with the offer of a snapshot, at a replica without any of its versions. */
static void exchanges(void)
{
    static const struct antientropy_bounds bounds = {.asks = 1, .bytes = ROOM, .bad = 1, .lost = 1};
    struct antientropy_replica replica = {0}, one = {0}, half = {0};
    struct antientropy_snapshot snapshot = {0};
    struct antientropy_exchange exchange = {0}, empty = {0};
    struct antientropy_progress progress;
    struct antientropy_verdict verdict;
    struct antientropy_node node;
    uint8_t offer[ANTIENTROPY_OFFER_LEN], ask[ANTIENTROPY_ASK_LEN];
    uint64_t session;
    offer_now(&made, &snapshot, offer);
    OK(antientropy_new(&replica, 2, 0, 0, 1000));
    OK(antientropy_new(&one, 1, 0, 0, 1000));
    OK(antientropy_new(&half, 2, 1, 1, 1000));
    SEE(exchange_open, EMPTY, antientropy_exchange_open(&none, &exchange, 2, offer, sizeof offer, &bounds));
    SEE(exchange_open, BAD_CLOCK, antientropy_exchange_open(&replica, &exchange, ANTIENTROPY_NODE_MAX + 1, offer,
                                                            sizeof offer - 1, &bounds));
    SEE(exchange_open, BAD_MESSAGE,
        antientropy_exchange_open(&replica, &exchange, 2, offer, sizeof offer - 1, &bounds));
    SEE(exchange_open, OTHER_FORMAT, antientropy_exchange_open(&one, &exchange, 2, offer, sizeof offer, &bounds));
    SEE(exchange_open, OTHER_RANGE, antientropy_exchange_open(&half, &exchange, 2, offer, sizeof offer, &bounds));
    SEE(exchange_open, DIRTY, antientropy_exchange_open(&replica, &exchange, 2, offer, sizeof offer, &bounds));
    OK(antientropy_hold(&replica));
    do
        OK(antientropy_hash_moment(&replica, ANTIENTROPY_LEAVES_2, &need));
    while (need > 0);
    OK(antientropy_exchange_open(&replica, &exchange, 2, offer, sizeof offer, &bounds));
    SEE(exchange_open, HELD,
        antientropy_exchange_open(&replica, &exchange, ANTIENTROPY_NODE_MAX + 1, offer, sizeof offer, &bounds));
    SEE(exchange_next, EMPTY, antientropy_exchange_next(&empty, &replica, ask, sizeof ask, &need));
    SEE(exchange_next, EMPTY, antientropy_exchange_next(&exchange, &none, ask, sizeof ask, &need));
    SEE(exchange_next, SMALL, antientropy_exchange_next(&exchange, &replica, ask, sizeof ask - 1, &need));
    is("8 bytes are needed", need == ANTIENTROPY_ASK_LEN);
    OK(antientropy_exchange_next(&exchange, &replica, ask, sizeof ask, &need));
    is("the root is asked", need == sizeof ask && ask[5] == 0);
    OK(antientropy_exchange_next(&exchange, &replica, ask, sizeof ask, &need));
    is("the bounds leave no room", need == 0 && ask[0] == 2);
    SEE(exchange_take, EMPTY, antientropy_exchange_take(&empty, &replica, ask, sizeof ask, &verdict));
    SEE(exchange_take, EMPTY, antientropy_exchange_take(&exchange, &none, ask, sizeof ask, &verdict));
    OK(antientropy_exchange_take(&exchange, &replica, ask, sizeof ask, &verdict));
    is("an ask is no answer",
       verdict.verdict == ANTIENTROPY_VERDICT_BAD && verdict.cause == ANTIENTROPY_BAD_MESSAGE);
    SEE(exchange_lose, EMPTY, antientropy_exchange_lose(&empty, ask, sizeof ask));
    SEE(exchange_lose, BAD_MESSAGE, antientropy_exchange_lose(&exchange, offer, sizeof offer));
    ask[4] = OTHER_OFFER;
    OK(antientropy_exchange_lose(&exchange, ask, sizeof ask));
    SEE(exchange_report, EMPTY, antientropy_exchange_report(&empty, &replica, &progress));
    SEE(exchange_report, EMPTY, antientropy_exchange_report(&exchange, &none, &progress));
    OK(antientropy_exchange_report(&exchange, &replica, &progress));
    is("no ask is lost", progress.lost == 0 && progress.bad == 1 && progress.in_flight == 1);
    ask[4] = OFFER;
    OK(antientropy_exchange_lose(&exchange, ask, sizeof ask));
    OK(antientropy_exchange_report(&exchange, &replica, &progress));
    is("the root is lost",
        progress.lost == 1 && progress.in_flight == 0 && progress.report == ANTIENTROPY_REPORT_WAITING);
    SEE(exchange_go_on, EMPTY, antientropy_exchange_go_on(&empty));
    OK(antientropy_exchange_go_on(&exchange));
    SEE(exchange_left, EMPTY, antientropy_exchange_left(&empty, &replica, 0, &node));
    SEE(exchange_left, EMPTY, antientropy_exchange_left(&exchange, &none, 0, &node));
    SEE(exchange_left, NO_VERSION, antientropy_exchange_left(&exchange, &replica, 0, &node));
    SEE(exchange_close, EMPTY, antientropy_exchange_close(&empty, &replica));
    SEE(exchange_close, EMPTY, antientropy_exchange_close(&exchange, &none));
    OK(antientropy_exchange_close(&exchange, &replica));
    OK(antientropy_exchange_report(&exchange, &replica, &progress));
    is("the exchange is closed", progress.report == ANTIENTROPY_REPORT_CLOSED);
    for (unsigned n = 0; n < ANTIENTROPY_OPEN_SESSIONS_MAX; n++)
        OK(antientropy_open_at_moment(&replica, 2, offer, sizeof offer, &session));
    SEE(exchange_open, SESSIONS_FULL, antientropy_exchange_open(&replica, &empty, 2, offer, sizeof offer, &bounds));
    is("nothing is held then", !empty.held);
    antientropy_exchange_free(&exchange);
    antientropy_snapshot_free(&snapshot);
    antientropy_free(&replica);
    antientropy_free(&one);
    antientropy_free(&half);
}

static void hints(void)
{
    struct antientropy_hints empty = {0}, full = {0};
    struct antientropy_hint_counts counts;
    uint64_t id, owner, bytes;
    uint8_t kind;
    OK(antientropy_hints_new(&full));
    SEE(hints_new, HELD, antientropy_hints_new(&full));
    SEE(hints_restore, HELD, antientropy_hints_restore(&full, 0));
    SEE(hints_restore, UNKNOWN_HINT, antientropy_hints_restore(&empty, 0));
    SEE(hint_keep, EMPTY, antientropy_hint_keep(&empty, 2, KEY, 4, many, 1, 0, VALUE, 4, &id));
    SEE(hint_keep, BAD_CLOCK, antientropy_hint_keep(&full, 0, KEY, 4, many, 1, 0, VALUE, 4, &id));
    SEE(hint_keep, BAD_CLOCK,
        antientropy_hint_keep(&full, ANTIENTROPY_NODE_MAX + 1, KEY, 4, many, PAIRS, 0, VALUE, 4, &id));
    SEE(hint_keep, CLOCK_FULL, antientropy_hint_keep(&full, 2, KEY, 4, many, PAIRS, 0, VALUE, 4, &id));
    SEE(hint_keep, BAD_VALUE, antientropy_hint_keep(&full, 2, KEY, 4, many, 1, 2, VALUE, 4, &id));
    SEE(hint_keep, BAD_KEY, antientropy_hint_keep(&full, 2, KEY, 0, many, 1, 0, VALUE, 4, &id));
    SEE(hint_keep, BAD_VALUE, antientropy_hint_keep(&full, 2, KEY, 4, many, 1, 1, VALUE, 4, &id));
    for (unsigned n = 0; n < ANTIENTROPY_HINTS_MAX; n++)
        OK(antientropy_hint_keep(&full, 2, KEY, 4, many, 1, 0, VALUE, 4, &id));
    SEE(hint_keep, HINTS_FULL, antientropy_hint_keep(&full, 2, KEY, 4, many, 1, 0, VALUE, 4, &id));
    SEE(hint_next, EMPTY, antientropy_hint_next(&empty, 2, 0, &id));
    SEE(hint_next, NO_VERSION, antientropy_hint_next(&full, 3, 0, &id));
    SEE(hint_owner, EMPTY, antientropy_hint_owner(&empty, 1, &owner));
    SEE(hint_owner, NO_VERSION, antientropy_hint_owner(&full, 0, &owner));
    SEE(hint_key, EMPTY, antientropy_hint_key(&empty, 1, out, ROOM, &need));
    SEE(hint_key, NO_VERSION, antientropy_hint_key(&full, 0, out, ROOM, &need));
    SEE(hint_key, SMALL, antientropy_hint_key(&full, 1, out, 3, &need));
    SEE(hint_value, EMPTY, antientropy_hint_value(&empty, 1, &kind, out, ROOM, &need));
    SEE(hint_value, NO_VERSION, antientropy_hint_value(&full, 0, &kind, out, ROOM, &need));
    SEE(hint_value, SMALL, antientropy_hint_value(&full, 1, &kind, out, 3, &need));
    SEE(hint_clock, EMPTY, antientropy_hint_clock(&empty, 1, pairs, 32, &need));
    SEE(hint_clock, NO_VERSION, antientropy_hint_clock(&full, 0, pairs, 32, &need));
    SEE(hint_clock, SMALL, antientropy_hint_clock(&full, 1, pairs, 0, &need));
    SEE(hint_confirm, EMPTY, antientropy_hint_confirm(&empty, 1, false));
    OK(antientropy_hint_confirm(&full, 1, false));
    SEE(hint_confirm, UNKNOWN_HINT, antientropy_hint_confirm(&full, 1, false));
    SEE(hints_renew, EMPTY, antientropy_hints_renew(&empty));
    SEE(hints_count, EMPTY, antientropy_hints_count(&empty, &counts));
    SEE(hints_bytes, EMPTY, antientropy_hints_bytes(&empty, &bytes));
    antientropy_hints_free(&full);
}

/* Keeps a hint of a key for owner 2, and returns its number. */
static uint64_t keep(struct antientropy_hints *hints, const char *key)
{
    uint64_t id;
    OK(antientropy_hint_keep(hints, 2, (const uint8_t *)key, strlen(key), many, 1, 0, VALUE, 4, &id));
    return id;
}

/* Ends the program unless a number names the hint of a key. */
static void is_hint(struct antientropy_hints *hints, uint64_t id, const char *key)
{
    OK(antientropy_hint_key(hints, id, out, ROOM, &need));
    is(key, need == strlen(key) && memcmp(out, key, need) == 0);
}

/* A used number never names another hint: neither after a renewal, nor in a store that continues after a restart. */
static void hint_numbers(void)
{
    struct antientropy_hints hints = {0};
    struct antientropy_hint_counts counts;
    uint64_t id, bytes;
    OK(antientropy_hints_new(&hints));
    is("cart is 1", keep(&hints, "cart") == 1);
    is("order is 2", keep(&hints, "order") == 2);
    OK(antientropy_hint_confirm(&hints, 1, false));
    OK(antientropy_hints_renew(&hints));
    OK(antientropy_hint_next(&hints, 2, 0, &id));
    is("order has a new number", id > 2);
    is_hint(&hints, id, "order");
    is("payment is above it", keep(&hints, "payment") > id);
    SEE(hint_key, NO_VERSION, antientropy_hint_key(&hints, 2, out, ROOM, &need));
    SEE(hint_confirm, UNKNOWN_HINT, antientropy_hint_confirm(&hints, 2, false));
    OK(antientropy_hint_next(&hints, 2, id, &id));
    is_hint(&hints, id, "payment");
    OK(antientropy_hints_count(&hints, &counts));
    is("both are pending", counts.pending == 2 && counts.delivered == 0);
    OK(antientropy_hints_bytes(&hints, &bytes));
    is("they have two keys, two values and two pairs", bytes == 5 + 4 + 10 + 7 + 4 + 10);
    antientropy_hints_free(&hints);

    OK(antientropy_hints_restore(&hints, UINT64_MAX - 1));
    is("cart is the number before the last", keep(&hints, "cart") == UINT64_MAX - 1);
    OK(antientropy_hint_confirm(&hints, UINT64_MAX - 1, true));
    OK(antientropy_hints_renew(&hints));
    is("order is the last number", keep(&hints, "order") == UINT64_MAX);
    SEE(hint_keep, HINTS_FULL, antientropy_hint_keep(&hints, 2, KEY, 4, many, 1, 0, VALUE, 4, &id));
    SEE(hints_renew, HINTS_FULL, antientropy_hints_renew(&hints));
    is_hint(&hints, UINT64_MAX, "order");
    antientropy_hints_free(&hints);
}

static void slots(void)
{
    struct antientropy_slots empty = {0}, full = {0};
    struct antientropy_slot_counts counts;
    struct antientropy_percentile p99;
    OK(antientropy_slots_new(&full, 2, ANTIENTROPY_SLOTS_MAX, 1));
    SEE(slots_new, HELD, antientropy_slots_new(&full, 1, 1, 1));
    SEE(slots_new, BAD_RING, antientropy_slots_new(&empty, 0, 1, 1));
    SEE(slots_new, BAD_RING, antientropy_slots_new(&empty, 2, 1, 1));
    SEE(slots_new, BAD_RING, antientropy_slots_new(&empty, 1, ANTIENTROPY_SLOTS_MAX + 1, 1));
    SEE(slot_lend, EMPTY, antientropy_slot_lend(&empty));
    SEE(slot_give_back, EMPTY, antientropy_slot_give_back(&empty));
    SEE(slot_give_back, NO_SLOT, antientropy_slot_give_back(&full));
    for (unsigned n = 0; n < ANTIENTROPY_SLOTS_MAX; n++)
        OK(antientropy_slot_lend(&full));
    SEE(slot_lend, NO_SLOT, antientropy_slot_lend(&full));
    SEE(slots_sample, EMPTY, antientropy_slots_sample(&empty, 1, 1));
    OK(antientropy_slots_sample(&full, 5, 1));
    SEE(slots_sample, CLOCK_BACK, antientropy_slots_sample(&full, 4, 1));
    SEE(slots_adjust, EMPTY, antientropy_slots_adjust(&empty, 5, &p99));
    SEE(slots_adjust, CLOCK_BACK, antientropy_slots_adjust(&full, 4, &p99));
    SEE(slots_set_target, EMPTY, antientropy_slots_set_target(&empty, 1));
    SEE(slots_set_target, BAD_RING, antientropy_slots_set_target(&full, 1));
    SEE(slots_set_target, BAD_RING, antientropy_slots_set_target(&full, ANTIENTROPY_SLOTS_MAX + 1));
    SEE(slots_count, EMPTY, antientropy_slots_count(&empty, &counts));
    antientropy_slots_free(&full);
}

/* The outputs of calls, filled with a byte that none of them writes. */
static struct results {
    uint8_t bytes[256], kind;
    uint64_t number, next;
    struct antientropy_pair pairs[ANTIENTROPY_CLOCK_MAX];
    struct antientropy_receipt receipt;
    struct antientropy_reading reading;
    struct antientropy_taken taken;
    struct antientropy_loaded loaded;
    struct antientropy_counts counts;
    struct antientropy_bytes sizes;
    struct antientropy_about about;
    struct antientropy_hint_counts hint_counts;
    struct antientropy_slot_counts slot_counts;
    struct antientropy_percentile percentile;
    struct antientropy_verdict verdict;
    struct antientropy_progress progress;
    struct antientropy_node node;
} results;

#define EMPTY(got) is(#got " is EMPTY", (got) == ANTIENTROPY_EMPTY)

static void empty_replicas(struct results *at)
{
    static struct antientropy_replica empty;
    EMPTY(antientropy_count(&empty, &at->counts));
    EMPTY(antientropy_put(&empty, 1, KEY, 4, many, 1, 0, VALUE, 4, &at->receipt));
    EMPTY(antientropy_put_read(&empty, 1, KEY, 4, many, 1, 0, VALUE, 4, &at->receipt));
    EMPTY(antientropy_accept(&empty, KEY, 4, many, 1, 0, VALUE, 4, &at->number));
    EMPTY(antientropy_get(&empty, KEY, 4, at->bytes, sizeof at->bytes, &at->number));
    EMPTY(antientropy_versions(&empty, KEY, 4, &at->number));
    EMPTY(antientropy_value(&empty, KEY, 4, 0, &at->kind, at->bytes, sizeof at->bytes, &at->number));
    EMPTY(antientropy_clock(&empty, KEY, 4, 0, at->pairs, ANTIENTROPY_CLOCK_MAX, &at->number));
    EMPTY(antientropy_read(&empty, KEY, 4, 0, &at->reading, at->pairs, ANTIENTROPY_CLOCK_MAX, at->bytes,
                           sizeof at->bytes));
    EMPTY(antientropy_key_after(&empty, 0, KEY, 0, at->bytes, sizeof at->bytes, &at->number));
    EMPTY(antientropy_key_next(&empty, 0, at->bytes, sizeof at->bytes, &at->number));
    EMPTY(antientropy_entry_key(&empty, 0, at->bytes, sizeof at->bytes, &at->number));
    EMPTY(antientropy_entry_value(&empty, 0, &at->kind, at->bytes, sizeof at->bytes, &at->number));
    EMPTY(antientropy_entry_clock(&empty, 0, at->pairs, ANTIENTROPY_CLOCK_MAX, &at->number));
    EMPTY(antientropy_entry_source(&empty, 0, &at->number));
    EMPTY(antientropy_entries(&empty, 0, at->bytes, sizeof at->bytes, &at->number, &at->next));
    EMPTY(antientropy_about(&empty, &at->about));
    EMPTY(antientropy_bytes(&empty, &at->sizes));
    EMPTY(antientropy_top_counter(&empty, 1, KEY, 4, 1, &at->number));
    EMPTY(antientropy_rehash(&empty));
    EMPTY(antientropy_rehash_some(&empty, 1, &at->number));
    EMPTY(antientropy_hold(&empty));
    EMPTY(antientropy_drop_moment(&empty));
    EMPTY(antientropy_hash_moment(&empty, 1, &at->number));
    EMPTY(antientropy_migrate(&empty));
    EMPTY(antientropy_load(&empty, VALUE, 4, &at->loaded));
    EMPTY(antientropy_load_format(&empty, 2, VALUE, 4, &at->loaded));
    EMPTY(antientropy_open(&empty, 1, VALUE, 4, &at->number));
    EMPTY(antientropy_open_at_moment(&empty, 1, VALUE, 4, &at->number));
    EMPTY(antientropy_outstanding(&empty, 0, &at->number));
    EMPTY(antientropy_ask_at(&empty, 0, 0, OFFER, at->bytes, sizeof at->bytes, &at->number));
    EMPTY(antientropy_ask(&empty, 0, OFFER, at->bytes, sizeof at->bytes, &at->number));
    EMPTY(antientropy_outline_at(&empty, 0, 0, OFFER, 1, at->bytes, sizeof at->bytes, &at->number));
    EMPTY(antientropy_take(&empty, 0, OFFER, VALUE, 4, &at->taken));
    EMPTY(antientropy_cancel(&empty, 0));
    EMPTY(antientropy_session(&empty, 0, &at->number));
    is("the replica is empty", !empty.held);
}

static void empty_others(struct results *at)
{
    static struct antientropy_snapshot snapshot;
    static struct antientropy_portion portion;
    static struct antientropy_exchange exchange;
    static struct antientropy_hints hints;
    static struct antientropy_slots slots;
    EMPTY(antientropy_snapshot_about(&snapshot, &at->about));
    EMPTY(antientropy_snapshot_bytes(&snapshot, &at->number));
    EMPTY(antientropy_root(&snapshot, at->bytes, sizeof at->bytes, &at->number));
    EMPTY(antientropy_offer(&snapshot, OFFER, at->bytes, sizeof at->bytes, &at->number));
    EMPTY(antientropy_serve(&snapshot, OFFER, VALUE, 4, at->bytes, sizeof at->bytes, &at->number));
    EMPTY(antientropy_rows(&snapshot, 0, at->bytes, sizeof at->bytes, &at->number));
    EMPTY(antientropy_snapshot_get(&snapshot, KEY, 4, at->bytes, sizeof at->bytes, &at->number));
    EMPTY(antientropy_snapshot_key_next(&snapshot, 0, at->bytes, sizeof at->bytes, &at->number));
    EMPTY(antientropy_digest(&snapshot, 0, 0, at->bytes, sizeof at->bytes, &at->number));
    EMPTY(antientropy_hash_portion(&portion));
    EMPTY(antientropy_exchange_next(&exchange, &made, at->bytes, sizeof at->bytes, &at->number));
    EMPTY(antientropy_exchange_take(&exchange, &made, VALUE, 4, &at->verdict));
    EMPTY(antientropy_exchange_lose(&exchange, VALUE, 4));
    EMPTY(antientropy_exchange_go_on(&exchange));
    EMPTY(antientropy_exchange_report(&exchange, &made, &at->progress));
    EMPTY(antientropy_exchange_left(&exchange, &made, 0, &at->node));
    EMPTY(antientropy_exchange_close(&exchange, &made));
    EMPTY(antientropy_hint_keep(&hints, 2, KEY, 4, many, 1, 0, VALUE, 4, &at->number));
    EMPTY(antientropy_hint_next(&hints, 2, 0, &at->number));
    EMPTY(antientropy_hint_owner(&hints, 1, &at->number));
    EMPTY(antientropy_hint_key(&hints, 1, at->bytes, sizeof at->bytes, &at->number));
    EMPTY(antientropy_hint_value(&hints, 1, &at->kind, at->bytes, sizeof at->bytes, &at->number));
    EMPTY(antientropy_hint_clock(&hints, 1, at->pairs, ANTIENTROPY_CLOCK_MAX, &at->number));
    EMPTY(antientropy_hint_confirm(&hints, 1, false));
    EMPTY(antientropy_hints_renew(&hints));
    EMPTY(antientropy_hints_count(&hints, &at->hint_counts));
    EMPTY(antientropy_hints_bytes(&hints, &at->number));
    EMPTY(antientropy_slot_lend(&slots));
    EMPTY(antientropy_slot_give_back(&slots));
    EMPTY(antientropy_slots_sample(&slots, 1, 1));
    EMPTY(antientropy_slots_adjust(&slots, 1, &at->percentile));
    EMPTY(antientropy_slots_set_target(&slots, 1));
    EMPTY(antientropy_slots_count(&slots, &at->slot_counts));
    is("the handles are empty",
       !snapshot.held && !portion.held && !exchange.held && !hints.held && !slots.held);
}

/* Reads the root of a snapshot. */
static void root_of(const struct antientropy_snapshot *snapshot, uint8_t *root)
{
    OK(antientropy_root(snapshot, root, ANTIENTROPY_ROOT_LEN, &need));
}

/* A call of an empty handle writes nothing, and doesn't change the handle that it would fill, even if that one holds
 * something. */
static void empty_handles(void)
{
    struct antientropy_replica empty = {0}, full = {0}, before;
    struct antientropy_snapshot snapshot = {0}, now = {0}, kept;
    struct antientropy_portion portion = {0};
    struct antientropy_counts counts;
    static struct results blank;
    uint8_t root[ANTIENTROPY_ROOT_LEN], after[ANTIENTROPY_ROOT_LEN];
    memset(&results, 0xa5, sizeof results);
    memset(&blank, 0xa5, sizeof blank);
    empty_replicas(&results);
    empty_others(&results);
    is("calls of empty handles write nothing", memcmp(&results, &blank, sizeof results) == 0);

    OK(antientropy_new(&full, 2, 0, 0, 1000));
    accept(&full, 1, 2);
    OK(antientropy_rehash(&full));
    OK(antientropy_snapshot(&full, &snapshot));
    root_of(&snapshot, root);
    before = full;
    kept = snapshot;
    EMPTY(antientropy_renew(&empty, &full, 1000));
    EMPTY(antientropy_snapshot(&empty, &snapshot));
    EMPTY(antientropy_moment(&empty, &snapshot));
    EMPTY(antientropy_snapshot_share(&now, &snapshot));
    EMPTY(antientropy_take_portion(&empty, 1, &portion));
    EMPTY(antientropy_install_portion(&full, &portion, &results.number));
    is("the handles are unchanged", full.held && full.at == before.at && snapshot.held && snapshot.at == kept.at
                                        && !empty.held && !portion.held);
    OK(antientropy_take_portion(&full, 1, &portion));
    EMPTY(antientropy_install_portion(&empty, &portion, &results.number));
    is("the portion is kept", portion.held && memcmp(&results, &blank, sizeof results) == 0);
    antientropy_portion_free(&portion);
    OK(antientropy_count(&full, &counts));
    is("the replica is unchanged", counts.entries == 2 && counts.dirty == 0);
    root_of(&snapshot, after);
    is("the snapshot is unchanged", memcmp(root, after, sizeof root) == 0);
    OK(antientropy_snapshot(&full, &now));
    root_of(&now, after);
    is("the rows are unchanged", memcmp(root, after, sizeof root) == 0);
    antientropy_snapshot_free(&now);
    antientropy_snapshot_free(&snapshot);
    antientropy_free(&full);
}

int main(void)
{
    for (unsigned n = 0; n < PAIRS; n++)
        many[n] = (struct antientropy_pair){n + 1, 1};
    memset(LONG, 'k', sizeof LONG);
    makes();
    moments();
    renewals();
    puts_and_accepts();
    reads();
    clocks();
    snapshots_and_loads();
    sessions();
    exchanges();
    hints();
    hint_numbers();
    slots();
    empty_handles();
    antientropy_free(&made);
    antientropy_free(NULL);
    antientropy_renewal_free(NULL);
    antientropy_snapshot_free(NULL);
    antientropy_exchange_free(NULL);
    antientropy_hints_free(NULL);
    antientropy_slots_free(NULL);
    return 0;
}
