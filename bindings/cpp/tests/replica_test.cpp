// Replicas, checkpoints, hints, slots, and the calls that need no replica.
#include "support.hpp"

#include <fstream>
#include <sstream>
#include <type_traits>

namespace {

/// The error of a load, or "loaded".
std::string load(const std::string &bytes, std::uint64_t limit = 100) {
    std::istringstream file(bytes);
    const auto loaded = Replica::load(file, limit);
    return loaded ? "loaded" : name(loaded.error());
}

std::string saved(Replica &replica) {
    std::ostringstream file;
    CHECK(replica.save(file));
    return file.str();
}

void functions() {
    CHECK(antientropy::version() / 10000 == ANTIENTROPY_VERSION_MAJOR);
    CHECK(name(Refusal::BadKey) == "BadKey");
    CHECK(name(Refusal::NotCanonical) == "NotCanonical");
    CHECK(name(static_cast<Refusal>(99)).empty());
    const Spot spot = sure(place(2, 8, "cart"));
    CHECK(spot.range < 256 && spot.leaf < 4096);
    REFUSED(BadRing, place(3, 0, "cart"));
    REFUSED(BadKey, place(2, 0, ""));
}

void clocks() {
    CHECK(sure(compare({{1, 1}}, {{1, 2}})) == Order::Before);
    CHECK(sure(compare({{1, 2}}, {{1, 1}})) == Order::After);
    CHECK(sure(compare({{2, 1}, {1, 2}}, {{1, 2}, {2, 1}})) == Order::Equal);
    CHECK(sure(compare({{1, 1}}, {{2, 1}})) == Order::Apart);
    REFUSED(BadClock, compare({{0, 1}}, {}));
    CHECK(sure(merge({{1, 1}, {2, 3}}, {{1, 2}})) == Clock{{1, 2}, {2, 3}});
    CHECK(sure(merge({}, {})).empty());
    CHECK(sure(merge(std::vector<Version>{{{{1, 1}}, Kind::Live, ""}, {{{2, 1}}, Kind::Live, ""}})).size() == 2);
    Clock large;
    for (std::uint64_t node = 1; node <= 33; node++) large.add(node, 1);
    REFUSED(ClockFull, merge(large, {}));
    REFUSED(ClockFull, merge(std::vector<Version>{{large, Kind::Live, ""}, {}}));
    CHECK(Clock{{1, 1}} != Clock{{1, 2}});
}

void offers() {
    Replica replica = sure(Replica::make());
    const auto parts = sure(read_offer(sure(sure(replica.snapshot()).offer(7))));
    CHECK(parts.number == 7 && parts.format == 2 && parts.range == 0 && parts.root == sure(replica.root()));
    CHECK(parts.root.size() == ANTIENTROPY_ROOT_LEN);
    REFUSED(BadMessage, read_offer({}));
}

void puts_and_reads() {
    Replica replica = sure(Replica::make());
    const Receipt first = sure(replica.put(1, "cart", "milk"));
    CHECK(first.number == 0 && first.counter == 1);
    const Version milk{{{1, 1}}, Kind::Live, "milk"}, eggs{{{2, 1}}, Kind::Live, "eggs"};
    CHECK(sure(replica.accept("cart", eggs)) == Outcome::Accepted);
    CHECK(sure(replica.accept("cart", eggs)) == Outcome::Known);
    const std::vector<Version> both = {milk, eggs};
    CHECK(sure(replica.get("cart")) == both);
    CHECK(sure(replica.row("cart")).size() > 8);
    CHECK(sure(replica.remove(1, "cart", sure(merge(both)))).counter == 2);
    const Version gone{{{1, 2}, {2, 1}}, Kind::Tombstone, ""};
    CHECK(sure(replica.get("cart")) == std::vector<Version>{gone});
}

void nothing_is_there() {
    Replica replica = sure(Replica::make());
    CHECK(sure(replica.get("cart")).empty());
    CHECK(sure(replica.row("cart")).empty());
    CHECK(!sure(replica.entry(0)));
    CHECK(all(replica.keys_of(0)).empty());
    CHECK(all(replica.keys()).empty());
}

void refused_puts() {
    Replica replica = sure(Replica::make({1, 0, 0, 100}));
    REFUSED(BadClock, replica.put(0, "key", "value"));
    REFUSED(BadClock, replica.put(65'537, "key", "value"));
    REFUSED(BadClock, replica.put_unread(65'537, "key", "value"));
    REFUSED(BadClock, replica.top_counter(65'537, "key"));
    REFUSED(BadClock, replica.put(1, "key", "value", {{1, 0}}));
    REFUSED(CounterFull, replica.put(1, "key", "value", {{1, UINT64_MAX}}));
    REFUSED(BadKey, replica.put(1, "", "value"));
    REFUSED(BadKey, replica.put(1, std::string(256, 'k'), "value"));
    REFUSED(BadKey, replica.row({}));
    REFUSED(BadValue, replica.remove(1, "key"));
    REFUSED(BadValue, replica.remove_unread(1, "key"));
    REFUSED(BadValue, replica.put(1, "key", std::string(ANTIENTROPY_VALUE_MAX_1 + 1, 'v')));
    REFUSED(BadValue, replica.accept("key", {{{1, 1}}, static_cast<Kind>(2), ""}));
    CHECK(sure(replica.count()).entries == 0);
    crowd(replica, "key");
    REFUSED(StaleContext, replica.put(1, "key", "value"));
    REFUSED(Crowded, replica.put(100, "key", "value"));
    for (int n = 0; n < 36; n++) sure(replica.put(1, "key " + std::to_string(n), ""));
    REFUSED(JournalFull, replica.put(1, "other", ""));
}

void large_values() {
    Replica replica = sure(Replica::make());
    const std::string large(ANTIENTROPY_VALUE_MAX_2, 'v'), binary("a\0b", 3);
    sure(replica.put(1, "large", large));
    sure(replica.put(1, binary, binary));
    CHECK(sure(replica.get("large"))[0].value == large);
    CHECK(sure(replica.row("large")).size() > large.size());
    CHECK(sure(replica.entry(0))->version.value == large);
    CHECK(sure(replica.get(binary))[0].value == binary);
}

void keys() {
    Replica replica = sure(Replica::make());
    for (const char *key : {"a", "b", "c"}) sure(replica.put(1, key, ""));
    auto met = all(replica.keys());
    std::sort(met.begin(), met.end());
    CHECK(met == std::vector<std::string>{"a", "b", "c"});
    const auto leaf = sure(place(2, 0, "b")).leaf;
    CHECK(all(replica.keys_of(leaf)) == std::vector<std::string>{"b"});
    REFUSED(BadMessage, ended(replica.keys_of(4096)));
    REFUSED(BadMessage, ended(replica.keys_of(65'536)));
}

void journal() {
    Replica replica = sure(Replica::make());
    sure(replica.put(1, "a", "1"));
    sure(replica.accept("b", {{{2, 5}}, Kind::Tombstone, ""}));
    const auto entries = all(sure(replica.entries()));
    CHECK(entries.size() == 2 && entries[0].source == Source::Put && entries[1].source == Source::Copy);
    CHECK(entries[1].number == 1 && entries[1].key == "b");
    CHECK(entries[1].version == Version{{{2, 5}}, Kind::Tombstone, ""});
    CHECK(all(sure(replica.entries(1))).size() == 1);
    CHECK(all(sure(replica.entries(2))).empty());
    REFUSED(BadPosition, replica.entries(3));
    CHECK(sure(replica.entry(0))->key == "a");
    CHECK(sure(replica.top_counter(2, "b")) == 5 && sure(replica.top_counter(2, "b", 1)) == 0);
}

bool operator==(const Entry &first, const Entry &second) {
    return first.number == second.number && first.key == second.key && first.version == second.version &&
           first.source == second.source;
}

/// Puts all kinds of entries, and compares the entries with those that are read one by one.
void check_entries(Replica replica) {
    Clock large;
    for (std::uint64_t node = 2; node <= 32; node++) large.add(node, node);
    sure(replica.put(1, "cart", "milk", large));
    const Version binary{{{1, 1}, {65'535, UINT64_MAX}}, Kind::Live, std::string(ANTIENTROPY_VALUE_MAX_1, '\xff')};
    sure(replica.accept(std::string(ANTIENTROPY_KEY_MAX, '\xff'), binary));
    sure(replica.accept("empty", {{{3, 1}}, Kind::Live, ""}));
    if (sure(replica.about()).format == 2) sure(replica.remove(2, "gone"));
    const auto entries = all(sure(replica.entries()));
    CHECK(entries.size() == sure(replica.count()).entries);
    for (std::uint64_t number = 0; number < entries.size(); number++) {
        CHECK(*sure(replica.entry(number)) == entries[number]);
    }
}

void entries_of_all_kinds() {
    check_entries(sure(Replica::make(format_1)));
    check_entries(sure(Replica::make()));
    Replica migrated = sure(Replica::make(format_1));
    sure(migrated.put(1, "before", "milk"));
    sure(migrated.migrate());
    check_entries(std::move(migrated));
}

/// The example of docs/FORMATS.md.
void packed_entries() {
    Replica replica = sure(Replica::make());
    sure(replica.put(1, "a", "x"));
    const Packed packed = sure(replica.packed_entries(0));
    CHECK(packed.bytes == from_hex("0000016100010001000100000000000000010000000178") && packed.next == 1);
    const Packed none = sure(replica.packed_entries(1));
    CHECK(none.bytes.empty() && none.next == 1);
    REFUSED(BadPosition, replica.packed_entries(2));
}

void entries_of_several_calls() {
    Replica replica = sure(Replica::make());
    const std::string value(ANTIENTROPY_VALUE_MAX_2, 'v');
    for (int n = 10; n < 50; n++) sure(replica.put(1, std::to_string(n), value));
    const Packed packed = sure(replica.packed_entries(0));
    CHECK(packed.bytes.size() == 15 * (23 + value.size()) && packed.next == 15);
    CHECK(sure(replica.packed_entries(38)).next == 40);
    std::uint64_t number = 3;
    for (const auto &entry : sure(replica.entries(3))) {
        CHECK(entry.number == number && entry.key == std::to_string(10 + number));
        number++;
    }
    CHECK(number == 40);
}

/// Puts a key several times, each after a read.
void put_often(Replica &replica, std::string_view key, int puts) {
    while (puts-- > 0) sure(replica.put(1, key, "milk", sure(merge(sure(replica.get(key))))));
}

/// The position of a log is the number of entries that it has, and is never changed otherwise.
void a_log_goes_on_over_renewals() {
    Replica replica = sure(Replica::make({2, 0, 0, 150})), restored = sure(Replica::make());
    std::vector<Entry> log;
    for (const char *key : {"a", "b", "c"}) {
        put_often(replica, "cart", 100);
        put_often(replica, key, 1);
        for (auto &entry : sure(replica.entries(log.size()))) log.push_back(std::move(entry));
        replica = sure(replica.renew(150));
        CHECK(sure(replica.snapshot()).entries() == log.size());
        CHECK(all(sure(replica.entries(log.size()))).empty());
    }
    CHECK(log.size() == 303);
    for (std::uint64_t number = 0; number < log.size(); number++) {
        CHECK(log[number].number == number);
        CHECK(sure(restored.accept(log[number].key, log[number].version)) == Outcome::Accepted);
    }
    CHECK(sure(restored.root()) == sure(replica.root()));
}

void bad_positions() {
    Replica replica = sure(Replica::make());
    put_often(replica, "cart", 10);
    put_often(replica, "gift", 1);
    Replica renewed = sure(replica.renew());
    put_often(renewed, "list", 1);
    for (const std::uint64_t start : std::initializer_list<std::uint64_t>{0, 8, 10, 13, UINT64_MAX}) {
        REFUSED(BadPosition, renewed.entries(start));
        REFUSED(BadPosition, renewed.packed_entries(start));
    }
    CHECK(sure(renewed.count()).first == 9);
    const auto whole = all(sure(renewed.entries(9)));
    CHECK(whole.size() == 3 && whole[0].number == 9 && whole[2].number == 11 && whole[2].key == "list");
    CHECK(whole[1].source == Source::Copy && whole[2].source == Source::Put);
    CHECK(all(sure(renewed.entries(11))).size() == 1 && all(sure(renewed.entries(12))).empty());
    CHECK(!sure(renewed.entry(8)) && sure(renewed.entry(9))->key == whole[0].key);
}

/// An unread tombstone replaces a version that its client hasn't read.
void removal_without_a_read() {
    Replica replica = sure(Replica::make());
    sure(replica.put(1, "cart", "milk"));
    sure(replica.put(1, "cart", "bread", {{1, 1}}));
    const Clock seen = {{1, 1}, {2, 1}};
    REFUSED(StaleContext, replica.remove(1, "cart", seen));
    sure(replica.remove_unread(1, "cart", seen));
    CHECK(sure(replica.get("cart")) == std::vector<Version>{{{{1, 2}, {2, 1}}, Kind::Tombstone, ""}});
}

/// A C call that no method makes, on the handle.
void raw_calls() {
    Replica replica = sure(Replica::make());
    sure(replica.put(1, "cart", "milk"));
    std::uint64_t count = 0;
    const auto *key = reinterpret_cast<const std::uint8_t *>("cart");
    CHECK(c::antientropy_versions(std::as_const(replica).raw(), key, 4, &count) == c::ANTIENTROPY_OK && count == 1);
    CHECK(c::antientropy_rehash(replica.raw()) == c::ANTIENTROPY_OK && sure(replica.count()).dirty == 0);
}

/// Of two clients that read the same versions, the second to put is refused, or replaces the version of the first.
void two_clients() {
    Replica replica = sure(Replica::make());
    const Clock both = {{1, 1}, {2, 1}};
    sure(replica.put(1, "cart", "milk"));
    sure(replica.accept("cart", {{{2, 1}}, Kind::Live, "eggs"}));
    sure(replica.put(1, "cart", "bread", {{1, 1}}));
    REFUSED(StaleContext, replica.put(1, "cart", "tea", both));
    CHECK(sure(replica.get("cart")).size() == 2 && sure(replica.top_counter(1, "cart")) == 2);
    REFUSED(StaleContext, replica.remove(1, "cart", both));
    sure(replica.put_unread(1, "cart", "tea", both));
    CHECK(sure(replica.get("cart")) == std::vector<Version>{{{{1, 2}, {2, 1}}, Kind::Live, "tea"}});
}

void rows() {
    Replica from = sure(Replica::make()), into = sure(Replica::make());
    sure(from.put(1, "cart", "milk"));
    const std::string row = sure(from.row("cart"));
    CHECK(sure(into.load_rows(row)).accepted == 1);
    CHECK(sure(into.load_rows(row)).known == 1);
    CHECK(sure(from.root()) == sure(into.root()));
    std::uint64_t broken = 0;
    REFUSED(RowBroken, into.load_rows(row.substr(0, row.size() - 1), &broken));
    CHECK(broken > 0);
    REFUSED(RowBroken, into.load_rows("x"));
}

void rows_of_a_format() {
    Replica replica = sure(Replica::make(format_1)), first = sure(Replica::make(format_1));
    Replica into = sure(Replica::make());
    for (const char *key : {"a", "b", "c"}) sure(replica.put(1, key, key));
    std::string rows;
    for (const char *key : {"a", "b", "c"}) rows += sure(replica.row(key));
    CHECK(sure(into.load_format(1, rows)).accepted == 3 && sure(first.load_format(1, rows)).accepted == 3);
    CHECK(sure(first.root()) == sure(replica.root()));
    sure(replica.migrate());
    CHECK(sure(into.root()) == sure(replica.root()));
    REFUSED(BadRing, into.load_format(3, rows));
    REFUSED(OtherFormat, first.load_format(2, sure(into.row("a"))));
    std::uint64_t broken = 0;
    REFUSED(RowBroken, into.load_format(1, rows.substr(0, rows.size() - 1), &broken));
    CHECK(broken > 0);
}

void ranges() {
    REFUSED(BadRing, Replica::make({3}));
    REFUSED(BadRing, Replica::make_seeded({1, 2}, {3}));
    REFUSED(BadRing, Replica::make({2, 0, 1}));
    REFUSED(BadRing, Replica::make({2, 0, 0, 0}));
    const auto range = sure(place(2, 1, "cart")).range;
    Replica own = sure(Replica::make({2, 1, range})), other = sure(Replica::make({2, 1, 1 - range}));
    sure(own.put(1, "cart", "milk"));
    const About about = sure(own.about());
    CHECK(about.format == 2 && about.bits == 1 && about.range == range && about.entries == 1);
    REFUSED(OtherRange, other.put(1, "cart", "milk"));
    REFUSED(OtherRange, other.load_rows(sure(own.row("cart"))));
}

/// The total length of the rows that a replica holds.
std::uint64_t length_of_rows(const Replica &replica) {
    std::uint64_t length = 0;
    for (const auto &key : all(replica.keys())) length += sure(replica.row(key)).size();
    return length;
}

/// The total length of the entries of a journal, with 10 bytes for each pair of a clock.
std::uint64_t length_of_entries(const Replica &replica) {
    std::uint64_t length = 0;
    for (const auto &[number, key, version, source] : all(sure(replica.entries(sure(replica.count()).first)))) {
        length += key.size() + version.value.size() + 10 * version.clock.size();
    }
    return length;
}

void sizes_in_bytes() {
    Replica replica = sure(Replica::make());
    const Bytes none = sure(replica.bytes());
    CHECK(none.rows == 0 && none.journal == 0 && none.sessions == 0);
    sure(replica.put(1, "cart", "milk"));
    sure(replica.put(1, "cart", "milk, eggs", {{1, 1}, {7, 3}}));
    sure(replica.accept("list", {{{2, 5}}, Kind::Tombstone, ""}));
    Snapshot snapshot = sure(replica.snapshot());
    const std::uint64_t rows = length_of_rows(replica), journal = length_of_entries(replica);
    const Bytes before = sure(replica.bytes());
    CHECK(before.rows == rows && before.journal == journal && before.sessions == 0);
    CHECK(journal == 8 + 10 + 14 + 20 + 4 + 10 && rows != journal);
    sure(replica.put(1, "gift", "tea"));
    CHECK(sure(replica.bytes()).rows == length_of_rows(replica) && sure(replica.bytes()).journal == journal + 17);
    CHECK(sure(snapshot.bytes()) == rows && sure(replica.bytes()).rows > rows);
    Replica renewed = sure(replica.renew());
    CHECK(sure(renewed.bytes()).rows == length_of_rows(replica));
    CHECK(sure(renewed.bytes()).journal == length_of_entries(renewed) && length_of_entries(renewed) == journal - 1);
}

void rehash_by_steps() {
    Replica replica = sure(Replica::make(format_1)), other = sure(Replica::make(format_1));
    for (int n = 0; n < 50; n++) {
        sure(replica.put(1, "key " + std::to_string(n), "value"));
        sure(other.put(1, "key " + std::to_string(n), "value"));
    }
    std::uint64_t left = sure(replica.count()).dirty;
    CHECK(left > 50);
    CHECK(sure(replica.rehash_some(0)) == left);
    while (left > 0) {
        left--;
        CHECK(sure(replica.rehash_some(1)) == left);
        CHECK(sure(replica.count()).dirty == left);
    }
    CHECK(sure(replica.rehash_some(1)) == 0);
    CHECK(sure(sure(replica.snapshot(false)).root()) == sure(other.root()));
}

void renewal_and_migration() {
    Replica replica = sure(Replica::make({1, 0, 0, 10}));
    sure(replica.put(1, "cart", "milk"));
    sure(replica.put(1, "cart", "eggs", {{1, 1}}));
    Replica renewed = sure(replica.renew(5));
    const Counts counts = sure(renewed.count());
    CHECK(counts.entries == 2 && counts.first == 1 && counts.front == 1 && counts.limit == 5);
    CHECK(sure(renewed.root()) == sure(replica.root()));
    REFUSED(BadRing, replica.renew(0));
    sure(renewed.migrate());
    CHECK(sure(renewed.about()).format == 2 && sure(renewed.count()).dirty > 0);
    REFUSED(Dirty, renewed.snapshot(false));
    sure(renewed.rehash());
    CHECK(sure(renewed.count()).dirty == 0 && renewed.snapshot(false));
}

template <class T>
constexpr bool moves_only = std::is_nothrow_move_constructible_v<T> && std::is_nothrow_move_assignable_v<T> &&
                            !std::is_copy_constructible_v<T> && !std::is_copy_assignable_v<T>;

static_assert(moves_only<Replica> && moves_only<Snapshot> && moves_only<Hints> && moves_only<Slots>);
static_assert(moves_only<Portion> && moves_only<Exchange> && moves_only<Loan>);

template <class T, class = void>
constexpr bool is_value = false;
template <class T>
constexpr bool is_value<T, std::void_t<decltype(std::declval<Replica>().put(1, "key", std::declval<T>()))>> = true;

static_assert(is_value<const char *> && is_value<std::string>);
static_assert(!is_value<std::nullptr_t> && !is_value<std::nullopt_t>);

void moves() {
    Replica first = sure(Replica::make());
    sure(first.put(1, "cart", "milk"));
    auto keys = first.keys();
    Replica second = std::move(first);
    CHECK(sure(second.get("cart")).size() == 1);
    CHECK(all(std::move(keys)).size() == 1);
    REFUSED(Empty, first.get("cart"));
    REFUSED(Empty, first.put(1, "cart", ""));
    REFUSED(Empty, ended(first.keys()));
    first = sure(Replica::make());
    CHECK(sure(first.get("cart")).empty());
    first = std::move(second);
    CHECK(sure(first.get("cart")).size() == 1);
    Replica &same = first;
    first = std::move(same);
    CHECK(sure(first.get("cart")).size() == 1);
}

void closed() {
    Replica replica = sure(Replica::make());
    sure(replica.put(1, "cart", "milk"));
    Snapshot snapshot = sure(replica.snapshot());
    auto entries = sure(replica.entries());
    replica.close();
    replica.close();
    REFUSED(Empty, ended(std::move(entries)));
    REFUSED(Empty, replica.entries());
    REFUSED(Empty, replica.packed_entries(0));
    REFUSED(Empty, replica.about());
    REFUSED(Empty, replica.drop_sessions());
    REFUSED(Empty, replica.count());
    REFUSED(Empty, replica.bytes());
    REFUSED(Empty, replica.renew());
    REFUSED(Empty, replica.root());
    REFUSED(Empty, replica.migrate());
    REFUSED(Empty, replica.rehash_some(1));
    REFUSED(Empty, replica.hold());
    REFUSED(Empty, replica.drop_moment());
    REFUSED(Empty, replica.hash_moment(1));
    REFUSED(Empty, replica.take_portion(1));
    REFUSED(Empty, replica.moment());
    CHECK(snapshot.entries() == 1 && snapshot.root());
    snapshot.close();
    REFUSED(Empty, snapshot.root());
    REFUSED(Empty, snapshot.bytes());
    std::ostringstream file;
    CHECK(name(snapshot.save(file).error()) == "Refused: Empty");
    CHECK(name(replica.save(file).error()) == "Refused: Empty");
}

void checkpoints() {
    Replica replica = sure(Replica::make({1, 0, 0, 10}));
    sure(replica.put(1, "cart", "milk"));
    std::stringstream file;
    const auto covered = replica.save(file);
    CHECK(covered && *covered == 1);
    auto loaded = Replica::load(file);
    CHECK(loaded && loaded->about()->format == 1 && *loaded->get("cart") == *replica.get("cart"));
    CHECK(saved(*loaded) == saved(replica));
    Replica other = sure(Replica::make({2, 8, 3}));
    CHECK(load(saved(other)) == "loaded");
    std::ostringstream failing;
    failing.setstate(std::ios::badbit);
    CHECK(name(replica.save(failing).error()) == "Io: " + std::make_error_code(std::io_errc::stream).message());
}

/// The example of docs/FORMATS.md: the live row of format 1, in leaf 12 of 256.
void checkpoint_of_the_page() {
    Replica replica = sure(Replica::make(format_1));
    sure(replica.put(1, "a", "x"));
    const std::string head = from_hex("616e7469656e740101000000");
    const std::string root = from_hex("bcf422e0df449d89564e74e43e2f066e3f948254e49cd9f115f866907188dc49");
    const std::string row = from_hex("0000000000000015") + sure(replica.row("a"));
    CHECK(saved(replica) == head + root + std::string(12 * 8, '\0') + row + std::string(243 * 8, '\0'));
    CHECK(saved(replica).size() == 2113);
}

void damaged_checkpoints() {
    Replica replica = sure(Replica::make({1, 0, 0, 10}));
    sure(replica.put(1, "cart", "milk"));
    const std::string bytes = saved(replica);
    CHECK(load(bytes) == "loaded");
    for (std::size_t length = 0; length < bytes.size(); length += 7) {
        CHECK(load(bytes.substr(0, length)) == "Damaged: Truncated");
    }
    CHECK(load(bytes + '\0') == "Damaged: TooLong");
    const std::size_t numbers = 9, root = 12; // bits and range of the ring, refused by their limits
    for (std::size_t at = 0; at < bytes.size(); at++) {
        std::string changed = bytes;
        changed[at] = static_cast<char>(changed[at] ^ 0x41);
        CHECK(load(changed).substr(0, 7) == (at >= numbers && at < root ? "Refused" : "Damaged"));
    }
    CHECK(load("") == "Damaged: Truncated");
    CHECK(load("ANTIENT" + bytes.substr(7)) == "Damaged: NotCheckpoint");
    std::string changed = bytes;
    changed[root] ^= 1;
    CHECK(load(changed) == "Damaged: Root");
    changed = bytes;
    changed[bytes.find("milk") + 4 - 1] ^= 1; // valid rows, of another root
    CHECK(load(changed) == "Damaged: Root");
    CHECK(load(bytes, 0) == "Refused: BadRing");
    changed = bytes;
    changed[numbers] = 9;
    CHECK(load(changed) == "Refused: BadRing");
    sure(replica.put(1, "gift", ""));
    CHECK(load(saved(replica), 1) == "Refused: JournalFull");
}

/// The rows of a leaf are broken, or in the place of another leaf's, in a ring of two ranges.
void damaged_leaves() {
    const auto [range, leaf] = sure(place(1, 1, "cart"));
    Replica replica = sure(Replica::make({1, 1, range, 10}));
    sure(replica.put(1, "cart", "milk"));
    std::string changed = saved(replica);
    changed[changed.find("cart") - 1] ^= 1; // the length of the key
    CHECK(load(changed) == "Damaged: Leaf " + std::to_string(leaf));
    changed = saved(replica);
    changed[11] ^= 1; // the range
    CHECK(load(changed) == "Damaged: Leaf " + std::to_string(leaf));
    std::istringstream file(changed);
    const auto loaded = Replica::load(file);
    const auto *damage = std::get_if<Damage>(&loaded.error());
    CHECK(damage && *damage == Damage{Damage::Kind::Leaf, leaf} && *damage != Damage{Damage::Kind::Root});
}

/// A stream that can't be read isn't a damaged checkpoint.
void unreadable_checkpoints() {
    std::istringstream failing;
    failing.setstate(std::ios::badbit);
    const std::string io = "Io: " + std::make_error_code(std::io_errc::stream).message();
    CHECK(name(Replica::load(failing).error()) == io);
    std::ifstream missing("no folder/checkpoint");
    CHECK(name(Replica::load(missing).error()) == io);
    CHECK(name(Replica::load("no folder/checkpoint").error()) == "Io: No such file or directory");
    const auto open_files = [] { return std::distance(std::filesystem::directory_iterator("/proc/self/fd"), {}); };
    const auto before = open_files();
    CHECK(name(Replica::load("/").error()) == "Io: Is a directory" && open_files() == before);
    const auto loaded = Replica::load("no folder/checkpoint");
    CHECK(std::get<std::error_code>(loaded.error()) == std::errc::no_such_file_or_directory);
}

void hints() {
    Hints hints = sure(Hints::make());
    const Version tea{{{1, 2}}, Kind::Live, "tea"}, gone{{{1, 3}}, Kind::Tombstone, ""};
    CHECK(sure(hints.keep(2, "cart", tea)) == 1);
    CHECK(sure(hints.keep(3, "cart", tea)) == 2);
    CHECK(sure(hints.keep(2, "gift", gone)) == 3);
    CHECK(sure(hints.next(2)) == 1u);
    CHECK(sure(hints.next(2, 1)) == 3u);
    CHECK(!sure(hints.next(2, 3)) && !sure(hints.next(65'538)));
    const auto hint = sure(hints.hint(3));
    CHECK(hint->number == 3 && hint->owner == 2 && hint->key == "gift" && hint->version == gone);
    CHECK(!sure(hints.hint(4)));
    for (const auto &met : hints.pending(2)) CHECK(hints.confirm(met.number, Outcome::Known));
    CHECK(all(hints.pending(2)).empty() && all(hints.pending(3)).size() == 1);
    CHECK(sure(hints.count()).pending == 1 && sure(hints.count()).delivered == 2);
    sure(hints.renew());
    CHECK(sure(hints.count()).delivered == 0 && sure(hints.next(3)) == 4u);
}

/// Delivered hints count until a renewal.
void sizes_of_hints() {
    Hints hints = sure(Hints::make());
    CHECK(sure(hints.bytes()) == 0);
    sure(hints.keep(2, "cart", {{{1, 2}, {3, 4}}, Kind::Live, "milk"}));
    sure(hints.keep(3, "gift list", {{{1, 3}}, Kind::Tombstone, ""}));
    CHECK(sure(hints.bytes()) == 8 + 20 + 9 + 10);
    sure(hints.confirm(1));
    CHECK(sure(hints.bytes()) == 47);
    sure(hints.renew());
    CHECK(sure(hints.bytes()) == 19);
}

/// The number of a hint before a renewal names no other hint, and neither does a logged number after a restart.
void numbers_of_hints() {
    Hints hints = sure(Hints::make());
    const Version tea{{{1, 2}}, Kind::Live, "tea"};
    for (const char *key : {"cart", "order"}) sure(hints.keep(2, key, tea));
    sure(hints.confirm(1));
    sure(hints.renew());
    sure(hints.keep(2, "payment", tea));
    REFUSED(UnknownHint, hints.confirm(2));
    CHECK(!sure(hints.hint(2)) && sure(hints.count()).pending == 2);
    Hints restored = sure(Hints::restore(UINT64_MAX));
    CHECK(sure(restored.keep(2, "cart", tea)) == UINT64_MAX);
    REFUSED(HintsFull, restored.keep(2, "order", tea));
    REFUSED(HintsFull, restored.renew());
    REFUSED(UnknownHint, Hints::restore(0));
}

void refused_hints() {
    Hints hints = sure(Hints::make());
    REFUSED(BadClock, hints.keep(0, "cart", {}));
    REFUSED(BadClock, hints.keep(65'537, "cart", {}));
    REFUSED(BadKey, hints.keep(2, "", {{{1, 1}}, Kind::Live, ""}));
    REFUSED(BadValue, hints.keep(2, "cart", {{{1, 1}}, Kind::Tombstone, "value"}));
    REFUSED(UnknownHint, hints.confirm(1));
    REFUSED(UnknownHint, hints.confirm((std::uint64_t(1) << 32) + 1));
    Hints moved = std::move(hints);
    REFUSED(Empty, hints.count());
    REFUSED(Empty, hints.bytes());
    REFUSED(Empty, ended(hints.pending(2)));
    moved.close();
    REFUSED(Empty, moved.renew());
    REFUSED(Empty, moved.next(2));
    REFUSED(Empty, moved.hint(1));
}

void slots() {
    Slots slots = sure(Slots::make({1, 2, 1000}));
    sure(slots.lend());
    {
        Loan loan = sure(slots.lent());
        REFUSED(NoSlot, slots.lent());
        Loan moved = std::move(loan);
        CHECK(sure(slots.count()).lent == 2);
    }
    CHECK(sure(slots.count()).lent == 1 && sure(slots.count()).free == 1);
    sure(slots.give_back());
    REFUSED(NoSlot, slots.give_back());
    CHECK(!sure(slots.adjust(5)));
    sure(slots.sample(10, 5000));
    CHECK(sure(slots.adjust(11)) == 5000u);
    CHECK(sure(slots.count()).target == 1);
    sure(slots.set_target(2));
}

void refused_slots() {
    REFUSED(BadRing, Slots::make({0, 4, 1000}));
    Slots slots = sure(Slots::make({1, 2, 1000}));
    REFUSED(BadRing, slots.set_target(3));
    sure(slots.sample(10, 1));
    REFUSED(ClockBack, slots.sample(9, 1));
    REFUSED(ClockBack, slots.adjust(9));
    Slots moved = std::move(slots);
    REFUSED(Empty, slots.lend());
    Loan loan = sure(moved.lent());
    moved = sure(Slots::make({1, 2, 1000}));
    CHECK(sure(moved.count()).lent == 0);
    moved.close();
    REFUSED(Empty, moved.adjust(1));
}

} // namespace

int main() {
    return run({{"functions", functions},
                {"clocks", clocks},
                {"offers", offers},
                {"puts and reads", puts_and_reads},
                {"nothing is there", nothing_is_there},
                {"refused puts", refused_puts},
                {"large values", large_values},
                {"keys", keys},
                {"journal", journal},
                {"entries of all kinds", entries_of_all_kinds},
                {"packed entries", packed_entries},
                {"entries of several calls", entries_of_several_calls},
                {"a log goes on over renewals", a_log_goes_on_over_renewals},
                {"bad positions", bad_positions},
                {"removal without a read", removal_without_a_read},
                {"raw calls", raw_calls},
                {"two clients", two_clients},
                {"rows", rows},
                {"rows of a format", rows_of_a_format},
                {"ranges", ranges},
                {"sizes in bytes", sizes_in_bytes},
                {"rehash by steps", rehash_by_steps},
                {"renewal and migration", renewal_and_migration},
                {"moves", moves},
                {"closed", closed},
                {"checkpoints", checkpoints},
                {"checkpoint of the page", checkpoint_of_the_page},
                {"damaged checkpoints", damaged_checkpoints},
                {"damaged leaves", damaged_leaves},
                {"unreadable checkpoints", unreadable_checkpoints},
                {"hints", hints},
                {"sizes of hints", sizes_of_hints},
                {"numbers of hints", numbers_of_hints},
                {"refused hints", refused_hints},
                {"slots", slots},
                {"refused slots", refused_slots}});
}
