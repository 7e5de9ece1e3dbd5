// Renewals in place, while another thread puts.
#include "support.hpp"

#include <atomic>
#include <map>
#include <shared_mutex>
#include <thread>

namespace {

/// A replica that threads share by its lock, with a writer's count of puts, and its log.
struct Store {
    Replica replica;
    std::uint64_t keys;
    std::shared_mutex lock = {};
    std::uint64_t puts = 0;
    std::map<std::uint64_t, Entry> log = {};

    /// Puts the next key in turn after its last put, and again if the journal is full.
    void put() {
        const std::uint64_t counter = puts / keys;
        const Clock context = counter > 0 ? Clock{{1, counter}} : Clock();
        auto receipt = put_once(context);
        while (is_refused(Refusal::JournalFull, receipt)) {
            std::this_thread::yield();
            receipt = put_once(context);
        }
        CHECK(receipt && receipt->number == puts && receipt->counter == counter + 1);
        puts++;
    }

    Result<Receipt> put_once(const Clock &context) {
        const std::lock_guard guard(lock);
        return replica.put(1, std::to_string(puts % keys), "value", context);
    }

    /// Logs the entries after the last one, or the whole journal if some were missed.
    void read() {
        const std::shared_lock guard(lock);
        auto entries = replica.entries(log.empty() ? 0 : log.rbegin()->first + 1);
        if (is_refused(Refusal::BadPosition, entries)) entries = replica.entries(sure(replica.count()).first);
        for (const Entry &entry : sure(std::move(entries))) log.emplace(entry.number, entry);
    }

    std::uint64_t entries() {
        const std::shared_lock guard(lock);
        return sure(replica.count()).entries;
    }

    /// Each key has the version of its last put, also in a replica that is restored from the log.
    void check_versions() {
        Replica restored = sure(Replica::make());
        for (const auto &[number, entry] : log) sure(restored.accept(entry.key, entry.version));
        for (std::uint64_t key = 0; key < keys; key++) {
            const auto versions = sure(replica.get(std::to_string(key)));
            CHECK(versions.size() == 1 && versions[0].clock == Clock{{1, (puts + keys - 1 - key) / keys}});
        }
        CHECK(entries() == puts && sure(restored.root()) == sure(replica.root()));
    }
};

/// Puts the only key of a replica more times, each after the last put.
void put_more(Replica &replica, std::uint64_t puts) {
    const std::uint64_t entries = sure(replica.count()).entries;
    for (std::uint64_t counter = entries; counter < entries + puts; counter++) {
        sure(replica.put(1, "key", "", counter > 0 ? Clock{{1, counter}} : Clock()));
    }
}

void renewal_in_place() {
    Replica replica = sure(Replica::make(with_limit(10)));
    put_more(replica, 2);
    const std::string root = sure(replica.root());
    sure(replica.renew_in_place(5));
    const Counts counts = sure(replica.count());
    CHECK(counts.entries == 2 && counts.first == 1 && counts.limit == 5 && sure(replica.root()) == root);
    CHECK(all(sure(replica.entries(2))).empty());
    CHECK(sure(replica.put(1, "gift", "toys")).number == 2 && all(sure(replica.entries(2)))[0].key == "gift");
    REFUSED(BadPosition, replica.entries(0));
    REFUSED(Dirty, replica.moment());
}

void refusals() {
    Replica replica = filled(3);
    const std::string root = sure(replica.root());
    REFUSED(BadRing, replica.renew_in_place(0));
    REFUSED(BadRing, replica.renew_in_place(1'000'001));
    REFUSED(JournalFull, replica.renew_in_place(2));
    CHECK(sure(replica.count()).entries == 3 && sure(replica.root()) == root);
    replica.close();
    REFUSED(Empty, replica.renew_in_place());
    REFUSED(Empty, replica.is_renewal_due());
}

void renewal_ends_sessions() {
    Replica replica = filled(0), partner = filled(3);
    Snapshot offered = sure(partner.snapshot());
    const std::string offer = sure(offered.offer(1));
    Exchange exchange = sure(replica.exchange(1, offer));
    sure(replica.renew_in_place());
    CHECK(sure(exchange.progress(replica)).report == Report::Gone);
    CHECK(sure(replica.sync(1, offer, reach(offered))).accepted == 3);
}

void renewals_while_a_thread_puts() {
    constexpr std::uint64_t keys = 200;
    Store store = {sure(Replica::make(with_limit(1'000'000))), keys};
    std::atomic<bool> stopped = false;
    std::thread writer([&] {
        while (!stopped) {
            store.put();
            store.read();
        }
    });
    for (std::uint64_t n = 1; n <= 5; n++) {
        while (store.entries() < 2 * n * keys) std::this_thread::yield();
        sure(store.replica.renew_beside(store.lock));
    }
    stopped = true;
    writer.join();
    CHECK(sure(store.replica.count()).first > keys);
    store.check_versions();
}

/// The lock of a replica that another thread changes whenever it is free.
struct BusyLock {
    std::function<void()> change;
    int locked = 0;

    void lock() {
        locked++;
        change();
    }
    void unlock() {}
};

void renewal_catches_up() {
    Replica replica = sure(Replica::make(with_limit(1'000'000)));
    BusyLock lock = {[&] { put_more(replica, 300); }};
    sure(replica.renew_beside(lock));
    const Counts counts = sure(replica.count());
    CHECK(lock.locked > 4 && counts.entries == 300 * static_cast<std::uint64_t>(lock.locked));
    CHECK(sure(replica.get("key"))[0].clock == Clock{{1, counts.entries}});
}

/// Another renewal ends first. Nothing is lost.
void stale_renewal() {
    Replica replica = sure(Replica::make(with_limit(100)));
    put_more(replica, 5);
    BusyLock lock = {[&] {
        const Counts counts = sure(replica.count());
        const bool has_begun = counts.front == 5; // its moment was whole
        if (has_begun && counts.limit == 100) sure(replica.renew_in_place(99));
    }};
    REFUSED(Stale, replica.renew_beside(lock, 98));
    const Counts counts = sure(replica.count());
    CHECK(counts.entries == 5 && counts.first == 4 && counts.limit == 99);
    CHECK(sure(replica.get("key"))[0].clock == Clock{{1, 5}});
}

/// One key is put many times as often as the journal has entries. Another thread renews the replica when it is due.
void renewed_when_it_is_due() {
    constexpr std::uint64_t limit = 2'000;
    Store store = {sure(Replica::make(with_limit(limit))), 1};
    std::atomic<bool> stopped = false;
    std::thread renewer([&] {
        while (!stopped) {
            sure(store.replica.renew_if_due(store.lock));
            std::this_thread::yield();
        }
    });
    for (std::uint64_t n = 0; n < 100 * limit; n++) store.put();
    stopped = true;
    renewer.join();
    store.read();
    store.check_versions();
}

/// A journal that its rows fill is renewed a few times, until no renewal is due any more.
void rows_fill_a_journal() {
    Replica replica = sure(Replica::make(with_limit(100)));
    std::shared_mutex lock;
    int renewals = 0;
    for (int n = 0; n < 100; n++) {
        sure(replica.put(1, std::to_string(n), ""));
        renewals += sure(replica.renew_if_due(lock));
    }
    CHECK(renewals == 5 && !sure(replica.renew_if_due(lock))); // at 90, 95, 98, 99 and 100 entries
    REFUSED(JournalFull, replica.put(1, "last", ""));
}

} // namespace

int main() {
    return run({{"renewal in place", renewal_in_place},
                {"refusals", refusals},
                {"renewal ends sessions", renewal_ends_sessions},
                {"renewals while a thread puts", renewals_while_a_thread_puts},
                {"renewal catches up", renewal_catches_up},
                {"stale renewal", stale_renewal},
                {"renewed when it is due", renewed_when_it_is_due},
                {"rows fill a journal", rows_fill_a_journal}});
}
