// Moments and their portions, also shared by threads.
#include "support.hpp"

#include <atomic>
#include <shared_mutex>
#include <thread>

namespace {

/// The root of a replica with keys.
std::string root_of(int keys) { return sure(filled(keys).root()); }

void moment() {
    Replica replica = filled(50);
    const std::uint64_t dirty = sure(replica.count()).dirty;
    sure(replica.hold());
    sure(replica.put(1, "later", ""));
    CHECK(sure(replica.hash_moment(0)) == dirty);
    CHECK(sure(replica.hash_moment(10)) == dirty - 10);
    Portion portion = sure(replica.take_portion(10));
    sure(portion.hash());
    CHECK(sure(replica.install_portion(std::move(portion))) == dirty - 20);
    REFUSED(Empty, portion.hash());
    REFUSED(Empty, replica.install_portion(std::move(portion)));
    CHECK(sure(replica.install_portion(sure(replica.take_portion(10)))) == dirty - 30);
    while (sure(replica.hash_moment(10)) > 0) CHECK(sure(replica.count()).front == 0);
    Snapshot snapshot = sure(replica.moment());
    CHECK(snapshot.entries() == 50 && sure(snapshot.root()) == root_of(50));
    sure(replica.hold());
    CHECK(sure(replica.count()).front == 50);
    CHECK(sure(replica.snapshot()).entries() == 51 && sure(replica.count()).front == 51);
    sure(replica.hold());
    sure(replica.drop_moment());
    CHECK(sure(replica.count()).front == 51 && sure(replica.hash_moment(1)) == 0);
    CHECK(sure(snapshot.root()) == root_of(50));
}

void check_no_moment(Replica &replica, std::uint64_t front) {
    REFUSED(Dirty, replica.moment());
    CHECK(sure(replica.hash_moment(0)) == 0 && sure(replica.count()).front == front);
}

/// A call that holds a moment drops it, also if it is refused.
void no_moment_is_left() {
    Replica replica = filled(50);
    Snapshot snapshot = sure(replica.snapshot());
    const std::string offer = sure(snapshot.offer(1));
    check_no_moment(replica, 50);
    CHECK(sure(replica.sync(2, offer, reach(snapshot))).asks == 0);
    check_no_moment(replica, 50);
    sure(replica.put(1, "later", ""));
    REFUSED(BadMessage, replica.exchange(2, ""));
    check_no_moment(replica, 51);
    sure(replica.put(1, "last", ""));
    sure(sure(replica.exchange(2, offer)).close(replica));
    check_no_moment(replica, 52);
}

void exchange_at_the_moment() {
    Replica partner = filled(50), replica = filled(50);
    const std::string offer = sure(sure(partner.snapshot()).offer(1));
    sure(replica.hold());
    sure(replica.put(2, "later", ""));
    while (sure(replica.hash_moment(10)) > 0) {
    }
    Exchange exchange = sure(replica.exchange_at_moment(1, offer));
    CHECK(sure(exchange.progress(replica)).report == Report::Finished);
}

void no_whole_moment() {
    Replica partner = filled(50), replica = filled(1);
    const std::string offer = sure(sure(partner.snapshot()).offer(1));
    REFUSED(Dirty, replica.moment());
    REFUSED(Dirty, replica.exchange_at_moment(1, offer));
    sure(replica.hold());
    REFUSED(Dirty, replica.moment());
    REFUSED(Dirty, replica.exchange_at_moment(1, offer));
    REFUSED(BadMessage, replica.exchange_at_moment(1, ""));
}

void portion_outlives_its_replica() {
    Replica replica = filled(50), other = filled(1);
    sure(replica.hold());
    Portion portion = sure(replica.take_portion(UINT64_MAX)), closed = sure(replica.take_portion(1));
    replica.close();
    sure(portion.hash());
    sure(other.hold());
    CHECK(other.install_portion(std::move(portion)));
    CHECK(sure(other.root()) == root_of(1));
    closed.close();
    REFUSED(Empty, closed.hash());
}

/// The lock of a replica that another thread changes whenever it is free: it puts, it drops the sessions that have
/// ended, and it drops the first moment.
struct BusyLock {
    Replica &replica;
    int locked = 0;

    void lock() {
        sure(replica.put(2, std::to_string(++locked), ""));
        sure(replica.drop_sessions());
        if (locked == 2) sure(replica.drop_moment());
    }
    void unlock() {}
};

void replica_that_is_never_at_rest() {
    Replica partner = filled(50), replica = filled(0);
    BusyLock lock = {replica};
    CHECK(sure(replica.snapshot_beside(lock)).entries() == 2);
    Snapshot offered = sure(partner.snapshot());
    const Synced synced = sure(replica.sync_beside(lock, 1, sure(offered.offer(1)), reach(offered)));
    CHECK(synced.finished() && synced.accepted == 50);
}

/// A replica that threads share by its lock.
struct Store {
    Replica replica = sure(Replica::make());
    std::shared_mutex lock;

    /// Puts after a read.
    void put(std::uint64_t node, std::string_view key) {
        const std::lock_guard guard(lock);
        sure(replica.put(node, key, "value", sure(merge(sure(replica.get(key))))));
    }

    /// Reads a key by calls that must agree, while other threads read too. Returns true if it has a version.
    bool read(std::string_view key) {
        const std::shared_lock guard(lock);
        const Replica &now = replica;
        const auto versions = sure(now.get(key));
        bool right = sure(now.get(key)) == versions
            && sure(now.row(key)).empty() == versions.empty();
        for (const auto &version : versions) right = right && version.value == "value";
        if (!right) wrong++;
        return !versions.empty();
    }

    /// Number of reads whose calls didn't agree.
    std::atomic<int> wrong = 0;
};

/// Puts at random keys of two replicas until it is stopped.
void put_without_pause(Store &a, Store &b, const std::atomic<bool> &stopped) {
    std::uint64_t random = 1;
    for (int n = 0; n < 200'000 && !stopped; n++) {
        random = random * 6'364'136'223'846'793'005 + 1;
        const std::string key = std::to_string(random >> 54);
        a.put(1, key);
        b.put(2, key);
    }
}

/// Syncs from a partner. Returns the partner's snapshot.
Snapshot sync(Store &store, Store &partner) {
    Snapshot snapshot = sure(partner.replica.snapshot_beside(partner.lock));
    const std::string offer = sure(snapshot.offer(1));
    CHECK(sure(store.replica.sync_beside(store.lock, 9, offer, reach(snapshot))).finished());
    return snapshot;
}

/// Each snapshot has the versions of the entries that it counts.
void check_snapshots(const Replica &replica, std::vector<Snapshot> snapshots) {
    Replica copy = sure(Replica::make());
    std::uint64_t copied = 0;
    for (Snapshot &snapshot : snapshots) {
        for (; copied < snapshot.entries(); copied++) {
            const auto entry = sure(replica.entry(copied));
            CHECK(sure(copy.accept(entry->key, entry->version)) == Outcome::Accepted);
        }
        CHECK(sure(copy.root()) == sure(snapshot.root()));
    }
}

void snapshots_and_syncs_while_a_thread_puts() {
    Store a, b;
    std::atomic<bool> stopped = false;
    std::vector<Snapshot> of_a, of_b;
    std::thread writer([&] { put_without_pause(a, b, stopped); });
    for (int round = 0; round < 3; round++) {
        of_a.push_back(sync(b, a));
        of_b.push_back(sync(a, b));
    }
    stopped = true;
    writer.join();
    (void)sync(b, a);
    (void)sync(a, b);
    CHECK(sure(a.replica.root()) == sure(b.replica.root()));
    check_snapshots(a.replica, std::move(of_a));
    check_snapshots(b.replica, std::move(of_b));
}

/// Threads read a replica and its snapshot at once while another one puts.
void threads_read_at_once() {
    constexpr int keys = 300;
    Store store;
    std::atomic<int> done = 0;
    std::vector<std::thread> threads;
    for (int reader = 0; reader < 3; reader++) {
        threads.emplace_back([&] {
            for (int found = 0; found < keys;) {
                found = 0;
                for (int n = 0; n < keys; n++) found += store.read(std::to_string(n));
                std::this_thread::yield();
            }
            done++;
        });
    }
    for (int n = 0; n < keys; n++) store.put(1, std::to_string(n));
    for (auto &thread : threads) thread.join();
    CHECK(done == 3 && store.wrong == 0 && sure(store.replica.count()).entries == keys);
    const Snapshot snapshot = sure(store.replica.snapshot());
    std::vector<std::vector<std::string>> rows(3);
    threads.clear();
    for (auto &of : rows) {
        threads.emplace_back([&] {
            of = all(snapshot.keys());
            for (auto &key : of) key = sure(sure(snapshot.share()).row(key));
        });
    }
    for (auto &thread : threads) thread.join();
    CHECK(rows[0].size() == keys && rows[1] == rows[0] && rows[2] == rows[0]);
}

/// A sync that ends early closes its exchange under the lock.
void reach_that_throws() {
    Store store;
    Replica partner = filled(50);
    const std::string offer = sure(sure(partner.snapshot()).offer(1));
    const Reach fails = [&](const Asks &) -> Answers {
        store.put(1, "meanwhile");
        throw 1;
    };
    try {
        (void)store.replica.sync_beside(store.lock, 9, offer, fails);
        CHECK(false);
    } catch (int) {
        const Counts counts = sure(store.replica.count());
        CHECK(counts.sessions == 0 && counts.open_sessions == 0 && counts.entries == 1);
    }
}

} // namespace

int main() {
    return run({{"moment", moment},
                {"exchange at the moment", exchange_at_the_moment},
                {"no whole moment", no_whole_moment},
                {"no moment is left", no_moment_is_left},
                {"portion outlives its replica", portion_outlives_its_replica},
                {"replica that is never at rest", replica_that_is_never_at_rest},
                {"snapshots and syncs while a thread puts", snapshots_and_syncs_while_a_thread_puts},
                {"threads read at once", threads_read_at_once},
                {"reach that throws", reach_that_throws}});
}
