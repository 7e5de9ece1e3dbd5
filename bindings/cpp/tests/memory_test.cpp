// Objects that are dropped leave nothing: memory doesn't grow after the first thousand. It is built without the
// sanitizers, which keep memory that was freed.
#include "support.hpp"

#include <fstream>
#include <unistd.h>

namespace {

/// The bytes of this program that are in memory.
double resident() {
    std::ifstream file("/proc/self/statm");
    double pages = 0;
    file >> pages >> pages;
    return pages * static_cast<double>(sysconf(_SC_PAGESIZE));
}

/// Calls a function 10,000 times. The memory in use is at most 1.1 times the memory after the first 1,000 calls.
template <class Call>
void check_memory(Call call) {
    for (int n = 0; n < 1'000; n++) call();
    const double before = resident();
    for (int n = 1'000; n < 10'000; n++) call();
    CHECK(before > 0 && resident() <= 1.1 * before);
}

Replica with_a_key() {
    Replica replica = sure(Replica::make(format_1));
    sure(replica.put(1, "cart", "milk"));
    return replica;
}

void dropped_replicas() {
    check_memory([] { (void)with_a_key(); });
}

void dropped_snapshots() {
    Replica replica = with_a_key();
    check_memory([&] {
        Snapshot snapshot = sure(replica.snapshot());
        CHECK(sure(snapshot.share()).entries() == 1);
    });
}

/// The session of each is dropped by the close of the exchange.
void dropped_exchanges() {
    Replica replica = sure(Replica::make(format_1)), partner = with_a_key();
    const std::string offer = sure(sure(partner.snapshot()).offer(1));
    check_memory([&] {
        Exchange exchange = sure(replica.exchange(1, offer));
        CHECK(sure(exchange.asks(replica)).size() == 1);
        sure(exchange.close(replica));
    });
}

} // namespace

int main() {
    return run({{"dropped replicas", dropped_replicas},
                {"dropped snapshots", dropped_snapshots},
                {"dropped exchanges", dropped_exchanges}});
}
