// An outage and its repair: two replicas accept writes separately, sync, and merge the key that both wrote. A refused
// call ends the program: `value` throws.
#include "antientropy.hpp"

#include <iostream>
#include <iterator>

using namespace antientropy;

namespace {

constexpr std::uint64_t A = 1, B = 2;

// Syncs from the partner. Its snapshot is called directly here; in production the messages travel over a network.
Synced sync(Replica &replica, Replica &partner, std::uint64_t node) {
    Snapshot snapshot = partner.snapshot().value();
    const auto reach = [&](const std::vector<std::string> &asks) {
        std::vector<std::optional<std::string>> answers;
        for (const auto &ask : asks) answers.push_back(snapshot.serve(1, ask).value());
        return answers;
    };
    return replica.sync(node, snapshot.offer(1).value(), reach).value();
}

// Formats a number of versions.
std::string count(std::uint64_t number) {
    return std::to_string(number) + (number == 1 ? " version" : " versions");
}

std::ptrdiff_t count_keys(const Replica &replica) {
    auto keys = replica.keys();
    return std::distance(keys.begin(), keys.end());
}

const char *equal(Replica &a, Replica &b) { return a.root().value() == b.root().value() ? "yes" : "no"; }

std::string values(const Replica &replica, std::string_view key) {
    std::string values;
    for (const auto &version : replica.get(key).value()) values += (values.empty() ? "" : " | ") + version.value;
    return values;
}

} // namespace

int main() {
    Replica a = Replica::make().value(), b = Replica::make().value();
    a.put(A, "order", "paid").value();
    sync(b, a, A);
    a.put(A, "cart", "milk").value();
    a.put(A, "gift", "wrapped").value();
    b.put(B, "cart", "eggs").value();
    std::cout << "a has " << count_keys(a) << " keys, b has " << count_keys(b) << '\n';
    std::cout << "roots equal: " << equal(a, b) << '\n';
    std::cout << "b took " << count(sync(b, a, A).accepted) << '\n';
    std::cout << "a took " << count(sync(a, b, B).accepted) << '\n';
    if (values(a, "cart") == values(b, "cart")) std::cout << "cart at both: " << values(a, "cart") << '\n';
    const Clock context = merge(a.get("cart").value()).value();
    a.put(A, "cart", "milk, eggs", context).value();
    sync(b, a, A);
    std::cout << "merged: " << values(b, "cart") << '\n';
    std::cout << "roots equal: " << equal(a, b) << '\n';
}
