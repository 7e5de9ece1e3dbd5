// Measures the calls of the header for bench/bindings. The arguments are the number of keys, 100000 by default, and the
// format, 1 by default. Keys and values equal those in bench/puts_gets.c, and are prepared first. Prints a line of
// JSON: calls per second of elapsed time, and the processor time of a call in nanoseconds.
#include "antientropy.hpp"

#include <chrono>
#include <cstdio>
#include <cstdlib>
#include <ctime>
#include <string>
#include <vector>

using namespace antientropy;

namespace {

// Ends the program if a call was refused.
template <class T>
T sure(Result<T> result) {
    if (result) return *std::move(result);
    std::fprintf(stderr, "refused: %s\n", name(result.error()).c_str());
    std::exit(1);
}

struct Item {
    std::string key, value;
};

std::vector<Item> make_items(unsigned long keys) {
    std::vector<Item> items(keys);
    for (unsigned long number = 0; number < keys; number++) {
        char key[32];
        std::snprintf(key, sizeof key, "key-%06lu", number);
        items[number].key = key;
        for (int byte = 0; byte < 32; byte++)
            items[number].value.push_back(static_cast<char>(number >> (56 - 8 * (byte % 8))));
    }
    return items;
}

// The processor time of the process in nanoseconds.
double processor_time() {
    std::timespec at{};
    clock_gettime(CLOCK_PROCESS_CPUTIME_ID, &at);
    return static_cast<double>(at.tv_sec) * 1e9 + static_cast<double>(at.tv_nsec);
}

// Calls a function for each item, and prints the calls per second, and the processor time of one call.
template <class Call>
void measure(const char *rate, const char *time, const std::vector<Item> &items, Call call) {
    const auto calls = static_cast<double>(items.size());
    const auto start = std::chrono::steady_clock::now();
    const double before = processor_time();
    for (const Item &item : items) call(item);
    const double used = processor_time() - before;
    const std::chrono::duration<double> took = std::chrono::steady_clock::now() - start;
    std::printf(",\"%s\":%.0f,\"%s\":%.0f", rate, calls / took.count(), time, used / calls);
}

} // namespace

int main(int argc, char **argv) {
    const auto items = make_items(argc > 1 ? std::strtoul(argv[1], nullptr, 10) : 100'000);
    Config config;
    config.format = argc > 2 ? std::strtoul(argv[2], nullptr, 10) : 1;
    Replica replica = sure(Replica::make(config));
    std::size_t met = 0;
    std::printf("{\"keys\":%zu", items.size());
    measure("puts_per_s", "put_ns", items, [&](const Item &item) { sure(replica.put(1, item.key, item.value)); });
    measure("gets_per_s", "get_ns", items, [&](const Item &item) { met += sure(replica.get(item.key)).size(); });
    measure("rows_per_s", "row_ns", items, [&](const Item &item) { met += !sure(replica.row(item.key)).empty(); });
    std::printf("}\n");
    return met == 2 * items.size() ? 0 : 1;
}
