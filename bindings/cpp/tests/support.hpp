/// Code that the tests share: a check, and a list of tests.
#ifndef SUPPORT_HPP
#define SUPPORT_HPP

#include "antientropy.hpp"

#include <cstdio>
#include <cstdlib>

using namespace antientropy;

/// Number of failed checks of the running test.
inline int failures = 0;

inline void check(bool passed, const char *what, int line) {
    if (passed) return;
    failures++;
    std::printf("line %d: %s\n", line, what);
}

#define CHECK(...) check(static_cast<bool>(__VA_ARGS__), #__VA_ARGS__, __LINE__)
#define REFUSED(cause, ...) check(is_refused(Refusal::cause, __VA_ARGS__), #cause ": " #__VA_ARGS__, __LINE__)

template <class Result>
bool is_refused(Refusal cause, const Result &result) {
    return !result && result.error() == cause;
}

/// The value of a call that can't be refused here.
template <class T>
T sure(Result<T> result) {
    if (result) return *std::move(result);
    std::printf("refused: %s\n", name(result.error()).c_str());
    std::exit(1);
}

inline void sure(Result<void> result) { CHECK(result); }

/// The values of a range-for.
template <class T>
std::vector<T> all(Sequence<T> sequence) {
    std::vector<T> met;
    for (auto &value : sequence) met.push_back(std::move(value));
    CHECK(!sequence.error());
    return met;
}

/// The refusal that ends a range-for at once.
template <class T>
Result<void> ended(Sequence<T> sequence) {
    CHECK(!(sequence.begin() != sequence.end()));
    return sequence.error() ? Result<void>(Unexpected(*sequence.error())) : Result<void>();
}

/// The numbers of a replica of format 1.
inline const Config format_1 = {1};

/// The numbers of a replica with a limit.
inline Config with_limit(std::uint64_t limit) {
    Config config;
    config.limit = limit;
    return config;
}

/// A replica with keys that were put at node 1.
inline Replica filled(int keys) {
    Replica replica = sure(Replica::make(with_limit(10'000)));
    for (int n = 0; n < keys; n++) sure(replica.put(1, "key " + std::to_string(n), "value"));
    return replica;
}

using Asks = std::vector<std::string>;
using Answers = std::vector<std::optional<std::string>>;

/// A partner that is called directly. Its offer has the number 1.
inline Answers serve(const Snapshot &snapshot, const Asks &asks) {
    Answers answers;
    for (const auto &ask : asks) answers.push_back(sure(snapshot.serve(1, ask)));
    return answers;
}

inline Reach reach(const Snapshot &snapshot) {
    return [&](const Asks &asks) { return serve(snapshot, asks); };
}

/// The bytes of hexadecimal digits.
inline std::string from_hex(const std::string &digits) {
    std::string bytes;
    for (std::size_t at = 0; at < digits.size(); at += 2) {
        bytes.push_back(static_cast<char>(std::stoi(digits.substr(at, 2), nullptr, 16)));
    }
    return bytes;
}

/// Fills a key with 64 concurrent versions.
inline void crowd(Replica &replica, std::string_view key, std::uint64_t first = 1) {
    for (std::uint64_t node = first; node < first + 64; node++) {
        sure(replica.accept(key, {{{node, 1}}, Kind::Live, std::to_string(node)}));
    }
}

/// A test and its name.
struct Test {
    const char *name;
    void (*run)();
};

/// Runs the tests, and writes a line for each. Returns the status of the program.
inline int run(std::initializer_list<Test> tests) {
    int failed = 0;
    for (const Test &test : tests) {
        failures = 0;
        test.run();
        failed += failures != 0;
        std::printf("%s %s\n", failures == 0 ? "ok" : "FAILED", test.name);
    }
    return failed == 0 ? 0 : 1;
}

#endif
