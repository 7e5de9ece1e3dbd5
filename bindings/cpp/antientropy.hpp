/// antientropy for C++17: replicas of a range of a Dynamo-style store, over the proved C library.
///
/// A `Replica` holds versions of keys. `Replica::sync` fetches missing versions from a partner by messages that the
/// program carries. `Hints` and `Slots` are independent of it. docs/EMBEDDING_C.md lists the program's duties, above
/// all that counters don't go back. README.md shows how to use this header.
///
/// RESULTS. A call that can be refused returns a `Result`: a value, or the `Refusal` of the first cause in the call's
/// list. It has the names of std::expected. A refused call changes nothing, except as antientropy.h says. The value of
/// a lookup is a std::optional. `value` of a result without one throws a `BadAccess`, or ends the program if exceptions
/// are off. No other call throws an exception of this header. Exceptions of the standard library pass through it
/// (std::bad_alloc, or a stream's, if enabled), and so do exceptions of a `Reach`.
///
/// OBJECTS. All classes with a handle are moved, not copied. A call on an object that was closed or moved from is
/// refused as Empty, and any call may be refused as NoMemory instead of another cause: doc comments don't repeat this.
///
/// NUMBERS of nodes, owners, partners, leaves and hints have 64 bits, and are refused over their limit. Numbers of
/// offers and slots have 32 bits: -Wconversion warns if one is truncated before the call. Text and bytes are passed as
/// std::string_view, and returned as std::string.
///
/// THREADS. No class has a lock. **Threads may call const methods of an object concurrently; a call that isn't const
/// needs exclusive access**: a std::shared_mutex does that. Each call of an `Exchange` needs exclusive access to it,
/// and reads or changes the replica passed. A step of a `Sequence` reads its replica or snapshot; the `Sequence` itself
/// is for one thread. Hints and slots have no const methods, since a library call moves their contents out of the
/// handle and back, even to read. A `Loan` counts as its slots. A replica, its snapshots and its portions are
/// independent, and may be used concurrently; so may snapshots that share rows. `snapshot_beside`, `exchange_beside`,
/// `sync_beside`, `renew_beside` and `renew_if_due` lock the program's mutex of a replica, and unlock it while they
/// hash. Call nothing in a signal handler, or in the forked child of a process with threads.
#ifndef ANTIENTROPY_HPP
#define ANTIENTROPY_HPP

#ifdef ANTIENTROPY_H
#error "include antientropy.hpp without antientropy.h, whose names it has in antientropy::c"
#endif

#include <fcntl.h>
#include <stdbool.h>
#include <stddef.h>
#include <stdint.h>
#include <unistd.h>

#include <algorithm>
#include <array>
#include <cassert>
#include <cerrno>
#include <chrono>
#include <cstddef>
#include <cstdint>
#include <cstdio>
#include <cstdlib>
#include <filesystem>
#include <functional>
#include <initializer_list>
#include <istream>
#include <iterator>
#include <memory>
#include <mutex>
#include <optional>
#include <ostream>
#include <stdexcept>
#include <string>
#include <string_view>
#include <system_error>
#include <thread>
#include <utility>
#include <variant>
#include <vector>

namespace antientropy {

/// The names of the C header.
namespace c {
#include "antientropy.h"
}

// ---- refusals and results

/// Causes of refusal, with the header's numbers. docs/FORMATS.md has the remedy for each.
enum class Refusal : std::uint32_t {
    BadClock = c::ANTIENTROPY_BAD_CLOCK,
    ClockFull = c::ANTIENTROPY_CLOCK_FULL,
    CounterFull = c::ANTIENTROPY_COUNTER_FULL,
    BadKey = c::ANTIENTROPY_BAD_KEY,
    BadValue = c::ANTIENTROPY_BAD_VALUE,
    StaleContext = c::ANTIENTROPY_STALE_CONTEXT,
    Crowded = c::ANTIENTROPY_CROWDED,
    JournalFull = c::ANTIENTROPY_JOURNAL_FULL,
    OtherRange = c::ANTIENTROPY_OTHER_RANGE,
    Dirty = c::ANTIENTROPY_DIRTY,
    Stale = c::ANTIENTROPY_STALE,
    UnknownSession = c::ANTIENTROPY_UNKNOWN_SESSION,
    NotAsked = c::ANTIENTROPY_NOT_ASKED,
    WrongDigest = c::ANTIENTROPY_WRONG_DIGEST,
    NotCanonical = c::ANTIENTROPY_NOT_CANONICAL,
    OtherFormat = c::ANTIENTROPY_OTHER_FORMAT,
    SessionsFull = c::ANTIENTROPY_SESSIONS_FULL,
    NoSlot = c::ANTIENTROPY_NO_SLOT,
    ClockBack = c::ANTIENTROPY_CLOCK_BACK,
    UnknownHint = c::ANTIENTROPY_UNKNOWN_HINT,
    HintsFull = c::ANTIENTROPY_HINTS_FULL,
    Gone = c::ANTIENTROPY_GONE,
    BadRing = c::ANTIENTROPY_BAD_RING,
    RowBroken = c::ANTIENTROPY_ROW_BROKEN,
    BadMessage = c::ANTIENTROPY_BAD_MESSAGE,
    NoMemory = c::ANTIENTROPY_NO_MEMORY,
    Small = c::ANTIENTROPY_SMALL,
    Empty = c::ANTIENTROPY_EMPTY,
    Held = c::ANTIENTROPY_HELD,
    NoVersion = c::ANTIENTROPY_NO_VERSION,
    BadPosition = c::ANTIENTROPY_BAD_POSITION,
};

/// The damage of a checkpoint.
struct Damage {
    enum class Kind {
        NotCheckpoint, ///< the file doesn't begin like a checkpoint
        Truncated,     ///< the file ends early, or a length in it is damaged
        TooLong,       ///< bytes follow the last leaf
        Root,          ///< the rows' root differs from the file's
        Leaf           ///< the rows of `leaf` are refused
    };

    Kind kind;
    /// Number of the leaf if the kind is Leaf, otherwise 0.
    std::uint64_t leaf = 0;

    friend bool operator==(const Damage &first, const Damage &second) {
        return first.kind == second.kind && first.leaf == second.leaf;
    }
    friend bool operator!=(const Damage &first, const Damage &second) { return !(first == second); }
};

/// The reason why a checkpoint wasn't written or loaded: the system's error for its file, the file's damage, or the
/// refusal of a call: BadRing (the limit, or the file's range), JournalFull, NoMemory, Empty. A stream that fails has
/// the error std::io_errc::stream, not the system's.
using CheckpointError = std::variant<std::error_code, Damage, Refusal>;

/// Returns the library's name of a cause: "BadKey" for BadKey. Other numbers have no name.
[[nodiscard]] inline std::string name(Refusal refusal);

/// Returns the damage in words: "Truncated", or "Leaf 7".
[[nodiscard]] inline std::string name(const Damage &damage);

/// Returns an error in words: "Io: No space left on device", "Damaged: Truncated" or "Refused: JournalFull".
[[nodiscard]] inline std::string name(const CheckpointError &error);

/// The exception that `value` throws for an error. Its message names the error.
template <class E>
class BadAccess : public std::runtime_error {
public:
    explicit BadAccess(E error) : std::runtime_error("antientropy: " + name(error)), error_(std::move(error)) {}

    /// The error: a `Refusal` or a `CheckpointError`.
    [[nodiscard]] const E &error() const noexcept { return error_; }

private:
    E error_;
};

/// An error to be stored in a result, like std::unexpected.
template <class E>
class Unexpected {
public:
    explicit Unexpected(E error) : error_(std::move(error)) {}

    [[nodiscard]] const E &error() const &noexcept { return error_; }
    [[nodiscard]] E error() && { return std::move(error_); }

private:
    E error_;
};

namespace detail {

/// Throws, or without exceptions writes the message to the standard error and aborts.
template <class E>
[[noreturn]] void fail(const E &error) {
#ifdef __cpp_exceptions
    throw BadAccess<E>(error);
#else
    std::fprintf(stderr, "%s\n", BadAccess<E>(error).what());
    std::abort();
#endif
}

} // namespace detail

/// A value or an error, with the names of C++23's std::expected, which can replace it. Moving out of a temporary
/// returns a value here, not a reference, so a range-for may iterate over it.
template <class T, class E>
class [[nodiscard]] Expected {
public:
    using value_type = T;
    using error_type = E;
    using unexpected_type = Unexpected<E>;

    Expected(T value) : held_(std::in_place_index<0>, std::move(value)) {}
    Expected(Unexpected<E> error) : held_(std::in_place_index<1>, std::move(error).error()) {}

    /// True if there is a value.
    [[nodiscard]] bool has_value() const noexcept { return held_.index() == 0; }
    [[nodiscard]] explicit operator bool() const noexcept { return has_value(); }

    /// The value. Throws BadAccess for an error.
    T &value() & {
        check();
        return *held();
    }
    [[nodiscard]] const T &value() const & {
        check();
        return *held();
    }
    T value() && {
        check();
        return std::move(*held());
    }

    /// The value, or `other` for an error.
    template <class U>
    [[nodiscard]] T value_or(U &&other) const & {
        return has_value() ? **this : static_cast<T>(std::forward<U>(other));
    }
    template <class U>
    [[nodiscard]] T value_or(U &&other) && {
        return has_value() ? std::move(*held()) : static_cast<T>(std::forward<U>(other));
    }

    /// The value. Only an assert checks that it exists.
    [[nodiscard]] T &operator*() & { return *held(); }
    [[nodiscard]] const T &operator*() const & { return *held(); }
    [[nodiscard]] T operator*() && { return std::move(*held()); }
    [[nodiscard]] T *operator->() { return held(); }
    [[nodiscard]] const T *operator->() const { return held(); }

    /// The error. Only assert tests here that there is one.
    [[nodiscard]] const E &error() const & { return *failure(); }
    [[nodiscard]] E error() && { return *failure(); }

private:
    void check() const {
        if (!has_value()) detail::fail(*failure());
    }

    T *held() {
        assert(has_value());
        return std::get_if<0>(&held_);
    }
    [[nodiscard]] const T *held() const {
        assert(has_value());
        return std::get_if<0>(&held_);
    }
    [[nodiscard]] const E *failure() const {
        assert(!has_value());
        return std::get_if<1>(&held_);
    }

    std::variant<T, E> held_;
};

/// Nothing or an error, with the same names.
template <class E>
class [[nodiscard]] Expected<void, E> {
public:
    using value_type = void;
    using error_type = E;
    using unexpected_type = Unexpected<E>;

    Expected() = default;
    Expected(Unexpected<E> error) : error_(std::move(error).error()) {}

    /// True if the call succeeded.
    [[nodiscard]] bool has_value() const noexcept { return !error_; }
    [[nodiscard]] explicit operator bool() const noexcept { return has_value(); }

    /// Throws BadAccess if there is an error.
    void value() const {
        if (error_) detail::fail(*error_);
    }
    /// Does nothing. Only an assert checks that the call succeeded.
    void operator*() const noexcept { assert(has_value()); }

    /// The error. Only assert tests here that there is one.
    [[nodiscard]] const E &error() const & {
        assert(error_);
        return *error_;
    }
    [[nodiscard]] E error() && { return std::as_const(*this).error(); }

private:
    std::optional<E> error_;
};

/// The result of a call: a value, or the cause of its refusal.
template <class T>
using Result = Expected<T, Refusal>;

/// The result of a call that writes or reads a checkpoint.
template <class T>
using CheckpointResult = Expected<T, CheckpointError>;

// ---- the values that calls take and return

/// The numbers of a new replica: `format` 1 (256 leaves, no tombstones) or 2 (4,096 leaves), `bits` of the ring (0 to
/// 8), which has 2^bits ranges, number of the `range`, from 0, and maximum number of the journal's entries (`limit`, 1
/// to 1,000,000).
struct Config {
    std::uint64_t format = 2;
    std::uint64_t bits = 0;
    std::uint64_t range = 0;
    std::uint64_t limit = ANTIENTROPY_ENTRIES_MAX;
};

/// The numbers of new slots: the target stays from `floor` to `ceiling`, 1 to 1,024, and falls if the latency of the
/// foreground is above `threshold_micros`, in microseconds.
struct SlotsConfig {
    std::uint32_t floor = 1;
    std::uint32_t ceiling = 1;
    std::uint32_t threshold_micros = 0;
};

/// Kinds of versions.
enum class Kind : std::uint8_t { Live = c::ANTIENTROPY_LIVE, Tombstone = c::ANTIENTROPY_TOMBSTONE };

/// Sources of an entry's version: a put here, a copy, a hint, or a partner in a session that is kept.
enum class Source : std::uint64_t {
    Put = c::ANTIENTROPY_PUT,
    Copy = c::ANTIENTROPY_COPY,
    Hint = c::ANTIENTROPY_HINT,
    Partner = c::ANTIENTROPY_PARTNER
};

/// Kinds of verdicts of an exchange on an answer.
enum class VerdictKind : std::uint64_t {
    Taken = c::ANTIENTROPY_VERDICT_TAKEN,
    Left = c::ANTIENTROPY_VERDICT_LEFT,
    Bad = c::ANTIENTROPY_VERDICT_BAD,
    Late = c::ANTIENTROPY_VERDICT_LATE,
    Refused = c::ANTIENTROPY_VERDICT_REFUSED,
    Failed = c::ANTIENTROPY_VERDICT_FAILED,
};

/// Reports of an exchange, which sends asks while it is Waiting. The header explains each of them.
enum class Report : std::uint64_t {
    Finished = c::ANTIENTROPY_REPORT_FINISHED,
    Waiting = c::ANTIENTROPY_REPORT_WAITING,
    Left = c::ANTIENTROPY_REPORT_LEFT,
    Stopped = c::ANTIENTROPY_REPORT_STOPPED,
    TooManyBad = c::ANTIENTROPY_REPORT_TOO_MANY_BAD,
    TooManyLost = c::ANTIENTROPY_REPORT_TOO_MANY_LOST,
    Failed = c::ANTIENTROPY_REPORT_FAILED,
    Closed = c::ANTIENTROPY_REPORT_CLOSED,
    Gone = c::ANTIENTROPY_REPORT_GONE,
};

/// Orders of two clocks. Versions under clocks that are apart are concurrent.
enum class Order : std::uint64_t {
    Before = c::ANTIENTROPY_BEFORE,
    After = c::ANTIENTROPY_AFTER,
    Equal = c::ANTIENTROPY_EQUAL,
    Apart = c::ANTIENTROPY_APART
};

/// Results of accepting a version: it is now an entry of the journal, or it was known.
enum class Outcome : std::uint64_t { Known = 0, Accepted = 1 };

/// A pair of a clock: `node` and its `counter`.
using Pair = c::antientropy_pair;

/// A clock: pairs of a node and its counter. The library returns them by rising node, and takes them in any order.
class Clock {
public:
    Clock() = default;
    Clock(std::initializer_list<Pair> pairs) : pairs_(pairs) {}
    Clock(const Pair *first, const Pair *last) : pairs_(first, last) {}

    /// Adds a pair. Nothing checks it before a call takes the clock.
    void add(std::uint64_t node, std::uint64_t counter) { pairs_.push_back({node, counter}); }

    /// The pairs.
    [[nodiscard]] const Pair *begin() const noexcept { return pairs_.data(); }
    [[nodiscard]] const Pair *end() const noexcept { return pairs_.data() + pairs_.size(); }
    [[nodiscard]] std::size_t size() const noexcept { return pairs_.size(); }
    [[nodiscard]] bool empty() const noexcept { return pairs_.empty(); }

    /// True if both have the same pairs in the same order. `compare` compares them as clocks.
    friend bool operator==(const Clock &first, const Clock &second) {
        const auto equal = [](const Pair &a, const Pair &b) { return a.node == b.node && a.counter == b.counter; };
        return std::equal(first.begin(), first.end(), second.begin(), second.end(), equal);
    }
    friend bool operator!=(const Clock &first, const Clock &second) { return !(first == second); }

private:
    std::vector<Pair> pairs_;
};

/// The kind and the bytes of a value. A tombstone has no bytes.
struct Value {
    Kind kind = Kind::Live;
    std::string bytes;
};

/// A version of a key. A tombstone has an empty value.
struct Version {
    Clock clock;
    Kind kind = Kind::Live;
    std::string value;

    friend bool operator==(const Version &first, const Version &second) {
        return first.clock == second.clock && first.kind == second.kind && first.value == second.value;
    }
    friend bool operator!=(const Version &first, const Version &second) { return !(first == second); }
};

/// An entry of a journal: an accepted version with its key, its source and its number from 0, over renewals too.
struct Entry {
    std::uint64_t number;
    std::string key;
    Version version;
    Source source;
};

/// Some entries of a journal: their concatenated `bytes` (docs/FORMATS.md), and the number after the last one.
struct Packed {
    std::string bytes;
    std::uint64_t next;
};

/// A version that is kept for its owner, a node that is down. No number ever names two hints.
struct Hint {
    std::uint64_t number;
    std::uint64_t owner;
    std::string key;
    Version version;
};

/// The result of a put: the entry's `number`, which may name another version after a renewal, and the node's `counter`
/// in the new version's clock.
using Receipt = c::antientropy_receipt;

/// The `range` and the `leaf` of a key.
using Spot = c::antientropy_spot;

/// Counts of a replica: `entries`, with those before renewals, `dirty` nodes, `sessions` that are kept, and
/// `open_sessions`. `first` is the number of the journal's first entry. `limit` is the maximum of `entries` minus
/// `first`. `front` is `entries` at the last moment that was whole: `first` without one since a renewal.
using Counts = c::antientropy_counts;

/// The size of a replica in bytes. `rows` are as `Snapshot::rows` returns them. `journal` is the keys, values and
/// clocks of the entries from `first` of the counts on, 10 bytes for each pair of a clock. `sessions` counts what
/// sessions keep in addition: the texts that they took, and the leaves of their rows that have changed since or have no
/// digest now.
using Bytes = struct c::antientropy_bytes;

/// The identity to store in a checkpoint or a log: the `format` of a replica or a snapshot (1 or 2), the `bits` of the
/// ring, the number of the `range`, and the count of `entries`, which is the number of the next one.
using About = struct c::antientropy_about;

/// Counts of hints: `pending` and `delivered`.
using HintCounts = c::antientropy_hint_counts;

/// Counts of slots: `target`, `lent` and `free`.
using SlotCounts = c::antientropy_slot_counts;

/// The parts of an offer, as received: the ring may not have the format or the range.
struct OfferParts {
    std::uint64_t number;
    std::uint64_t format;
    std::uint64_t range;
    std::string root;
};

/// The bounds of an exchange or a sync: maximum numbers of `asks` in flight, of estimated `bytes` of their answers, and
/// of `bad` answers and `lost` asks. One ask may always be in flight. If `plain`, no ask is an outline: that saves
/// processor time on both sides, and sends more over the link.
struct Bounds {
    std::uint64_t asks = 256;
    std::uint64_t bytes = 1 << 20;
    std::uint64_t bad = 8;
    std::uint64_t lost = 256;
    bool plain = false;
};

/// The verdict on an answer: the `cause` of a Bad or a Refused one, and numbers of new and of known versions.
struct Verdict {
    VerdictKind kind;
    std::optional<Refusal> cause;
    std::uint64_t accepted;
    std::uint64_t known;
};

/// The progress of an exchange: the `cause` if it is Stopped, and the numbers of `asks` sent, of asks in flight and the
/// estimated bytes of their answers, of `bad` answers and `lost` asks, and of new versions, known versions and leaves
/// in the answers taken.
struct Progress {
    Report report;
    std::optional<Refusal> cause;
    std::uint64_t asks, in_flight, bytes_in_flight, bad, lost, accepted, known, leaves;
};

/// The result of loading rows: numbers of accepted and of known versions.
struct Loaded {
    std::uint64_t accepted;
    std::uint64_t known;
};

/// The result of a sync. `left` lists the leaves that were left because a key in them is crowded.
struct Synced {
    Report report;
    std::uint64_t accepted, known, asks, bad, lost;
    std::vector<std::uint64_t> left;

    /// True if each version of the offer was taken.
    [[nodiscard]] bool finished() const noexcept { return report == Report::Finished; }
};

/// Carries asks to a partner, and returns the answers in any order. A missing answer is std::nullopt, or is left out.
using Reach = std::function<std::vector<std::optional<std::string>>(const std::vector<std::string> &)>;

/// A sequence that a range-for iterates over once. The loop ends after the last value, or at a refusal, which `error`
/// returns. It may outlive its object.
template <class T>
class [[nodiscard]] Sequence {
public:
    using Next = std::function<Result<std::optional<T>>()>;

    /// An iterator of one pass.
    class Iterator {
    public:
        using iterator_category = std::input_iterator_tag;
        using value_type = T;
        using difference_type = std::ptrdiff_t;
        using pointer = T *;
        using reference = T &;

        explicit Iterator(Sequence *of = nullptr) : of_(of) {}
        reference operator*() const { return *of_->current_; }
        pointer operator->() const { return &*of_->current_; }
        Iterator &operator++() {
            if (!of_->step()) of_ = nullptr;
            return *this;
        }
        void operator++(int) { ++*this; }
        friend bool operator==(Iterator first, Iterator second) { return first.of_ == second.of_; }
        friend bool operator!=(Iterator first, Iterator second) { return first.of_ != second.of_; }

    private:
        Sequence *of_;
    };

    explicit Sequence(Next next) : next_(std::move(next)) {}
    Sequence(const Sequence &) = delete;
    Sequence(Sequence &&) noexcept = default;
    Sequence &operator=(const Sequence &) = delete;
    Sequence &operator=(Sequence &&) noexcept = default;
    ~Sequence() = default;

    /// Reads the next value. Call it once.
    Iterator begin() { return ++Iterator(this); }
    Iterator end() { return Iterator(); }

    /// The refusal that ended the loop, if any.
    [[nodiscard]] std::optional<Refusal> error() const noexcept { return error_; }

private:
    bool step() {
        auto next = next_();
        if (next) {
            current_ = std::move(*next);
        } else {
            current_.reset();
            error_ = next.error();
        }
        return current_.has_value();
    }

    Next next_;
    std::optional<T> current_;
    std::optional<Refusal> error_;
};

// ---- between C and C++

namespace detail {

using ReplicaHandle = c::antientropy_replica;

/// A pointer that is never NULL, as the C calls require.
inline const std::uint8_t *data(std::string_view bytes) {
    return reinterpret_cast<const std::uint8_t *>(bytes.data() != nullptr ? bytes.data() : "");
}

inline const Pair *data(const Clock &clock) {
    static const Pair none = {};
    return clock.empty() ? &none : clock.begin();
}

inline std::uint8_t *room(std::string &bytes) { return reinterpret_cast<std::uint8_t *>(bytes.data()); }

inline std::string text(const std::uint8_t *bytes, std::uint64_t length) {
    return {reinterpret_cast<const char *>(bytes), length};
}

/// The refusal of a number that a call returned.
inline Unexpected<Refusal> refused(std::uint32_t number) { return Unexpected(static_cast<Refusal>(number)); }

inline Result<void> done(std::uint32_t number) {
    if (number != c::ANTIENTROPY_OK) return refused(number);
    return {};
}

/// The result of a call that wrote a value.
template <class T>
Result<T> result(std::uint32_t number, T value) {
    if (number != c::ANTIENTROPY_OK) return refused(number);
    return value;
}

/// The cause of a number that a verdict or a report has, if any.
inline std::optional<Refusal> cause(std::uint64_t number) {
    if (number == c::ANTIENTROPY_OK) return std::nullopt;
    return static_cast<Refusal>(number);
}

/// The result of a call for which NoVersion isn't a refusal.
template <class T>
Result<std::optional<T>> or_none(Result<T> result) {
    if (result) return std::optional<T>(std::move(*result));
    if (result.error() == Refusal::NoVersion) return std::optional<T>();
    return Unexpected(result.error());
}

/// Size of the first buffer: a longer result needs a second call.
inline constexpr std::size_t first_room = 4096;

/// The bytes that a call writes. It gets a buffer, its length, and the place to write the length of the bytes.
template <class Call>
Result<std::string> bytes(Call call) {
    std::uint8_t first[first_room];
    std::uint64_t need = 0;
    std::uint32_t number = call(first, sizeof first, &need);
    if (number == c::ANTIENTROPY_OK) return text(first, need);
    if (number != c::ANTIENTROPY_SMALL) return refused(number);
    std::string larger(need, '\0');
    number = call(room(larger), larger.size(), &need);
    return result(number, std::move(larger));
}

/// Size of a buffer that fits each clock.
inline constexpr std::size_t pairs_room = ANTIENTROPY_CLOCK_MAX;

/// The clock that a call writes to a buffer of pairs.
template <class Call>
Result<Clock> clock(Call call) {
    Pair pairs[pairs_room];
    std::uint64_t need = 0;
    const std::uint32_t number = call(pairs, pairs_room, &need);
    if (number != c::ANTIENTROPY_OK) return refused(number);
    return Clock(pairs, pairs + need);
}

/// The value that a call writes to a buffer. It gets the place to write the kind, too.
template <class Call>
Result<Value> value(Call call) {
    std::uint8_t kind = 0;
    auto read = bytes([&](auto... out) { return call(&kind, out...); });
    if (!read) return Unexpected(read.error());
    return Value{static_cast<Kind>(kind), std::move(*read)};
}

/// The version whose value one call returns, and whose clock another one returns.
template <class ValueCall, class ClockCall>
Result<Version> version(ValueCall value_call, ClockCall clock_call) {
    auto read = value(value_call);
    if (!read) return Unexpected(read.error());
    auto seen = clock(clock_call);
    if (!seen) return Unexpected(seen.error());
    return Version{std::move(*seen), read->kind, std::move(read->bytes)};
}

/// A handle that several objects share. It is never NULL: a moved-from one is empty.
template <class C>
class Shared {
public:
    Shared() : at_(std::make_shared<C>()) {}

    C *get() {
        if (!at_) at_ = std::make_shared<C>();
        return at_.get();
    }
    [[nodiscard]] const C *get() const {
        static constexpr C none = {};
        return at_ ? at_.get() : &none;
    }
    [[nodiscard]] bool moved() const noexcept { return !at_; }

private:
    std::shared_ptr<C> at_;
};

/// The owner of a handle, which frees it. After that, objects that share the handle find it empty.
template <class C, void (*Free)(C *)>
class Owner {
public:
    Owner() = default;
    Owner(const Owner &) = delete;
    Owner(Owner &&) noexcept = default;
    Owner &operator=(const Owner &) = delete;
    Owner &operator=(Owner &&other) noexcept {
        if (this == &other) return *this;
        close();
        shared_ = std::move(other.shared_);
        return *this;
    }
    ~Owner() { close(); }

    C *get() { return shared_.get(); }
    [[nodiscard]] const C *get() const { return shared_.get(); }

    [[nodiscard]] Shared<C> share() const { return shared_; }

    void close() noexcept {
        if (!shared_.moved()) Free(shared_.get());
    }

private:
    Shared<C> shared_;
};

// ---- reads that objects and their sequences share

/// One of the versions held for a key. `held` gets their number.
inline Result<Version> read_version(const ReplicaHandle *replica, std::string_view key, std::uint64_t index,
                                    std::uint64_t &held) {
    c::antientropy_reading reading = {};
    Pair pairs[pairs_room];
    const auto read = [&](std::uint8_t *out, std::size_t length) {
        return c::antientropy_read(replica, data(key), key.size(), index, &reading, pairs, pairs_room, out, length);
    };
    std::uint8_t first[first_room];
    std::string value;
    std::uint32_t number = read(first, sizeof first);
    if (number == c::ANTIENTROPY_OK) {
        value = text(first, reading.bytes);
    } else if (number == c::ANTIENTROPY_SMALL) {
        value.resize(reading.bytes);
        number = read(room(value), value.size());
    }
    if (number != c::ANTIENTROPY_OK) return refused(number);
    held = reading.versions;
    return Version{Clock(pairs, pairs + reading.pairs), static_cast<Kind>(reading.kind), std::move(value)};
}

/// The keys of a leaf, one at a time. `Next` is the call that lists them.
template <class C, auto Next>
class LeafKeys {
public:
    LeafKeys(Shared<C> rows, std::uint64_t leaf) : rows_(std::move(rows)), leaf_(leaf) {}

    Result<std::optional<std::string>> operator()() {
        const auto number = Next(rows_.get(), leaf_, key_, sizeof key_, &length_);
        return or_none(result(number, text(key_, length_)));
    }

    /// Continues with the next leaf.
    void skip() {
        leaf_++;
        length_ = 0;
    }

private:
    Shared<C> rows_;
    std::uint64_t leaf_, length_ = 0;
    std::uint8_t key_[ANTIENTROPY_KEY_MAX] = {};
};

using ReplicaLeafKeys = LeafKeys<ReplicaHandle, c::antientropy_key_next>;
using SnapshotLeafKeys = LeafKeys<c::antientropy_offered, c::antientropy_snapshot_key_next>;

/// The keys of all leaves, one at a time, from leaf 0 on.
template <class LeafKeys>
class Keys {
public:
    explicit Keys(LeafKeys keys) : keys_(std::move(keys)) {}

    Result<std::optional<std::string>> operator()() {
        while (true) {
            auto next = keys_();
            if (!next && next.error() == Refusal::BadMessage) return std::optional<std::string>();
            if (!next || *next) return next;
            keys_.skip();
        }
    }

private:
    LeafKeys keys_;
};

inline Result<Entry> entry(const ReplicaHandle *replica, std::uint64_t number) {
    auto key = bytes([&](auto... out) { return c::antientropy_entry_key(replica, number, out...); });
    if (!key) return Unexpected(key.error());
    auto held = version([&](auto... out) { return c::antientropy_entry_value(replica, number, out...); },
                        [&](auto... out) { return c::antientropy_entry_clock(replica, number, out...); });
    if (!held) return Unexpected(held.error());
    std::uint64_t source = 0;
    const auto refused = c::antientropy_entry_source(replica, number, &source);
    return result(refused, Entry{number, std::move(*key), std::move(*held), static_cast<Source>(source)});
}

/// Size of the buffer for packed entries, in bytes. A longer first entry gets a buffer of its length.
inline constexpr std::uint64_t packed_room = 1 << 20;

/// Tests whether entries can be read from a number on. Refused: BadPosition.
inline Result<void> check_position(const ReplicaHandle *replica, std::uint64_t start) {
    std::uint8_t none = 0;
    std::uint64_t need = 0, next = 0;
    const auto number = c::antientropy_entries(replica, start, &none, 0, &need, &next);
    return done(number == c::ANTIENTROPY_SMALL ? std::uint32_t(c::ANTIENTROPY_OK) : number);
}

/// Some entries from a number on. Refused: BadPosition.
inline Result<Packed> packed(const ReplicaHandle *replica, std::uint64_t start) {
    std::uint64_t need = packed_room, next = start;
    std::uint32_t number = c::ANTIENTROPY_SMALL;
    while (number == c::ANTIENTROPY_SMALL) {
        const std::uint64_t length = need;
        const std::unique_ptr<std::uint8_t[]> room(new std::uint8_t[length]); // without zeros
        number = c::antientropy_entries(replica, start, room.get(), length, &need, &next);
        if (number == c::ANTIENTROPY_OK) return Packed{text(room.get(), need), next};
    }
    return refused(number);
}

inline Result<About> about(const ReplicaHandle *replica) {
    About about = {};
    const auto number = c::antientropy_about(replica, &about);
    return result(number, about);
}

inline Result<std::optional<std::uint64_t>> hint_after(c::antientropy_hints *hints, std::uint64_t owner,
                                                       std::uint64_t after) {
    std::uint64_t id = 0;
    const auto number = c::antientropy_hint_next(hints, owner, after, &id);
    return or_none(result(number, id));
}

inline Result<Hint> hint(c::antientropy_hints *hints, std::uint64_t id) {
    std::uint64_t owner = 0;
    const auto number = c::antientropy_hint_owner(hints, id, &owner);
    if (number != c::ANTIENTROPY_OK) return refused(number);
    auto key = bytes([&](auto... out) { return c::antientropy_hint_key(hints, id, out...); });
    if (!key) return Unexpected(key.error());
    auto kept = version([&](auto... out) { return c::antientropy_hint_value(hints, id, out...); },
                        [&](auto... out) { return c::antientropy_hint_clock(hints, id, out...); });
    if (!kept) return Unexpected(kept.error());
    return Hint{id, owner, std::move(*key), std::move(*kept)};
}

/// The pending hint after another one.
inline Result<std::optional<Hint>> pending_after(c::antientropy_hints *hints, std::uint64_t owner,
                                                 std::uint64_t after) {
    const auto id = hint_after(hints, owner, after);
    if (!id) return Unexpected(id.error());
    if (!*id) return std::optional<Hint>();
    return or_none(hint(hints, **id));
}

// ---- the frame of a checkpoint (docs/FORMATS.md)

inline constexpr std::string_view magic("antient\x01", 8);
inline constexpr std::size_t head_length = magic.size() + 4 + ANTIENTROPY_ROOT_LEN;

/// A damaged length may be huge, so a file is read in pieces.
inline constexpr std::uint64_t piece_length = 1 << 20;

inline unsigned leaves_of(std::uint64_t format) { return format == 1 ? ANTIENTROPY_LEAVES_1 : ANTIENTROPY_LEAVES_2; }

/// The bytes of a number, most significant first.
inline std::string to_bytes(std::uint64_t number, unsigned length) {
    std::string bytes;
    while (length-- > 0) bytes.push_back(static_cast<char>(number >> (8 * length)));
    return bytes;
}

inline std::uint64_t to_number(std::string_view bytes) {
    std::uint64_t number = 0;
    for (const char byte : bytes) number = number << 8 | static_cast<unsigned char>(byte);
    return number;
}

/// The result of a failed call on a file.
inline Unexpected<CheckpointError> failed(const CheckpointError &error) { return Unexpected(error); }
inline Unexpected<CheckpointError> damaged(Damage::Kind kind, std::uint64_t leaf = 0) {
    return failed(Damage{kind, leaf});
}

inline std::error_code last_error() { return {errno, std::generic_category()}; }
inline std::error_code stream_error() { return std::make_error_code(std::io_errc::stream); }

/// A checkpoint in a stream.
class StreamInput {
public:
    explicit StreamInput(std::istream &file) : file_(file) {}

    /// Reads up to `length` bytes, and returns their number: 0 only at the end.
    CheckpointResult<std::size_t> read(char *to, std::size_t length) {
        file_.read(to, static_cast<std::streamsize>(length));
        if (!file_ && !file_.eof()) return failed(stream_error());
        return static_cast<std::size_t>(file_.gcount());
    }

private:
    std::istream &file_;
};

/// A checkpoint in a file.
class FileInput {
public:
    explicit FileInput(const std::filesystem::path &path) : at_(::open(path.c_str(), O_RDONLY | O_CLOEXEC)) {
        if (at_ < 0) error_ = last_error();
    }
    FileInput(const FileInput &) = delete;
    FileInput(FileInput &&) = delete;
    FileInput &operator=(const FileInput &) = delete;
    FileInput &operator=(FileInput &&) = delete;
    ~FileInput() {
        if (at_ >= 0) ::close(at_);
    }

    /// Reads up to `length` bytes, and returns their number: 0 only at the end.
    CheckpointResult<std::size_t> read(char *to, std::size_t length) {
        while (!error_) {
            const auto count = ::read(at_, to, length);
            if (count >= 0) return static_cast<std::size_t>(count);
            if (errno != EINTR) error_ = last_error();
        }
        return failed(error_);
    }

private:
    std::error_code error_;
    int at_;
};

template <class Input>
CheckpointResult<std::string> read_bytes(Input &file, std::uint64_t length) {
    std::string bytes;
    while (bytes.size() < length) {
        const std::size_t before = bytes.size(), piece = std::min(length - before, piece_length);
        bytes.resize(before + piece);
        const auto count = file.read(&bytes[before], piece);
        if (!count) return failed(count.error());
        if (*count == 0) return damaged(Damage::Kind::Truncated);
        bytes.resize(before + *count);
    }
    return bytes;
}

/// The text of a leaf, after its length.
template <class Input>
CheckpointResult<std::string> read_leaf(Input &file) {
    auto length = read_bytes(file, 8);
    if (!length) return length;
    return read_bytes(file, to_number(*length));
}

/// Tests that no byte is left. Errors: TooLong.
template <class Input>
CheckpointResult<void> check_end(Input &file) {
    char byte = 0;
    const auto count = file.read(&byte, 1);
    if (!count) return failed(count.error());
    if (*count > 0) return damaged(Damage::Kind::TooLong);
    return {};
}

/// The head of a checkpoint.
struct Head {
    std::uint64_t format, bits, range;
    std::string root;
};

inline std::string to_bytes(const Head &head) {
    return std::string(magic) + to_bytes(head.format, 1) + to_bytes(head.bits, 1) + to_bytes(head.range, 2) + head.root;
}

/// A file that is written next to the one that it replaces. It is removed unless it replaces it.
class NewFile {
public:
    explicit NewFile(std::filesystem::path place)
        : place_(std::move(place)), name_(place_.native() + ".new"),
          at_(::open(name_.c_str(), O_WRONLY | O_CREAT | O_TRUNC | O_CLOEXEC, 0666)) {
        check(at_ >= 0);
    }
    NewFile(const NewFile &) = delete;
    NewFile(NewFile &&) = delete;
    NewFile &operator=(const NewFile &) = delete;
    NewFile &operator=(NewFile &&) = delete;
    ~NewFile() {
        if (at_ < 0) return;
        ::close(at_);
        if (!placed_) ::unlink(name_.c_str());
    }

    /// Writes bytes. Returns the error of the first call of the system that failed, if any.
    std::error_code write(std::string_view bytes) {
        while (!error_ && !bytes.empty()) {
            const auto written = ::write(at_, bytes.data(), bytes.size());
            if (written >= 0) bytes.remove_prefix(static_cast<std::size_t>(written));
            else if (errno != EINTR) check(false);
        }
        return error_;
    }

    /// Syncs the bytes to the disk, renames the file into place, and syncs the folder, which names it. Returns the
    /// error of the first call of the system that failed, if any.
    std::error_code take_place() {
        placed_ = check(::fsync(at_) == 0) && check(std::rename(name_.c_str(), place_.c_str()) == 0);
        if (placed_) sync_folder();
        return error_;
    }

private:
    void sync_folder() {
        const auto folder = place_.has_parent_path() ? place_.parent_path() : ".";
        const int at = ::open(folder.c_str(), O_RDONLY | O_DIRECTORY | O_CLOEXEC);
        if (!check(at >= 0)) return;
        check(::fsync(at) == 0);
        ::close(at);
    }

    bool check(bool done) {
        if (!done) error_ = last_error();
        return done;
    }

    std::error_code error_;
    bool placed_ = false;
    std::filesystem::path place_;
    std::string name_;
    int at_;
};

template <class Input>
CheckpointResult<Head> read_head(Input &file) {
    const auto bytes = read_bytes(file, head_length);
    if (!bytes) return failed(bytes.error());
    const std::string_view head = *bytes, numbers = head.substr(magic.size());
    Head read{to_number(numbers.substr(0, 1)), to_number(numbers.substr(1, 1)), to_number(numbers.substr(2, 2)),
              std::string(numbers.substr(4))};
    const bool known = head.substr(0, magic.size()) == magic && (read.format == 1 || read.format == 2);
    if (!known) return damaged(Damage::Kind::NotCheckpoint);
    return read;
}

// ---- packed entries (docs/FORMATS.md)

/// A text that is read from its start. A field longer than the rest has no bytes, and breaks the text.
class Text {
public:
    explicit Text(std::string_view left) : left_(left) {}

    std::string_view bytes(std::uint64_t length) {
        broken_ = broken_ || length > left_.size();
        if (broken_) return {};
        const auto bytes = left_.substr(0, length);
        left_.remove_prefix(length);
        return bytes;
    }

    std::uint64_t number(unsigned length) { return to_number(bytes(length)); }

    /// The unread rest.
    [[nodiscard]] std::string_view left() const noexcept { return left_; }

    [[nodiscard]] bool broken() const noexcept { return broken_; }

private:
    std::string_view left_;
    bool broken_ = false;
};

/// Reads the clock of an entry.
inline Clock read_clock(Text &text) {
    Clock clock;
    for (auto left = text.number(1); left > 0; left--) {
        const auto node = text.number(2);
        clock.add(node, text.number(8));
    }
    return clock;
}

/// Reads an entry of a replica of a format, except its number. Refused: RowBroken (the text isn't an entry).
inline Result<Entry> read_entry(Text &text, std::uint64_t format) {
    const auto source = static_cast<Source>(text.number(1));
    std::string key(text.bytes(text.number(2)));
    const auto versions = text.number(2);
    const auto kind = format == 1 ? Kind::Live : static_cast<Kind>(text.number(1));
    auto clock = read_clock(text);
    std::string value(text.bytes(text.number(4)));
    if (text.broken() || versions != 1) return Unexpected(Refusal::RowBroken);
    return Entry{0, std::move(key), {std::move(clock), kind, std::move(value)}, source};
}

/// The entries of a journal, one at a time. They are read in batches.
class Entries {
public:
    Entries(Shared<ReplicaHandle> replica, std::uint64_t start)
        : replica_(std::move(replica)), packed_{{}, start}, number_(start) {}

    Result<std::optional<Entry>> operator()() {
        if (left_ == 0) {
            const auto read = read_on();
            if (!read) return Unexpected(read.error());
        }
        if (left_ == 0) return std::optional<Entry>();
        Text text(std::string_view(packed_.bytes).substr(packed_.bytes.size() - left_));
        auto entry = read_entry(text, format_);
        if (entry) entry->number = number_++;
        left_ = text.left().size();
        return or_none(std::move(entry));
    }

private:
    Result<void> read_on() {
        const auto of = about(replica_.get());
        if (!of) return Unexpected(of.error());
        auto read = packed(replica_.get(), packed_.next);
        if (!read) return Unexpected(read.error());
        format_ = of->format;
        packed_ = *std::move(read);
        left_ = packed_.bytes.size();
        return {};
    }

    Shared<ReplicaHandle> replica_;
    Packed packed_;
    std::uint64_t number_, format_ = 0;
    std::size_t left_ = 0;
};

} // namespace detail

// ---- calls that need no replica

/// Returns the version of the library, as ANTIENTROPY_VERSION.
inline std::uint32_t version() { return c::antientropy_version(); }

inline std::string name(Refusal refusal) {
    const auto number = static_cast<std::uint32_t>(refusal);
    auto found = detail::bytes([&](auto... out) { return c::antientropy_name(number, out...); });
    return found ? *std::move(found) : std::string();
}

inline std::string name(const Damage &damage) {
    switch (damage.kind) {
    case Damage::Kind::NotCheckpoint: return "NotCheckpoint";
    case Damage::Kind::Truncated: return "Truncated";
    case Damage::Kind::TooLong: return "TooLong";
    case Damage::Kind::Root: return "Root";
    case Damage::Kind::Leaf: break;
    }
    return "Leaf " + std::to_string(damage.leaf);
}

inline std::string name(const CheckpointError &error) {
    if (const auto *io = std::get_if<std::error_code>(&error)) return "Io: " + io->message();
    if (const auto *damage = std::get_if<Damage>(&error)) return "Damaged: " + name(*damage);
    return "Refused: " + name(std::get<Refusal>(error));
}

/// Returns the range and the leaf of a key, in a ring of 2^bits ranges (bits 0 to 8) of format 1 or 2.
/// Refused, in order: BadRing, BadKey.
inline Result<Spot> place(std::uint64_t format, std::uint64_t bits, std::string_view key) {
    Spot spot = {};
    const auto number = c::antientropy_place(format, bits, detail::data(key), key.size(), &spot);
    return detail::result(number, spot);
}

/// Compares two clocks. Refused, in order: BadClock and ClockFull of the first, then of the second.
inline Result<Order> compare(const Clock &first, const Clock &second) {
    std::uint64_t order = 0;
    const auto number =
        c::antientropy_compare(detail::data(first), first.size(), detail::data(second), second.size(), &order);
    return detail::result(number, static_cast<Order>(order));
}

/// Merges two clocks. Refused, in order: BadClock and ClockFull of the first, then of the second; ClockFull (over 32
/// nodes).
inline Result<Clock> merge(const Clock &first, const Clock &second) {
    return detail::clock([&](auto... out) {
        return c::antientropy_merge(detail::data(first), first.size(), detail::data(second), second.size(), out...);
    });
}

/// Merges the clocks of versions, for the context of a put that replaces them all. Refused as `merge` of two clocks.
inline Result<Clock> merge(const std::vector<Version> &versions) {
    Result<Clock> merged = Clock();
    for (const Version &version : versions) {
        merged = merge(*merged, version.clock);
        if (!merged) return merged;
    }
    return merged;
}

/// Returns the parts of a partner's offer. Refused: BadMessage (the bytes aren't an offer).
inline Result<OfferParts> read_offer(std::string_view offer) {
    c::antientropy_offer_parts parts = {};
    const auto number = c::antientropy_read_offer(detail::data(offer), offer.size(), &parts);
    if (number != c::ANTIENTROPY_OK) return detail::refused(number);
    return OfferParts{parts.number, parts.format, parts.range, detail::text(parts.root, sizeof parts.root)};
}

// ---- snapshots

/// The rows of a replica at one moment. It serves a partner's asks while the replica changes, and may outlive it.
/// `Replica::snapshot`, `snapshot_beside` and `moment` make it.
class [[nodiscard]] Snapshot {
public:
    /// Frees the memory now, unless another snapshot shares the rows.
    void close() noexcept { handle_.close(); }

    /// Returns another snapshot of the same rows. Copies no row. A thread with its own snapshot needs no lock, even if
    /// others close theirs. The last one frees the rows.
    [[nodiscard]] Result<Snapshot> share() const {
        return made_by([&](auto *into) { return c::antientropy_snapshot_share(at(), into); });
    }

    /// Number of entries at the moment of the snapshot: a log continues there.
    [[nodiscard]] std::uint64_t entries() const noexcept { return about_.entries; }

    /// Returns the size of the rows in bytes, as `rows` returns them.
    [[nodiscard]] Result<std::uint64_t> bytes() const {
        std::uint64_t bytes = 0;
        const auto number = c::antientropy_snapshot_bytes(at(), &bytes);
        return detail::result(number, bytes);
    }

    /// Returns the digest of the root: 32 bytes. Replicas of a range with equal roots hold the same versions.
    [[nodiscard]] Result<std::string> root() const {
        return detail::bytes([&](auto... out) { return c::antientropy_root(at(), out...); });
    }

    /// Returns the digest of a node of the tree: 32 bytes. The root is node 0 at depth 0; the leaves are at depth 2, or
    /// at 3 in format 2. Refused: BadMessage (the tree has no such node).
    [[nodiscard]] Result<std::string> digest(std::uint64_t depth, std::uint64_t index) const {
        return detail::bytes([&](auto... out) { return c::antientropy_digest(at(), depth, index, out...); });
    }

    /// Returns the message that offers the snapshot: 39 bytes. The caller numbers its offers.
    [[nodiscard]] Result<std::string> offer(std::uint32_t number) const {
        return detail::bytes([&](auto... out) { return c::antientropy_offer(at(), number, out...); });
    }

    /// Returns the answer to an ask for the offer of that number. Its length has no fixed limit.
    /// Refused, in order: BadMessage (the bytes aren't an ask), Gone (it is for another offer), BadMessage (the node
    /// isn't in the tree).
    [[nodiscard]] Result<std::string> serve(std::uint32_t number, std::string_view ask) const {
        return detail::bytes([&](auto... out) {
            return c::antientropy_serve(at(), number, detail::data(ask), ask.size(), out...);
        });
    }

    /// Returns the texts of the rows of a leaf, from 0. Refused: BadMessage (the tree has no such leaf).
    [[nodiscard]] Result<std::string> rows(std::uint64_t leaf) const {
        return detail::bytes([&](auto... out) { return c::antientropy_rows(at(), leaf, out...); });
    }

    /// Returns the text of the row of a key (docs/FORMATS.md), or no bytes if none is held. Refused: BadKey.
    [[nodiscard]] Result<std::string> row(std::string_view key) const {
        return detail::bytes([&](auto... out) {
            return c::antientropy_snapshot_get(at(), detail::data(key), key.size(), out...);
        });
    }

    /// Iterates over the keys, leaf by leaf.
    Sequence<std::string> keys() const {
        return Sequence<std::string>(detail::Keys(detail::SnapshotLeafKeys(handle_.share(), 0)));
    }

    /// Iterates over the keys of a leaf, from 0, in ascending order. Refused: BadMessage (the tree has no such leaf).
    Sequence<std::string> keys_of(std::uint64_t leaf) const {
        return Sequence<std::string>(detail::SnapshotLeafKeys(handle_.share(), leaf));
    }

    /// Writes a checkpoint of the rows (docs/FORMATS.md), and returns the number of entries at its moment. The caller
    /// syncs the file to its disk. Errors: Io, Refused.
    CheckpointResult<std::uint64_t> save(std::ostream &file) const {
        const auto error_of = [](const std::ostream &at) { return at ? std::error_code() : detail::stream_error(); };
        const auto written = write([&](const std::string &bytes) { return error_of(file << bytes); });
        if (!written) return Unexpected(written.error());
        const auto error = error_of(file.flush());
        if (error) return detail::failed(error);
        return entries();
    }

    /// Saves a checkpoint in place of the file at a path, and syncs it and its folder to the disk. It is first written
    /// to a file with ".new" appended to the name, so call only one save to a path at a time. After an error, or if the
    /// program ends before it returns, either the old or the new checkpoint is there, complete. Errors: Io, Refused.
    [[nodiscard]] CheckpointResult<std::uint64_t> save(const std::filesystem::path &path) const {
        detail::NewFile file(path);
        const auto written = write([&](const std::string &bytes) { return file.write(bytes); });
        if (!written) return Unexpected(written.error());
        const auto error = file.take_place();
        if (error) return detail::failed(error);
        return entries();
    }

private:
    friend class Replica;

    Snapshot() = default;

    /// The snapshot that a call makes.
    template <class Call>
    static Result<Snapshot> made_by(Call call) {
        Snapshot made;
        auto number = call(made.at());
        if (number == c::ANTIENTROPY_OK) number = c::antientropy_snapshot_about(made.at(), &made.about_);
        return detail::result(number, std::move(made));
    }

    c::antientropy_offered *at() { return handle_.get(); }
    [[nodiscard]] const c::antientropy_offered *at() const { return handle_.get(); }

    /// Writes the bytes of a checkpoint by a function that returns a system error, if any.
    template <class Write>
    [[nodiscard]] CheckpointResult<void> write(Write write) const {
        auto digest = root();
        if (!digest) return detail::failed(digest.error());
        const detail::Head head{about_.format, about_.bits, about_.range, *std::move(digest)};
        std::error_code error = write(detail::to_bytes(head));
        for (unsigned leaf = 0; leaf < detail::leaves_of(about_.format) && !error; leaf++) {
            const auto texts = rows(leaf);
            if (!texts) return detail::failed(texts.error());
            error = write(detail::to_bytes(texts->size(), 8) + *texts);
        }
        if (error) return detail::failed(error);
        return {};
    }

    detail::Owner<c::antientropy_offered, c::antientropy_snapshot_free> handle_;
    About about_ = {};
};

// ---- portions

/// Some nodes of a replica's moment that have no digest. It needs no replica, and may outlive it, so a thread can hash
/// it while others use the replica: `hold`; then `take_portion`, `hash` without the lock, and `install_portion` until
/// it returns 0; then `moment` or `exchange_at_moment`, and `drop_moment`, before the lock is free.
/// `Replica::take_portion` makes it.
class [[nodiscard]] Portion {
public:
    /// Frees the memory now.
    void close() noexcept { handle_.close(); }

    /// Hashes the nodes.
    Result<void> hash() { return detail::done(c::antientropy_hash_portion(at())); }

private:
    friend class Replica;

    Portion() = default;

    c::antientropy_portion *at() { return handle_.get(); }

    detail::Owner<c::antientropy_portion, c::antientropy_portion_free> handle_;
};

// ---- exchanges

class Replica;

namespace detail {

inline ReplicaHandle *handle_of(Replica &replica);
inline const ReplicaHandle *handle_of(const Replica &replica);

/// The lock of a replica that one thread uses.
struct NoLock {
    void lock() {}
    void unlock() {}
};

} // namespace detail

/// The loop of a sync with a partner, which the program polls: it returns the asks to send, judges the answers, and
/// reports its progress. It lasts as long as the program wants: between its calls the replica may change in any way,
/// but a renewal or a migration ends it. Its calls get the replica that opened it; with another one it is Gone. The
/// destructor only frees the memory, and the session stays open, one of at most 64: `close` it first.
/// `Replica::exchange`, `exchange_beside` and `exchange_at_moment` make it.
class [[nodiscard]] Exchange {
public:
    /// Returns the asks to send now: none if all are in flight, if the bounds allow no more, or if it is over. Each is
    /// in flight until its answer is taken or it is lost, so keep those that a deadline leaves unsent for later. An ask
    /// may be an outline, which makes the partner send only the differences.
    Result<std::vector<std::string>> asks(const Replica &replica) {
        std::vector<std::string> asks;
        while (true) {
            auto ask = detail::bytes([&](std::uint8_t *out, std::size_t room, std::uint64_t *need) {
                if (plain_) room = ANTIENTROPY_ASK_LEN;
                return c::antientropy_exchange_next(at(), detail::handle_of(replica), out, room, need);
            });
            if (!ask) return Unexpected(ask.error());
            if (ask->empty()) return asks;
            asks.push_back(*std::move(ask));
        }
    }

    /// Takes a partner's answer, which isn't trusted. Answers may arrive in any order, late or twice. It judges an
    /// answer by the node that it names, so lose each ask whose time is over, even if some answer arrived instead.
    Result<Verdict> take(Replica &replica, std::string_view answer) {
        c::antientropy_verdict of = {};
        const auto number = c::antientropy_exchange_take(at(), detail::handle_of(replica), detail::data(answer),
                                                         answer.size(), &of);
        const auto kind = static_cast<VerdictKind>(of.verdict);
        return detail::result(number, Verdict{kind, detail::cause(of.cause), of.accepted, of.known});
    }

    /// Counts an ask in flight as lost, so that it may be sent again.
    /// Refused: BadMessage (the bytes aren't an ask or an outline).
    Result<void> lose(std::string_view ask) {
        return detail::done(c::antientropy_exchange_lose(at(), detail::data(ask), ask.size()));
    }

    /// Lets asks be sent again after it was Stopped. Asks whose answers were refused count as lost. If the journal is
    /// full, close the exchange and renew the replica instead.
    Result<void> go_on() { return detail::done(c::antientropy_exchange_go_on(at())); }

    /// Returns its progress.
    Result<Progress> progress(const Replica &replica) {
        c::antientropy_progress of = {};
        const auto number = c::antientropy_exchange_report(at(), detail::handle_of(replica), &of);
        return detail::result(number, Progress{static_cast<Report>(of.report), detail::cause(of.cause), of.asks,
                                               of.in_flight, of.bytes_in_flight, of.bad, of.lost, of.accepted, of.known,
                                               of.leaves});
    }

    /// Returns the leaves that were left because a key in them is crowded. Merge the versions of these keys.
    Result<std::vector<std::uint64_t>> left(const Replica &replica) {
        std::vector<std::uint64_t> leaves;
        while (true) {
            c::antientropy_node node = {};
            const auto number =
                c::antientropy_exchange_left(at(), detail::handle_of(replica), leaves.size(), &node);
            if (number == c::ANTIENTROPY_NO_VERSION) return leaves;
            if (number != c::ANTIENTROPY_OK) return detail::refused(number);
            leaves.push_back(node.index);
        }
    }

    /// Closes it, and drops the replica's ended sessions, including this one. It may be closed again.
    Result<void> close(Replica &replica) {
        c::antientropy_exchange_close(at(), detail::handle_of(replica));
        handle_.close();
        return detail::done(c::antientropy_drop_sessions(detail::handle_of(replica)));
    }

private:
    friend class Replica;

    explicit Exchange(bool plain) : plain_(plain) {}

    c::antientropy_exchange *at() { return handle_.get(); }

    bool plain_;
    detail::Owner<c::antientropy_exchange, c::antientropy_exchange_free> handle_;
};

// ---- replicas

/// A replica of one range of a ring of 2^bits ranges.
class [[nodiscard]] Replica {
public:
    /// Makes an empty replica. Refused: BadRing (a number is outside its limits).
    static Result<Replica> make(const Config &config = {}) {
        const auto &[format, bits, range, limit] = config;
        Replica made;
        const auto number = c::antientropy_new(made.at(), format, bits, range, limit);
        return detail::result(number, std::move(made));
    }

    /// Makes a replica like `make`, with a seed of two words for the hash of keys. Random words make it hard for
    /// clients to choose keys with equal hashes, which are slow to find. Refused: BadRing.
    static Result<Replica> make_seeded(const std::array<std::uint64_t, 2> &seed, const Config &config = {}) {
        const auto &[format, bits, range, limit] = config;
        Replica made;
        const auto number = c::antientropy_new_seeded(made.at(), format, bits, range, limit, seed[0], seed[1]);
        return detail::result(number, std::move(made));
    }

    /// Returns a new replica with the rows of a checkpoint, and a journal of at most `limit` entries, numbered from 0.
    /// The root detects damage, but not a forged file. Compare `about` with the configuration, accept the logged
    /// entries, and save again.
    /// Errors: Io, Damaged, Refused.
    static CheckpointResult<Replica> load(std::istream &file, std::uint64_t limit = ANTIENTROPY_ENTRIES_MAX) {
        return load_from(detail::StreamInput(file), limit);
    }

    /// Loads the checkpoint of the file at a path in the same way.
    static CheckpointResult<Replica> load(const std::filesystem::path &path,
                                          std::uint64_t limit = ANTIENTROPY_ENTRIES_MAX) {
        return load_from(detail::FileInput(path), limit);
    }

    /// Returns the format, the range and the number of entries.
    [[nodiscard]] Result<About> about() const { return detail::about(at()); }

    /// Frees the memory now.
    void close() noexcept { handle_.close(); }

    /// The handle, for the calls of antientropy.h that no method makes: they are in antientropy::c.
    [[nodiscard]] c::antientropy_replica *raw() noexcept { return at(); }
    [[nodiscard]] const c::antientropy_replica *raw() const noexcept { return at(); }

    /// Returns a new replica with the held versions: one entry for each, as a copy, and no sessions. Entry numbers
    /// continue: both replicas have the same entry count, and the next entry gets a number that was never used. Session
    /// numbers continue, too. This replica is unchanged: close it, and use the new one under the same node number.
    /// Takes time in proportion to the rows.
    /// Refused, in order: BadRing (the limit), JournalFull (more versions are held than the limit, or no numbers are
    /// left).
    [[nodiscard]] Result<Replica> renew(std::uint64_t limit = ANTIENTROPY_ENTRIES_MAX) const {
        Replica made;
        const auto number = c::antientropy_renew(at(), made.at(), limit);
        if (number == c::ANTIENTROPY_OK) made.note_renewed();
        return detail::result(number, std::move(made));
    }

    /// Renews the replica like `renew`, but in place. Drops its sessions and its moment.
    /// Refused, in order: BadRing (the limit), JournalFull (more versions are held than the limit, or no numbers are
    /// left). A refusal leaves the replica unchanged, except its moment.
    Result<void> renew_in_place(std::uint64_t limit = ANTIENTROPY_ENTRIES_MAX) {
        detail::NoLock none;
        return renew_beside(none, limit);
    }

    /// Renews a shared replica like `renew_in_place`, while other threads use it. `lock` protects it, a
    /// std::shared_mutex for instance, and the caller doesn't hold it. The call holds the current rows as a moment,
    /// builds the new journal from them without the lock, and accepts the entries put meanwhile. Other threads wait
    /// only for its steps under the lock: about 64 entries at a time, and a few at the end. Entry numbers continue:
    /// entries since the moment keep theirs, and a log that has all earlier entries reads on.
    /// Refused as `renew_in_place`; later Stale (another thread has renewed or migrated the replica meanwhile),
    /// JournalFull. A refusal leaves the replica unchanged, except its moment.
    template <class Lock>
    Result<void> renew_beside(Lock &lock, std::uint64_t limit = ANTIENTROPY_ENTRIES_MAX) {
        Renewal renewal; // holds the old replica in the end, and frees it outside the lock
        const auto begun = at_moment(
            lock, [&] { return detail::done(c::antientropy_renewal_begin(at(), limit, renewal.get())); });
        if (!begun) return begun;
        const auto built = detail::done(c::antientropy_renewal_build(renewal.get()));
        if (!built) return built;
        const auto caught_up = catch_up(lock, renewal);
        if (!caught_up) return caught_up;
        const std::lock_guard<Lock> guard(lock);
        const auto finished = detail::done(c::antientropy_renewal_finish(renewal.get(), at()));
        if (finished) note_renewed();
        return finished;
    }

    /// Returns true if a renewal is due: at nine tenths of the limit, once half of the space that the last renewal left
    /// is used. This keeps a journal that its rows fill from being renewed again and again.
    [[nodiscard]] Result<bool> is_renewal_due() const {
        const auto counts = count();
        if (!counts) return Unexpected(counts.error());
        const std::uint64_t used = counts->entries - counts->first, limit = counts->limit;
        return used * 10 >= limit * 9 && used > held_ && (used - held_) * 2 >= limit - held_;
    }

    /// Renews the replica like `renew_beside`, with its limit, if `is_renewal_due`. Returns true if it has renewed it.
    /// If a thread repeats this call, a put is refused as JournalFull only if the last tenth of the limit is used
    /// before the renewal ends, or if the rows fill the journal.
    template <class Lock>
    Result<bool> renew_if_due(Lock &lock) {
        const auto limit = due_limit(lock);
        if (!limit) return Unexpected(limit.error());
        if (*limit == 0) return false;
        const auto renewed = renew_beside(lock, *limit);
        if (!renewed) return Unexpected(renewed.error());
        return true;
    }

    /// Converts a replica of format 1 to format 2. All nodes become dirty, open sessions are cancelled, and the moment
    /// is dropped.
    Result<void> migrate() { return detail::done(c::antientropy_migrate(at())); }

    /// Returns the counts of entries, dirty nodes and sessions.
    [[nodiscard]] Result<Counts> count() const {
        Counts counts = {};
        const auto number = c::antientropy_count(at(), &counts);
        return detail::result(number, counts);
    }

    /// Returns the size: lengths of contents in bytes; the memory used differs. It visits each chunk of 15 rows and the
    /// digests of each session's leaves: call it every few seconds, not at each put.
    [[nodiscard]] Result<Bytes> bytes() const {
        Bytes bytes = {};
        const auto number = c::antientropy_bytes(at(), &bytes);
        return detail::result(number, bytes);
    }

    // ---- versions

    /// Puts a value for a key at a node, 1 to 65,535, after a read. The context is the merged clock of the versions
    /// that the client has read. The new version replaces every held version whose clock is at most its clock. The
    /// client has read each of these: StaleContext means that a held version has a greater counter of the node than the
    /// context, so another client has put in between; read again.
    /// Refused, in order: BadClock (the node is 0 or over 65,535, or the context isn't a clock), ClockFull (the
    /// context), BadKey, BadValue (too long), OtherRange, ClockFull and CounterFull (the context can't be raised),
    /// StaleContext, Crowded, JournalFull.
    Result<Receipt> put(std::uint64_t node, std::string_view key, std::string_view value, const Clock &context = {}) {
        return put_by(c::antientropy_put_read, node, key, {Kind::Live, value}, context);
    }

    /// Removes a key: puts a tombstone. Refused as `put`; BadValue in format 1.
    Result<Receipt> remove(std::uint64_t node, std::string_view key, const Clock &context = {}) {
        return put_by(c::antientropy_put_read, node, key, {Kind::Tombstone, {}}, context);
    }

    /// Puts like `put`, without its check, which the caller must make: the new version replaces even a held version
    /// that the client hasn't read. Refused as `put`, but as StaleContext only if a held version's clock includes the
    /// new version's.
    Result<Receipt> put_unread(std::uint64_t node, std::string_view key, std::string_view value,
                               const Clock &context = {}) {
        return put_by(c::antientropy_put, node, key, {Kind::Live, value}, context);
    }

    /// Removes a key like `put_unread`: puts a tombstone. Refused as `put_unread`; BadValue in format 1.
    Result<Receipt> remove_unread(std::uint64_t node, std::string_view key, const Clock &context = {}) {
        return put_by(c::antientropy_put, node, key, {Kind::Tombstone, {}}, context);
    }

    /// Deleted: `remove` puts a tombstone.
    Result<Receipt> put(std::uint64_t, std::string_view, std::nullptr_t, const Clock & = {}) = delete;
    Result<Receipt> put_unread(std::uint64_t, std::string_view, std::nullptr_t, const Clock & = {}) = delete;

    /// Accepts a version of another replica, as a copy.
    /// Refused, in order: BadClock, ClockFull, BadValue (unknown kind), BadKey, BadValue, OtherRange; then, if it is
    /// new, Crowded, JournalFull.
    Result<Outcome> accept(std::string_view key, const Version &version) {
        std::uint64_t taken = 0;
        const auto number =
            c::antientropy_accept(at(), detail::data(key), key.size(), detail::data(version.clock),
                                  version.clock.size(), static_cast<std::uint8_t>(version.kind),
                                  detail::data(version.value), version.value.size(), &taken);
        return detail::result(number, static_cast<Outcome>(taken));
    }

    /// Returns all versions held for a key. Several are concurrent.
    [[nodiscard]] Result<std::vector<Version>> get(std::string_view key) const {
        std::vector<Version> versions;
        std::uint64_t held = 1;
        while (versions.size() < held) {
            auto version = detail::or_none(detail::read_version(at(), key, versions.size(), held));
            if (!version) return Unexpected(version.error());
            if (!*version) break;
            versions.push_back(std::move(**version));
        }
        return versions;
    }

    /// Returns the text of the row of a key (docs/FORMATS.md), or no bytes if none is held. Refused: BadKey.
    [[nodiscard]] Result<std::string> row(std::string_view key) const {
        return detail::bytes(
            [&](auto... out) { return c::antientropy_get(at(), detail::data(key), key.size(), out...); });
    }

    /// Iterates over the keys, leaf by leaf. Keys put meanwhile are included if the iteration hasn't passed them.
    Sequence<std::string> keys() const {
        return Sequence<std::string>(detail::Keys(detail::ReplicaLeafKeys(handle_.share(), 0)));
    }

    /// Iterates over the keys of a leaf, from 0, in ascending order. Refused: BadMessage (the tree has no such leaf).
    Sequence<std::string> keys_of(std::uint64_t leaf) const {
        return Sequence<std::string>(detail::ReplicaLeafKeys(handle_.share(), leaf));
    }

    // ---- the journal

    /// Iterates over the entries of the journal, from a number on, and reads about 1 MiB of them at a time. A log reads
    /// from its count of entries. A renewal skips no entry for a log that had all of them.
    /// Refused: BadPosition (the number is over the count of entries, or below the count at the last renewal: entries
    /// were missed, or the number belongs to another replica; read from `first` of the counts, which returns the whole
    /// journal).
    [[nodiscard]] Result<Sequence<Entry>> entries(std::uint64_t start = 0) const {
        const auto checked = detail::check_position(at(), start);
        if (!checked) return Unexpected(checked.error());
        return Sequence<Entry>(detail::Entries(handle_.share(), start));
    }

    /// Returns some entries of the journal, from a number on, packed: about 1 MiB, and at least one if any is left.
    /// Refused: BadPosition, as `entries`.
    [[nodiscard]] Result<Packed> packed_entries(std::uint64_t start) const { return detail::packed(at(), start); }

    /// Returns the greatest counter of a node in the clocks of a key's versions among the journal's entries of numbers
    /// below `entries`, or 0. Refused: BadClock (the node is 0 or over 65,535).
    [[nodiscard]] Result<std::uint64_t> top_counter(std::uint64_t node, std::string_view key,
                                      std::uint64_t entries = UINT64_MAX) const {
        std::uint64_t counter = 0;
        const auto number =
            c::antientropy_top_counter(at(), node, detail::data(key), key.size(), entries, &counter);
        return detail::result(number, counter);
    }

    /// Returns the entry of a number, or std::nullopt.
    [[nodiscard]] Result<std::optional<Entry>> entry(std::uint64_t number) const {
        return detail::or_none(detail::entry(at(), number));
    }

    // ---- the tree, offers and checkpoints

    /// Hashes all nodes of the tree that have no digest. Only `snapshot` without `hash` requires it.
    Result<void> rehash() { return detail::done(c::antientropy_rehash(at())); }

    /// Hashes at most `most` of the nodes that have no digest though all their children have one. Returns the number of
    /// nodes still without one. Repeat it until it returns 0; other calls may be made in between.
    Result<std::uint64_t> rehash_some(std::uint64_t most) {
        std::uint64_t left = 0;
        const auto number = c::antientropy_rehash_some(at(), most, &left);
        return detail::result(number, left);
    }

    /// Returns a snapshot of the current rows. Hashes the nodes that have no digest, and drops the moment, unless
    /// `hash` is false. Refused: Dirty (a node has no digest, and `hash` is false).
    Result<Snapshot> snapshot(bool hash = true) {
        detail::NoLock none;
        if (hash) return snapshot_beside(none);
        return Snapshot::made_by([&](auto *into) { return c::antientropy_snapshot(at(), into); });
    }

    /// Returns a snapshot of a shared replica. `lock` protects the replica, a std::shared_mutex for instance, and the
    /// caller doesn't hold it. It is free while nodes are hashed, so other threads can put. The rows are from a moment
    /// during the call: offer them when the entries that the snapshot counts are on the disk.
    template <class Lock>
    Result<Snapshot> snapshot_beside(Lock &lock) {
        return at_moment(lock, [&] { return moment(); });
    }

    /// Returns the digest of the current root: 32 bytes. Replicas of a range with equal roots hold the same versions.
    Result<std::string> root() {
        auto now = snapshot();
        if (!now) return Unexpected(now.error());
        return now->root();
    }

    /// Accepts all versions in rows of one leaf as copies, or none of them. `Snapshot::rows` and `row` return such
    /// rows. At RowBroken `broken` gets the broken field's offset in bytes.
    /// Refused, in order: RowBroken, OtherRange (also for rows of two leaves), Crowded, JournalFull.
    Result<Loaded> load_rows(std::string_view rows, std::uint64_t *broken = nullptr) {
        return load_by([&](auto... in) { return c::antientropy_load(at(), in...); }, rows, broken);
    }

    /// Accepts all versions in rows of a format and of any leaves, in ascending order of key, as copies, or none of
    /// them: a replica of format 2 loads rows of format 1 too. At RowBroken `broken` gets the broken field's offset in
    /// bytes.
    /// Refused, in order: BadRing (the format is neither 1 nor 2), OtherFormat (rows of format 2, replica of format 1),
    /// RowBroken, OtherRange, Crowded, JournalFull.
    Result<Loaded> load_format(std::uint64_t format, std::string_view rows, std::uint64_t *broken = nullptr) {
        return load_by([&](auto... in) { return c::antientropy_load_format(at(), format, in...); }, rows, broken);
    }

    /// Writes a checkpoint of the current rows (docs/FORMATS.md), and returns the number of entries that it includes: a
    /// log continues with the entry of that number. The caller syncs the file to its disk. Errors: Io, Refused.
    CheckpointResult<std::uint64_t> save(std::ostream &file) {
        const auto now = snapshot();
        if (!now) return detail::failed(now.error());
        return now->save(file);
    }

    /// Saves a checkpoint of the current rows in place of the file at a path, and syncs it to the disk: see
    /// `Snapshot::save`. Errors: Io, Refused.
    CheckpointResult<std::uint64_t> save(const std::filesystem::path &path) {
        const auto now = snapshot();
        if (!now) return detail::failed(now.error());
        return now->save(path);
    }

    // ---- the moment: the rows at one time, which are hashed and offered while the replica changes

    /// Keeps the current rows as the replica's moment, in place of the previous one. No later call changes it. Copies
    /// no row, and keeps the nodes' digests. While the moment is kept, the first change in a block of rows copies the
    /// block. The next hold frees the blocks that only this moment has: if threads share the replica, call
    /// `drop_moment` before its snapshot is closed, so that they don't wait for that. `snapshot`, `root`, `save`,
    /// `exchange` and `sync` hold, hash and drop a moment in one call, in place of the previous one.
    Result<void> hold() { return detail::done(c::antientropy_hold(at())); }

    /// Drops the moment, if any. Its snapshots stay valid.
    Result<void> drop_moment() { return detail::done(c::antientropy_drop_moment(at())); }

    /// Hashes at most `most` of the moment's nodes that have no digest though all their children have one. Returns the
    /// number of its nodes still without one: 0 if it is whole or doesn't exist. Repeat it until it returns 0; other
    /// calls may be made in between.
    Result<std::uint64_t> hash_moment(std::uint64_t most) {
        std::uint64_t left = 0;
        const auto number = c::antientropy_hash_moment(at(), most, &left);
        return detail::result(number, left);
    }

    /// Takes a portion of the moment's nodes, the same that `hash_moment` would hash: any thread may hash it. It is
    /// empty if the moment is whole or doesn't exist.
    [[nodiscard]] Result<Portion> take_portion(std::uint64_t most) const {
        Portion taken;
        const auto number = c::antientropy_take_portion(at(), most, taken.at());
        return detail::result(number, std::move(taken));
    }

    /// Installs the digests of a portion in the moment, and returns the number of the moment's nodes still without one,
    /// like `hash_moment`. Hashes the portion's nodes that aren't hashed yet. Skips the digests of another moment's
    /// nodes if the node's text differs.
    Result<std::uint64_t> install_portion(Portion portion) {
        std::uint64_t left = 0;
        const auto number = c::antientropy_install_portion(at(), portion.at(), &left);
        return detail::result(number, left);
    }

    /// Returns a snapshot of the moment. Refused: Dirty (it isn't whole or doesn't exist).
    [[nodiscard]] Result<Snapshot> moment() const {
        return Snapshot::made_by([&](auto *into) { return c::antientropy_moment(at(), into); });
    }

    // ---- syncs

    /// Opens an exchange with a partner by its offer. Hashes the nodes that have no digest, and drops the moment. If
    /// the roots are equal, the exchange is Finished and has no session. The partner's number is recorded.
    /// Refused, in order: BadClock (the partner is over 65,535), BadMessage, OtherFormat, OtherRange, SessionsFull.
    Result<Exchange> exchange(std::uint64_t partner, std::string_view offer, const Bounds &bounds = {}) {
        detail::NoLock none;
        return exchange_beside(none, partner, offer, bounds);
    }

    /// Opens an exchange of a shared replica, like `exchange`. `lock` protects the replica, a std::shared_mutex for
    /// instance, and the caller doesn't hold it. It is free while nodes are hashed, so other threads can put.
    template <class Lock>
    Result<Exchange> exchange_beside(Lock &lock, std::uint64_t partner, std::string_view offer,
                                     const Bounds &bounds = {}) {
        std::optional<Snapshot> here; // keeps the moment's rows until the lock is free
        return at_moment(lock, [&]() -> Result<Exchange> {
            auto made = moment();
            if (!made) return Unexpected(made.error());
            here = *std::move(made);
            return exchange_at_moment(partner, offer, bounds);
        });
    }

    /// Opens an exchange at the moment. Refused as `exchange`; before SessionsFull, Dirty (the moment isn't whole or
    /// doesn't exist).
    Result<Exchange> exchange_at_moment(std::uint64_t partner, std::string_view offer, const Bounds &bounds = {}) {
        const c::antientropy_bounds most = {bounds.asks, bounds.bytes, bounds.bad, bounds.lost};
        Exchange opened(bounds.plain);
        const auto number =
            c::antientropy_exchange_open(at(), opened.at(), partner, detail::data(offer), offer.size(), &most);
        return detail::result(number, std::move(opened));
    }

    /// Drops the sessions that have ended, with the changed rows and the texts that they keep. Open sessions are
    /// unchanged. Entries of the source Partner get the source Copy. Closing an exchange and a sync drop them, too.
    Result<void> drop_sessions() { return detail::done(c::antientropy_drop_sessions(at())); }

    /// Takes the versions that this replica is missing from a partner's offer, by an exchange that it closes, even if
    /// it is refused or `reach` throws. An ask without an answer is lost. After a refusal, versions taken earlier stay.
    /// Refused as `exchange`; later NotCanonical, JournalFull.
    Result<Synced> sync(std::uint64_t partner, std::string_view offer, const Reach &reach, const Bounds &bounds = {}) {
        detail::NoLock none;
        return sync_beside(none, partner, offer, reach, bounds);
    }

    /// Syncs a shared replica, like `sync`. `lock` protects the replica, a std::shared_mutex for instance, and the
    /// caller doesn't hold it. It is free while nodes are hashed and while `reach` waits, so other threads can put. A
    /// migration ends the sync as Gone.
    template <class Lock>
    Result<Synced> sync_beside(Lock &lock, std::uint64_t partner, std::string_view offer, const Reach &reach,
                               const Bounds &bounds = {}) {
        auto opened = exchange_beside(lock, partner, offer, bounds);
        if (!opened) return Unexpected(opened.error());
        const auto locked = [&](auto calls) {
            const std::lock_guard<Lock> guard(lock);
            return calls();
        };
        const auto close = [&](Exchange *at) { (void)locked([&] { return at->close(*this); }); };
        const std::unique_ptr<Exchange, decltype(close)> closing(&*opened, close);
        while (true) {
            const auto asks = locked([&] { return opened->asks(*this); });
            if (!asks) return Unexpected(asks.error());
            if (asks->empty()) return locked([&] { return synced(*opened); });
            for (const auto &answer : reach(*asks)) {
                if (!answer) continue;
                const auto taken = locked([&] { return opened->take(*this, *answer); });
                if (!taken) return Unexpected(taken.error());
            }
            // An ask whose answer was judged isn't in flight any more.
            for (const auto &ask : *asks) (void)opened->lose(ask);
        }
    }

private:
    friend detail::ReplicaHandle *detail::handle_of(Replica &replica);
    friend const detail::ReplicaHandle *detail::handle_of(const Replica &replica);

    /// Maximum number of nodes in a portion.
    static constexpr std::uint64_t portion_max = 64;

    Replica() = default;

    detail::ReplicaHandle *at() { return handle_.get(); }
    [[nodiscard]] const detail::ReplicaHandle *at() const { return handle_.get(); }

    /// The new replica, which is built while the old one is in use. After its finish it holds the old one.
    using Renewal = detail::Owner<c::antientropy_renewal, c::antientropy_renewal_free>;

    /// Initial number of entries that a renewal accepts at a time, and maximum number that it leaves to its finish.
    static constexpr std::uint64_t at_once = 64, few = 64;

    /// Accepts entries until few are left. After each step the lock is free for the same time, so that all waiting puts
    /// are made. If they still outrun it, it accepts more at a time without waiting, so it ends.
    template <class Lock>
    Result<void> catch_up(Lock &lock, Renewal &renewal) {
        using Time = std::chrono::steady_clock;
        std::uint64_t most = at_once, before = UINT64_MAX, left = 0;
        bool outrun = false;
        while (true) {
            Time::duration took;
            {
                const std::lock_guard<Lock> guard(lock);
                const auto begin = Time::now();
                const auto done =
                    detail::done(c::antientropy_renewal_catch_up(renewal.get(), at(), most, &left));
                if (!done) return done;
                took = Time::now() - begin;
            }
            if (left <= few) return {};
            if (left >= before) {
                outrun = true;
                most *= 2;
            }
            if (!outrun) std::this_thread::sleep_for(took);
            before = left;
        }
    }

    /// The limit if a renewal is due, or 0.
    template <class Lock>
    Result<std::uint64_t> due_limit(Lock &lock) const {
        const std::lock_guard<Lock> guard(lock);
        const auto is_due = is_renewal_due();
        if (!is_due) return Unexpected(is_due.error());
        const auto counts = count();
        if (!counts) return Unexpected(counts.error());
        return *is_due ? counts->limit : 0;
    }

    /// Records the journal's length after a renewal.
    void note_renewed() {
        const auto counts = count();
        if (counts) held_ = counts->entries - counts->first;
    }

    /// Holds a moment, hashes it without the lock, and makes a call under the lock as soon as it is whole. Then it
    /// drops the moment: its rows stay with the result of the call, and no later hold frees them under the lock.
    template <class Lock, class Call>
    auto at_moment(Lock &lock, Call call) -> decltype(call()) {
        auto portion = first_portion(lock);
        while (true) {
            if (!portion) return Unexpected(portion.error());
            const auto hashed = portion->hash();
            if (!hashed) return Unexpected(hashed.error());
            const std::lock_guard<Lock> guard(lock);
            const auto left = install_portion(*std::move(portion));
            if (!left) return Unexpected(left.error());
            if (*left > 0) {
                portion = take_portion(portion_max);
                continue;
            }
            auto done = call();
            if (done || done.error() != Refusal::Dirty) {
                const auto dropped = drop_moment();
                if (!dropped) return Unexpected(dropped.error());
                return done;
            }
            portion = hold_and_take(); // another thread has dropped the moment
        }
    }

    template <class Lock>
    Result<Portion> first_portion(Lock &lock) {
        const std::lock_guard<Lock> guard(lock);
        return hold_and_take();
    }

    Result<Portion> hold_and_take() {
        const auto held = hold();
        if (!held) return Unexpected(held.error());
        return take_portion(portion_max);
    }

    /// The result of an exchange that sends no more asks.
    Result<Synced> synced(Exchange &exchange) const {
        const auto progress = exchange.progress(*this);
        if (!progress) return Unexpected(progress.error());
        if (progress->cause) return Unexpected(*progress->cause);
        if (progress->report == Report::Failed) return Unexpected(Refusal::NotCanonical);
        auto left = exchange.left(*this);
        if (!left) return Unexpected(left.error());
        return Synced{progress->report, progress->accepted, progress->known, progress->asks,
                      progress->bad,    progress->lost,     *std::move(left)};
    }

    /// The kind and the value of a put.
    using Content = std::pair<Kind, std::string_view>;

    Result<Receipt> put_by(decltype(c::antientropy_put) call, std::uint64_t node, std::string_view key,
                           const Content &content, const Clock &context) {
        const auto &[kind, value] = content;
        Receipt receipt = {};
        const auto number =
            call(at(), node, detail::data(key), key.size(), detail::data(context), context.size(),
                 static_cast<std::uint8_t>(kind), detail::data(value), value.size(), &receipt);
        return detail::result(number, receipt);
    }

    template <class Call>
    static Result<Loaded> load_by(Call call, std::string_view rows, std::uint64_t *broken) {
        c::antientropy_loaded loaded = {};
        const auto number = call(detail::data(rows), rows.size(), &loaded);
        if (number == c::ANTIENTROPY_ROW_BROKEN && broken) *broken = loaded.offset;
        return detail::result(number, Loaded{loaded.taken, loaded.known});
    }

    template <class Input>
    static CheckpointResult<Replica> load_from(Input file, std::uint64_t limit) {
        const auto head = detail::read_head(file);
        if (!head) return detail::failed(head.error());
        auto made = make({head->format, head->bits, head->range, limit});
        if (!made) return detail::failed(made.error());
        const auto loaded = made->load_leaves(file, head->format);
        if (!loaded) return detail::failed(loaded.error());
        const auto digest = made->root();
        if (!digest) return detail::failed(digest.error());
        if (*digest != head->root) return detail::damaged(Damage::Kind::Root);
        return *std::move(made);
    }

    template <class Input>
    CheckpointResult<void> load_leaves(Input &file, std::uint64_t format) {
        for (unsigned leaf = 0; leaf < detail::leaves_of(format); leaf++) {
            const auto rows = detail::read_leaf(file);
            if (!rows) return detail::failed(rows.error());
            const auto loaded = load_leaf(leaf, *rows);
            if (!loaded) return loaded;
        }
        return detail::check_end(file);
    }

    CheckpointResult<void> load_leaf(unsigned leaf, const std::string &rows) {
        if (rows.empty()) return {};
        const auto loaded = load_rows(rows);
        if (loaded) return {};
        switch (loaded.error()) {
        case Refusal::RowBroken:
        case Refusal::OtherRange:
        case Refusal::Crowded: return detail::damaged(Damage::Kind::Leaf, leaf);
        default: return detail::failed(loaded.error());
        }
    }

    detail::Owner<detail::ReplicaHandle, c::antientropy_free> handle_;
    /// Number of entries that the last renewal left: 0 before the first one.
    std::uint64_t held_ = 0;
};

inline detail::ReplicaHandle *detail::handle_of(Replica &replica) { return replica.at(); }
inline const detail::ReplicaHandle *detail::handle_of(const Replica &replica) { return replica.at(); }

// ---- hints

/// Versions that a node carries in memory for replicas that are down. A hint doesn't belong to a range.
class [[nodiscard]] Hints {
public:
    /// Makes an empty store of hints. The first hint gets the number 1.
    static Result<Hints> make() {
        Hints made;
        const auto number = c::antientropy_hints_new(made.at());
        return detail::result(number, std::move(made));
    }

    /// Makes an empty store of hints, after a restart. The first hint gets the number `first`, which must be above all
    /// numbers in the program's log: hints that are kept again get new numbers to log, and no old number names another
    /// hint. Refused: UnknownHint (`first` is 0).
    static Result<Hints> restore(std::uint64_t first) {
        Hints made;
        const auto number = c::antientropy_hints_restore(made.at(), first);
        return detail::result(number, std::move(made));
    }

    /// Frees the memory now.
    void close() noexcept { handle_.close(); }

    /// Keeps a version for its owner, and returns the number of the hint: one more than the last. The owner checks the
    /// key's range and the format when it accepts the version.
    /// Refused, in order: BadClock (also if the owner is 0 or over 65,535), ClockFull, BadValue (unknown kind), BadKey,
    /// BadValue, HintsFull.
    Result<std::uint64_t> keep(std::uint64_t owner, std::string_view key, const Version &version) {
        std::uint64_t id = 0;
        const auto number =
            c::antientropy_hint_keep(at(), owner, detail::data(key), key.size(), detail::data(version.clock),
                                     version.clock.size(), static_cast<std::uint8_t>(version.kind),
                                     detail::data(version.value), version.value.size(), &id);
        return detail::result(number, id);
    }

    /// Returns the number of the owner's first pending hint over `after`, or std::nullopt.
    Result<std::optional<std::uint64_t>> next(std::uint64_t owner, std::uint64_t after = 0) {
        return detail::hint_after(at(), owner, after);
    }

    /// Returns a hint, pending or delivered, or std::nullopt.
    Result<std::optional<Hint>> hint(std::uint64_t number) { return detail::or_none(detail::hint(at(), number)); }

    /// Iterates over the pending hints of an owner in order. Confirm them in the loop. A renewal in the loop gives the
    /// pending ones new numbers, so they are visited again.
    Sequence<Hint> pending(std::uint64_t owner) {
        const auto next = [hints = handle_.share(), owner, after = std::uint64_t(0)]() mutable {
            auto found = detail::pending_after(hints.get(), owner, after);
            if (found && *found) after = (*found)->number;
            return found;
        };
        return Sequence<Hint>(next);
    }

    /// Marks a pending hint as delivered, once its owner has the version on its disk. `outcome` is the result of the
    /// owner's `Replica::accept`. Refused: UnknownHint.
    Result<void> confirm(std::uint64_t number, Outcome outcome = Outcome::Accepted) {
        return detail::done(c::antientropy_hint_confirm(at(), number, outcome == Outcome::Known));
    }

    /// Drops the delivered hints. The pending ones get new numbers in order, above every number that was used, so an
    /// old number names no hint. Refused: HintsFull (a number would be over 2^64 - 1).
    Result<void> renew() { return detail::done(c::antientropy_hints_renew(at())); }

    /// Returns the counts of pending and of delivered hints.
    Result<HintCounts> count() {
        HintCounts counts = {};
        const auto number = c::antientropy_hints_count(at(), &counts);
        return detail::result(number, counts);
    }

    /// Returns the size of all hints in bytes, including delivered ones: their keys, values and clocks, 10 bytes for
    /// each pair of a clock.
    Result<std::uint64_t> bytes() {
        std::uint64_t bytes = 0;
        const auto number = c::antientropy_hints_bytes(at(), &bytes);
        return detail::result(number, bytes);
    }

private:
    Hints() = default;

    c::antientropy_hints *at() { return handle_.get(); }

    detail::Owner<c::antientropy_hints, c::antientropy_hints_free> handle_;
};

// ---- slots

/// A slot that is lent for the lifetime of this object. `Slots::lent` makes it.
class [[nodiscard]] Loan {
public:
    Loan(const Loan &) = delete;
    Loan(Loan &&) noexcept = default;
    Loan &operator=(const Loan &) = delete;
    Loan &operator=(Loan &&other) noexcept {
        if (this == &other) return *this;
        end();
        slots_ = std::move(other.slots_);
        return *this;
    }
    ~Loan() { end(); }

private:
    friend class Slots;

    explicit Loan(detail::Shared<c::antientropy_slots> slots) : slots_(std::move(slots)) {}

    void end() noexcept {
        if (!slots_.moved()) c::antientropy_slot_give_back(slots_.get());
    }

    detail::Shared<c::antientropy_slots> slots_;
};

/// Slots for background work, which backs off when the foreground is slow. Their target stays between the floor and the
/// ceiling.
class [[nodiscard]] Slots {
public:
    /// Makes slots: none is lent, and the target is the ceiling. Refused: BadRing (the floor or the ceiling).
    static Result<Slots> make(const SlotsConfig &config) {
        Slots made;
        const auto number =
            c::antientropy_slots_new(made.at(), config.floor, config.ceiling, config.threshold_micros);
        return detail::result(number, std::move(made));
    }

    /// Frees the memory now.
    void close() noexcept { handle_.close(); }

    /// Lends a slot, before background work. Refused: NoSlot (the slots lent reach the target).
    Result<void> lend() { return detail::done(c::antientropy_slot_lend(at())); }

    /// Gives a slot back, after background work. Refused: NoSlot (none is lent).
    Result<void> give_back() { return detail::done(c::antientropy_slot_give_back(at())); }

    /// Lends a slot for the lifetime of the object returned. Refused: NoSlot.
    Result<Loan> lent() {
        const auto lent = lend();
        if (!lent) return Unexpected(lent.error());
        return Loan(handle_.share());
    }

    /// Records the latency of a reply in microseconds, with its time in milliseconds. Refused: ClockBack (a later time
    /// was recorded before).
    Result<void> sample(std::uint64_t moment, std::uint32_t micros) {
        return detail::done(c::antientropy_slots_sample(at(), moment, micros));
    }

    /// Sets the target by the samples of the last 60,000 milliseconds, and returns their 99th percentile in
    /// microseconds. Without samples it returns std::nullopt, and the target is unchanged. Refused: ClockBack.
    Result<std::optional<std::uint64_t>> adjust(std::uint64_t now) {
        c::antientropy_percentile percentile = {};
        const auto number = c::antientropy_slots_adjust(at(), now, &percentile);
        std::optional<std::uint64_t> micros;
        if (percentile.found != 0) micros = percentile.micros;
        return detail::result(number, micros);
    }

    /// Sets the target. Slots that are lent stay lent. Refused: BadRing (below the floor or above the ceiling).
    Result<void> set_target(std::uint32_t target) {
        return detail::done(c::antientropy_slots_set_target(at(), target));
    }

    /// Returns the target, and the counts of slots that are lent and free.
    Result<SlotCounts> count() {
        SlotCounts counts = {};
        const auto number = c::antientropy_slots_count(at(), &counts);
        return detail::result(number, counts);
    }

private:
    Slots() = default;

    c::antientropy_slots *at() { return handle_.get(); }

    detail::Owner<c::antientropy_slots, c::antientropy_slots_free> handle_;
};

} // namespace antientropy

#endif
