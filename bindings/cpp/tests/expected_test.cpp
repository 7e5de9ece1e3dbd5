// Results have the names of std::expected: code for one compiles for the other, with the same results. It is built as
// C++17, and as C++23 if the library has <expected>.
#include "support.hpp"

#include <type_traits>

#if __has_include(<version>)
#include <version>
#endif
#ifdef __cpp_lib_expected
#include <expected>
#endif

namespace {

struct Box {
    std::string text;
};

/// A caller's code. `Unexpect` makes an error.
template <class Expected, class Unexpect>
std::string words(Unexpect unexpect) {
    static_assert(std::is_same_v<typename Expected::value_type, Box>);
    static_assert(std::is_same_v<typename Expected::error_type, Refusal>);
    static_assert(std::is_nothrow_move_constructible_v<Expected> && !std::is_convertible_v<Expected, bool>);
    Expected full = Box{"a"};
    const Expected same = full, none = unexpect(Refusal::BadKey);
    std::string met = full ? "" : "!";
    full->text += "b";
    (*full).text += "c";
    full.value().text += "d";
    met += full.value().text + same->text + (*same).text + same.value().text;
    met += none.has_value() ? "!" : name(none.error());
    met += none.value_or(Box{"e"}).text + same.value_or(Box{"!"}).text + Expected(none).value_or(Box{"f"}).text;
    met += Expected(same).value_or(Box{"!"}).text + (*Expected(same)).text + Expected(same).value().text;
    try {
        (void)none.value();
    } catch (const std::exception &) {
        met += " thrown";
    }
    full = unexpect(Refusal::Gone);
    return met + name(Expected(full).error());
}

/// The same without a value.
template <class Expected, class Unexpect>
std::string words_of_none(Unexpect unexpect) {
    static_assert(std::is_same_v<typename Expected::value_type, void>);
    Expected done = {};
    const Expected refused = unexpect(Refusal::BadKey);
    done.value();
    *done;
    try {
        refused.value();
    } catch (const std::exception &) {
        done = refused;
    }
    return (refused ? "!" : name(refused.error())) + (done.has_value() ? "!" : name(Expected(done).error()));
}

const auto unexpect = [](Refusal refusal) { return Unexpected(refusal); };

void of_this_header() {
    CHECK(words<Result<Box>>(unexpect) == "abcdaaaBadKeyeafaaa thrownGone");
    CHECK(words_of_none<Result<void>>(unexpect) == "BadKeyBadKey");
}

void of_the_standard() {
#ifdef __cpp_lib_expected
    const auto of_std = [](Refusal refusal) { return std::unexpected(refusal); };
    CHECK(words<std::expected<Box, Refusal>>(of_std) == words<Result<Box>>(unexpect));
    CHECK(words_of_none<std::expected<void, Refusal>>(of_std) == words_of_none<Result<void>>(unexpect));
#endif
}

} // namespace

int main() { return run({{"of this header", of_this_header}, {"of the standard", of_the_standard}}); }
