// Values of results without one, in a build without assertions.
#include "support.hpp"

#include <sstream>

#ifndef NDEBUG
#error "assertions are on"
#endif

namespace {

/// The message of the exception that a call throws for an error.
template <class E, class Call>
std::string message(Call call) {
    try {
        call();
    } catch (const BadAccess<E> &bad) {
        CHECK(bad.what() == "antientropy: " + name(bad.error()));
        return bad.what();
    }
    return "none";
}

void refused_values() {
    Replica replica = Replica::make().value();
    const auto refused = [](auto call) { return message<Refusal>(call); };
    CHECK(refused([] { (void)Replica::make({3}).value(); }) == "antientropy: BadRing");
    CHECK(refused([&] { (void)replica.put(1, "", "milk").value(); }) == "antientropy: BadKey");
    const auto receipt = replica.put(1, "", "milk");
    CHECK(refused([&] { (void)receipt.value(); }) == "antientropy: BadKey");
    replica.close();
    CHECK(refused([&] { replica.rehash().value(); }) == "antientropy: Empty");
}

void errors_of_checkpoints() {
    std::istringstream file("no checkpoint");
    const auto failed = [](auto call) { return message<CheckpointError>(call); };
    CHECK(failed([&] { (void)Replica::load(file).value(); }) == "antientropy: Damaged: Truncated");
    Replica replica = Replica::make().value();
    const std::filesystem::path missing = "no folder/checkpoint";
    CHECK(failed([&] { (void)replica.save(missing).value(); }) == "antientropy: Io: No such file or directory");
    replica.close();
    CHECK(failed([&] { (void)replica.save(missing).value(); }) == "antientropy: Refused: Empty");
}

void values() {
    auto made = Replica::make();
    const auto receipt = made.value().put(1, "cart", "milk");
    CHECK(receipt.value().counter == 1);
    for (const auto &version : made->get("cart").value()) CHECK(version.value == "milk");
    Replica moved = std::move(made).value();
    CHECK(moved.get("cart").value().size() == 1);
}

} // namespace

int main() {
    return run({{"refused values", refused_values},
                {"errors of checkpoints", errors_of_checkpoints},
                {"values", values}});
}
