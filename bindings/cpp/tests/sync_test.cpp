// Snapshots, exchanges and syncs.
#include "support.hpp"

#include <thread>

namespace {

/// The number of sessions that are kept. None of them is open.
std::uint64_t kept(const Replica &replica) {
    const Counts counts = sure(replica.count());
    CHECK(counts.open_sessions == 0);
    return counts.sessions;
}

Report report(Exchange &exchange, const Replica &replica) { return sure(exchange.progress(replica)).report; }

std::string ask_of(std::uint64_t leaf) {
    return std::string("\x02\0\0\0\x01\x03", 6) + static_cast<char>(leaf >> 8) + static_cast<char>(leaf);
}

std::uint64_t leaf_of(const std::string &key) { return sure(place(2, 0, key)).leaf; }

void snapshots() {
    Replica replica = filled(50);
    Snapshot snapshot = sure(replica.snapshot());
    CHECK(snapshot.entries() == 50 && sure(snapshot.offer(1)).size() == ANTIENTROPY_OFFER_LEN);
    REFUSED(Gone, snapshot.serve(2, ask_of(0)));
    REFUSED(BadMessage, snapshot.serve(1, ""));
    REFUSED(BadMessage, snapshot.rows(4096));
    REFUSED(BadMessage, snapshot.rows(65'536));
    const auto leaf = sure(place(2, 0, "key 3")).leaf;
    CHECK(sure(snapshot.rows(leaf)).find(sure(replica.row("key 3"))) != std::string::npos);
    sure(replica.put(1, "later", ""));
    REFUSED(Dirty, replica.snapshot(false));
    CHECK(sure(replica.root()) != sure(snapshot.root()));
    Snapshot moved = std::move(snapshot);
    replica.close();
    CHECK(moved.root());
    REFUSED(Empty, snapshot.root());
    REFUSED(Empty, snapshot.serve(1, ask_of(0)));
}

/// The keys of a snapshot, and the row of each.
std::vector<std::string> rows_of(const Snapshot &snapshot) {
    std::vector<std::string> rows = all(snapshot.keys());
    for (std::string &key : rows) key += sure(snapshot.row(key));
    return rows;
}

void shared_snapshots() {
    Replica replica = filled(50);
    Snapshot first = sure(replica.snapshot()), second = sure(first.share());
    const std::string root = sure(first.root());
    const auto leaf = sure(place(2, 0, "key 3")).leaf;
    CHECK(all(second.keys()) == all(replica.keys()) && all(second.keys_of(leaf)) == all(replica.keys_of(leaf)));
    for (const auto &key : all(replica.keys())) CHECK(sure(second.row(key)) == sure(replica.row(key)));
    std::vector<std::string> rows;
    std::thread reader([&] { rows = rows_of(first); });
    CHECK(rows_of(second).size() == 50);
    reader.join();
    first.close();
    sure(replica.put(2, "later", ""));
    CHECK(rows_of(second) == rows && second.entries() == 50 && sure(second.root()) == root);
    CHECK(sure(second.digest(0, 0)) == root && sure(second.digest(3, leaf)) != sure(second.digest(3, leaf ^ 1)));
    CHECK(sure(second.row("later")).empty());
    REFUSED(BadKey, second.row(""));
    REFUSED(BadMessage, ended(second.keys_of(4096)));
    REFUSED(BadMessage, second.digest(3, 4096));
    REFUSED(BadMessage, second.digest(4, 0));
    REFUSED(Empty, first.share());
    REFUSED(Empty, first.row("key 3"));
    REFUSED(Empty, ended(first.keys()));
    REFUSED(Empty, first.digest(0, 0));
}

/// Answers arrive in reverse order, and the first ask is lost.
void polled_exchange() {
    Replica a = filled(50), b = sure(Replica::make());
    Snapshot offered = sure(a.snapshot());
    Exchange exchange = sure(b.exchange(1, sure(offered.offer(1)), {4}));
    const Asks root = sure(exchange.asks(b));
    CHECK(root.size() == 1 && sure(exchange.asks(b)).empty());
    sure(exchange.lose(root[0]));
    REFUSED(BadMessage, exchange.lose("no ask"));
    std::uint64_t accepted = 0;
    for (Asks asks = sure(exchange.asks(b)); !asks.empty(); asks = sure(exchange.asks(b))) {
        CHECK(asks.size() <= 4);
        for (auto ask = asks.rbegin(); ask != asks.rend(); ++ask) {
            const Verdict verdict = sure(exchange.take(b, sure(offered.serve(1, *ask))));
            CHECK(verdict.kind == VerdictKind::Taken && !verdict.cause && verdict.known == 0);
            accepted += verdict.accepted;
        }
        CHECK(sure(exchange.take(b, sure(offered.serve(1, asks[0])))).kind == VerdictKind::Late);
    }
    const Progress progress = sure(exchange.progress(b));
    CHECK(progress.report == Report::Finished && !progress.cause && progress.bad == 0 && progress.lost == 1);
    CHECK(accepted == 50 && progress.accepted == 50 && progress.known == 0 && progress.in_flight == 0);
    CHECK(kept(b) == 1 && sure(b.entry(0))->source == Source::Partner && sure(exchange.left(b)).empty());
    sure(exchange.close(b));
    CHECK(kept(b) == 0 && sure(b.entry(0))->source == Source::Copy && sure(a.root()) == sure(b.root()));
}

void equal_roots() {
    Replica a = filled(50), b = filled(50);
    const std::string offer = sure(sure(a.snapshot()).offer(1));
    Exchange exchange = sure(b.exchange(1, offer));
    CHECK(report(exchange, b) == Report::Finished && sure(exchange.asks(b)).empty() && kept(b) == 0);
    CHECK(sure(b.sync(1, offer, nullptr)).finished());
}

/// An exchange of a replica that is moved, and one that is closed.
void moved_and_closed() {
    Replica a = filled(1), b = sure(Replica::make());
    Exchange first = sure(b.exchange(1, sure(sure(a.snapshot()).offer(1))));
    Replica moved = std::move(b);
    Exchange second = std::move(first);
    REFUSED(Empty, first.progress(moved));
    REFUSED(Empty, second.progress(b));
    CHECK(report(second, moved) == Report::Waiting);
    sure(second.close(moved));
    sure(second.close(moved));
    CHECK(kept(moved) == 0);
    REFUSED(Empty, second.asks(moved));
    REFUSED(Empty, second.take(moved, ""));
    REFUSED(Empty, second.lose(ask_of(0)));
    REFUSED(Empty, second.go_on());
    REFUSED(Empty, second.progress(moved));
    REFUSED(Empty, second.left(moved));
}

void both_ways() {
    Replica a = filled(300), b = sure(Replica::make());
    sure(b.put(2, "other", ""));
    Snapshot of_a = sure(a.snapshot()), of_b = sure(b.snapshot());
    std::size_t most = 0;
    const auto counting = [&](const Asks &asks) {
        most = std::max(most, asks.size());
        return serve(of_a, asks);
    };
    const Synced synced = sure(b.sync(1, sure(of_a.offer(1)), counting, {10}));
    CHECK(synced.finished() && synced.accepted == 300 && synced.known == 0 && synced.left.empty() && most == 10);
    CHECK(synced.bad == 0 && synced.lost == 0 && kept(b) == 0);
    CHECK(sure(a.sync(2, sure(of_b.offer(1)), reach(of_b))).accepted == 1 && sure(a.root()) == sure(b.root()));
}

/// Two replicas: the first has 20 keys that the second doesn't have, and a key is crowded between the two. Its leaf is
/// the first of their leaves.
struct Crowded {
    Replica a = filled(20), b = sure(Replica::make());
    std::uint64_t leaf = ANTIENTROPY_LEAVES_2;

    Crowded() {
        for (const auto &key : all(a.keys())) leaf = std::min(leaf, leaf_of(key));
        std::string key;
        for (int n = 0; leaf_of(key = "crowded " + std::to_string(n)) >= leaf; n++) {
        }
        leaf = leaf_of(key);
        crowd(a, key);
        sure(b.accept(key, {{{100, 1}}, Kind::Live, "one more"}));
    }
};

void crowded_leaf_is_left() {
    Crowded replicas;
    Snapshot snapshot = sure(replicas.a.snapshot());
    const auto backwards = [&](const Asks &asks) { return serve(snapshot, Asks(asks.rbegin(), asks.rend())); };
    const Synced synced = sure(replicas.b.sync(1, sure(snapshot.offer(1)), backwards));
    CHECK(synced.accepted == 20 && synced.report == Report::Left && synced.bad == 0 && kept(replicas.b) == 0);
    CHECK(synced.left == std::vector{replicas.leaf});
}

/// A partner that returns the crowded leaf's text for each ask for a leaf.
void leaf_is_left_for_its_own_answer() {
    Crowded replicas;
    Replica &b = replicas.b;
    Snapshot snapshot = sure(replicas.a.snapshot());
    Exchange exchange = sure(b.exchange(1, sure(snapshot.offer(1))));
    while (report(exchange, b) == Report::Waiting) {
        const Asks asks = sure(exchange.asks(b));
        for (const auto &ask : asks) {
            const std::string other = ask[5] == 3 ? ask_of(replicas.leaf) : ask;
            sure(exchange.take(b, sure(snapshot.serve(1, other))));
            for (const auto leaf : sure(exchange.left(b))) CHECK(leaf == replicas.leaf);
        }
        for (const auto &ask : asks) sure(exchange.lose(ask));
    }
    const Progress progress = sure(exchange.progress(b));
    CHECK(progress.report == Report::TooManyLost && progress.accepted == 0 && progress.bad == 0);
    CHECK(sure(exchange.left(b)).size() == 1);
}

/// 1,100 keys of 100,000 differ. Each tick has time for one batch of asks.
void sync_under_a_deadline() {
    constexpr int keys = 100'000, newer = 1'100;
    const std::string old_value(100, 'o'), new_value(100, 'n');
    Replica b = sure(Replica::make());
    for (int n = 0; n < keys; n++) sure(b.put(1, "key " + std::to_string(n), old_value));
    Replica a = sure(b.renew());
    for (int n = 0; n < newer; n++) sure(a.put(1, "key " + std::to_string(n), new_value, {{1, 1}}));
    Snapshot snapshot = sure(a.snapshot());
    const std::string offer = sure(snapshot.offer(1));
    std::size_t sent = offer.size();
    int ticks = 0;
    Exchange exchange = sure(b.exchange(1, offer));
    while (report(exchange, b) == Report::Waiting) {
        for (const auto &ask : sure(exchange.asks(b))) {
            const std::string answer = sure(snapshot.serve(1, ask));
            sent += ask.size() + answer.size();
            sure(exchange.take(b, answer));
        }
        sure(b.put(2, "own " + std::to_string(++ticks), ""));
    }
    const Progress progress = sure(exchange.progress(b));
    CHECK(progress.report == Report::Finished && progress.accepted == newer && kept(b) == 1);
    CHECK(ticks > 3 && sent <= 4'000'000);
    sure(exchange.close(b));
    for (int n = 0; n < newer; n++) CHECK(sure(b.get("key " + std::to_string(n)))[0].value == new_value);
}

void partner_that_lies() {
    Replica a = filled(300), b = sure(Replica::make());
    Snapshot snapshot = sure(a.snapshot());
    const std::string offer = sure(snapshot.offer(1));
    const auto lies = [&](const Asks &asks) {
        auto answers = serve(snapshot, asks);
        for (auto &answer : answers) answer->back() ^= 1;
        return answers;
    };
    Bounds bounds;
    bounds.bad = bounds.lost = 5;
    const Synced lied = sure(b.sync(1, offer, lies, bounds));
    CHECK(lied.report == Report::TooManyBad && lied.bad == 6 && lied.asks == 6 && lied.lost == 0 && kept(b) == 0);
    const Synced lost = sure(b.sync(1, offer, [](const Asks &) { return Answers{std::nullopt}; }, bounds));
    CHECK(lost.report == Report::TooManyLost && lost.lost == 6 && lost.bad == 0 && sure(b.count()).entries == 0);
}

/// A replica with 40 long values. Of each fourth key it holds this version, and of the others the first one.
Replica versions(std::uint64_t version) {
    Replica replica = sure(Replica::make());
    for (int n = 0; n < 40; n++) {
        const std::uint64_t counter = n % 4 == 0 ? version : 1;
        sure(replica.accept("key " + std::to_string(n), {{{1, counter}}, Kind::Live, std::string(300, 'v')}));
    }
    return replica;
}

bool is_patch(const std::string &answer) { return answer[0] == 5; }

/// An outline is sent for each leaf that differs: a row has over 255 bytes. One that brings no text isn't counted.
void patches_are_taken() {
    Replica a = versions(2), b = versions(1);
    Snapshot snapshot = sure(a.snapshot());
    std::uint64_t sent = 0, leaves = 0;
    const auto counting = [&](const Asks &asks) {
        auto answers = serve(snapshot, asks);
        for (const auto &answer : answers) leaves += is_patch(*answer) && (*answer)[5] == 3;
        sent += asks.size();
        return answers;
    };
    const Synced synced = sure(b.sync(1, sure(snapshot.offer(1)), counting));
    CHECK(synced.finished() && synced.accepted == 10 && leaves == 10 && synced.asks == sent);
    CHECK(sure(a.root()) == sure(b.root()));
}

/// Within plain bounds no ask is an outline.
void plain_asks() {
    Replica a = versions(2), b = versions(1);
    Snapshot snapshot = sure(a.snapshot());
    const auto plain = [&](const Asks &asks) {
        for (const auto &ask : asks) CHECK(ask.size() == ANTIENTROPY_ASK_LEN);
        return serve(snapshot, asks);
    };
    const Bounds bounds = {256, 1 << 20, 8, 256, true};
    CHECK(sure(b.sync(1, sure(snapshot.offer(1)), plain, bounds)).accepted == 10);
}

/// A partner whose patches are all wrong, and an older one, which refuses outlines.
void outlines_without_a_text() {
    for (const bool lies : {true, false}) {
        Replica a = versions(2), b = versions(1);
        Snapshot snapshot = sure(a.snapshot());
        const auto link = [&](const Asks &asks) {
            auto answers = serve(snapshot, asks);
            for (auto &answer : answers) {
                if (!is_patch(*answer)) continue;
                if (lies) answer->back() ^= 1;
                else answer.reset();
            }
            return answers;
        };
        const Synced synced = sure(b.sync(1, sure(snapshot.offer(1)), link));
        CHECK(synced.finished() && synced.accepted == 10 && synced.bad == 0 && synced.lost == 0);
    }
}

/// An offer whose root is the digest of the text "junk": the text has the right digest, but isn't a node's.
void not_canonical() {
    Replica replica = sure(Replica::make());
    const std::string root = from_hex("ef875a1705a5fdac206be996f4dc1f726ea6b68861eb741c37def7277f179e37");
    const std::string offer = from_hex("01000000010200") + root;
    const std::string answer = from_hex("03000000010000000000000000000004") + "junk";
    REFUSED(NotCanonical, replica.sync(1, offer, [&](const Asks &) { return Answers{answer}; }));
    CHECK(sure(replica.count()).entries == 0 && kept(replica) == 0);
}

void full_journal() {
    Replica a = filled(50), small = sure(Replica::make({2, 0, 0, 10}));
    Snapshot snapshot = sure(a.snapshot());
    const std::string offer = sure(snapshot.offer(1));
    REFUSED(JournalFull, small.sync(1, offer, reach(snapshot)));
    CHECK(kept(small) == 0);
    Exchange exchange = sure(small.exchange(1, offer));
    std::uint64_t refused = 0;
    while (report(exchange, small) == Report::Waiting) {
        for (const auto &answer : serve(snapshot, sure(exchange.asks(small)))) {
            const Verdict verdict = sure(exchange.take(small, *answer));
            CHECK(verdict.cause.has_value() == (verdict.kind == VerdictKind::Refused));
            refused += verdict.cause == Refusal::JournalFull;
        }
    }
    const Progress stopped = sure(exchange.progress(small));
    CHECK(stopped.report == Report::Stopped && stopped.cause == Refusal::JournalFull);
    sure(exchange.go_on());
    CHECK(report(exchange, small) == Report::Waiting && sure(exchange.progress(small)).lost == refused);
    Replica renewed = sure(small.renew());
    CHECK(report(exchange, renewed) == Report::Gone);
    const std::uint64_t taken = sure(small.count()).entries;
    CHECK(taken > 0 && taken <= 10 && sure(renewed.sync(1, offer, reach(snapshot))).accepted == 50 - taken);
}

void replica_is_closed_meanwhile() {
    Replica a = filled(30), b = sure(Replica::make());
    Snapshot snapshot = sure(a.snapshot());
    const Reach closes = [&](const Asks &asks) {
        b.close();
        return serve(snapshot, asks);
    };
    REFUSED(Empty, b.sync(1, sure(snapshot.offer(1)), closes));
}

void a_snapshot_serves_from_another_thread() {
    Replica a = filled(300), b = sure(Replica::make());
    Snapshot snapshot = sure(a.snapshot());
    Synced synced;
    std::thread other([&] { synced = sure(b.sync(1, sure(snapshot.offer(1)), reach(snapshot))); });
    for (int n = 0; n < 1000; n++) sure(a.put(1, "new " + std::to_string(n), ""));
    other.join();
    CHECK(synced.accepted == 300 && sure(b.root()) == sure(snapshot.root()));
}

} // namespace

int main() {
    return run({{"snapshots", snapshots},
                {"shared snapshots", shared_snapshots},
                {"polled exchange", polled_exchange},
                {"equal roots", equal_roots},
                {"moved and closed", moved_and_closed},
                {"both ways", both_ways},
                {"crowded leaf is left", crowded_leaf_is_left},
                {"leaf is left for its own answer", leaf_is_left_for_its_own_answer},
                {"sync under a deadline", sync_under_a_deadline},
                {"partner that lies", partner_that_lies},
                {"patches are taken", patches_are_taken},
                {"plain asks", plain_asks},
                {"outlines without a text", outlines_without_a_text},
                {"not canonical", not_canonical},
                {"full journal", full_journal},
                {"replica is closed meanwhile", replica_is_closed_meanwhile},
                {"a snapshot serves from another thread", a_snapshot_serves_from_another_thread}});
}
