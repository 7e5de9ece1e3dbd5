/// A whole host: two processes with a replica each of one range. One of them is killed, and both end with equal roots.
///
///     c++ -std=c++17 -pthread -I bindings/cpp -I out bindings/cpp/examples/host.cpp out/libantientropy.a -o host
///     ./host FOLDER
///
/// The program starts the nodes 1 and 2, and is their client. A node acknowledges a put once it is in its synced log.
/// It sends the other node a copy, and keeps a hint if that fails. In the background each node delivers hints and
/// syncs, in rounds with a deadline: the next round continues the exchange. A restart detects damage of the synced log;
/// docs/EMBEDDING_C.md, "Restarts", has the rules that are left out (a manifest, a log of hints).
#include "antientropy.hpp"

#include <sys/file.h>
#include <sys/prctl.h>
#include <sys/socket.h>
#include <sys/time.h>
#include <sys/un.h>
#include <sys/wait.h>

#include <atomic>
#include <csignal>
#include <fstream>
#include <iostream>
#include <map>
#include <set>

using namespace antientropy;
using namespace std::chrono_literals;
using std::optional, std::string, std::string_view, std::to_string;
using Time = std::chrono::steady_clock;
using Micros = std::chrono::microseconds;

constexpr Micros link_timeout = 200ms, client_timeout = 1min, round_time = 5ms, pause_time = 10ms;
constexpr std::uint64_t max_message = 64 << 20, max_hints = 10; // so few hints that an outage needs a sync, too

/// Throws the system's error unless a call succeeded.
void check(bool succeeded, const char *call) {
    if (!succeeded) throw std::system_error(errno, std::generic_category(), call);
}

/// Returns a number as `length` bytes, the highest first.
string to_bytes(std::uint64_t number, int length) {
    string bytes;
    while (length-- > 0) bytes += static_cast<char>(number >> (8 * length));
    return bytes;
}

std::uint64_t to_number(string_view bytes) {
    std::uint64_t number = 0;
    for (const unsigned char byte : bytes) number = number << 8 | byte;
    return number;
}

/// Returns the text of a row with one version (docs/FORMATS.md).
string row_of(const string &key, const Version &version) {
    string row = to_bytes(key.size(), 2) + key + to_bytes(1, 2);
    row += to_bytes(static_cast<std::uint64_t>(version.kind), 1) + to_bytes(version.clock.size(), 1);
    for (const auto &pair : version.clock) row += to_bytes(pair.node, 2) + to_bytes(pair.counter, 8);
    return row + to_bytes(version.value.size(), 4) + version.value;
}

// ---- messages: the length of the rest (4 bytes), a byte for the kind, and the body

/// A request, or a response, whose kind is '+', or '-' with a refusal.
struct Message {
    char kind;
    string body;
};

bool send_message(int link, const Message &message) {
    const string bytes = to_bytes(message.body.size() + 1, 4) + message.kind + message.body;
    return send(link, bytes.data(), bytes.size(), MSG_NOSIGNAL) == static_cast<ssize_t>(bytes.size());
}

optional<Message> receive_message(int link) {
    string length(4, '\0');
    if (recv(link, length.data(), 4, MSG_WAITALL) != 4) return std::nullopt;
    string rest(std::min(to_number(length), max_message), '\0');
    const auto size = static_cast<ssize_t>(rest.size());
    if (size == 0 || recv(link, rest.data(), rest.size(), MSG_WAITALL) != size) return std::nullopt;
    return Message{rest[0], rest.substr(1)};
}

/// Makes a system call with the address of a node's socket.
int with_address(decltype(&connect) call, int socket, std::uint64_t node) {
    sockaddr_un address = {AF_UNIX, {}};
    ("../" + to_string(node) + "/socket").copy(address.sun_path, sizeof address.sun_path);
    return call(socket, reinterpret_cast<const sockaddr *>(&address), sizeof address);
}

/// Sends a request, and returns the response, or std::nullopt if the node is down or sends nothing for a time.
optional<Message> request(std::uint64_t node, const Message &message, Micros timeout = link_timeout) {
    const int link = socket(AF_UNIX, SOCK_STREAM | SOCK_CLOEXEC, 0);
    const timeval wait = {timeout / 1s, (timeout % 1s).count()};
    setsockopt(link, SOL_SOCKET, SO_RCVTIMEO, &wait, sizeof wait);
    setsockopt(link, SOL_SOCKET, SO_SNDTIMEO, &wait, sizeof wait);
    optional<Message> response;
    if (with_address(connect, link, node) == 0 && send_message(link, message)) response = receive_message(link);
    close(link);
    return response;
}

// ---- a node

/// The checkpoint and the log of a node. A record of the log is a length (4 bytes), a checksum (8 bytes) and rows. The
/// file `synced` has the length of the synced log.
class Disk {
public:
    Disk() {
        check(log_ >= 0 && synced_ >= 0, "open");
        check(flock(log_, LOCK_EX | LOCK_NB) == 0, "flock"); // two processes of one number would reuse counters
    }

    /// Returns the replica of the checkpoint and the log. Cuts off an incomplete record, which wasn't acknowledged.
    Replica load() {
        const bool is_saved = std::filesystem::exists("checkpoint");
        Replica replica = is_saved ? Replica::load("checkpoint").value() : Replica::make().value();
        std::ifstream file("log", std::ios::binary);
        const string log(std::istreambuf_iterator<char>(file), {});
        while (log.size() - length_ >= 12) {
            const auto rows = log.substr(length_ + 12, to_number(log.substr(length_, 4)));
            if (log.substr(length_, 12) != head_of(rows)) break;
            replica.load_format(2, rows).value();
            length_ += 12 + rows.size();
        }
        string synced(8, '\0');
        check(pread(synced_, synced.data(), 8, 0) >= 0, "pread");
        if (length_ < to_number(synced)) throw std::runtime_error("the log is damaged: put under a new number");
        check(ftruncate(log_, static_cast<off_t>(length_)) == 0, "ftruncate");
        sync(); // a killed process can leave records that aren't on the disk
        const int folder = open(".", O_RDONLY | O_CLOEXEC);
        check(fsync(folder) == 0, "fsync");
        close(folder);
        return replica;
    }

    void append(const string &rows) {
        const string record = head_of(rows) + rows;
        check(write(log_, record.data(), record.size()) == static_cast<ssize_t>(record.size()), "write");
        length_ += record.size();
        sync();
    }

    /// Saves a checkpoint that includes all records, and empties the log.
    void save(Replica &replica) {
        replica.save("checkpoint").value();
        length_ = 0;
        note();
        check(fsync(synced_) == 0 && ftruncate(log_, 0) == 0, "ftruncate");
        sync();
    }

private:
    static string head_of(string_view rows) {
        std::uint64_t sum = 0xcbf29ce484222325; // FNV-1a
        for (const unsigned char byte : rows) sum = (sum ^ byte) * 0x100000001b3;
        return to_bytes(rows.size(), 4) + to_bytes(sum, 8);
    }
    void sync() {
        check(fdatasync(log_) == 0, "fdatasync");
        note();
    }
    void note() { check(pwrite(synced_, to_bytes(length_, 8).data(), 8, 0) == 8, "pwrite"); }

    int log_ = open("log", O_RDWR | O_CREAT | O_APPEND | O_CLOEXEC, 0666);
    int synced_ = open("synced", O_RDWR | O_CREAT | O_CLOEXEC, 0666);
    std::size_t length_ = 0;
};

/// A node: the mutex guards all but the exchange and its asks, which only `work` uses.
class Node {
public:
    explicit Node(std::uint64_t number) : number_(number), other_(3 - number) {}

    /// Returns the response to a request: p puts, c accepts a copy, g gets, o offers, a serves an ask, s saves a
    /// checkpoint, and i returns the number of late rounds (8 bytes) and the root.
    Message serve(char kind, const string &body) {
        try {
            if (kind == 'p') return put(body);
            if (kind == 'o') return offer();
            const Guard guard(mutex_);
            Message response = {'+', {}};
            switch (kind) {
            case 'a': response.body = offered_.serve(offer_number_, body).value(); break;
            case 'c': replica_.load_rows(body).value(); break;
            case 'g':
                for (const auto &version : replica_.get(body).value()) response.body += version.value;
                break;
            case 'i': response.body = to_bytes(late_rounds_, 8) + replica_.root().value(); break;
            case 's': disk_.save(replica_); break;
            default: return {'-', "unknown kind"};
            }
            log_entries();
            return response;
        } catch (const BadAccess<Refusal> &refused) {
            return {'-', refused.what()};
        }
    }

    /// Delivers hints, syncs and renews, as long as the process runs.
    [[noreturn]] void work() {
        for (;; std::this_thread::sleep_for(pause_time)) {
            deliver();
            sync();
            replica_.renew_if_due(mutex_).value();
        }
    }

private:
    using Guard = std::lock_guard<std::mutex>;

    /// Puts a value, or a tombstone if the value is empty, in place of the versions that are held. The body is the
    /// length of the key (1 byte), the key and the value.
    Message put(const string &body) {
        const auto end = std::min<std::size_t>(1 + to_number(body.substr(0, 1)), body.size());
        const string key = body.substr(1, end - 1), value = body.substr(end);
        Entry entry;
        {
            const Guard guard(mutex_);
            const auto context = merge(replica_.get(key).value()).value();
            const auto receipt = value.empty() ? replica_.remove(number_, key, context)
                                               : replica_.put(number_, key, value, context);
            const auto number = receipt.value().number;
            log_entries();
            entry = replica_.entry(number).value().value();
        }
        if (!request(other_, {'c', row_of(key, entry.version)})) {
            const Guard guard(mutex_);
            if (hints_.count().value().pending < max_hints) hints_.keep(other_, key, entry.version).value();
        }
        return {'+', {}};
    }

    /// Logs the entries since the last call. A failure ends the process before anything is sent.
    void log_entries() noexcept {
        std::set<string> keys;
        for (const auto &entry : replica_.entries(logged_).value()) keys.insert(entry.key);
        string rows;
        for (const auto &key : keys) rows += replica_.row(key).value();
        if (!rows.empty()) disk_.append(rows);
        logged_ = replica_.about().value().entries;
    }

    Message offer() {
        auto snapshot = replica_.snapshot_beside(mutex_).value();
        const Guard guard(mutex_);
        offered_ = std::move(snapshot);
        return {'+', offered_.offer(++offer_number_).value()};
    }

    void deliver() {
        std::unique_lock<std::mutex> lock(mutex_);
        while (const auto number = hints_.next(other_).value()) {
            const auto hint = hints_.hint(*number).value().value();
            lock.unlock();
            const auto response = request(other_, {'c', row_of(hint.key, hint.version)});
            lock.lock();
            if (!response) return;
            hints_.confirm(hint.number).value(); // the version is on the other node's disk, or refused there
        }
        hints_.renew().value();
    }

    /// Syncs until the deadline. The next round continues the exchange.
    void sync() {
        const auto deadline = Time::now() + round_time;
        if (!exchange_) {
            const auto offer = request(other_, {'o', {}});
            late_rounds_ += !offer;
            if (!offer || offer->kind == '-') return;
            auto opened = replica_.exchange_beside(mutex_, other_, offer->body);
            if (!opened) return;
            exchange_ = *std::move(opened);
        }
        std::unique_lock<std::mutex> lock(mutex_);
        while (true) {
            if (asks_.empty()) asks_ = exchange_->asks(replica_).value();
            if (asks_.empty()) break; // the exchange is over
            const auto left = std::chrono::duration_cast<Micros>(deadline - Time::now());
            if (left <= 0us) {
                late_rounds_++;
                return;
            }
            lock.unlock();
            const auto response = request(other_, {'a', asks_.back()}, left);
            lock.lock();
            if (response && response->kind == '-') break; // the offer is gone
            if (response) exchange_->take(replica_, response->body).value();
            else exchange_->lose(asks_.back()).value();
            asks_.pop_back();
            log_entries();
        }
        exchange_->close(replica_).value();
        exchange_.reset();
        asks_.clear();
    }

    std::uint64_t number_, other_;
    std::mutex mutex_;
    Disk disk_;
    Replica replica_ = disk_.load();
    std::uint64_t logged_ = replica_.about().value().entries;
    Hints hints_ = Hints::make().value(); // in memory: no hint counts as a second copy
    Snapshot offered_ = replica_.snapshot().value();
    std::uint32_t offer_number_ = 0;
    optional<Exchange> exchange_;
    std::vector<string> asks_;
    std::atomic<std::uint64_t> late_rounds_ = 0; // rounds that ended at the deadline, or without an offer
};

/// Runs a node until it is killed.
[[noreturn]] void run(std::uint64_t number) {
    prctl(PR_SET_PDEATHSIG, SIGKILL);
    std::filesystem::create_directory("../" + to_string(number));
    std::filesystem::current_path("../" + to_string(number));
    Node node(number);
    std::filesystem::remove("socket");
    const int listener = socket(AF_UNIX, SOCK_STREAM | SOCK_CLOEXEC, 0);
    check(with_address(bind, listener, number) == 0 && listen(listener, 64) == 0, "listen");
    std::thread([&] { node.work(); }).detach();
    while (true) {
        const int link = accept4(listener, nullptr, nullptr, SOCK_CLOEXEC);
        check(link >= 0, "accept");
        std::thread([&node, link] {
            const auto message = receive_message(link);
            if (message) send_message(link, node.serve(message->kind, message->body));
            close(link);
        }).detach();
    }
}

// ---- the client

template <class Condition>
void wait_until(Condition condition) {
    for (const auto end = Time::now() + 1min; !condition(); std::this_thread::sleep_for(pause_time))
        if (Time::now() > end) throw std::runtime_error("nothing has changed for a minute");
}

/// Starts the process of a node, and returns its id once it serves requests.
pid_t start(std::uint64_t node) {
    const pid_t process = fork();
    if (process == 0) run(node);
    check(process > 0, "fork");
    wait_until([&] {
        if (waitpid(process, nullptr, WNOHANG) != 0) throw std::runtime_error("a node has ended");
        return request(node, {'i', {}}).has_value();
    });
    return process;
}

string ask(std::uint64_t node, char kind, const string &body = {}) {
    const auto response = request(node, {kind, body}, client_timeout);
    return response && response->kind == '+' ? response->body : throw std::runtime_error("node " + to_string(node));
}

string put_of(const string &key, const string &value) { return to_bytes(key.size(), 1) + key + value; }

int main(int count, char **arguments) {
    if (count != 2) {
        std::cerr << "usage: host FOLDER\n";
        return 2;
    }
    const auto here = std::filesystem::path(arguments[1]) / "client";
    std::filesystem::create_directories(here);
    std::filesystem::current_path(here);
    std::map<string, string> acknowledged;
    const auto put = [&](std::uint64_t node, const string &key, const string &value) {
        ask(node, 'p', put_of(key, value));
        acknowledged[key] = value;
    };

    const pid_t one = start(1), two = start(2);
    for (int i = 0; i < 20; i++) put(1 + i % 2, "cart " + to_string(i), "milk");
    ask(2, 's');
    for (int i = 0; i < 10; i++) put(2, "order " + to_string(i), "eggs");
    request(2, {'p', put_of("last order", "eggs")}, 1us); // it may be lost: it isn't acknowledged
    kill(two, SIGKILL);
    waitpid(two, nullptr, 0);

    for (int i = 0; i < 30; i++) put(1, "list " + to_string(i), "tea");
    for (int i = 0; i < 10; i++) put(1, "cart " + to_string(i), ""); // deletes
    start(2);
    kill(one, SIGSTOP); // a round of node 2 ends without an answer
    wait_until([] { return to_number(ask(2, 'i').substr(0, 8)) > 0; });
    kill(one, SIGCONT);
    wait_until([] { return ask(1, 'i').substr(8) == ask(2, 'i').substr(8); });

    int lost = 0;
    for (const auto &[key, value] : acknowledged)
        for (const int node : {1, 2}) lost += ask(node, 'g', key) != value;
    std::cout << "equal roots, " << acknowledged.size() << " keys with acknowledged puts, " << lost << " lost\n";
    return lost == 0 ? 0 : 1;
}
