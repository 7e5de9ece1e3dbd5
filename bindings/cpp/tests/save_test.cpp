// Checkpoints that are saved in place of a file. The calls of the system that save makes are recorded here; one of them
// fails on demand.
#include "support.hpp"

#include <cerrno>
#include <csignal>
#include <fstream>
#include <sys/resource.h>
#include <sys/stat.h>
#include <sys/syscall.h>
#include <sys/wait.h>
#include <unistd.h>

namespace {

std::vector<std::string> calls;
std::string fails; // the call that fails as EIO
bool dies = false; // at the first call instead

/// Records a call. Returns true if it is to fail.
bool record(const std::string &call) {
    if (dies) _exit(0);
    calls.push_back(call);
    if (call == fails) errno = EIO;
    return call == fails;
}

} // namespace

extern "C" int fsync(int file) {
    struct stat about = {};
    fstat(file, &about);
    if (record(S_ISDIR(about.st_mode) ? "fsync folder" : "fsync file")) return -1;
    return static_cast<int>(syscall(SYS_fsync, file));
}

extern "C" int rename(const char *from, const char *to) noexcept {
    if (record("rename")) return -1;
    return static_cast<int>(syscall(SYS_rename, from, to));
}

namespace {

/// A folder with a checkpoint of a replica that has one key more than the checkpoint.
struct Fixture {
    Fixture() {
        std::string name = (std::filesystem::temp_directory_path() / "antientropy-XXXXXX").string();
        folder = mkdtemp(name.data());
        path = folder / "checkpoint";
        sure(replica.put(1, "cart", "milk"));
        CHECK(replica.save(path));
        sure(replica.put(1, "gift", std::string(4096, 'g')));
        calls.clear();
    }
    ~Fixture() {
        fails.clear();
        std::filesystem::remove_all(folder);
    }

    /// The number of keys in the checkpoint at the path. No other file is in the folder.
    std::ptrdiff_t saved() {
        const auto files = std::filesystem::directory_iterator(folder);
        CHECK(std::distance(begin(files), end(files)) == 1);
        std::ifstream file(path, std::ios::binary);
        const auto loaded = Replica::load(file);
        CHECK(loaded);
        return loaded ? static_cast<std::ptrdiff_t>(sure(loaded->count()).entries) : -1;
    }

    /// The error of a save, in words.
    std::string error() {
        const auto saved = replica.save(path);
        return saved ? "none" : name(saved.error());
    }

    std::filesystem::path folder, path;
    Replica replica = sure(Replica::make());
};

void saves_in_place() {
    Fixture it;
    const auto covered = it.replica.save(it.path);
    CHECK(covered && *covered == 2);
    CHECK(calls == std::vector<std::string>{"fsync file", "rename", "fsync folder"});
    CHECK(it.saved() == 2);
    const auto before = std::filesystem::current_path();
    std::filesystem::current_path(it.folder);
    sure(it.replica.put(1, "tea", "green"));
    CHECK(it.replica.save("checkpoint"));
    std::filesystem::current_path(before);
    CHECK(it.saved() == 3);
}

void failed_calls() {
    for (const char *call : {"fsync file", "rename"}) {
        Fixture it;
        fails = call;
        CHECK(it.error() == "Io: Input/output error");
        CHECK(it.saved() == 1);
    }
    Fixture it;
    fails = "fsync folder";
    CHECK(it.error() == "Io: Input/output error");
    CHECK(it.saved() == 2);
}

/// A file that takes 1,000 bytes, as on a full disk.
void full_disk() {
    Fixture it;
    struct rlimit before = {};
    getrlimit(RLIMIT_FSIZE, &before);
    const struct rlimit small = {1000, before.rlim_max};
    std::signal(SIGXFSZ, SIG_IGN);
    setrlimit(RLIMIT_FSIZE, &small);
    const std::string error = it.error();
    setrlimit(RLIMIT_FSIZE, &before);
    CHECK(error == "Io: File too large");
    CHECK(calls.empty() && it.saved() == 1);
}

/// A program that ends early leaves the old checkpoint, and a part of the new one next to it.
void interrupted() {
    Fixture it;
    const pid_t child = fork();
    if (child == 0) {
        dies = true;
        (void)it.replica.save(it.path);
        _exit(1);
    }
    int status = 1;
    CHECK(waitpid(child, &status, 0) == child && status == 0);
    CHECK(std::filesystem::remove(it.folder / "checkpoint.new") && it.saved() == 1);
    std::ofstream(it.folder / "checkpoint.new") << std::string(1 << 20, 'x');
    CHECK(it.error() == "none" && it.saved() == 2);
}

void refused_saves() {
    Fixture it;
    it.path = it.folder / "no folder" / "checkpoint";
    CHECK(it.error() == "Io: No such file or directory");
    it.path = it.folder / "checkpoint";
    it.replica.close();
    CHECK(it.error() == "Refused: Empty" && it.saved() == 1);
}

} // namespace

int main() {
    return run({{"saves in place", saves_in_place},
                {"failed calls", failed_calls},
                {"full disk", full_disk},
                {"interrupted", interrupted},
                {"refused saves", refused_saves}});
}
