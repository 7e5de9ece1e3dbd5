/*
 * The faults of a disk: a library for LD_PRELOAD, between one program and the files below one folder.
 *
 * It keeps in a second folder, the shadow, the changes that a power cut undoes: the bytes and the sizes of each file
 * that writes changed since its last fsync, and the names that were made, changed and removed since the last fsync of
 * their folder. A name and its file's data are independent, as on a disk. `power.py` undoes the changes once the
 * program has been killed, and sets the other faults in the file `control` of the shadow, which is mapped here: a full
 * disk, syncs that fail, slow syncs.
 *
 * DISK_FAULTS_FOLDER and DISK_FAULTS_SHADOW name the two folders, on one file system: a removed file is kept by a link.
 * Each change is recorded before it is made, so a kill between the two loses nothing. Not recorded: files that are
 * mapped to be written, O_SYNC, and a child that doesn't execute another program.
 */
#define _GNU_SOURCE
#include <dlfcn.h>
#include <errno.h>
#include <fcntl.h>
#include <limits.h>
#include <pthread.h>
#include <stdarg.h>
#include <stdatomic.h>
#include <stdbool.h>
#include <stdint.h>
#include <stdio.h>
#include <stdlib.h>
#include <string.h>
#include <sys/mman.h>
#include <sys/stat.h>
#include <sys/uio.h>
#include <time.h>
#include <unistd.h>

#define MOST_OPEN 65536
#define MOST_PARTS 1024

/* The settings of the nemesis, and counts that it reads. */
struct control {
    _Atomic int64_t room;    /* bytes that files may still grow by; negative: no limit */
    _Atomic int64_t failing; /* syncs that will fail; negative: all */
    _Atomic int64_t sync_ms; /* the delay of each sync */
    _Atomic int64_t synced;  /* syncs that succeeded */
    _Atomic int64_t failed;  /* syncs that failed */
    _Atomic int64_t refused; /* writes and new names that found no room */
    _Atomic int64_t begun;   /* syncs that have begun */
};

enum kind { WRITTEN = 1, RESIZED, SYNCED, CREATED, MADE, REMOVED, REMOVED_FOLDER, RENAMED };

/*
 * The head of a record; `length` bytes follow. Of a file: old bytes. Of names: the path, or two with a zero between.
 *
 *     WRITTEN         at: offset, count: bytes, size: the file's before
 *     RESIZED         at: new size, size: the file's before
 *     SYNCED          at: all records before this position are on the disk
 *     REMOVED         at: the position of this record, which names the link in the shadow
 *     RENAMED         at: the same, for a file that was replaced; count: the inode
 */
struct record {
    int64_t kind, at, count, size, length;
};

/* An open file, or an open folder, which has a path. */
struct file {
    struct file *next;
    pthread_mutex_t lock;
    ino_t inode;
    int users;
    int undo;
    int reader;
    off_t recorded; /* bytes of the undo records */
    long dropped;   /* times that they were dropped */
    char *folder;
};

/* A link to a removed file, until its folder is synced. */
struct gone {
    struct gone *next;
    int64_t number;
    char folder[];
};

static char watched[PATH_MAX], shadow[PATH_MAX];
static struct control *control;
static _Atomic(struct file *) open_files[MOST_OPEN];
static struct file *files;
static struct gone *gone;
static int names = -1;
static off_t names_recorded;
/* Guards the lists and the record of names. */
static pthread_mutex_t lock = PTHREAD_MUTEX_INITIALIZER;

static struct {
    int (*openat)(int, const char *, int, ...);
    ssize_t (*writev)(int, const struct iovec *, int);
    ssize_t (*pwritev)(int, const struct iovec *, int, off_t);
    int (*ftruncate)(int, off_t);
    int (*fsync)(int);
    int (*fdatasync)(int);
    int (*renameat)(int, const char *, int, const char *);
    int (*unlinkat)(int, const char *, int);
    int (*mkdirat)(int, const char *, mode_t);
    int (*close)(int);
} real;

static void find(void *call, const char *name)
{
    void *found = dlsym(RTLD_NEXT, name);
    memcpy(call, &found, sizeof found);
}

/* Finds the calls of the C library. Another library's constructor may call one before this library's has run. */
static void find_all(void)
{
    if (real.close)
        return;
    find(&real.openat, "openat");
    find(&real.writev, "writev");
    find(&real.pwritev, "pwritev");
    find(&real.ftruncate, "ftruncate");
    find(&real.fsync, "fsync");
    find(&real.fdatasync, "fdatasync");
    find(&real.renameat, "renameat");
    find(&real.unlinkat, "unlinkat");
    find(&real.mkdirat, "mkdirat");
    find(&real.close, "close");
}

static void give_up(const char *what)
{
    static const char begin[] = "disk_faults: ";
    struct iovec parts[] = {{(void *)begin, sizeof begin - 1}, {(void *)what, strlen(what)}, {"\n", 1}};
    (void)!real.writev(STDERR_FILENO, parts, 3);
    abort();
}

/* ---- records */

/* Opens a file of records, after its last whole one. Returns its length. */
static off_t open_records(const char *name, int *opened)
{
    char path[2 * PATH_MAX];
    struct record head;
    struct stat now;
    off_t end = 0;
    snprintf(path, sizeof path, "%s/%s", shadow, name);
    *opened = real.openat(AT_FDCWD, path, O_RDWR | O_CREAT | O_APPEND | O_CLOEXEC, 0600);
    if (*opened < 0 || fstat(*opened, &now) != 0)
        give_up("a file of records can't be opened");
    while (pread(*opened, &head, sizeof head, end) == sizeof head &&
           end + (off_t)sizeof head + head.length <= now.st_size)
        end += (off_t)sizeof head + head.length;
    if (end < now.st_size && real.ftruncate(*opened, end) != 0)
        give_up("a file of records can't be cut");
    return end;
}

/* Appends a record, and returns its length. */
static off_t append(int to, struct record head, const void *one, size_t one_length, const void *other,
                    size_t other_length)
{
    head.length = (int64_t)(one_length + other_length);
    struct iovec parts[] = {{&head, sizeof head}, {(void *)one, one_length}, {(void *)other, other_length}};
    ssize_t whole = (ssize_t)sizeof head + head.length;
    if (real.writev(to, parts, 3) != whole)
        give_up("a record can't be written");
    return whole;
}

/* Records a change of names. The caller has the lock. */
static void record_name(enum kind kind, int64_t at, int64_t count, const char *path, const char *other)
{
    struct record head = {.kind = kind, .at = at, .count = count};
    size_t length = strlen(path) + (other ? 1 : 0);
    names_recorded += append(names, head, path, length, other, other ? strlen(other) : 0);
}

/* Records the bytes from `at` to `end`, before a change of a file removes them. The caller has the file's lock. */
static void record_bytes(struct file *file, int descriptor, struct record head, off_t at, off_t end)
{
    size_t length = end > at ? (size_t)(end - at) : 0;
    char *old = length ? malloc(length) : NULL;
    if (length && file->reader < 0) {
        char self[64];
        snprintf(self, sizeof self, "/proc/self/fd/%d", descriptor);
        file->reader = real.openat(AT_FDCWD, self, O_RDONLY | O_CLOEXEC);
    }
    for (size_t had = 0; had < length;) {
        ssize_t more = old ? pread(file->reader, old + had, length - had, at + (off_t)had) : -1;
        if (more <= 0)
            give_up("old bytes can't be read");
        had += (size_t)more;
    }
    file->recorded += append(file->undo, head, old, length, NULL, 0);
    free(old);
}

/* ---- paths */

/* Writes an absolute path without `.`, `..` and empty parts. Returns false if it's too long. */
static bool make_absolute(char whole[PATH_MAX], int folder, const char *path)
{
    char text[2 * PATH_MAX];
    size_t end = 0;
    if (path[0] == '/') {
        text[0] = 0;
    } else if (folder == AT_FDCWD) {
        if (!getcwd(text, PATH_MAX))
            return false;
    } else {
        char self[64];
        snprintf(self, sizeof self, "/proc/self/fd/%d", folder);
        ssize_t length = readlink(self, text, PATH_MAX - 1);
        if (length < 0)
            return false;
        text[length] = 0;
    }
    size_t begin = strlen(text);
    if (begin + strlen(path) + 2 > sizeof text)
        return false;
    text[begin] = '/';
    strcpy(text + begin + 1, path);
    for (char *rest, *part = strtok_r(text, "/", &rest); part; part = strtok_r(NULL, "/", &rest)) {
        if (strcmp(part, ".") == 0)
            continue;
        if (strcmp(part, "..") == 0) {
            while (end > 0 && whole[--end] != '/')
                ;
            continue;
        }
        size_t length = strlen(part);
        if (end + length + 2 > PATH_MAX)
            return false;
        whole[end++] = '/';
        memcpy(whole + end, part, length);
        end += length;
    }
    whole[end] = 0;
    return true;
}

/* Returns true if a path is the watched folder or below it, and writes it. */
static bool is_watched(char whole[PATH_MAX], int folder, const char *path)
{
    find_all();
    size_t length = strlen(watched);
    return control && path && make_absolute(whole, folder, path) && strncmp(whole, watched, length) == 0 &&
           (whole[length] == '/' || whole[length] == 0);
}

static bool is_there(int folder, const char *path)
{
    struct stat found;
    return fstatat(folder, path, &found, AT_SYMLINK_NOFOLLOW) == 0;
}

/* ---- open files */

static struct file *file_of(int descriptor)
{
    find_all();
    if (!control || descriptor < 0 || descriptor >= MOST_OPEN)
        return NULL;
    return atomic_load(&open_files[descriptor]);
}

/* Notes an open file or folder. The caller has the lock. A new file may have the inode of one that is gone. */
static void track(int descriptor, const char *whole, bool is_new)
{
    struct stat found;
    if (descriptor >= MOST_OPEN || fstat(descriptor, &found) != 0)
        give_up("too many open files");
    bool is_folder = S_ISDIR(found.st_mode);
    if (!is_folder && !S_ISREG(found.st_mode))
        return;
    struct file *file = is_folder ? NULL : files;
    while (file && file->inode != found.st_ino)
        file = file->next;
    if (!file) {
        file = calloc(1, sizeof *file);
        if (!file || pthread_mutex_init(&file->lock, NULL) != 0)
            give_up("no memory");
        file->inode = found.st_ino;
        file->undo = file->reader = -1;
        if (is_folder) {
            file->folder = strdup(whole);
        } else {
            char name[64];
            snprintf(name, sizeof name, "undo-%ju", (uintmax_t)found.st_ino);
            file->recorded = open_records(name, &file->undo);
            file->next = files;
            files = file;
        }
    }
    if (is_new && file->recorded > 0) {
        if (real.ftruncate(file->undo, 0) != 0)
            give_up("records can't be dropped");
        file->recorded = 0;
    }
    file->users++;
    atomic_store(&open_files[descriptor], file);
}

/* Forgets an open file. */
static void untrack(struct file *file)
{
    pthread_mutex_lock(&lock);
    if (--file->users == 0) {
        for (struct file **at = &files; *at; at = &(*at)->next)
            if (*at == file) {
                *at = file->next;
                break;
            }
        if (file->undo >= 0)
            real.close(file->undo);
        if (file->reader >= 0)
            real.close(file->reader);
        pthread_mutex_destroy(&file->lock);
        free(file->folder);
        free(file);
    }
    pthread_mutex_unlock(&lock);
}

/* ---- space */

/* Takes the space for the growth of a file by a write. Returns the number of bytes that may be written. */
static size_t take_room(off_t at, size_t wanted, off_t size)
{
    int64_t growth = (int64_t)at + (int64_t)wanted - (int64_t)size;
    int64_t room = atomic_load(&control->room), taken;
    if (growth <= 0)
        return wanted;
    do {
        if (room < 0)
            return wanted;
        taken = growth < room ? growth : room;
    } while (!atomic_compare_exchange_weak(&control->room, &room, room - taken));
    size_t lacking = (size_t)(growth - taken);
    return lacking < wanted ? wanted - lacking : 0;
}

/* Frees the space of removed data. */
static void give_room(int64_t bytes)
{
    int64_t room = atomic_load(&control->room);
    while (room >= 0 && !atomic_compare_exchange_weak(&control->room, &room, room + bytes))
        ;
}

/* Returns -1 if there isn't space for a new name. */
static int admit_name(void)
{
    if (atomic_load(&control->room) != 0)
        return 0;
    atomic_fetch_add(&control->refused, 1);
    errno = ENOSPC;
    return -1;
}

/* ---- changes of files */

static ssize_t write_parts(int descriptor, const struct iovec *parts, int count, off_t at)
{
    return at < 0 ? real.writev(descriptor, parts, count) : real.pwritev(descriptor, parts, count, at);
}

/* Writes at an offset, or at the file's position if that is negative. */
static ssize_t change(int descriptor, const struct iovec *parts, int count, off_t at)
{
    struct file *file = file_of(descriptor);
    if (!file || file->folder || count < 0 || count > MOST_PARTS)
        return write_parts(descriptor, parts, count, at);
    pthread_mutex_lock(&file->lock);
    struct stat found;
    size_t wanted = 0;
    for (int i = 0; i < count; i++)
        wanted += parts[i].iov_len;
    if (fstat(descriptor, &found) != 0)
        give_up("a file has no size");
    off_t from = at >= 0 ? at : lseek(descriptor, 0, SEEK_CUR);
    if (fcntl(descriptor, F_GETFL) & O_APPEND)
        from = found.st_size;
    size_t allowed = take_room(from, wanted, found.st_size);
    ssize_t written = -1;
    if (allowed == 0 && wanted > 0) {
        atomic_fetch_add(&control->refused, 1);
        errno = ENOSPC;
    } else {
        struct iovec cut[MOST_PARTS];
        size_t left = allowed;
        for (int i = 0; i < count; i++) {
            cut[i] = parts[i];
            cut[i].iov_len = left < parts[i].iov_len ? left : parts[i].iov_len;
            left -= cut[i].iov_len;
        }
        struct record head = {.kind = WRITTEN, .at = from, .count = (int64_t)allowed, .size = found.st_size};
        off_t end = from + (off_t)allowed;
        record_bytes(file, descriptor, head, from, end < found.st_size ? end : found.st_size);
        written = write_parts(descriptor, cut, count, at);
    }
    int cause = errno;
    pthread_mutex_unlock(&file->lock);
    errno = cause;
    return written;
}

static ssize_t change_at(int descriptor, const struct iovec *parts, int count, off_t at)
{
    if (at < 0) {
        errno = EINVAL;
        return -1;
    }
    return change(descriptor, parts, count, at);
}

static int resize(int descriptor, off_t size)
{
    struct file *file = file_of(descriptor);
    if (!file || file->folder)
        return real.ftruncate(descriptor, size);
    pthread_mutex_lock(&file->lock);
    struct stat found;
    if (fstat(descriptor, &found) != 0)
        give_up("a file has no size");
    if (size != found.st_size) {
        struct record head = {.kind = RESIZED, .at = size, .size = found.st_size};
        record_bytes(file, descriptor, head, size, found.st_size);
    }
    int done = real.ftruncate(descriptor, size);
    if (done == 0 && size < found.st_size)
        give_room(found.st_size - size);
    int cause = errno;
    pthread_mutex_unlock(&file->lock);
    errno = cause;
    return done;
}

/* ---- syncs */

static void wait_ms(int64_t ms)
{
    struct timespec left = {.tv_sec = ms / 1000, .tv_nsec = ms % 1000 * 1000000};
    while (ms > 0 && nanosleep(&left, &left) != 0 && errno == EINTR)
        ;
}

/* Returns true if this sync must fail. */
static bool is_failing(void)
{
    int64_t failing = atomic_load(&control->failing);
    while (failing > 0 && !atomic_compare_exchange_weak(&control->failing, &failing, failing - 1))
        ;
    return failing != 0;
}

/* Drops the records up to a position, unless all records of that time have been dropped since. */
static void file_is_synced(struct file *file, off_t position, long dropped)
{
    pthread_mutex_lock(&file->lock);
    if (file->dropped == dropped && file->recorded == position && position > 0) {
        if (real.ftruncate(file->undo, 0) != 0)
            give_up("records can't be dropped");
        file->recorded = 0;
        file->dropped++;
    } else if (file->dropped == dropped && position > 0) {
        struct record head = {.kind = SYNCED, .at = position};
        file->recorded += append(file->undo, head, NULL, 0, NULL, 0);
    }
    pthread_mutex_unlock(&file->lock);
}

/* Notes that the names of a folder up to a position are on the disk, and drops the files that are gone for good. */
static void folder_is_synced(const char *folder, off_t position)
{
    pthread_mutex_lock(&lock);
    record_name(SYNCED, position, 0, folder, NULL);
    for (struct gone **at = &gone; *at;) {
        struct gone *it = *at;
        if (it->number < position && strcmp(it->folder, folder) == 0) {
            char link[2 * PATH_MAX];
            snprintf(link, sizeof link, "%s/gone-%jd", shadow, (intmax_t)it->number);
            real.unlinkat(AT_FDCWD, link, 0);
            *at = it->next;
            free(it);
        } else {
            at = &it->next;
        }
    }
    pthread_mutex_unlock(&lock);
}

/* Syncs a file or a folder. Later writes don't count as synced. */
static int sync_file(int descriptor, int (*sync)(int))
{
    struct file *file = file_of(descriptor);
    if (!file)
        return sync(descriptor);
    pthread_mutex_lock(file->folder ? &lock : &file->lock);
    off_t position = file->folder ? names_recorded : file->recorded;
    long dropped = file->dropped;
    pthread_mutex_unlock(file->folder ? &lock : &file->lock);
    atomic_fetch_add(&control->begun, 1);
    wait_ms(atomic_load(&control->sync_ms));
    if (is_failing()) {
        atomic_fetch_add(&control->failed, 1);
        errno = EIO;
        return -1;
    }
    int done = sync(descriptor);
    if (done == 0) {
        if (file->folder)
            folder_is_synced(file->folder, position);
        else
            file_is_synced(file, position, dropped);
        atomic_fetch_add(&control->synced, 1);
    }
    return done;
}

/* ---- names */

static int open_path(int folder, const char *path, int flags, mode_t mode)
{
    char whole[PATH_MAX];
    if (!is_watched(whole, folder, path))
        return real.openat(folder, path, flags, mode);
    pthread_mutex_lock(&lock);
    bool creates = (flags & O_CREAT) && !is_there(folder, path);
    int opened = -1;
    if (!creates || admit_name() == 0) {
        if (creates)
            record_name(CREATED, 0, 0, whole, NULL);
        opened = real.openat(folder, path, flags & ~O_TRUNC, mode);
        if (opened >= 0)
            track(opened, whole, creates);
    }
    int cause = errno;
    pthread_mutex_unlock(&lock);
    errno = cause;
    if (opened >= 0 && (flags & O_TRUNC) && resize(opened, 0) != 0)
        give_up("a file can't be emptied");
    return opened;
}

/* Keeps a file that is about to lose its name by a link, and returns its size. The caller has the lock. */
static int64_t keep(int folder, const char *path, const char *whole)
{
    struct stat found;
    if (fstatat(folder, path, &found, AT_SYMLINK_NOFOLLOW) != 0 || !S_ISREG(found.st_mode))
        return 0;
    char link[2 * PATH_MAX];
    snprintf(link, sizeof link, "%s/gone-%jd", shadow, (intmax_t)names_recorded);
    /* (a program that was killed here before may have left one) */
    real.unlinkat(AT_FDCWD, link, 0);
    if (linkat(folder, path, AT_FDCWD, link, 0) != 0)
        give_up("a file can't be kept: the shadow must be on the same file system");
    const char *end = strrchr(whole, '/');
    size_t length = (size_t)(end - whole);
    struct gone *kept = calloc(1, sizeof *kept + length + 1);
    if (!kept)
        give_up("no memory");
    memcpy(kept->folder, whole, length);
    kept->number = names_recorded;
    kept->next = gone;
    gone = kept;
    return found.st_nlink == 1 ? found.st_size : 0;
}

static int remove_path(int folder, const char *path, int flags)
{
    char whole[PATH_MAX];
    if (!is_watched(whole, folder, path))
        return real.unlinkat(folder, path, flags);
    pthread_mutex_lock(&lock);
    int64_t size = 0;
    if (is_there(folder, path)) {
        size = keep(folder, path, whole);
        record_name(flags & AT_REMOVEDIR ? REMOVED_FOLDER : REMOVED, names_recorded, 0, whole, NULL);
    }
    int done = real.unlinkat(folder, path, flags);
    if (done == 0)
        give_room(size);
    int cause = errno;
    pthread_mutex_unlock(&lock);
    errno = cause;
    return done;
}

static int rename_path(int from_folder, const char *from, int to_folder, const char *to)
{
    char old[PATH_MAX], new[PATH_MAX];
    struct stat found;
    bool is_from = is_watched(old, from_folder, from), is_to = is_watched(new, to_folder, to);
    if (is_from != is_to) {
        errno = EXDEV;
        return -1;
    }
    if (!is_from)
        return real.renameat(from_folder, from, to_folder, to);
    pthread_mutex_lock(&lock);
    int64_t size = 0;
    if (fstatat(from_folder, from, &found, AT_SYMLINK_NOFOLLOW) == 0) {
        size = keep(to_folder, to, new);
        record_name(RENAMED, names_recorded, (int64_t)found.st_ino, old, new);
    }
    int done = real.renameat(from_folder, from, to_folder, to);
    if (done == 0)
        give_room(size);
    int cause = errno;
    pthread_mutex_unlock(&lock);
    errno = cause;
    return done;
}

static int make_path(int folder, const char *path, mode_t mode)
{
    char whole[PATH_MAX];
    if (!is_watched(whole, folder, path) || is_there(folder, path))
        return real.mkdirat(folder, path, mode);
    pthread_mutex_lock(&lock);
    int done = admit_name();
    if (done == 0) {
        record_name(MADE, 0, 0, whole, NULL);
        done = real.mkdirat(folder, path, mode);
    }
    int cause = errno;
    pthread_mutex_unlock(&lock);
    errno = cause;
    return done;
}

/* ---- the start */

/* Watches nothing in a child until it executes another program: the child has copies of locks that may be taken. */
static void in_child(void)
{
    control = NULL;
}

__attribute__((constructor)) static void begin(void)
{
    const char *folder = getenv("DISK_FAULTS_FOLDER"), *beside = getenv("DISK_FAULTS_SHADOW");
    char path[2 * PATH_MAX];
    find_all();
    if (!folder || !beside || !make_absolute(watched, AT_FDCWD, folder) || !make_absolute(shadow, AT_FDCWD, beside))
        return;
    snprintf(path, sizeof path, "%s/control", shadow);
    int opened = real.openat(AT_FDCWD, path, O_RDWR | O_CLOEXEC);
    void *mapped = opened < 0 ? MAP_FAILED : mmap(NULL, sizeof *control, PROT_READ | PROT_WRITE, MAP_SHARED, opened, 0);
    if (mapped == MAP_FAILED)
        give_up("the shadow has no control file");
    real.close(opened);
    names_recorded = open_records("names", &names);
    pthread_atfork(NULL, NULL, in_child);
    control = mapped;
}

/* ---- the calls of the C library that a program makes */

static mode_t mode_of(int flags, va_list more)
{
    return flags & (O_CREAT | O_TMPFILE) ? va_arg(more, mode_t) : 0;
}

#define OPENS(name)                                                                                                    \
    int name(const char *path, int flags, ...)                                                                         \
    {                                                                                                                  \
        va_list more;                                                                                                  \
        va_start(more, flags);                                                                                         \
        mode_t mode = mode_of(flags, more);                                                                            \
        va_end(more);                                                                                                  \
        return open_path(AT_FDCWD, path, flags, mode);                                                                 \
    }

#define OPENS_AT(name)                                                                                                 \
    int name(int folder, const char *path, int flags, ...)                                                             \
    {                                                                                                                  \
        va_list more;                                                                                                  \
        va_start(more, flags);                                                                                         \
        mode_t mode = mode_of(flags, more);                                                                            \
        va_end(more);                                                                                                  \
        return open_path(folder, path, flags, mode);                                                                   \
    }

OPENS(open)
OPENS(open64)
OPENS_AT(openat)
OPENS_AT(openat64)

/* (the functions that a call without a mode compiles to, if the C library's checks are on) */
int __open_2(const char *path, int flags);
int __open64_2(const char *path, int flags);

int __open_2(const char *path, int flags)
{
    return open_path(AT_FDCWD, path, flags, 0);
}

int __open64_2(const char *path, int flags)
{
    return open_path(AT_FDCWD, path, flags, 0);
}

int creat(const char *path, mode_t mode)
{
    return open_path(AT_FDCWD, path, O_CREAT | O_WRONLY | O_TRUNC, mode);
}

int creat64(const char *path, mode_t mode)
{
    return open_path(AT_FDCWD, path, O_CREAT | O_WRONLY | O_TRUNC, mode);
}

int close(int descriptor)
{
    struct file *file = file_of(descriptor);
    if (file) {
        atomic_store(&open_files[descriptor], NULL);
        untrack(file);
    }
    return real.close(descriptor);
}

ssize_t write(int descriptor, const void *bytes, size_t count)
{
    struct iovec part = {(void *)bytes, count};
    return change(descriptor, &part, 1, -1);
}

ssize_t writev(int descriptor, const struct iovec *parts, int count)
{
    return change(descriptor, parts, count, -1);
}

ssize_t pwrite(int descriptor, const void *bytes, size_t count, off_t at)
{
    struct iovec part = {(void *)bytes, count};
    return change_at(descriptor, &part, 1, at);
}

ssize_t pwrite64(int descriptor, const void *bytes, size_t count, off64_t at)
{
    struct iovec part = {(void *)bytes, count};
    return change_at(descriptor, &part, 1, at);
}

ssize_t pwritev(int descriptor, const struct iovec *parts, int count, off_t at)
{
    return change_at(descriptor, parts, count, at);
}

ssize_t pwritev64(int descriptor, const struct iovec *parts, int count, off64_t at)
{
    return change_at(descriptor, parts, count, at);
}

int ftruncate(int descriptor, off_t size)
{
    return resize(descriptor, size);
}

int ftruncate64(int descriptor, off64_t size)
{
    return resize(descriptor, size);
}

int fsync(int descriptor)
{
    find_all();
    return sync_file(descriptor, real.fsync);
}

int fdatasync(int descriptor)
{
    find_all();
    return sync_file(descriptor, real.fdatasync);
}

int rename(const char *from, const char *to)
{
    return rename_path(AT_FDCWD, from, AT_FDCWD, to);
}

int renameat(int from_folder, const char *from, int to_folder, const char *to)
{
    return rename_path(from_folder, from, to_folder, to);
}

int unlink(const char *path)
{
    return remove_path(AT_FDCWD, path, 0);
}

int unlinkat(int folder, const char *path, int flags)
{
    return remove_path(folder, path, flags);
}

int rmdir(const char *path)
{
    return remove_path(AT_FDCWD, path, AT_REMOVEDIR);
}

int mkdir(const char *path, mode_t mode)
{
    return make_path(AT_FDCWD, path, mode);
}

int mkdirat(int folder, const char *path, mode_t mode)
{
    return make_path(folder, path, mode);
}
