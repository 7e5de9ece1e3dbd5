/* Bytes that grow, numbers in bytes, files that are written in one step, and the records of a log. */
#define _POSIX_C_SOURCE 200809L
#include "disk.h"

#include <dirent.h>
#include <errno.h>
#include <fcntl.h>
#include <stdio.h>
#include <stdlib.h>
#include <string.h>
#include <unistd.h>

/* The file of a synced place: the place and a checksum. */
enum { PATH_ROOM = 4096, SYNCED_LEN = 16 };

void want(const char *call, uint32_t got, uint32_t wanted)
{
    if (got != wanted) {
        printf("%s returned %u, not %u\n", call, got, wanted);
        exit(1);
    }
}

void fail(const char *what)
{
    perror(what);
    exit(1);
}

uint8_t *more(struct bytes *bytes, size_t len)
{
    if (bytes->room - bytes->len < len) {
        size_t room = bytes->len + len + bytes->room / 2 + 4096;
        uint8_t *at = realloc(bytes->at, room);
        if (at == NULL)
            fail("realloc");
        bytes->at = at;
        bytes->room = room;
    }
    return bytes->at + bytes->len;
}

void write_number(uint8_t *at, uint64_t number, int len)
{
    for (int n = 0; n < len; n++)
        at[n] = (uint8_t)(number >> (8 * (len - 1 - n)));
}

void add_number(struct bytes *bytes, uint64_t number, int len)
{
    write_number(more(bytes, (size_t)len), number, len);
    bytes->len += (size_t)len;
}

uint64_t number_at(const uint8_t *at, int len)
{
    uint64_t number = 0;
    for (int n = 0; n < len; n++)
        number = number << 8 | at[n];
    return number;
}

uint64_t checksum(const uint8_t *bytes, size_t len)
{
    uint64_t sum = 0xcbf29ce484222325;
    for (size_t n = 0; n < len; n++)
        sum = (sum ^ bytes[n]) * 0x100000001b3;
    return sum;
}

/* Writes the path of a file of a folder. */
static void path_of(char *path, const char *folder, const char *name, const char *end)
{
    int len = snprintf(path, PATH_ROOM, "%s/%s%s", folder, name, end);
    if (len < 0 || len >= PATH_ROOM) {
        printf("the path of %s is too long\n", name);
        exit(1);
    }
}

int open_file(const char *folder, const char *name, int flags)
{
    char path[PATH_ROOM];
    path_of(path, folder, name, "");
    int file = open(path, flags, 0600);
    if (file < 0 && errno != ENOENT)
        fail(path);
    return file;
}

bool read_file(const char *folder, const char *name, struct bytes *file)
{
    ssize_t got;
    int from = open_file(folder, name, O_RDONLY);
    if (from < 0)
        return false;
    file->len = 0;
    do {
        uint8_t *at = more(file, 4096);
        got = read(from, at, file->room - file->len);
        if (got < 0)
            fail(name);
        file->len += (size_t)got;
    } while (got > 0);
    close(from);
    return true;
}

void remove_file(const char *folder, const char *name)
{
    char path[PATH_ROOM];
    path_of(path, folder, name, "");
    if (unlink(path) != 0 && errno != ENOENT)
        fail(path);
}

struct name name_of(const char *kind, uint64_t number)
{
    struct name name;
    snprintf(name.text, sizeof name.text, "%s.%llu", kind, (unsigned long long)number);
    return name;
}

/* Returns the number of a file of a kind, or 0 if the name isn't one. `end` points after the number. */
static uint64_t number_of(const char *name, const char *kind, char **end)
{
    size_t len = strlen(kind);
    if (strncmp(name, kind, len) != 0 || name[len] != '.')
        return 0;
    return strtoull(name + len + 1, end, 10);
}

uint64_t last_file(const char *folder, const char *kind)
{
    DIR *names = opendir(folder);
    uint64_t last = 0;
    char *end;
    if (names == NULL)
        fail(folder);
    for (struct dirent *entry; (entry = readdir(names)) != NULL;) {
        uint64_t number = number_of(entry->d_name, kind, &end);
        if (number > last && *end == '\0')
            last = number;
    }
    closedir(names);
    return last;
}

void remove_before(const char *folder, const char *kind, uint64_t number)
{
    DIR *names = opendir(folder);
    char *end;
    if (names == NULL)
        fail(folder);
    for (struct dirent *entry; (entry = readdir(names)) != NULL;) {
        uint64_t other = number_of(entry->d_name, kind, &end);
        if (other > 0 && other < number)
            remove_file(folder, entry->d_name);
    }
    closedir(names);
}

void sync_file(int file)
{
    if (fsync(file) != 0)
        fail("fsync");
}

void sync_folder(const char *folder)
{
    int dir = open(folder, O_RDONLY);
    if (dir < 0)
        fail(folder);
    sync_file(dir);
    close(dir);
}

void write_file(const char *folder, const char *name, const struct bytes *file)
{
    char path[PATH_ROOM], new[PATH_ROOM];
    path_of(path, folder, name, "");
    path_of(new, folder, name, ".new");
    int to = open(new, O_WRONLY | O_CREAT | O_TRUNC, 0600);
    if (to < 0)
        fail(new);
    for (size_t done = 0; done < file->len;) {
        ssize_t wrote = write(to, file->at + done, file->len - done);
        if (wrote < 0)
            fail(new);
        done += (size_t)wrote;
    }
    sync_file(to);
    if (close(to) != 0 || rename(new, path) != 0)
        fail(path);
    sync_folder(folder);
}

size_t begin_record(struct bytes *bytes, uint64_t place, uint8_t kind)
{
    size_t begin = bytes->len;
    add_number(bytes, place, 8);
    add_number(bytes, kind, 1);
    add_number(bytes, 0, 4);
    return begin;
}

void end_record(struct bytes *bytes, size_t begin)
{
    write_number(bytes->at + begin + RECORD_LEN_AT, bytes->len - begin - RECORD_BYTES_AT, 4);
    add_number(bytes, checksum(bytes->at + begin, bytes->len - begin), SUM_LEN);
}

size_t record_len(const uint8_t *at, size_t left)
{
    if (left < RECORD_BYTES_AT + SUM_LEN)
        return 0;
    size_t len = RECORD_BYTES_AT + number_at(at + RECORD_LEN_AT, 4);
    if (left - SUM_LEN < len || checksum(at, len) != number_at(at + len, SUM_LEN))
        return 0;
    return len + SUM_LEN;
}

bool has_later(const uint8_t *at, size_t left, uint64_t place)
{
    for (; left > 0; at++, left--)
        if (record_len(at, left) > 0 && number_at(at, 8) > place)
            return true;
    return false;
}

void append_record(int log, const struct bytes *record)
{
    if (write(log, record->at, record->len) != (ssize_t)record->len)
        fail("write");
    sync_file(log);
}

void note_synced(int file, uint64_t place)
{
    uint8_t at[SYNCED_LEN];
    write_number(at, place, 8);
    write_number(at + 8, checksum(at, 8), SUM_LEN);
    if (pwrite(file, at, sizeof at, 0) != sizeof at)
        fail("the synced place");
}

bool read_synced(int file, uint64_t *place)
{
    uint8_t at[SYNCED_LEN + 1];
    if (pread(file, at, sizeof at, 0) != SYNCED_LEN || checksum(at, 8) != number_at(at + 8, SUM_LEN))
        return false;
    *place = number_at(at, 8);
    return true;
}
