/* Helpers of the examples that write files: growing bytes, numbers in bytes, files that are written in one step, and
 * the records of a log. */
#ifndef DISK_H
#define DISK_H

#include <stdbool.h>
#include <stddef.h>
#include <stdint.h>

/* Bytes that grow. */
struct bytes {
    uint8_t *at;
    size_t len, room;
};

/* The name of a file with a number. */
struct name {
    char text[32];
};

/* The parts of a record: its place in the log, a kind, the number of its bytes, the bytes, and a checksum. */
enum { RECORD_KIND_AT = 8, RECORD_LEN_AT = 9, RECORD_BYTES_AT = 13, SUM_LEN = 8 };

/* Ends the program unless a call returned the number that is wanted. */
void want(const char *call, uint32_t got, uint32_t wanted);

/* Ends the program for a cause outside of the library, when memory may be ahead of the disk. */
_Noreturn void fail(const char *what);

/* Reserves space for more bytes, and returns their place. */
uint8_t *more(struct bytes *bytes, size_t len);

/* Writes a number as that many bytes, the highest first. */
void write_number(uint8_t *at, uint64_t number, int len);

/* Appends a number as that many bytes. */
void add_number(struct bytes *bytes, uint64_t number, int len);

/* Reads a number of that many bytes. */
uint64_t number_at(const uint8_t *at, int len);

/* Returns the checksum of bytes: FNV-1a with 64 bits. It finds each changed byte, and torn records, but not
 * forgeries. */
uint64_t checksum(const uint8_t *bytes, size_t len);

/* Opens a file of a folder, as open does, and returns its number, or -1 if it isn't there. */
int open_file(const char *folder, const char *name, int flags);

/* Reads a file of a folder, and returns false if it isn't there. */
bool read_file(const char *folder, const char *name, struct bytes *file);

/* Writes a file in one step: under another name, to the disk, then under its final name. A crash leaves the whole old
 * file or the whole new one. */
void write_file(const char *folder, const char *name, const struct bytes *file);

/* Removes a file of a folder, if it is there. */
void remove_file(const char *folder, const char *name);

/* Returns the name `kind`.`number`. */
struct name name_of(const char *kind, uint64_t number);

/* Returns the greatest number of a file of a kind in a folder, or 0 if the folder has no such file. */
uint64_t last_file(const char *folder, const char *kind);

/* Removes the files of a kind whose number is below another, even those that were never finished. */
void remove_before(const char *folder, const char *kind, uint64_t number);

/* Syncs a file to the disk. */
void sync_file(int file);

/* Syncs a folder to the disk: the names of its files. */
void sync_folder(const char *folder);

/* Begins a record at the end of some bytes. Its bytes are appended afterwards. Returns its offset. */
size_t begin_record(struct bytes *bytes, uint64_t place, uint8_t kind);

/* Ends the record at this offset, with its length and its checksum. */
void end_record(struct bytes *bytes, size_t begin);

/* Returns the number of bytes of the whole record that begins here, or 0 if there isn't one. */
size_t record_len(const uint8_t *at, size_t left);

/* Returns true if a whole record of a later place begins at some byte, so that a bad one isn't the end of the log. */
bool has_later(const uint8_t *at, size_t left, uint64_t place);

/* Writes a record at the end of a log, and syncs it. */
void append_record(int log, const struct bytes *record);

/* Notes in a file the place up to which a log is synced. This isn't synced itself: after a crash of the machine, the
 * file may contain an earlier place, but never a later one. */
void note_synced(int file, uint64_t place);

/* Reads the place up to which a log was synced, at least. Returns false if it is damaged. */
bool read_synced(int file, uint64_t *place);

#endif
