/* A replica with a log on disk. After a crash it returns from the log under its own node number.
 *
 * A folder has these files:
 *
 *     manifest        its owner, and the files that must exist: the first and last log file, the checkpoint's root
 *     checkpoint.N    the rows at the moment at which the log file N began, unless N is 1
 *     log.N           the groups of rows that were logged afterwards
 *     synced          a place up to which the log is synced; locked by the process that has the store
 *
 * A record of a log file contains the rows of a group, the keys of all entries since the record before it. It consists
 * of its place in the log, which counts all records that were ever logged, the format of the rows, the number of their
 * bytes, the rows in ascending order of key, and a checksum of all this. After each record the file is synced.
 *
 * A crash leaves at most one incomplete record, at the end of the last file: a torn tail, which wasn't acknowledged.
 * Any other difference from the manifest and the places is damage, after which counters may have gone back: the node
 * returns under a number that was never used (docs/EMBEDDING_C.md, "Restarts"). After a crash of the machine, `synced`
 * may be behind. In this case damage at the end of the last file looks like a torn tail, and only a sync from a partner
 * reveals it. */
#ifndef LOG_STORE_H
#define LOG_STORE_H

#include "checkpoint.h"

/* The required state at a start. */
struct manifest {
    uint64_t format;      /* format of the replica */
    uint64_t first, last; /* log files */
    uint64_t first_place; /* place of the first record of the first file: the checkpoint has the earlier records */
    uint64_t given_up;    /* 1 if a start has found damage: the node number isn't used again */
    uint8_t root[ANTIENTROPY_ROOT_LEN]; /* root of the checkpoint, if `first` isn't 1 */
};

/* A store. The program sets the fields up to `limit`, and doesn't touch the others. */
struct store {
    const char *folder;
    uint64_t node;
    uint8_t bits;    /* of the ring */
    uint16_t number; /* of the range */
    uint64_t limit;  /* of the journal */
    struct antientropy_replica replica;
    struct manifest manifest;
    uint64_t place;  /* place of the next record */
    uint64_t logged; /* number of the first entry that isn't logged */
    uint64_t torn;   /* bytes that the start cut off */
    int file;        /* the last log file */
    int synced;      /* the file of the synced place */
};

/* Makes a new store in a folder without one: the first start of a node number. Returns NULL, or a description of the
 * folder's contents, in which case the store isn't open. */
const char *store_make(struct store *store, uint64_t format);

/* Takes all versions of a partner's snapshot that a replica is missing. */
void store_sync(struct antientropy_replica *replica, struct antientropy_snapshot *partner);

/* Starts the store of a folder, before the first put: makes its replica, syncs it from the partner unless it is NULL,
 * and looks for versions of this node that are missing from the log. A host syncs from each partner that it reaches.
 * Returns NULL, or a description of the fault. After a fault the store isn't open, and if the folder is this store's,
 * its node number isn't used again. */
const char *store_start(struct store *store, struct antientropy_snapshot *partner);

/* Closes the store. */
void store_close(struct store *store);

/* Logs the new entries. Don't show, send or acknowledge them before it returns. */
void store_log(struct store *store);

/* Puts a version in place of all versions of a key, logs it, and returns the node's counter. Afterwards the put may be
 * acknowledged. */
uint64_t store_put(struct store *store, const char *key, uint8_t kind, const char *value);

/* Converts the replica to format 2. */
void store_migrate(struct store *store);

/* Begins a new log file, before a checkpoint is made. */
void store_begin_file(struct store *store);

/* Makes a checkpoint of the current rows, and a new log file. Then it removes the older files. */
void store_checkpoint(struct store *store);

#endif
