/* A checkpoint: the rows of a range at one moment, as docs/FORMATS.md defines the file. */
#ifndef CHECKPOINT_H
#define CHECKPOINT_H

#include "antientropy.h"
#include "disk.h"

/* The numbers of a range, which the program knows from its configuration. */
struct range {
    uint8_t format, bits;
    uint16_t number;
};

/* Places in the head of a checkpoint. */
enum { CHECKPOINT_FORMAT_AT = 8, CHECKPOINT_ROOT_AT = 12 };

/* Makes a snapshot of a replica's current rows: holds a moment, and hashes it in portions. Puts may be made between the
 * portions. */
void snapshot_of(struct antientropy_replica *replica, struct antientropy_snapshot *snapshot);

/* Makes the checkpoint of a snapshot. */
struct bytes make_checkpoint(struct antientropy_snapshot *snapshot, struct range range);

/* Loads the rows of a checkpoint of a format into a replica of that format or of format 2. Returns a description of the
 * file's fault, or NULL. Doesn't compare the root. */
const char *load_leaves(struct antientropy_replica *replica, uint64_t format, const struct bytes *file);

/* Loads a checkpoint into an empty handle. Returns a description of the file's fault, or NULL, in which case the handle
 * holds the replica. A file of format 1 can be loaded into a range of format 2. The root reveals damage, but not a
 * forged file. */
const char *load_checkpoint(struct antientropy_replica *replica, struct range range, uint64_t limit,
                            const struct bytes *file);

#endif
