/* A replica that threads share behind a reader-writer lock, and the end of a program whose call returned another number
 * than the one wanted. */
#ifndef SHARED_H
#define SHARED_H

#define _GNU_SOURCE
#include "antientropy.h"

#include <pthread.h>
#include <stdio.h>
#include <stdlib.h>

/* The replica of node 1, which all threads use. Its lock lets a waiting writer go first: with the default lock of
 * glibc, readers that follow one another without pause keep the writers out. */
static struct antientropy_replica shared;
static pthread_rwlock_t lock = PTHREAD_RWLOCK_WRITER_NONRECURSIVE_INITIALIZER_NP;

/* Ends the program unless a call returned the number that is wanted. */
static void want(const char *call, uint32_t got, uint32_t wanted)
{
    if (got != wanted) {
        printf("%s returned %s, not %s\n", call, antientropy_strerror(got), antientropy_strerror(wanted));
        exit(1);
    }
}

/* Takes the lock for calls that take the replica as const. */
static void lock_to_read(void)
{
    pthread_rwlock_rdlock(&lock);
}

/* Takes the lock for any calls. */
static void lock_to_write(void)
{
    pthread_rwlock_wrlock(&lock);
}

static void unlock(void)
{
    pthread_rwlock_unlock(&lock);
}

#endif
