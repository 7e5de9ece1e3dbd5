/* The gate of a handle: a lock for which no scheduler waits. */
#ifndef GATE_H
#define GATE_H

#include <erl_nif.h>
#include <stdbool.h>
#include <stdint.h>

#include "worker.h"

struct waiter;

/* A gate lets one change in, or any number of reads. A process that finds it taken waits in a line, in a `receive`. A
 * call that leaves gives the gate to the first process of the line, and sends it a message. */
struct gate {
    _Atomic(uint64_t) state; /* a change, a number of reads, and if processes wait: see gate.c */
    ErlNifMutex *lock;       /* guards the fields below, for some microseconds at most */
    struct waiter *first;    /* the line */
    struct waiter **last;    /* link after the last waiter of the line */
    struct waiter *called;   /* processes that have the gate, and haven't begun their call */
    struct job wake;         /* calls the next waiters, in the worker */
    bool is_posted;          /* the worker has the job */
    void *object;            /* the resource of which the gate is a part */
};

/* Makes a gate in a resource of zero bytes. Returns false without memory. */
bool make_gate(struct gate *gate, void *object);

/* Frees a gate, and waiters that have died. */
void drop_gate(struct gate *gate);

/* Returns true if a call must not take long here. */
bool on_normal_scheduler(void);

/* A use of a gate. */
struct use {
    bool reads;   /* other reads may be in at the same time */
    bool is_long; /* the call is to be made on a dirty scheduler */
};

/* Outcomes of an attempt to enter a gate. */
enum entry { ENTERED, TAKEN, GO_ELSEWHERE };

/* Takes the gate if no process waits, or if the calling process was called. Returns GO_ELSEWHERE, and leaves the gate
 * to the calling process, if it was called for a long use and is on a normal scheduler. */
enum entry enter(ErlNifEnv *env, struct gate *gate, bool reads);

/* Gives the gate back, and calls the next waiters. */
void leave(ErlNifEnv *env, struct gate *gate, bool reads);

/* Puts the calling process into the line. The message `turn` calls it. Returns false without memory. */
bool stand_in_line(ErlNifEnv *env, struct gate *gate, struct use use, ERL_NIF_TERM turn);

/* Gives back the gate that a process had when it died before its call: the callback of its monitor. */
void give_back(ErlNifEnv *env, struct gate *gate, const ErlNifMonitor *monitor);

#endif
