/* Gates.
 *
 * A call that finds no process in the line takes and leaves a gate by one atomic step each. While there is a line, or a
 * process that was called, each step is under the lock. */
#include "gate.h"

#include <stdatomic.h>
#include <stddef.h>

/* Bits of the state: a change has the gate; processes wait, or were called; and the number of reads, from here on. */
#define CHANGE UINT64_C(1)
#define LINE UINT64_C(2)
#define READ_ONE UINT64_C(4)

/* A process that waits. */
struct waiter {
    ErlNifPid process;
    struct use use;
    ErlNifEnv *message;
    ERL_NIF_TERM turn;
    ErlNifMonitor monitor; /* once it is called */
    struct waiter *next;
};

static uint64_t part_of(bool reads)
{
    return reads ? READ_ONE : CHANGE;
}

/* Takes a gate if no state bit in `bars` is set. */
static bool take(struct gate *gate, bool reads, uint64_t bars)
{
    uint64_t state = atomic_load(&gate->state);
    while ((state & bars) == 0)
        if (atomic_compare_exchange_weak(&gate->state, &state, state + part_of(reads)))
            return true;
    return false;
}

/* Takes a gate, whether or not there is a line. */
static bool take_before_line(struct gate *gate, bool reads)
{
    return take(gate, reads, reads ? CHANGE : ~LINE);
}

/* ---- waiters */

static void drop_waiter(struct waiter *waiter)
{
    enif_free_env(waiter->message);
    enif_free(waiter);
}

static struct waiter *make_waiter(ErlNifEnv *env, struct use use, ERL_NIF_TERM turn)
{
    struct waiter *waiter = enif_alloc(sizeof *waiter);
    if (waiter == NULL)
        return NULL;
    *waiter = (struct waiter){.use = use, .message = enif_alloc_env()};
    if (waiter->message == NULL) {
        enif_free(waiter);
        return NULL;
    }
    waiter->turn = enif_make_copy(waiter->message, turn);
    enif_self(env, &waiter->process);
    return waiter;
}

/* Returns the link to the first called waiter for which a condition holds, or to NULL. */
static struct waiter **find_called(struct gate *gate, bool (*is_it)(const struct waiter *, const void *),
                                   const void *of)
{
    struct waiter **link = &gate->called;
    while (*link != NULL && !is_it(*link, of))
        link = &(*link)->next;
    return link;
}

static bool is_of_process(const struct waiter *waiter, const void *of)
{
    const ErlNifPid *process = of;
    return enif_compare_pids(&waiter->process, process) == 0;
}

static bool is_of_monitor(const struct waiter *waiter, const void *of)
{
    const ErlNifMonitor *monitor = of;
    return enif_compare_monitors(&waiter->monitor, monitor) == 0;
}

/* ---- calls of waiters, under the lock */

/* Outcomes of a call of a waiter. */
enum called { CALLED, IS_DEAD, CALLER_IS_DEAD };

/* Sends a waiter its message, and monitors it, since it may die before it begins its call. A process that was killed in
 * its call can't send a message. The worker has no `env`. */
static enum called call_waiter(ErlNifEnv *env, struct gate *gate, struct waiter *waiter)
{
    if (enif_monitor_process(env, gate->object, &waiter->process, &waiter->monitor) != 0)
        return IS_DEAD;
    if (enif_send(env, &waiter->process, waiter->message, waiter->turn))
        return CALLED;
    enif_demonitor_process(env, gate->object, &waiter->monitor);
    return env == NULL || enif_is_current_process_alive(env) ? IS_DEAD : CALLER_IS_DEAD;
}

/* Lets the worker call the next waiters. */
static void post_wake(ErlNifEnv *env, struct gate *gate)
{
    if (gate->is_posted)
        return;
    gate->is_posted = true;
    enif_keep_resource(gate->object);
    post(env, &gate->wake);
}

/* Calls the first waiter if the gate is free for it, and the next ones that may be in at the same time. Drops dead
 * ones. */
static void call_waiters(ErlNifEnv *env, struct gate *gate)
{
    struct waiter *waiter;
    while ((waiter = gate->first) != NULL && take_before_line(gate, waiter->use.reads)) {
        enum called called = call_waiter(env, gate, waiter);
        if (called != CALLED)
            atomic_fetch_sub(&gate->state, part_of(waiter->use.reads));
        if (called == CALLER_IS_DEAD) {
            post_wake(env, gate);
            return;
        }
        gate->first = waiter->next;
        if (gate->first == NULL)
            gate->last = &gate->first;
        if (called == CALLED) {
            waiter->next = gate->called;
            gate->called = waiter;
        } else {
            drop_waiter(waiter);
        }
    }
    if (gate->first == NULL && gate->called == NULL)
        atomic_fetch_and(&gate->state, ~LINE);
}

/* Calls the next waiters in the worker. */
static void wake(struct job *job)
{
    struct gate *gate = (struct gate *)((char *)job - offsetof(struct gate, wake));
    enif_mutex_lock(gate->lock);
    gate->is_posted = false;
    call_waiters(NULL, gate);
    enif_mutex_unlock(gate->lock);
    enif_release_resource(gate->object);
}

/* ---- gates */

bool make_gate(struct gate *gate, void *object)
{
    gate->lock = enif_mutex_create("antientropy_gate");
    gate->last = &gate->first;
    gate->wake.run = wake;
    gate->object = object;
    return gate->lock != NULL;
}

static void drop_waiters(struct waiter *waiter)
{
    for (struct waiter *next; waiter != NULL; waiter = next) {
        next = waiter->next;
        drop_waiter(waiter);
    }
}

void drop_gate(struct gate *gate)
{
    drop_waiters(gate->first);
    drop_waiters(gate->called);
    if (gate->lock != NULL)
        enif_mutex_destroy(gate->lock);
}

bool on_normal_scheduler(void)
{
    return enif_thread_type() == ERL_NIF_THR_NORMAL_SCHEDULER;
}

/* Takes a gate that has a line, for a process that was called, or for a read if no process waits. */
static enum entry enter_with_line(ErlNifEnv *env, struct gate *gate, bool reads)
{
    ErlNifPid process;
    enif_self(env, &process);
    enif_mutex_lock(gate->lock);
    struct waiter **link = find_called(gate, is_of_process, &process), *called = *link;
    enum entry entry = TAKEN;
    if (called != NULL)
        entry = called->use.is_long && on_normal_scheduler() ? GO_ELSEWHERE : ENTERED;
    else if (gate->first == NULL && take_before_line(gate, reads))
        entry = ENTERED;
    if (entry == GO_ELSEWHERE)
        called = NULL;
    if (called != NULL)
        *link = called->next;
    if (gate->first == NULL && gate->called == NULL)
        atomic_fetch_and(&gate->state, ~LINE);
    enif_mutex_unlock(gate->lock);
    if (called != NULL) {
        enif_demonitor_process(env, gate->object, &called->monitor);
        drop_waiter(called);
    }
    return entry;
}

enum entry enter(ErlNifEnv *env, struct gate *gate, bool reads)
{
    if (take(gate, reads, reads ? CHANGE | LINE : ~UINT64_C(0)))
        return ENTERED;
    return (atomic_load(&gate->state) & LINE) != 0 ? enter_with_line(env, gate, reads) : TAKEN;
}

void leave(ErlNifEnv *env, struct gate *gate, bool reads)
{
    uint64_t state = atomic_load(&gate->state);
    while ((state & LINE) == 0)
        if (atomic_compare_exchange_weak(&gate->state, &state, state - part_of(reads)))
            return;
    enif_mutex_lock(gate->lock);
    atomic_fetch_sub(&gate->state, part_of(reads));
    call_waiters(env, gate);
    enif_mutex_unlock(gate->lock);
}

bool stand_in_line(ErlNifEnv *env, struct gate *gate, struct use use, ERL_NIF_TERM turn)
{
    struct waiter *waiter = make_waiter(env, use, turn);
    if (waiter == NULL)
        return false;
    enif_mutex_lock(gate->lock);
    atomic_fetch_or(&gate->state, LINE);
    *gate->last = waiter;
    gate->last = &waiter->next;
    call_waiters(env, gate);
    enif_mutex_unlock(gate->lock);
    return true;
}

void give_back(ErlNifEnv *env, struct gate *gate, const ErlNifMonitor *monitor)
{
    enif_mutex_lock(gate->lock);
    struct waiter **link = find_called(gate, is_of_monitor, monitor), *dead = *link;
    if (dead != NULL) {
        *link = dead->next;
        atomic_fetch_sub(&gate->state, part_of(dead->use.reads));
        post_wake(env, gate);
    }
    enif_mutex_unlock(gate->lock);
    if (dead != NULL)
        drop_waiter(dead);
}
