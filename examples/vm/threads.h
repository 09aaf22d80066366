/* What threads.c and monitors.c share: where a thread stands, for the others. */
#ifndef THREADS_H
#define THREADS_H

#include "vm.h"
#include <pthread.h>
#include <ucontext.h>

typedef struct Standing Standing;
struct Standing {
    Thread *thread;
    Standing *next;        /* of all threads */
    pthread_cond_t wake;   /* with `waiting`: it waits, sleeps or parks */
    ucontext_t registers;  /* as it became safe */
    void *stack_low, *stack_base; /* its C stack, as it became safe */
    bool permit;           /* of park */
    bool daemon;
};

/* Guards monitors, permits and what waits. It is held for moments, or while a safe thread waits. */
extern pthread_mutex_t waiting;

/* With `waiting` held, of a safe thread: until `wake`, or the deadline by now_ns, which is 0 where there is none; false where that has come. */
bool wait_for_wake(uint64_t deadline);
bool is_interrupted(void);   /* the current thread */
bool take_interrupt(void);   /* true with an InterruptedException */
uint64_t deadline_after(int64_t milliseconds); /* 0 after 0 */

#endif
