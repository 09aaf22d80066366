/* Threads of Java, each of which is one of the host; the one lock; and safepoints.
 *
 * A thread is running or safe. What runs looks at vm.stop at calls, at branches back and as it allocates, and stands still where it is set.
 * A thread that waits for something is safe: it touches no object meanwhile, and doesn't run on while the world is stopped. */
#include "threads.h"
#include <errno.h>
#include <sys/mman.h>
#include <time.h>
#include <unistd.h>

_Thread_local Thread *self;
pthread_mutex_t waiting = PTHREAD_MUTEX_INITIALIZER;
static pthread_mutex_t the_lock = PTHREAD_MUTEX_INITIALIZER, standing_lock = PTHREAD_MUTEX_INITIALIZER;
static pthread_cond_t lock_changed = PTHREAD_COND_INITIALIZER; /* with the_lock */
static pthread_cond_t all_stand = PTHREAD_COND_INITIALIZER, go_on = PTHREAD_COND_INITIALIZER, one_ended = PTHREAD_COND_INITIALIZER;
static Standing *first; /* all threads; this and the next are guarded by standing_lock */
static uint32_t running, next_id = 1;
static Field *eetop, *interrupted, *status; /* of java.lang.Thread */

enum { MOST_FRAMES = 12000, SPARE_FRAMES = 2000, SLOTS = 1200000, SPARE_SLOTS = 200000, C_STACK = 64 << 20 };
enum { STATUS_RUNNABLE = 5, STATUS_TERMINATED = 2 }; /* of jdk.internal.misc.VM.toThreadState */

/* ---- the lock */

void lock(void) {
    if (self->locked++ > 0 || !pthread_mutex_trylock(&the_lock)) return;
    enter_safe();
    pthread_mutex_lock(&the_lock);
    leave_safe();
}

void unlock(void) {
    if (--self->locked == 0) pthread_mutex_unlock(&the_lock);
}

void lock_wait(void) {
    self->locked = 0;
    enter_safe();
    pthread_cond_wait(&lock_changed, &the_lock);
    leave_safe(); /* at once: who stops the world holds the lock */
    self->locked = 1;
}

void lock_notify(void) { pthread_cond_broadcast(&lock_changed); }

/* ---- safepoints */

__attribute__((noinline)) void enter_safe(void) {
    Standing *at = self->standing;
    getcontext(&at->registers);
    at->stack_low = __builtin_frame_address(0);
    pthread_mutex_lock(&standing_lock);
    running--;
    if (vm.stop) pthread_cond_signal(&all_stand);
    pthread_mutex_unlock(&standing_lock);
}

void leave_safe(void) {
    pthread_mutex_lock(&standing_lock);
    while (vm.stop) pthread_cond_wait(&go_on, &standing_lock);
    running++;
    pthread_mutex_unlock(&standing_lock);
}

void safepoint(void) {
    if (self->locked) return; /* who stops the world waits for the lock first */
    enter_safe();
    leave_safe();
}

void stop_the_world(void) {
    lock();
    pthread_mutex_lock(&standing_lock);
    SET_RELAXED(vm.stop, true);
    while (running > 1) pthread_cond_wait(&all_stand, &standing_lock);
    pthread_mutex_unlock(&standing_lock);
}

void start_the_world(void) {
    pthread_mutex_lock(&standing_lock);
    SET_RELAXED(vm.stop, false);
    pthread_cond_broadcast(&go_on);
    pthread_mutex_unlock(&standing_lock);
    unlock();
}

Thread *each_thread(Thread *after) {
    Standing *at = after ? after->standing->next : first;
    return at ? at->thread : NULL;
}

/* Of the stopped world. The slots of Java frames and the C stacks are gone through conservatively. */
__attribute__((noinline)) void mark_threads(void) {
    for (Standing *at = first; at; at = at->next) {
        Thread *one = at->thread;
        mark(one->object);
        mark(one->exception);
        mark_frames(one->frames, one->depth);
        mark_words(one->stack, one->top);
        if (one == self) {
            __builtin_unwind_init(); /* registers that callers keep are in this frame now */
            mark_words(__builtin_frame_address(0), at->stack_base);
        } else if (at->stack_base) {
            mark_words(at->stack_low, at->stack_base);
            mark_words(&at->registers, &at->registers + 1);
        }
    }
}

/* ---- starts and ends */

static void *map(size_t size) {
    void *at = mmap(NULL, size, PROT_READ | PROT_WRITE, MAP_PRIVATE | MAP_ANONYMOUS | MAP_NORESERVE, -1, 0);
    if (at != MAP_FAILED) return at;
    fprintf(stderr, "vm: no memory for a thread\n");
    exit(3);
}

static Thread *new_thread(Object *object) {
    Thread *made = calloc(1, sizeof *made);
    Standing *standing = calloc(1, sizeof *standing);
    pthread_condattr_t attributes;
    pthread_condattr_init(&attributes);
    pthread_condattr_setclock(&attributes, CLOCK_MONOTONIC);
    pthread_cond_init(&standing->wake, &attributes);
    *standing = (Standing){.thread = made, .wake = standing->wake};
    *made = (Thread){.object = object, .standing = standing, .max_depth = MOST_FRAMES};
    made->frames = map((MOST_FRAMES + SPARE_FRAMES) * sizeof(Frame));
    made->stack = made->top = map(SLOTS * sizeof(Slot));
    made->stack_end = made->stack + SLOTS - SPARE_SLOTS;
    pthread_mutex_lock(&standing_lock);
    made->id = next_id++;
    made->random = made->id * 2654435761u | 1;
    standing->next = first;
    first = standing;
    pthread_mutex_unlock(&standing_lock);
    return made;
}

static void thread_gone(void) {
    Thread *one = self;
    lock();
    add_counts(&vm.counts.threads, &one->counts);
    link_reader_gone(one->reader);
    unlock();
    pthread_mutex_lock(&standing_lock);
    for (Standing **at = &first; *at; at = &(*at)->next)
        if (*at == one->standing) {
            *at = one->standing->next;
            break;
        }
    running--;
    if (vm.stop) pthread_cond_signal(&all_stand);
    pthread_cond_signal(&one_ended);
    pthread_mutex_unlock(&standing_lock);
    munmap(one->frames, (MOST_FRAMES + SPARE_FRAMES) * sizeof(Frame));
    munmap(one->stack, SLOTS * sizeof(Slot));
    for (size_t i = 0; i < sizeof one->texts / sizeof *one->texts; i++) free(one->texts[i]);
    pthread_cond_destroy(&one->standing->wake);
    free(one->standing);
    free(one);
}

/* The thread that starts the machine, whose C stack begins there. */
void threads_open(void *stack_base) {
    self = new_thread(NULL);
    self->standing->stack_base = stack_base;
    running = 1;
}

static void *run_thread(void *started) {
    self = started;
    Object *object = self->object;
    Slot args[2];
    leave_safe();
    self->standing->stack_base = __builtin_frame_address(0); /* no collection looks at it before the next safepoint */
    args[0] = of_ref(object);
    Method *runs = link_select(must_declare(boot_class("java/lang/Thread"), "run", "()V"), object);
    if (runs) invoke(runs, args, 1);
    if (self->exception) {
        args[0] = of_ref(object);
        args[1] = of_ref(self->exception);
        self->exception = NULL;
        invoke(must_declare(object->cls, "dispatchUncaughtException", NULL), args, 2);
        self->exception = NULL;
    }
    args[0] = of_ref(object);
    invoke(must_declare(boot_class("java/lang/Thread"), "exit", NULL), args, 1);
    self->exception = NULL;
    pthread_mutex_lock(&waiting);
    RELEASE(AT(object, eetop->offset, int64_t), 0); /* nobody unparks it after this */
    pthread_mutex_unlock(&waiting);
    monitor_enter(object); /* who joins it waits there */
    SET_RELAXED(AT(object, status->offset, int32_t), STATUS_TERMINATED);
    monitor_notify(object, true);
    monitor_exit(object);
    thread_gone();
    return NULL;
}

/* Once java.lang.Thread is there: the first thread has this object. */
void threads_boot(Object *object) {
    Class *cls = object->cls;
    self->object = object;
    interrupted = find_field(cls, intern("interrupted"), NULL);
    status = find_field(cls, intern("threadStatus"), NULL);
    eetop = find_field(cls, intern("eetop"), NULL);
    AT(object, eetop->offset, int64_t) = (int64_t)(intptr_t)self;
    AT(object, status->offset, int32_t) = STATUS_RUNNABLE;
}

void thread_start(Object *object) {
    pthread_t host;
    pthread_attr_t attributes;
    lock();
    Thread *made = new_thread(object);
    made->reader = link_new_reader();
    unlock();
    RELEASE(AT(object, eetop->offset, int64_t), (int64_t)(intptr_t)made);
    SET_RELAXED(AT(object, status->offset, int32_t), STATUS_RUNNABLE);
    made->standing->daemon = get_field(object, "daemon", NULL).i;
    pthread_attr_init(&attributes);
    pthread_attr_setstacksize(&attributes, C_STACK);
    pthread_attr_setdetachstate(&attributes, PTHREAD_CREATE_DETACHED);
    if (pthread_create(&host, &attributes, run_thread, made)) {
        fprintf(stderr, "vm: no thread can be started\n");
        end_process(3);
    }
    pthread_attr_destroy(&attributes);
}

/* The first thread is at its end: until all that are no daemons are, too. */
void threads_finish(void) {
    enter_safe();
    pthread_mutex_lock(&standing_lock);
    for (;;) {
        bool more = false;
        for (Standing *at = first; at; at = at->next) more |= at->thread != self && !at->daemon;
        if (!more) break;
        pthread_cond_wait(&one_ended, &standing_lock);
    }
    pthread_mutex_unlock(&standing_lock);
    leave_safe();
}

/* Other threads are left where they are. */
void end_process(int status) {
    if (vm.stats) {
        stop_the_world();
        for (Thread *one = each_thread(NULL); one; one = each_thread(one)) add_counts(&vm.counts.threads, &one->counts);
        print_stats(stderr);
    }
    fflush(stdout);
    fflush(stderr);
    _exit(status);
}

/* ---- what java.lang.Thread and Unsafe ask for */

uint64_t deadline_after(int64_t milliseconds) {
    return milliseconds > 0 ? now_ns() + (uint64_t)milliseconds * 1000000 : 0;
}

bool wait_for_wake(uint64_t deadline) {
    struct timespec time = {(time_t)(deadline / 1000000000), (long)(deadline % 1000000000)};
    if (!deadline) return pthread_cond_wait(&self->standing->wake, &waiting), true;
    return pthread_cond_timedwait(&self->standing->wake, &waiting, &time) != ETIMEDOUT;
}

bool is_interrupted(void) { return RELAXED(AT(self->object, interrupted->offset, int8_t)); }

bool take_interrupt(void) {
    if (!is_interrupted()) return false;
    SET_RELAXED(AT(self->object, interrupted->offset, int8_t), 0);
    throw_new("java/lang/InterruptedException", NULL);
    return true;
}

void thread_sleep(int64_t milliseconds) {
    if (take_interrupt()) return;
    uint64_t deadline = deadline_after(milliseconds);
    enter_safe();
    pthread_mutex_lock(&waiting);
    while (deadline && !is_interrupted() && wait_for_wake(deadline)) {}
    pthread_mutex_unlock(&waiting);
    leave_safe();
    take_interrupt();
}

/* Until the permit is there, an interrupt, the time, or nothing: who parks looks again. */
void thread_park(bool absolute, int64_t time) {
    struct timespec now;
    clock_gettime(CLOCK_REALTIME, &now);
    if (absolute) time = (time - (now.tv_sec * 1000 + now.tv_nsec / 1000000)) * 1000000;
    bool for_ever = !absolute && time == 0;
    enter_safe();
    pthread_mutex_lock(&waiting);
    if (!self->standing->permit && !is_interrupted() && (for_ever || time > 0))
        wait_for_wake(for_ever ? 0 : now_ns() + (uint64_t)time);
    self->standing->permit = false;
    pthread_mutex_unlock(&waiting);
    leave_safe();
}

static void wake(Object *object, bool permit) {
    pthread_mutex_lock(&waiting);
    Thread *one = object ? (Thread *)(intptr_t)ACQUIRE(AT(object, eetop->offset, int64_t)) : NULL;
    if (one) {
        if (permit) one->standing->permit = true;
        pthread_cond_signal(&one->standing->wake);
    }
    pthread_mutex_unlock(&waiting);
}

void thread_unpark(Object *object) { wake(object, true); }
void thread_interrupt(Object *object) { wake(object, false); }
