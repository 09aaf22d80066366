/* Monitors. The lock word of an object that is no array is 0 where nobody has it, or the owner's id with how many times it entered; so
 * most monitors are entered and left by one compare-and-swap each. It is INFLATED where somebody waits or has to: then a Monitor in a table
 * says the rest, as it does for arrays always. The table is guarded by `waiting`. */
#include "threads.h"

enum { INFLATED = -1, COUNT_BITS = 8, MOST_ENTERS = 255, BUCKETS = 4096 };

typedef struct Waiter Waiter;
struct Waiter {
    Standing *standing;
    bool notified;
    Waiter *next;
};

typedef struct Monitor Monitor;
struct Monitor {
    Object *object;
    uint32_t owner, count, users; /* users: threads that wait for it, to enter or to be notified */
    pthread_cond_t free;
    Waiter *waiters; /* who came first first */
    Monitor *next;
};

static Monitor *buckets[BUCKETS];

static Monitor **bucket_of(Object *object) { return &buckets[(uintptr_t)object / 16 % BUCKETS]; }

static bool swap_word(Object *object, uint32_t old, uint32_t next) {
    return __atomic_compare_exchange_n(&object->lock, &old, next, false, __ATOMIC_ACQ_REL, __ATOMIC_RELAXED);
}

static bool has_word(Object *object) { return !object->cls->element; }

/* Whether the word says that the current thread is the owner. */
static bool is_mine(uint32_t word) { return word != (uint32_t)INFLATED && word >> COUNT_BITS == self->id; }

static Monitor *find(Object *object) {
    Monitor *at = *bucket_of(object);
    while (at && at->object != object) at = at->next;
    return at;
}

/* The monitor in the table, which has the owner that the word says. */
static Monitor *inflate(Object *object) {
    Monitor *made = find(object);
    if (made) return made;
    made = calloc(1, sizeof *made);
    made->object = object;
    pthread_cond_init(&made->free, NULL);
    made->next = *bucket_of(object);
    *bucket_of(object) = made;
    while (has_word(object)) {
        uint32_t word = RELAXED(object->lock);
        made->owner = word >> COUNT_BITS;
        made->count = word & MOST_ENTERS;
        if (swap_word(object, word, (uint32_t)INFLATED)) break;
    }
    return made;
}

/* Nobody owns it any more. */
static void let_go(Monitor *monitor) {
    monitor->owner = monitor->count = 0;
    if (monitor->users) {
        pthread_cond_signal(&monitor->free);
        return;
    }
    Monitor **at = bucket_of(monitor->object);
    while (*at != monitor) at = &(*at)->next;
    *at = monitor->next;
    if (has_word(monitor->object)) RELEASE(monitor->object->lock, 0);
    pthread_cond_destroy(&monitor->free);
    free(monitor);
}

static void own(Monitor *monitor, uint32_t count) {
    while (monitor->owner && monitor->owner != self->id) pthread_cond_wait(&monitor->free, &waiting);
    monitor->owner = self->id;
    monitor->count += count;
}

static void enter_inflated(Object *object) {
    pthread_mutex_lock(&waiting);
    Monitor *monitor = inflate(object);
    if (monitor->owner && monitor->owner != self->id) {
        enter_safe();
        monitor->users++;
        own(monitor, 1);
        monitor->users--;
        pthread_mutex_unlock(&waiting);
        leave_safe();
        return;
    }
    own(monitor, 1);
    pthread_mutex_unlock(&waiting);
}

void monitor_enter(Object *object) {
    if (has_word(object)) {
        uint32_t word = RELAXED(object->lock);
        if (word == 0 && swap_word(object, 0, self->id << COUNT_BITS | 1)) return;
        if (is_mine(word) && (word & MOST_ENTERS) < MOST_ENTERS && swap_word(object, word, word + 1)) return;
    }
    enter_inflated(object);
}

static bool exit_inflated(Object *object) {
    pthread_mutex_lock(&waiting);
    Monitor *monitor = find(object);
    bool mine = monitor && monitor->owner == self->id;
    if (mine && --monitor->count == 0) let_go(monitor);
    pthread_mutex_unlock(&waiting);
    return mine;
}

bool monitor_exit(Object *object) {
    uint32_t word = has_word(object) ? RELAXED(object->lock) : 0;
    if (is_mine(word) && swap_word(object, word, (word & MOST_ENTERS) > 1 ? word - 1 : 0)) return true;
    if (exit_inflated(object)) return true;
    throw_new("java/lang/IllegalMonitorStateException", "current thread is not owner");
    return false;
}

bool monitor_held(Object *object) {
    if (has_word(object) && is_mine(RELAXED(object->lock))) return true;
    pthread_mutex_lock(&waiting);
    Monitor *monitor = find(object);
    bool mine = monitor && monitor->owner == self->id;
    pthread_mutex_unlock(&waiting);
    return mine;
}

static void add_waiter(Monitor *monitor, Waiter *waiter) {
    Waiter **at = &monitor->waiters;
    while (*at) at = &(*at)->next;
    *at = waiter;
}

static void remove_waiter(Monitor *monitor, Waiter *waiter) {
    for (Waiter **at = &monitor->waiters; *at; at = &(*at)->next)
        if (*at == waiter) {
            *at = waiter->next;
            return;
        }
}

void monitor_wait(Object *object, int64_t milliseconds) {
    if (!monitor_held(object)) {
        throw_new("java/lang/IllegalMonitorStateException", "current thread is not owner");
        return;
    }
    if (take_interrupt()) return;
    uint64_t deadline = deadline_after(milliseconds);
    Waiter waiter = {.standing = self->standing};
    pthread_mutex_lock(&waiting);
    enter_safe();
    Monitor *monitor = inflate(object);
    uint32_t count = monitor->count;
    monitor->users++;
    add_waiter(monitor, &waiter);
    let_go(monitor);
    while (!waiter.notified && !is_interrupted() && wait_for_wake(deadline)) {}
    remove_waiter(monitor, &waiter);
    own(monitor, count);
    monitor->users--;
    pthread_mutex_unlock(&waiting);
    leave_safe();
    if (!waiter.notified) take_interrupt();
}

/* Of a monitor that the current thread has. */
void monitor_notify(Object *object, bool all) {
    pthread_mutex_lock(&waiting);
    Monitor *monitor = find(object);
    while (monitor && monitor->waiters) {
        Waiter *waiter = monitor->waiters;
        monitor->waiters = waiter->next;
        waiter->notified = true;
        pthread_cond_signal(&waiter->standing->wake);
        if (!all) break;
    }
    pthread_mutex_unlock(&waiting);
}

void mark_monitors(void) {
    pthread_mutex_lock(&waiting);
    for (int i = 0; i < BUCKETS; i++)
        for (Monitor *at = buckets[i]; at; at = at->next) mark(at->object);
    pthread_mutex_unlock(&waiting);
}
