/* A host of linkd that lives long: it goes over to a fresh linker again and again, while its threads call.
 *
 *     renewing FOLDER [ROUNDS]
 *
 * FOLDER holds the class files of java beside this file, and java/lang/Object's. In a round one thread makes a loader, with a Triangle or,
 * in every other round, a Square and with a Main of its own, lets the oldest of ten such loaders go, installs what is pending, and makes a
 * fresh linker of what stays, all under one lock. So another class has a number that was a Triangle's, which overrides what a Square
 * doesn't. Each call of each site that stays, on null and on each class that stays, has to be answered by the fresh linker as by the old
 * one, under the new numbers; then the old one is closed. Beside it four threads call, at seats and by memos of their own. At its next
 * safepoint after a change, which a count tells, a thread refreshes its seat; where the linker is another one it also opens its memo anew,
 * and from then on it calls by the new numbers. Each of its answers is held to linkd_call where the count hasn't moved meanwhile. There are
 * ROUNDS (200). Where a check fails the program says which on standard error, and ends with a status of its own.
 */
#define _POSIX_C_SOURCE 200809L
#include "renewed.h"
#include <pthread.h>
#include <sched.h>
#include <stdatomic.h>

enum { THREADS = 4, LOADERS = 10, MOST_SITES = 4096, CALLS = 64, MEMO_SETS = 1024 };

/* Of loader 0, each after its parents; the first ones are delegated to each other loader. */
static const char *const NAMES[] = {"Object", "Measured", "Shape", "Circle", "Square", "Main"};
enum { SQUARE = 4, MAIN = 5, NAMED = 6 };

static struct file files[NAMED], triangle;

/* The lock guards the linker and what follows. Each change of what a seat would be given is counted under it. */
static pthread_mutex_t lock = PTHREAD_MUTEX_INITIALIZER;
static linkd *linker;
static unsigned renewals;
static uint32_t sites, classes;
static uint32_t loaders[LOADERS]; /* but for loader 0, the oldest first */
static size_t loader_count;
static unsigned long calls, missed, remembered;

static atomic_uint changes, passed; /* passed: how often a thread has called since the last change */
static atomic_bool is_over;

/* ---- events: each under the lock */

static void define(uint32_t loader, const struct file *file) {
    linkd_told told;
    done(linkd_define_up_to(linker, loader, LINKD_NEWEST_KNOWN, file->bytes, file->length, &told), file->name);
    classes = told.number + 1;
    request_all(linker, told.number, &sites);
}

static void add_loader(void) {
    static unsigned long made;
    bool has_triangle = made++ % 2 == 0;
    linkd_told told;
    done(linkd_new_loader(linker, &told), "no loader is made");
    uint32_t loader = told.number;
    for (int i = 0; i < (has_triangle ? MAIN : SQUARE); i++) {
        const char *name = i == 0 ? "java/lang/Object" : NAMES[i];
        done(linkd_delegate(linker, loader, (const uint8_t *)name, strlen(name), 0, &told), "a loader doesn't delegate");
    }
    define(loader, has_triangle ? &triangle : &files[SQUARE]);
    define(loader, &files[MAIN]);
    loaders[loader_count++] = loader;
}

static void let_oldest_go(void) {
    linkd_told told;
    done(linkd_retire(linker, loaders[0], &told), "a loader isn't retired");
    memmove(loaders, loaders + 1, --loader_count * sizeof *loaders);
}

static void install_pending(void) { install_pending_of(linker, sites); }

/* ---- a renewal, under the lock */

static void go_over(void) {
    const linkd_released nothing = {NULL, 0, NULL, 0};
    linkd_count count;
    linkd *fresh = block(linkd_size(), linkd_align());
    linkd_blank(fresh);
    linkd_numbers numbers = numbers_for(linker, &count);
    must(count.sites == sites && count.classes == classes, BAD_NUMBER, "there are other counts, as of sites", count.sites);
    done(linkd_renew(linker, fresh, MOST_SITES, &nothing, &numbers), "no fresh linker is made");
    sites = compare_all(linker, fresh, &numbers);
    for (size_t i = 0; i < loader_count; i++) {
        loaders[i] = numbers.loaders[loaders[i]];
        must(loaders[i] != LINKD_NO_NUMBER, BAD_NUMBER, "a loader that isn't retired is gone", (uint32_t)i);
    }
    linkd_close(linker);
    free(linker);
    linker = fresh;
    renewals++;
    done(linkd_counts(linker, &count), "no counts are told");
    must(count.sites == sites && count.loaders == loader_count + 1, BAD_NUMBER, "other sites stay", count.sites);
    classes = count.classes;
    let_numbers_go(&numbers);
}

/* A change, which is counted. Where the threads are to see it, it waits until they have called since. */
static void change(void (*what)(void), bool let_see) {
    pthread_mutex_lock(&lock);
    what();
    atomic_store(&passed, 0);
    atomic_fetch_add(&changes, 1);
    pthread_mutex_unlock(&lock);
    while (let_see && atomic_load(&passed) < THREADS) sched_yield();
}

/* ---- threads that call */

struct call {
    uint32_t site, receiver;
    linkd_call_answer answer;
};

/* Under the lock, where nothing has changed since: a miss is asked by the memo, and all else is what the linker answers. */
static void compare(linkd_memo *memo, const struct call *call) {
    linkd_call_answer answer;
    calls++;
    if (call->answer.kind == LINKD_MISS) {
        missed++;
        done(linkd_memo_ask(memo, linker, call->site, call->receiver, &answer), "no call is answered");
        return;
    }
    done(linkd_call(linker, call->site, call->receiver, &answer), "no call is answered");
    must(answer.kind == LINKD_BAD_RECEIVER || same_answer(&call->answer, &answer), WRONG_ANSWER,
         "a seat answers otherwise than its linker, at site", call->site);
    if (linkd_memo_call(memo, call->site, call->receiver, &answer) == LINKD_DONE && answer.kind != LINKD_MISS) remembered++;
}

static void call_some(linkd_seat *seat, linkd_memo *memo, unsigned known, unsigned *seed, uint32_t most_sites, uint32_t most_classes) {
    struct call some[CALLS];
    for (int i = 0; i < CALLS; i++) {
        some[i].site = (uint32_t)rand_r(seed) % most_sites;
        some[i].receiver = receiver((uint32_t)rand_r(seed) % (most_classes + 1));
        done(linkd_seat_call_with(seat, memo, some[i].site, some[i].receiver, &some[i].answer), "a seat answers no call");
    }
    pthread_mutex_lock(&lock);
    for (int i = 0; i < CALLS && atomic_load(&changes) == known; i++) compare(memo, &some[i]);
    if (atomic_load(&changes) == known) atomic_fetch_add(&passed, 1);
    pthread_mutex_unlock(&lock);
    sched_yield();
}

static void *call_all(void *seed) {
    linkd_seat *seat = block(linkd_seat_size(), linkd_seat_align());
    linkd_memo *memo = block(linkd_memo_size(), linkd_memo_align());
    unsigned of = 0;
    linkd_seat_blank(seat);
    linkd_memo_blank(memo);
    done(linkd_memo_open(memo, MEMO_SETS), "no memo is opened");
    while (!atomic_load(&is_over)) {
        /* A safepoint: the thread holds no number of before. */
        pthread_mutex_lock(&lock);
        unsigned known = atomic_load(&changes);
        uint32_t most_sites = sites, most_classes = classes;
        done(linkd_seat_refresh(seat, linker), "no seat is refreshed");
        if (of != renewals) {
            linkd_memo_close(memo);
            done(linkd_memo_open(memo, MEMO_SETS), "no memo is opened");
            of = renewals;
        }
        pthread_mutex_unlock(&lock);
        do call_some(seat, memo, known, seed, most_sites, most_classes);
        while (atomic_load(&changes) == known && !atomic_load(&is_over));
    }
    linkd_memo_close(memo);
    linkd_seat_leave(seat);
    free(memo);
    free(seat);
    return NULL;
}

int main(int argc, char **argv) {
    long rounds = argc > 2 ? atol(argv[2]) : 200;
    pthread_t threads[THREADS];
    unsigned seeds[THREADS];
    must(argc >= 2 && argc <= 3 && rounds > 0, BAD_WORDS, "FOLDER [ROUNDS]", 0);
    for (int i = 0; i < NAMED; i++) files[i] = read_file(argv[1], NAMES[i]);
    triangle = read_file(argv[1], "Triangle");
    linker = block(linkd_size(), linkd_align());
    linkd_blank(linker);
    done(linkd_open(linker, MOST_SITES), "the linker isn't opened");
    for (int i = 0; i < NAMED; i++) define(0, &files[i]);
    for (int i = 0; i < THREADS; i++) {
        seeds[i] = (unsigned)i + 1;
        int fault = pthread_create(&threads[i], NULL, call_all, &seeds[i]);
        must(fault == 0, NO_THREAD, "no thread", (uint32_t)fault);
    }
    for (long round = 0; round < rounds; round++) {
        bool let_see = round % 2 == 0;
        if (loader_count == LOADERS) change(let_oldest_go, let_see);
        change(add_loader, let_see);
        change(install_pending, let_see);
        change(go_over, let_see);
    }
    atomic_store(&is_over, true);
    for (int i = 0; i < THREADS; i++) pthread_join(threads[i], NULL);
    printf("%u renewals, %lu classes and %lu sites at the end; %lu calls of %d threads, %lu missed, %lu remembered\n", renewals,
           (unsigned long)classes, (unsigned long)sites, calls, THREADS, missed, remembered);
    must(calls > 0 && (rounds < LOADERS || remembered > 0), NOTHING_SHOWN, "the threads have shown nothing", 0);
    linkd_close(linker);
    free(linker);
    for (int i = 0; i < NAMED; i++) let_file_go(&files[i]);
    let_file_go(&triangle);
    return fflush(stdout) == 0 ? 0 : BAD_FILE;
}
