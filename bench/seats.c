/* What calls at seats and by memos take beside look-ups under a lock, and what it takes to refresh a seat.
 *
 *     seats calls [CALLS]        nanoseconds of a call, by 1, 2 and 4 threads of CALLS (2,000,000) each: the middle of seven rounds; at
 *                                1,024 sites beside each other, and spread over all. The array is looked up within the program, and, as a
 *                                library's call would be, behind a call (bench/look_up.c)
 *     seats memos [CALLS]        the same, of calls at megamorphic links
 *     seats refresh [EVENTS [ROOM]]     microseconds of a refresh after one change, of EVENTS (500), of a linker opened for ROOM (65,536) sites
 *
 * The linker has 65,536 sites, all requested and installed: 256 classes M0, M1, .. call A.f, which B overrides, and C.f, which D leaves as it
 * is, 128 times each; one site less is an invokedynamic's. For memos they call E.f in the place of C.f, and sixteen classes below E override it. The
 * classes are written here. It ends with status 1 where an answer is wrong.
 */
#define _POSIX_C_SOURCE 200809L
#include "linkd.h"
#include "look_up.h"
#include <pthread.h>
#include <stdbool.h>
#include <stdio.h>
#include <stdlib.h>
#include <string.h>
#include <time.h>

enum { SITES = 65536, CALLERS = 256, EACH = 128, BATCH = 256, CALLED = 1024, SPREAD = SITES - 1, MOST_THREADS = 4, ROUNDS = 7, BELOW_E = 16, SETS = 4096 };

static void must(bool holds, const char *what) {
    if (!holds) {
        fprintf(stderr, "seats: %s\n", what);
        _Exit(1);
    }
}

static void *block(size_t size, size_t align) {
    if (align < sizeof(void *)) align = sizeof(void *);
    void *at = aligned_alloc(align, (size + align - 1) / align * align);
    must(at != NULL, "no memory");
    return at;
}

static double now(void) {
    struct timespec time;
    clock_gettime(CLOCK_MONOTONIC, &time);
    return (double)time.tv_sec + (double)time.tv_nsec * 1e-9;
}

static int by_size(const void *one, const void *other) {
    double a = *(const double *)one, b = *(const double *)other;
    return (a > b) - (a < b);
}

/* ---- class files (Java Virtual Machine Specification, SE 17, chapter 4) */

struct bytes { uint8_t at[8192]; size_t length; };

static struct bytes pool, methods;
static uint32_t entries, method_count;

static void put(struct bytes *to, uint32_t value, int size) {
    while (size-- > 0) to->at[to->length++] = (uint8_t)(value >> 8 * size);
}

static void put_bytes(struct bytes *to, const void *from, size_t length) {
    memcpy(to->at + to->length, from, length);
    to->length += length;
}

static uint32_t text(const char *is) {
    put(&pool, 1, 1);
    put(&pool, (uint32_t)strlen(is), 2);
    put_bytes(&pool, is, strlen(is));
    return ++entries;
}

static uint32_t class_entry(const char *name) {
    uint32_t is = text(name);
    put(&pool, 7, 1);
    put(&pool, is, 2);
    return ++entries;
}

static uint32_t pair(uint32_t tag, uint32_t first, uint32_t second) {
    put(&pool, tag, 1);
    put(&pool, first, 2);
    put(&pool, second, 2);
    return ++entries;
}

/* A method of the type ()V, whose code is an instruction, so many times, and a return. */
static void method(const char *name, uint32_t flags, const uint8_t *instruction, uint32_t length, uint32_t times) {
    put(&methods, flags, 2);
    put(&methods, text(name), 2);
    put(&methods, text("()V"), 2);
    put(&methods, 1, 2);
    put(&methods, text("Code"), 2);
    put(&methods, 12 + length * times + 1, 4);
    put(&methods, 1, 2); /* the most of the stack, and of the locals */
    put(&methods, 1, 2);
    put(&methods, length * times + 1, 4);
    for (uint32_t i = 0; i < times; i++) put_bytes(&methods, instruction, length);
    put(&methods, 177, 1);
    put(&methods, 0, 4); /* no handlers and no attributes */
    method_count++;
}

static void plain_method(const char *name, uint32_t flags) { method(name, flags, NULL, 0, 0); }

/* A method of that many calls of the class's f. */
static void calls_of(const char *name, const char *of, uint32_t times) {
    uint32_t is = pair(10, class_entry(of), pair(12, text("f"), text("()V")));
    const uint8_t instruction[] = {182, (uint8_t)(is >> 8), (uint8_t)is};
    method(name, 9, instruction, sizeof instruction, times);
}

static void dynamic_call(const char *name) {
    uint32_t is = pair(18, 0, pair(12, text("d"), text("()V")));
    const uint8_t instruction[] = {186, (uint8_t)(is >> 8), (uint8_t)is, 0, 0};
    method(name, 9, instruction, sizeof instruction, 1);
}

static linkd *linker;
static linkd_told told;
static uint32_t room = SITES;

/* Defines the public class of the methods that were written, and forgets them. Gives its number. */
static uint32_t define(const char *name, const char *super) {
    static struct bytes file;
    uint32_t self = class_entry(name), above = super ? class_entry(super) : 0;
    file.length = 0;
    put(&file, 0xcafebabe, 4);
    put(&file, 61, 4);
    put(&file, entries + 1, 2);
    put_bytes(&file, pool.at, pool.length);
    put(&file, 33, 2);
    put(&file, self, 2);
    put(&file, above, 2);
    put(&file, 0, 4); /* no interfaces and no fields */
    put(&file, method_count, 2);
    put_bytes(&file, methods.at, methods.length);
    put(&file, 0, 2);
    pool.length = methods.length = entries = method_count = 0;
    must(linkd_define(linker, 0, file.at, file.length, &told) == LINKD_DONE, "a class isn't defined");
    return told.number;
}

/* ---- the linker */

static uint32_t a, b, c, d, s, dynamic, call_site, below_e[BELOW_E];

static void request(uint32_t class_number, uint32_t method_number, uint32_t pc) {
    must(linkd_request(linker, class_number, method_number, pc, &told) == LINKD_DONE, "a site isn't requested");
}

static void target(char *out, size_t size, uint32_t method_number) {
    snprintf(out, size, "{\"method\":[%lu,%lu]}", (unsigned long)s, (unsigned long)method_number);
}

static void make(bool megamorphic) {
    static const char kind[] = "()V";
    char runs[64];
    linker = block(linkd_size(), linkd_align());
    linkd_blank(linker);
    must(linkd_open(linker, room) == LINKD_DONE, "the linker isn't opened");
    define("java/lang/Object", NULL);
    plain_method("f", 1), a = define("A", "java/lang/Object");
    plain_method("f", 1), b = define("B", "A");
    plain_method("f", 1), c = define("C", "java/lang/Object");
    d = define("D", "C");
    if (megamorphic) {
        plain_method("f", 1), define("E", "java/lang/Object");
        for (int i = 0; i < BELOW_E; i++) {
            char name[16];
            snprintf(name, sizeof name, "E%d", i);
            plain_method("f", 1), below_e[i] = define(name, "E");
        }
    }
    plain_method("m", 9), plain_method("n", 9), dynamic_call("r"), s = define("S", "java/lang/Object");
    request(s, 2, 0);
    dynamic = told.number;
    target(runs, sizeof runs, 0);
    must(linkd_new_call_site(linker, 2, (const uint8_t *)kind, 3, (const uint8_t *)runs, strlen(runs), &told) == LINKD_DONE, "no call site");
    call_site = told.number;
    must(linkd_bind(linker, dynamic, call_site, &told) == LINKD_DONE, "the site isn't bound");
    uint32_t left = SITES - 1;
    for (int i = 0; i < CALLERS; i++) {
        char name[16];
        snprintf(name, sizeof name, "M%d", i);
        calls_of("a", "A", EACH);
        calls_of("c", megamorphic ? "E" : "C", EACH);
        uint32_t caller = define(name, "java/lang/Object");
        for (uint32_t j = 0; j < 2 * EACH && left > 0; j++, left--) request(caller, j / EACH, 3 * (j % EACH));
    }
    for (uint32_t from = 0; from < SITES; from += BATCH) {
        uint32_t batch[BATCH];
        for (uint32_t i = 0; i < BATCH; i++) batch[i] = from + i;
        must(linkd_install(linker, batch, BATCH, &told) == LINKD_DONE, "a batch isn't installed");
    }
}

static linkd_seat *new_seat(void) {
    linkd_seat *seat = block(linkd_seat_size(), linkd_seat_align());
    linkd_seat_blank(seat);
    must(linkd_seat_refresh(seat, linker) == LINKD_DONE, "a seat isn't refreshed");
    return seat;
}

/* ---- calls */

enum table { ANSWER, ARRAY_CALLED, SEAT, ARRAY, MUTEX, RWLOCK, TABLES, MEMO = TABLES, SEAT_WITH_MEMO, LOCKED, ALL };

static struct { uint32_t site, receiver; } called[SPREAD];
static uint32_t called_count = CALLED;
static linkd_link *links;
static pthread_mutex_t mutex = PTHREAD_MUTEX_INITIALIZER;
static pthread_rwlock_t rwlock = PTHREAD_RWLOCK_INITIALIZER;
static pthread_barrier_t together;
static enum table table;
static long calls = 2000000;
static uint64_t sum_of_all;

static struct spent { double start, end; } spent[MOST_THREADS];

/* A memo that was asked for all that is called, where calls at memos are measured, under the lock. */
static linkd_memo *new_memo(void) {
    linkd_memo *memo = block(linkd_memo_size(), linkd_memo_align());
    linkd_memo_blank(memo);
    must(linkd_memo_open(memo, SETS) == LINKD_DONE, "a memo isn't opened");
    for (int i = 0; i < CALLED && table >= MEMO; i++) {
        linkd_call_answer answer;
        must(linkd_memo_ask(memo, linker, called[i].site, called[i].receiver, &answer) == LINKD_DONE, "no answer");
    }
    return memo;
}

static void *thread(void *at) {
    struct spent *mine = at;
    pthread_mutex_lock(&mutex);
    linkd_seat *seat = new_seat();
    linkd_memo *memo = new_memo();
    pthread_mutex_unlock(&mutex);
    uint64_t sum = 0;
    enum table by = table;
    uint32_t next = (uint32_t)(mine - spent) * (called_count / MOST_THREADS), end = called_count;
    pthread_barrier_wait(&together);
    mine->start = now();
    for (long i = 0; i < calls; i++) {
        uint32_t site = called[next].site, receiver = called[next].receiver;
        linkd_call_answer answer = {LINKD_MISS, 0, 0};
        switch (by) {
        case ANSWER: {
            uint64_t bits = linkd_seat_answer(seat, site, receiver);
            answer.kind = linkd_kind_of(bits);
            answer.class_number = linkd_class_of(bits);
            break;
        }
        case ARRAY_CALLED:
            look_up_in(links, site, receiver, &answer);
            break;
        case SEAT:
            linkd_seat_call(seat, site, receiver, &answer);
            break;
        case MUTEX:
            pthread_mutex_lock(&mutex);
            look_up(links, site, receiver, &answer);
            pthread_mutex_unlock(&mutex);
            break;
        case MEMO:
            linkd_memo_call(memo, site, receiver, &answer);
            break;
        case SEAT_WITH_MEMO:
            linkd_seat_call_with(seat, memo, site, receiver, &answer);
            break;
        case LOCKED:
            pthread_mutex_lock(&mutex);
            linkd_call(linker, site, receiver, &answer);
            pthread_mutex_unlock(&mutex);
            break;
        case RWLOCK:
            pthread_rwlock_rdlock(&rwlock);
            look_up(links, site, receiver, &answer);
            pthread_rwlock_unlock(&rwlock);
            break;
        default:
            look_up(links, site, receiver, &answer);
        }
        sum += answer.kind * UINT64_C(1000) + answer.class_number;
        next = next + 1 == end ? 0 : next + 1;
    }
    mine->end = now();
    pthread_mutex_lock(&mutex);
    sum_of_all += sum;
    pthread_mutex_unlock(&mutex);
    linkd_seat_leave(seat);
    free(seat);
    linkd_memo_close(memo);
    free(memo);
    return NULL;
}

/* Nanoseconds of wall time until each thread has made its calls, by the calls of one. */
static double round_of(int threads) {
    pthread_t thread_of[MOST_THREADS];
    pthread_barrier_init(&together, NULL, (unsigned)threads);
    sum_of_all = 0;
    for (int i = 0; i < threads; i++) must(pthread_create(&thread_of[i], NULL, thread, &spent[i]) == 0, "no thread");
    double start = 1e18, end = 0;
    for (int i = 0; i < threads; i++) {
        pthread_join(thread_of[i], NULL);
        if (spent[i].start < start) start = spent[i].start;
        if (spent[i].end > end) end = spent[i].end;
    }
    pthread_barrier_destroy(&together);
    return (end - start) * 1e9 / (double)calls;
}

/* The tables from one to the one before another, by 1, 2 and 4 threads. */
static void measure(int from, int to, const char *const *words) {
    for (int threads = 1; threads <= MOST_THREADS; threads *= 2) {
        double middle[ALL];
        uint64_t sum = 0;
        for (int by = from; by < to; by++) {
            double times[ROUNDS];
            table = (enum table)by;
            for (int round = 0; round < ROUNDS; round++) {
                times[round] = round_of(threads);
                must(sum == 0 || sum == sum_of_all, "a table answers other than the others");
                sum = sum_of_all;
            }
            qsort(times, ROUNDS, sizeof *times, by_size);
            middle[by] = times[ROUNDS / 2];
        }
        printf("%d thread%s\n", threads, threads > 1 ? "s" : "");
        for (int by = from; by < to; by++)
            printf("  %s: %.1f ns a call, %.2f times the first one's\n", words[by - from], middle[by], middle[by] / middle[from]);
    }
}

static void measure_memos(void) {
    static const char *const words[] = {"a memo", "a seat with a memo", "the linker behind a mutex"};
    linkd_link link;
    int sites = 0;
    for (uint32_t i = 0; i < CALLED; i++) {
        uint32_t site = i * 2473 % CALLED;
        site = 2 * EACH * (site / EACH) + EACH + site % EACH + 1;
        called[i].site = site;
        called[i].receiver = below_e[i % 5 * 3 + i % 3 / 2];
        must(linkd_link_of(linker, site, &link) == LINKD_DONE && link.kind == LINKD_MEGA, "a link is of another kind");
        sites++;
    }
    printf("%d sites of %d are called, all megamorphic; %ld calls a thread\n", sites, SITES, calls);
    measure(MEMO, ALL, words);
}

/* Calls at so many sites from 1 on, scattered by a step that has no factor with them. */
static void measure_sites(uint32_t count, const char *where) {
    static const char *const words[] = {"a seat, in 64 bits", "an array, behind a call", "a seat", "the array", "behind a mutex", "behind a read-write lock"};
    int tables = 0;
    called_count = count;
    for (uint32_t i = 0; i < count; i++) {
        uint32_t site = i * 2473 % count + 1;
        bool of_a = (site - 1) / EACH % 2 == 0;
        called[i].site = site;
        called[i].receiver = of_a ? (i % 3 ? a : b) : (i % 3 ? c : d);
        tables += links[site].kind == LINKD_VIRTUAL_TABLE;
        must(links[site].kind == (of_a ? LINKD_VIRTUAL_TABLE : LINKD_DIRECT), "a link is of another kind");
    }
    printf("%u sites %s of %d are called, %d through a table of 2 classes, the others direct; %ld calls a thread\n", count, where, SITES, tables, calls);
    measure(ANSWER, TABLES, words);
}

static void measure_calls(void) {
    links = block(SITES * sizeof *links, sizeof(void *));
    for (uint32_t site = 0; site < SITES; site++) must(linkd_link_of(linker, site, &links[site]) == LINKD_DONE, "no link");
    measure_sites(CALLED, "beside each other");
    measure_sites(SPREAD, "spread over all");
    free(links);
}

/* ---- refreshes */

static double *times_of(long count) { return block((size_t)count * sizeof(double), sizeof(double)); }

static void tell(const char *what, double *times, long count) {
    qsort(times, (size_t)count, sizeof *times, by_size);
    printf("%s: %.2f us, nine of ten under %.2f us\n", what, times[count / 2], times[count * 9 / 10]);
    free(times);
}

static void measure_refresh(long events) {
    linkd_seat *seat = new_seat();
    double *making = times_of(events), *refreshing = times_of(events), *again = times_of(events);
    for (long i = 0; i < events; i++) {
        char runs[64];
        uint32_t wanted = (uint32_t)(i + 1) % 2;
        linkd_call_answer answer = {LINKD_MISS, 0, 0};
        target(runs, sizeof runs, wanted);
        double start = now();
        must(linkd_set_target(linker, call_site, (const uint8_t *)runs, strlen(runs), &told) == LINKD_DONE, "no new target");
        must(linkd_install(linker, &dynamic, 1, &told) == LINKD_DONE, "the site isn't installed again");
        double made = now();
        must(linkd_seat_refresh(seat, linker) == LINKD_DONE, "a seat isn't refreshed");
        double refreshed = now();
        must(linkd_seat_refresh(seat, linker) == LINKD_DONE, "a seat isn't refreshed");
        double end = now();
        must(linkd_seat_call(seat, dynamic, LINKD_NULL, &answer) == LINKD_DONE && answer.kind == LINKD_RUN && answer.class_number == s &&
                 answer.value == wanted, "a call is answered by the target of before");
        making[i] = (made - start) * 1e6;
        refreshing[i] = (refreshed - made) * 1e6;
        again[i] = (end - refreshed) * 1e6;
    }
    printf("%d sites installed of %u that may be, %ld events that change one link, the middle of each\n", SITES, room, events);
    tell("a new target, and its site installed", making, events);
    tell("a refresh after that", refreshing, events);
    tell("a refresh after nothing", again, events);
    linkd_seat_leave(seat);
    free(seat);
}

int main(int argc, char **argv) {
    long count = argc > 2 ? atol(argv[2]) : 0;
    bool refreshes = argc > 1 && strcmp(argv[1], "refresh") == 0;
    if (argc > 3) room = (uint32_t)atol(argv[3]);
    if (argc < 2 || argc > (refreshes ? 4 : 3) || (argc > 2 && count < 1) || room < SITES
        || (strcmp(argv[1], "calls") != 0 && strcmp(argv[1], "memos") != 0 && strcmp(argv[1], "refresh") != 0)) {
        fprintf(stderr, "seats: calls [CALLS], memos [CALLS], or refresh [EVENTS [ROOM]]\n");
        return 2;
    }
    bool megamorphic = strcmp(argv[1], "memos") == 0;
    make(megamorphic);
    if (refreshes) {
        measure_refresh(count > 0 ? count : 500);
    } else {
        if (count > 0) calls = count;
        if (megamorphic) measure_memos();
        else measure_calls();
    }
    linkd_close(linker);
    free(linker);
    return 0;
}
