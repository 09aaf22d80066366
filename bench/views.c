/* What a compiler's calls take: views, preparations in them, and installs by value, beside linkd_install under a mutex.
 *
 *     views calls              by one thread, the middle of 101: a view and the events after it, preparations, and installs
 *     views threads [BATCHES]  by 1 and 4 threads that compile, beside one that defines: BATCHES (200) of 1 and of 256 sites, each thread;
 *                            the middle of three rounds
 *
 * The linker has 65,536 sites, all requested and installed: M has 64 methods, each with 1,024 calls of A.f. What is measured installs some
 * of them again; the first installs are told beside that. The classes that are defined meanwhile touch no site. It ends with status 1 where
 * a call isn't done.
 */
#define _POSIX_C_SOURCE 200809L
#include "linkd.h"
#include <pthread.h>
#include <stdatomic.h>
#include <stdbool.h>
#include <stdio.h>
#include <stdlib.h>
#include <string.h>
#include <time.h>

enum { METHODS = 64, EACH = 1024, SITES = METHODS * EACH, BATCH = 256, TIMES = 101, MOST_THREADS = 4, MOST_DEFINED = 2500, ROUNDS = 3 };
enum { COMPILING = 200, RESTING = 20 }; /* microseconds */

static linkd *linker;
static linkd_view *view;
static linkd_told told;
static pthread_mutex_t mutex = PTHREAD_MUTEX_INITIALIZER;

static void must(bool holds, const char *what) {
    if (!holds) {
        fprintf(stderr, "views: %s\n", what);
        _Exit(1);
    }
}

static void done(uint32_t status) {
    if (status != LINKD_DONE) fprintf(stderr, "views: %s\n", linkd_status_name(status));
    must(status == LINKD_DONE, "a call isn't done");
}

static void *block(size_t size, size_t align) {
    if (align < sizeof(void *)) align = sizeof(void *);
    void *at = aligned_alloc(align, (size + align - 1) / align * align);
    must(at != NULL, "no memory");
    return at;
}

static linkd_view *new_view(void) {
    linkd_view *is = block(linkd_view_size(), linkd_view_align());
    linkd_view_blank(is);
    return is;
}

static double now(void) {
    struct timespec time;
    clock_gettime(CLOCK_MONOTONIC, &time);
    return (double)time.tv_sec * 1e6 + (double)time.tv_nsec / 1e3;
}

static int by_size(const void *one, const void *other) {
    double a = *(const double *)one, b = *(const double *)other;
    return (a > b) - (a < b);
}

static double middle(double *times, size_t count) {
    qsort(times, count, sizeof *times, by_size);
    return times[count / 2];
}

/* ---- the linker */

static void command(const char *line) {
    size_t length;
    done(linkd_answer(linker, (const uint8_t *)line, strlen(line), &length));
}

/* Defines M by a sketch (docs/FORMATS.md), whose calls take three bytes each. */
static void define_caller(void) {
    static const char call[] = "{\"kind\":\"invokevirtual\",\"of\":\"A\",\"name\":\"f\",\"type\":\"()V\"}";
    char *line = block(SITES * sizeof call + METHODS * 64 + 256, 1), *at = line;
    at += sprintf(at, "{\"do\":\"define\",\"loader\":0,\"sketch\":"
                      "{\"name\":\"M\",\"super\":\"java/lang/Object\",\"flags\":33,\"methods\":[");
    for (int method = 0; method < METHODS; method++) {
        at += sprintf(at, "%s{\"name\":\"m%d\",\"type\":\"()V\",\"flags\":9,\"calls\":[", method > 0 ? "," : "", method);
        for (int i = 0; i < EACH; i++) at += sprintf(at, "%s%s", i > 0 ? "," : "", call);
        at += sprintf(at, "]}");
    }
    strcpy(at, "]}}");
    command(line);
    free(line);
}

/* Gives what the first install of a batch of 256 takes. */
static double make(void) {
    double times[SITES / BATCH];
    uint32_t batch[BATCH];
    linker = block(linkd_size(), linkd_align());
    linkd_blank(linker);
    done(linkd_open(linker, SITES));
    command("{\"do\":\"define\",\"loader\":0,\"sketch\":{\"name\":\"java/lang/Object\",\"flags\":33}}");
    command("{\"do\":\"define\",\"loader\":0,\"sketch\":{\"name\":\"A\",\"super\":\"java/lang/Object\",\"flags\":33,\"methods\":"
            "[{\"name\":\"f\",\"type\":\"()V\",\"flags\":1}]}}");
    define_caller();
    for (uint32_t site = 0; site < SITES; site++) done(linkd_request(linker, 2, site / EACH, 3 * (site % EACH), &told));
    for (uint32_t from = 0; from < SITES; from += BATCH) {
        for (uint32_t i = 0; i < BATCH; i++) batch[i] = from + i;
        double start = now();
        done(linkd_install(linker, batch, BATCH, &told));
        times[from / BATCH] = now() - start;
    }
    return middle(times, SITES / BATCH);
}

/* A class below java/lang/Object of a name of its own, without methods. */
static void define_another(void) {
    static uint32_t number;
    static uint8_t file[] = {0xca, 0xfe, 0xba, 0xbe, 0, 0, 0, 61, 0, 5, 1, 0, 6, 'D', '0', '0', '0', '0', '0', 7, 0, 1,
                             1, 0, 16, 'j', 'a', 'v', 'a', '/', 'l', 'a', 'n', 'g', '/', 'O', 'b', 'j', 'e', 'c', 't', 7, 0, 3,
                             0, 33, 0, 2, 0, 4, 0, 0, 0, 0, 0, 0, 0, 0};
    char name[12];
    snprintf(name, sizeof name, "%05lu", (unsigned long)number++);
    memcpy(file + 14, name, 5);
    done(linkd_define(linker, 0, file, sizeof file, &told));
}

/* ---- one thread */

static uint32_t sites[BATCH];
static linkd_link links[BATCH], present;
static linkd_link_row rows[BATCH];

static void nothing(void) {}
static void event(void) { done(linkd_new_switch(linker, &told)); }
static void take(void) { done(linkd_view_take(view, linker)); }
static void take_and_event(void) { take(), event(); }
static void leave(void) { linkd_view_leave(view); }
static void prepare_one(void) { done(linkd_view_prepare(view, sites, 1, links, BATCH, &told)); }
static void prepare_many(void) { done(linkd_view_prepare(view, sites, BATCH, links, BATCH, &told)); }
static void install_one_link(void) { done(linkd_install_links(linker, rows, 1, &told, &present)); }
static void install_links(void) { done(linkd_install_links(linker, rows, BATCH, &told, &present)); }

static void install(size_t count) {
    pthread_mutex_lock(&mutex);
    done(linkd_install(linker, sites, count, &told));
    pthread_mutex_unlock(&mutex);
}

static void install_one(void) { install(1); }
static void install_many(void) { install(BATCH); }

static double measure(void (*before)(void), void (*call)(void), void (*after)(void)) {
    double times[TIMES];
    for (int i = 0; i < TIMES; i++) {
        before();
        double start = now();
        call();
        times[i] = now() - start;
        after();
    }
    return middle(times, TIMES);
}

static void tell(const char *what, double time) { printf("  %-48s %9.2f us\n", what, time); }

static void tell_ratio(const char *what, double time, double base, const char *of) {
    printf("  %-48s %9.2f us, %.2f times %s\n", what, time, time / base, of);
}

static void measure_calls(double first_installs) {
    view = new_view();
    for (uint32_t i = 0; i < BATCH; i++) sites[i] = i * (SITES / BATCH);
    take(), prepare_many(), leave();
    for (uint32_t i = 0; i < BATCH; i++) rows[i] = (linkd_link_row){sites[i], links[i]};
    printf("%d sites installed; an event is a linkd_new_switch, and touches none\n", SITES);
    double alone = measure(nothing, event, nothing), one = measure(nothing, install_one, nothing);
    double many = measure(nothing, install_many, nothing);
    tell("an event without a view", alone);
    tell_ratio("a view taken after an event", measure(event, take, nothing), alone, "the event");
    leave();
    tell_ratio("the first event after a view that stands", measure(take, event, leave), alone, "the event");
    tell_ratio("the second one", measure(take_and_event, event, leave), alone, "the event");
    take();
    double prepared_one = measure(nothing, prepare_one, nothing), prepared_many = measure(nothing, prepare_many, nothing);
    leave();
    tell("linkd_install of 1, under a mutex", one);
    tell_ratio("a preparation of 1 in a view", prepared_one, one, "linkd_install");
    tell_ratio("an install by value of 1", measure(nothing, install_one_link, nothing), one, "linkd_install");
    tell("linkd_install of 256, under a mutex", many);
    tell_ratio("the same at sites that are pending", first_installs, many, "that");
    tell_ratio("a preparation of 256 in a view", prepared_many, many, "linkd_install");
    tell_ratio("an install by value of 256", measure(nothing, install_links, nothing), many, "linkd_install");
    free(view);
}

/* ---- threads that compile, beside one that defines */

static pthread_barrier_t together;
static atomic_int at_work;
static bool by_views;
static uint32_t batch_size;
static long batches;

struct compiler {
    pthread_t thread;
    uint32_t from;  /* its sites are a quarter of all, from here on */
    double *called; /* what the calls of each batch took, with their waits for the mutex */
    double *held;   /* for how long the mutex was held for it */
};

/* One batch of a thread. */
struct batch {
    linkd_view *view;
    uint32_t sites[BATCH];
    linkd_link links[BATCH];
    linkd_link_row rows[BATCH];
    double called, held, started, locked;
};

static void start(struct batch *batch) { batch->started = now(); }
static void stop(struct batch *batch) { batch->called += now() - batch->started; }

static void hold(struct batch *batch) {
    pthread_mutex_lock(&mutex);
    batch->locked = now();
}

static void let_go(struct batch *batch) {
    batch->held += now() - batch->locked;
    pthread_mutex_unlock(&mutex);
}

static void rest_for(long microseconds) {
    struct timespec time = {0, microseconds * 1000};
    nanosleep(&time, NULL);
}

static void compile_in_view(struct batch *batch) {
    linkd_told mine;
    linkd_link other;
    start(batch);
    hold(batch);
    done(linkd_view_take(batch->view, linker));
    let_go(batch);
    done(linkd_view_prepare(batch->view, batch->sites, batch_size, batch->links, BATCH, &mine));
    linkd_view_leave(batch->view);
    stop(batch);
    rest_for(COMPILING);
    start(batch);
    for (uint32_t i = 0; i < batch_size; i++) batch->rows[i] = (linkd_link_row){batch->sites[i], batch->links[i]};
    hold(batch);
    done(linkd_install_links(linker, batch->rows, batch_size, &mine, &other));
    let_go(batch);
    stop(batch);
}

static void compile_under_mutex(struct batch *batch) {
    linkd_told mine;
    rest_for(COMPILING);
    start(batch);
    hold(batch);
    done(linkd_install(linker, batch->sites, batch_size, &mine));
    let_go(batch);
    stop(batch);
}

static void *compile_all(void *at) {
    struct compiler *mine = at;
    struct batch *batch = block(sizeof *batch, 1);
    batch->view = new_view();
    pthread_barrier_wait(&together);
    for (long i = 0; i < batches; i++) {
        for (uint32_t j = 0; j < batch_size; j++) batch->sites[j] = mine->from + ((uint32_t)i * batch_size + j) % (SITES / MOST_THREADS);
        batch->called = batch->held = 0;
        if (by_views) compile_in_view(batch);
        else compile_under_mutex(batch);
        mine->called[i] = batch->called;
        mine->held[i] = batch->held;
    }
    atomic_fetch_sub(&at_work, 1);
    free(batch->view);
    free(batch);
    return NULL;
}

enum figure { CALLED, HELD, DEFINITION, SLOW_DEFINITION, FIGURES };

/* Defines as long as a thread compiles, and at least eleven classes. Gives how many. */
static size_t define_meanwhile(double *times) {
    size_t count = 0;
    while (count < MOST_DEFINED && (count < 11 || atomic_load(&at_work) > 0)) {
        double start = now();
        pthread_mutex_lock(&mutex);
        define_another();
        pthread_mutex_unlock(&mutex);
        times[count++] = now() - start;
        rest_for(RESTING);
    }
    return count;
}

static void play(int threads, int round, double figures[FIGURES][ROUNDS]) {
    struct compiler compilers[MOST_THREADS];
    size_t all = (size_t)threads * (size_t)batches;
    double *called = block(all * sizeof *called, sizeof *called), *held = block(all * sizeof *held, sizeof *held);
    double *defining = block(MOST_DEFINED * sizeof *defining, sizeof *defining);
    pthread_barrier_init(&together, NULL, (unsigned)threads + 1);
    atomic_store(&at_work, threads);
    for (int i = 0; i < threads; i++) {
        compilers[i].from = (uint32_t)i * (SITES / MOST_THREADS);
        compilers[i].called = called + (size_t)i * (size_t)batches;
        compilers[i].held = held + (size_t)i * (size_t)batches;
        must(pthread_create(&compilers[i].thread, NULL, compile_all, &compilers[i]) == 0, "no thread");
    }
    pthread_barrier_wait(&together);
    size_t count = define_meanwhile(defining);
    for (int i = 0; i < threads; i++) pthread_join(compilers[i].thread, NULL);
    pthread_barrier_destroy(&together);
    figures[CALLED][round] = middle(called, all);
    figures[HELD][round] = middle(held, all);
    figures[DEFINITION][round] = middle(defining, count);
    figures[SLOW_DEFINITION][round] = defining[count * 9 / 10];
    free(called);
    free(held);
    free(defining);
}

static void compare(int threads) {
    static const char *const words[FIGURES] = {"the calls of a batch, with waits for the mutex", "the mutex held for a batch",
                                               "a definition, with its wait", "nine of ten definitions under"};
    double figures[2][FIGURES][ROUNDS];
    for (int round = 0; round < ROUNDS; round++) {
        by_views = true;
        play(threads, round, figures[0]);
        by_views = false;
        play(threads, round, figures[1]);
    }
    printf("  %d thread%s, batches of %lu\n", threads, threads > 1 ? "s" : "", (unsigned long)batch_size);
    for (int figure = 0; figure < FIGURES; figure++) {
        double by_value = middle(figures[0][figure], ROUNDS), under_mutex = middle(figures[1][figure], ROUNDS);
        printf("    %-46s %9.2f us; by linkd_install %9.2f us; ratio %.2f\n", words[figure], by_value, under_mutex, by_value / under_mutex);
    }
}

static void measure_threads(void) {
    printf("%ld batches a thread, each with %d us to compile it, by a view and an install by value, and by linkd_install;\n"
           "beside them a thread that defines a class and rests for %d us\n", batches, COMPILING, RESTING);
    for (int threads = 1; threads <= MOST_THREADS; threads *= MOST_THREADS)
        for (batch_size = 1; batch_size <= BATCH; batch_size *= BATCH) compare(threads);
}

int main(int argc, char **argv) {
    bool calls = argc == 2 && strcmp(argv[1], "calls") == 0;
    batches = argc > 2 ? atol(argv[2]) : 200;
    if (!calls && (argc < 2 || argc > 3 || strcmp(argv[1], "threads") != 0 || batches < 1)) {
        fprintf(stderr, "views: calls, or threads [BATCHES]\n");
        return 2;
    }
    double first_installs = make();
    if (calls) measure_calls(first_installs);
    else measure_threads();
    linkd_close(linker);
    free(linker);
    return 0;
}
