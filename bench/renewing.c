/* What a renewal takes, in one call and in steps beside threads that go on, of a linker that has all classes of a folder.
 *
 *     renewing once FOLDER                           by linkd_renew, while nothing else is done
 *     renewing steps FOLDER [PORTION [PAUSE [FEW]]]  in steps, of PORTION (1000) events each, beside four threads
 *
 * The standard input has the names of the class files in FOLDER, without ".class", a line each. Those that can be are defined by one loader,
 * all their invocations requested, and all links installed that are there. Each thread has a seat. Over and over it installs 16 links anew
 * or, in every 16th turn, defines a class of its own, then refreshes its seat, each under the lock, and sleeps for PAUSE (10000)
 * microseconds. Two seconds after the threads have begun the renewal begins. It finishes once no more than FEW (10) events are left. One second
 * later all is told: the seconds of the whole, and in milliseconds what the lock was held the longest for each kind of call, by the clock
 * and, in brackets, by the processor time of the thread. The clock goes on where another program has the processor, or where the thread
 * waits for the memory allocator. What is resident bench/resident.py tells beside each line of the standard error. It ends with status 0
 * only where each call was done.
 */
#define _DEFAULT_SOURCE
#define _POSIX_C_SOURCE 200809L
#include "../examples/host/renewed.h"
#include <pthread.h>
#include <stdatomic.h>
#include <time.h>
#include <unistd.h>

enum { MOST_SITES = 1048576, MOST_CLASSES = 65536, WRITERS = 4, INSTALLED = 16, DEFINES = 16 };

/* What the threads do before the begin, beside the renewal, and after its finish. */
enum phase { BEFORE, BESIDE, AFTER, PHASES };
static const char *const PHASE_NAMES[] = {"before", "beside", "after"};

/* Seconds, by the clock and of this thread's processor time. */
struct span {
    double clock, processor;
};

struct holds {
    struct span define, install, refresh;
};

struct writer {
    pthread_t thread;
    linkd_seat *seat;
    unsigned seed;
    bool is_over; /* its seat has the links of the fresh linker */
    struct holds longest[PHASES];
};

/* The lock guards the linker and what follows. */
static pthread_mutex_t lock = PTHREAD_MUTEX_INITIALIZER;
static linkd *linker;
static enum phase phase;
static unsigned long events[PHASES];
static double beginnings[PHASES + 1];
static uint32_t sites, classes;
static int gone_over; /* how many threads have */

static uint32_t *linked; /* the sites that had a link at first */
static size_t linked_count;
static struct writer writers[WRITERS];
static useconds_t pause_between = 10000;
static atomic_bool is_over;

static double seconds_of(clockid_t clock) {
    struct timespec time;
    clock_gettime(clock, &time);
    return (double)time.tv_sec + (double)time.tv_nsec / 1e9;
}

static struct span now(void) {
    struct span is = {seconds_of(CLOCK_MONOTONIC), seconds_of(CLOCK_THREAD_CPUTIME_ID)};
    return is;
}

static struct span passed(struct span since) {
    struct span is = now();
    is.clock -= since.clock;
    is.processor -= since.processor;
    return is;
}

static void raise_to(struct span *longest, struct span is) {
    if (is.clock > longest->clock) longest->clock = is.clock;
    if (is.processor > longest->processor) longest->processor = is.processor;
}

static void tell_hold(const char *of, struct span is) {
    printf(" %s %.3f ms (%.3f)", of, is.clock * 1e3, is.processor * 1e3);
}

/* ---- the linker */

struct names {
    char **all;
    size_t count;
};

static struct names read_names(void) {
    static char line[4096];
    struct names names = {NULL, 0};
    while (fgets(line, sizeof line, stdin) != NULL) {
        line[strcspn(line, "\n")] = 0;
        if (names.count % 4096 == 0) names.all = memory(realloc(names.all, (names.count + 4096) * sizeof *names.all));
        names.all[names.count] = memory(malloc(strlen(line) + 1));
        strcpy(names.all[names.count++], line);
    }
    return names;
}

/* Whether the class waits for a parent. What is no class, or comes a second time, is passed over. */
static bool waits(const char *folder, const char *name) {
    linkd_told told;
    struct file file = read_file(folder, name);
    uint32_t status = linkd_define_up_to(linker, 0, LINKD_NEWEST_KNOWN, file.bytes, file.length, &told);
    let_file_go(&file);
    if (status == LINKD_DONE) {
        classes = told.number + 1;
        request_all(linker, told.number, &sites);
    }
    must(status == LINKD_DONE || status == LINKD_DEFINE || status == LINKD_NO_CLASS_FILE, REFUSED, name, status);
    return status == LINKD_DEFINE && told.fault == LINKD_MISSING_PARENT;
}

static void define_all(const char *folder) {
    struct names names = read_names();
    size_t before = names.count + 1, left = names.count;
    while (left > 0 && left < before) {
        before = left;
        left = 0;
        for (size_t i = 0; i < before; i++) {
            if (waits(folder, names.all[i])) names.all[left++] = names.all[i];
            else free(names.all[i]);
        }
    }
    fprintf(stderr, "%lu classes, %lu sites, %zu without a parent\n", (unsigned long)classes, (unsigned long)sites, left);
    for (size_t i = 0; i < left; i++) free(names.all[i]);
    free(names.all);
}

static void open_linker(const char *folder) {
    linker = block(linkd_size(), linkd_align());
    linkd_blank(linker);
    done(linkd_open(linker, MOST_SITES), "the linker isn't opened");
    define_all(folder);
    install_pending_of(linker, sites);
    linked = room(sites);
    for (uint32_t site = 0; site < sites; site++)
        if (is_linked(linker, site)) linked[linked_count++] = site;
    must(linked_count > INSTALLED, NOTHING_SHOWN, "there are too few links", (uint32_t)linked_count);
    fprintf(stderr, "%zu links\n", linked_count);
}

/* A class below java/lang/Object of a name of its own, without methods. */
static void define_another(void) {
    static uint32_t number;
    static uint8_t file[] = {0xca, 0xfe, 0xba, 0xbe, 0, 0, 0, 61, 0, 5, 1, 0, 6, 'D', '0', '0', '0', '0', '0', 7, 0, 1,
                             1, 0, 16, 'j', 'a', 'v', 'a', '/', 'l', 'a', 'n', 'g', '/', 'O', 'b', 'j', 'e', 'c', 't', 7, 0, 3,
                             0, 33, 0, 2, 0, 4, 0, 0, 0, 0, 0, 0, 0, 0};
    linkd_told told;
    char name[12];
    if (classes == MOST_CLASSES) return;
    snprintf(name, sizeof name, "%05lu", (unsigned long)number++);
    memcpy(file + 14, name, 5);
    done(linkd_define(linker, 0, file, sizeof file, &told), "a class isn't defined");
    classes = told.number + 1;
}

/* ---- the threads */

static void install_some(struct writer *writer) {
    linkd_told told;
    size_t first = (size_t)rand_r(&writer->seed) % (linked_count - INSTALLED);
    done(linkd_install(linker, linked + first, INSTALLED, &told), "links aren't installed");
}

static void write_one(struct writer *writer, bool defines) {
    pthread_mutex_lock(&lock);
    struct holds *longest = &writer->longest[phase];
    struct span since = now();
    if (defines) define_another();
    else install_some(writer);
    events[phase]++;
    raise_to(defines ? &longest->define : &longest->install, passed(since));
    pthread_mutex_unlock(&lock);
}

static void refresh(struct writer *writer) {
    pthread_mutex_lock(&lock);
    struct span since = now();
    done(linkd_seat_refresh(writer->seat, linker), "no seat is refreshed");
    raise_to(&writer->longest[phase].refresh, passed(since));
    if (phase == AFTER && !writer->is_over) {
        writer->is_over = true;
        gone_over++;
    }
    pthread_mutex_unlock(&lock);
}

static void *write_all(void *of) {
    struct writer *writer = of;
    for (unsigned long turn = writer->seed; !atomic_load(&is_over); turn++) {
        write_one(writer, turn % DEFINES == 0);
        refresh(writer);
        usleep(pause_between);
    }
    return NULL;
}

/* A seat's first refresh writes all links, so it is done before anything is measured. */
static void start_writers(void) {
    for (unsigned i = 0; i < WRITERS; i++) {
        writers[i].seed = i + 1;
        writers[i].seat = block(linkd_seat_size(), linkd_seat_align());
        linkd_seat_blank(writers[i].seat);
        done(linkd_seat_refresh(writers[i].seat, linker), "no seat is refreshed");
    }
    beginnings[BEFORE] = seconds_of(CLOCK_MONOTONIC);
    for (unsigned i = 0; i < WRITERS; i++) {
        int fault = pthread_create(&writers[i].thread, NULL, write_all, &writers[i]);
        must(fault == 0, NO_THREAD, "no thread", (uint32_t)fault);
    }
}

static void end_writers(void) {
    atomic_store(&is_over, true);
    for (int i = 0; i < WRITERS; i++) pthread_join(writers[i].thread, NULL);
    beginnings[PHASES] = seconds_of(CLOCK_MONOTONIC);
    for (int i = 0; i < WRITERS; i++) {
        linkd_seat_leave(writers[i].seat);
        free(writers[i].seat);
    }
}

static void tell_holds(enum phase of) {
    struct holds most = {{0, 0}, {0, 0}, {0, 0}};
    for (int i = 0; i < WRITERS; i++) {
        raise_to(&most.define, writers[i].longest[of].define);
        raise_to(&most.install, writers[i].longest[of].install);
        raise_to(&most.refresh, writers[i].longest[of].refresh);
    }
    printf("longest held by the threads, %s:", PHASE_NAMES[of]);
    tell_hold("define", most.define);
    tell_hold("install", most.install);
    tell_hold("refresh", most.refresh);
    printf(", of %.0f events a second\n", (double)events[of] / (beginnings[of + 1] - beginnings[of]));
}

/* ---- renewals */

static const linkd_released NOTHING = {NULL, 0, NULL, 0};

/* Nothing is retired, so all numbers are as they were. */
static void let_old_go(linkd *old, linkd_numbers *numbers) {
    for (uint32_t site = 0; site < numbers->site_capacity; site++)
        must(numbers->sites[site] == site, BAD_NUMBER, "a site has another number", site);
    let_numbers_go(numbers);
    struct span since = now();
    linkd_close(old);
    printf("the old linker's close: %.3f s\n", passed(since).clock);
    free(old);
}

static linkd *blank_linker(void) {
    linkd *fresh = block(linkd_size(), linkd_align());
    linkd_blank(fresh);
    return fresh;
}

static void renew_at_once(void) {
    linkd_count count;
    linkd *fresh = blank_linker();
    linkd_numbers numbers = numbers_for(linker, &count);
    struct span since = now();
    done(linkd_renew(linker, fresh, MOST_SITES, &NOTHING, &numbers), "no fresh linker is made");
    struct span is = passed(since);
    printf("a renewal in one call: %.3f s (%.3f)\n", is.clock, is.processor);
    fprintf(stderr, "renewed\n");
    linkd *old = linker;
    linker = fresh;
    let_old_go(old, &numbers);
}

static struct span begin(linkd_renewal *renewal) {
    pthread_mutex_lock(&lock);
    struct span since = now();
    phase = BESIDE;
    beginnings[BESIDE] = since.clock;
    done(linkd_renewal_begin(renewal, linker, MOST_SITES, &NOTHING), "no renewal begins");
    struct span held = passed(since);
    pthread_mutex_unlock(&lock);
    return held;
}

/* Gives how many events are left. */
static size_t take(linkd_renewal *renewal, size_t portion, struct span *longest) {
    size_t left = 0;
    pthread_mutex_lock(&lock);
    struct span since = now();
    done(linkd_renewal_take(renewal, linker, portion, &left), "no events are taken");
    raise_to(longest, passed(since));
    pthread_mutex_unlock(&lock);
    return left;
}

/* Gives the old linker. The arrays are made under the lock, too, since there may be no more numbers than these have places for. */
static linkd *finish(linkd_renewal *renewal, linkd_numbers *numbers, struct span *held) {
    linkd_count count;
    linkd_told told;
    linkd *fresh = blank_linker(), *old;
    pthread_mutex_lock(&lock);
    struct span since = now();
    *numbers = numbers_for(linker, &count);
    done(linkd_renewal_finish(renewal, linker, fresh, &told, numbers), "no renewal is finished");
    old = linker;
    linker = fresh;
    phase = AFTER;
    beginnings[AFTER] = seconds_of(CLOCK_MONOTONIC);
    *held = passed(since);
    pthread_mutex_unlock(&lock);
    return old;
}

/* The old linker is closed once each thread has gone over, so that none of them frees its links under the lock. */
static void wait_for_writers(void) {
    bool all = false;
    while (!all) {
        usleep(1000);
        pthread_mutex_lock(&lock);
        all = gone_over == WRITERS;
        pthread_mutex_unlock(&lock);
    }
}

static void renew_in_steps(size_t portion, size_t few) {
    linkd_told told;
    linkd_numbers numbers;
    struct span taking = {0, 0}, longest_fill = {0, 0}, finishing;
    double filling = 0;
    unsigned long portions = 0;
    size_t left;
    linkd_renewal *renewal = block(linkd_renewal_size(), linkd_renewal_align());
    linkd_renewal_blank(renewal);
    struct span start = now(), beginning = begin(renewal);
    do {
        take(renewal, portion, &taking);
        struct span since = now();
        done(linkd_renewal_fill(renewal, &told), "nothing is filled in");
        struct span is = passed(since);
        filling += is.clock;
        raise_to(&longest_fill, is);
        portions++;
        left = take(renewal, 0, &taking);
    } while (left > few);
    fprintf(stderr, "filled\n");
    linkd *old = finish(renewal, &numbers, &finishing);
    struct span whole = passed(start);
    printf("a renewal in steps: %.3f s (%.3f), of which fills %.3f s, the longest %.3f s (%.3f); %lu portions, %zu events left\n", whole.clock,
           whole.processor, filling, longest_fill.clock, longest_fill.processor, portions, left);
    printf("longest held by the renewal:");
    tell_hold("begin", beginning);
    tell_hold("take", taking);
    tell_hold("finish", finishing);
    printf("\n");
    linkd_renewal_leave(renewal);
    wait_for_writers();
    let_old_go(old, &numbers);
    free(renewal);
}

static void renew_beside_writers(size_t portion, size_t few) {
    start_writers();
    sleep(2);
    renew_in_steps(portion, few);
    sleep(1);
    end_writers();
    for (enum phase of = BEFORE; of < PHASES; of++) tell_holds(of);
}

int main(int argc, char **argv) {
    bool in_steps = argc > 1 && strcmp(argv[1], "steps") == 0;
    long portion = argc > 3 ? atol(argv[3]) : 1000, few = argc > 5 ? atol(argv[5]) : 10;
    must(argc >= 3 && argc <= (in_steps ? 6 : 3) && (in_steps || strcmp(argv[1], "once") == 0) && portion > 0 && few >= 0, BAD_WORDS,
         "once FOLDER, or steps FOLDER [PORTION [PAUSE [FEW]]]", 0);
    if (argc > 4) pause_between = (useconds_t)atol(argv[4]);
    open_linker(argv[2]);
    if (in_steps) renew_beside_writers((size_t)portion, (size_t)few);
    else renew_at_once();
    free(linked);
    linkd_close(linker);
    free(linker);
    return fflush(stdout) == 0 ? 0 : BAD_FILE;
}
