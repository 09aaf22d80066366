/* A host of linkd that goes over to fresh linkers in steps: its threads define, retire, retarget and install while another one fills.
 *
 *     stepping FOLDER [ROUNDS]
 *
 * FOLDER holds the class files of java and of dynamic beside this file, and java/lang/Object's. Four threads write, each in turns: it lets
 * the older of its two loaders go; it makes another one, with a Triangle or, in every other turn, a Square, with a Main, and with a Chosen
 * whose invokedynamic gets a call site of its own; it gives that call site a target that a new switch point guards, or makes that point invalid;
 * and it installs what is pending. Each of these is done under the lock. The first thread goes over to a fresh linker ROUNDS (20) times. It
 * begins, takes and fills until few events are left, and finishes, and holds the lock for each step but the fills. What the threads don't
 * need any more is released at the begin: the call sites of loaders that are gone, and switch points that no target names. At the finish
 * each call of each site that stays, on null and on each class that stays, has to be answered by the fresh linker as by the old one, under
 * the new numbers, and each site is linked in both or in none. Then the threads go on by the new numbers. Where a check fails the program
 * says which on standard error, and ends with a status of its own.
 */
#define _POSIX_C_SOURCE 200809L
#include "renewed.h"
#include <pthread.h>
#include <sched.h>
#include <stdatomic.h>

enum { WRITERS = 4, LOADERS = 2, MOST_SITES = 65536, PORTION = 16, FEW = 4, MOST_GONE = 256 };
/* How many turns the threads have before a begin, and until the finish; and for how many the first thread waits. */
enum { TURNS_BEFORE = 12, TURNS = 24, WAITED_BEFORE = 8, WAITED = 20 };

/* Of loader 0, each after its parents; the first ones are delegated to each other loader. */
static const char *const NAMES[] = {"Object", "Measured", "Shape", "Circle", "Square", "Main", "Chosen"};
enum { SQUARE = 4, MAIN = 5, CHOSEN = 6, NAMED = 7 };
static const char TYPE[] = "()LMeasured;";

static struct file files[NAMED], triangle;

struct loader {
    uint32_t number, call_site, point;
    bool has_point;
};

struct writer {
    pthread_t thread;
    struct loader loaders[LOADERS]; /* the older one first */
    size_t count;
    unsigned long made;
};

/* What is gone for good, of which the first ones were released at the begin. */
struct gone {
    uint32_t numbers[MOST_GONE];
    size_t count, released;
};

/* The lock guards the linker and what follows. */
static pthread_mutex_t lock = PTHREAD_MUTEX_INITIALIZER;
static linkd *linker;
static uint32_t sites, chosen_class, targets[2]; /* targets: the methods of loader 0's Chosen that a call site may run */
static struct writer writers[WRITERS];
static struct gone call_sites, points;
static bool is_renewing;
static unsigned long beside, compared; /* beside: changes between a begin and its finish */

static atomic_int turns, allowed = TURNS_BEFORE; /* since the last finish */
static atomic_bool is_over;

/* ---- events: each under the lock */

static uint32_t define(uint32_t loader, const struct file *file) {
    linkd_told told;
    done(linkd_define_up_to(linker, loader, LINKD_NEWEST_KNOWN, file->bytes, file->length, &told), file->name);
    uint32_t number = told.number;
    request_all(linker, number, &sites);
    return number;
}

static void let_go(struct gone *gone, uint32_t number) {
    must(gone->count < MOST_GONE, NO_MEMORY, "too much is let go in a round", number);
    gone->numbers[gone->count++] = number;
}

static void let_older_go(struct writer *writer) {
    linkd_told told;
    struct loader *older = &writer->loaders[0];
    if (writer->count < LOADERS) return;
    done(linkd_retire(linker, older->number, &told), "a loader isn't retired");
    let_go(&call_sites, older->call_site);
    if (older->has_point) let_go(&points, older->point);
    memmove(older, older + 1, --writer->count * sizeof *older);
}

static uint32_t new_call_site(void) {
    linkd_told told;
    linkd_target_part target = {LINKD_METHOD_TARGET, chosen_class, targets[0]};
    done(linkd_new_call_site_of(linker, 2, (const uint8_t *)TYPE, strlen(TYPE), &target, 1, &told), "no call site");
    return told.number;
}

/* Binds the invokedynamic of a Chosen, whose sites are the last ones. */
static void bind(uint32_t first, uint32_t call_site) {
    linkd_told told;
    uint32_t bound = 0;
    for (uint32_t site = first; site < sites; site++) {
        uint32_t status = linkd_bind(linker, site, call_site, &told);
        if (status == LINKD_NOT_DYNAMIC) continue;
        done(status, "a site isn't bound");
        bound++;
    }
    must(bound == 1, REFUSED, "Chosen has another number of invokedynamics than 1", bound);
}

static void add_loader(struct writer *writer) {
    bool has_triangle = writer->made++ % 2 == 0;
    linkd_told told;
    done(linkd_new_loader(linker, &told), "no loader is made");
    struct loader made = {told.number, new_call_site(), 0, false};
    for (int i = 0; i < (has_triangle ? MAIN : SQUARE); i++) {
        const char *name = i == 0 ? "java/lang/Object" : NAMES[i];
        done(linkd_delegate(linker, made.number, (const uint8_t *)name, strlen(name), 0, &told), "a loader doesn't delegate");
    }
    define(made.number, has_triangle ? &triangle : &files[SQUARE]);
    define(made.number, &files[MAIN]);
    uint32_t first = sites;
    define(made.number, &files[CHOSEN]);
    bind(first, made.call_site);
    writer->loaders[writer->count++] = made;
}

/* A target that a new switch point guards; or that point becomes invalid. */
static void retarget(struct writer *writer) {
    linkd_told told;
    struct loader *newest = &writer->loaders[writer->count - 1];
    if (newest->has_point) {
        done(linkd_invalidate(linker, &newest->point, 1, &told), "a switch point isn't invalidated");
        return;
    }
    done(linkd_new_switch(linker, &told), "no switch point");
    newest->point = told.number;
    newest->has_point = true;
    linkd_target_part parts[] = {{LINKD_GUARD_TARGET, newest->point, 0},
                                 {LINKD_METHOD_TARGET, chosen_class, targets[1]},
                                 {LINKD_METHOD_TARGET, chosen_class, targets[0]}};
    done(linkd_set_target_of(linker, newest->call_site, parts, 3, &told), "no new target");
}

static void install_pending(struct writer *writer) {
    (void)writer;
    install_pending_of(linker, sites);
}

static void change(void (*what)(struct writer *), struct writer *writer) {
    pthread_mutex_lock(&lock);
    what(writer);
    beside += is_renewing;
    pthread_mutex_unlock(&lock);
    sched_yield();
}

static void *write_all(void *of) {
    struct writer *writer = of;
    while (!atomic_load(&is_over)) {
        if (atomic_load(&turns) >= atomic_load(&allowed)) {
            sched_yield();
            continue;
        }
        change(let_older_go, writer);
        change(add_loader, writer);
        change(install_pending, writer);
        change(retarget, writer);
        change(install_pending, writer);
        change(retarget, writer);
        atomic_fetch_add(&turns, 1);
    }
    return NULL;
}

/* ---- a renewal in steps */

static void begin(linkd_renewal *renewal) {
    pthread_mutex_lock(&lock);
    linkd_released released = {call_sites.numbers, call_sites.count, points.numbers, points.count};
    done(linkd_renewal_begin(renewal, linker, MOST_SITES, &released), "no renewal begins");
    call_sites.released = call_sites.count;
    points.released = points.count;
    is_renewing = true;
    atomic_store(&allowed, TURNS);
    pthread_mutex_unlock(&lock);
}

/* Gives how many are left. */
static size_t take(linkd_renewal *renewal, size_t most) {
    size_t left = 0;
    pthread_mutex_lock(&lock);
    done(linkd_renewal_take(renewal, linker, most, &left), "no events are taken");
    pthread_mutex_unlock(&lock);
    return left;
}

static void fill(linkd_renewal *renewal) {
    linkd_told told;
    done(linkd_renewal_fill(renewal, &told), "nothing is filled in");
}

static uint32_t renumbered(const uint32_t *numbers, uint32_t old) {
    must(numbers[old] != LINKD_NO_NUMBER, BAD_NUMBER, "what is needed is gone", old);
    return numbers[old];
}

/* What was let go since the begin is released at the next one. */
static void renumber_gone(struct gone *gone, const uint32_t *numbers) {
    for (size_t i = gone->released; i < gone->count; i++) gone->numbers[i - gone->released] = renumbered(numbers, gone->numbers[i]);
    gone->count -= gone->released;
    gone->released = 0;
}

static void renumber_all(const linkd_numbers *numbers) {
    for (int i = 0; i < WRITERS; i++) {
        for (size_t j = 0; j < writers[i].count; j++) {
            struct loader *loader = &writers[i].loaders[j];
            loader->number = renumbered(numbers->loaders, loader->number);
            loader->call_site = renumbered(numbers->call_sites, loader->call_site);
            if (loader->has_point) loader->point = renumbered(numbers->switches, loader->point);
        }
    }
    chosen_class = renumbered(numbers->classes, chosen_class);
    renumber_gone(&call_sites, numbers->call_sites);
    renumber_gone(&points, numbers->switches);
}

static void finish(linkd_renewal *renewal) {
    linkd_count count;
    linkd_told told;
    linkd *fresh = block(linkd_size(), linkd_align()), *old;
    linkd_blank(fresh);
    pthread_mutex_lock(&lock);
    linkd_numbers numbers = numbers_for(linker, &count);
    done(linkd_renewal_finish(renewal, linker, fresh, &told, &numbers), "no renewal is finished");
    compared += sites = compare_all(linker, fresh, &numbers);
    renumber_all(&numbers);
    old = linker;
    linker = fresh;
    is_renewing = false;
    atomic_store(&turns, 0);
    atomic_store(&allowed, TURNS_BEFORE);
    pthread_mutex_unlock(&lock);
    let_numbers_go(&numbers);
    linkd_close(old);
    free(old);
}

static void go_over(linkd_renewal *renewal) {
    while (atomic_load(&turns) < WAITED_BEFORE) sched_yield();
    begin(renewal);
    do {
        take(renewal, PORTION);
        fill(renewal);
    } while (take(renewal, 0) > FEW || atomic_load(&turns) < WAITED);
    finish(renewal);
}

/* ---- the program */

/* The methods of Chosen that a call site may run are those of its type but for the one that has the invokedynamic. */
static void find_targets(void) {
    static const char name[] = "chosen";
    uint8_t is[64];
    size_t length = 0;
    for (uint32_t method = 0, found = 0; found < 2; method++) {
        done(linkd_method_type(linker, chosen_class, method, is, sizeof is, &length), "Chosen has too few methods of the type");
        if (length != strlen(TYPE) || memcmp(is, TYPE, length) != 0) continue;
        done(linkd_method_name(linker, chosen_class, method, is, sizeof is, &length), "a method has no name");
        if (length != strlen(name) || memcmp(is, name, length) != 0) targets[found++] = method;
    }
}

static void open_linker(const char *folder) {
    for (int i = 0; i < NAMED; i++) files[i] = read_file(folder, NAMES[i]);
    triangle = read_file(folder, "Triangle");
    linker = block(linkd_size(), linkd_align());
    linkd_blank(linker);
    done(linkd_open(linker, MOST_SITES), "the linker isn't opened");
    for (int i = 0; i < NAMED; i++) chosen_class = define(0, &files[i]);
    find_targets();
}

int main(int argc, char **argv) {
    long rounds = argc > 2 ? atol(argv[2]) : 20;
    must(argc >= 2 && argc <= 3 && rounds > 0, BAD_WORDS, "FOLDER [ROUNDS]", 0);
    open_linker(argv[1]);
    linkd_renewal *renewal = block(linkd_renewal_size(), linkd_renewal_align());
    linkd_renewal_blank(renewal);
    for (int i = 0; i < WRITERS; i++) {
        int fault = pthread_create(&writers[i].thread, NULL, write_all, &writers[i]);
        must(fault == 0, NO_THREAD, "no thread", (uint32_t)fault);
    }
    for (long round = 0; round < rounds; round++) go_over(renewal);
    atomic_store(&is_over, true);
    for (int i = 0; i < WRITERS; i++) pthread_join(writers[i].thread, NULL);
    printf("%ld renewals in steps, beside %lu changes of %d threads; %lu sites compared\n", rounds, beside, WRITERS, compared);
    must(beside > 0 && compared > 0, NOTHING_SHOWN, "the threads have shown nothing", 0);
    linkd_renewal_leave(renewal);
    free(renewal);
    linkd_close(linker);
    free(linker);
    for (int i = 0; i < NAMED; i++) let_file_go(&files[i]);
    let_file_go(&triangle);
    return fflush(stdout) == 0 ? 0 : BAD_FILE;
}
