/* A host of linkd that compiles: what its threads compile is installed only if its links are from scratch then.
 *
 *     compilers FOLDER [ROUNDS]
 *
 * FOLDER holds the class files of java and dynamic beside this file, and java/lang/Object's. In a round one thread changes what there is to
 * link, all under one lock: it makes loaders, each with a Triangle of its own, which overrides, and a Main of its own, whose calls are
 * requested; it lets such loaders go; and it gives a call site another target. Beside it
 *  - four threads compile: each takes a view under the lock, prepares a few sites in it without the lock, waits as long as a compiler may
 *    take, and installs by value. Where that is stale it goes again from a new view;
 *  - two threads call at seats, refreshed where the count of changes tells so, and hold each answer to linkd_call where the count hasn't
 *    moved meanwhile, so that a change that isn't counted is found.
 * Code stands at a site from its install until linkd_dropped names the site. At the end of a round what it runs is compared, for null and
 * each class, with linkd_call. There are ROUNDS (40), each with a new linker, and more where one of the outcomes of an install wasn't seen.
 * Where a check fails the program says which on standard error, and ends with a status of its own.
 */
#define _POSIX_C_SOURCE 200809L
#include "common.h"
#include <pthread.h>
#include <stdatomic.h>
#include <time.h>

enum { COMPILERS = 4, CALLERS = 2, CHANGES = 60, MOST_LOADERS = 9, MOST_SITES = 4096, BATCH = 8, CALLS = 64, MOST_ROUNDS = 50 };

/* Of loader 0, each after its parents; Main's calls are requested there, too, and some of them wait for a Triangle for ever. */
static const char *const NAMES[] = {"Object", "Measured", "Shape", "Circle", "Square", "Main", "Chosen"};
enum { MAIN = 5, NAMED = 7, DELEGATED = 5 };

static struct file files[NAMED], triangle;

/* The lock guards the linker and what follows. Each change of what a seat would be given is counted under it. */
static pthread_mutex_t lock = PTHREAD_MUTEX_INITIALIZER;
static linkd *linker;
static uint32_t sites, classes;
static uint32_t call_site, chosen_class, targets[2]; /* of the invokedynamic, and the methods of its class that it may run */
static linkd_link code[MOST_SITES];    /* what the code that is installed at a site goes by; LINKD_NONE where there is none */
static uint32_t loaders[MOST_LOADERS]; /* those that may go */
static size_t loader_count;
static struct { unsigned long at_once, later, stale, gone, calls, missed; } seen;

static atomic_uint changes;
static atomic_bool is_over;

static void wait_a_while(unsigned *seed) {
    struct timespec time = {0, 1000L * (rand_r(seed) % 400)};
    nanosleep(&time, NULL);
}

static uint32_t draw(unsigned *seed, uint32_t below) { return (uint32_t)rand_r(seed) % below; }

static bool same_link(const linkd_link *one, const linkd_link *other) { return memcmp(one, other, sizeof *one) == 0; }

/* ---- events: each under the lock */

/* After an event: the code goes whose links it removed, before anything runs it again. */
static void changed(uint32_t status, const linkd_told *told, const char *what) {
    static uint32_t dropped[MOST_SITES];
    size_t count = 0;
    done(status, what);
    done(linkd_dropped(linker, dropped, MOST_SITES, &count), "it isn't told what was dropped");
    must(told->dropped == count, LOST_ANSWER, "another number of links is told than went", told->dropped);
    for (size_t i = 0; i < count; i++) {
        must(code[dropped[i]].kind != LINKD_NONE, LOST_ANSWER, "a link was dropped by which no code goes, of site", dropped[i]);
        code[dropped[i]].kind = LINKD_NONE;
    }
    atomic_fetch_add(&changes, 1);
}

static uint32_t define(uint32_t loader, const struct file *file) {
    linkd_told told;
    changed(linkd_define_up_to(linker, loader, LINKD_NEWEST_KNOWN, file->bytes, file->length, &told), &told, file->name);
    if (told.number >= classes) classes = told.number + 1;
    return told.number;
}

static void request(uint32_t class_number) {
    request_all(linker, class_number, &sites);
    must(sites <= MOST_SITES, REFUSED, "more sites than this host has room for", sites);
    atomic_fetch_add(&changes, 1); /* a request removes no link */
}

/* A loader with a Triangle, then its Main, whose calls are linkable only now. */
static void add_loader(unsigned *seed) {
    linkd_told told;
    pthread_mutex_lock(&lock);
    changed(linkd_new_loader(linker, &told), &told, "no loader is made");
    uint32_t loader = told.number;
    for (int i = 0; i < DELEGATED; i++) {
        const char *name = i == 0 ? "java/lang/Object" : NAMES[i];
        changed(linkd_delegate(linker, loader, (const uint8_t *)name, strlen(name), 0, &told), &told, "a loader doesn't delegate");
    }
    request(define(loader, &triangle));
    pthread_mutex_unlock(&lock);
    wait_a_while(seed);
    pthread_mutex_lock(&lock);
    request(define(loader, &files[MAIN]));
    loaders[loader_count++] = loader;
    pthread_mutex_unlock(&lock);
}

/* A runtime does this once it has found that no object, no code and no class of the loader is in use. */
static void let_loader_go(uint32_t place) {
    linkd_told told;
    pthread_mutex_lock(&lock);
    changed(linkd_retire(linker, loaders[place], &told), &told, "a loader isn't retired");
    loaders[place] = loaders[--loader_count];
    pthread_mutex_unlock(&lock);
}

static size_t write_target(char *out, size_t size, uint32_t class_number, uint32_t method) {
    return (size_t)snprintf(out, size, "{\"method\":[%lu,%lu]}", (unsigned long)class_number, (unsigned long)method);
}

static void retarget(uint32_t number) {
    linkd_told told;
    char target[64];
    size_t length = write_target(target, sizeof target, chosen_class, targets[number]);
    pthread_mutex_lock(&lock);
    changed(linkd_set_target(linker, call_site, (const uint8_t *)target, length, &told), &told, "no new target");
    pthread_mutex_unlock(&lock);
}

static void change_all(unsigned *seed) {
    for (int i = 0; i < CHANGES; i++) {
        uint32_t which = draw(seed, 5);
        if (loader_count == MOST_LOADERS || (which == 0 && loader_count > 0)) let_loader_go(draw(seed, (uint32_t)loader_count));
        else if (which < 3) add_loader(seed);
        else retarget(draw(seed, 2));
        wait_a_while(seed);
    }
}

/* ---- what code runs */

static bool throws(const linkd_call_answer *answer, uint32_t what) {
    return same_answer(answer, &(linkd_call_answer){LINKD_THROWS, 0, what});
}

/* Whether code by this link does what is answered. A direct link comes to its row on any object that may stand there, and a table has a
 * row for the class of each; only at invokeinterface may one stand there that has no such method at all. */
static bool does(const linkd_link *link, uint32_t receiver, const linkd_call_answer *answer) {
    bool looks = link->kind != LINKD_FAULT && link->kind != LINKD_PLAIN;
    const linkd_row *row = link->rows, *end = row + link->count;
    if (looks && receiver == LINKD_NULL) return throws(answer, LINKD_NULL_POINTER_EXCEPTION);
    if (link->kind == LINKD_MEGA) return answer->kind != LINKD_UNLINKED; /* the code asks the linker, so it does what that answers */
    if (link->kind == LINKD_VIRTUAL_TABLE || link->kind == LINKD_INTERFACE_TABLE)
        while (row < end && row->receiver != receiver) row++;
    if (row < end && (answer->kind != LINKD_BAD_RECEIVER || link->kind != LINKD_DIRECT))
        return same_answer(answer, &(linkd_call_answer){row->kind, row->class_number, row->value});
    return answer->kind == LINKD_BAD_RECEIVER
        || (link->kind == LINKD_INTERFACE_TABLE && throws(answer, LINKD_INCOMPATIBLE_CLASS_CHANGE_ERROR));
}

/* The receivers are null and each class, so the number of a class is less by one. */
static uint32_t receiver(uint32_t number) { return number == 0 ? LINKD_NULL : number - 1; }

/* ---- threads that compile */

/* Some sites, and the links by which their code is compiled. */
struct work {
    size_t count;
    uint32_t sites[BATCH];
    linkd_link links[BATCH];
};

static void leave_out(struct work *work, uint32_t site) {
    size_t at = 0, last = work->count - 1;
    while (at <= last && work->sites[at] != site) at++;
    must(at <= last, WRONG_ANSWER, "a batch is refused for a site that isn't in it", site);
    work->sites[at] = work->sites[last];
    work->links[at] = work->links[last];
    work->count = last;
}

/* Takes a view and prepares in it, but for the sites that aren't ready there: they are left out. */
static void prepare(linkd_view *view, struct work *work) {
    linkd_told told;
    linkd_call_answer answer;
    uint32_t status = LINKD_DONE;
    pthread_mutex_lock(&lock);
    done(linkd_view_take(view, linker), "no view is taken");
    uint32_t known = classes;
    pthread_mutex_unlock(&lock);
    while (work->count > 0 && (status = linkd_view_prepare(view, work->sites, work->count, work->links, BATCH, &told)) == LINKD_NOT_READY)
        leave_out(work, told.place);
    if (work->count > 0) done(status, "a batch isn't prepared");
    for (size_t i = 0; i < work->count; i++) {
        for (uint32_t number = 0; number <= known; number++) {
            done(linkd_view_call(view, work->sites[i], receiver(number), &answer), "a view answers no call");
            must(does(&work->links[i], receiver(number), &answer), WRONG_ANSWER, "a view and its link differ at site", work->sites[i]);
        }
    }
    linkd_view_leave(view);
}

static uint32_t ask_to_install(const struct work *work, linkd_told *told, linkd_link *present) {
    linkd_link_row rows[BATCH];
    for (size_t i = 0; i < work->count; i++) rows[i] = (linkd_link_row){work->sites[i], work->links[i]};
    return linkd_install_links(linker, rows, work->count, told, present);
}

/* Installs what was compiled, but for the sites that are gone. Gives whether it wasn't stale. */
static bool install(struct work *work, bool first) {
    linkd_link present;
    linkd_told told;
    linkd_call_answer answer;
    uint32_t status = LINKD_DONE;
    pthread_mutex_lock(&lock);
    while (work->count > 0 && (status = ask_to_install(work, &told, &present)) == LINKD_NOT_READY) {
        done(linkd_call(linker, told.place, LINKD_NULL, &answer), "no call is answered");
        must(answer.kind == LINKD_UNLINKED && answer.value == LINKD_GONE, WRONG_ANSWER, "what was ready isn't, at site", told.place);
        leave_out(work, told.place);
        seen.gone++;
    }
    if (work->count > 0 && status == LINKD_STALE) {
        for (size_t i = 0; i < work->count; i++)
            must(work->sites[i] != told.place || !same_link(&work->links[i], &present), WRONG_ANSWER, "no other link is there", told.place);
        seen.stale++;
    } else if (work->count > 0) {
        done(status, "what was compiled isn't installed");
        for (size_t i = 0; i < work->count; i++) code[work->sites[i]] = work->links[i];
        atomic_fetch_add(&changes, 1);
        if (first) seen.at_once++;
        else seen.later++;
    }
    pthread_mutex_unlock(&lock);
    return work->count == 0 || status != LINKD_STALE;
}

/* Draws sites, most of them without code. */
static void draw_work(unsigned *seed, struct work *work) {
    size_t most = 1 + draw(seed, BATCH);
    pthread_mutex_lock(&lock);
    for (uint32_t from = draw(seed, sites), i = 0; i < sites && work->count < most; i++) {
        uint32_t site = (from + i) % sites;
        if (code[site].kind == LINKD_NONE || draw(seed, 16) == 0) work->sites[work->count++] = site;
    }
    pthread_mutex_unlock(&lock);
}

static void compile(linkd_view *view, unsigned *seed) {
    struct work work = {0};
    bool is_first = true, is_stale;
    draw_work(seed, &work);
    do {
        prepare(view, &work);
        wait_a_while(seed);
        is_stale = !install(&work, is_first);
        is_first = false;
    } while (is_stale);
}

static void *compile_all(void *seed) {
    linkd_view *view = block(linkd_view_size(), linkd_view_align());
    linkd_view_blank(view);
    while (!atomic_load(&is_over)) compile(view, seed);
    free(view);
    return NULL;
}

/* ---- threads that call */

struct call { uint32_t site, receiver; linkd_call_answer answer; };

/* Under the lock, where the count hasn't moved since the seat was refreshed: it answers as the linker does, or misses where it may. */
static void compare(const struct call *call) {
    linkd_call_answer answer;
    done(linkd_call(linker, call->site, call->receiver, &answer), "no call is answered");
    uint32_t kind = code[call->site].kind;
    bool may_miss = kind == LINKD_NONE || kind == LINKD_MEGA || answer.kind == LINKD_BAD_RECEIVER;
    if (call->answer.kind == LINKD_MISS) must(may_miss, LOST_ANSWER, "a seat misses what was installed before, at site", call->site);
    else must(answer.kind == LINKD_BAD_RECEIVER || same_answer(&answer, &call->answer), WRONG_ANSWER, "a seat answers from before at site",
              call->site);
    seen.missed += call->answer.kind == LINKD_MISS;
    seen.calls++;
}

static void *call_all(void *seed) {
    linkd_seat *seat = block(linkd_seat_size(), linkd_seat_align());
    struct call calls[CALLS];
    linkd_seat_blank(seat);
    while (!atomic_load(&is_over)) {
        pthread_mutex_lock(&lock);
        unsigned known = atomic_load(&changes);
        uint32_t most_sites = sites, most_classes = classes;
        done(linkd_seat_refresh(seat, linker), "no seat is refreshed");
        pthread_mutex_unlock(&lock);
        while (atomic_load(&changes) == known && !atomic_load(&is_over)) {
            for (int i = 0; i < CALLS; i++) {
                calls[i].site = draw(seed, most_sites);
                calls[i].receiver = receiver(draw(seed, most_classes + 3)); /* also of classes that are newer, if there are any */
                done(linkd_seat_call(seat, calls[i].site, calls[i].receiver, &calls[i].answer), "a seat answers no call");
            }
            pthread_mutex_lock(&lock);
            for (int i = 0; i < CALLS && atomic_load(&changes) == known; i++) compare(&calls[i]);
            pthread_mutex_unlock(&lock);
            wait_a_while(seed);
        }
    }
    linkd_seat_leave(seat);
    free(seat);
    return NULL;
}

/* ---- a round */

static void open_linker(void) {
    static const char type[] = "()LMeasured;", name[] = "chosen";
    linkd_told told;
    char target[64];
    uint8_t is[64];
    size_t length = 0;
    linker = block(linkd_size(), linkd_align());
    linkd_blank(linker);
    sites = classes = 0;
    loader_count = 0;
    memset(code, 0, sizeof code);
    done(linkd_open(linker, MOST_SITES), "the linker isn't opened");
    for (int i = 0; i < NAMED; i++) chosen_class = define(0, &files[i]);
    for (uint32_t i = 0; i < classes; i++) request(i);
    /* The methods of Chosen that the call site may run are those of its type but for the one that has the invokedynamic. */
    for (uint32_t method = 0, found = 0; found < 2; method++) {
        done(linkd_method_type(linker, chosen_class, method, is, sizeof is, &length), "Chosen has too few methods of the type");
        if (length != strlen(type) || memcmp(is, type, length) != 0) continue;
        done(linkd_method_name(linker, chosen_class, method, is, sizeof is, &length), "a method has no name");
        if (length != strlen(name) || memcmp(is, name, length) != 0) targets[found++] = method;
    }
    length = write_target(target, sizeof target, chosen_class, targets[0]);
    changed(linkd_new_call_site(linker, 2, (const uint8_t *)type, strlen(type), (const uint8_t *)target, length, &told), &told, "no call site");
    call_site = told.number;
}

/* Binds each invokedynamic, as a bootstrap method would that gives one call site to all. */
static void bind_all(void) {
    linkd_told told;
    uint32_t bound = 0;
    for (uint32_t site = 0; site < sites; site++) {
        uint32_t status = linkd_bind(linker, site, call_site, &told);
        if (status == LINKD_NOT_DYNAMIC) continue;
        changed(status, &told, "a site isn't bound");
        bound++;
    }
    must(bound == 1, REFUSED, "Chosen has another number of invokedynamics than 1", bound);
}

/* Nothing changes any more: what is ready is compiled and accepted at once. */
static void compile_rest(linkd_view *view) {
    for (uint32_t from = 0; from < sites; from += BATCH) {
        struct work work = {0};
        for (uint32_t site = from; site < sites && site < from + BATCH; site++)
            if (code[site].kind == LINKD_NONE) work.sites[work.count++] = site;
        prepare(view, &work);
        must(install(&work, true), WRONG_ANSWER, "what nothing changed is stale, from site", from);
    }
}

/* No code is installed by a link that isn't from scratch. Gives how many sites have code. */
static uint32_t check_all(void) {
    uint32_t with_code = 0;
    for (uint32_t site = 0; site < sites; site++) {
        linkd_link link;
        linkd_call_answer answer;
        done(linkd_link_of(linker, site, &link), "no link is told");
        must(link.kind == code[site].kind && (link.kind == LINKD_NONE || same_link(&link, &code[site])), WRONG_ANSWER,
             "code goes by another link than the installed one, at site", site);
        for (uint32_t number = 0; code[site].kind != LINKD_NONE && number <= classes; number++) {
            done(linkd_call(linker, site, receiver(number), &answer), "no call is answered");
            must(does(&code[site], receiver(number), &answer), WRONG_ANSWER, "code doesn't run what a call comes to, at site", site);
        }
        with_code += code[site].kind != LINKD_NONE;
    }
    return with_code;
}

static void play(unsigned round, bool tell) {
    pthread_t threads[COMPILERS + CALLERS];
    unsigned seeds[COMPILERS + CALLERS], seed = round * 1000;
    open_linker();
    bind_all();
    atomic_store(&is_over, false);
    for (unsigned i = 0; i < COMPILERS + CALLERS; i++) {
        seeds[i] = seed + i + 1;
        int fault = pthread_create(&threads[i], NULL, i < COMPILERS ? compile_all : call_all, &seeds[i]);
        must(fault == 0, NO_THREAD, "no thread", (uint32_t)fault);
    }
    change_all(&seed);
    atomic_store(&is_over, true);
    for (unsigned i = 0; i < COMPILERS + CALLERS; i++) pthread_join(threads[i], NULL);

    check_all();
    linkd_view *view = block(linkd_view_size(), linkd_view_align());
    linkd_view_blank(view);
    compile_rest(view);
    uint32_t with_code = check_all();
    if (tell)
        printf("a round: %lu classes, %lu sites, code at %lu of them\n", (unsigned long)classes, (unsigned long)sites,
               (unsigned long)with_code);

    /* A view may outlive its linker. */
    linkd_call_answer answer, later;
    done(linkd_view_take(view, linker), "no view is taken");
    done(linkd_call(linker, 0, LINKD_NULL, &answer), "no call is answered");
    linkd_close(linker);
    free(linker);
    done(linkd_view_call(view, 0, LINKD_NULL, &later), "a view answers no call");
    must(same_answer(&answer, &later), WRONG_ANSWER, "a view changes with its linker", 0);
    linkd_view_leave(view);
    must(linkd_view_call(view, 0, LINKD_NULL, &later) == LINKD_CLOSED, WRONG_ANSWER, "a view answers that was left", 0);
    free(view);
}

int main(int argc, char **argv) {
    long rounds = argc > 2 ? atol(argv[2]) : 40;
    unsigned round = 0;
    must(argc >= 2 && argc <= 3 && rounds > 0, BAD_WORDS, "FOLDER [ROUNDS]", 0);
    for (int i = 0; i < NAMED; i++) files[i] = read_file(argv[1], NAMES[i]);
    triangle = read_file(argv[1], "Triangle");
    while (round < (unsigned long)rounds || (round < (unsigned long)rounds * MOST_ROUNDS && (!seen.at_once || !seen.stale || !seen.gone))) {
        play(round, round == 0);
        round++;
    }
    bool all_seen = seen.at_once && seen.later && seen.stale && seen.gone && seen.calls > seen.missed;
    must(all_seen, NOTHING_SHOWN, "an outcome was never seen, in rounds", round);
    printf("%u rounds of %d compilers: %lu installs accepted at once, %lu stale, %lu accepted after that; %lu sites gone meanwhile\n",
           round, COMPILERS, seen.at_once, seen.stale, seen.later, seen.gone);
    printf("%lu calls at seats held to the linker's answers, %lu of them missed\n", seen.calls, seen.missed);
    for (int i = 0; i < NAMED; i++) let_file_go(&files[i]);
    let_file_go(&triangle);
    puts("all as it must be");
    return fflush(stdout) == 0 ? 0 : BAD_FILE;
}
