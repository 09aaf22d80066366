/* A host of linkd: it links the calls of some classes, and four threads call while a class is defined that overrides.
 *
 *     host FOLDER LATE [ROUNDS]
 *
 * FOLDER holds class files NAME.class, java/lang/Object's among them. All but LATE.class are defined in loader 0, their invocations are
 * requested, and those that are ready are installed. Then four threads call each site on null and on each class, at seats of their own
 * and by memos of their own where a link is megamorphic, while this one defines LATE and installs what is pending. Each answer has to be
 * the one of the links that the seat was last given. All of this is done ROUNDS (200) times, each time with a new linker. Where a check
 * fails the program says which on standard error, and ends with a status of its own.
 */
#define _POSIX_C_SOURCE 200809L
#include "common.h"
#include <dirent.h>
#include <pthread.h>
#include <sched.h>
#include <stdatomic.h>
#include <time.h>

enum { THREADS = 4, BATCH = 256, MOST_SITES = 4096, CHANGES = 3, MEMO_SETS = 1024 };

/* ---- class files */

struct class_of {
    struct file file;
    bool defined;
    uint32_t number; /* once it was defined */
};

static struct class_of *all, late;
static size_t all_count;

static int by_name(const void *one, const void *other) {
    return strcmp(((const struct class_of *)one)->file.name, ((const struct class_of *)other)->file.name);
}

static void read_folder(const char *folder, const char *late_name) {
    DIR *from = opendir(folder);
    must(from != NULL, BAD_FILE, folder, 0);
    for (struct dirent *entry; (entry = readdir(from));) {
        size_t length = strlen(entry->d_name);
        if (length < 7 || strcmp(entry->d_name + length - 6, ".class") != 0) continue;
        entry->d_name[length - 6] = 0;
        if (strcmp(entry->d_name, late_name) == 0) continue;
        all = memory(realloc(all, (all_count + 1) * sizeof *all));
        all[all_count++] = (struct class_of){read_file(folder, entry->d_name), false, 0};
    }
    closedir(from);
    must(all_count > 0, BAD_FILE, "no class file in the folder", 0);
    qsort(all, all_count, sizeof *all, by_name);
    late.file = read_file(folder, late_name);
}

/* ---- one linker */

static linkd *linker;
static uint32_t sites, classes, unlinkable;

static bool define(struct class_of *class) {
    linkd_told told;
    uint32_t status = linkd_define_up_to(linker, 0, LINKD_NEWEST_KNOWN, class->file.bytes, class->file.length, &told);
    if (status == LINKD_DEFINE && told.fault == LINKD_MISSING_PARENT) return false;
    if (status != LINKD_DONE) fprintf(stderr, "host: %s\n", refusal_name(status, told.fault));
    must(status == LINKD_DONE, REFUSED, class->file.name, status);
    class->number = told.number;
    classes = told.number + 1;
    return true;
}

/* Defines all classes, each after its parents: what has a parent that isn't there yet is tried again. */
static void define_all(void) {
    size_t left = all_count, before = 0;
    for (size_t i = 0; i < all_count; i++) all[i].defined = false;
    while (left != before) {
        before = left;
        for (size_t i = 0; i < all_count; i++) {
            if (all[i].defined || !define(&all[i])) continue;
            all[i].defined = true;
            left--;
        }
    }
    must(left == 0, REFUSED, "classes without their parents", (uint32_t)left);
}

static void request(const struct class_of *class) { unlinkable += request_all(linker, class->number, &sites); }

static uint32_t link_kind(uint32_t site) {
    linkd_link link;
    done(linkd_link_of(linker, site, &link), "no link is told");
    return link.kind;
}

/* Installs all pending sites that are ready. */
static void install_pending(void) {
    uint32_t batch[BATCH];
    linkd_link links[BATCH];
    linkd_told told;
    size_t count = 0;
    for (uint32_t site = 0; site < sites; site++) {
        if (link_kind(site) == LINKD_NONE) batch[count++] = site;
        if (count == BATCH || site + 1 == sites) {
            done(linkd_install_ready(linker, batch, count, links, BATCH, &told), "a batch isn't installed");
            for (size_t i = 0; i < count; i++)
                must(links[i].kind == link_kind(batch[i]), WRONG_ANSWER, "a link is told that isn't installed, of site", batch[i]);
            count = 0;
        }
    }
}

/* ---- what has to be answered */

/* Change 0 is the first install, 1 the definition of LATE, 2 the second install. */
enum known { MISS, REMEMBERED, ANSWER, ANYTHING };

struct question {
    linkd_call_answer answer; /* of the linker */
    /* What a seat has to answer: a miss; this, once its memo was asked; this; or anything, since no object can be such a receiver. */
    enum known known;
};

static struct {
    uint32_t sites;
    struct question *questions; /* for each site: on null, then on each class, of which LATE's is the last one */
} after[CHANGES];

/* Guards the linker. What a change made is written before the change is counted, and both are done under the lock. */
static pthread_mutex_t lock = PTHREAD_MUTEX_INITIALIZER;
static atomic_uint changes, passed[CHANGES];

static uint32_t receivers(void) { return (uint32_t)all_count + 2; }
static uint32_t receiver(uint32_t number) { return number == 0 ? LINKD_NULL : number - 1; }
static struct question *question(unsigned change, uint32_t site, uint32_t number) {
    return &after[change].questions[site * receivers() + number];
}

/* Writes down what is so after this change, and counts it. */
static void publish(unsigned change) {
    after[change].sites = sites;
    after[change].questions = memory(calloc((size_t)sites * receivers() + 1, sizeof(struct question)));
    for (uint32_t site = 0; site < sites; site++) {
        uint32_t kind = link_kind(site);
        bool looks = kind != LINKD_PLAIN && kind != LINKD_FAULT;
        for (uint32_t number = 0; number < receivers(); number++) {
            struct question *asked = question(change, site, number);
            done(linkd_call(linker, site, receiver(number), &asked->answer), "no call is answered");
            if (kind == LINKD_MEGA) asked->known = REMEMBERED;
            else if (kind == LINKD_NONE || (looks && number > 0 && receiver(number) >= classes)) asked->known = MISS;
            else asked->known = asked->answer.kind == LINKD_BAD_RECEIVER ? ANYTHING : ANSWER;
        }
    }
    atomic_store(&changes, change);
}

/* What a host does on a miss: it asks the linker, under the lock, and its thread's memo remembers the answer at a megamorphic site. */
static void ask_linker(linkd_memo *memo, uint32_t site, uint32_t number) {
    linkd_call_answer answer;
    pthread_mutex_lock(&lock);
    done(linkd_memo_ask(memo, linker, site, receiver(number), &answer), "no call is answered");
    must(same_answer(&answer, &question(atomic_load(&changes), site, number)->answer), WRONG_ANSWER,
         "the linker takes an answer back at site", site);
    pthread_mutex_unlock(&lock);
}

static void ask_all(linkd_seat *seat, linkd_memo *memo, unsigned seen, bool ask) {
    for (uint32_t site = 0; site < after[seen].sites; site++) {
        for (uint32_t number = 0; number < receivers(); number++) {
            const struct question *asked = question(seen, site, number);
            linkd_call_answer answer;
            done(linkd_seat_call_with(seat, memo, site, receiver(number), &answer), "a seat answers no call");
            if (answer.kind == LINKD_MISS && (asked->known == MISS || asked->known == REMEMBERED)) {
                if (ask) ask_linker(memo, site, number);
            } else if (asked->known == MISS) {
                must(false, WRONG_ANSWER, "a seat answers what its links say nothing of, at site", site);
            } else if (asked->known != ANYTHING) {
                must(same_answer(&answer, &asked->answer), WRONG_ANSWER,
                     "a seat doesn't answer as the linker did when the seat was refreshed, at site", site);
            }
        }
    }
}

static linkd_memo *open_memo(void) {
    linkd_memo *memo = block(linkd_memo_size(), linkd_memo_align());
    linkd_memo_blank(memo);
    done(linkd_memo_open(memo, MEMO_SETS), "no memo is opened");
    return memo;
}

static void let_memo_go(linkd_memo *memo) {
    linkd_memo_close(memo);
    free(memo);
}

static void *call(void *nothing) {
    linkd_seat *seat = block(linkd_seat_size(), linkd_seat_align());
    linkd_memo *memo = open_memo();
    linkd_call_answer answer;
    unsigned seen = CHANGES;
    linkd_seat_blank(seat);
    must(linkd_seat_call(seat, 0, LINKD_NULL, &answer) == LINKD_CLOSED, WRONG_ANSWER, "a seat answers that was given no links", 0);
    do {
        bool first = atomic_load(&changes) != seen;
        if (first) {
            pthread_mutex_lock(&lock);
            seen = atomic_load(&changes);
            done(linkd_seat_refresh(seat, linker), "no seat is refreshed");
            pthread_mutex_unlock(&lock);
        }
        ask_all(seat, memo, seen, first);
        if (first) atomic_fetch_add(&passed[seen], 1);
        sched_yield();
    } while (seen + 1 < CHANGES);
    let_memo_go(memo);
    linkd_seat_leave(seat);
    free(seat);
    return nothing;
}

/* Waits until each thread has called each site after this change. */
static void wait_for(unsigned change) {
    while (atomic_load(&passed[change]) < THREADS) sched_yield();
}

/* ---- what is told of the first round */

static void tell_links(void) {
    static const char *const words[] = {"", "fault", "plain", "direct", "by a table", "by an interface's table", "megamorphic"};
    static const char *const reasons[] = {"", "want the class that is named", "want the caller's nest host", "want the method's nest host",
                                          "have no call site"};
    uint32_t kinds[7] = {0}, unlinked[5] = {0};
    for (uint32_t site = 0; site < sites; site++) {
        uint32_t kind = link_kind(site);
        linkd_call_answer answer;
        done(linkd_call(linker, site, LINKD_NULL, &answer), "no call is answered");
        if (kind > LINKD_NONE && kind <= LINKD_MEGA) kinds[kind]++;
        else if (answer.kind == LINKD_UNLINKED && answer.value <= LINKD_UNBOUND) unlinked[answer.value]++;
        else must(false, WRONG_ANSWER, "a site has no link, and no reason for that is told", site);
    }
    printf("%lu classes, %lu sites, %lu invocations that are never linked\n", (unsigned long)classes, (unsigned long)sites,
           (unsigned long)unlinkable);
    for (int kind = 1; kind < 7; kind++)
        if (kinds[kind]) printf("  %lu linked: %s\n", (unsigned long)kinds[kind], words[kind]);
    for (int reason = 1; reason < 5; reason++)
        if (unlinked[reason]) printf("  %lu pending: they %s\n", (unsigned long)unlinked[reason], reasons[reason]);
}

/* What was answered on a class that was there is answered still, and some link that was there runs a method of LATE on LATE now. */
static void compare(uint32_t dropped) {
    uint32_t own = 0;
    for (uint32_t site = 0; site < after[0].sites; site++) {
        for (uint32_t number = 0; number + 1 < receivers(); number++) {
            const struct question *then = question(0, site, number), *now = question(2, site, number);
            must(then->known != ANSWER || same_answer(&then->answer, &now->answer), WRONG_ANSWER,
                 "a definition changes what runs on older classes, at site", site);
        }
        const struct question *on_late = question(2, site, receivers() - 1);
        if (question(0, site, 0)->known == ANSWER && on_late->known == ANSWER && on_late->answer.kind == LINKD_RUN &&
            on_late->answer.class_number == late.number)
            own++;
    }
    must(own > 0, NOTHING_SHOWN, "the late class overrides no method that is called", 0);
    printf("%s is defined: %lu links dropped and installed again, %lu run a method of its own on it\n", late.file.name,
           (unsigned long)dropped, (unsigned long)own);
}

/* ---- a round */

static void start(bool tell, uint32_t *before) {
    linker = block(linkd_size(), linkd_align());
    sites = classes = unlinkable = 0;
    for (int change = 0; change < CHANGES; change++) atomic_store(&passed[change], 0);
    linkd_blank(linker);
    must(linkd_link_of(linker, 0, &(linkd_link){0}) == LINKD_CLOSED, WRONG_ANSWER, "a linker answers that isn't open", 0);
    done(linkd_open(linker, MOST_SITES), "the linker isn't opened");
    define_all();
    for (size_t i = 0; i < all_count; i++) request(&all[i]);
    install_pending();
    if (tell) tell_links();
    for (uint32_t site = 0; site < sites; site++) before[site] = link_kind(site);
    publish(0);
}

/* Defines LATE, and lists the links that went. */
static size_t define_late(const uint32_t *before, uint32_t *dropped) {
    size_t count = 0;
    pthread_mutex_lock(&lock);
    must(define(&late), REFUSED, "the late class has no parent", 0);
    must(late.number == all_count, REFUSED, "the late class has another number than the next one", late.number);
    done(linkd_dropped(linker, dropped, MOST_SITES, &count), "it isn't told what was dropped");
    for (size_t i = 0; i < count; i++)
        must(before[dropped[i]] != LINKD_NONE && link_kind(dropped[i]) == LINKD_NONE, STILL_LINKED,
             "what was dropped was pending, or is linked", dropped[i]);
    request(&late);
    publish(1);
    pthread_mutex_unlock(&lock);
    return count;
}

static void link_again(bool tell, const uint32_t *dropped, size_t count) {
    pthread_mutex_lock(&lock);
    install_pending();
    for (size_t i = 0; i < count; i++)
        must(link_kind(dropped[i]) != LINKD_NONE, STILL_LINKED, "what was dropped isn't linked again", dropped[i]);
    publish(2);
    if (tell) compare((uint32_t)count);
    if (tell) tell_links();
    pthread_mutex_unlock(&lock);
}

static void play(bool tell, bool let_see) {
    pthread_t threads[THREADS];
    uint32_t dropped[MOST_SITES], before[MOST_SITES];
    start(tell, before);
    for (int i = 0; i < THREADS; i++) {
        int fault = pthread_create(&threads[i], NULL, call, NULL);
        must(fault == 0, NO_THREAD, "no thread", (uint32_t)fault);
    }
    wait_for(0);
    size_t count = define_late(before, dropped);
    if (let_see) wait_for(1);
    link_again(tell, dropped, count);

    /* A seat may outlive the linker. */
    linkd_seat *seat = block(linkd_seat_size(), linkd_seat_align());
    linkd_memo *memo = open_memo();
    linkd_seat_blank(seat);
    pthread_mutex_lock(&lock);
    done(linkd_seat_refresh(seat, linker), "no seat is refreshed");
    pthread_mutex_unlock(&lock);
    for (int i = 0; i < THREADS; i++) pthread_join(threads[i], NULL);
    linkd_close(linker);
    must(linkd_seat_refresh(seat, linker) == LINKD_CLOSED, WRONG_ANSWER, "a closed linker gives links", 0);
    free(linker);
    ask_all(seat, memo, 2, false);
    let_memo_go(memo);
    linkd_seat_leave(seat);
    free(seat);
    for (int change = 0; change < CHANGES; change++) free(after[change].questions);
}

int main(int argc, char **argv) {
    long rounds = argc > 3 ? atol(argv[3]) : 200;
    must(argc >= 3 && argc <= 4 && rounds > 0, BAD_WORDS, "FOLDER LATE [ROUNDS]", 0);
    read_folder(argv[1], argv[2]);
    struct timespec start, end;
    clock_gettime(CLOCK_MONOTONIC, &start);
    for (long i = 0; i < rounds; i++) play(i == 0, i % 2 == 0);
    clock_gettime(CLOCK_MONOTONIC, &end);
    printf("%ld rounds of %d threads: each answer is that of the links that its seat was given; %.2f s\n", rounds, THREADS,
           (double)(end.tv_sec - start.tv_sec) + (double)(end.tv_nsec - start.tv_nsec) * 1e-9);
    for (size_t i = 0; i < all_count; i++) let_file_go(&all[i].file);
    free(all);
    let_file_go(&late.file);
    return fflush(stdout) == 0 ? 0 : BAD_FILE;
}
