/* Has a linker of the library for C define classes, request all of their invocations, install each link that there is, and take events; and
 * a second linker take the same events after the requests alone.
 *
 *     whole INPUT LINKS BOUND [LATE..]
 *
 * INPUT has class files, a line of hexadecimal each, parents first, and places, a line of class, method and pc each, as `bench link` takes
 * them. LINKS is written, a line for each place: the kind of its link, and of each row the receiver, the outcome's kind, the class and the
 * value; or `none` and why it has no link, or `refused` and why it is never linked; all as numbers of linkd.h. BOUND is a class file whose
 * first two methods are static ones ()V and whose third begins with an invokedynamic ()V. Each LATE is one of a class below java/lang/Object
 * or java/util/ArrayList, which comes in a loader of its own, and goes with it.
 *
 * A step is told with its count, its seconds, and the megabytes that are resident after it; then how many links there are of each kind. Of
 * an event it tells how many links go, and the microseconds of the middle one of nine, of the fastest and of the slowest, and those of a
 * seat's refresh after it. Links that went are installed again before the next event, but not between a class and its loader's retirement.
 * An answer that is wrong ends it with status 1: a seat, too, answers each call on null and each row of a table as the linker, and after
 * the events all links are as before.
 */
#define _POSIX_C_SOURCE 200809L
#include "linkd.h"
#include <stdbool.h>
#include <stdio.h>
#include <stdlib.h>
#include <string.h>
#include <time.h>
#include <unistd.h>

enum { MOST_SITES = 1 << 20, BATCH = 256, MOST_LINE = 2100001, KINDS = 7 };

static const char *const kind_names[KINDS] = {"none", "fault", "plain", "direct", "virtual", "interface", "mega"};
static char line[MOST_LINE + 2];
static uint8_t bytes[MOST_LINE / 2];
static uint32_t sites[MOST_SITES];
static double started;
static linkd *linker;
static linkd_seat *seat;
static linkd_told told;

static void must(bool holds, const char *what) {
    if (!holds) {
        fprintf(stderr, "whole: %s\n", what);
        exit(1);
    }
}

static void done(uint32_t status, const char *what) {
    if (status != LINKD_DONE) {
        fprintf(stderr, "whole: %s: status %u, fault %u, place %u\n", what, (unsigned)status, (unsigned)told.fault, (unsigned)told.place);
        exit(1);
    }
}

static void *block(size_t size, size_t align) {
    if (align < sizeof(void *)) align = sizeof(void *);
    void *at = aligned_alloc(align, (size + align - 1) / align * align);
    must(at != NULL, "no memory");
    return at;
}

static double now(void) {
    struct timespec time;
    clock_gettime(CLOCK_MONOTONIC, &time);
    return (double)time.tv_sec + (double)time.tv_nsec * 1e-9;
}

static double resident(void) {
    long all, pages = 0;
    FILE *file = fopen("/proc/self/statm", "r");
    must(file != NULL && fscanf(file, "%ld %ld", &all, &pages) == 2, "no statm");
    fclose(file);
    return (double)pages * (double)sysconf(_SC_PAGESIZE) / 1e6;
}

static void tell(const char *what, size_t count) {
    printf("%-40s %9zu %9.4f s %8.1f MB\n", what, count, now() - started, resident());
    fflush(stdout);
    started = now();
}

/* ---- classes and requests */

/* Of each place of the input, in order, why it is never linked, or 0. */
static uint8_t refused[MOST_SITES];
static size_t places;
/* The megabytes that were resident before the first request. */
static double with_classes;

static int digit(char letter) {
    return letter >= '0' && letter <= '9' ? letter - '0' : letter >= 'a' && letter <= 'f' ? letter - 'a' + 10 : -1;
}

/* The bytes of a line of hexadecimal. */
static size_t decoded(const char *text) {
    size_t length = 0;
    while (digit(text[0]) >= 0 && digit(text[1]) >= 0) {
        bytes[length++] = (uint8_t)(digit(text[0]) << 4 | digit(text[1]));
        text += 2;
    }
    return length;
}

static size_t read_file(const char *path) {
    FILE *file = fopen(path, "rb");
    must(file != NULL, path);
    size_t length = fread(bytes, 1, sizeof bytes, file);
    fclose(file);
    return length;
}

/* Requests the place of the line, and says whether it may be linked. */
static bool request(size_t site) {
    unsigned class_number, method, pc;
    must(sscanf(line, "%u %u %u", &class_number, &method, &pc) == 3 && places < MOST_SITES, "a line that is no place");
    uint32_t status = linkd_request(linker, class_number, method, pc, &told);
    refused[places++] = status == LINKD_NOT_LINKABLE ? (uint8_t)told.fault : 0;
    if (status == LINKD_NOT_LINKABLE) return false;
    done(status, "a place isn't requested");
    must(told.number == site, "a site has another number");
    return true;
}

/* Defines each class of the input and requests each place, and gives how many sites there are. */
static size_t fill(FILE *input) {
    size_t classes = 0, requested = 0;
    places = 0;
    rewind(input);
    started = now();
    while (fgets(line, sizeof line, input) != NULL) {
        if (strchr(line, ' ') == NULL) {
            done(linkd_define(linker, 0, bytes, decoded(line), &told), "a class isn't defined");
            classes++;
            continue;
        }
        if (places == 0) {
            tell("classes, from hexadecimal", classes);
            with_classes = resident();
        }
        requested += request(requested);
    }
    tell("requests", requested);
    printf("never linkable: %zu\n", places - requested);
    return requested;
}

/* ---- links */

/* The seconds that the longest of the last batches took. */
static double longest;

/* Installs the links of those of these sites that have one. */
static size_t install(const uint32_t *batch, size_t count) {
    size_t installed = 0;
    while (count > 0) {
        uint32_t status = linkd_install(linker, batch, count, &told);
        if (status == LINKD_DONE) return installed + count;
        must(status == LINKD_NOT_READY, "a batch is refused");
        size_t waiting = 0;
        while (waiting < count && batch[waiting] != told.place) waiting++;
        must(waiting < count, "a site that waits isn't of the batch");
        if (waiting > 0) done(linkd_install(linker, batch, waiting, &told), "the sites before the one that waits");
        installed += waiting;
        batch += waiting + 1;
        count -= waiting + 1;
    }
    return installed;
}

/* The same of any number of sites, batch by batch. */
static size_t install_each(const uint32_t *list, size_t count) {
    size_t installed = 0;
    longest = 0;
    for (size_t at = 0; at < count; at += BATCH) {
        double before = now();
        installed += install(list + at, count - at < BATCH ? count - at : BATCH);
        if (now() - before > longest) longest = now() - before;
    }
    return installed;
}

static void link_of(size_t site, linkd_link *link) {
    done(linkd_link_of(linker, (uint32_t)site, link), "a link");
    must((size_t)link->kind < KINDS, "no link's kind");
}

static bool is_table(const linkd_link *link) { return link->kind == LINKD_VIRTUAL_TABLE || link->kind == LINKD_INTERFACE_TABLE; }

/* How many links there are of each kind. */
static void count_kinds(size_t count) {
    size_t kinds[KINDS] = {0};
    linkd_link link;
    for (size_t site = 0; site < count; site++) {
        link_of(site, &link);
        kinds[link.kind]++;
    }
    tell("links asked one by one", count);
    for (int kind = 0; kind < KINDS; kind++) printf("%s %zu\n", kind_names[kind], kinds[kind]);
}

/* A number that says all of the links (Fowler, Noll and Vo's hash). */
static uint64_t sum_of_links(size_t count) {
    uint64_t sum = UINT64_C(14695981039346656037);
    linkd_link link;
    uint32_t words[sizeof link / sizeof(uint32_t)];
    for (size_t site = 0; site < count; site++) {
        link_of(site, &link);
        memcpy(words, &link, sizeof words);
        for (size_t at = 0; at < sizeof words / sizeof *words; at++) sum = (sum ^ words[at]) * UINT64_C(1099511628211);
    }
    return sum;
}

static void write_link(FILE *out, size_t site) {
    linkd_link link;
    linkd_call_answer answer;
    link_of(site, &link);
    fputs(kind_names[link.kind], out);
    if (link.kind == LINKD_NONE) {
        done(linkd_call(linker, (uint32_t)site, LINKD_NULL, &answer), "a call");
        must(answer.kind == LINKD_UNLINKED, "a site that has a link, and none is installed");
        fprintf(out, " %u", (unsigned)answer.value);
    }
    for (const linkd_row *row = link.rows; row < link.rows + link.count; row++)
        fprintf(out, " %u %u %u %u", (unsigned)row->receiver, (unsigned)row->kind, (unsigned)row->class_number, (unsigned)row->value);
    fputc('\n', out);
}

static void write_links(const char *path) {
    FILE *out = fopen(path, "w");
    must(out != NULL, path);
    for (size_t place = 0, site = 0; place < places; place++) {
        if (refused[place] > 0) fprintf(out, "refused %u\n", (unsigned)refused[place]);
        else write_link(out, site++);
    }
    must(!ferror(out) && fclose(out) == 0, path);
    tell("links written", places);
}

static bool is_same(uint32_t site, uint32_t receiver) {
    linkd_call_answer own, seats;
    done(linkd_call(linker, site, receiver, &own), "a call");
    done(linkd_seat_call(seat, site, receiver, &seats), "a call at a seat");
    return seats.kind == LINKD_MISS || memcmp(&own, &seats, sizeof own) == 0;
}

/* Compares the seat's answers with the linker's, on null and on each receiver of a table. */
static void compare_calls(size_t count) {
    size_t calls = 0;
    linkd_link link;
    for (uint32_t site = 0; site < count; site++) {
        must(is_same(site, LINKD_NULL), "a seat's answer on null");
        link_of(site, &link);
        for (uint32_t row = 0; is_table(&link) && row < link.count; row++) {
            must(is_same(site, link.rows[row].receiver), "a seat's answer on a receiver");
            calls++;
        }
        calls++;
    }
    tell("calls, by the linker and by a seat", calls);
}

/* ---- events */

enum phase { BEHIND_ALL, BEHIND_NONE, PHASES };
enum { ROUNDS = 9, MOST_EVENTS = 16 };

static struct event {
    char name[80];
    size_t dropped[PHASES];
    double taken[PHASES][ROUNDS], refreshed[PHASES][ROUNDS];
} events[MOST_EVENTS];
static size_t event_count;
static enum phase phase;
static uint32_t dropped[MOST_SITES], dropped_later[MOST_SITES];
static uint32_t bound, dynamic, call_site;

/* The event of the name, which the other phase may have, too. */
static struct event *event_of(const char *name, const char *what) {
    struct event *event = events + event_count++;
    must(event < events + MOST_EVENTS, "too many events");
    snprintf(event->name, sizeof event->name, "%s%s", name, what);
    return event;
}

static size_t went(uint32_t *list) {
    size_t count = 0;
    done(linkd_dropped(linker, list, MOST_SITES, &count), "what went");
    return count;
}

static void install_again(const uint32_t *list, size_t count) {
    must(install_each(list, count) == count, "a link that went isn't there again");
}

/* Lets the seat have what the linker has, and gives the time. */
static double refresh(void) {
    done(linkd_seat_refresh(seat, linker), "a refresh");
    return now();
}

/* Notes that the event began then and ends now, and gives which links went, and how many. */
static size_t note(struct event *event, int round, double began, uint32_t *list) {
    double ended = now();
    event->taken[phase][round] = ended - began;
    event->refreshed[phase][round] = refresh() - ended;
    size_t count = went(list);
    must(round == 0 || count == event->dropped[phase], "more or fewer links went than the time before");
    event->dropped[phase] = count;
    return count;
}

/* A new loader that finds the parents of late classes. */
static uint32_t new_loader(void) {
    static const char *const names[] = {"java/lang/Object", "java/util/ArrayList"};
    done(linkd_new_loader(linker, &told), "no loader");
    uint32_t loader = told.number;
    for (size_t at = 0; at < sizeof names / sizeof *names; at++)
        done(linkd_delegate(linker, loader, (const uint8_t *)names[at], strlen(names[at]), 0, &told), "no delegation");
    return loader;
}

static void measure_late(const char *path) {
    const char *name = strrchr(path, '/') ? strrchr(path, '/') + 1 : path;
    struct event *defined = event_of(name, " comes"), *retired = event_of(name, " goes with its loader");
    size_t length = read_file(path);
    for (int round = 0; round < ROUNDS; round++) {
        uint32_t loader = new_loader();
        double began = refresh();
        done(linkd_define(linker, loader, bytes, length, &told), "a late class isn't defined");
        size_t count = note(defined, round, began, dropped);
        began = refresh();
        done(linkd_retire(linker, loader, &told), "a loader isn't retired");
        size_t later = note(retired, round, began, dropped_later);
        install_again(dropped, count);
        install_again(dropped_later, later);
    }
}

/* Defines the class of the call site's targets, and binds its invokedynamic. */
static void bind_site(const char *path) {
    static const char type[] = "()V";
    char target[64];
    done(linkd_define(linker, 0, bytes, read_file(path), &told), "the class of the targets isn't defined");
    bound = told.number;
    done(linkd_request(linker, bound, 2, 0, &told), "no invokedynamic");
    dynamic = told.number;
    snprintf(target, sizeof target, "{\"method\":[%u,0]}", (unsigned)bound);
    done(linkd_new_call_site(linker, 2, (const uint8_t *)type, strlen(type), (const uint8_t *)target, strlen(target), &told), "no call site");
    call_site = told.number;
    done(linkd_bind(linker, dynamic, call_site, &told), "the invokedynamic isn't bound");
}

static void set_target(const char *target) {
    done(linkd_set_target(linker, call_site, (const uint8_t *)target, strlen(target), &told), "no new target");
}

static void measure_targets(void) {
    struct event *event = event_of("a bound call site", " gets another target");
    char target[64];
    for (int round = 0; round < ROUNDS; round++) {
        snprintf(target, sizeof target, "{\"method\":[%u,%d]}", (unsigned)bound, (round + 1) % 2);
        double began = refresh();
        set_target(target);
        install_again(dropped, note(event, round, began, dropped));
    }
}

/* Has the target be guarded by a new switch point, and gives its number. */
static uint32_t guard(void) {
    char target[128];
    done(linkd_new_switch(linker, &told), "no switch point");
    uint32_t number = told.number;
    snprintf(target, sizeof target, "{\"guard\":%u,\"target\":{\"method\":[%u,0]},\"fallback\":{\"method\":[%u,1]}}", (unsigned)number,
             (unsigned)bound, (unsigned)bound);
    set_target(target);
    install_again(dropped, went(dropped));
    return number;
}

static void measure_switches(void) {
    struct event *event = event_of("its target's switch point", " is invalidated");
    for (int round = 0; round < ROUNDS; round++) {
        uint32_t number = guard();
        double began = refresh();
        done(linkd_invalidate(linker, &number, 1, &told), "no invalidation");
        install_again(dropped, note(event, round, began, dropped));
    }
}

static void measure_events(char **paths, int count) {
    event_count = 0;
    for (int at = 0; at < count; at++) measure_late(paths[at]);
    measure_targets();
    measure_switches();
    tell("events", event_count * ROUNDS);
}

static int by_size(const void *one, const void *other) {
    double left = *(const double *)one, right = *(const double *)other;
    return (left > right) - (left < right);
}

static void print_times(double *times) {
    qsort(times, ROUNDS, sizeof *times, by_size);
    printf(" |%10.1f%10.1f%10.1f", times[ROUNDS / 2] * 1e6, times[0] * 1e6, times[ROUNDS - 1] * 1e6);
}

static void print_events(void) {
    printf("microseconds: the middle, the least, the most\n%-44s%9s |%30s |%30s |%30s\n", "", "links go", "after all links", "a refresh then",
           "after none");
    for (struct event *event = events; event < events + event_count; event++) {
        printf("%-44s%9zu", event->name, event->dropped[BEHIND_ALL]);
        print_times(event->taken[BEHIND_ALL]);
        print_times(event->refreshed[BEHIND_ALL]);
        print_times(event->taken[BEHIND_NONE]);
        putchar('\n');
    }
}

/* ---- both phases */

static size_t open_linker(FILE *input, const char *path) {
    linkd_blank(linker);
    linkd_seat_blank(seat);
    started = now();
    done(linkd_open(linker, MOST_SITES), "the linker isn't opened");
    tell("opened", MOST_SITES);
    size_t requested = fill(input);
    bind_site(path);
    must(dynamic == requested, "the bound site isn't the last one");
    return requested;
}

static void close_linker(void) {
    started = now();
    linkd_seat_leave(seat);
    linkd_close(linker);
    tell("closed", 1);
}

/* Installs all links but that of the bound site, has a seat read them, and looks at them. */
static void link_all(size_t requested, const char *path) {
    started = now();
    size_t installed = install_each(sites, requested);
    tell("links looked up and installed", installed);
    printf("longest batch: %.4f s; %.0f bytes a site, by what is resident\n", longest, (resident() - with_classes) * 1e6 / (double)requested);
    started = now();
    refresh();
    tell("a seat refreshed", 1);
    count_kinds(requested);
    started = now();
    write_links(path);
    compare_calls(requested);
}

static void behind_all(FILE *input, char **words, int count) {
    puts("after all links:");
    phase = BEHIND_ALL;
    size_t requested = open_linker(input, words[3]);
    link_all(requested, words[2]);
    uint64_t sum = sum_of_links(requested);
    must(install(&dynamic, 1) == 1, "the bound site has no link");
    started = now();
    measure_events(words + 4, count - 4);
    must(sum == sum_of_links(requested), "after the events links aren't as before");
    close_linker();
}

static void behind_none(FILE *input, char **words, int count) {
    puts("after none:");
    phase = BEHIND_NONE;
    open_linker(input, words[3]);
    started = now();
    measure_events(words + 4, count - 4);
    close_linker();
}

int main(int count, char **words) {
    FILE *input = count > 3 ? fopen(words[1], "r") : NULL;
    must(input != NULL, "no INPUT, LINKS or BOUND");
    linker = block(linkd_size(), linkd_align());
    seat = block(linkd_seat_size(), linkd_seat_align());
    for (uint32_t site = 0; site < MOST_SITES; site++) sites[site] = site;
    behind_all(input, words, count);
    behind_none(input, words, count);
    print_events();
    fclose(input);
    free(seat);
    free(linker);
    puts("all as it must be");
    return 0;
}
