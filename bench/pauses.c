/* Has a linker of the library for C take all classes and invocations of an input, and tells what single calls take of a processor, be it
 * class by class, as a runtime does it, or all classes first.
 *
 *     pauses INPUT by-class|batched [IDLE]
 *
 * INPUT has class files, a line of hexadecimal each, parents first, and places, a line of class, method and pc each, by rising class, as
 * `bench link` takes them. By class a class is defined, its invocations are requested, and each that has a link is installed alone; those
 * that have none yet are tried once more at the end, and then those whose links went. Batched, 256 sites are installed at once, after all
 * requests. With IDLE the linker catches up after each event, as a host does that waits: that is told apart.
 *
 * Then come classes below java/lang/Object and java/util/ArrayList, each in a loader of its own, which goes; a loader of a thousand classes,
 * which goes, too; and events after a view was taken. Of each kind of call it tells how many there were, their seconds, and in microseconds
 * the middle one, those that 99 and 99.9 of a hundred don't pass, and the longest; and how many took longer than 1 and than 5 milliseconds.
 */
#define _POSIX_C_SOURCE 200809L
#include "linkd.h"
#include <stdbool.h>
#include <stdio.h>
#include <stdlib.h>
#include <string.h>
#include <time.h>
#include <unistd.h>

enum { MOST_SITES = 1 << 20, MOST_CLASSES = 1 << 16, BATCH = 256, MOST_LINE = 2100001, LATE_ROUNDS = 60, THOUSAND = 1000, VIEWS = 20 };

enum kind { DEFINE, REQUEST, INSTALL, LATER, CATCH_UP, LATE_CLASS, RETIRE, RETIRE_THOUSAND, FIRST, SECOND, THIRD, KINDS };

static const char *const names[KINDS] = {
    "definition", "request", "install", "install of a later one", "catching up", "late class", "retirement of its loader",
    "retirement of a thousand classes", "first event after a view", "second", "third"};

struct samples {
    float *at;
    size_t count, room;
};

static struct samples samples[KINDS];
static linkd *linker;
static linkd_told told;
static bool idle;
static double began;

static void must(bool holds, const char *what) {
    if (!holds) {
        fprintf(stderr, "pauses: %s\n", what);
        exit(1);
    }
}

static void done(uint32_t status, const char *what) {
    if (status != LINKD_DONE) {
        fprintf(stderr, "pauses: %s: status %u, fault %u, place %u\n", what, (unsigned)status, (unsigned)told.fault, (unsigned)told.place);
        exit(1);
    }
}

static double seconds(void) {
    struct timespec time;
    clock_gettime(CLOCK_THREAD_CPUTIME_ID, &time);
    return (double)time.tv_sec + (double)time.tv_nsec * 1e-9;
}

static double resident(void) {
    long all, pages = 0;
    FILE *file = fopen("/proc/self/statm", "r");
    must(file != NULL && fscanf(file, "%ld %ld", &all, &pages) == 2, "no statm");
    fclose(file);
    return (double)pages * (double)sysconf(_SC_PAGESIZE) / 1e6;
}

static void *block(size_t size, size_t align) {
    if (align < sizeof(void *)) align = sizeof(void *);
    void *at = aligned_alloc(align, (size + align - 1) / align * align);
    must(at != NULL, "no memory");
    return at;
}

static void *list(size_t count, size_t size) {
    void *at = calloc(count, size);
    must(at != NULL, "no memory");
    return at;
}

/* ---- calls and their times */

static void begin(void) { began = seconds(); }

/* The call of this kind that began last has ended. */
static void end(enum kind kind) {
    double taken = seconds() - began;
    struct samples *of = &samples[kind];
    if (of->count == of->room) {
        of->room = of->room > 0 ? 2 * of->room : 1024;
        of->at = realloc(of->at, of->room * sizeof *of->at);
        must(of->at != NULL, "no memory");
    }
    of->at[of->count++] = (float)(taken * 1e6);
}

/* An event is over: a host that waits lets the linker catch up. */
static void rest(void) {
    if (!idle) return;
    begin();
    done(linkd_catch_up(linker), "the linker doesn't catch up");
    end(CATCH_UP);
}

static int by_size(const void *one, const void *other) {
    float left = *(const float *)one, right = *(const float *)other;
    return (left > right) - (left < right);
}

static void print_samples(enum kind kind) {
    struct samples *of = &samples[kind];
    if (of->count == 0) return;
    double sum = 0;
    size_t over_one = 0, over_five = 0;
    for (size_t at = 0; at < of->count; at++) {
        sum += of->at[at];
        over_one += of->at[at] > 1e3;
        over_five += of->at[at] > 5e3;
    }
    qsort(of->at, of->count, sizeof *of->at, by_size);
    size_t last = of->count - 1;
    printf("%-34s %8zu %8.3f s %10.1f %10.1f %10.1f %10.1f %8zu %6zu\n", names[kind], of->count, sum / 1e6, of->at[last / 2],
           of->at[(size_t)(0.99 * (double)last)], of->at[(size_t)(0.999 * (double)last)], of->at[last], over_one, over_five);
}

/* ---- the input, all of it before the first call */

static char line[MOST_LINE + 2];
static uint8_t *files[MOST_CLASSES];
static size_t lengths[MOST_CLASSES], class_count, place_count;
static uint32_t numbers[MOST_CLASSES], *classes, *methods, *pcs;

static int digit(char letter) {
    return letter >= '0' && letter <= '9' ? letter - '0' : letter >= 'a' && letter <= 'f' ? letter - 'a' + 10 : -1;
}

static void take_class(void) {
    size_t length = 0;
    must(class_count < MOST_CLASSES, "too many classes");
    uint8_t *bytes = list(strlen(line) / 2 + 1, 1);
    for (const char *at = line; digit(at[0]) >= 0 && digit(at[1]) >= 0; at += 2) bytes[length++] = (uint8_t)(digit(at[0]) << 4 | digit(at[1]));
    files[class_count] = bytes;
    lengths[class_count++] = length;
}

static void take_place(void) {
    unsigned number, method, pc;
    must(sscanf(line, "%u %u %u", &number, &method, &pc) == 3 && place_count < MOST_SITES, "a line that is no place");
    must(place_count == 0 || classes[place_count - 1] <= number, "places don't come by rising class");
    classes[place_count] = number;
    methods[place_count] = method;
    pcs[place_count++] = pc;
}

static void read_input(const char *path) {
    FILE *input = fopen(path, "r");
    must(input != NULL, path);
    classes = list(MOST_SITES, sizeof *classes);
    methods = list(MOST_SITES, sizeof *methods);
    pcs = list(MOST_SITES, sizeof *pcs);
    while (fgets(line, sizeof line, input) != NULL) {
        if (strchr(line, ' ') == NULL) take_class();
        else take_place();
    }
    fclose(input);
}

/* ---- classes, requests and links */

static uint32_t *waiting;
static size_t waiting_count, requested;

static void define(size_t number) {
    begin();
    uint32_t status = linkd_define(linker, 0, files[number], lengths[number], &told);
    end(DEFINE);
    done(status, "a class isn't defined");
    numbers[number] = told.number;
    rest();
}

/* Requests the place, and says whether it may be linked. */
static bool request(size_t place) {
    begin();
    uint32_t status = linkd_request(linker, numbers[classes[place]], methods[place], pcs[place], &told);
    end(REQUEST);
    if (status == LINKD_NOT_LINKABLE) return false;
    done(status, "a place isn't requested");
    requested++;
    rest();
    return true;
}

static uint32_t install_once(const uint32_t *batch, size_t count, enum kind kind) {
    begin();
    uint32_t status = linkd_install(linker, batch, count, &told);
    end(kind);
    if (status == LINKD_DONE) rest();
    return status;
}

/* Installs the links of those of these sites that have one, and keeps the others. */
static void install(const uint32_t *batch, size_t count, enum kind kind) {
    while (count > 0) {
        uint32_t status = install_once(batch, count, kind);
        if (status == LINKD_DONE) return;
        must(status == LINKD_NOT_READY, "a batch is refused");
        size_t before = 0;
        while (before < count && batch[before] != told.place) before++;
        must(before < count, "a site that waits isn't of the batch");
        waiting[waiting_count++] = batch[before];
        if (before > 0) done(install_once(batch, before, kind), "the sites before the one that waits");
        batch += before + 1;
        count -= before + 1;
    }
}

static void install_each(const uint32_t *sites, size_t count, size_t batch, enum kind kind) {
    for (size_t at = 0; at < count; at += batch) install(sites + at, count - at < batch ? count - at : batch, kind);
}

static void class_by_class(void) {
    size_t place = 0;
    for (size_t number = 0; number < class_count; number++) {
        define(number);
        size_t first = requested;
        while (place < place_count && classes[place] == number) request(place++);
        for (uint32_t site = (uint32_t)first; site < requested; site++) install(&site, 1, INSTALL);
    }
}

static void batched(void) {
    for (size_t number = 0; number < class_count; number++) define(number);
    for (size_t place = 0; place < place_count; place++) request(place);
    uint32_t *sites = list(requested, sizeof *sites);
    for (size_t site = 0; site < requested; site++) sites[site] = (uint32_t)site;
    install_each(sites, requested, BATCH, INSTALL);
    free(sites);
}

/* Tries once more what had no link, and what has none any more. */
static void link_rest(size_t batch) {
    uint32_t *sites = list(MOST_SITES, sizeof *sites);
    linkd_link link;
    size_t count = 0;
    for (uint32_t site = 0; site < requested; site++) {
        done(linkd_link_of(linker, site, &link), "a link");
        if (link.kind == LINKD_NONE) sites[count++] = site;
    }
    waiting_count = 0;
    install_each(sites, count, batch, LATER);
    printf("%zu sites without a link were tried once more, %zu have none\n", count, waiting_count);
    free(sites);
}

/* ---- events after all links */

static uint32_t new_loader(void) {
    static const char *const parents[] = {"java/lang/Object", "java/util/ArrayList"};
    done(linkd_new_loader(linker, &told), "no loader");
    uint32_t loader = told.number;
    for (size_t at = 0; at < sizeof parents / sizeof *parents; at++)
        done(linkd_delegate(linker, loader, (const uint8_t *)parents[at], strlen(parents[at]), 0, &told), "no delegation");
    rest();
    return loader;
}

/* Defines a class by a sketch, in a command. */
static void define_sketch(uint32_t loader, const char *format, unsigned number, enum kind kind) {
    char sketch[512], command[1024];
    size_t length;
    snprintf(sketch, sizeof sketch, format, number);
    int size = snprintf(command, sizeof command, "{\"do\":\"define\",\"loader\":%u,\"sketch\":%s}", (unsigned)loader, sketch);
    begin();
    uint32_t status = linkd_answer(linker, (const uint8_t *)command, (size_t)size, &length);
    if (kind != KINDS) end(kind);
    done(status, "a sketch isn't defined");
    rest();
}

static void retire(uint32_t loader, enum kind kind) {
    begin();
    uint32_t status = linkd_retire(linker, loader, &told);
    end(kind);
    done(status, "a loader isn't retired");
    rest();
}

static void install_dropped(uint32_t *sites) {
    size_t count = 0;
    done(linkd_dropped(linker, sites, MOST_SITES, &count), "what went");
    install_each(sites, count, BATCH, LATER);
}

static void late_classes(void) {
    static const char *const sketches[] = {
        "{\"name\":\"late/List%u\",\"super\":\"java/util/ArrayList\",\"flags\":33,\"methods\":[{\"name\":\"size\",\"type\":\"()I\",\"flags\":1}]}",
        "{\"name\":\"late/Other%u\",\"super\":\"java/lang/Object\",\"flags\":33}",
        "{\"name\":\"late/Text%u\",\"super\":\"java/lang/Object\",\"flags\":33,\"methods\":[{\"name\":\"toString\",\"type\":\"()Ljava/lang/String;\","
        "\"flags\":1}]}"};
    uint32_t *sites = list(MOST_SITES, sizeof *sites);
    for (unsigned round = 0; round < LATE_ROUNDS; round++) {
        uint32_t loader = new_loader();
        define_sketch(loader, sketches[round % 3], round, LATE_CLASS);
        install_dropped(sites);
        retire(loader, RETIRE);
        install_dropped(sites);
    }
    uint32_t loader = new_loader();
    for (unsigned number = 0; number < THOUSAND; number++)
        define_sketch(loader, "{\"name\":\"late/Of%u\",\"super\":\"java/lang/Object\",\"flags\":33}", number, KINDS);
    retire(loader, RETIRE_THOUSAND);
    install_dropped(sites);
    free(sites);
}

/* A place that is requested is requested again, after a view was taken. */
static void views(void) {
    linkd_view *view = block(linkd_view_size(), linkd_view_align());
    linkd_view_blank(view);
    for (size_t place = 0; place < VIEWS && place < place_count; place++) {
        done(linkd_view_take(view, linker), "no view");
        for (enum kind kind = FIRST; kind <= THIRD; kind++) {
            begin();
            uint32_t status = linkd_request(linker, numbers[classes[place]], methods[place], pcs[place], &told);
            end(kind);
            if (status != LINKD_NOT_LINKABLE) done(status, "a place isn't requested again");
            rest();
        }
        linkd_view_leave(view);
    }
    free(view);
}

int main(int argc, char **argv) {
    bool by_class = argc >= 3 && strcmp(argv[2], "by-class") == 0;
    if (argc < 3 || argc > 4 || (!by_class && strcmp(argv[2], "batched") != 0)) {
        fprintf(stderr, "usage: pauses INPUT by-class|batched [IDLE]\n");
        return 2;
    }
    idle = argc == 4;
    read_input(argv[1]);
    waiting = list(2 * MOST_SITES, sizeof *waiting);
    linker = block(linkd_size(), linkd_align());
    linkd_blank(linker);
    done(linkd_open(linker, MOST_SITES), "the linker isn't opened");
    double before = resident(), started = seconds();
    if (by_class) class_by_class();
    else batched();
    printf("%zu classes, %zu requests of %zu places: %.3f s, %.1f MB more\n", class_count, requested, place_count, seconds() - started,
           resident() - before);
    link_rest(by_class ? 1 : BATCH);
    late_classes();
    views();
    printf("%-34s %8s %10s %10s %10s %10s %10s %8s %6s\n", "microseconds of a processor", "calls", "all", "middle", "99 %", "99.9 %", "longest",
           "> 1 ms", "> 5 ms");
    for (enum kind kind = DEFINE; kind < KINDS; kind++) print_samples(kind);
    linkd_close(linker);
    free(linker);
    return 0;
}
