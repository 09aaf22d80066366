/* A host in C whose loaders go at once, among sites that look at each of their classes. It tells how long the retirement of a loader takes
 * that goes alone, how long that of many takes that go at once, and how long that of pairs takes of which each holds the other one. Then
 * it tells how long the release of the call sites of loaders with lambdas takes, and the retirement of these loaders afterwards.
 *
 *     together [LOADERS [SITES [PAIRS [HELD]]]]     LOADERS (1000), SITES (32000), PAIRS (300) and HELD (100) are how many there are; at most
 *                                                   2000, 64000, 1000 and 500
 *
 * Each loader has eight classes, and each site calls a method of java/lang/Object on what may be of any class. All sites are linked, and are
 * linked again after each line. Each of the loaders with lambdas has eight classes with ten linked invokedynamics each, whose call sites run
 * a method of the class. It ends with status 0 only where each call was done, no loader of a pair and none with lambdas goes alone, and all
 * sites call as before at the end.
 */
#include "linkd.h"
#include <stdio.h>
#include <stdlib.h>
#include <string.h>
#include <time.h>

enum { CLASSES = 8, BATCH = 256, MOST_LOADERS = 2000, MOST_SITES = 64000, MOST_PAIRS = 1000, METHODS = 32, CALLS = 10, ALONE = 20 };
enum { LAMBDAS = 10, MOST_HELD = 500, CONSTANT = 1 };

static linkd_told told;
static uint8_t file[4096];
static size_t length;
static uint32_t sites[MOST_SITES];

static void must(int so, const char *what) {
    if (!so) {
        fprintf(stderr, "not so: %s (fault %u, number %u)\n", what, (unsigned)told.fault, (unsigned)told.number);
        exit(1);
    }
}

/* ---- class files */

static void put(uint32_t value, int bytes) {
    while (bytes-- > 0) file[length++] = (uint8_t)(value >> (8 * bytes));
}

static void put_text(const char *text) {
    put(1, 1), put((uint32_t)strlen(text), 2);
    memcpy(file + length, text, strlen(text));
    length += strlen(text);
}

static void begin(uint32_t constants) {
    length = 0;
    put(0xcafebabe, 4), put(61, 4), put(constants + 1, 2);
}

/* java/lang/Object with the method m. */
static void write_object(void) {
    begin(5);
    put_text("java/lang/Object"), put(7, 1), put(1, 2), put_text("m"), put_text("()V"), put_text("Code");
    put(0x21, 2), put(2, 2), put(0, 2), put(0, 2), put(0, 2), put(1, 2);
    put(1, 2), put(3, 2), put(4, 2), put(1, 2), put(5, 2), put(13, 4), put(0, 2), put(1, 2), put(1, 4), put(0xb1, 1), put(0, 2), put(0, 2);
    put(0, 2);
}

/* A class of this name without methods. */
static void write_class(const char *name) {
    begin(4);
    put_text(name), put(7, 1), put(1, 2), put_text("java/lang/Object"), put(7, 1), put(3, 2);
    put(0x21, 2), put(2, 2), put(4, 2), put(0, 2), put(0, 2), put(0, 2), put(0, 2);
}

/* A class of this name with 32 methods, of which each calls java/lang/Object's m ten times, at each third pc. */
static void write_caller(const char *name) {
    begin(9 + METHODS);
    put_text(name), put(7, 1), put(1, 2), put_text("java/lang/Object"), put(7, 1), put(3, 2), put_text("m"), put_text("()V");
    put_text("Code"), put(12, 1), put(5, 2), put(6, 2), put(10, 1), put(4, 2), put(8, 2);
    for (int method = 0; method < METHODS; method++) {
        char text[3] = {(char)('a' + method / 16), (char)('a' + method % 16), 0};
        put_text(text);
    }
    put(0x21, 2), put(2, 2), put(4, 2), put(0, 2), put(0, 2), put(METHODS, 2);
    for (uint32_t method = 0; method < METHODS; method++) {
        put(9, 2), put(10 + method, 2), put(6, 2), put(1, 2), put(7, 2), put(3 * CALLS + 13, 4), put(1, 2), put(1, 2), put(3 * CALLS + 1, 4);
        for (uint32_t call = 0; call < CALLS; call++) put(0xb6, 1), put(9, 2);
        put(0xb1, 1), put(0, 2), put(0, 2);
    }
    put(0, 2);
}

/* A class of this name with a static method k and a method with ten invokedynamics, at each fifth pc (JVMS 4.4.10, 4.7.23). */
static void write_lambdas(const char *name) {
    begin(13);
    put_text(name), put(7, 1), put(1, 2), put_text("java/lang/Object"), put(7, 1), put(3, 2), put_text("k"), put_text("()V");
    put_text("Code"), put_text("r"), put_text("BootstrapMethods"), put(12, 1), put(5, 2), put(6, 2), put(10, 1), put(2, 2), put(10, 2);
    put(15, 1), put(6, 1), put(11, 2), put(18, 1), put(0, 2), put(10, 2);
    put(0x21, 2), put(2, 2), put(4, 2), put(0, 2), put(0, 2), put(2, 2);
    put(9, 2), put(5, 2), put(6, 2), put(1, 2), put(7, 2), put(13, 4), put(0, 2), put(0, 2), put(1, 4), put(0xb1, 1), put(0, 2), put(0, 2);
    put(9, 2), put(8, 2), put(6, 2), put(1, 2), put(7, 2), put(5 * LAMBDAS + 13, 4), put(0, 2), put(0, 2), put(5 * LAMBDAS + 1, 4);
    for (uint32_t call = 0; call < LAMBDAS; call++) put(0xba, 1), put(13, 2), put(0, 2);
    put(0xb1, 1), put(0, 2), put(0, 2);
    put(1, 2), put(9, 2), put(6, 4), put(1, 2), put(12, 2), put(0, 2);
}

/* ---- the linker */

/* The milliseconds that this process has had a processor. */
static double milliseconds(void) {
    return (double)clock() * 1e3 / CLOCKS_PER_SEC;
}

static void install_all(linkd *at, uint32_t count) {
    for (uint32_t place = 0; place < count; place += BATCH) {
        uint32_t left = count - place < BATCH ? count - place : BATCH;
        must(linkd_install(at, sites + place, left, &told) == LINKD_DONE, "install");
    }
}

/* A loader with eight classes, of these names and those after them in the alphabet. */
static uint32_t come(linkd *at, char name) {
    must(linkd_new_loader(at, &told) == LINKD_DONE, "new_loader");
    uint32_t loader = told.number;
    must(linkd_delegate(at, loader, (const uint8_t *)"java/lang/Object", 16, 0, &told) == LINKD_DONE, "delegate");
    for (int place = 0; place < CLASSES; place++) {
        char text[2] = {(char)(name + place), 0};
        write_class(text);
        must(linkd_define(at, loader, file, length, &told) == LINKD_DONE, "define");
    }
    return loader;
}

static void record(linkd *at, uint32_t loader, const char *name, uint32_t other) {
    must(linkd_delegate(at, loader, (const uint8_t *)name, 1, other, &told) == LINKD_DONE, "delegate");
}

/* A loader with eight classes of ten lambdas each, whose call sites come to the list. */
static uint32_t come_with_lambdas(linkd *at, uint32_t *call_sites) {
    must(linkd_new_loader(at, &told) == LINKD_DONE, "new_loader");
    uint32_t loader = told.number;
    must(linkd_delegate(at, loader, (const uint8_t *)"java/lang/Object", 16, 0, &told) == LINKD_DONE, "delegate");
    for (int place = 0; place < CLASSES; place++) {
        char text[2] = {(char)('A' + place), 0};
        write_lambdas(text);
        must(linkd_define(at, loader, file, length, &told) == LINKD_DONE, "define with lambdas");
        uint32_t class = told.number;
        for (uint32_t lambda = 0; lambda < LAMBDAS; lambda++) {
            linkd_target_part part = {LINKD_METHOD_TARGET, class, 0};
            must(linkd_request(at, class, 1, 5 * lambda, &told) == LINKD_DONE, "request a lambda");
            uint32_t site = told.number;
            must(linkd_new_call_site_of(at, CONSTANT, (const uint8_t *)"()V", 3, &part, 1, &told) == LINKD_DONE, "new_call_site");
            call_sites[place * LAMBDAS + lambda] = told.number;
            must(linkd_bind(at, site, told.number, &told) == LINKD_DONE, "bind");
            must(linkd_install(at, &site, 1, &told) == LINKD_DONE, "install a lambda");
        }
    }
    return loader;
}

/* The call sites of loaders with lambdas are released at once, and then the loaders go at once. */
static void measure_lambdas(linkd *at, uint32_t count, uint32_t linked) {
    static uint32_t loaders[MOST_HELD], call_sites[MOST_HELD * CLASSES * LAMBDAS];
    for (uint32_t place = 0; place < count; place++) loaders[place] = come_with_lambdas(at, call_sites + place * CLASSES * LAMBDAS);
    must(linkd_retire(at, loaders[0], &told) == LINKD_RETIRE && told.fault == LINKD_TARGETED, "a lambda holds its loader");
    install_all(at, linked);
    double before = milliseconds();
    must(linkd_release(at, call_sites, count * CLASSES * LAMBDAS, loaders, 0, &told) == LINKD_DONE, "release");
    double between = milliseconds();
    must(linkd_retire_all(at, loaders, count, &told) == LINKD_DONE, "retire_all of loaders with lambdas");
    printf("%u loaders with %u lambdas each: %.3f ms to release, %.3f ms to retire\n", (unsigned)count, (unsigned)(CLASSES * LAMBDAS),
           between - before, milliseconds() - between);
}

int main(int argc, char **argv) {
    uint32_t loaders = argc > 1 ? (uint32_t)strtoul(argv[1], NULL, 10) : 1000;
    uint32_t count = argc > 2 ? (uint32_t)strtoul(argv[2], NULL, 10) : 32000;
    uint32_t pairs = argc > 3 ? (uint32_t)strtoul(argv[3], NULL, 10) : 300;
    uint32_t held = argc > 4 ? (uint32_t)strtoul(argv[4], NULL, 10) : 100;
    static uint32_t listed[MOST_LOADERS + 2 * MOST_PAIRS];
    linkd *at = aligned_alloc(linkd_align(), (linkd_size() + linkd_align() - 1) / linkd_align() * linkd_align());
    must(at != NULL && loaders <= MOST_LOADERS && count <= MOST_SITES && pairs <= MOST_PAIRS && held <= MOST_HELD, "LOADERS, SITES, PAIRS and HELD");
    linkd_blank(at);
    must(linkd_open(at, LINKD_MOST_OF_A_KIND) == LINKD_DONE, "open");
    write_object();
    must(linkd_define(at, 0, file, length, &told) == LINKD_DONE, "define Object");
    uint32_t caller = 0;
    for (uint32_t site = 0; site < count; site++) {
        uint32_t place = site % (METHODS * CALLS);
        if (place == 0) {
            char text[12];
            snprintf(text, sizeof text, "Caller%u", (unsigned)(site / (METHODS * CALLS)));
            write_caller(text);
            must(linkd_define(at, 0, file, length, &told) == LINKD_DONE, "define a caller");
            caller = told.number;
        }
        must(linkd_request(at, caller, place / CALLS, 3 * (place % CALLS), &told) == LINKD_DONE, "request");
        sites[site] = told.number;
    }
    install_all(at, count);

    for (uint32_t place = 0; place < ALONE; place++) listed[place] = come(at, 'A');
    install_all(at, count);
    double before = milliseconds();
    for (uint32_t place = 0; place < ALONE; place++) must(linkd_retire(at, listed[place], &told) == LINKD_DONE, "retire");
    printf("one by one: %.3f ms a loader\n", (milliseconds() - before) / ALONE);

    for (uint32_t place = 0; place < loaders; place++) listed[place] = come(at, 'A');
    install_all(at, count);
    before = milliseconds();
    must(linkd_retire_all(at, listed, loaders, &told) == LINKD_DONE, "retire_all");
    printf("%u loaders at once: %.3f ms\n", (unsigned)loaders, milliseconds() - before);

    for (uint32_t pair = 0; pair < pairs; pair++) {
        uint32_t one = listed[2 * pair] = come(at, 'A'), other = listed[2 * pair + 1] = come(at, 'I');
        record(at, one, "I", other), record(at, other, "A", one);
        must(linkd_retire(at, one, &told) == LINKD_RETIRE && linkd_retire(at, other, &told) == LINKD_RETIRE, "a pair holds each other");
    }
    install_all(at, count);
    before = milliseconds();
    must(linkd_retire_all(at, listed, 2 * pairs, &told) == LINKD_DONE, "retire_all of pairs");
    printf("%u pairs at once: %.3f ms\n", (unsigned)pairs, milliseconds() - before);

    install_all(at, count);
    measure_lambdas(at, held, count);

    install_all(at, count);
    linkd_call_answer answer;
    for (uint32_t site = 0; site < count; site++) {
        must(linkd_call(at, sites[site], 0, &answer) == LINKD_DONE && answer.kind == LINKD_RUN && answer.value == 0, "a call on an Object");
    }
    linkd_close(at);
    return 0;
}
