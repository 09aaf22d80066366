/* A host in C whose loaders stay: it sets a call site's target, invalidates a switch point and links its site again, and tells how much memory
 * is resident, and what an event takes.
 *
 *     forever [EVENTS [LINES [seat]]]     EVENTS (10000000) is how many events there are, LINES (10) how many lines are told
 *
 * With the word seat a seat is refreshed after each event, as a host's threads do. A line has the count of the events, the megabytes that are
 * resident, and how many nanoseconds of a processor an event took since the line before. It ends with status 0 only where each call was done,
 * and each call of the site runs the method that its target names then.
 */
#include "linkd.h"
#include <stdio.h>
#include <stdlib.h>
#include <string.h>
#include <time.h>
#include <unistd.h>

/* java/lang/Object; and T with the static methods m, n and r, of which r has an invokedynamic. */
static const char *const FILES[] = {
    "cafebabe0000003d00030100106a6176612f6c616e672f4f626a6563740700010021000200000000000000000000",
    "cafebabe0000003d000d010001540700010100106a6176612f6c616e672f4f626a6563740700030100016d010003282956010004436f64650100016e"
    "01000172010001640c000a0006120000000b002100020004000000000003000900050006000100070000000d0000000000000001b100000000000900"
    "080006000100070000000d0000000000000001b10000000000090009000600010007000000120000000000000006ba000c0000b1000000000000"
};
enum { OBJECT, T, BYTES = 512 };

static linkd_told told;

static void must(int so, const char *what) {
    if (!so) {
        fprintf(stderr, "not so: %s\n", what);
        exit(1);
    }
}

static void define(linkd *at, int file) {
    static uint8_t bytes[BYTES];
    size_t length = strlen(FILES[file]) / 2;
    for (size_t place = 0; place < length; place++) {
        unsigned byte = 0;
        must(sscanf(FILES[file] + 2 * place, "%2x", &byte) == 1, "hexadecimal");
        bytes[place] = (uint8_t)byte;
    }
    must(linkd_define(at, 0, bytes, length, &told) == LINKD_DONE && told.number == (uint32_t)file, "define");
}

/* The seconds that this process has had a processor. */
static double now(void) {
    return (double)clock() / CLOCKS_PER_SEC;
}

static double resident(void) {
    long all = 0, pages = 0;
    FILE *file = fopen("/proc/self/statm", "r");
    must(file != NULL && fscanf(file, "%ld %ld", &all, &pages) == 2, "statm");
    fclose(file);
    return (double)pages * (double)sysconf(_SC_PAGESIZE) / 1e6;
}

/* Three events: a new target, an invalidation, an install. The site's call then runs the method of the new target. */
static void events(linkd *at, linkd_seat *seat, uint32_t method) {
    static const uint32_t point = 0, site = 0;
    linkd_target_part part = {LINKD_METHOD_TARGET, T, method};
    linkd_call_answer answer;
    must(linkd_set_target_of(at, 0, &part, 1, &told) == LINKD_DONE, "set_target_of");
    if (seat) {
        must(linkd_seat_refresh(seat, at) == LINKD_DONE, "seat_refresh");
    }
    must(linkd_invalidate(at, &point, 1, &told) == LINKD_DONE, "invalidate");
    if (seat) {
        must(linkd_seat_refresh(seat, at) == LINKD_DONE, "seat_refresh");
    }
    must(linkd_install(at, &site, 1, &told) == LINKD_DONE, "install");
    if (seat) {
        must(linkd_seat_refresh(seat, at) == LINKD_DONE, "seat_refresh");
        must(linkd_seat_call(seat, site, LINKD_NULL, &answer) == LINKD_DONE, "seat_call");
    } else {
        must(linkd_call(at, site, LINKD_NULL, &answer) == LINKD_DONE, "call");
    }
    must(answer.kind == LINKD_RUN && answer.class_number == T && answer.value == method, "method");
}

int main(int argc, char **argv) {
    uint64_t most = argc > 1 ? strtoull(argv[1], NULL, 10) : 10000000;
    uint64_t lines = argc > 2 ? strtoull(argv[2], NULL, 10) : 10;
    linkd *at = aligned_alloc(linkd_align(), (linkd_size() + linkd_align() - 1) / linkd_align() * linkd_align());
    linkd_seat *seat = NULL;
    linkd_target_part part = {LINKD_METHOD_TARGET, T, 0};
    must(at != NULL && lines > 0, "memory");
    linkd_blank(at);
    must(linkd_open(at, 1) == LINKD_DONE, "open");
    define(at, OBJECT);
    define(at, T);
    must(linkd_request(at, T, 2, 0, &told) == LINKD_DONE, "request");
    must(linkd_new_switch(at, &told) == LINKD_DONE, "new_switch");
    must(linkd_new_call_site_of(at, 2, (const uint8_t *)"()V", 3, &part, 1, &told) == LINKD_DONE, "new_call_site_of");
    must(linkd_bind(at, 0, 0, &told) == LINKD_DONE, "bind");
    if (argc > 3) {
        seat = aligned_alloc(linkd_seat_align(), (linkd_seat_size() + linkd_seat_align() - 1) / linkd_seat_align() * linkd_seat_align());
        must(seat != NULL, "memory");
        linkd_seat_blank(seat);
        must(linkd_seat_refresh(seat, at) == LINKD_DONE, "seat_refresh");
    }
    double before = now();
    uint64_t done = 0, last = 0;
    for (uint64_t line = 1; line <= lines; line++) {
        for (; done < most / lines * line; done += 3) {
            events(at, seat, (uint32_t)(done / 3 % 2));
        }
        double after = now();
        printf("%llu events %.3f MB %.0f ns\n", (unsigned long long)done, resident(), (after - before) * 1e9 / (double)(done - last));
        fflush(stdout);
        before = now();
        last = done;
    }
    if (seat) {
        linkd_seat_leave(seat);
    }
    linkd_close(at);
    return 0;
}
