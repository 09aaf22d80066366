/* What a call costs from C, at a seat and on a linker: nanoseconds, the best of some turns.
 *
 *     cost METHOD PC RECEIVER FILE..
 *
 * It defines the class files, links the invocation of the last one and calls it on the class whose file comes at place RECEIVER, from 0 on.
 */
#define _POSIX_C_SOURCE 200809L
#include "linkd.h"
#include <stdio.h>
#include <stdlib.h>
#include <time.h>

enum { CALLS = 5000000, TURNS = 7 };

static void must(int holds, const char *what) {
    if (holds) return;
    fprintf(stderr, "cost: %s\n", what);
    exit(1);
}

static void *block(size_t size, size_t align) {
    if (align < sizeof(void *)) align = sizeof(void *);
    void *is = aligned_alloc(align, (size + align - 1) / align * align);
    must(is != NULL, "no memory");
    return is;
}

static uint32_t define(linkd *at, const char *path) {
    static uint8_t bytes[1000000];
    linkd_told told;
    FILE *from = fopen(path, "rb");
    must(from != NULL, path);
    size_t length = fread(bytes, 1, sizeof bytes, from);
    fclose(from);
    must(linkd_define(at, 0, bytes, length, &told) == LINKD_DONE, path);
    return told.number;
}

static double now(void) {
    struct timespec time;
    clock_gettime(CLOCK_MONOTONIC, &time);
    return (double)time.tv_sec * 1e9 + (double)time.tv_nsec;
}

static uint64_t sum; /* of what was answered */

static double seat_turn(linkd_seat *seat, uint32_t site, uint32_t receiver) {
    double start = now();
    for (int i = 0; i < CALLS; i++) {
        uint64_t answer = linkd_seat_answer(seat, site, receiver);
        must(linkd_kind_of(answer) == LINKD_RUN, "no answer");
        sum += linkd_class_of(answer);
    }
    return (now() - start) / CALLS;
}

static double linker_turn(linkd *at, uint32_t site, uint32_t receiver) {
    double start = now();
    for (int i = 0; i < CALLS; i++) {
        linkd_call_answer answer;
        must(linkd_call(at, site, receiver, &answer) == LINKD_DONE && answer.kind == LINKD_RUN, "no answer");
        sum += answer.class_number;
    }
    return (now() - start) / CALLS;
}

int main(int argc, char **argv) {
    must(argc > 4, "METHOD PC RECEIVER FILE..");
    uint32_t class_number = 0, receiver = (uint32_t)strtoul(argv[3], NULL, 10);
    linkd *at = block(linkd_size(), linkd_align());
    linkd_seat *seat = block(linkd_seat_size(), linkd_seat_align());
    linkd_told told;
    linkd_blank(at);
    linkd_seat_blank(seat);
    must(linkd_open(at, 1) == LINKD_DONE, "not opened");
    for (int i = 4; i < argc; i++) class_number = define(at, argv[i]);
    must(linkd_request(at, class_number, (uint32_t)strtoul(argv[1], NULL, 10), (uint32_t)strtoul(argv[2], NULL, 10), &told) == LINKD_DONE,
         "no invocation there");
    uint32_t site = told.number;
    must(linkd_install(at, &site, 1, &told) == LINKD_DONE && linkd_seat_refresh(seat, at) == LINKD_DONE, "no link");
    double by_seat = 1e9, by_linker = 1e9;
    for (int turn = 0; turn < TURNS; turn++) {
        double one = seat_turn(seat, site, receiver), other = linker_turn(at, site, receiver);
        if (one < by_seat) by_seat = one;
        if (other < by_linker) by_linker = other;
    }
    printf("%.2f %.2f %llu\n", by_seat, by_linker, (unsigned long long)sum);
    linkd_seat_leave(seat);
    linkd_close(at);
    free(seat);
    free(at);
    return 0;
}
