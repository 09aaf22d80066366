/* A host in C whose loaders come and go: each defines ten classes, of which each has a linked site, and is retired, so many of them at once. It
 * tells how much memory is resident, what of each retired class stays, and what a loader takes.
 *
 *     loaders [LOADERS [LINES [TOGETHER]]]     LOADERS (10000) is how many loaders there are, LINES (10) how many lines are told, and
 *                                              TOGETHER (1), up to 1000, how many are retired at once
 *
 * A line has the count of the loaders, the megabytes that are resident, the bytes of each class since the line before, and the microseconds of
 * a processor that a loader took since then, its part of a retirement alone beside that. It ends with status 0 only where each call was done,
 * and the first class of the first loader is gone.
 */
#include "linkd.h"
#include <stdio.h>
#include <stdlib.h>
#include <string.h>
#include <time.h>
#include <unistd.h>

static const char OBJECT[] = "cafebabe0000003d00030100106a6176612f6c616e672f4f626a6563740700010021000200000000000000000000";
/* A class with the static methods m and r, of which r calls m of the class at pc 0. Its name is one letter, at the byte NAME. */
static const char CALLING[] =
    "cafebabe0000003d000b010001410700010100106a6176612f6c616e672f4f626a6563740700030100016d010003282956010004436f6465010001720c00050006"
    "0a0002000900210002000400000000000200090005000600010007000000"
    "0d0000000000000001b1000000000009000800060001000700000010000000000000"
    "0004b8000ab1000000000000";
enum { CLASSES = 10, BYTES = 256, NAME = 13, MOST_TOGETHER = 1000 };

static linkd_told told;

static void must(int so, const char *what) {
    if (!so) {
        fprintf(stderr, "not so: %s\n", what);
        exit(1);
    }
}

static size_t bytes_of(const char *text, uint8_t *bytes) {
    size_t length = strlen(text) / 2;
    must(length <= BYTES, "length");
    for (size_t place = 0; place < length; place++) {
        unsigned byte = 0;
        must(sscanf(text + 2 * place, "%2x", &byte) == 1, "hexadecimal");
        bytes[place] = (uint8_t)byte;
    }
    return length;
}

/* The seconds that this process has had a processor. */
static double now(void) {
    return (double)clock() / CLOCKS_PER_SEC;
}

static double resident(void) {
    long all = 0, pages = 0;
    FILE *file = fopen("/proc/self/statm", "r");
    must(file != NULL && fscanf(file, "%ld %ld", &all, &pages) == 2, "statm");
    fclose(file);
    return (double)pages * (double)sysconf(_SC_PAGESIZE) / 1e6;
}

/* One loader, up to its retirement. */
static uint32_t come(linkd *at, uint8_t *file, size_t length) {
    uint32_t sites[CLASSES];
    must(linkd_new_loader(at, &told) == LINKD_DONE, "new_loader");
    uint32_t loader = told.number;
    must(linkd_delegate(at, loader, (const uint8_t *)"java/lang/Object", 16, 0, &told) == LINKD_DONE, "delegate");
    for (int place = 0; place < CLASSES; place++) {
        file[NAME] = (uint8_t)('A' + place);
        must(linkd_define(at, loader, file, length, &told) == LINKD_DONE, "define");
        must(linkd_request(at, told.number, 1, 0, &told) == LINKD_DONE, "request");
        sites[place] = told.number;
    }
    must(linkd_install(at, sites, CLASSES, &told) == LINKD_DONE, "install");
    return loader;
}

/* So many loaders, which go at once; how long that alone took. */
static double come_and_go(linkd *at, uint8_t *file, size_t length, uint32_t count) {
    uint32_t loaders[MOST_TOGETHER];
    for (uint32_t place = 0; place < count; place++) loaders[place] = come(at, file, length);
    double before = now();
    must(linkd_retire_all(at, loaders, count, &told) == LINKD_DONE, "retire");
    return now() - before;
}

int main(int argc, char **argv) {
    uint32_t most = argc > 1 ? (uint32_t)strtoul(argv[1], NULL, 10) : 10000;
    uint32_t lines = argc > 2 ? (uint32_t)strtoul(argv[2], NULL, 10) : 10;
    uint32_t together = argc > 3 ? (uint32_t)strtoul(argv[3], NULL, 10) : 1;
    uint8_t object[BYTES], file[BYTES];
    linkd *at = aligned_alloc(linkd_align(), (linkd_size() + linkd_align() - 1) / linkd_align() * linkd_align());
    must(at != NULL && lines > 0 && together > 0 && together <= MOST_TOGETHER, "memory, LINES and TOGETHER");
    linkd_blank(at);
    must(linkd_open(at, LINKD_MOST_OF_A_KIND) == LINKD_DONE, "open");
    must(linkd_define(at, 0, object, bytes_of(OBJECT, object), &told) == LINKD_DONE, "define");
    size_t length = bytes_of(CALLING, file);
    double before = now(), size = resident(), going = 0;
    for (uint32_t line = 1, done = 0, last = 0; line <= lines; line++) {
        while (done < most / lines * line) {
            uint32_t left = most / lines * line - done, count = left < together ? left : together;
            going += come_and_go(at, file, length, count);
            done += count;
        }
        double after = now(), more = resident();
        printf("%u loaders %.3f MB %.0f bytes a class, %.1f us, a retirement %.1f us\n", done, more, (more - size) * 1e6 / CLASSES / (done - last),
               (after - before) * 1e6 / (done - last), going * 1e6 / (done - last));
        fflush(stdout);
        before = now(), size = more, last = done, going = 0;
    }
    linkd_call_answer answer;
    must(linkd_call(at, 0, LINKD_NULL, &answer) == LINKD_DONE && answer.kind == LINKD_UNLINKED && answer.value == LINKD_GONE, "gone");
    linkd_close(at);
    return 0;
}
