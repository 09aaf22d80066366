/* Defines the class files of standard input, a line of hexadecimal each, in loader 0, and tells how many are accepted and what that takes,
 * but for reading the lines. It ends with status 1 where one is refused.
 */
#define _POSIX_C_SOURCE 200809L
#include "linkd.h"
#include <stdio.h>
#include <stdlib.h>
#include <time.h>

enum { MOST_CLASSES = 65536 };

static struct { uint8_t *bytes; size_t length; } files[MOST_CLASSES];

static void *block(size_t size, size_t align) {
    if (align < sizeof(void *)) align = sizeof(void *);
    void *at = aligned_alloc(align, (size + align - 1) / align * align);
    if (at == NULL) abort();
    return at;
}

static uint8_t digit(char is) { return (uint8_t)(is <= '9' ? is - '0' : is - 'a' + 10); }

static double seconds(clockid_t clock) {
    struct timespec time;
    clock_gettime(clock, &time);
    return (double)time.tv_sec + (double)time.tv_nsec * 1e-9;
}

int main(void) {
    char *line = NULL;
    size_t room = 0, count = 0, refused = 0, bytes = 0;
    ssize_t length;
    while (count < MOST_CLASSES && (length = getline(&line, &room, stdin)) > 0) {
        size_t half = (size_t)length / 2;
        files[count].length = half;
        files[count].bytes = block(half + 1, 1);
        for (size_t i = 0; i < half; i++) files[count].bytes[i] = (uint8_t)(digit(line[2 * i]) << 4 | digit(line[2 * i + 1]));
        bytes += half;
        count++;
    }
    free(line);
    linkd *linker = block(linkd_size(), linkd_align());
    linkd_blank(linker);
    if (linkd_open(linker, 1) != LINKD_DONE) return 1;
    double start = seconds(CLOCK_MONOTONIC), spent = seconds(CLOCK_PROCESS_CPUTIME_ID);
    for (size_t i = 0; i < count; i++) {
        linkd_told told;
        uint32_t status = linkd_define(linker, 0, files[i].bytes, files[i].length, &told);
        if (status != LINKD_DONE && refused++ < 10)
            fprintf(stderr, "line %zu: status %lu, fault %lu, place %lu\n", i + 1, (unsigned long)status, (unsigned long)told.fault,
                    (unsigned long)told.place);
    }
    spent = seconds(CLOCK_PROCESS_CPUTIME_ID) - spent;
    start = seconds(CLOCK_MONOTONIC) - start;
    printf("%zu classes, %zu bytes, %zu refused: %.3f s, %.3f s of processor\n", count, bytes, refused, start, spent);
    linkd_close(linker);
    free(linker);
    for (size_t i = 0; i < count; i++) free(files[i].bytes);
    return refused > 0;
}
