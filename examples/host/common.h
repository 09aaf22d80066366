/* What the hosts in C share: how they end, their blocks, class files, and the requests of a class's invocations. */
#ifndef COMMON_H
#define COMMON_H

#include "linkd.h"
#include "names.h"
#include <stdbool.h>
#include <stdio.h>
#include <stdlib.h>
#include <string.h>

/* How a program ends. */
enum { BAD_WORDS = 2, BAD_FILE = 3, NO_MEMORY = 4, REFUSED = 5, BAD_NUMBER = 6, WRONG_ANSWER = 7, LOST_ANSWER = 8, STILL_LINKED = 9,
       NOTHING_SHOWN = 10, NO_THREAD = 11 };

static inline void must(bool holds, int status, const char *what, uint32_t number) {
    if (!holds) {
        fprintf(stderr, "host: %s (%lu)\n", what, (unsigned long)number);
        _Exit(status);
    }
}

/* A status of the linker that has to be LINKD_DONE. */
static inline void done(uint32_t status, const char *what) {
    if (status != LINKD_DONE) fprintf(stderr, "host: %s\n", refusal_name(status, 0));
    must(status == LINKD_DONE, REFUSED, what, status);
}

static inline void *memory(void *at) {
    must(at != NULL, NO_MEMORY, "no memory", 0);
    return at;
}

/* A block for a linker, a seat, a memo or a view. */
static inline void *block(size_t size, size_t align) {
    if (align < sizeof(void *)) align = sizeof(void *);
    return memory(aligned_alloc(align, (size + align - 1) / align * align));
}

struct file {
    char *name;
    uint8_t *bytes;
    size_t length;
};

static inline struct file read_file(const char *folder, const char *name) {
    char path[4096];
    struct file file = {memory(malloc(strlen(name) + 1)), NULL, 0};
    size_t room = 0;
    strcpy(file.name, name);
    must((size_t)snprintf(path, sizeof path, "%s/%s.class", folder, name) < sizeof path, BAD_FILE, "a path is too long", 0);
    FILE *from = fopen(path, "rb");
    must(from != NULL, BAD_FILE, path, 0);
    do {
        room = room * 2 + 4096;
        file.bytes = memory(realloc(file.bytes, room));
        file.length += fread(file.bytes + file.length, 1, room - file.length, from);
    } while (file.length == room);
    must(!ferror(from), BAD_FILE, path, 0);
    fclose(from);
    return file;
}

static inline void let_file_go(struct file *file) {
    free(file->name);
    free(file->bytes);
}

/* Requests the invocations of a class, by one thread at a time, and counts the sites, which are numbered one after another. Gives how many
 * are never linkable. */
static inline uint32_t request_all(linkd *linker, uint32_t class_number, uint32_t *sites) {
    static linkd_invocation invocations[65536]; /* a code has fewer bytes (Java Virtual Machine Specification, SE 17, 4.7.3) */
    size_t count = 0;
    uint32_t method = 0, unlinkable = 0, status;
    while ((status = linkd_invocations(linker, class_number, method, invocations, 65536, &count)) == LINKD_DONE) {
        for (size_t i = 0; i < count; i++) {
            linkd_told told;
            status = linkd_request(linker, class_number, method, invocations[i].pc, &told);
            if (status == LINKD_NOT_LINKABLE) {
                unlinkable++;
                continue;
            }
            done(status, "an invocation is refused");
            must(told.number == *sites, BAD_NUMBER, "a site has another number than the next one", told.number);
            ++*sites;
        }
        method++;
    }
    must(status == LINKD_NO_SUCH_PLACE, REFUSED, "the invocations of a method aren't told", status);
    return unlinkable;
}

static inline bool same_answer(const linkd_call_answer *one, const linkd_call_answer *other) {
    return one->kind == other->kind && one->class_number == other->class_number && one->value == other->value;
}

#endif
