/* A first program with linkd: it links a call, defines a class that overrides, and links the call again. */
#include "linkd.h"
#include <stdio.h>
#include <stdlib.h>
#include <string.h>

#define DEFINE "{\"do\":\"define\",\"loader\":0,\"sketch\":{\"name\":\"%s\",\"flags\":33%s}}"
#define BELOW(super) ",\"super\":\"" super "\""
#define DECLARES_F ",\"methods\":[{\"name\":\"f\",\"type\":\"()V\",\"flags\":1}]"
#define CALLS_A_F ",\"methods\":[{\"name\":\"run\",\"type\":\"()V\",\"flags\":9,\"calls\":[" \
                  "{\"kind\":\"invokevirtual\",\"of\":\"A\",\"name\":\"f\",\"type\":\"()V\"}]}]"

static void done(uint32_t status) {
    if (status == LINKD_DONE) return;
    fprintf(stderr, "first: %s\n", linkd_status_name(status));
    exit(1);
}

/* A small class, by a sketch (docs/FORMATS.md). Of the bytes of a class file linkd_define makes one. */
static uint32_t define(linkd *at, const char *name, const char *more) {
    char line[300];
    uint32_t number;
    size_t length = (size_t)snprintf(line, sizeof line, DEFINE, name, more);
    done(linkd_answer(at, (const uint8_t *)line, length, &length)); /* a refusal would be text, too; then there is no class of the name */
    done(linkd_lookup(at, 0, (const uint8_t *)name, strlen(name), &number));
    return number;
}

static void call(linkd *at, uint32_t site, uint32_t receiver, const char *object) {
    linkd_call_answer answer;
    uint8_t name[100];
    size_t length = 0;
    done(linkd_call(at, site, receiver, &answer));
    if (answer.kind == LINKD_RUN) done(linkd_class_name(at, answer.class_number, name, sizeof name, &length));
    printf("on %s the method of %.*s runs\n", object, (int)length, (const char *)name);
}

int main(void) {
    size_t align = linkd_align() < sizeof(void *) ? sizeof(void *) : linkd_align(), length;
    linkd *at = aligned_alloc(align, (linkd_size() + align - 1) / align * align);
    linkd_told told;
    linkd_invocation invocation;
    uint32_t site, dropped;
    if (at == NULL) return 1;
    linkd_blank(at);
    done(linkd_open(at, 1000)); /* room for so many sites */
    define(at, "java/lang/Object", "");
    define(at, "A", BELOW("java/lang/Object") DECLARES_F);
    uint32_t b = define(at, "B", BELOW("A")), m = define(at, "M", BELOW("java/lang/Object") CALLS_A_F);
    done(linkd_invocations(at, m, 0, &invocation, 1, &length)); /* of M's first method */
    done(linkd_request(at, m, 0, invocation.pc, &told));
    site = told.number;
    done(linkd_install(at, &site, 1, &told));
    call(at, site, b, "a B");
    uint32_t c = define(at, "C", BELOW("A") DECLARES_F);
    done(linkd_dropped(at, &dropped, 1, &length)); /* the site: the code that was compiled by its link goes */
    printf("after C's definition %lu link is gone\n", (unsigned long)length);
    done(linkd_install(at, &site, 1, &told));
    call(at, site, b, "a B");
    call(at, site, c, "a C");
    linkd_close(at);
    free(at);
    return 0;
}
