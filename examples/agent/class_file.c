/* The sections are those of the Java Virtual Machine Specification, SE 17. */
#include "agent.h"
#include <stdlib.h>
#include <string.h>

enum { UTF8 = 1, LONG = 5, DOUBLE = 6 };
enum { INVOKEVIRTUAL = 182, INVOKEINTERFACE = 185, INVOKEDYNAMIC = 186 };

static uint32_t u2(const uint8_t *at) { return (uint32_t)at[0] << 8 | at[1]; }
static uint32_t u4(const uint8_t *at) { return u2(at) << 16 | u2(at + 2); }

struct text text_of(const char *string) { return (struct text){(const uint8_t *)string, (uint32_t)strlen(string)}; }

bool same_text(struct text one, struct text other) {
    return one.length == other.length && memcmp(one.at, other.at, one.length) == 0;
}

bool is_text(struct text one, const char *other) { return same_text(one, text_of(other)); }

static struct text utf8(const struct class_file *file, uint32_t entry) {
    const uint8_t *at = file->pool[entry];
    return (struct text){at + 3, u2(at + 1)};
}

/* Lists the pool's entries (4.4), and says where they end. */
static const uint8_t *read_pool(const uint8_t *at, struct class_file *file) {
    static const uint8_t lengths[] = {0, 3, 0, 5, 5, 9, 9, 3, 3, 5, 5, 5, 5, 0, 0, 4, 3, 5, 5, 3, 3};
    for (uint32_t entry = 1; entry < file->pool_count; entry++) {
        uint8_t tag = at[0];
        file->pool[entry] = at;
        at += lengths[tag] + (tag == UTF8 ? u2(at + 1) : 0);
        if (tag == LONG || tag == DOUBLE) entry++; /* these take two numbers */
    }
    return at;
}

/* Reads a field or a method (4.5, 4.6), and says where it ends. A field has no Code. */
static const uint8_t *read_member(const uint8_t *at, const struct class_file *file, struct method_text *member) {
    uint32_t attributes = u2(at + 6);
    *member = (struct method_text){.name = utf8(file, u2(at + 2)), .type = utf8(file, u2(at + 4))};
    at += 8;
    for (uint32_t i = 0; i < attributes; i++) {
        if (is_text(utf8(file, u2(at)), "Code")) {
            member->code = at + 14;
            member->code_length = u4(at + 10);
        }
        at += 6 + u4(at + 2);
    }
    return at;
}

static bool read_methods(const uint8_t *at, struct class_file *file) {
    uint32_t fields = u2(at);
    at += 2;
    for (uint32_t i = 0; i < fields; i++) {
        struct method_text field;
        at = read_member(at, file, &field);
    }
    file->method_count = u2(at);
    file->methods = calloc((size_t)file->method_count + 1, sizeof *file->methods);
    if (file->methods == NULL) return false;
    at += 2;
    for (uint32_t i = 0; i < file->method_count; i++) at = read_member(at, file, &file->methods[i]);
    return true;
}

bool read_class_file(const uint8_t *bytes, struct class_file *file) {
    memset(file, 0, sizeof *file);
    file->pool_count = u2(bytes + 8);
    file->pool = calloc((size_t)file->pool_count + 1, sizeof *file->pool);
    if (file->pool == NULL) return false;
    const uint8_t *at = read_pool(bytes + 10, file);
    if (read_methods(at + 8 + 2 * u2(at + 6), file)) return true;
    let_class_file_go(file);
    return false;
}

void let_class_file_go(struct class_file *file) {
    free(file->pool);
    free(file->methods);
    memset(file, 0, sizeof *file);
}

uint32_t method_number(const struct class_file *file, struct text name, struct text type) {
    for (uint32_t i = 0; i < file->method_count; i++) {
        if (same_text(file->methods[i].name, name) && same_text(file->methods[i].type, type)) return i;
    }
    return NO_NUMBER;
}

bool invocation_at(const struct class_file *file, uint32_t method, uint32_t pc, struct invocation *found) {
    const struct method_text *in = &file->methods[method];
    if (in->code == NULL || pc + 2 >= in->code_length) return false;
    uint8_t opcode = in->code[pc];
    if (opcode < INVOKEVIRTUAL || opcode > INVOKEDYNAMIC) return false;
    const uint8_t *reference = file->pool[u2(in->code + pc + 1)];
    const uint8_t *name_and_type = file->pool[u2(reference + 3)];
    *found = (struct invocation){.opcode = opcode,
                                 .dynamic = opcode == INVOKEDYNAMIC,
                                 .name = utf8(file, u2(name_and_type + 1)),
                                 .type = utf8(file, u2(name_and_type + 3))};
    if (!found->dynamic) found->of = utf8(file, u2(file->pool[u2(reference + 1)] + 1));
    return true;
}
