/* A class that is made at run time calls a private method, as a lambda's class does.
 *
 *     nest FOLDER HOST CLASS
 *
 * FOLDER has the class files Object, HOST and CLASS. HOST is the nest host of CLASS, maybe CLASS itself. It makes a
 * class that calls the first lambda of CLASS, and links the call twice: with HOST as its file is, and with the made
 * class's name in its NestMembers. So the name has to be there before HOST is defined, and the class need not be.
 */
#include "common.h"

/* A class file. What it hasn't is read as 0, and `cut` says so. */
struct reader {
    const uint8_t *bytes;
    size_t length, at;
    bool cut;
};

/* The number in the next `count` bytes. */
static uint32_t take(struct reader *from, int count) {
    uint32_t number = 0;
    for (; count > 0; count--) {
        if (from->at == from->length) from->cut = true;
        number = number << 8 | (from->cut ? 0 : from->bytes[from->at++]);
    }
    return number;
}

static void skip(struct reader *from, size_t count) {
    if (count > from->length - from->at) from->cut = true;
    from->at = from->cut ? from->length : from->at + count;
}

/* Skips an entry of the constant pool (4.4), and gives how many numbers it takes. */
static uint32_t skip_constant(struct reader *from) {
    switch (take(from, 1)) {
        case 1: skip(from, take(from, 2)); return 1;
        case 5: case 6: skip(from, 8); return 2;
        case 7: case 8: case 16: case 19: case 20: skip(from, 2); return 1;
        case 15: skip(from, 3); return 1;
        default: skip(from, 4); return 1;
    }
}

static void skip_attribute(struct reader *from) {
    skip(from, 2);
    skip(from, take(from, 4));
}

/* Skips the fields or the methods (4.5, 4.6). */
static void skip_members(struct reader *from) {
    for (uint32_t members = take(from, 2); members > 0 && !from->cut; members--) {
        skip(from, 6);
        for (uint32_t left = take(from, 2); left > 0 && !from->cut; left--) skip_attribute(from);
    }
}

/* Whether the entry of this number is this text. */
static bool is_text(struct reader file, uint32_t entry, const char *text) {
    file.at = 10;
    for (uint32_t number = 1; number < entry && !file.cut;) number += skip_constant(&file);
    if (take(&file, 1) != 1 || take(&file, 2) != strlen(text) || file.length - file.at < strlen(text)) return false;
    return memcmp(file.bytes + file.at, text, strlen(text)) == 0;
}

static void put(struct file *to, uint32_t number, int count) {
    while (count-- > 0) to->bytes[to->length++] = (uint8_t)(number >> 8 * count);
}

static void put_bytes(struct file *to, const void *bytes, size_t length) {
    memcpy(to->bytes + to->length, bytes, length);
    to->length += length;
}

static void put_text(struct file *to, const char *text) {
    put(to, 1, 1);
    put(to, (uint32_t)strlen(text), 2);
    put_bytes(to, text, strlen(text));
}

/* The class file with more names in its NestMembers (4.7.29). The constants are appended, so the others keep their
 * numbers. The attribute comes last, and is made where there is none. An older file becomes one of version 55, from
 * which on the attribute is read. A file that isn't whole, or whose constant pool is full, comes back as it is. The
 * linker refuses the one, and in the other it doesn't find the names. Where a damaged file has a number beyond its
 * constants, that may name one of the new ones. */
static struct file with_members(const struct file *is, const char *const *names, uint32_t more) {
    size_t room = is->length + 64;
    for (uint32_t i = 0; i < more; i++) room += strlen(names[i]) + 8;
    struct file made = {NULL, memory(malloc(room)), 0};
    struct reader from = {is->bytes, is->length, 0, false};
    skip(&from, 6);
    uint32_t major = take(&from, 2), entries = take(&from, 2);
    for (uint32_t number = 1; number < entries && !from.cut;) number += skip_constant(&from);
    size_t body = from.at;
    skip(&from, 6);
    skip(&from, 2 * take(&from, 2));
    skip_members(&from);
    skip_members(&from);
    size_t attributes = from.at, first = is->length, last = is->length; /* from first to last stands the attribute */
    uint32_t count = take(&from, 2), members = 0;
    for (uint32_t left = count; left > 0 && !from.cut; left--) {
        size_t start = from.at;
        uint32_t entry = take(&from, 2);
        from.at = start;
        skip_attribute(&from);
        if (is_text(from, entry, "NestMembers")) first = start, last = from.at;
    }
    bool found = last - first >= 8;
    if (found) members = (uint32_t)is->bytes[first + 6] << 8 | is->bytes[first + 7];
    if (from.cut || from.at != is->length || entries + 2 * more > 65534 || found != (first < last)) {
        put_bytes(&made, is->bytes, is->length);
        return made;
    }

    put_bytes(&made, is->bytes, 6);
    put(&made, major >= 45 && major < 55 ? 55 : major, 2);
    put(&made, entries + 1 + 2 * more, 2);
    put_bytes(&made, is->bytes + 10, body - 10);
    put_text(&made, "NestMembers");
    for (uint32_t i = 0; i < more; i++) {
        put_text(&made, names[i]);
        put(&made, 7, 1);
        put(&made, entries + 1 + 2 * i, 2);
    }
    put_bytes(&made, is->bytes + body, attributes - body);
    put(&made, found ? count : count + 1, 2);
    put_bytes(&made, is->bytes + attributes + 2, first - attributes - 2);
    put_bytes(&made, is->bytes + last, is->length - last);
    put(&made, entries, 2);
    size_t before = found ? last - first - 8 : 0;
    put(&made, 2 + (uint32_t)before + 2 * more, 4);
    put(&made, members + more, 2);
    put_bytes(&made, is->bytes + last - before, before);
    for (uint32_t i = 0; i < more; i++) put(&made, entries + 2 + 2 * i, 2);
    return made;
}

static const char *host_name, *class_name;
static struct file object, member;
static linkd_told told;

/* The number of the class. */
static uint32_t define(linkd *at, const struct file *file) {
    linkd_status status = linkd_define(at, 0, file->bytes, file->length, &told);
    if (status != LINKD_DONE) fprintf(stderr, "nest: %s\n", refusal_name(status, told.fault));
    must(status == LINKD_DONE, REFUSED, "a class isn't defined", told.fault);
    return told.number;
}

/* The first method of the class whose name begins as javac names lambdas. */
static uint32_t find_lambda(linkd *at, uint32_t class_number, char *name, size_t room) {
    size_t length;
    for (uint32_t method = 0;; method++) {
        linkd_status status = linkd_method_name(at, class_number, method, (uint8_t *)name, room - 1, &length);
        if (status == LINKD_TOO_SHORT) continue;
        done(status, "the class has no lambda");
        name[length] = 0;
        if (strncmp(name, "lambda$", 7) == 0) return method;
    }
}

/* Defines the class of a lambda, by a sketch (docs/FORMATS.md). A runtime writes a class file. */
static uint32_t define_made(linkd *at, const char *name, const char *method, const char *type) {
    char line[2000];
    uint32_t number = 0;
    size_t length = (size_t)snprintf(line, sizeof line,
        "{\"do\":\"define\",\"loader\":0,\"sketch\":{"
        "\"name\":\"%s\",\"super\":\"java/lang/Object\",\"flags\":4144,\"host\":\"%s\","
        "\"methods\":[{\"name\":\"call\",\"type\":\"()V\",\"flags\":9,\"calls\":["
        "{\"kind\":\"invokestatic\",\"of\":\"%s\",\"name\":\"%s\",\"type\":\"%s\"}]}]}}",
        name, host_name, class_name, method, type);
    must(length < sizeof line, BAD_WORDS, "a name is too long", 0);
    done(linkd_answer(at, (const uint8_t *)line, length, &length), "a command");
    done(linkd_lookup(at, 0, (const uint8_t *)name, strlen(name), &number), "the made class isn't defined");
    return number;
}

/* What the made class's call comes to, in a linker in which this file is the nest host. */
static void link_and_tell(const struct file *host, const char *made_name, const char *how) {
    linkd *at = block(linkd_size(), linkd_align());
    char method[200], type[200];
    linkd_invocation invocation;
    linkd_link link;
    size_t length;
    linkd_blank(at);
    done(linkd_open(at, 1), "an open");
    define(at, &object);
    uint32_t class_number = define(at, host);
    if (strcmp(class_name, host_name) != 0) class_number = define(at, &member);
    uint32_t lambda = find_lambda(at, class_number, method, sizeof method);
    done(linkd_method_type(at, class_number, lambda, (uint8_t *)type, sizeof type - 1, &length), "a type");
    type[length] = 0;
    uint32_t made = define_made(at, made_name, method, type);
    done(linkd_invocations(at, made, 0, &invocation, 1, &length), "the made class's invocations");
    done(linkd_request(at, made, 0, invocation.pc, &told), "a request");
    uint32_t site = told.number;
    done(linkd_install(at, &site, 1, &told), "an install");
    done(linkd_link_of(at, site, &link), "a link");
    if (link.kind == LINKD_FAULT) {
        must(link.rows[0].value == LINKD_ILLEGAL_ACCESS_ERROR, WRONG_ANSWER, "another error", link.rows[0].value);
        printf("%s: IllegalAccessError\n", how);
    } else {
        bool is_it = link.rows[0].class_number == class_number && link.rows[0].value == lambda;
        must(link.kind == LINKD_PLAIN && is_it, WRONG_ANSWER, "another link", (uint32_t)link.kind);
        printf("%s: %s.%s runs\n", how, class_name, method);
    }
    linkd_close(at);
    free(at);
}

int main(int count, char **words) {
    char made_name[200], other[200], how[300];
    must(count == 4, BAD_WORDS, "nest FOLDER HOST CLASS", (uint32_t)count);
    host_name = words[2];
    class_name = words[3];
    must(snprintf(made_name, sizeof made_name, "%s$$Made$0", class_name) < 200, BAD_WORDS, "a name is too long", 0);
    snprintf(other, sizeof other, "%s$$Made$1", class_name);
    const char *names[] = {made_name, other}; /* no class ever has the other one */
    object = read_file(words[1], "Object");
    member = read_file(words[1], class_name);
    struct file host = read_file(words[1], host_name), more = with_members(&host, names, 2);
    snprintf(how, sizeof how, "%s as its file is", host_name);
    link_and_tell(&host, made_name, how);
    snprintf(how, sizeof how, "%s with %s in its NestMembers", host_name, made_name);
    link_and_tell(&more, made_name, how);
    let_file_go(&object);
    let_file_go(&member);
    let_file_go(&host);
    let_file_go(&more);
    return 0;
}
