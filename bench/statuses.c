/* Makes each call of the header, with most of its refusals, and looks at what is told. Where one isn't as it must be, it says the line and
 * ends with status 1.
 */
#include "linkd.h"
#include <stdio.h>
#include <stdlib.h>
#include <string.h>

#define MUST(holds) must((holds) != 0, __LINE__, #holds)
/* The status of an event, and what is told of it. */
#define TELLS(call, status, number, fault, place) tells((call), (status), (number), (fault), (place), __LINE__, #call)

/* java/lang/Object without methods, of Java 21. */
static const char object[] = "\xca\xfe\xba\xbe\0\0\0\x41\0\3\1\0\x10java/lang/Object\7\0\1\0\x21\0\2\0\0\0\0\0\0\0\0\0\0";

static linkd *at;
static linkd_told told;
static linkd_link link, present;
static linkd_link_row row;
static linkd_invocation invocations[4];
static linkd_call_answer answer;
static linkd_resolution resolution;
static uint32_t sites[257];
static size_t length;

static void must(int holds, int line, const char *what) {
    if (!holds) {
        fprintf(stderr, "statuses: line %d: %s\n", line, what);
        exit(1);
    }
}

static void tells(uint32_t is, uint32_t status, uint32_t number, uint32_t fault, uint32_t place, int line, const char *what) {
    if (is != status || told.number != number || told.fault != fault || told.place != place) {
        fprintf(stderr, "statuses: line %d: %s is %lu and tells %lu, %lu, %lu\n", line, what, (unsigned long)is, (unsigned long)told.number,
                (unsigned long)told.fault, (unsigned long)told.place);
        exit(1);
    }
}

static void *block(size_t size, size_t align) {
    if (align < sizeof(void *)) align = sizeof(void *);
    void *is = aligned_alloc(align, (size + align - 1) / align * align);
    MUST(is != NULL);
    return is;
}

static const uint8_t *bytes(const char *text) { return (const uint8_t *)text; }

/* Whether the command is answered so. */
static int says(const char *line, const char *wanted) {
    static uint8_t out[4096];
    size_t taken = 0;
    MUST(linkd_answer(at, bytes(line), strlen(line), &length) == LINKD_DONE && length <= sizeof out);
    MUST(length == 0 || (linkd_take(at, out, length - 1, &taken) == LINKD_TOO_SHORT && taken == length));
    MUST(linkd_take(at, out, sizeof out, &taken) == LINKD_DONE && taken == length);
    return length == strlen(wanted) && memcmp(out, wanted, length) == 0;
}

static uint32_t define_object(uint16_t newest) { return linkd_define_up_to(at, 0, newest, bytes(object), sizeof object - 1, &told); }

static uint32_t call_site(uint32_t kind, const char *type, const char *target) {
    return linkd_new_call_site(at, kind, bytes(type), strlen(type), bytes(target), strlen(target), &told);
}

static uint32_t set_target(uint32_t number, const char *target) { return linkd_set_target(at, number, bytes(target), strlen(target), &told); }

/* The same by parts. */
static uint32_t call_site_of(uint32_t kind, const char *type, const linkd_target_part *parts, size_t count) {
    return linkd_new_call_site_of(at, kind, bytes(type), strlen(type), parts, count, &told);
}

static uint32_t set_target_of(uint32_t number, const linkd_target_part *parts, size_t count) {
    return linkd_set_target_of(at, number, parts, count, &told);
}

static uint32_t delegate(uint32_t loader, const char *name, uint32_t to) {
    return linkd_delegate(at, loader, bytes(name), strlen(name), to, &told);
}

static int is_in_bits(uint64_t answer, uint32_t kind, uint32_t class_number, uint32_t value) {
    return linkd_kind_of(answer) == kind && linkd_class_of(answer) == class_number && linkd_value_of(answer) == value;
}

static int comes_to(uint32_t status, uint32_t kind, uint32_t class_number, uint32_t value) {
    return status == LINKD_DONE && answer.kind == kind && answer.class_number == class_number && answer.value == value;
}

static int row_is(const linkd_row *row, uint32_t receiver, uint32_t kind, uint32_t class_number, uint32_t value) {
    return row->receiver == receiver && row->kind == kind && row->class_number == class_number && row->value == value;
}

/* Each call of a linker that isn't open. */
static void closed(linkd_seat *seat) {
    MUST(linkd_new_loader(at, &told) == LINKD_CLOSED);
    MUST(linkd_define(at, 0, bytes("x"), 1, &told) == LINKD_CLOSED);
    MUST(linkd_define_up_to(at, 0, LINKD_NEWEST_KNOWN, bytes("x"), 1, &told) == LINKD_CLOSED);
    MUST(delegate(0, "A", 0) == LINKD_CLOSED);
    MUST(linkd_request(at, 0, 0, 0, &told) == LINKD_CLOSED);
    MUST(call_site(2, "()V", "{\"method\":[0,0]}") == LINKD_CLOSED);
    MUST(set_target(0, "{\"method\":[0,0]}") == LINKD_CLOSED);
    MUST(call_site_of(2, "()V", &(linkd_target_part){LINKD_METHOD_TARGET, 0, 0}, 1) == LINKD_CLOSED);
    MUST(set_target_of(0, &(linkd_target_part){LINKD_METHOD_TARGET, 0, 0}, 1) == LINKD_CLOSED);
    MUST(linkd_new_switch(at, &told) == LINKD_CLOSED);
    MUST(linkd_invalidate(at, sites, 0, &told) == LINKD_CLOSED);
    MUST(linkd_bind(at, 0, 0, &told) == LINKD_CLOSED);
    MUST(linkd_retire(at, 0, &told) == LINKD_CLOSED);
    MUST(linkd_retire_all(at, sites, 0, &told) == LINKD_CLOSED);
    MUST(linkd_release(at, sites, 0, sites, 0, &told) == LINKD_CLOSED);
    MUST(linkd_install(at, sites, 1, &told) == LINKD_CLOSED);
    MUST(linkd_install_links(at, &row, 1, &told, &present) == LINKD_CLOSED);
    MUST(linkd_link_place(at, 0, 0, 0, &link, &told) == LINKD_CLOSED);
    TELLS(linkd_install_ready(at, sites, 1, &link, 1, &told), LINKD_CLOSED, 0, 0, 0);
    MUST(linkd_check(at, LINKD_NEWEST_KNOWN, bytes(object), sizeof object - 1, &told) == LINKD_CLOSED);
    MUST(linkd_select(at, 0, 0, LINKD_NULL, &answer) == LINKD_CLOSED);
    MUST(linkd_resolve(at, 0, 0, bytes("f"), 1, bytes("()V"), 3, &resolution) == LINKD_CLOSED);
    MUST(linkd_class_accessible(at, 0, 0, sites) == LINKD_CLOSED);
    MUST(linkd_lookup(at, 0, bytes("A"), 1, sites) == LINKD_CLOSED);
    MUST(linkd_class_name(at, 0, (uint8_t *)sites, sizeof sites, &length) == LINKD_CLOSED);
    MUST(linkd_method_name(at, 0, 0, (uint8_t *)sites, sizeof sites, &length) == LINKD_CLOSED);
    MUST(linkd_method_type(at, 0, 0, (uint8_t *)sites, sizeof sites, &length) == LINKD_CLOSED);
    MUST(linkd_invocations(at, 0, 0, invocations, 4, &length) == LINKD_CLOSED);
    MUST(linkd_refused_name(at, (uint8_t *)sites, sizeof sites, &length) == LINKD_CLOSED);
    MUST(linkd_awaited(at, 0, (uint8_t *)sites, sizeof sites, &length) == LINKD_CLOSED);
    MUST(linkd_last_work(at, &(uint64_t){0}) == LINKD_CLOSED);
    MUST(linkd_catch_up(at) == LINKD_CLOSED);
    MUST(linkd_counts(at, &(linkd_count){0}) == LINKD_CLOSED);
    MUST(linkd_counts_present(at, &(linkd_count){0}) == LINKD_CLOSED);
    MUST(linkd_dropped(at, sites, 256, &length) == LINKD_CLOSED);
    MUST(linkd_call(at, 0, LINKD_NULL, &answer) == LINKD_CLOSED);
    MUST(linkd_link_of(at, 0, &link) == LINKD_CLOSED);
    MUST(linkd_answer(at, bytes("{\"do\":\"links\"}"), 14, &length) == LINKD_CLOSED);
    MUST(linkd_take(at, (uint8_t *)sites, sizeof sites, &length) == LINKD_CLOSED);
    MUST(linkd_seat_refresh(seat, at) == LINKD_CLOSED);
}

/* What classes, methods and numbers are called. */
static void named(void) {
    uint32_t class_number = 99;
    uint64_t work = 99;
    uint8_t text[16];
    MUST(linkd_version() == LINKD_VERSION);
    MUST(linkd_lookup(at, 0, bytes("M"), 1, &class_number) == LINKD_DONE && class_number == 2);
    MUST(linkd_lookup(at, 1, bytes("A"), 1, &class_number) == LINKD_DONE && class_number == 1);
    MUST(linkd_lookup(at, 0, bytes("Z"), 1, &class_number) == LINKD_UNKNOWN_CLASS && class_number == 1);
    MUST(linkd_lookup(at, 9, bytes("A"), 1, &class_number) == LINKD_UNKNOWN_CLASS && class_number == 1);
    MUST(linkd_class_name(at, 0, text, 15, &length) == LINKD_TOO_SHORT && length == 16);
    MUST(linkd_class_name(at, 0, text, 16, &length) == LINKD_DONE && length == 16 && memcmp(text, "java/lang/Object", 16) == 0);
    MUST(linkd_class_name(at, 99, text, 16, &length) == LINKD_UNKNOWN_CLASS && length == 16);
    MUST(linkd_method_name(at, 3, 3, text, 16, &length) == LINKD_DONE && length == 1 && text[0] == 'p');
    MUST(linkd_method_type(at, 3, 3, text, 16, &length) == LINKD_DONE && length == 3 && memcmp(text, "()I", 3) == 0);
    MUST(linkd_method_type(at, 3, 3, text, 2, &length) == LINKD_TOO_SHORT && length == 3);
    MUST(linkd_method_name(at, 3, 4, text, 16, &length) == LINKD_NO_SUCH_PLACE && length == 3);
    MUST(linkd_method_type(at, 3, 65536, text, 16, &length) == LINKD_NO_SUCH_PLACE);
    MUST(linkd_invocations(at, 2, 0, invocations, 3, &length) == LINKD_TOO_SHORT && length == 4);
    MUST(linkd_invocations(at, 2, 0, invocations, 4, &length) == LINKD_DONE && length == 4);
    MUST(invocations[0].pc == 0 && invocations[3].pc == 9 && invocations[3].opcode == 182);
    MUST(linkd_invocations(at, 3, 2, invocations, 4, &length) == LINKD_DONE && length == 1 && invocations[0].opcode == 186);
    MUST(linkd_invocations(at, 99, 0, invocations, 4, &length) == LINKD_NO_SUCH_PLACE && length == 1);
    MUST(linkd_awaited(at, 0, text, 16, &length) == LINKD_DONE && length == 1 && text[0] == 'Z');
    MUST(linkd_awaited(at, 0, text, 0, &length) == LINKD_TOO_SHORT && length == 1);
    MUST(linkd_awaited(at, 1, text, 16, &length) == LINKD_UNKNOWN_CLASS && linkd_awaited(at, 9, text, 16, &length) == LINKD_UNKNOWN_CLASS);
    MUST(linkd_last_work(at, &work) == LINKD_DONE);
    MUST(linkd_catch_up(at) == LINKD_DONE && linkd_catch_up(at) == LINKD_DONE);
    MUST(strcmp(linkd_status_name(LINKD_STALE), "LINKD_STALE") == 0 && linkd_status_name(18) == NULL);
    MUST(strcmp(linkd_fault_name(LINKD_DELEGATE, 3), "LINKD_DELEGATE_ALREADY_RECORDED") == 0);
    MUST(strcmp(linkd_fault_name(LINKD_DEFINE, 4), "LINKD_MISSING_PARENT") == 0);
    MUST(strcmp(linkd_fault_name(LINKD_RELEASE, 3), "LINKD_INVOKED") == 0 && linkd_fault_name(LINKD_RELEASE, 5) == NULL);
    MUST(linkd_fault_name(LINKD_NOT_LINKABLE, 3) == NULL && linkd_fault_name(LINKD_DONE, 1) == NULL);
}

static int resolves(const char *name, uint32_t kind, uint32_t value, uint32_t class_number, uint32_t method) {
    MUST(linkd_resolve(at, 2, 5, bytes(name), strlen(name), bytes("()V"), 3, &resolution) == LINKD_DONE);
    return resolution.kind == kind && resolution.value == value && resolution.class_number == class_number && resolution.method == method;
}

/* Calls that no code makes, references, access, bytes that aren't defined, and links in one call. B, which is 5, overrides A's f. */
static void uncalled(void) {
    static const uint8_t no_magic[] = {1, 2, 3, 4, 0, 0, 0, 61};
    uint32_t accessible = 9;
    answer.kind = LINKD_MISS;
    MUST(linkd_select(at, 1, 1, 1, &answer) == LINKD_NO_SUCH_PLACE && linkd_select(at, 1, 65536, 1, &answer) == LINKD_NO_SUCH_PLACE);
    MUST(linkd_select(at, 99, 0, 1, &answer) == LINKD_NO_SUCH_PLACE && answer.kind == LINKD_MISS);
    MUST(comes_to(linkd_select(at, 1, 0, 1, &answer), LINKD_RUN, 1, 0));
    MUST(comes_to(linkd_select(at, 1, 0, 5, &answer), LINKD_RUN, 5, 0));
    MUST(comes_to(linkd_select(at, 1, 0, LINKD_NULL, &answer), LINKD_THROWS, 0, LINKD_NULL_POINTER_EXCEPTION));
    MUST(comes_to(linkd_select(at, 5, 0, 1, &answer), LINKD_BAD_RECEIVER, 0, 0));
    MUST(comes_to(linkd_select(at, 1, 0, 99, &answer), LINKD_BAD_RECEIVER, 0, 0));
    MUST(comes_to(linkd_select(at, 3, 1, 99, &answer), LINKD_RUN, 3, 1)); /* it is static */

    resolution.kind = LINKD_MISS;
    MUST(linkd_resolve(at, 99, 1, bytes("f"), 1, bytes("()V"), 3, &resolution) == LINKD_UNKNOWN_CLASS);
    MUST(linkd_resolve(at, 1, 99, bytes("f"), 1, bytes("()V"), 3, &resolution) == LINKD_UNKNOWN_CLASS && resolution.kind == LINKD_MISS);
    MUST(resolves("f", LINKD_RUN, 0, 5, 0));
    MUST(resolves("g", LINKD_THROWS, LINKD_NO_SUCH_METHOD_ERROR, LINKD_NO_NUMBER, LINKD_NO_NUMBER));
    MUST(linkd_class_accessible(at, 99, 1, &accessible) == LINKD_UNKNOWN_CLASS);
    MUST(linkd_class_accessible(at, 1, 99, &accessible) == LINKD_UNKNOWN_CLASS && accessible == 9);
    MUST(linkd_class_accessible(at, 2, 1, &accessible) == LINKD_DONE && accessible == 1);

    TELLS(linkd_check(at, 64, bytes(object), sizeof object - 1, &told), LINKD_NO_CLASS_FILE, 0, LINKD_BAD_VERSION, 0);
    TELLS(linkd_check(at, 65, bytes(object), sizeof object - 1, &told), LINKD_DONE, 0, 0, 0);
    TELLS(linkd_check(at, 65, no_magic, 8, &told), LINKD_NO_CLASS_FILE, 0, LINKD_BAD_MAGIC, 0);

    link.kind = LINKD_MEGA;
    TELLS(linkd_link_place(at, 2, 65536, 0, &link, &told), LINKD_MALFORMED, 0, 0, 0);
    TELLS(linkd_link_place(at, 99, 0, 0, &link, &told), LINKD_UNKNOWN_CLASS, 0, 0, 0);
    TELLS(linkd_link_place(at, 2, 0, 1, &link, &told), LINKD_NO_SUCH_PLACE, 0, 0, 0);
    TELLS(linkd_link_place(at, 2, 0, 6, &link, &told), LINKD_NOT_LINKABLE, 0, LINKD_ARRAY_RECEIVER, 0);
    TELLS(linkd_link_place(at, 4, 0, 0, &link, &told), LINKD_SITES_FULL, 0, 0, 0);
    MUST(link.kind == LINKD_MEGA);
    TELLS(linkd_link_place(at, 3, 2, 0, &link, &told), LINKD_DONE, 2, 0, 0);
    MUST(link.kind == LINKD_PLAIN && link.count == 1 && row_is(&link.rows[0], 0, LINKD_RUN, 3, 0));
    TELLS(linkd_link_place(at, 2, 0, 0, &link, &told), LINKD_NOT_READY, 0, 0, 0);
    MUST(link.kind == LINKD_NONE && link.count == 0);
    TELLS(linkd_link_place(at, 2, 0, 3, &link, &told), LINKD_DONE, 1, 0, 0);
    MUST(link.kind == LINKD_VIRTUAL_TABLE && link.count == 2 && row_is(&link.rows[1], 5, LINKD_RUN, 5, 0));
}

/* After how many accepted events the linker is. */
static uint64_t serial_now(void) {
    linkd_view *view = block(linkd_view_size(), linkd_view_align());
    uint64_t serial = 0;
    linkd_view_blank(view);
    MUST(linkd_view_take(view, at) == LINKD_DONE && linkd_view_serial(view, &serial) == LINKD_DONE);
    linkd_view_leave(view);
    free(view);
    return serial;
}

static uint64_t work_of_last(void) {
    uint64_t work = 0;
    MUST(linkd_last_work(at, &work) == LINKD_DONE);
    return work;
}

/* Links of those of several sites that have one. Site 0 waits for Z, 1 calls f of A and B, and 2 runs what call site 1 does. */
static void readied(void) {
    static linkd_link links[257];
    TELLS(set_target(1, "{\"method\":[3,1]}"), LINKD_DONE, 0, 0, 0);
    MUST(told.dropped == 1 && linkd_link_of(at, 2, &link) == LINKD_DONE && link.kind == LINKD_NONE);
    for (int i = 0; i < 257; i++) links[i] = (linkd_link){.kind = LINKD_MEGA};
    memcpy(sites, (uint32_t[]){2, 0, 1, 9}, 4 * sizeof *sites);
    TELLS(linkd_install_ready(at, sites, 4, links, 3, &told), LINKD_TOO_SHORT, 0, 0, 0);
    MUST(links[0].kind == LINKD_MEGA && linkd_link_of(at, 2, &link) == LINKD_DONE && link.kind == LINKD_NONE);
    TELLS(linkd_install_ready(at, sites, 4, links, 5, &told), LINKD_DONE, 0, 0, 0);
    MUST(told.dropped == 0 && linkd_dropped(at, sites, 257, &length) == LINKD_DONE && length == 0);
    MUST(links[0].kind == LINKD_PLAIN && links[0].count == 1 && row_is(&links[0].rows[0], 0, LINKD_RUN, 3, 1));
    MUST(links[1].kind == LINKD_NONE && links[1].count == 0 && row_is(&links[1].rows[0], 0, 0, 0, 0));
    MUST(links[2].kind == LINKD_VIRTUAL_TABLE && links[2].count == 2 && row_is(&links[2].rows[0], 1, LINKD_RUN, 1, 0));
    MUST(row_is(&links[2].rows[1], 5, LINKD_RUN, 5, 0) && links[3].kind == LINKD_NONE && links[4].kind == LINKD_MEGA);
    MUST(linkd_link_of(at, 2, &link) == LINKD_DONE && link.kind == LINKD_PLAIN && row_is(&link.rows[0], 0, LINKD_RUN, 3, 1));

    /* Without one that has a link there is no event. Of site 1 a method was selected for A and for B. */
    sites[0] = 1;
    TELLS(linkd_install_ready(at, sites, 1, links, 1, &told), LINKD_DONE, 0, 0, 0);
    uint64_t serial = serial_now();
    MUST(work_of_last() == 2);
    TELLS(linkd_install_ready(at, sites, 0, links, 0, &told), LINKD_DONE, 0, 0, 0);
    MUST(links[0].kind == LINKD_VIRTUAL_TABLE);
    for (int i = 0; i < 257; i++) sites[i] = i % 2 ? 9 : 0;
    TELLS(linkd_install_ready(at, sites, 257, links, 257, &told), LINKD_DONE, 0, 0, 0);
    for (int i = 0; i < 257; i++) MUST(links[i].kind == LINKD_NONE);
    MUST(work_of_last() == 2 && serial_now() == serial);

    TELLS(set_target(1, "{\"method\":[3,0]}"), LINKD_DONE, 0, 0, 0);
    MUST(told.dropped == 1);
    links[0].kind = LINKD_MEGA;
    memcpy(sites, (uint32_t[]){0, 2, 1, 0, 1}, 5 * sizeof *sites);
    TELLS(linkd_install_ready(at, sites, 5, links, 5, &told), LINKD_REPEATED, 0, 0, 1);
    for (int i = 0; i < 257; i++) sites[i] = 2;
    TELLS(linkd_install_ready(at, sites, 257, links, 257, &told), LINKD_BATCH_SIZE, 0, 0, 0);
    TELLS(linkd_install_ready(at, sites, 256, links, 256, &told), LINKD_REPEATED, 0, 0, 2);
    MUST(links[0].kind == LINKD_MEGA && linkd_link_of(at, 2, &link) == LINKD_DONE && link.kind == LINKD_NONE);
    TELLS(linkd_install_ready(at, sites, 1, links, 1, &told), LINKD_DONE, 0, 0, 0);
    MUST(links[0].kind == LINKD_PLAIN && row_is(&links[0].rows[0], 0, LINKD_RUN, 3, 0));
}

/* A view, in which the invokedynamic's link is prepared before its target is another one. */
static linkd_view *viewed(void) {
    linkd_view *view = block(linkd_view_size(), linkd_view_align());
    linkd_link links[2];
    uint64_t serial = 0, later = 0;
    linkd_view_blank(view);
    MUST(linkd_view_serial(view, &serial) == LINKD_CLOSED && serial == 0);
    MUST(linkd_view_call(view, 2, LINKD_NULL, &answer) == LINKD_CLOSED);
    TELLS(linkd_view_prepare(view, sites, 1, links, 2, &told), LINKD_CLOSED, 0, 0, 0);
    MUST(linkd_view_take(view, at) == LINKD_DONE);
    MUST(linkd_view_serial(view, &serial) == LINKD_DONE && serial != 0);
    sites[0] = sites[1] = 2;
    TELLS(linkd_view_prepare(view, sites, 0, links, 2, &told), LINKD_BATCH_SIZE, 0, 0, 0);
    TELLS(linkd_view_prepare(view, sites, 2, links, 1, &told), LINKD_TOO_SHORT, 0, 0, 0);
    TELLS(linkd_view_prepare(view, sites, 2, links, 2, &told), LINKD_REPEATED, 0, 0, 2);
    sites[1] = 9;
    TELLS(linkd_view_prepare(view, sites, 2, links, 2, &told), LINKD_UNKNOWN_SITE, 0, 0, 9);
    sites[1] = 0;
    TELLS(linkd_view_prepare(view, sites, 2, links, 2, &told), LINKD_NOT_READY, 0, 0, 0);
    sites[1] = 1;
    TELLS(linkd_view_prepare(view, sites, 2, links, 2, &told), LINKD_DONE, 0, 0, 0);
    MUST(links[0].kind == LINKD_PLAIN && row_is(&links[0].rows[0], 0, LINKD_RUN, 3, 0) && links[1].kind == LINKD_MEGA);

    row.site = 2;
    row.link = links[0];
    present.kind = 99;
    TELLS(linkd_install_links(at, &row, 0, &told, &present), LINKD_BATCH_SIZE, 0, 0, 0);
    TELLS(linkd_install_links(at, &row, 1, &told, &present), LINKD_DONE, 0, 0, 0);
    TELLS(set_target(1, "{\"method\":[3,1]}"), LINKD_DONE, 0, 0, 0);
    MUST(linkd_view_serial(view, &later) == LINKD_DONE && later == serial);
    MUST(comes_to(linkd_view_call(view, 2, LINKD_NULL, &answer), LINKD_RUN, 3, 0));
    row.link.count = 2;
    TELLS(linkd_install_links(at, &row, 1, &told, &present), LINKD_MALFORMED, 0, 0, 0);
    MUST(present.kind == 99);
    row.link.count = 1;
    TELLS(linkd_install_links(at, &row, 1, &told, &present), LINKD_STALE, 0, 0, 2);
    MUST(present.kind == LINKD_PLAIN && row_is(&present.rows[0], 0, LINKD_RUN, 3, 1));
    row.link.rows[0].class_number = 99;
    TELLS(linkd_install_links(at, &row, 1, &told, &present), LINKD_STALE, 0, 0, 2);
    row.link = present;
    TELLS(linkd_install_links(at, &row, 1, &told, &present), LINKD_DONE, 0, 0, 0);
    row.site = 0;
    TELLS(linkd_install_links(at, &row, 1, &told, &present), LINKD_NOT_READY, 0, 0, 0);
    row.site = 9;
    TELLS(linkd_install_links(at, &row, 1, &told, &present), LINKD_UNKNOWN_SITE, 0, 0, 9);
    return view;
}

/* A fresh linker, in which of all call sites and switch points, which are let go, only call site 1 stays, which is bound. */
static void renewed(linkd_seat *seat) {
    static const uint32_t gone[] = {2, 1, 0, 9};
    uint32_t loaders[2] = {7, 7}, classes[15] = {0}, renewed_sites[3], call_sites[3], switches[2];
    linkd_released released = {gone, 4, gone + 1, 2};
    linkd_numbers numbers = {loaders, 2, classes, 15, renewed_sites, 3, call_sites, 3, switches, 1};
    linkd_count count = {9, 9, 9, 9, 9};
    linkd *fresh = block(linkd_size(), linkd_align());
    linkd_blank(fresh);
    classes[14] = 7;
    MUST(linkd_counts(fresh, &count) == LINKD_CLOSED && count.loaders == 0 && count.switches == 0);
    MUST(linkd_counts(at, &count) == LINKD_DONE && count.loaders == 2 && count.classes == 14 && count.sites == 3);
    MUST(count.call_sites == 3 && count.switches == 2);
    MUST(linkd_counts_present(fresh, &count) == LINKD_CLOSED && count.classes == 0 && count.call_sites == 0);
    MUST(linkd_counts_present(at, &count) == LINKD_DONE && count.loaders == 2 && count.classes == 14 && count.sites == 3);
    MUST(count.call_sites == 3 && count.switches == 2);
    MUST(linkd_renew(fresh, at, 3, &released, &numbers) == LINKD_CLOSED);
    MUST(linkd_renew(at, fresh, 0, &released, &numbers) == LINKD_MALFORMED);
    MUST(linkd_renew(at, fresh, 1048577, &released, &numbers) == LINKD_MALFORMED);
    MUST(linkd_renew(at, fresh, 3, &released, &numbers) == LINKD_TOO_SHORT);
    numbers.switch_capacity = 2;
    MUST(linkd_renew(at, fresh, 2, &released, &numbers) == LINKD_SITES_FULL && loaders[1] == 7);
    MUST(linkd_renew(at, fresh, 3, &released, &numbers) == LINKD_DONE);
    MUST(linkd_renew(at, fresh, 3, &released, &numbers) == LINKD_OPEN_ALREADY);
    MUST(loaders[0] == 0 && loaders[1] == 1 && classes[13] == 13 && classes[14] == 7 && renewed_sites[2] == 2);
    MUST(call_sites[0] == LINKD_NO_NUMBER && call_sites[1] == 0 && call_sites[2] == LINKD_NO_NUMBER);
    MUST(switches[0] == LINKD_NO_NUMBER && switches[1] == LINKD_NO_NUMBER);
    MUST(linkd_counts(fresh, &count) == LINKD_DONE && count.loaders == 2 && count.call_sites == 1 && count.switches == 0);
    MUST(linkd_link_of(fresh, 1, &link) == LINKD_DONE && link.kind == LINKD_MEGA);
    MUST(linkd_link_of(fresh, 2, &link) == LINKD_DONE && link.kind == LINKD_PLAIN && row_is(&link.rows[0], 0, LINKD_RUN, 3, 1));
    MUST(linkd_seat_refresh(seat, fresh) == LINKD_DONE);
    MUST(comes_to(linkd_seat_call(seat, 2, LINKD_NULL, &answer), LINKD_RUN, 3, 1));
    linkd_close(fresh);
    free(fresh);
    MUST(linkd_seat_refresh(seat, at) == LINKD_DONE);
}

/* What a renewal in steps is refused: released are the call sites 0 and 2, and both switch points. */
static void refused_steps(linkd_renewal *renewal, linkd *fresh, const linkd_released *released, linkd_numbers *numbers) {
    length = 7;
    TELLS(linkd_renewal_fill(renewal, &told), LINKD_CLOSED, 0, 0, 0);
    TELLS(linkd_renewal_finish(renewal, at, fresh, &told, numbers), LINKD_CLOSED, 0, 0, 0);
    MUST(linkd_renewal_take(renewal, at, 1, &length) == LINKD_CLOSED && length == 7);
    MUST(linkd_renewal_begin(renewal, fresh, 3, released) == LINKD_CLOSED);
    MUST(linkd_renewal_begin(renewal, at, 0, released) == LINKD_MALFORMED);
    MUST(linkd_renewal_begin(renewal, at, 1048577, released) == LINKD_MALFORMED);
    TELLS(linkd_renewal_fill(renewal, &told), LINKD_CLOSED, 0, 0, 0);

    MUST(linkd_renewal_begin(renewal, at, 2, released) == LINKD_DONE);
    MUST(linkd_renewal_begin(renewal, at, 3, released) == LINKD_OPEN_ALREADY);
    MUST(linkd_renewal_take(renewal, fresh, 1, &length) == LINKD_CLOSED && length == 7);
    TELLS(linkd_renewal_finish(renewal, fresh, at, &told, numbers), LINKD_CLOSED, 0, 0, 0);
    MUST(linkd_open(fresh, 1) == LINKD_DONE);
    TELLS(linkd_renewal_finish(renewal, at, fresh, &told, numbers), LINKD_OPEN_ALREADY, 0, 0, 0);
    linkd_close(fresh);
    numbers->switch_capacity--;
    TELLS(linkd_renewal_finish(renewal, at, fresh, &told, numbers), LINKD_TOO_SHORT, 0, 0, 0);
    numbers->switch_capacity++;
    TELLS(linkd_renewal_finish(renewal, at, fresh, &told, numbers), LINKD_SITES_FULL, 0, 0, 0);
    TELLS(linkd_renewal_fill(renewal, &told), LINKD_SITES_FULL, 0, 0, 0);
    linkd_renewal_leave(renewal);
}

/* An event that names what was released; and another linker than that of the begin. */
static void ended_steps(linkd_renewal *renewal, linkd *fresh, const linkd_released *released, linkd_numbers *numbers) {
    linkd *other = block(linkd_size(), linkd_align());
    linkd_blank(other);
    linkd_view *view = block(linkd_view_size(), linkd_view_align());
    uint64_t before = 0;
    linkd_view_blank(view);
    MUST(linkd_view_take(view, at) == LINKD_DONE && linkd_view_serial(view, &before) == LINKD_DONE && before > 0);
    linkd_view_leave(view);
    free(view);
    MUST(linkd_renewal_begin(renewal, at, 3, released) == LINKD_DONE);
    MUST(linkd_renewal_take(renewal, at, 0, &length) == LINKD_DONE && length == 0);
    TELLS(set_target(2, "{\"method\":[3,3]}"), LINKD_DONE, 0, 0, 0);
    MUST(linkd_renewal_take(renewal, at, 1, &length) == LINKD_DONE && length == 0);
    TELLS(linkd_renewal_fill(renewal, &told), LINKD_RELEASED, before, 0, 2);
    TELLS(linkd_renewal_finish(renewal, at, fresh, &told, numbers), LINKD_RELEASED, before, 0, 2);
    linkd_renewal_leave(renewal);
    TELLS(linkd_renewal_fill(renewal, &told), LINKD_CLOSED, 0, 0, 0);

    MUST(linkd_open(other, 3) == LINKD_DONE);
    MUST(linkd_renewal_begin(renewal, at, 3, released) == LINKD_DONE);
    MUST(linkd_renewal_take(renewal, other, 1, &length) == LINKD_MALFORMED && length == 0);
    TELLS(linkd_renewal_finish(renewal, other, fresh, &told, numbers), LINKD_MALFORMED, 0, 0, 0);
    MUST(linkd_counts(fresh, &(linkd_count){0}) == LINKD_CLOSED);
    linkd_renewal_leave(renewal);
    linkd_renewal_leave(renewal);
    linkd_close(other);
    free(other);
}

/* What there was at the begin is made, and nothing of that is taken; what comes then is carried over. The install is left. */
static void begun_and_filled(linkd_renewal *renewal, const linkd_released *released) {
    MUST(linkd_renewal_begin(renewal, at, 3, released) == LINKD_DONE);
    MUST(linkd_renewal_take(renewal, at, 1, &length) == LINKD_DONE && length == 0);
    TELLS(linkd_renewal_fill(renewal, &told), LINKD_DONE, 0, 0, 0);
    TELLS(linkd_new_switch(at, &told), LINKD_DONE, 2, 0, 0);
    TELLS(linkd_renewal_fill(renewal, &told), LINKD_DONE, 0, 0, 0);
    TELLS(linkd_invalidate(at, released->call_sites + 2, 1, &told), LINKD_DONE, 0, 0, 0);
    sites[0] = 2;
    TELLS(linkd_install(at, sites, 1, &told), LINKD_DONE, 0, 0, 0);
    MUST(linkd_renewal_take(renewal, at, 2, &length) == LINKD_DONE && length == 1);
    TELLS(linkd_renewal_fill(renewal, &told), LINKD_DONE, 0, 0, 0);
}

static void renewed_in_steps(linkd_seat *seat) {
    static const uint32_t gone[] = {2, 1, 0, 9};
    uint32_t loaders[2], classes[15], renewed_sites[3], call_sites[3], switches[3];
    linkd_released released = {gone, 4, gone + 1, 2};
    linkd_numbers numbers = {loaders, 2, classes, 15, renewed_sites, 3, call_sites, 3, switches, 2};
    linkd_count count;
    linkd *fresh = block(linkd_size(), linkd_align());
    linkd_renewal *renewal = block(linkd_renewal_size(), linkd_renewal_align());
    linkd_blank(fresh);
    linkd_renewal_blank(renewal);
    refused_steps(renewal, fresh, &released, &numbers);

    begun_and_filled(renewal, &released);
    numbers.switch_capacity = 3;
    TELLS(linkd_renewal_finish(renewal, at, fresh, &told, &numbers), LINKD_DONE, 0, 0, 0);
    TELLS(linkd_renewal_fill(renewal, &told), LINKD_CLOSED, 0, 0, 0);
    MUST(loaders[1] == 1 && classes[13] == 13 && renewed_sites[2] == 2);
    MUST(call_sites[0] == LINKD_NO_NUMBER && call_sites[1] == 0 && call_sites[2] == LINKD_NO_NUMBER);
    MUST(switches[0] == LINKD_NO_NUMBER && switches[1] == LINKD_NO_NUMBER && switches[2] == 0);
    MUST(linkd_counts(fresh, &count) == LINKD_DONE && count.classes == 14 && count.call_sites == 1 && count.switches == 1);
    MUST(linkd_link_of(fresh, 1, &link) == LINKD_DONE && link.kind == LINKD_MEGA);
    MUST(linkd_link_of(fresh, 2, &link) == LINKD_DONE && link.kind == LINKD_PLAIN && row_is(&link.rows[0], 0, LINKD_RUN, 3, 1));
    MUST(linkd_seat_refresh(seat, fresh) == LINKD_DONE);
    MUST(comes_to(linkd_seat_call(seat, 2, LINKD_NULL, &answer), LINKD_RUN, 3, 1));
    linkd_close(fresh);

    ended_steps(renewal, fresh, &released, &numbers);
    free(renewal);
    free(fresh);
    MUST(linkd_seat_refresh(seat, at) == LINKD_DONE);
}

int main(void) {
    linkd_target_part parts[] = {
        {LINKD_GUARD_TARGET, 1, 0}, {LINKD_METHOD_TARGET, 3, 0}, {LINKD_METHOD_TARGET, 3, 1}, {LINKD_INVOKER_TARGET, 7, 0}};
    static const uint8_t truncated[] = {0xca, 0xfe, 0xba}, no_magic[] = {1, 2, 3, 4, 0, 0, 0, 61}, newer[] = {0xca, 0xfe, 0xba, 0xbe, 0, 0, 0, 62};
    linkd_seat *seat = block(linkd_seat_size(), linkd_seat_align());
    at = block(linkd_size(), linkd_align());
    linkd_memo *memo = block(linkd_memo_size(), linkd_memo_align());
    linkd_seat_blank(seat);
    linkd_memo_blank(memo);
    linkd_blank(at);
    closed(seat);
    MUST(linkd_memo_ask(memo, at, 0, LINKD_NULL, &answer) == LINKD_CLOSED);
    MUST(linkd_memo_call(memo, 0, LINKD_NULL, &answer) == LINKD_CLOSED);
    MUST(linkd_memo_open(memo, 4) == LINKD_DONE);
    MUST(linkd_memo_open(memo, 4) == LINKD_OPEN_ALREADY);
    MUST(linkd_memo_ask(memo, at, 0, LINKD_NULL, &answer) == LINKD_CLOSED);
    MUST(linkd_seat_call_with(seat, memo, 0, LINKD_NULL, &answer) == LINKD_CLOSED);
    MUST(linkd_seat_call(seat, 0, LINKD_NULL, &answer) == LINKD_CLOSED);
    MUST(is_in_bits(linkd_seat_answer(seat, 0, LINKD_NULL), LINKD_MISS, 0, 0));

    MUST(linkd_open(at, 0) == LINKD_MALFORMED);
    MUST(linkd_open(at, 1048577) == LINKD_MALFORMED);
    MUST(linkd_open(at, 3) == LINKD_DONE);
    MUST(linkd_open(at, 3) == LINKD_OPEN_ALREADY);

    /* Class files, and the classes: java/lang/Object 0, A 1, M 2, T 3. */
    TELLS(linkd_define(at, 0, truncated, 3, &told), LINKD_NO_CLASS_FILE, 0, LINKD_TRUNCATED, 0);
    TELLS(linkd_define(at, 0, no_magic, 8, &told), LINKD_NO_CLASS_FILE, 0, LINKD_BAD_MAGIC, 0);
    TELLS(linkd_define(at, 0, newer, 8, &told), LINKD_NO_CLASS_FILE, 0, LINKD_BAD_VERSION, 0);
    TELLS(define_object(LINKD_NEWEST_OF_17), LINKD_NO_CLASS_FILE, 0, LINKD_BAD_VERSION, 0);
    TELLS(define_object(64), LINKD_NO_CLASS_FILE, 0, LINKD_BAD_VERSION, 0);
    TELLS(define_object(LINKD_NEWEST_KNOWN), LINKD_DONE, 0, 0, 0);
    TELLS(define_object(65), LINKD_DEFINE, 0, LINKD_ALREADY_RECORDED, 0);
    MUST(says("{}", "{\"error\":\"BadCommand\"}"));
    MUST(says("{\"do\":\"define\",\"loader\":0,\"sketch\":{\"name\":\"A\",\"super\":\"java/lang/Object\",\"flags\":33,\"methods\":["
              "{\"name\":\"f\",\"type\":\"()V\",\"flags\":1}]}}",
              "{\"class\":1,\"dropped\":[]}"));
    MUST(says("{\"do\":\"define\",\"loader\":0,\"sketch\":{\"name\":\"M\",\"super\":\"java/lang/Object\",\"flags\":33,\"methods\":["
              "{\"name\":\"run\",\"type\":\"()V\",\"flags\":9,\"calls\":["
              "{\"kind\":\"invokevirtual\",\"of\":\"Z\",\"name\":\"f\",\"type\":\"()V\"},"
              "{\"kind\":\"invokevirtual\",\"of\":\"A\",\"name\":\"f\",\"type\":\"()V\"},"
              "{\"kind\":\"invokevirtual\",\"of\":\"[LA;\",\"name\":\"f\",\"type\":\"()V\"},"
              "{\"kind\":\"invokevirtual\",\"of\":\"java/lang/invoke/MethodHandle\",\"name\":\"invoke\",\"type\":\"()V\"}]}]}}",
              "{\"class\":2,\"dropped\":[]}"));
    MUST(says("{\"do\":\"define\",\"loader\":0,\"sketch\":{\"name\":\"T\",\"super\":\"java/lang/Object\",\"flags\":33,\"methods\":["
              "{\"name\":\"m\",\"type\":\"()V\",\"flags\":9},{\"name\":\"n\",\"type\":\"()V\",\"flags\":9},"
              "{\"name\":\"r\",\"type\":\"()V\",\"flags\":9,\"calls\":[{\"kind\":\"invokedynamic\",\"name\":\"d\",\"type\":\"()V\"}]},"
              "{\"name\":\"p\",\"type\":\"()I\",\"flags\":9}]}}",
              "{\"class\":3,\"dropped\":[]}"));

    /* Requests: Z.f 0, A.f 1, the invokedynamic 2. */
    TELLS(linkd_request(at, 9, 0, 0, &told), LINKD_UNKNOWN_CLASS, 0, 0, 0);
    TELLS(linkd_request(at, 2, 0, 1, &told), LINKD_NO_SUCH_PLACE, 0, 0, 0);
    TELLS(linkd_request(at, 2, 65536, 0, &told), LINKD_MALFORMED, 0, 0, 0);
    TELLS(linkd_request(at, 2, 0, 6, &told), LINKD_NOT_LINKABLE, 0, LINKD_ARRAY_RECEIVER, 0);
    TELLS(linkd_request(at, 2, 0, 9, &told), LINKD_NOT_LINKABLE, 0, LINKD_POLYMORPHIC_SIGNATURE, 0);
    TELLS(linkd_request(at, 2, 0, 0, &told), LINKD_DONE, 0, 0, 0);
    TELLS(linkd_request(at, 2, 0, 3, &told), LINKD_DONE, 1, 0, 0);
    TELLS(linkd_request(at, 2, 0, 3, &told), LINKD_DONE, 1, 0, 0);
    TELLS(linkd_request(at, 3, 2, 0, &told), LINKD_DONE, 2, 0, 0);
    MUST(says("{\"do\":\"define\",\"loader\":0,\"sketch\":{\"name\":\"N\",\"super\":\"java/lang/Object\",\"flags\":33,\"methods\":["
              "{\"name\":\"run\",\"type\":\"()V\",\"flags\":9,\"calls\":[{\"kind\":\"invokestatic\",\"of\":\"T\",\"name\":\"m\",\"type\":\"()V\"}]}]}}",
              "{\"class\":4,\"dropped\":[]}"));
    TELLS(linkd_request(at, 4, 0, 0, &told), LINKD_SITES_FULL, 0, 0, 0);

    /* Call sites: a constant one 0, a guard 1, one of ()I 2. */
    TELLS(call_site(4, "()V", "{\"method\":[3,0]}"), LINKD_MALFORMED, 0, 0, 0);
    TELLS(call_site(2, "V", "{\"method\":[3,0]}"), LINKD_MALFORMED, 0, 0, 0);
    TELLS(call_site(2, "()V", "{\"method\":3}"), LINKD_MALFORMED, 0, 0, 0);
    TELLS(call_site(2, "()V", "{\"method\":[3,9]}"), LINKD_CALL_SITE, 0, LINKD_UNKNOWN_METHOD, 0);
    TELLS(call_site(2, "()V", "{\"method\":[1,0]}"), LINKD_CALL_SITE, 0, LINKD_NOT_STATIC, 0);
    TELLS(call_site(2, "()I", "{\"method\":[3,0]}"), LINKD_CALL_SITE, 0, LINKD_WRONG_TYPE, 0);
    TELLS(call_site(2, "()V", "{\"guard\":0,\"target\":{\"method\":[3,0]},\"fallback\":{\"method\":[3,1]}}"), LINKD_CALL_SITE, 0,
          LINKD_UNKNOWN_SWITCH, 0);
    TELLS(call_site(1, "()V", "{\"method\":[3,0]}"), LINKD_DONE, 0, 0, 0);
    TELLS(linkd_new_switch(at, &told), LINKD_DONE, 0, 0, 0);
    TELLS(linkd_new_switch(at, &told), LINKD_DONE, 1, 0, 0);
    TELLS(call_site(3, "()V", "{\"guard\":1,\"target\":{\"method\":[3,0]},\"fallback\":{\"method\":[3,1]}}"), LINKD_DONE, 1, 0, 0);
    TELLS(call_site(2, "()I", "{\"method\":[3,3]}"), LINKD_DONE, 2, 0, 0);
    TELLS(set_target(9, "{\"method\":[3,0]}"), LINKD_CALL_SITE, 0, LINKD_UNKNOWN_CALL_SITE, 0);
    TELLS(set_target(0, "{\"method\":[3,1]}"), LINKD_CALL_SITE, 0, LINKD_CONSTANT, 0);
    TELLS(set_target(1, "[]"), LINKD_MALFORMED, 0, 0, 0);
    TELLS(set_target_of(1, parts, 0), LINKD_MALFORMED, 0, 0, 0);
    TELLS(set_target_of(1, parts, 2), LINKD_MALFORMED, 0, 0, 0);
    TELLS(set_target_of(1, parts, 4), LINKD_MALFORMED, 0, 0, 0);
    TELLS(set_target_of(1, parts, 3), LINKD_DONE, 0, 0, 0);
    TELLS(set_target_of(9, parts, 3), LINKD_CALL_SITE, 0, LINKD_UNKNOWN_CALL_SITE, 0);
    TELLS(call_site_of(2, "()V", parts, 4), LINKD_MALFORMED, 0, 0, 0);
    TELLS(call_site_of(4, "()V", parts, 3), LINKD_MALFORMED, 0, 0, 0);
    TELLS(call_site_of(2, "V", parts, 3), LINKD_MALFORMED, 0, 0, 0);
    TELLS(call_site_of(2, "()V", parts + 3, 1), LINKD_CALL_SITE, 0, LINKD_INVOKER_ORDER, 7);
    parts[3].kind = 3;
    TELLS(call_site_of(2, "()V", parts + 3, 1), LINKD_MALFORMED, 0, 0, 0);
    TELLS(linkd_retire(at, 9, &told), LINKD_RETIRE, 0, LINKD_NO_LOADER, 0);
    TELLS(linkd_retire(at, 0, &told), LINKD_RETIRE, 0, LINKD_FIRST_LOADER, 0);
    TELLS(linkd_retire_all(at, (uint32_t[]){9, 0}, 2, &told), LINKD_RETIRE, 9, LINKD_NO_LOADER, 0);
    TELLS(linkd_retire_all(at, (uint32_t[]){0, 9}, 2, &told), LINKD_RETIRE, 0, LINKD_FIRST_LOADER, 0);
    TELLS(linkd_retire_all(at, sites, 0, &told), LINKD_DONE, 0, 0, 0);
    TELLS(linkd_release(at, (uint32_t[]){0, 9, 8}, 3, (uint32_t[]){7}, 1, &told), LINKD_RELEASE, 0, LINKD_NO_CALL_SITE, 9);
    TELLS(linkd_release(at, (uint32_t[]){0}, 1, (uint32_t[]){1, 7}, 2, &told), LINKD_RELEASE, 0, LINKD_NO_SWITCH, 7);
    TELLS(linkd_release(at, (uint32_t[]){0}, 1, (uint32_t[]){1}, 1, &told), LINKD_RELEASE, 0, LINKD_GUARDED, 1);
    TELLS(linkd_release(at, sites, 0, sites, 0, &told), LINKD_DONE, 0, 0, 0);
    TELLS(linkd_bind(at, 9, 1, &told), LINKD_UNKNOWN_SITE, 0, 0, 9);
    TELLS(linkd_bind(at, 1, 1, &told), LINKD_NOT_DYNAMIC, 0, 0, 0);
    TELLS(linkd_bind(at, 2, 9, &told), LINKD_CALL_SITE, 0, LINKD_UNKNOWN_CALL_SITE, 0);
    TELLS(linkd_bind(at, 2, 2, &told), LINKD_TYPE_MISMATCH, 0, 0, 0);

    /* Installs. */
    MUST(linkd_call(at, 2, LINKD_NULL, &answer) == LINKD_DONE && answer.kind == LINKD_UNLINKED && answer.value == LINKD_UNBOUND);
    sites[0] = 2;
    TELLS(linkd_install(at, sites, 1, &told), LINKD_NOT_READY, 0, 0, 2);
    link.kind = LINKD_MEGA;
    TELLS(linkd_install_ready(at, sites, 1, &link, 1, &told), LINKD_DONE, 0, 0, 0);
    MUST(link.kind == LINKD_NONE);
    TELLS(linkd_bind(at, 2, 1, &told), LINKD_DONE, 0, 0, 0);
    TELLS(linkd_bind(at, 2, 1, &told), LINKD_ALREADY_BOUND, 0, 0, 1);
    TELLS(linkd_install(at, sites, 0, &told), LINKD_BATCH_SIZE, 0, 0, 0);
    TELLS(linkd_install(at, sites, 257, &told), LINKD_BATCH_SIZE, 0, 0, 0);
    sites[0] = 9;
    TELLS(linkd_install(at, sites, 1, &told), LINKD_UNKNOWN_SITE, 0, 0, 9);
    sites[0] = sites[1] = 1;
    TELLS(linkd_install(at, sites, 2, &told), LINKD_REPEATED, 0, 0, 1);
    MUST(linkd_link_of(at, 1, &link) == LINKD_DONE && link.kind == LINKD_NONE && link.count == 0);
    sites[1] = 2;
    TELLS(linkd_install(at, sites, 2, &told), LINKD_DONE, 0, 0, 0);
    MUST(linkd_dropped(at, sites, 256, &length) == LINKD_DONE && length == 0);
    MUST(linkd_link_of(at, 1, &link) == LINKD_DONE && link.kind == LINKD_DIRECT && row_is(&link.rows[0], 0, LINKD_RUN, 1, 0));
    MUST(linkd_link_of(at, 2, &link) == LINKD_DONE && link.kind == LINKD_PLAIN && row_is(&link.rows[0], 0, LINKD_RUN, 3, 0));

    /* Calls, and a seat after an invalidation. */
    MUST(comes_to(linkd_call(at, 1, LINKD_NULL, &answer), LINKD_THROWS, 0, LINKD_NULL_POINTER_EXCEPTION));
    MUST(comes_to(linkd_call(at, 1, 1, &answer), LINKD_RUN, 1, 0));
    MUST(linkd_call(at, 1, 0, &answer) == LINKD_DONE && answer.kind == LINKD_BAD_RECEIVER);
    MUST(comes_to(linkd_call(at, 0, 1, &answer), LINKD_UNLINKED, 0, LINKD_WANTS_NAMED));
    MUST(comes_to(linkd_call(at, 9, 1, &answer), LINKD_UNLINKED, 0, LINKD_NO_SITE));
    MUST(linkd_seat_refresh(seat, at) == LINKD_DONE);
    MUST(comes_to(linkd_seat_call(seat, 1, 1, &answer), LINKD_RUN, 1, 0));
    MUST(comes_to(linkd_seat_call(seat, 1, LINKD_NULL, &answer), LINKD_THROWS, 0, LINKD_NULL_POINTER_EXCEPTION));
    MUST(linkd_seat_call(seat, 1, 5, &answer) == LINKD_DONE && answer.kind == LINKD_MISS);
    MUST(linkd_seat_call(seat, 0, LINKD_NULL, &answer) == LINKD_DONE && answer.kind == LINKD_MISS);
    MUST(linkd_seat_call(seat, 9, LINKD_NULL, &answer) == LINKD_DONE && answer.kind == LINKD_MISS);
    MUST(is_in_bits(linkd_seat_answer(seat, 1, 1), LINKD_RUN, 1, 0) && is_in_bits(linkd_seat_answer(seat, 1, 5), LINKD_MISS, 0, 0));
    MUST(is_in_bits(linkd_seat_answer(seat, 1, LINKD_NULL), LINKD_THROWS, 0, LINKD_NULL_POINTER_EXCEPTION));
    sites[0] = 1;
    TELLS(linkd_invalidate(at, sites, 1, &told), LINKD_DONE, 0, 0, 0);
    MUST(told.dropped == 1);
    sites[0] = 7;
    MUST(linkd_dropped(at, sites, 0, &length) == LINKD_TOO_SHORT && length == 1 && sites[0] == 7);
    MUST(linkd_dropped(at, sites, 1, &length) == LINKD_DONE && length == 1 && sites[0] == 2);
    MUST(comes_to(linkd_call(at, 2, LINKD_NULL, &answer), LINKD_RUN, 3, 1));
    MUST(comes_to(linkd_seat_call(seat, 2, LINKD_NULL, &answer), LINKD_RUN, 3, 0));
    MUST(linkd_seat_refresh(seat, at) == LINKD_DONE);
    MUST(linkd_seat_call(seat, 2, LINKD_NULL, &answer) == LINKD_DONE && answer.kind == LINKD_MISS);
    TELLS(linkd_install(at, sites, 1, &told), LINKD_DONE, 0, 0, 0);
    MUST(told.dropped == 0);
    TELLS(set_target(1, "{\"method\":[3,0]}"), LINKD_DONE, 0, 0, 0);
    MUST(told.dropped == 1);
    MUST(linkd_dropped(at, sites, 1, &length) == LINKD_DONE && length == 1 && sites[0] == 2);

    /* A class that overrides, as 5. */
    MUST(says("{\"do\":\"define\",\"loader\":0,\"sketch\":{\"name\":\"B\",\"super\":\"A\",\"flags\":33,\"methods\":["
              "{\"name\":\"f\",\"type\":\"()V\",\"flags\":1}]}}",
              "{\"class\":5,\"dropped\":[1]}"));
    MUST(linkd_dropped(at, sites, 1, &length) == LINKD_DONE && length == 1 && sites[0] == 1);
    TELLS(linkd_install(at, sites, 1, &told), LINKD_DONE, 0, 0, 0);
    MUST(linkd_link_of(at, 1, &link) == LINKD_DONE && link.kind == LINKD_VIRTUAL_TABLE && link.count == 2);
    MUST(row_is(&link.rows[0], 1, LINKD_RUN, 1, 0) && row_is(&link.rows[1], 5, LINKD_RUN, 5, 0) && row_is(&link.rows[7], 0, 0, 0, 0));
    MUST(says("{\"do\":\"links\"}", "{\"links\":[[1,{\"kind\":\"virtual\",\"table\":[[1,{\"run\":[1,0]}],[5,{\"run\":[5,0]}]]}]]}"));

    /* Loaders. */
    TELLS(linkd_new_loader(at, &told), LINKD_DONE, 1, 0, 0);
    TELLS(linkd_define(at, 9, no_magic, 8, &told), LINKD_NO_CLASS_FILE, 0, LINKD_BAD_MAGIC, 0);
    TELLS(delegate(9, "A", 0), LINKD_DELEGATE, 0, LINKD_DELEGATE_UNKNOWN_LOADER, 0);
    TELLS(delegate(1, "Z", 0), LINKD_DELEGATE, 0, LINKD_DELEGATE_NOT_RECORDED, 0);
    TELLS(delegate(1, "A", 0), LINKD_DONE, 0, 0, 0);
    TELLS(delegate(1, "A", 0), LINKD_DELEGATE, 0, LINKD_DELEGATE_ALREADY_RECORDED, 0);
    named();
    uncalled();
    readied();

    /* Eight more classes below A, as 6 to 13, so that its call is megamorphic. */
    for (int i = 6; i < 14; i++) {
        char line[160], said[40];
        snprintf(line, sizeof line, "{\"do\":\"define\",\"loader\":0,\"sketch\":{\"name\":\"D%d\",\"super\":\"A\",\"flags\":33}}", i);
        snprintf(said, sizeof said, "{\"class\":%d,\"dropped\":%s}", i, i == 6 ? "[1]" : "[]");
        MUST(says(line, said));
    }
    sites[0] = 1;
    TELLS(linkd_install(at, sites, 1, &told), LINKD_DONE, 0, 0, 0);
    MUST(linkd_link_of(at, 1, &link) == LINKD_DONE && link.kind == LINKD_MEGA && link.count == 0);
    MUST(linkd_seat_refresh(seat, at) == LINKD_DONE);
    MUST(linkd_seat_call(seat, 1, 13, &answer) == LINKD_DONE && answer.kind == LINKD_MISS);
    MUST(linkd_seat_call_with(seat, memo, 1, 13, &answer) == LINKD_DONE && answer.kind == LINKD_MISS);
    MUST(comes_to(linkd_memo_ask(memo, at, 1, 13, &answer), LINKD_RUN, 1, 0));
    MUST(comes_to(linkd_seat_call_with(seat, memo, 1, 13, &answer), LINKD_RUN, 1, 0));
    MUST(comes_to(linkd_memo_call(memo, 1, 13, &answer), LINKD_RUN, 1, 0));
    MUST(comes_to(linkd_seat_call_with(seat, memo, 1, LINKD_NULL, &answer), LINKD_THROWS, 0, LINKD_NULL_POINTER_EXCEPTION));
    MUST(linkd_memo_call(memo, 1, 12, &answer) == LINKD_DONE && answer.kind == LINKD_MISS);

    linkd_view *view = viewed();
    renewed(seat);
    renewed_in_steps(seat);
    linkd_close(at);
    closed(seat);
    MUST(linkd_view_take(view, at) == LINKD_CLOSED);
    MUST(comes_to(linkd_view_call(view, 2, LINKD_NULL, &answer), LINKD_RUN, 3, 0));
    linkd_view_leave(view);
    MUST(linkd_view_call(view, 2, LINKD_NULL, &answer) == LINKD_CLOSED);
    linkd_view_leave(view);
    free(view);
    MUST(linkd_memo_ask(memo, at, 1, 13, &answer) == LINKD_CLOSED);
    linkd_close(at);
    MUST(linkd_seat_call(seat, 1, 1, &answer) == LINKD_DONE);
    MUST(comes_to(linkd_seat_call_with(seat, memo, 1, 13, &answer), LINKD_RUN, 1, 0));
    linkd_memo_close(memo);
    MUST(linkd_seat_call_with(seat, memo, 1, 13, &answer) == LINKD_CLOSED);
    linkd_memo_close(memo);
    free(memo);
    linkd_seat_leave(seat);
    MUST(linkd_seat_call(seat, 1, 1, &answer) == LINKD_CLOSED);
    MUST(is_in_bits(linkd_seat_answer(seat, 1, 1), LINKD_MISS, 0, 0));
    MUST(linkd_open(at, 65536) == LINKD_DONE);
    MUST(linkd_seat_refresh(seat, at) == LINKD_DONE);
    linkd_close(at);
    linkd_seat_leave(seat);
    free(seat);
    free(at);
    return 0;
}
