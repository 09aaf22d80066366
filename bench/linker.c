/* Makes calls of a linker, a seat and a view, and prints what each is told, as `bench growths` does of a core: a call that is told
 * LINKD_MEMORY is printed as such, with whether all that is seen is as it was before, and is made once more. Its own memory is static, so
 * that each growth is the library's. The exit status is 0 where all calls were told something else, 4 where memory lacked twice in a row,
 * and 1 where a line wasn't printed.
 */
#include "linkd.h"
#include <stdio.h>
#include <stdlib.h>
#include <string.h>

enum { SITES = 2, CLASSES = 6, BYTES = 512 };

/* The class files: java/lang/Object; A with the method f; B below A; M, which calls A.f; C below A, which declares f again; and T with the
 * static methods m, n and r, of which r has an invokedynamic. */
static const char *const FILES[CLASSES] = {
    "cafebabe0000003d00030100106a6176612f6c616e672f4f626a6563740700010021000200000000000000000000",
    "cafebabe0000003d0008010001410700010100106a6176612f6c616e672f4f626a65637407000301000166010003282956010004436f646500210002"
    "0004000000000001000100050006000100070000000d0000000000000001b1000000000000",
    "cafebabe0000003d000501000142070001010001410700030021000200040000000000000000",
    "cafebabe0000003d000d0100014d0700010100106a6176612f6c616e672f4f626a65637407000301000372756e010003282956010004436f64650100"
    "0141070008010001660c000a00060a0009000b00210002000400000000000100090005000600010007000000100000000000000004b6000cb1000000"
    "000000",
    "cafebabe0000003d0008010001430700010100014107000301000166010003282956010004436f646500210002000400000000000100010005000600"
    "0100070000000d0000000000000001b1000000000000",
    "cafebabe0000003d000d010001540700010100106a6176612f6c616e672f4f626a6563740700030100016d010003282956010004436f64650100016e"
    "01000172010001640c000a0006120000000b002100020004000000000003000900050006000100070000000d0000000000000001b100000000000900"
    "080006000100070000000d0000000000000001b10000000000090009000600010007000000120000000000000006ba000c0000b1000000000000"
};

static const char GUARD[] = "{\"guard\":0,\"target\":{\"method\":[5,0]},\"fallback\":{\"method\":[5,1]}}";
static const char OTHER[] = "{\"method\":[5,1]}";
static const linkd_target_part PARTS[] = {{LINKD_GUARD_TARGET, 0, 0}, {LINKD_METHOD_TARGET, 5, 0}, {LINKD_METHOD_TARGET, 5, 1}};

static union { unsigned char bytes[1 << 16]; long double aligned; } linker_block, seat_block, view_block;
static linkd *at;
static linkd_seat *seat;
static linkd_view *view;
static linkd_told told;

/* What calls write beside told. */
struct written {
    linkd_link prepared[SITES], present;
    uint32_t found;
    uint8_t name[16];
};

static struct written written;

/* All that is seen of a linker, of its seat and of its view, and what was written. */
struct seen {
    uint32_t dropped[SITES], links, length;
    linkd_link link[SITES];
    linkd_call_answer answer[SITES][CLASSES + 1], at_seat[SITES][CLASSES + 1], in_view[SITES][CLASSES + 1];
    uint64_t serial;
    struct written written;
};

static void look(struct seen *seen) {
    size_t length = 0;
    memset(seen, 0, sizeof *seen);
    linkd_dropped(at, seen->dropped, SITES, &length);
    seen->length = (uint32_t)length;
    for (uint32_t site = 0; site < SITES; site++) {
        linkd_link_of(at, site, &seen->link[site]);
        seen->links += seen->link[site].kind != LINKD_NONE;
        for (uint32_t of = 0; of <= CLASSES; of++) {
            uint32_t receiver = of == CLASSES ? LINKD_NULL : of;
            linkd_call(at, site, receiver, &seen->answer[site][of]);
            linkd_seat_call(seat, site, receiver, &seen->at_seat[site][of]);
            linkd_view_call(view, site, receiver, &seen->in_view[site][of]);
        }
    }
    linkd_view_serial(view, &seen->serial);
    seen->written = written;
}

/* ---- what is asked */

static uint32_t define(uint32_t loader, int file) {
    static uint8_t bytes[BYTES];
    size_t length = strlen(FILES[file]) / 2;
    for (size_t i = 0; i < length; i++) {
        unsigned byte;
        sscanf(FILES[file] + 2 * i, "%2x", &byte);
        bytes[i] = (uint8_t)byte;
    }
    return linkd_define(at, loader, bytes, length, &told);
}

static uint32_t delegate(const char *name) { return linkd_delegate(at, 1, (const uint8_t *)name, strlen(name), 0, &told); }

static uint32_t call_site(const char *target) {
    return linkd_new_call_site(at, 2, (const uint8_t *)"()V", 3, (const uint8_t *)target, strlen(target), &told);
}

static uint32_t install(uint32_t site) { return linkd_install(at, &site, 1, &told); }

static uint32_t prepare(size_t count) {
    static const uint32_t sites[SITES] = {0, 1};
    return linkd_view_prepare(view, sites, count, written.prepared, SITES, &told);
}

static uint32_t install_prepared(size_t count) {
    linkd_link_row rows[SITES];
    for (uint32_t site = 0; site < SITES; site++) rows[site] = (linkd_link_row){site, written.prepared[site]};
    return linkd_install_links(at, rows, count, &told, &written.present);
}

static uint32_t invalidate(uint32_t number) { return linkd_invalidate(at, &number, 1, &told); }

static uint32_t open_linker(void) { return linkd_open(at, SITES); }
static uint32_t object(void) { return define(0, 0); }
static uint32_t a(void) { return define(0, 1); }
static uint32_t b(void) { return define(0, 2); }
static uint32_t m(void) { return define(0, 3); }
static uint32_t request_m(void) { return linkd_request(at, 3, 0, 0, &told); }
static uint32_t install_0(void) { return install(0); }
static uint32_t refresh(void) { return linkd_seat_refresh(seat, at); }
static uint32_t take(void) { return linkd_view_take(view, at); }
static uint32_t prepare_0(void) { return prepare(1); }
static uint32_t prepare_all(void) { return prepare(SITES); }
static uint32_t install_prepared_0(void) { return install_prepared(1); }
static uint32_t install_prepared_all(void) { return install_prepared(SITES); }
static uint32_t look_up_a(void) { return linkd_lookup(at, 1, (const uint8_t *)"A", 1, &written.found); }
static uint32_t name_of_a(void) { return linkd_class_name(at, 1, written.name, sizeof written.name, &(size_t){0}); }
static uint32_t loader(void) { return linkd_new_loader(at, &told); }
static uint32_t delegate_object(void) { return delegate("java/lang/Object"); }
static uint32_t delegate_a(void) { return delegate("A"); }
static uint32_t c(void) { return define(1, 4); }
static uint32_t t(void) { return define(0, 5); }
static uint32_t request_t(void) { return linkd_request(at, 5, 2, 0, &told); }
static uint32_t switch_point(void) { return linkd_new_switch(at, &told); }
static uint32_t guarded(void) { return call_site(GUARD); }
static uint32_t bind(void) { return linkd_bind(at, 1, 0, &told); }
static uint32_t install_1(void) { return install(1); }
static uint32_t invalidation(void) { return invalidate(0); }
static uint32_t retarget(void) { return linkd_set_target(at, 0, (const uint8_t *)OTHER, strlen(OTHER), &told); }
static uint32_t retarget_by_parts(void) { return linkd_set_target_of(at, 0, PARTS, sizeof PARTS / sizeof *PARTS, &told); }
static uint32_t guarded_by_parts(void) {
    return linkd_new_call_site_of(at, 2, (const uint8_t *)"()V", 3, PARTS, sizeof PARTS / sizeof *PARTS, &told);
}
static uint32_t retire(void) { return linkd_retire(at, 1, &told); }
static uint32_t retire_all(void) { return linkd_retire_all(at, (uint32_t[]){3, 2}, 2, &told); }
static uint32_t release(void) { return linkd_release(at, (uint32_t[]){1, 0}, 2, (uint32_t[]){0}, 1, &told); }
static uint32_t catch_up(void) { return linkd_catch_up(at); }
static uint32_t count_present(void) { return linkd_counts_present(at, &(linkd_count){0}); }

/* After C and the invalidation what was prepared before is stale. The second event after a view is the one that copies. */
static const struct {
    const char *name;
    uint32_t (*ask)(void);
} DEEDS[] = {
    {"open", open_linker}, {"java/lang/Object", object}, {"A", a}, {"B", b}, {"M", m}, {"request", request_m}, {"install", install_0},
    {"seat", refresh}, {"view", take}, {"preparation", prepare_0}, {"install by value", install_prepared_0}, {"loader", loader},
    {"delegation", delegate_object}, {"delegation", delegate_a}, {"look-up", look_up_a}, {"name", name_of_a}, {"C", c},
    {"install by value", install_prepared_0}, {"install", install_0}, {"T", t}, {"request", request_t}, {"switch point", switch_point},
    {"call site", guarded}, {"bind", bind}, {"view", take}, {"preparation", prepare_all}, {"install by value", install_prepared_all},
    {"seat", refresh}, {"invalidation", invalidation}, {"install by value", install_prepared_all}, {"install", install_1},
    {"target", retarget}, {"target by parts", retarget_by_parts}, {"call site by parts", guarded_by_parts}, {"catching up", catch_up},
    {"retirement", retire}, {"catching up", catch_up}, {"catching up", catch_up}, {"loader", loader}, {"loader", loader},
    {"retirements", retire_all}, {"release", release}, {"counts", count_present}, {"seat", refresh}, {"view", take},
};

static void print_dropped(void) {
    uint32_t dropped[SITES];
    size_t length = 0;
    if (linkd_dropped(at, dropped, SITES, &length) == LINKD_DONE)
        for (size_t i = 0; i < length; i++)
            printf(" %lu", (unsigned long)dropped[i]);
    putchar('\n');
}

int main(void) {
    static struct seen before, after;
    if (linkd_size() > sizeof linker_block.bytes || linkd_seat_size() > sizeof seat_block.bytes
        || linkd_view_size() > sizeof view_block.bytes)
        return 1;
    at = (linkd *)(void *)linker_block.bytes;
    seat = (linkd_seat *)(void *)seat_block.bytes;
    linkd_blank(at);
    linkd_seat_blank(seat);
    view = (linkd_view *)(void *)view_block.bytes;
    linkd_view_blank(view);
    setvbuf(stdout, NULL, _IONBF, 0);
    for (size_t i = 0; i < sizeof DEEDS / sizeof *DEEDS; i++) {
        const char *name = DEEDS[i].name;
        look(&before);
        memset(&told, 0, sizeof told);
        uint32_t status = DEEDS[i].ask();
        if (status == LINKD_MEMORY) {
            printf("linker: %s: Memory\n", name);
            look(&after);
            printf("linker: %s: %s\n", name, memcmp(&before, &after, sizeof before) == 0 ? "as before" : "CHANGED");
            memset(&told, 0, sizeof told);
            status = DEEDS[i].ask();
            if (status == LINKD_MEMORY) return 4;
        }
        printf("linker: %s: status %lu, number %lu, fault %lu, dropped", name, (unsigned long)status, (unsigned long)told.number,
               (unsigned long)told.fault);
        print_dropped();
    }
    linkd_view_leave(view);
    linkd_seat_leave(seat);
    linkd_close(at);
    return ferror(stdout) != 0;
}
