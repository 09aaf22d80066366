/* What the machine asks of the linker as it runs. This file and unload.c, of what goes, are the only ones that know linkd.h.
 *
 * An invocation is linked when it is first executed. What its link says is kept at the instruction (struct Link), where the interpreter
 * goes by it without a call into the library, and goes when linkd_dropped names it after an event. With --seat nothing is kept: each call
 * is one at the thread's own seat. With --check each call is one of linkd_call, too, and both have to run the same method. Calls that no
 * code makes, as those of reflection, are selected one by one (link_select).
 *
 * Numbers of the linker are kept in classes, loaders, sites, call sites and switch points alone, and read just before each call, since
 * a collection may go over to a fresh linker. Each call on the linker is made under the lock. */
#include "linker.h"
#include "opcodes.h"
#include <stdarg.h>

enum { MOST_NAME = 65536, MOST_DROPPED = 100000 };

linkd *linker;
Class **by_number;
Site **by_site;
CallSite **call_sites;
SwitchPoint **switch_points;
uint32_t call_site_count, switch_point_count;
uint64_t events, must_see;
static Link *dropped_links;
static uint32_t dropped_count;
static Link none = {.form = LINK_NONE, .kind = LINK_NONE}, array = {.form = LINK_ARRAY, .kind = LINK_ARRAY},
            polymorphic = {.form = LINK_POLYMORPHIC, .kind = LINK_POLYMORPHIC};

void fatal(const char *format, ...) {
    va_list list;
    va_start(list, format);
    fprintf(stderr, "vm: ");
    vfprintf(stderr, format, list);
    fprintf(stderr, "\n");
    fflush(stdout);
    abort();
}

void must(uint32_t status, const char *what) {
    if (status != LINKD_DONE) fatal("%s: %s", what, linkd_status_name(status));
}

static void *block(size_t size, size_t align) {
    if (align < sizeof(void *)) align = sizeof(void *);
    void *at = aligned_alloc(align, (size + align - 1) / align * align);
    if (!at) fatal("no memory for the linker");
    return at;
}

linkd *new_linker(void) {
    linkd *made = block(linkd_size(), linkd_align());
    linkd_blank(made);
    return made;
}

void link_open(void) {
    linkd_told told;
    linker = new_linker();
    must(linkd_open_with(linker, vm.most_sites, vm.most_loaders, vm.most_classes, vm.most_call_sites, vm.most_switch_points), "open");
    must(linkd_new_loader(linker, &told), "the loader of the class path");
    loaders[BOOT_LOADER].used = loaders[CLASS_PATH_LOADER].used = true;
    loaders[CLASS_PATH_LOADER].number = told.number;
    by_number = calloc(vm.most_classes, sizeof *by_number);
    by_site = calloc(vm.most_sites, sizeof *by_site);
    call_sites = calloc(vm.most_call_sites, sizeof *call_sites);
    switch_points = calloc(vm.most_switch_points, sizeof *switch_points);
}

/* ---- events */

void drop(Site *site) {
    Link *link = site->link;
    if (link == &none) return;
    RELEASE(site->link, &none);
    if (link == &array || link == &polymorphic) return;
    link->older = dropped_links; /* another thread may read it still */
    dropped_links = link;
    SET_RELAXED(dropped_count, dropped_count + 1);
}

/* What is kept of the links that the last event removed goes. */
static void drop_all(uint32_t count) {
    uint32_t *numbers = malloc(count * sizeof *numbers);
    size_t length;
    must(linkd_dropped(linker, numbers, count, &length), "dropped");
    vm.counts.dropped += length;
    for (size_t i = 0; i < length; i++) {
        Site *site = by_site[numbers[i]];
        if (vm.trace) fprintf(stderr, "vm: dropped: %s.%s at %u\n", site->caller->cls->name, site->caller->name, site->pc);
        drop(site);
    }
    free(numbers);
}

/* After an accepted event. */
static void after_event(const linkd_told *told) {
    events++;
    if (told->dropped > 0) drop_all(told->dropped);
}

/* The same, where a stale seat would go on as before (docs/EMBEDDING.md). */
void after_change(const linkd_told *told) {
    after_event(told);
    RELEASE(must_see, events);
}

/* In a stopped world. */
void link_free_dropped(void) {
    while (dropped_links) {
        Link *link = dropped_links;
        dropped_links = link->older;
        free(link);
    }
    dropped_count = 0;
}

/* Whether an event was refused since numbers have run out, and a collection has gone over to a linker that has some. */
static bool made_room(uint32_t status, const linkd_told *told, int tries) {
    bool full = status == LINKD_SITES_FULL || status == LINKD_LOADERS_FULL || (status == LINKD_DEFINE && told->fault == LINKD_CLASSES_FULL)
             || (status == LINKD_CALL_SITE && told->fault == LINKD_CALL_SITES_FULL);
    uint64_t renewals = vm.counts.renewals;
    if (!full || tries > 0) return false;
    for (int i = 0; i < 2 && vm.counts.renewals == renewals; i++) collect(i > 0); /* at the second time soft references go, too */
    return vm.counts.renewals > renewals;
}

/* ---- loaders and classes */

uint32_t link_new_loader(void) {
    linkd_told told;
    uint32_t status;
    int tries = 0;
    if (vm.counts.defined_since >= vm.unload_every) collect(false);
    do status = linkd_new_loader(linker, &told);
    while (made_room(status, &told, tries++));
    if (status == LINKD_LOADERS_FULL) return 0;
    must(status, "a loader");
    after_event(&told);
    return told.number;
}

static const char *define_error(uint32_t status, const linkd_told *told) {
    if (status == LINKD_NO_CLASS_FILE)
        return told->fault == LINKD_BAD_VERSION ? "java/lang/UnsupportedClassVersionError" : "java/lang/ClassFormatError";
    if (status != LINKD_DEFINE || told->fault == LINKD_CLASSES_FULL) return "java/lang/OutOfMemoryError";
    switch (told->fault) {
        case LINKD_NAMES_ITSELF: return "java/lang/ClassCircularityError";
        case LINKD_SUPER_IS_INTERFACE: case LINKD_NOT_AN_INTERFACE: case LINKD_FINAL_SUPER: return "java/lang/IncompatibleClassChangeError";
        case LINKD_INACCESSIBLE_PARENT: return "java/lang/IllegalAccessError";
        default: return "java/lang/LinkageError";
    }
}

static const char *refusal(uint32_t status, const linkd_told *told, char *reason, size_t room) {
    const char *name = linkd_status_name(status), *fault = linkd_fault_name(status, told->fault);
    snprintf(reason, room, "%s %s", name ? name : "refused", fault ? fault : "");
    return define_error(status, told);
}

/* Whether the bytes are a class file, before anything here reads them: the class of an error, or NULL. */
const char *link_check(Bytes file, char *reason, size_t room) {
    linkd_told told;
    lock();
    uint32_t status = linkd_check(linker, LINKD_NEWEST_OF_17, file.at, file.length, &told);
    unlock();
    return status == LINKD_DONE ? NULL : refusal(status, &told, reason, room);
}

/* The class of an error, or NULL: then it has its number. */
const char *link_define(uint32_t loader, Class *cls, char *reason, size_t room) {
    linkd_told told;
    uint32_t status;
    uint64_t start = now_ns();
    int tries = 0;
    do status = linkd_define(linker, loaders[loader].number, cls->file.at, cls->file.length, &told);
    while (made_room(status, &told, tries++));
    if (status != LINKD_DONE) return refusal(status, &told, reason, room);
    cls->number = told.number;
    by_number[told.number] = cls;
    after_event(&told);
    vm.counts.defined++;
    vm.counts.defined_since += loader >= FIRST_OWN_LOADER;
    vm.counts.define_ns += now_ns() - start;
    return NULL;
}

void link_delegate(uint32_t loader, const char *name, uint32_t to) {
    linkd_told told;
    uint32_t status = linkd_delegate(linker, loaders[loader].number, (const uint8_t *)name, strlen(name), loaders[to].number, &told);
    if (status == LINKD_DELEGATE) return; /* it was recorded before */
    must(status, "delegate");
    after_event(&told);
    vm.counts.delegations++;
}

/* ---- sites */

Site *site_at(Method *method, uint32_t pc) {
    uint32_t low = 0, high = method->site_count;
    while (low < high) {
        uint32_t middle = (low + high) / 2;
        if (method->sites[middle].pc < pc) low = middle + 1;
        else high = middle;
    }
    return &method->sites[low];
}

Constant *site_reference(Site *site) {
    Constant *constants = site->caller->cls->constants;
    return &constants[u2(site->caller->code_bytes.at + site->pc + 1)];
}

static bool has_receiver(Site *site) { return site->opcode != OP_invokestatic && site->opcode != OP_invokedynamic; }

void make_sites(Method *method) {
    static linkd_invocation invocations[65536];
    size_t count;
    must(linkd_invocations(linker, method->cls->number, method->index, invocations, 65536, &count), "invocations");
    method->sites = calloc(count + 1, sizeof(Site));
    method->site_count = (uint32_t)count;
    for (size_t i = 0; i < count; i++) {
        Site *site = &method->sites[i];
        *site = (Site){.link = &none, .caller = method, .pc = (uint16_t)invocations[i].pc, .opcode = (uint8_t)invocations[i].opcode};
        Constant *constants = method->cls->constants;
        site->nargs = slots_of(constants[constants[site_reference(site)->b].b].text) + has_receiver(site);
    }
}

static Link *link_of_row(const linkd_link *from) {
    Link *link = calloc(1, sizeof *link);
    const linkd_row *row = &from->rows[0];
    link->kind = from->kind == LINKD_PLAIN ? LINK_PLAIN : from->kind == LINKD_DIRECT ? LINK_DIRECT : LINK_FAULT;
    if (row->kind == LINKD_RUN) link->method = &by_number[row->class_number]->methods[row->value];
    else link->throws = row->value;
    if (!link->method && link->kind == LINK_PLAIN) link->kind = LINK_FAULT; /* a direct one throws after the check for null */
    return link;
}

static Link *link_of_table(const linkd_link *from) {
    Link *link = calloc(1, sizeof *link + from->count * sizeof(Row));
    link->kind = LINK_TABLE;
    link->interface = from->kind == LINKD_INTERFACE_TABLE;
    link->count = (uint8_t)from->count;
    for (uint32_t i = 0; i < from->count; i++) {
        const linkd_row *row = &from->rows[i];
        link->rows[i].receiver = by_number[row->receiver];
        if (row->kind == LINKD_RUN) link->rows[i].method = &by_number[row->class_number]->methods[row->value];
        else link->rows[i].throws = row->value;
    }
    return link;
}

static void keep(Site *site, const linkd_link *from) {
    Link *link;
    if (from->kind == LINKD_VIRTUAL_TABLE || from->kind == LINKD_INTERFACE_TABLE) link = link_of_table(from);
    else if (from->kind != LINKD_MEGA) link = link_of_row(from);
    else {
        link = calloc(1, sizeof *link);
        link->kind = LINK_MEGA;
    }
    link->form = vm.use_seat || vm.check ? LINK_ASK : link->kind;
    vm.counts.by_kind[link->kind]++;
    drop(site);
    RELEASE(site->link, link);
}

/* After a request: it has a number at the linker, or never gets one; false where there are no more numbers. */
static bool requested(Site *site, uint32_t status, const linkd_told *told) {
    if (status == LINKD_SITES_FULL) return false;
    if (site->requested) return true;
    site->requested = true;
    if (status == LINKD_NOT_LINKABLE) {
        RELEASE(site->link, told->fault == LINKD_ARRAY_RECEIVER ? &array : &polymorphic);
        return true;
    }
    if (status != LINKD_NOT_READY) must(status, "request");
    site->number = told->number;
    by_site[told->number] = site;
    vm.counts.requests++;
    events++;
    return true;
}

/* Of an invokedynamic that is to be bound. */
static bool request(Site *site) {
    linkd_told told;
    uint32_t status;
    int tries = 0;
    if (site->requested) return true;
    do status = linkd_request(linker, site->caller->cls->number, site->caller->index, site->pc, &told);
    while (made_room(status, &told, tries++));
    return requested(site, status, &told);
}

/* It has its link then, or waits for a class of this name; false where there are no more numbers. */
static bool try_link(Site *site, const char **awaited) {
    static uint8_t name[MOST_NAME];
    linkd_link link;
    linkd_told told;
    size_t length;
    uint32_t status;
    int tries = 0;
    do status = linkd_link_place(linker, site->caller->cls->number, site->caller->index, site->pc, &link, &told);
    while (made_room(status, &told, tries++));
    if (!requested(site, status, &told)) return false;
    if (status == LINKD_NOT_LINKABLE) return true;
    if (status == LINKD_NOT_READY) {
        vm.counts.waits++;
        must(linkd_awaited(linker, site->number, name, sizeof name, &length), "awaited");
        *awaited = intern_n((const char *)name, length);
        return true;
    }
    must(status, "link");
    vm.counts.installs++;
    after_event(&told);
    keep(site, &link);
    return true;
}

/* With --eager: links the invocations of the method at once, but for those that wait for a class or are to be bound. Where there are no more
 * numbers the rest is left to be linked one by one. */
static void link_method(Method *method) {
    enum { MOST_AT_ONCE = 256 };
    static uint32_t numbers[MOST_AT_ONCE];
    static linkd_link links[MOST_AT_ONCE];
    linkd_told told;
    uint32_t count = 0, installed = 0;
    for (uint32_t i = 0; i < method->site_count && count < MOST_AT_ONCE; i++) {
        Site *site = &method->sites[i];
        if (site->link != &none || (site->opcode == OP_invokedynamic && !site->call_site)) continue;
        if (!site->requested && !requested(site, linkd_request(linker, method->cls->number, method->index, site->pc, &told), &told)) break;
        if (site->link == &none) numbers[count++] = site->number;
    }
    must(linkd_install_ready(linker, numbers, count, links, MOST_AT_ONCE, &told), "install");
    for (uint32_t i = 0; i < count; i++) {
        if (links[i].kind == LINKD_NONE) continue;
        keep(by_site[numbers[i]], &links[i]);
        installed++;
    }
    vm.counts.installs += installed;
    if (installed > 0) after_event(&told);
}

/* Links the site, loading the classes for which it waits; false with an exception. */
static bool install(Site *site) {
    if (RELAXED(dropped_count) > MOST_DROPPED) collect(false);
    for (;;) {
        const char *awaited = NULL;
        bool dynamic = false, full = false;
        uint64_t start = now_ns();
        lock();
        if (vm.eager && site->link == &none) link_method(site->caller);
        if (site->link == &none) {
            dynamic = site->opcode == OP_invokedynamic && !site->call_site;
            full = !dynamic && !try_link(site, &awaited);
        }
        vm.counts.link_ns += now_ns() - start;
        unlock();
        if (full) return throw_new("java/lang/OutOfMemoryError", "linked invocations"), false;
        if (!dynamic && !awaited) return true;
        if (dynamic ? !link_dynamic(site) : !load_class(awaited, site->caller->cls->loader)) return false;
    }
}

/* ---- call sites and switch points */

static size_t parts_of(const Target *target, size_t count, linkd_target_part *parts) {
    for (size_t i = 0; i < count; i++)
        switch (target[i].kind) {
            case TARGET_METHOD:
                parts[i] = (linkd_target_part){LINKD_METHOD_TARGET, target[i].method->cls->number, target[i].method->index};
                break;
            case TARGET_GUARD: parts[i] = (linkd_target_part){LINKD_GUARD_TARGET, target[i].switch_point->number, 0}; break;
            case TARGET_INVOKER: parts[i] = (linkd_target_part){LINKD_INVOKER_TARGET, target[i].call_site->number, 0}; break;
        }
    return count;
}

/* NULL where the linker has no more numbers or refuses the target. */
CallSite *link_new_call_site(enum call_site_kind kind, const char *type, const Target *target, size_t count, uint32_t loader, Object *object) {
    linkd_target_part parts[MOST_PARTS];
    linkd_told told;
    uint32_t status;
    int tries = 0;
    CallSite *made = NULL;
    lock();
    do {
        parts_of(target, count, parts);
        status = linkd_new_call_site_of(linker, kind, (const uint8_t *)type, strlen(type), parts, count, &told);
    } while (made_room(status, &told, tries++));
    if (status != LINKD_CALL_SITE) must(status, "a call site");
    if (status == LINKD_DONE) {
        made = calloc(1, sizeof *made);
        *made = (CallSite){.number = told.number, .loader = loader, .object = object};
        call_sites[call_site_count++] = made;
        after_event(&told);
    }
    unlock();
    return made;
}

/* false where the types differ, or the site gets no number. Who comes later than another thread finds the site bound. */
bool link_bind(Site *site, CallSite *call_site) {
    linkd_told told;
    lock();
    if (!request(site)) return unlock(), false;
    uint32_t status = site->call_site ? LINKD_DONE : linkd_bind(linker, site->number, call_site->number, &told);
    if (status != LINKD_TYPE_MISMATCH) must(status, "bind");
    if (status == LINKD_DONE && !site->call_site) {
        site->call_site = call_site;
        vm.counts.binds++;
        after_change(&told);
    }
    unlock();
    return status == LINKD_DONE;
}

/* false where the linker refuses the target: an invoker of a younger call site, or too many guards in one another. */
bool link_set_target(CallSite *call_site, const Target *target, size_t count) {
    linkd_target_part parts[MOST_PARTS];
    linkd_told told;
    lock();
    parts_of(target, count, parts);
    uint32_t status = linkd_set_target_of(linker, call_site->number, parts, count, &told);
    if (status != LINKD_CALL_SITE && status != LINKD_MALFORMED) must(status, "a target");
    if (status == LINKD_DONE) {
        vm.counts.targets++;
        after_change(&told);
    }
    unlock();
    return status == LINKD_DONE;
}

SwitchPoint *link_new_switch_point(Object *object) {
    linkd_told told;
    uint32_t status;
    int tries = 0;
    SwitchPoint *made = NULL;
    lock();
    do status = linkd_new_switch(linker, &told);
    while (made_room(status, &told, tries++));
    if (status != LINKD_CALL_SITE) must(status, "a switch point");
    if (status == LINKD_DONE) {
        made = calloc(1, sizeof *made);
        *made = (SwitchPoint){.number = told.number, .object = object};
        switch_points[switch_point_count++] = made;
        after_event(&told);
    }
    unlock();
    return made;
}

void link_invalidate(SwitchPoint *const *which, size_t count) {
    linkd_told told;
    uint32_t *numbers = malloc((count + 1) * sizeof *numbers);
    lock();
    for (size_t i = 0; i < count; i++) numbers[i] = which[i]->number;
    must(linkd_invalidate(linker, numbers, count, &told), "invalidate");
    for (size_t i = 0; i < count; i++) which[i]->invalid = true;
    vm.counts.invalidations += count;
    after_change(&told);
    unlock();
    free(numbers);
}

bool link_is_invalid(SwitchPoint *which) {
    lock();
    bool invalid = which->invalid;
    unlock();
    return invalid;
}

/* ---- calls */

typedef struct Choice {
    Method *method;  /* NULL: */
    uint32_t throws; /* a linkd_throwable */
} Choice;

static Choice throws(uint32_t throwable) { return (Choice){NULL, throwable}; }

static uint32_t receiver_of(Site *site, Slot *args) {
    if (!has_receiver(site) || !args[0].a) return LINKD_NULL;
    return args[0].a->cls->number; /* of an array that of java/lang/Object, whose methods it has */
}

static Choice choice_of(Site *site, uint32_t kind, uint32_t class_number, uint32_t value) {
    if (kind == LINKD_RUN) return (Choice){&by_number[class_number]->methods[value], 0};
    if (kind == LINKD_THROWS) return throws(value);
    fatal("a call in %s.%s at %u is answered by %u, %u", site->caller->cls->name, site->caller->name, site->pc, kind, value);
}

/* By the linker, and it is remembered where the link is megamorphic. */
static Choice ask(Site *site, uint32_t receiver) {
    linkd_call_answer answer;
    lock();
    must(linkd_memo_ask(self->reader->memo, linker, site->number, receiver, &answer), "ask");
    Choice choice = choice_of(site, answer.kind, answer.class_number, answer.value);
    unlock();
    return choice;
}

static Choice by_memo(Site *site, uint32_t receiver) {
    linkd_call_answer answer = {.kind = LINKD_MISS};
    self->counts.mega++;
    must(linkd_memo_call(self->reader->memo, site->number, receiver, &answer), "memo");
    if (answer.kind == LINKD_MISS) return ask(site, receiver);
    self->counts.mega_hits++;
    return choice_of(site, answer.kind, answer.class_number, answer.value);
}

static void refresh(Reader *reader) {
    lock();
    must(linkd_seat_refresh(reader->seat, linker), "refresh");
    reader->seen = events;
    reader->missed = 0;
    unlock();
    self->counts.refreshes++;
}

/* A refresh costs as much as some tens of misses, so misses alone bring one only then. */
static Choice by_seat(Site *site, const Link *link, uint32_t receiver) {
    Reader *reader = self->reader;
    if (reader->seen < ACQUIRE(must_see) || reader->missed >= vm.patience) refresh(reader);
    if (link->kind == LINK_MEGA && receiver != LINKD_NULL) return by_memo(site, receiver);
    uint64_t answer = linkd_seat_answer(reader->seat, site->number, receiver);
    if (linkd_kind_of(answer) != LINKD_MISS) return choice_of(site, linkd_kind_of(answer), linkd_class_of(answer), linkd_value_of(answer));
    self->counts.seat_misses++;
    reader->missed++;
    return ask(site, receiver);
}

static Choice by_table(Site *site, const Link *link, Object *receiver) {
    Class *cls = receiver->cls->element ? vm.object : receiver->cls;
    for (int i = 0; i < link->count; i++)
        if (link->rows[i].receiver == cls) return (Choice){link->rows[i].method, link->rows[i].throws};
    if (link->interface) return throws(LINKD_INCOMPATIBLE_CLASS_CHANGE_ERROR);
    if (vm.check) return throws(0); /* nothing: `checked` tells what differs */
    fatal("%s can't be a receiver in %s.%s at %u", cls->name, site->caller->cls->name, site->caller->name, site->pc);
}

static Choice by_link(Site *site, const Link *link, Slot *args, uint32_t receiver) {
    if (link->kind == LINK_PLAIN || link->kind == LINK_FAULT) return (Choice){link->method, link->throws};
    if (!args[0].a) return throws(LINKD_NULL_POINTER_EXCEPTION);
    if (link->kind == LINK_DIRECT) return (Choice){link->method, link->throws};
    return link->kind == LINK_MEGA ? by_memo(site, receiver) : by_table(site, link, args[0].a);
}

static Choice choose(Site *site, const Link *link, Slot *args) {
    uint32_t receiver = receiver_of(site, args);
    return vm.use_seat ? by_seat(site, link, receiver) : by_link(site, link, args, receiver);
}

/* Under the lock, so that no event comes in between. */
static Choice checked(Site *site, const Link *link, Slot *args) {
    linkd_call_answer answer;
    Choice choice = choose(site, link, args);
    uint32_t receiver = has_receiver(site) && args[0].a ? args[0].a->cls->number : LINKD_NULL;
    must(linkd_call(linker, site->number, receiver, &answer), "call");
    self->counts.checked++;
    self->counts.checked_by[link->kind]++;
    Choice right = choice_of(site, answer.kind, answer.class_number, answer.value);
    if (choice.method != right.method || choice.throws != right.throws)
        fatal("DIFFERS: %s.%s at %u on a %s: %s.%s %u, and not %s.%s %u", site->caller->cls->name, site->caller->name, site->pc,
              receiver == LINKD_NULL ? "null" : args[0].a->cls->name, choice.method ? choice.method->cls->name : "-",
              choice.method ? choice.method->name : "-", choice.throws, right.method ? right.method->cls->name : "-",
              right.method ? right.method->name : "-", right.throws);
    return choice;
}

static const char *const throwables[] = {NULL, "java/lang/NoSuchMethodError", "java/lang/IllegalAccessError",
    "java/lang/IncompatibleClassChangeError", "java/lang/AbstractMethodError"};

static void throw_linkage(uint32_t throwable, Site *site, Slot *args) {
    Class *cls = site->caller->cls;
    Constant *reference = site_reference(site), *pair = &cls->constants[reference->b];
    if (throwable == LINKD_NULL_POINTER_EXCEPTION) throw_null();
    else throw_new(throwables[throwable], "%s.%s%s from %s on %s", dotted(class_name_at(cls, reference->a)), constant_text(cls, pair->a),
                   constant_text(cls, pair->b), dotted(cls->name), receiver_of(site, args) == LINKD_NULL ? "null" : dotted(args[0].a->cls->name));
}

/* An invocation of an array type: clone, or a method of java/lang/Object, which no array overrides (JLS 10.7). */
static Method *of_array(Site *site, Slot *args) {
    Class *cls = site->caller->cls;
    Constant *pair = &cls->constants[site_reference(site)->b];
    if (!args[0].a) return throw_null(), NULL;
    Method *method = declared(vm.object, constant_text(cls, pair->a), constant_text(cls, pair->b));
    if (!method) throw_linkage(LINKD_NO_SUCH_METHOD_ERROR, site, args);
    return method;
}

Method *link_call(Site *site, Slot *args) {
    Link *link;
    self->counts.slow++;
    for (;;) {
        while ((link = ACQUIRE(site->link))->kind == LINK_NONE)
            if (!install(site)) return NULL;
        if (link->kind == LINK_ARRAY) return of_array(site, args);
        if (link->kind == LINK_POLYMORPHIC) return NULL;
        if (!vm.check) break;
        lock();
        link = site->link;
        if (link->kind != LINK_NONE) break;
        unlock();
    }
    Choice choice = vm.check ? checked(site, link, args) : choose(site, link, args);
    if (vm.check) unlock();
    if (!choice.method) throw_linkage(choice.throws, site, args);
    return choice.method;
}

/* ---- what no code makes */

Method *link_select(Method *method, Object *receiver) {
    linkd_call_answer answer;
    Method *selected = NULL;
    lock();
    uint32_t number = receiver ? receiver->cls->number : LINKD_NULL;
    must(linkd_select(linker, method->cls->number, method->index, number, &answer), "select");
    if (answer.kind == LINKD_RUN) selected = &by_number[answer.class_number]->methods[answer.value];
    vm.counts.selections++;
    unlock();
    if (selected) return selected;
    if (answer.kind == LINKD_BAD_RECEIVER) throw_cast(receiver, method->cls);
    else if (answer.value == LINKD_NULL_POINTER_EXCEPTION) throw_null();
    else throw_new(throwables[answer.value], "%s.%s%s on %s", dotted(method->cls->name), method->name, method->type, dotted(receiver->cls->name));
    return NULL;
}

Method *link_resolve(Class *from, Class *named, const char *name, const char *type) {
    linkd_resolution resolution;
    for (;;) {
        lock();
        must(linkd_resolve(linker, from->number, named->number, (const uint8_t *)name, strlen(name), (const uint8_t *)type, strlen(type),
                           &resolution), "resolve");
        Method *found = resolution.class_number == LINKD_NO_NUMBER ? NULL : &by_number[resolution.class_number]->methods[resolution.method];
        vm.counts.resolutions++;
        unlock();
        if (resolution.kind == LINKD_RUN) return found;
        if (resolution.kind == LINKD_THROWS) {
            throw_new(throwables[resolution.value], "%s.%s%s from %s", dotted(named->name), name, type, dotted(from->name));
            return NULL;
        }
        Class *waits = resolution.value == LINKD_WANTS_CALLER_HOST ? from : found->cls;
        if (!load_class(waits->nest_host, waits->loader)) return NULL;
    }
}

bool link_accessible(Class *from, Class *cls) {
    uint32_t accessible;
    lock();
    must(linkd_class_accessible(linker, from->number, cls->number, &accessible), "access");
    unlock();
    return accessible;
}

/* ---- threads */

Reader *link_new_reader(void) {
    Reader *reader = calloc(1, sizeof *reader);
    reader->seat = block(linkd_seat_size(), linkd_seat_align());
    reader->memo = block(linkd_memo_size(), linkd_memo_align());
    linkd_seat_blank(reader->seat);
    linkd_memo_blank(reader->memo);
    must(linkd_memo_open(reader->memo, MEMO_SETS), "memo");
    return reader;
}

void link_reader_gone(Reader *reader) {
    linkd_seat_leave(reader->seat);
    linkd_memo_close(reader->memo);
    free(reader->seat), free(reader->memo), free(reader);
}
