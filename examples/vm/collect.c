/* The collector: mark and sweep, in a stopped world. Nothing moves.
 *
 * Objects, statics and what the machine holds are gone through precisely; the slots of Java frames and the C stacks of all threads
 * conservatively: a word that points into an object keeps it. So a slot that is stale may keep something for a while, a loader, too.
 * A class lives as long as its loader: that is reached by its object, by an object or a mirror of one of its classes, by a frame that runs
 * one of its methods, and by a loader that records one of its classes (5.3). Loaders that nothing reaches are retired in link.c. */
#include "heap.h"

enum layout {
    LAYOUT_PLAIN, LAYOUT_NUMBERS, LAYOUT_REFERENCES, LAYOUT_MIRROR, LAYOUT_WEAK, LAYOUT_SOFT, LAYOUT_THROWABLE, LAYOUT_VARIABLE,
    LAYOUT_HANDLE
};

typedef struct List {
    Object **at;
    size_t count, room;
} List;

static List to_scan, weak, cleared;
static bool keep_soft;
static Object *pending; /* references that were cleared, by their field `discovered` */
static Field *referent, *backtrace; /* of java.lang.ref.Reference, java.lang.Throwable */

static bool get_bit(uint64_t *bits, size_t at) { return bits[at >> 6] >> (at & 63) & 1; }
static bool in_heap(void *at) { return (char *)at >= heap.start && (char *)at < heap.high; }

static void push(List *list, Object *object) {
    if (list->count == list->room) list->at = realloc(list->at, (list->room = list->room * 2 + 1024) * sizeof(Object *));
    list->at[list->count++] = object;
}

/* ---- how objects lie in the heap */

static void find_references(Class *cls) {
    uint32_t count = 0;
    for (Class *at = cls; at; at = at->super)
        for (uint16_t i = 0; i < at->field_count; i++) {
            Field *field = &at->fields[i];
            if ((field->flags & ACC_STATIC) || !strchr("L[", *field->type)) continue;
            if (!strcmp(field->name, "referent") && !strcmp(at->name, "java/lang/ref/Reference")) continue;
            cls->refs = realloc(cls->refs, (count + 1) * sizeof *cls->refs);
            cls->refs[count++] = field->offset;
        }
    cls->ref_count = count;
}

/* Of a class whose superclasses are there. */
void find_layout(Class *cls) {
    static const struct { const char *name; enum layout layout; } kinds[] = {
        {"java/lang/ref/SoftReference", LAYOUT_SOFT}, {"java/lang/ref/Reference", LAYOUT_WEAK}, {"java/lang/Class", LAYOUT_MIRROR},
        {"java/lang/Throwable", LAYOUT_THROWABLE}, {"java/lang/invoke/VarHandle", LAYOUT_VARIABLE},
        {"java/lang/invoke/MethodHandle", LAYOUT_HANDLE}};
    if (cls->element) {
        cls->layout = cls->element->primitive ? LAYOUT_NUMBERS : LAYOUT_REFERENCES;
        return;
    }
    find_references(cls);
    cls->layout = cls->super ? cls->super->layout : LAYOUT_PLAIN;
    for (size_t i = 0; i < sizeof kinds / sizeof *kinds; i++)
        if (cls->loader == BOOT_LOADER && !strcmp(cls->name, kinds[i].name)) cls->layout = kinds[i].layout;
    if (!strcmp(cls->name, "java/lang/ref/Reference")) referent = find_field(cls, intern("referent"), NULL);
    if (!strcmp(cls->name, "java/lang/Throwable")) backtrace = find_field(cls, intern("backtrace"), NULL);
}

static size_t size_of(Object *object) {
    Class *cls = object->cls;
    size_t size = cls->size;
    if (cls->element) size = HEADER + ((size_t)object->length << cls->shift);
    else if (cls->layout == LAYOUT_MIRROR) {
        Class *of = mirror_class(object);
        size += of ? of->static_size : 0;
    }
    return (size + 7) & ~(size_t)7;
}

/* ---- marking */

bool is_marked(Object *object) { return get_bit(heap.marks, place_of(object)); }

void mark(Object *object) {
    if (!object || is_marked(object)) return;
    size_t at = place_of(object);
    heap.marks[at >> 6] |= UINT64_C(1) << (at & 63);
    push(&to_scan, object);
}

static void mark_constants(Class *cls) {
    for (uint16_t i = 0; i < cls->constant_count; i++) {
        Constant *one = &cls->constants[i];
        if (one->resolved && (one->tag == CONSTANT_String || one->tag == CONSTANT_MethodHandle || one->tag == CONSTANT_MethodType))
            mark(one->is.value.a);
    }
}

static void mark_class(Class *cls) {
    mark_constants(cls);
    for (uint16_t i = 0; i < cls->method_count; i++)
        for (uint32_t j = 0; j < cls->methods[i].site_count; j++)
            if (cls->methods[i].sites[j].call_site) mark_call_site(cls->methods[i].sites[j].call_site);
    for (; cls; cls = cls->array_of) mark(cls->mirror);
}

static void mark_loader(uint32_t id) {
    Loader *loader = &loaders[id];
    if (loader->marked) return;
    loader->marked = true;
    mark(loader->object);
    for (uint32_t i = 0; i < loader->class_count; i++) mark_class(loader->classes[i]);
    for (uint32_t i = 0; i < loader->recorded_count; i++) mark_loader(loader->recorded[i]->loader);
}

/* Words of a stack: any of them that points into an object keeps it. */
__attribute__((no_sanitize("address", "thread"))) void mark_words(void *from, void *to) {
    for (char **at = (char **)(((uintptr_t)from + 7) & ~(uintptr_t)7); at < (char **)to; at++) {
        if (!in_heap(*at)) continue;
        size_t bit = place_of(*at), word = bit >> 6;
        uint64_t below = heap.starts[word] & (~UINT64_C(0) >> (63 - (bit & 63)));
        while (!below && word > 0) below = heap.starts[--word];
        if (!below) continue;
        Object *object = (Object *)(heap.start + 8 * (word * 64 + 63 - (size_t)__builtin_clzll(below)));
        if (*at < (char *)object + size_of(object)) mark(object);
    }
}

void mark_frames(Frame *frames, uint32_t depth) {
    for (uint32_t i = 0; i < depth; i++) {
        mark_loader(frames[i].method->cls->loader);
        mark(frames[i].locked);
    }
}

static void mark_statics(Class *cls) {
    for (uint16_t i = 0; cls->mirror && i < cls->field_count; i++)
        if ((cls->fields[i].flags & ACC_STATIC) && strchr("L[", *cls->fields[i].type))
            mark(AT(cls->mirror, cls->fields[i].offset, Object *));
}

static void scan_mirror(Object *mirror) {
    Class *of = mirror_class(mirror);
    if (!of) return;
    mark_loader(of->loader);
    mark_statics(of);
}

static void scan_backtrace(Object *throwable) {
    Object *trace = AT(throwable, backtrace->offset, Object *);
    for (uint32_t i = 0; trace && i + 1 < trace->length; i += 2) {
        Method *method = (Method *)(intptr_t)DATA(trace, int64_t)[i];
        if (method) mark_loader(method->cls->loader);
    }
}

static void scan(Object *object) {
    Class *cls = object->cls;
    if (cls->loader >= FIRST_OWN_LOADER) mark_loader(cls->loader);
    if (cls->layout == LAYOUT_REFERENCES)
        for (uint32_t i = 0; i < object->length; i++) mark(DATA(object, Object *)[i]);
    for (uint32_t i = 0; i < cls->ref_count; i++) mark(AT(object, cls->refs[i], Object *));
    switch (cls->layout) {
        case LAYOUT_MIRROR: scan_mirror(object); break;
        case LAYOUT_THROWABLE: scan_backtrace(object); break;
        case LAYOUT_VARIABLE: mark_variable(object); break;
        case LAYOUT_HANDLE: mark_handle(object); break;
        case LAYOUT_SOFT:
            if (keep_soft) {
                mark(AT(object, referent->offset, Object *));
                break;
            } /* fall through */
        case LAYOUT_WEAK:
            if (AT(object, referent->offset, Object *)) push(&weak, object);
    }
}

static void drain(void) {
    while (to_scan.count) scan(to_scan.at[--to_scan.count]);
}

void mark_method_loader(Method *method) { mark_loader(method->cls->loader); }

static __attribute__((noinline)) void mark_all(void) {
    for (uint32_t i = 0; i < loader_count; i++) loaders[i].marked = loaders[i].dead; /* a dead one has no objects any more */
    mark_loader(BOOT_LOADER);
    mark_loader(CLASS_PATH_LOADER);
    for (int i = 0; i < 128; i++)
        if (vm.primitives[i]) mark_class(vm.primitives[i]);
    mark(vm.module);
    mark(pending);
    mark_threads();
    mark_monitors();
    drain();
    for (bool more = true; more;) { /* whose object is reached is alive with its classes */
        more = false;
        for (uint32_t i = FIRST_OWN_LOADER; i < loader_count; i++)
            if (loaders[i].used && !loaders[i].marked && loaders[i].object && is_marked(loaders[i].object)) {
                mark_loader(i);
                drain();
                more = true;
            }
    }
}

/* ---- references */

static void clear_references(void) {
    for (size_t i = 0; i < weak.count; i++) {
        Object **to = &AT(weak.at[i], referent->offset, Object *);
        if (!*to || is_marked(*to)) continue;
        *to = NULL;
        vm.counts.cleared++;
        push(&cleared, weak.at[i]);
    }
    weak.count = 0;
}

/* To the list of those that are pending, from which the runtime's thread `Reference Handler` takes them. */
static void add_pending(void) {
    if (!cleared.count) return;
    uint32_t next = find_field(boot_class("java/lang/ref/Reference"), intern("discovered"), NULL)->offset;
    for (size_t i = 0; i < cleared.count; i++) {
        AT(cleared.at[i], next, Object *) = pending;
        pending = cleared.at[i];
        vm.counts.enqueued++;
    }
    cleared.count = 0;
    lock_notify();
}

Object *take_pending_references(void) {
    lock();
    Object *list = pending;
    pending = NULL;
    unlock();
    return list;
}

bool has_pending_references(void) {
    lock();
    bool has = pending != NULL;
    unlock();
    return has;
}

void wait_for_pending_references(void) {
    lock();
    while (!pending) lock_wait();
    unlock();
}

/* ---- sweeping: what lies between marked objects is holes */

static void add_hole(char *at, char *end) {
    if (vm.poison && at < heap.high) memset(at, 0xdb, (size_t)((end < heap.high ? end : heap.high) - at)); /* who still goes there finds it */
    heap_add_hole(at, end);
}

static void sweep(void) {
    size_t words = place_of(heap.high) / 64 + 1;
    char *free_from = heap.start;
    heap_no_holes();
    vm.counts.live = 0;
    for (size_t i = 0; i < words; i++) {
        heap.starts[i] = heap.marks[i];
        for (uint64_t left = heap.marks[i]; left; left &= left - 1) {
            Object *object = (Object *)(heap.start + 8 * (i * 64 + (size_t)__builtin_ctzll(left)));
            size_t size = size_of(object);
            if ((char *)object > free_from) add_hole(free_from, (char *)object);
            free_from = (char *)object + size;
            vm.counts.live += size;
        }
        heap.marks[i] = 0;
    }
    add_hole(free_from, heap.limit);
}

/* ---- a collection */

static void find_dead_loaders(void) {
    bool any = false;
    for (uint32_t i = FIRST_OWN_LOADER; i < loader_count; i++) {
        Loader *loader = &loaders[i];
        if (!loader->used || loader->marked) continue;
        loader->dead = any = true;
        loader->object = NULL;
        for (uint32_t j = 0; j < loader->class_count; j++)
            for (Class *cls = loader->classes[j]; cls; cls = cls->array_of) cls->mirror = NULL;
    }
    if (any) forget_dead_loaders();
}

static void trace_collection(uint64_t took) {
    unsigned long long pages = 0, all = 0;
    FILE *from = fopen("/proc/self/statm", "r");
    if (from && fscanf(from, "%llu %llu", &all, &pages) != 2) pages = 0;
    if (from) fclose(from);
    uint32_t used = 0;
    for (uint32_t i = 0; i < loader_count; i++) used += loaders[i].used;
    fprintf(stderr, "vm: collection %llu: %.1f ms, live %.1f MB, resident %.1f MB, loaders %u, retired %llu, renewals %llu\n",
            (unsigned long long)vm.counts.collections, (double)took / 1e6, (double)vm.counts.live / 1e6, (double)pages * 4096 / 1e6, used,
            (unsigned long long)vm.counts.retired_loaders, (unsigned long long)vm.counts.renewals);
}

/* The linker's part comes last, when no dead object is looked at any more. */
void collect(bool clear_soft) {
    if (!vm.collects || !vm.booted) return;
    stop_the_world();
    uint64_t start = now_ns(), retired = vm.counts.retired_loaders;
    keep_soft = !clear_soft;
    mark_all();
    clear_references();
    sweep_interned();
    find_dead_loaders();
    find_dead_call_sites();
    sweep();
    link_retire_dead();
    vm.counts.collections++;
    if (link_is_short() || (vm.renew_every && vm.counts.collections % vm.renew_every == 0)) link_renew();
    link_free_dropped();
    add_pending();
    uint64_t took = now_ns() - start;
    vm.counts.collect_ns += took;
    if (vm.trace_collections) trace_collection(took);
    bool unloaded = vm.counts.retired_loaders > retired;
    start_the_world();
    if (unloaded) link_catch_up();
}
