/* Native methods of java.lang.Object, Thread, ClassLoader and what is beside them. */
#include "vm.h"
#include <sched.h>


/* ---- objects and arrays */

NATIVE(get_class) { return of_ref(args[0].a->cls->mirror); }
NATIVE(hash_code) { return of_int((int32_t)identity_hash(args[0].a)); }

NATIVE(clone_object) {
    Object *from = args[0].a, *to;
    Class *cls = from->cls;
    if (!cls->element && !is_subclass(cls, vm.cloneable)) return throw_new("java/lang/CloneNotSupportedException", "%s", dotted(cls->name));
    uint32_t size = cls->element ? HEADER + (from->length << cls->shift) : cls->size;
    to = alloc(cls, size);
    memcpy((char *)to + HEADER, (char *)from + HEADER, size - HEADER);
    if (cls->element) to->length = from->length; /* another object's length is its monitor */
    return of_ref(to);
}

static void throw_copy(const char *what, int64_t index, Object *array) {
    char type[256];
    if (array->cls->element->primitive) snprintf(type, sizeof type, "%s[%u]", array->cls->element->name, array->length);
    else snprintf(type, sizeof type, "object array[%u]", array->length);
    throw_new("java/lang/ArrayIndexOutOfBoundsException", "arraycopy: %s %lld out of bounds for %s", what, (long long)index, type);
}

/* Whether the arrays and the places are such that elements can be copied; false with an exception. */
static bool can_copy(Object *from, int32_t at, Object *to, int32_t into, int32_t count) {
    static const char *const store = "java/lang/ArrayStoreException";
    Class *one = from->cls->element, *other = to->cls->element;
    if (!one) throw_new(store, "arraycopy: source type %s is not an array", dotted(from->cls->name));
    else if (!other) throw_new(store, "arraycopy: destination type %s is not an array", dotted(to->cls->name));
    else if (one->primitive != other->primitive)
        throw_new(store, "arraycopy: type mismatch: can not copy %s[] into %s[]", one->primitive ? one->name : "object array",
                  other->primitive ? other->name : "object array");
    else if (at < 0) throw_copy("source index", at, from);
    else if (into < 0) throw_copy("destination index", into, to);
    else if (count < 0) throw_new("java/lang/ArrayIndexOutOfBoundsException", "arraycopy: length %d is negative", count);
    else if ((int64_t)at + count > from->length) throw_copy("last source index", (int64_t)at + count, from);
    else if ((int64_t)into + count > to->length) throw_copy("last destination index", (int64_t)into + count, to);
    return !self->exception;
}

/* Each element has to be of the element type of the other array. */
static Slot copy_checked(Object *from, int32_t at, Object *to, int32_t into, int32_t count) {
    for (int32_t i = 0; i < count; i++) {
        Object *one = ACQUIRE(DATA(from, Object *)[at + i]);
        if (one && !is_subclass(one->cls, to->cls->element))
            return throw_new("java/lang/ArrayStoreException", "arraycopy: element type mismatch: can not cast one of the elements of %s[] to the "
                             "type of the destination array, %s", dotted(from->cls->element->name), dotted(to->cls->element->name));
        RELEASE(DATA(to, Object *)[into + i], one);
    }
    return NOTHING;
}

NATIVE(arraycopy) {
    Object *from = args[0].a, *to = args[2].a;
    int32_t at = args[1].i, into = args[3].i, count = args[4].i;
    if (!from || !to) return throw_null();
    if (!can_copy(from, at, to, into, count)) return NOTHING;
    if (!from->cls->element->primitive && !is_subclass(from->cls->element, to->cls->element)) return copy_checked(from, at, to, into, count);
    int shift = from->cls->shift;
    memmove(DATA(to, char) + ((size_t)into << shift), DATA(from, char) + ((size_t)at << shift), (size_t)count << shift);
    return NOTHING;
}

NATIVE(identity) { return of_int((int32_t)identity_hash(args[0].a)); }
/* ---- threads and monitors */

NATIVE(current_thread) { return of_ref(self->object); }

NATIVE(start) { thread_start(args[0].a); return NOTHING; }
NATIVE(sleep_ms) { thread_sleep(args[0].j); return NOTHING; }
NATIVE(yield_turn) { sched_yield(); return NOTHING; }
NATIVE(interrupt) { thread_interrupt(args[0].a); return NOTHING; }
NATIVE(holds) { return args[0].a ? of_int(monitor_held(args[0].a)) : throw_null(); }
NATIVE(wait_ms) { monitor_wait(args[0].a, args[1].j); return NOTHING; }

static Slot notify(Object *object, bool all) {
    if (!monitor_held(object)) return throw_new("java/lang/IllegalMonitorStateException", "current thread is not owner");
    monitor_notify(object, all);
    return NOTHING;
}
NATIVE(notify_one) { return notify(args[0].a, false); }
NATIVE(notify_all) { return notify(args[0].a, true); }

/* ---- strings, references, callers */

NATIVE(intern_native) { return of_ref(intern_string(args[0].a)); }
NATIVE(refers_to) { return of_int(get_field(args[0].a, "referent", NULL).a == args[1].a); }
NATIVE(clear_reference) { set_field(args[0].a, "referent", NULL, NOTHING); return NOTHING; }
NATIVE(wait_for_pending) { wait_for_pending_references(); return NOTHING; }
NATIVE(take_pending) { return of_ref(take_pending_references()); }
NATIVE(has_pending) { return of_int(has_pending_references()); }
NATIVE(caller_class) {
    Frame *frame = java_caller(1);
    return of_ref(frame ? frame->method->cls->mirror : NULL);
}
static const char *nest_host(Class *cls) { return cls->nest_host ? cls->nest_host : cls->name; }
NATIVE(are_nest_mates) {
    Class *one = mirror_class(args[0].a), *other = mirror_class(args[1].a);
    return of_int(one->loader == other->loader && nest_host(one) == nest_host(other));
}
NATIVE(access_flags) { return of_int(mirror_class(args[0].a)->flags & 0x7fff); }
/* ---- class loaders */

NATIVE(find_bootstrap) {
    Class *cls = find_class(slashed(text_of(args[0].a)), BOOT_LOADER);
    return of_ref(cls ? cls->mirror : NULL);
}

NATIVE(find_loaded) {
    const char *name = slashed(text_of(args[1].a));
    uint32_t loader = loader_number(args[0].a);
    if (self->exception) return NOTHING;
    Class *cls = loader == CLASS_PATH_LOADER ? find_class(name, loader) : recorded_class(name, loader);
    return of_ref(cls ? cls->mirror : NULL);
}

NATIVE(define1) { /* loader, name, bytes, offset, length, domain, source */
    if (!args[2].a) return throw_null();
    const char *name = args[1].a ? slashed(text_of(args[1].a)) : NULL;
    uint8_t *copy = malloc((size_t)args[4].i + 1);
    memcpy(copy, DATA(args[2].a, uint8_t) + args[3].i, (size_t)args[4].i);
    uint32_t loader = loader_number(args[0].a);
    if (self->exception) return free(copy), NOTHING;
    Class *cls = define_class(loader, (Bytes){copy, (uint32_t)args[4].i}, name, false);
    return of_ref(cls ? cls->mirror : NULL);
}

const NativeRow lang_natives[] = {
    {"java/lang/Object", "getClass", NULL, get_class}, {"java/lang/Object", "hashCode", NULL, hash_code}, {"java/lang/Object", "clone", NULL, clone_object},
    {"java/lang/Object", "notify", NULL, notify_one}, {"java/lang/Object", "notifyAll", NULL, notify_all},
    {"java/lang/Object", "wait", NULL, wait_ms}, {"java/lang/System", "arraycopy", NULL, arraycopy},
    {"java/lang/System", "identityHashCode", NULL, identity}, {"java/lang/Thread", "currentThread", NULL, current_thread},
    {"java/lang/Thread", "start0", NULL, start}, {"java/lang/Thread", "sleep", NULL, sleep_ms}, {"java/lang/Thread", "holdsLock", NULL, holds},
    {"java/lang/Throwable", "fillInStackTrace", "(I)Ljava/lang/Throwable;", fill_in_stack_trace},
    {"java/lang/StackTraceElement", "initStackTraceElements", NULL, init_stack_trace_elements}, {"java/lang/String", "intern", NULL, intern_native},
    {"java/lang/StringUTF16", "isBigEndian", NULL, native_nothing}, {"java/lang/ref/Reference", "refersTo0", NULL, refers_to},
    {"java/lang/ref/Reference", "clear0", NULL, clear_reference}, {"java/lang/ref/PhantomReference", "refersTo0", NULL, refers_to},
    {"jdk/internal/reflect/Reflection", "getCallerClass", NULL, caller_class},
    {"jdk/internal/reflect/Reflection", "getClassAccessFlags", NULL, access_flags}, {"jdk/internal/reflect/Reflection", "areNestMates", NULL, are_nest_mates},
    {"java/util/concurrent/atomic/AtomicLong", "VMSupportsCS8", NULL, native_yes}, {"java/lang/ClassLoader", "findBootstrapClass", NULL, find_bootstrap},
    {"java/lang/ClassLoader", "findLoadedClass0", NULL, find_loaded}, {"java/lang/ClassLoader", "defineClass1", NULL, define1},
    {"java/lang/StackStreamFactory", "checkStackWalkModes", NULL, native_yes}, {"java/lang/StackTraceElement", "isHashedInJavaBase", NULL, native_yes},
    {"java/lang/Thread", "yield", NULL, yield_turn}, {"java/lang/Thread", "setPriority0", NULL, native_nothing},
    {"java/lang/Thread", "interrupt0", NULL, interrupt}, {"java/lang/Thread", "setNativeName", NULL, native_nothing},
    {"java/lang/Thread", "onSpinWait", NULL, yield_turn}, {"java/lang/Thread", "clearInterruptEvent", NULL, native_nothing},
    {"java/lang/ClassLoader", "retrieveDirectives", NULL, native_nothing}, {"java/lang/NullPointerException", "getExtendedNPEMessage", NULL, native_nothing},
    {"java/lang/ref/Finalizer", "register", NULL, native_nothing}, {"java/lang/ref/Reference", "waitForReferencePendingList", NULL, wait_for_pending},
    {"java/lang/ref/Reference", "getAndClearReferencePendingList", NULL, take_pending},
    {"java/lang/ref/Reference", "hasReferencePendingList", NULL, has_pending},
    {NULL, NULL, NULL, NULL}};
