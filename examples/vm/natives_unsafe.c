/* Native methods of jdk.internal.misc.Unsafe. All that it reads and writes of objects is read and written whole, in one order for all threads. */
#include "vm.h"

#define PLACE(type) ((type *)((char *)args[1].a + args[2].j)) /* of an object and an offset, or an address */

/* ---- Unsafe: args are the Unsafe, an object, an offset (two slots), values */

#define GET_PUT(name, type, member)                                                                                            \
    NATIVE(get_##name) { Slot slot = NOTHING; slot.member = __atomic_load_n(PLACE(type), __ATOMIC_SEQ_CST); return slot; }      \
    NATIVE(put_##name) { __atomic_store_n(PLACE(type), (type)args[4].member, __ATOMIC_SEQ_CST); return NOTHING; }
GET_PUT(byte, int8_t, i)
GET_PUT(char, uint16_t, i)
GET_PUT(short, int16_t, i)
GET_PUT(int, int32_t, i)
GET_PUT(long, int64_t, j)
GET_PUT(reference, Object *, a)

/* compareAndSet gives whether it was the expected one, compareAndExchange what was there. */
#define COMPARE(name, type, member, next, give)                                                                                      \
    NATIVE(compare_and_set_##name) {                                                                                                 \
        type expected = args[4].member;                                                                                              \
        return of_int(__atomic_compare_exchange_n(PLACE(type), &expected, next, false, __ATOMIC_SEQ_CST, __ATOMIC_SEQ_CST));         \
    }                                                                                                                                \
    NATIVE(compare_and_exchange_##name) {                                                                                            \
        type expected = args[4].member;                                                                                              \
        __atomic_compare_exchange_n(PLACE(type), &expected, next, false, __ATOMIC_SEQ_CST, __ATOMIC_SEQ_CST);                        \
        return give(expected);                                                                                                       \
    }
COMPARE(int, int32_t, i, args[5].i, of_int)
COMPARE(long, int64_t, j, args[6].j, of_long)
COMPARE(reference, Object *, a, args[5].a, of_ref)
NATIVE(allocate) { return of_long((int64_t)(intptr_t)malloc((size_t)args[1].j)); }
NATIVE(reallocate) { return of_long((int64_t)(intptr_t)realloc((void *)(intptr_t)args[1].j, (size_t)args[3].j)); }
NATIVE(release) { free((void *)(intptr_t)args[1].j); return NOTHING; }
NATIVE(set_memory) { memset(PLACE(char), args[6].i, (size_t)args[4].j); return NOTHING; }
NATIVE(copy_memory) { memmove((char *)args[4].a + args[5].j, PLACE(char), (size_t)args[7].j); return NOTHING; }
NATIVE(allocate_instance) {
    Class *cls = mirror_class(args[1].a);
    if (!init_class(cls)) return NOTHING;
    return of_ref(new_object(cls));
}
NATIVE(throw_exception) { return throw_object(args[1].a); }
NATIVE(fence) { __atomic_thread_fence(__ATOMIC_SEQ_CST); return NOTHING; }

static Field *field_of(Object *reflected) {
    return &mirror_class(get_field(reflected, "clazz", NULL).a)->fields[get_field(reflected, "slot", NULL).i];
}
NATIVE(field_offset) { return of_long(field_of(args[1].a)->offset); }
NATIVE(field_base) { return of_ref(field_of(args[1].a)->cls->mirror); }
NATIVE(named_offset) {
    const char *name = intern(text_of(args[2].a));
    Field *field = find_field(mirror_class(args[1].a), name, NULL);
    if (!field) return throw_new("java/lang/InternalError", "%s", name);
    return of_long(field->offset);
}
NATIVE(must_init) { return of_int(ACQUIRE(mirror_class(args[1].a)->state) < READY); }
NATIVE(ensure_init) { init_class(mirror_class(args[1].a)); return NOTHING; }
NATIVE(array_base) { return of_int(HEADER); }
NATIVE(array_scale) { return of_int(1 << mirror_class(args[1].a)->shift); }
NATIVE(park) { thread_park(args[1].i, args[2].j); return NOTHING; }
NATIVE(unpark) { thread_unpark(args[1].a); return NOTHING; }

#define UNSAFE "jdk/internal/misc/Unsafe"
#define ROWS(java, c)                                                                                                     \
    {UNSAFE, "get" java, NULL, get_##c}, {UNSAFE, "put" java, NULL, put_##c}, {UNSAFE, "get" java "Volatile", NULL, get_##c}, \
    {UNSAFE, "put" java "Volatile", NULL, put_##c}

const NativeRow unsafe_natives[] = {
    ROWS("Byte", byte), ROWS("Boolean", byte), ROWS("Char", char), ROWS("Short", short), ROWS("Int", int), ROWS("Float", int),
    ROWS("Long", long), ROWS("Double", long), ROWS("Reference", reference),
    {UNSAFE, "compareAndSetInt", NULL, compare_and_set_int}, {UNSAFE, "compareAndSetLong", NULL, compare_and_set_long},
    {UNSAFE, "compareAndSetReference", NULL, compare_and_set_reference}, {UNSAFE, "compareAndExchangeInt", NULL, compare_and_exchange_int},
    {UNSAFE, "compareAndExchangeLong", NULL, compare_and_exchange_long}, {UNSAFE, "compareAndExchangeReference", NULL, compare_and_exchange_reference},
    {UNSAFE, "allocateMemory0", NULL, allocate}, {UNSAFE, "reallocateMemory0", NULL, reallocate},
    {UNSAFE, "freeMemory0", NULL, release}, {UNSAFE, "setMemory0", NULL, set_memory}, {UNSAFE, "copyMemory0", NULL, copy_memory},
    {UNSAFE, "allocateInstance", NULL, allocate_instance}, {UNSAFE, "throwException", NULL, throw_exception},
    {UNSAFE, "loadFence", NULL, fence}, {UNSAFE, "storeFence", NULL, fence}, {UNSAFE, "fullFence", NULL, fence},
    {UNSAFE, "objectFieldOffset0", NULL, field_offset}, {UNSAFE, "objectFieldOffset1", NULL, named_offset},
    {UNSAFE, "staticFieldOffset0", NULL, field_offset}, {UNSAFE, "staticFieldBase0", NULL, field_base},
    {UNSAFE, "shouldBeInitialized0", NULL, must_init}, {UNSAFE, "ensureClassInitialized0", NULL, ensure_init},
    {UNSAFE, "arrayBaseOffset0", NULL, array_base}, {UNSAFE, "arrayIndexScale0", NULL, array_scale},
    {UNSAFE, "park", NULL, park}, {UNSAFE, "unpark", NULL, unpark},
    {NULL, NULL, NULL, NULL}};
