/* VarHandle: an object of that class, with what it is of after its fields. Its methods are signature polymorphic (2.9.3), so that the linker
 * leaves them out. Each access is done whole, in one order for all threads, whichever mode is asked for. */
#include "handles.h"

typedef struct Variable {
    Object *base;    /* of a static field the class's mirror; else what keeps the class */
    int coordinates; /* 0: of a static field, 1: of an object, 2: of an array and an index */
    char type;
    bool bytes, big; /* numbers in an array of bytes, the highest byte first */
    uint32_t offset;
    Class *element;  /* of an array */
} Variable;

static Variable *variable_of(Object *handle) { return &AT(handle, handle->cls->size - HANDLE_ROOM, Variable); }

void mark_variable(Object *handle) { mark(variable_of(handle)->base); }

/* ---- where they come from */

static Slot new_variable(Variable variable) {
    _Static_assert(sizeof(Variable) <= HANDLE_ROOM, "a VarHandle has room for it");
    Object *handle = new_object(boot_class("java/lang/invoke/VarHandle"));
    *variable_of(handle) = variable;
    return of_ref(handle);
}

static Slot of_field(Slot *args, bool is_static) { /* lookup, class, name, type */
    Class *cls = mirror_class(args[1].a);
    Field *field = find_field(cls, intern(text_of(args[2].a)), NULL);
    if (!field) return throw_new("java/lang/NoSuchFieldException", "no such field: %s.%s", dotted(cls->name), text_of(args[2].a));
    if (is_static && !init_class(field->cls)) return NOTHING;
    return new_variable((Variable){field->cls->mirror, is_static ? 0 : 1, *field->type, false, false, field->offset, NULL});
}

Slot find_var_handle(Slot *args) { return of_field(args, false); }
Slot find_static_var_handle(Slot *args) { return of_field(args, true); }

Slot array_var_handle(Slot *args) {
    Class *cls = mirror_class(args[0].a)->element;
    return new_variable((Variable){cls->mirror, 2, cls->primitive ? cls->primitive : 'L', false, false, 0, cls});
}

Slot bytes_var_handle(Slot *args) {
    bool big = args[1].a == get_static(boot_class("java/nio/ByteOrder"), "BIG_ENDIAN", NULL).a;
    return new_variable((Variable){NULL, 2, mirror_class(args[0].a)->element->primitive, true, big, 0, NULL});
}

/* ---- accesses */

static int size_of(char type) { return strchr("JDL[", type) ? 8 : strchr("IF", type) ? 4 : strchr("CS", type) ? 2 : 1; }

static void *place_of(const Variable *variable, Slot *args) {
    if (variable->coordinates == 0) return (char *)variable->base + variable->offset;
    Object *object = args[1].a;
    if (!object) return throw_null().a;
    if (variable->coordinates == 1) return (char *)object + variable->offset;
    int64_t units = variable->bytes ? size_of(variable->type) : 1;
    if (args[2].i < 0 || args[2].i + units > object->length)
        return throw_new("java/lang/IndexOutOfBoundsException", "Index %d out of bounds for length %u", args[2].i, object->length).a;
    return DATA(object, char) + ((size_t)args[2].i << (variable->bytes ? 0 : object->cls->shift));
}

static Slot swap_bytes(char type, Slot value) {
    switch (size_of(type)) {
        case 2: return type == 'C' ? of_int(__builtin_bswap16((uint16_t)value.i)) : of_int((int16_t)__builtin_bswap16((uint16_t)value.i));
        case 4: return of_int((int32_t)__builtin_bswap32((uint32_t)value.i));
        case 8: return of_long((int64_t)__builtin_bswap64((uint64_t)value.j));
        default: return value;
    }
}

static Slot in_order(const Variable *variable, Slot value) {
    return variable->bytes && variable->big ? swap_bytes(variable->type, value) : value;
}

/* Writes `next` where `expected` is there. */
static bool replace(char type, void *place, Slot expected, Slot next) {
#define REPLACE(kind, member)                                                                                                             \
    {                                                                                                                                     \
        kind old = (kind)expected.member;                                                                                                 \
        return __atomic_compare_exchange_n((kind *)place, &old, (kind)next.member, false, __ATOMIC_SEQ_CST, __ATOMIC_SEQ_CST);            \
    }
    switch (size_of(type)) {
        case 1: REPLACE(uint8_t, i)
        case 2: REPLACE(uint16_t, i)
        case 4: REPLACE(uint32_t, i)
        default: REPLACE(uint64_t, j)
    }
}

static Slot add(char type, Slot one, Slot other) {
    Slot sum = NOTHING;
    if (type == 'J') return of_long((int64_t)((uint64_t)one.j + (uint64_t)other.j));
    if (type == 'D') sum.d = one.d + other.d;
    else if (type == 'F') sum.f = one.f + other.f;
    else sum.i = (int32_t)((uint32_t)one.i + (uint32_t)other.i);
    return sum;
}

/* What getAndAdd, getAndSet and so on write. */
static Slot updated(const char *name, char type, Slot now, Slot value) {
    if (!strncmp(name, "getAndAdd", 9)) return add(type, now, value);
    if (!strncmp(name, "getAndBitwiseOr", 15)) return of_long(now.j | value.j);
    if (!strncmp(name, "getAndBitwiseAnd", 16)) return of_long(now.j & value.j);
    if (!strncmp(name, "getAndBitwiseXor", 16)) return of_long(now.j ^ value.j);
    return value;
}

static Slot get_and_update(const Variable *variable, const char *name, void *place, Slot value) {
    Slot stored, now;
    do {
        stored = load_as(variable->type, place);
        now = in_order(variable, stored);
    } while (!replace(variable->type, place, stored, in_order(variable, updated(name, variable->type, now, value))));
    return now;
}

static Slot compare_and(const Variable *variable, bool exchange, void *place, Slot expected, Slot next) {
    expected = in_order(variable, expected);
    for (;;) {
        if (replace(variable->type, place, expected, in_order(variable, next))) return exchange ? in_order(variable, expected) : of_int(1);
        Slot now = load_as(variable->type, place);
        bool same = size_of(variable->type) == 8 ? now.j == expected.j : now.i == expected.i;
        if (!same) return exchange ? in_order(variable, now) : of_int(0);
    }
}

Slot variable_call(const char *name, Object *handle, Slot *args) {
    if (!strncmp(name, "withInvoke", 10)) return of_ref(handle); /* no signature is looked at here */
    const Variable *variable = variable_of(handle);
    char type = variable->type;
    void *place = place_of(variable, args);
    if (!place) return NOTHING;
    Slot *values = args + 1 + variable->coordinates;
    if (strstr(name, "ompareAnd")) return compare_and(variable, strstr(name, "Exchange") != NULL, place, values[0], values[width_of(type)]);
    if (!strncmp(name, "getAnd", 6)) return get_and_update(variable, name, place, values[0]);
    if (!strncmp(name, "get", 3)) return in_order(variable, load_as(type, place));
    if (strncmp(name, "set", 3)) return throw_new("java/lang/UnsupportedOperationException", "VarHandle.%s", name);
    if (type == 'L' && variable->element && values[0].a && !is_subclass(values[0].a->cls, variable->element))
        return throw_new("java/lang/ClassCastException", "Cannot cast %s to %s", dotted(values[0].a->cls->name), dotted(variable->element->name));
    store_as(type, place, in_order(variable, values[0]));
    return NOTHING;
}
