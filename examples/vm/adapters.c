/* Method handles that do something beside a call: each is a static method of a class that the machine writes. Handles that it calls are
 * called by an invokedynamic each, which is bound to their targets; values that it has lie in static fields. */
#include "handles.h"

enum { MOST_INNER = 8, MOST_VALUES = 64 };

typedef struct Adapter {
    Writer *w;
    char name[64];
    Object *inner[MOST_INNER]; /* the handles, in the order of their calls */
    uint32_t inner_count;
    Object *values[MOST_VALUES];
    uint32_t value_count;
} Adapter;

static Adapter begin(void) {
    static uint32_t made;
    Adapter adapter = {.w = new_writer(1)};
    snprintf(adapter.name, sizeof adapter.name, "linkd$Adapter$%u", __atomic_add_fetch(&made, 1, __ATOMIC_RELAXED));
    return adapter;
}

static void call_inner(Adapter *adapter, Object *handle) {
    write_dynamic(adapter->w, handle_type(handle));
    adapter->inner[adapter->inner_count++] = handle;
}

/* Pushes a value as one of this type. */
static void push_value(Adapter *adapter, Object *value, const char *type) {
    static const char object[] = "Ljava/lang/Object;";
    char name[16];
    snprintf(name, sizeof name, "v%u", adapter->value_count);
    add_field(adapter->w, ACC_STATIC, name, object);
    op2(adapter->w, OP_getstatic, member_constant(adapter->w, CONSTANT_Fieldref, adapter->name, name, object));
    write_conversion(adapter->w, object, object, type);
    adapter->values[adapter->value_count++] = value;
}

/* The invokedynamic of this number. */
static Site *dynamic_site(Method *method, uint32_t number) {
    Site *site = method->sites;
    while (site->opcode != OP_invokedynamic || number-- > 0) site++;
    return site;
}

static Object *finish(Adapter *adapter, const char *type, uint32_t loader) {
    write_return(adapter->w, strchr(type, ')')[1]);
    end_method(adapter->w, ACC_PUBLIC | ACC_STATIC, "call", type, slots_of(type));
    Class *cls = define_written(adapter->w, adapter->name, NULL, 0, loader);
    if (!cls || !init_class(cls)) return NULL;
    for (uint32_t i = 0; i < adapter->value_count; i++) {
        char name[16];
        snprintf(name, sizeof name, "v%u", i);
        set_static(cls, name, NULL, of_ref(adapter->values[i]));
    }
    Method *method = declared(cls, "call", type);
    prepare_code(method);
    for (uint32_t i = 0; i < adapter->inner_count; i++)
        if (!bind_handle(dynamic_site(method, i), adapter->inner[i], loader)) return NULL;
    return new_handle((Handle){.kind = HANDLE_METHOD, .method = method}, type, loader);
}

static const char *result_of(const char *type) { return strchr(type, ')') + 1; }

static bool same(const char *one, const char *other) {
    size_t length = (size_t)(next_type(one) - one);
    return length == (size_t)(next_type(other) - other) && !strncmp(one, other, length);
}

/* The parameter of this number. */
static const char *parameter(const char *type, int32_t number) {
    for (type++; number > 0 && *type != ')'; number--) type = next_type(type);
    return type;
}

static int32_t parameter_count(const char *type) {
    int32_t count = 0;
    for (type++; *type != ')'; type = next_type(type)) count++;
    return count;
}

/* ---- the adapters */

Object *adapt_type(Object *handle, const char *type) {
    const char *old = handle_type(handle), *to = old + 1;
    if (old == type) return handle;
    if (parameter_count(old) != parameter_count(type))
        return throw_new("java/lang/invoke/WrongMethodTypeException", "cannot convert MethodHandle%s to %s", old, type).a;
    Adapter adapter = begin();
    uint16_t local = 0;
    for (const char *from = type + 1; *from != ')'; from = next_type(from), to = next_type(to)) {
        write_load(adapter.w, *from, local);
        local += (uint16_t)width_of(*from);
        if (!same(from, to)) write_conversion(adapter.w, from, "Ljava/lang/Object;", to);
    }
    call_inner(&adapter, handle);
    const char *from = result_of(old), *wanted = result_of(type);
    if (*wanted == 'V' && *from != 'V') op(adapter.w, width_of(*from) == 2 ? OP_pop2 : OP_pop);
    else if (*from == 'V' && *wanted != 'V') push_value(&adapter, NULL, "Ljava/lang/Object;");
    else if (!same(from, wanted)) write_conversion(adapter.w, from, "Ljava/lang/Object;", wanted);
    return finish(&adapter, type, handle_loader(handle));
}

static const char *class_type(Class *cls, char *text, size_t room) {
    if (cls->primitive) snprintf(text, room, "%c", cls->primitive);
    else snprintf(text, room, *cls->name == '[' ? "%s" : "L%s;", cls->name);
    return text;
}

Object *adapt_constant(Class *cls, Object *value) {
    char text[1024], type[1030];
    Adapter adapter = begin();
    push_value(&adapter, value, class_type(cls, text, sizeof text));
    snprintf(type, sizeof type, "()%s", text);
    return finish(&adapter, intern(type), cls->loader);
}

Object *adapt_identity(Class *cls) {
    char text[1024], type[2060];
    Adapter adapter = begin();
    snprintf(type, sizeof type, "(%s)%s", class_type(cls, text, sizeof text), text);
    write_load(adapter.w, *text, 0);
    return finish(&adapter, intern(type), cls->loader);
}

Object *adapt_insert(Object *handle, int32_t position, Object **values, uint32_t count) {
    const char *old = handle_type(handle);
    char type[4096];
    if (position < 0 || count > MOST_VALUES || position + (int32_t)count > parameter_count(old))
        return throw_new("java/lang/IllegalArgumentException", "too many values to insert").a;
    const char *from = parameter(old, position), *after = parameter(old, position + (int32_t)count);
    snprintf(type, sizeof type, "%.*s%s", (int)(from - old), old, after);
    Adapter adapter = begin();
    uint16_t local = 0;
    int32_t number = 0;
    for (const char *at = old + 1; *at != ')'; at = next_type(at), number++) {
        if (number >= position && number < position + (int32_t)count) push_value(&adapter, values[number - position], at);
        else {
            write_load(adapter.w, *at, local);
            local += (uint16_t)width_of(*at);
        }
    }
    call_inner(&adapter, handle);
    return finish(&adapter, intern(type), handle_loader(handle));
}

Object *adapt_drop(Object *handle, int32_t position, Class **types, uint32_t count) {
    const char *old = handle_type(handle), *before = parameter(old, position);
    char type[4096], text[1024];
    if (position < 0 || position > parameter_count(old)) return throw_new("java/lang/IllegalArgumentException", "no argument %d", position).a;
    int length = snprintf(type, sizeof type, "%.*s", (int)(before - old), old);
    uint16_t skipped = 0, local = 0;
    for (uint32_t i = 0; i < count; i++) {
        length += snprintf(type + length, sizeof type - (size_t)length, "%s", class_type(types[i], text, sizeof text));
        skipped += (uint16_t)width_of(*text);
    }
    snprintf(type + length, sizeof type - (size_t)length, "%s", before);
    Adapter adapter = begin();
    for (const char *at = old + 1; *at != ')'; at = next_type(at)) {
        if (at == before) local += skipped;
        write_load(adapter.w, *at, local);
        local += (uint16_t)width_of(*at);
    }
    call_inner(&adapter, handle);
    return finish(&adapter, intern(type), handle_loader(handle));
}

/* MethodHandles.guardWithTest: by a test each time, and not by a switch point. */
Object *adapt_guard(Object *test, Object *target, Object *fallback) {
    const char *type = handle_type(target);
    if (type != handle_type(fallback) || *result_of(handle_type(test)) != 'Z')
        return throw_new("java/lang/IllegalArgumentException", "target and fallback types must match: %s != %s", type, handle_type(fallback)).a;
    Adapter adapter = begin();
    uint16_t local = 0;
    for (const char *at = handle_type(test) + 1; *at != ')'; at = next_type(at)) {
        write_load(adapter.w, *at, local);
        local += (uint16_t)width_of(*at);
    }
    call_inner(&adapter, test);
    size_t branch = adapter.w->code.length;
    op2(adapter.w, OP_ifeq, 0);
    write_load_all(adapter.w, type, 0);
    call_inner(&adapter, target);
    write_return(adapter.w, *result_of(type));
    size_t offset = adapter.w->code.length - branch;
    adapter.w->code.at[branch + 1] = (uint8_t)(offset >> 8);
    adapter.w->code.at[branch + 2] = (uint8_t)offset;
    write_load_all(adapter.w, type, 0);
    call_inner(&adapter, fallback);
    return finish(&adapter, type, handle_loader(target));
}

Object *adapt_filter_result(Object *handle, Object *filter) {
    const char *type = handle_type(handle), *last = result_of(handle_type(filter));
    char made[4096];
    snprintf(made, sizeof made, "%.*s%s", (int)(result_of(type) - type), type, last);
    Adapter adapter = begin();
    write_load_all(adapter.w, type, 0);
    call_inner(&adapter, handle);
    call_inner(&adapter, filter);
    return finish(&adapter, intern(made), handle_loader(handle));
}

Object *adapt_throw(const char *type, uint32_t loader) {
    static const char exception[] = "java/lang/IllegalStateException";
    Adapter adapter = begin();
    op2(adapter.w, OP_new, class_constant(adapter.w, exception));
    op(adapter.w, OP_dup);
    push_string(adapter.w, "uninitialized call site");
    write_call(adapter.w, OP_invokespecial, CONSTANT_Methodref, exception, "<init>", "(Ljava/lang/String;)V");
    op(adapter.w, OP_athrow);
    return finish(&adapter, type, loader);
}
