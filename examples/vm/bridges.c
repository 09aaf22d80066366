/* A lambda's class isn't in the nest of the class that it stands in, whose private methods it may have to call. So each class is handed to
 * the linker with a method more for each of its lambdas, a bridge, which calls from inside what the lambda is to run. */
#include "generate.h"

/* The class that the handle names comes first; by a constructor it is what comes back. */
const char *bridge_type(uint16_t reference_kind, const char *owner, const char *type) {
    if (reference_kind == REF_invokeStatic) return type;
    size_t room = strlen(owner) + strlen(type) + 8;
    char *text = malloc(room);
    if (reference_kind == REF_newInvokeSpecial) snprintf(text, room, "%.*s)L%s;", (int)(strchr(type, ')') - type), type, owner);
    else snprintf(text, room, *owner == '[' ? "(%s%s" : "(L%s;%s", owner, type + 1);
    type = intern(text);
    free(text);
    return type;
}

const char *bridge_type_of(Class *cls, const Constant *handle) {
    Constant *method = &cls->constants[handle->b], *pair = &cls->constants[method->b];
    return bridge_type(handle->a, class_name_at(cls, method->a), constant_text(cls, pair->b));
}

static uint8_t opcode_of(uint16_t reference_kind) {
    switch (reference_kind) {
        case REF_invokeVirtual: return OP_invokevirtual;
        case REF_invokeStatic: return OP_invokestatic;
        case REF_invokeInterface: return OP_invokeinterface;
        default: return OP_invokespecial;
    }
}

static void write_bridge(Writer *w, Class *parsed, uint16_t number) {
    const Constant *handle = &parsed->constants[u2(parsed->bootstraps[number].args + 2)], *method = &parsed->constants[handle->b];
    const char *type = bridge_type_of(parsed, handle);
    char name[32];
    if (handle->a == REF_newInvokeSpecial) op2(w, OP_new, method->a), op(w, OP_dup);
    uint16_t locals = write_load_all(w, type, 0);
    op2(w, opcode_of(handle->a), handle->b);
    if (handle->a == REF_invokeInterface) put1(&w->code, locals), put1(&w->code, 0);
    write_return(w, strchr(type, ')')[1]);
    snprintf(name, sizeof name, "linkd$%u", number);
    end_method(w, ACC_STATIC | ACC_SYNTHETIC | (parsed->flags & ACC_INTERFACE ? ACC_PUBLIC : 0), name, type, locals);
}

static const uint8_t *after_constants(Bytes file, uint16_t count) {
    static const uint8_t sizes[] = {[CONSTANT_Integer] = 5, [CONSTANT_Float] = 5, [CONSTANT_Long] = 9, [CONSTANT_Double] = 9,
        [CONSTANT_Class] = 3, [CONSTANT_String] = 3, [CONSTANT_Fieldref] = 5, [CONSTANT_Methodref] = 5, [CONSTANT_InterfaceMethodref] = 5,
        [CONSTANT_NameAndType] = 5, [CONSTANT_MethodHandle] = 4, [CONSTANT_MethodType] = 3, [CONSTANT_Dynamic] = 5,
        [CONSTANT_InvokeDynamic] = 5, [CONSTANT_Module] = 3, [CONSTANT_Package] = 3};
    const uint8_t *at = file.at + 10;
    for (uint16_t i = 1; i < count; i++) {
        uint8_t tag = *at;
        at += tag == CONSTANT_Utf8 ? 3 + u2(at + 1) : sizes[tag];
        if (tag == CONSTANT_Long || tag == CONSTANT_Double) i++;
    }
    return at;
}

static const uint8_t *after_members(const uint8_t *at) {
    uint16_t count = u2(at);
    for (at += 2; count > 0; count--) {
        uint16_t attributes = u2(at + 6);
        for (at += 8; attributes > 0; attributes--) at += 6 + u4(at + 2);
    }
    return at;
}

/* The constants go after the last one, the methods after the last one, and both counts grow. */
static Bytes insert(Bytes file, uint16_t constant_count, const Writer *w) {
    const uint8_t *pool_end = after_constants(file, constant_count);
    const uint8_t *methods = after_members(pool_end + 8 + 2 * u2(pool_end + 6)), *end = after_members(methods);
    Buffer more = {0};
    put_all(&more, file.at, 8);
    put2(&more, w->count);
    put_all(&more, file.at + 10, (size_t)(pool_end - file.at) - 10);
    put_all(&more, w->pool.at, w->pool.length);
    put_all(&more, pool_end, (size_t)(methods - pool_end));
    put2(&more, u2(methods) + w->method_count);
    put_all(&more, methods + 2, (size_t)(end - methods) - 2);
    put_all(&more, w->methods.at, w->methods.length);
    put_all(&more, end, (size_t)(file.at + file.length - end));
    return (Bytes){more.at, (uint32_t)more.length};
}

Bytes with_bridges(Bytes file, Class *parsed) {
    Writer *w = new_writer(parsed->constant_count);
    for (uint16_t i = 0; i < parsed->bootstrap_count; i++)
        if (is_method_of(parsed, &parsed->bootstraps[i], LAMBDAS)) write_bridge(w, parsed, i);
    Bytes more = w->method_count ? insert(file, parsed->constant_count, w) : file;
    writer_gone(w);
    return more;
}
