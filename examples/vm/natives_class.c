/* Native methods of java.lang.Class, and what annotations are read of. */
#include "vm.h"

#define CLASS "java/lang/Class"
#define POOL "jdk/internal/reflect/ConstantPool"

#define SELF mirror_class(args[0].a)

static Object *class_array(int count) { return new_array_of("[Ljava/lang/Class;", count); }
static Object *mirror_of(Class *cls) { return cls ? cls->mirror : NULL; }

/* ---- Class */

NATIVE(for_name) { /* name, initialize, loader, caller */
    if (!args[0].a) return throw_null();
    const char *text = text_of(args[0].a);
    uint32_t loader = loader_number(args[2].a);
    if (self->exception) return NOTHING;
    Class *cls = strchr(text, '/') ? NULL : find_class(slashed(text), loader);
    if (!cls && self->exception && !strcmp(self->exception->cls->name, "java/lang/NoClassDefFoundError")) self->exception = NULL;
    if (self->exception) return NOTHING;
    if (!cls || cls->hidden) return throw_new("java/lang/ClassNotFoundException", "%s", text);
    if (args[1].i && !init_class(cls)) return NOTHING;
    return of_ref(cls->mirror);
}

NATIVE(is_instance) { return of_int(args[1].a && is_subclass(args[1].a->cls, SELF)); }
NATIVE(is_assignable) {
    if (!args[1].a) return throw_null();
    return of_int(is_subclass(mirror_class(args[1].a), SELF));
}
NATIVE(is_interface) { return of_int((SELF->flags & ACC_INTERFACE) != 0); }
NATIVE(is_array) { return of_int(SELF->element != NULL); }
NATIVE(is_primitive_class) { return of_int(SELF->primitive != 0); }
NATIVE(is_hidden) { return of_int(SELF->hidden); }
NATIVE(is_record) { return of_int(SELF->record.at != NULL); }
NATIVE(class_name) {
    Object *name = string_of(dotted(SELF->name));
    set_field(args[0].a, "name", NULL, of_ref(name));
    return of_ref(name);
}
NATIVE(superclass) { return of_ref(SELF->flags & ACC_INTERFACE ? NULL : mirror_of(SELF->super)); }
NATIVE(interfaces) {
    Class *cls = SELF;
    Object *list = class_array(cls->interface_count);
    for (uint16_t i = 0; i < cls->interface_count; i++) DATA(list, Object *)[i] = cls->interfaces[i]->mirror;
    return of_ref(list);
}
NATIVE(primitive_class) {
    const char *name = text_of(args[0].a);
    for (int i = 0; i < 128; i++)
        if (vm.primitives[i] && !strcmp(vm.primitives[i]->name, name)) return of_ref(vm.primitives[i]->mirror);
    return NOTHING;
}
NATIVE(signature) { return of_ref(new_string(SELF->signature)); }

static const char *constant_name(Class *cls, uint16_t index) { return index ? class_name_at(cls, index) : NULL; }

/* The class's own row among its inner classes: inner, outer, name, flags. */
static const uint8_t *inner_row(Class *cls) {
    for (uint16_t i = 0; cls->inner.at && i < u2(cls->inner.at); i++) {
        const uint8_t *row = cls->inner.at + 2 + 8 * i;
        if (constant_name(cls, u2(row)) == cls->name) return row;
    }
    return NULL;
}

NATIVE(modifiers) {
    Class *cls = SELF;
    const uint8_t *row = inner_row(cls);
    return of_int((row ? u2(row + 6) : cls->flags) & 0x7fff & ~32);
}
NATIVE(declaring_class) {
    Class *cls = SELF;
    const uint8_t *row = inner_row(cls);
    return of_ref(row && u2(row + 2) ? mirror_of(load_class(constant_name(cls, u2(row + 2)), cls->loader)) : NULL);
}
NATIVE(simple_name) {
    Class *cls = SELF;
    const uint8_t *row = inner_row(cls);
    return of_ref(row && u2(row + 4) ? new_string(cls->constants[u2(row + 4)].text) : NULL);
}
NATIVE(enclosing_method) {
    Class *cls = SELF;
    if (!cls->enclosing.at) return NOTHING;
    Object *list = new_array_of("[Ljava/lang/Object;", 3);
    uint16_t method = u2(cls->enclosing.at + 2);
    DATA(list, Object *)[0] = mirror_of(load_class(constant_name(cls, u2(cls->enclosing.at)), cls->loader));
    if (method) {
        DATA(list, Object *)[1] = new_string(cls->constants[cls->constants[method].a].text);
        DATA(list, Object *)[2] = new_string(cls->constants[cls->constants[method].b].text);
    }
    return of_ref(list);
}
NATIVE(declared_classes) {
    Class *cls = SELF;
    Object *list = class_array(0);
    for (int pass = 0, count = 0; pass < 2; pass++) {
        if (pass) list = class_array(count);
        count = 0;
        for (uint16_t i = 0; cls->inner.at && i < u2(cls->inner.at); i++) {
            const uint8_t *row = cls->inner.at + 2 + 8 * i;
            if (!u2(row + 2) || constant_name(cls, u2(row + 2)) != cls->name) continue;
            if (pass) {
                Class *inner = load_class(constant_name(cls, u2(row)), cls->loader);
                if (!inner) return NOTHING;
                DATA(list, Object *)[count] = inner->mirror;
            }
            count++;
        }
    }
    return of_ref(list);
}
NATIVE(nest_host) {
    Class *cls = SELF;
    return of_ref(cls->nest_host ? mirror_of(load_class(cls->nest_host, cls->loader)) : cls->mirror);
}
NATIVE(permitted) {
    Class *cls = SELF;
    if (!cls->permitted.at) return NOTHING;
    Object *list = class_array(u2(cls->permitted.at));
    for (uint16_t i = 0; i < list->length; i++)
        DATA(list, Object *)[i] = mirror_of(load_class(constant_name(cls, u2(cls->permitted.at + 2 + 2 * i)), cls->loader));
    return of_ref(list);
}
NATIVE(assertions) { return of_int(vm.assertions && SELF->loader != BOOT_LOADER); }
NATIVE(none) { return NOTHING; }

Object *byte_array(Bytes bytes) {
    if (!bytes.at) return NULL;
    Object *array = new_array(vm.arrays['B'], (int32_t)bytes.length);
    memcpy(DATA(array, char), bytes.at, bytes.length);
    return array;
}

/* ---- annotations are read by the runtime, out of the bytes and the constants */

NATIVE(raw_annotations) { return of_ref(byte_array(SELF->annotations)); }
NATIVE(constant_pool) {
    Object *made = new_object(boot_class("jdk/internal/reflect/ConstantPool"));
    set_field(made, "constantPoolOop", NULL, of_ref(args[0].a));
    return of_ref(made);
}
NATIVE(pool_text) { return of_ref(new_string(mirror_class(args[1].a)->constants[args[2].i].text)); }
NATIVE(pool_number) { return mirror_class(args[1].a)->constants[args[2].i].is.value; }

const NativeRow class_natives[] = {
    {CLASS, "forName0", NULL, for_name}, {CLASS, "isInstance", NULL, is_instance}, {CLASS, "isAssignableFrom", NULL, is_assignable},
    {CLASS, "isInterface", NULL, is_interface}, {CLASS, "isArray", NULL, is_array}, {CLASS, "isPrimitive", NULL, is_primitive_class},
    {CLASS, "isHidden", NULL, is_hidden}, {CLASS, "isRecord0", NULL, is_record}, {CLASS, "initClassName", NULL, class_name},
    {CLASS, "getSuperclass", NULL, superclass}, {CLASS, "getInterfaces0", NULL, interfaces}, {CLASS, "getPrimitiveClass", NULL, primitive_class},
    {CLASS, "getGenericSignature0", NULL, signature}, {CLASS, "getModifiers", NULL, modifiers}, {CLASS, "getDeclaringClass0", NULL, declaring_class},
    {CLASS, "getSimpleBinaryName0", NULL, simple_name}, {CLASS, "getEnclosingMethod0", NULL, enclosing_method},
    {CLASS, "getDeclaredClasses0", NULL, declared_classes}, {CLASS, "getNestHost0", NULL, nest_host},
    {CLASS, "getPermittedSubclasses0", NULL, permitted}, {CLASS, "desiredAssertionStatus0", NULL, assertions},
    {CLASS, "getRawAnnotations", NULL, raw_annotations}, {CLASS, "getRawTypeAnnotations", NULL, none},
    {CLASS, "getConstantPool", NULL, constant_pool}, {POOL, "getUTF8At0", NULL, pool_text}, {POOL, "getIntAt0", NULL, pool_number},
    {POOL, "getLongAt0", NULL, pool_number}, {POOL, "getFloatAt0", NULL, pool_number}, {POOL, "getDoubleAt0", NULL, pool_number},
    {CLASS, "getProtectionDomain0", NULL, none}, {CLASS, "getSigners", NULL, none},
    {NULL, NULL, NULL, NULL}};
