/* Native methods of reflection: members, calls of them, arrays. */
#include "vm.h"

#define ARRAY "java/lang/reflect/Array"
#define CLASS "java/lang/Class"
#define SELF mirror_class(args[0].a)

static Object *class_array(int count) { return new_array_of("[Ljava/lang/Class;", count); }

/* ---- members */

static Object *types_of(const char *type, uint32_t loader, Object **result) {
    int count = 0;
    const char *at = type + 1;
    for (; *at != ')'; at = next_type(at)) count++;
    Object *list = class_array(count);
    count = 0;
    for (at = type + 1; ; at = next_type(at)) {
        if (*at == ')') at++;
        Class *cls = class_of_type(at, (size_t)(next_type(at) - at), loader);
        if (!cls) return NULL;
        if (at[-1] == ')') {
            if (result) *result = cls->mirror;
            return list;
        }
        DATA(list, Object *)[count++] = cls->mirror;
    }
}

static Object *thrown(Method *method, uint16_t i) {
    Class *cls = load_class(class_name_at(method->cls, method->throws[i]), method->cls->loader);
    return cls ? cls->mirror : NULL;
}

static Object *thrown_types(Method *method) {
    Object *list = class_array(method->throw_count);
    for (uint16_t i = 0; i < method->throw_count; i++)
        DATA(list, Object *)[i] = thrown(method, i);
    return list;
}

static Object *reflect(Method *method) {
    bool constructor = *method->name == '<';
    Object *made = new_object(boot_class(constructor ? "java/lang/reflect/Constructor" : "java/lang/reflect/Method")), *result = NULL;
    Object *parameters = types_of(method->type, method->cls->loader, &result);
    if (!parameters) return NULL;
    set_field(made, "clazz", NULL, of_ref(method->cls->mirror));
    set_field(made, "slot", NULL, of_int(method->index));
    set_field(made, "parameterTypes", NULL, of_ref(parameters));
    set_field(made, "exceptionTypes", NULL, of_ref(thrown_types(method)));
    set_field(made, "modifiers", NULL, of_int(method->flags));
    set_field(made, "signature", NULL, of_ref(new_string(method->signature)));
    set_field(made, "annotations", NULL, of_ref(byte_array(method->annotations)));
    set_field(made, "parameterAnnotations", NULL, of_ref(byte_array(method->parameter_annotations)));
    if (constructor) return made;
    set_field(made, "name", NULL, of_ref(string_of(method->name)));
    set_field(made, "returnType", NULL, of_ref(result));
    set_field(made, "annotationDefault", NULL, of_ref(byte_array(method->default_value)));
    return made;
}

static Slot methods_of(Class *cls, bool public_only, bool constructors) {
    int count = 0;
    Object *made = new_array_of("[Ljava/lang/Object;", cls->method_count); /* where the collector sees them */
    for (uint16_t i = 0; i < cls->method_count; i++) {
        Method *method = &cls->methods[i];
        if (method->hidden || !strcmp(method->name, "<clinit>") || (*method->name == '<') != constructors) continue;
        if (public_only && !(method->flags & ACC_PUBLIC)) continue;
        if (!(DATA(made, Object *)[count++] = reflect(method))) return NOTHING;
    }
    Object *list = new_array_of(constructors ? "[Ljava/lang/reflect/Constructor;" : "[Ljava/lang/reflect/Method;", count);
    for (int i = 0; i < count; i++) DATA(list, Object *)[i] = DATA(made, Object *)[i];
    return of_ref(list);
}

NATIVE(declared_methods) { return methods_of(SELF, args[1].i, false); }
NATIVE(declared_constructors) { return methods_of(SELF, args[1].i, true); }
static Object *reflect_field(Field *field) {
    Object *made = new_object(boot_class("java/lang/reflect/Field"));
    Class *type = class_of_type(field->type, strlen(field->type), field->cls->loader);
    if (!type) return NULL;
    set_field(made, "clazz", NULL, of_ref(field->cls->mirror));
    set_field(made, "slot", NULL, of_int(field->index));
    set_field(made, "name", NULL, of_ref(string_of(field->name)));
    set_field(made, "type", NULL, of_ref(type->mirror));
    set_field(made, "modifiers", NULL, of_int(field->flags));
    set_field(made, "signature", NULL, of_ref(new_string(field->signature)));
    set_field(made, "annotations", NULL, of_ref(byte_array(field->annotations)));
    return made;
}

NATIVE(declared_fields) {
    Class *cls = SELF;
    int count = 0;
    for (uint16_t i = 0; i < cls->field_count; i++) count += !args[1].i || (cls->fields[i].flags & ACC_PUBLIC);
    Object *list = new_array_of("[Ljava/lang/reflect/Field;", count);
    count = 0;
    for (uint16_t i = 0; i < cls->field_count; i++) {
        if (args[1].i && !(cls->fields[i].flags & ACC_PUBLIC)) continue;
        if (!(DATA(list, Object *)[count++] = reflect_field(&cls->fields[i]))) return NOTHING;
    }
    return of_ref(list);
}

NATIVE(record_components) {
    Class *cls = SELF;
    const uint8_t *at = cls->record.at;
    Object *list = new_array_of("[Ljava/lang/reflect/RecordComponent;", at ? u2(at) : 0);
    at += 2;
    for (uint32_t i = 0; i < list->length; i++) {
        const char *name = cls->constants[u2(at)].text, *type = cls->constants[u2(at + 2)].text;
        Object *made = new_object(boot_class("java/lang/reflect/RecordComponent"));
        char accessor[512];
        snprintf(accessor, sizeof accessor, "()%s", type);
        Method *method = declared(cls, name, accessor);
        Class *its = class_of_type(type, strlen(type), cls->loader);
        if (!its) return NOTHING;
        set_field(made, "clazz", NULL, of_ref(cls->mirror));
        set_field(made, "name", NULL, of_ref(string_of(name)));
        set_field(made, "type", NULL, of_ref(its->mirror));
        set_field(made, "accessor", NULL, of_ref(method ? reflect(method) : NULL));
        DATA(list, Object *)[i] = made;
        uint16_t attributes = u2(at + 4);
        for (at += 6; attributes > 0; attributes--) at += 6 + u4(at + 2);
    }
    return of_ref(list);
}

/* ---- calls */

static Slot illegal_argument(const char *text) { return throw_new("java/lang/IllegalArgumentException", "%s", text); }

/* The arguments in an array, as the method has them; false with an exception. */
static bool spread(Method *method, Object *list, Slot *slots, int *count) {
    uint32_t given = list ? list->length : 0, i = 0;
    for (const char *at = method->type + 1; *at != ')'; at = next_type(at), i++) {
        if (i >= given) return illegal_argument("wrong number of arguments"), false;
        Object *one = DATA(list, Object *)[i];
        if (*at == 'L' || *at == '[') {
            Class *type = class_of_type(at, (size_t)(next_type(at) - at), method->cls->loader);
            if (!type) return false;
            if (one && !is_subclass(one->cls, type)) return illegal_argument("argument type mismatch"), false;
            slots[*count] = of_ref(one);
        } else if (!unbox(one, *at, &slots[*count])) return illegal_argument("argument type mismatch"), false;
        *count += width_of(*at);
    }
    if (i != given) illegal_argument("wrong number of arguments");
    return i == given;
}

static Slot call_selected(Method *method, Slot *slots, int count) {
    Method *selected = link_select(method, method->flags & ACC_STATIC ? NULL : slots[0].a);
    return selected ? invoke(selected, slots, count) : NOTHING;
}

static Slot call_reflected(Method *method, Object *receiver, Object *list) {
    Slot slots[260];
    int count = 0;
    if (!init_class(method->cls)) return NOTHING;
    if (!(method->flags & ACC_STATIC)) {
        if (!receiver) return throw_null();
        if (!is_subclass(receiver->cls, method->cls)) return illegal_argument("object is not an instance of declaring class");
        slots[count++] = of_ref(receiver);
    }
    if (!spread(method, list, slots, &count)) return NOTHING;
    Slot result = is_polymorphic(method) ? call_polymorphic(method->name, method->type, slots) : call_selected(method, slots, count);
    if (!self->exception) return result;
    Object *cause = self->exception;
    self->exception = NULL;
    return throw_wrapped("java/lang/reflect/InvocationTargetException", cause);
}

static Method *reflected(Object *object) {
    return &mirror_class(get_field(object, "clazz", NULL).a)->methods[get_field(object, "slot", NULL).i];
}

NATIVE(invoke_method) {
    Method *method = reflected(args[0].a);
    Slot result = call_reflected(method, args[1].a, args[2].a);
    return self->exception ? NOTHING : of_ref(box(method->result, result));
}

enum { OF_ANOTHER_CLASS = 1 << 30 }; /* in a constructor's slot: it stands in the superclass of this depth, and makes objects of this one */

/* For serialization: an accessor that makes objects of a class by the constructor of a superclass. The runtime would write a class that
 * extends one that it may not access, which HotSpot lets pass and the linker doesn't. */
NATIVE(serialization_constructor) { /* this, class, types, exceptions, modifiers, class of the constructor */
    Method *method = declared(mirror_class(args[5].a), "<init>", "()V");
    Class *native = boot_class("jdk/internal/reflect/NativeConstructorAccessorImpl");
    if (!init_class(native)) return NOTHING;
    Object *accessor = new_object(native);
    if (!method || args[2].a->length) return throw_new("java/lang/InternalError", "a constructor with parameters");
    Object *constructor = reflect(method);
    set_field(constructor, "clazz", NULL, args[1]);
    set_field(constructor, "slot", NULL, of_int(method->index | OF_ANOTHER_CLASS));
    set_field(constructor, "modifiers", NULL, of_int(method->cls->depth));
    set_field(accessor, "c", NULL, of_ref(constructor));
    return of_ref(accessor);
}

NATIVE(new_instance) {
    int32_t slot = get_field(args[0].a, "slot", NULL).i;
    if (slot & OF_ANOTHER_CLASS) {
        Object *made = new_object(mirror_class(get_field(args[0].a, "clazz", NULL).a));
        Slot list[1] = {of_ref(made)};
        invoke(&made->cls->ancestors[get_field(args[0].a, "modifiers", NULL).i]->methods[(uint16_t)slot], list, 1);
        return of_ref(made);
    }
    Method *method = reflected(args[0].a);
    if (method->cls->flags & ACC_ABSTRACT) return throw_new("java/lang/InstantiationException", NULL);
    Object *made = new_object(method->cls);
    call_reflected(method, made, args[1].a);
    return of_ref(made);
}

/* ---- arrays */

NATIVE(array_length) {
    if (!args[0].a) return throw_null();
    if (!args[0].a->cls->element) return throw_new("java/lang/IllegalArgumentException", "Argument is not an array");
    return of_int((int32_t)args[0].a->length);
}

static void *element_at(Object *array, int32_t index) {
    if (!array) return throw_null(), NULL;
    if (!array->cls->element) return throw_new("java/lang/IllegalArgumentException", "Argument is not an array").a;
    if ((uint32_t)index >= array->length)
        return throw_new("java/lang/ArrayIndexOutOfBoundsException", "Index %d out of bounds for length %u", index, array->length).a;
    return DATA(array, char) + ((size_t)index << array->cls->shift);
}

NATIVE(array_get) {
    void *at = element_at(args[0].a, args[1].i);
    if (!at) return NOTHING;
    char type = args[0].a->cls->element->primitive;
    return type ? of_ref(box(type, load_as(type, at))) : load_as('L', at);
}
NATIVE(array_get_raw) {
    void *at = element_at(args[0].a, args[1].i);
    return at ? load_as(args[0].a->cls->element->primitive, at) : NOTHING;
}
NATIVE(array_set) {
    void *at = element_at(args[0].a, args[1].i);
    if (!at) return NOTHING;
    char type = args[0].a->cls->element->primitive;
    Slot value = args[2];
    if (type ? !unbox(args[2].a, type, &value) : args[2].a && !is_subclass(args[2].a->cls, args[0].a->cls->element))
        return throw_new("java/lang/IllegalArgumentException", type ? "argument type mismatch" : "array element type mismatch");
    store_as(type ? type : 'L', at, value);
    return NOTHING;
}
NATIVE(array_set_raw) {
    void *at = element_at(args[0].a, args[1].i);
    if (at) store_as(args[0].a->cls->element->primitive, at, args[2]);
    return NOTHING;
}
NATIVE(array_new) {
    if (!args[0].a) return throw_null();
    Class *cls = SELF;
    if (cls->primitive == 'V') return throw_new("java/lang/IllegalArgumentException", NULL);
    return of_ref(new_array(array_class(cls), args[1].i));
}

static Object *many(Class *cls, const int32_t *lengths, uint32_t count) {
    Object *array = new_array(cls, lengths[0]);
    for (int32_t i = 0; array && count > 1 && i < lengths[0]; i++)
        DATA(array, Object *)[i] = many(cls->element, lengths + 1, count - 1);
    return array;
}
NATIVE(array_new_many) {
    Class *cls = SELF;
    for (uint32_t i = 0; i < args[1].a->length; i++) cls = array_class(cls);
    return of_ref(many(cls, DATA(args[1].a, int32_t), args[1].a->length));
}

const NativeRow member_natives[] = {
    {CLASS, "getDeclaredMethods0", NULL, declared_methods}, {CLASS, "getDeclaredConstructors0", NULL, declared_constructors},
    {CLASS, "getDeclaredFields0", NULL, declared_fields}, {CLASS, "getRecordComponents0", NULL, record_components},
    {"jdk/internal/reflect/NativeMethodAccessorImpl", "invoke0", NULL, invoke_method},
    {"jdk/internal/reflect/NativeConstructorAccessorImpl", "newInstance0", NULL, new_instance},
    {"jdk/internal/reflect/MethodAccessorGenerator", "generateSerializationConstructor", NULL, serialization_constructor},
    {ARRAY, "getLength", NULL, array_length}, {ARRAY, "get", NULL, array_get}, {ARRAY, "set", NULL, array_set},
    {ARRAY, "getInt", NULL, array_get_raw}, {ARRAY, "getLong", NULL, array_get_raw}, {ARRAY, "getByte", NULL, array_get_raw},
    {ARRAY, "getChar", NULL, array_get_raw}, {ARRAY, "getShort", NULL, array_get_raw}, {ARRAY, "getBoolean", NULL, array_get_raw},
    {ARRAY, "getFloat", NULL, array_get_raw}, {ARRAY, "getDouble", NULL, array_get_raw}, {ARRAY, "setInt", NULL, array_set_raw},
    {ARRAY, "setLong", NULL, array_set_raw}, {ARRAY, "setByte", NULL, array_set_raw}, {ARRAY, "setChar", NULL, array_set_raw},
    {ARRAY, "setDouble", NULL, array_set_raw}, {ARRAY, "setBoolean", NULL, array_set_raw}, {ARRAY, "newArray", NULL, array_new},
    {ARRAY, "multiNewArray", NULL, array_new_many},
    {NULL, NULL, NULL, NULL}};
