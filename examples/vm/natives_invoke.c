/* Native methods of java.lang.invoke, most of them in the place of ones that have a body in the JDK. */
#include "handles.h"


/* ---- Lookup */

NATIVE(lookup) {
    Object *made = new_object(boot_class("java/lang/invoke/MethodHandles$Lookup"));
    Frame *frame = java_caller(0);
    set_field(made, "lookupClass", NULL, of_ref(frame ? frame->method->cls->mirror : NULL));
    set_field(made, "allowedModes", NULL, of_int(FULL_POWER));
    return of_ref(made);
}

NATIVE(private_lookup) {
    Slot made = lookup(args);
    set_field(made.a, "lookupClass", NULL, args[0]);
    return made;
}

/* An error of resolution is an exception here. */
static Slot find(Object *lookup, uint16_t kind, Object *mirror, const char *name, Object *type) {
    if (!mirror || !type) return throw_null();
    Class *named = mirror_class(mirror);
    Object *from = get_field(lookup, "lookupClass", NULL).a;
    Object *made = make_direct(from ? mirror_class(from) : named, named, kind, name, descriptor_of(type));
    if (made) return of_ref(made);
    const char *error = self->exception->cls->name;
    bool lacks = !strcmp(error, "java/lang/NoSuchMethodError");
    if (!lacks && strcmp(error, "java/lang/IllegalAccessError") && strcmp(error, "java/lang/IncompatibleClassChangeError")) return NOTHING;
    self->exception = NULL;
    return throw_new(lacks ? "java/lang/NoSuchMethodException" : "java/lang/IllegalAccessException", "no such method: %s.%s%s",
                     dotted(named->name), name, descriptor_of(type));
}

NATIVE(find_virtual) { return find(args[0].a, REF_invokeVirtual, args[1].a, text_of(args[2].a), args[3].a); }
NATIVE(find_static) { return find(args[0].a, REF_invokeStatic, args[1].a, text_of(args[2].a), args[3].a); }
NATIVE(find_constructor) { return find(args[0].a, REF_newInvokeSpecial, args[1].a, "<init>", args[2].a); }

/* ---- MethodHandles */

NATIVE(constant) { return args[0].a ? of_ref(adapt_constant(mirror_class(args[0].a), args[1].a)) : throw_null(); }
NATIVE(identity) { return args[0].a ? of_ref(adapt_identity(mirror_class(args[0].a))) : throw_null(); }
NATIVE(filter_return_value) { return of_ref(adapt_filter_result(args[0].a, args[1].a)); }
NATIVE(guard_with_test) { return of_ref(adapt_guard(args[0].a, args[1].a, args[2].a)); }
NATIVE(insert_arguments) { return of_ref(adapt_insert(args[0].a, args[1].i, DATA(args[2].a, Object *), args[2].a->length)); }

NATIVE(drop_arguments) {
    Class *types[256];
    uint32_t count = args[2].a->length;
    if (count > 255) return throw_new("java/lang/IllegalArgumentException", "too many arguments");
    for (uint32_t i = 0; i < count; i++) types[i] = mirror_class(DATA(args[2].a, Object *)[i]);
    return of_ref(adapt_drop(args[0].a, args[1].i, types, count));
}

/* ---- CallSite */

NATIVE(set_target) { return set_call_site_target(args[0].a, args[1].a), NOTHING; }

NATIVE(uninitialized) {
    Frame *frame = java_caller(0);
    return of_ref(adapt_throw(descriptor_of(args[1].a), frame ? frame->method->cls->loader : BOOT_LOADER));
}

NATIVE(dynamic_invoker) {
    Object *target = get_field(args[0].a, "target", NULL).a;
    return of_ref(new_handle((Handle){.kind = HANDLE_INVOKER, .of = args[0].a}, handle_type(target), handle_loader(target)));
}

/* ---- SwitchPoint: after its fields stands the machine's own */

static SwitchPoint **place_of(Object *object) { return &AT(object, boot_class("java/lang/invoke/SwitchPoint")->size - 8, SwitchPoint *); }

SwitchPoint *switch_point_of(Object *object) { return *place_of(object); }

NATIVE(new_switch_point) {
    SwitchPoint *made = link_new_switch_point(args[0].a);
    if (!made) return throw_new("java/lang/OutOfMemoryError", "switch points");
    *place_of(args[0].a) = made;
    return NOTHING;
}

NATIVE(is_invalid) { return of_int(link_is_invalid(switch_point_of(args[0].a))); }

NATIVE(guard_by_switch_point) {
    Object *target = args[1].a, *fallback = args[2].a;
    if (!target || !fallback) return throw_null();
    const char *type = handle_type(target);
    if (type != handle_type(fallback))
        return throw_new("java/lang/invoke/WrongMethodTypeException", "target and fallback types must match: %s != %s", type, handle_type(fallback));
    Handle guard = {.kind = HANDLE_GUARD, .first = target, .fallback = fallback, .of = args[0].a};
    return of_ref(new_handle(guard, type, handle_loader(target)));
}

NATIVE(invalidate_all) {
    Object *list = args[0].a;
    if (!list) return throw_null();
    SwitchPoint **which = malloc((list->length + 1) * sizeof *which);
    for (uint32_t i = 0; i < list->length; i++) {
        Object *one = DATA(list, Object *)[i];
        if (!one) return free(which), throw_null();
        which[i] = switch_point_of(one);
    }
    link_invalidate(which, list->length);
    free(which);
    return NOTHING;
}

#define HANDLES "java/lang/invoke/MethodHandles"
#define LOOKUP "java/lang/invoke/MethodHandles$Lookup"
#define CALL_SITE "java/lang/invoke/CallSite"
#define SWITCH_POINT "java/lang/invoke/SwitchPoint"

const NativeRow invoke_natives[] = {
    {HANDLES, "lookup", NULL, lookup}, {HANDLES, "privateLookupIn", NULL, private_lookup}, {HANDLES, "<clinit>", NULL, native_nothing},
    {HANDLES, "arrayElementVarHandle", NULL, array_var_handle}, {HANDLES, "byteArrayViewVarHandle", NULL, bytes_var_handle},
    {HANDLES, "constant", NULL, constant}, {HANDLES, "identity", NULL, identity}, {HANDLES, "guardWithTest", NULL, guard_with_test},
    {HANDLES, "insertArguments", NULL, insert_arguments}, {HANDLES, "filterReturnValue", NULL, filter_return_value},
    {HANDLES, "dropArguments", "(Ljava/lang/invoke/MethodHandle;I[Ljava/lang/Class;)Ljava/lang/invoke/MethodHandle;", drop_arguments},
    {LOOKUP, "<clinit>", NULL, native_nothing}, {LOOKUP, "findVirtual", NULL, find_virtual}, {LOOKUP, "findStatic", NULL, find_static},
    {LOOKUP, "findConstructor", NULL, find_constructor}, {LOOKUP, "findVarHandle", NULL, find_var_handle},
    {LOOKUP, "findStaticVarHandle", NULL, find_static_var_handle},
    {CALL_SITE, "<clinit>", NULL, native_nothing}, {CALL_SITE, "makeUninitializedCallSite", NULL, uninitialized},
    {CALL_SITE, "makeDynamicInvoker", NULL, dynamic_invoker}, {CALL_SITE, "setTargetNormal", NULL, set_target},
    {CALL_SITE, "setTargetVolatile", NULL, set_target},
    {"java/lang/invoke/MethodHandleNatives$CallSiteContext", "make", NULL, native_nothing},
    {SWITCH_POINT, "<clinit>", NULL, native_nothing}, {SWITCH_POINT, "<init>", NULL, new_switch_point},
    {SWITCH_POINT, "hasBeenInvalidated", NULL, is_invalid}, {SWITCH_POINT, "guardWithTest", NULL, guard_by_switch_point},
    {SWITCH_POINT, "invalidateAll", NULL, invalidate_all},
    {NULL, NULL, NULL, NULL}};
