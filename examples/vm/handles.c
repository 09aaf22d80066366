/* java.lang.invoke: MethodHandle, CallSite and bootstrap methods. See handles.h for what a handle is.
 *
 * What a reference resolves to, and which method runs on a receiver, the linker says (link_resolve, link_select).
 *
 * A target of the linker's is a static method, a guard or an invoker. A guard and an invoker are called by a class that the machine writes, with
 * one invokedynamic, which is bound to a constant call site with the handle's target: so the linker says what it runs, now, and drops the link
 * when a switch point becomes invalid or a call site gets another target. Where a direct handle has to be a target a class is written, too,
 * with one invocation. */
#include "handles.h"

#define HANDLE "java/lang/invoke/MethodHandle"
#define CALL_SITE "java/lang/invoke/CallSite"
#define WRONG_TYPE "java/lang/invoke/WrongMethodTypeException"

Handle *handle_of(Object *object) { return &AT(object, object->cls->size - HANDLE_ROOM, Handle); }

static bool is_handle(Object *object) { return !strcmp(object->cls->name, HANDLE); }

void mark_handle(Object *object) {
    Handle *handle = handle_of(object);
    if (handle->method) mark_method_loader(handle->method);
    if (handle->resolved) mark_method_loader(handle->resolved);
    mark(handle->first);
    mark(handle->fallback);
    mark(handle->of);
}

/* Of a call site to which an invokedynamic is bound whose class stays. */
void mark_call_site(CallSite *call_site) { mark(call_site->object); }

/* ---- types */

const char *descriptor_of(Object *method_type) {
    char text[4096] = "(", *at = text + 1;
    Object *parameters = get_field(method_type, "ptypes", NULL).a;
    for (uint32_t i = 0; i <= parameters->length; i++) {
        Class *one = mirror_class(i < parameters->length ? DATA(parameters, Object *)[i] : get_field(method_type, "rtype", NULL).a);
        if (i == parameters->length) *at++ = ')';
        if (one->primitive) *at++ = one->primitive, *at = 0;
        else at += snprintf(at, (size_t)(text + sizeof text - at), *one->name == '[' ? "%s" : "L%s;", one->name);
    }
    return intern(text);
}

Object *method_type_of(const char *type, uint32_t loader) {
    Class *cls = boot_class("java/lang/invoke/MethodType"), *one;
    int count = 0;
    for (const char *at = type + 1; *at != ')'; at = next_type(at)) count++;
    Object *parameters = new_array_of("[Ljava/lang/Class;", count);
    count = 0;
    for (const char *at = type + 1; *at != ')'; at = next_type(at)) {
        if (!(one = class_of_type(at, (size_t)(next_type(at) - at), loader))) return NULL;
        DATA(parameters, Object *)[count++] = one->mirror;
    }
    const char *result = strchr(type, ')') + 1;
    if (!(one = class_of_type(result, strlen(result), loader)) || !init_class(cls)) return NULL;
    Slot args[2] = {of_ref(one->mirror), of_ref(parameters)};
    return invoke(must_declare(cls, "methodType", "(Ljava/lang/Class;[Ljava/lang/Class;)Ljava/lang/invoke/MethodType;"), args, 2).a;
}

const char *handle_type(Object *handle) { return handle_of(handle)->type; }

static Slot wrong_type(const char *type, const char *wanted) { return throw_new(WRONG_TYPE, "expected %s but found %s", wanted, type); }

/* ---- handles */

Object *new_handle(Handle handle, const char *type, uint32_t loader) {
    _Static_assert(sizeof(Handle) <= HANDLE_ROOM, "a MethodHandle has room for it");
    Object *method_type = method_type_of(type, loader);
    if (!method_type) return NULL;
    Object *made = new_object(boot_class(HANDLE));
    handle.type = intern(type);
    *handle_of(made) = handle;
    set_field(made, "type", NULL, of_ref(method_type));
    return made;
}

/* In which the classes of its type are found. */
uint32_t handle_loader(Object *object) {
    Handle *handle = handle_of(object);
    switch (handle->kind) {
        case HANDLE_METHOD: return handle->method->cls->loader;
        case HANDLE_DIRECT: return mirror_class(handle->of)->loader;
        case HANDLE_GUARD: {
            uint32_t loader = handle_loader(handle->first);
            return loader == BOOT_LOADER ? handle_loader(handle->fallback) : loader;
        }
        default: return handle_loader(get_field(handle->of, "target", NULL).a);
    }
}

/* An array has the methods of java/lang/Object (JLS 10.7). */
static Method *resolve(Class *from, Class *named, const char *name, const char *type) {
    Method *method = named->element ? declared(vm.object, name, type) : link_resolve(from, named, name, type);
    if (!self->exception && (!method || (*name == '<' && method->cls != named)))
        throw_new("java/lang/NoSuchMethodError", "%s.%s%s", dotted(named->name), name, type);
    return self->exception ? NULL : method;
}

Object *make_direct(Class *from, Class *named, uint16_t reference_kind, const char *name, const char *type) {
    Method *method = resolve(from, named, name, type);
    if (!method) return NULL;
    if ((reference_kind == REF_invokeStatic) != ((method->flags & ACC_STATIC) != 0))
        return throw_new("java/lang/IncompatibleClassChangeError", "%s.%s%s", dotted(named->name), name, type).a;
    if (reference_kind == REF_invokeStatic)
        return new_handle((Handle){.kind = HANDLE_METHOD, .method = method}, method->type, method->cls->loader);
    Handle handle = {.kind = HANDLE_DIRECT, .resolved = method, .of = named->mirror};
    return new_handle(handle, bridge_type(reference_kind, named->name, type), named->loader);
}

Object *method_handle_of(Class *cls, uint16_t index) {
    Constant *handle = &cls->constants[index], *member = &cls->constants[handle->b], *pair = &cls->constants[member->b];
    Class *named = resolve_class(cls, member->a);
    if (!named) return NULL;
    if (handle->a < REF_invokeVirtual || handle->a == REF_invokeSpecial)
        return throw_new("java/lang/UnsupportedOperationException", "a method handle of kind %d", handle->a).a;
    return make_direct(cls, named, handle->a, constant_text(cls, pair->a), constant_text(cls, pair->b));
}

/* ---- targets */

static CallSite *call_site_of(Object *object);
static Method *method_of(Object *object);

static size_t target_of(Object *object, Target *target, size_t room) {
    Handle *handle = handle_of(object);
    if (room == 0) return 0;
    switch (handle->kind) {
        case HANDLE_METHOD: case HANDLE_DIRECT:
            *target = (Target){.kind = TARGET_METHOD, .method = method_of(object)};
            return target->method ? 1 : 0;
        case HANDLE_INVOKER: *target = (Target){.kind = TARGET_INVOKER, .call_site = call_site_of(handle->of)}; return target->call_site ? 1 : 0;
        case HANDLE_GUARD: break;
    }
    *target = (Target){.kind = TARGET_GUARD, .switch_point = switch_point_of(handle->of)};
    size_t first = target_of(handle->first, target + 1, room - 1);
    size_t fallback = first ? target_of(handle->fallback, target + 1 + first, room - 1 - first) : 0;
    return fallback ? 1 + first + fallback : 0;
}

static Slot too_many(void) { return throw_new("java/lang/OutOfMemoryError", "call sites, or parts of a target"), NOTHING; }

/* The invocation of a direct handle. By a constructor it makes the object, too. */
static void write_invocation(Writer *w, Class *named, const Method *method) {
    bool interface = named->flags & ACC_INTERFACE;
    uint8_t opcode = *method->name == '<' ? OP_invokespecial : interface ? OP_invokeinterface : OP_invokevirtual;
    write_call(w, opcode, interface ? CONSTANT_InterfaceMethodref : CONSTANT_Methodref, named->name, method->name, method->type);
}

/* A static method of a class that is written for the handle; NULL with an exception. */
static Method *write_method(Object *object) {
    static uint32_t made;
    Handle *handle = handle_of(object);
    Class *named = handle->kind == HANDLE_DIRECT ? mirror_class(handle->of) : NULL;
    const char *type = handle_type(object), *slash = named && !named->element ? strrchr(named->name, '/') : NULL;
    char name[1024];
    Writer *w = new_writer(1);
    if (named && *handle->resolved->name == '<') op2(w, OP_new, class_constant(w, named->name)), op(w, OP_dup);
    uint16_t locals = write_load_all(w, type, 0);
    if (named) write_invocation(w, named, handle->resolved);
    else write_dynamic(w, type);
    write_return(w, strchr(type, ')')[1]);
    end_method(w, ACC_PUBLIC | ACC_STATIC, "call", type, locals);
    snprintf(name, sizeof name, "%.*slinkd$Handle$%u", slash ? (int)(slash + 1 - named->name) : 0, slash ? named->name : "",
             __atomic_add_fetch(&made, 1, __ATOMIC_RELAXED));
    Class *cls = define_written(w, name, NULL, 0, handle_loader(object));
    return cls && init_class(cls) ? declared(cls, "call", type) : NULL;
}

/* A static method that does what the handle does. */
static Method *method_of(Object *object) {
    Handle *handle = handle_of(object);
    Method *method = ACQUIRE(handle->method);
    if (method || !(method = write_method(object))) return method;
    if (handle->kind != HANDLE_DIRECT) {
        prepare_code(method);
        if (!bind_handle(&method->sites[0], object, method->cls->loader)) return NULL;
    }
    RELEASE(handle->method, method);
    return method;
}

bool bind_handle(Site *site, Object *handle, uint32_t loader) {
    Target target[MOST_PARTS];
    size_t count = target_of(handle, target, MOST_PARTS);
    if (self->exception) return false;
    CallSite *call_site = count ? link_new_call_site(CONSTANT_SITE, handle_type(handle), target, count, loader, handle) : NULL;
    if (!call_site) return too_many(), false;
    return link_bind(site, call_site) || (too_many(), false);
}

/* ---- call sites: the linker's is made when one is first bound or invoked */

static CallSite **call_site_place(Object *object) {
    Class *cls = object->cls;
    while (strcmp(cls->name, CALL_SITE)) cls = cls->super;
    return &AT(object, cls->size - 8, CallSite *);
}

static enum call_site_kind kind_of(Object *object) {
    if (is_subclass(object->cls, boot_class("java/lang/invoke/ConstantCallSite"))) return CONSTANT_SITE;
    return is_subclass(object->cls, boot_class("java/lang/invoke/MutableCallSite")) ? MUTABLE_SITE : VOLATILE_SITE;
}

/* A target that the linker takes: where it doesn't take this one, a method that calls it. */
static size_t plain_target(Object *handle, Target *target) {
    Method *method = method_of(handle);
    *target = (Target){.kind = TARGET_METHOD, .method = method};
    return method ? 1 : 0;
}

static CallSite *call_site_of(Object *object) {
    Target target[MOST_PARTS];
    CallSite **place = call_site_place(object), *known = ACQUIRE(*place);
    if (known) return known;
    Object *handle = get_field(object, "target", NULL).a;
    const char *type = handle_type(handle);
    enum call_site_kind kind = kind_of(object);
    size_t count = target_of(handle, target, MOST_PARTS);
    if (!count) count = plain_target(handle, target);
    if (!count) return NULL;
    lock();
    if (!(known = *place)) {
        known = link_new_call_site(kind, type, target, count, MOST_LOADERS, object);
        RELEASE(*place, known);
    }
    unlock();
    if (!known && !self->exception) too_many();
    return known;
}

bool set_call_site_target(Object *object, Object *handle) {
    Target target[MOST_PARTS];
    const char *type = handle_type(get_field(object, "target", NULL).a), *given = handle_type(handle);
    if (type != given) return wrong_type(given, type), false;
    size_t count = target_of(handle, target, MOST_PARTS);
    if (self->exception) return false;
    lock();
    CallSite *call_site = *call_site_place(object);
    bool taken = !call_site || (count && link_set_target(call_site, target, count));
    if (taken) set_field(object, "target", NULL, of_ref(handle));
    unlock();
    if (taken) return true;
    if (!plain_target(handle, target)) return false;
    lock();
    taken = link_set_target(call_site, target, 1);
    if (taken) set_field(object, "target", NULL, of_ref(handle));
    unlock();
    if (!taken) too_many();
    return taken;
}

/* ---- calls */

static bool convert(Slot from, const char *from_type, const char *to_type, Slot *to) {
    *to = from;
    if (*from_type == 'V') *to = NOTHING;
    if (*from_type == 'V' || *to_type == 'V') return true;
    if (is_primitive(*to_type) && is_primitive(*from_type)) {
        Object *boxed = *from_type == *to_type ? NULL : box(*from_type, from);
        if (!boxed || unbox(boxed, *to_type, to)) return !self->exception;
    } else if (is_primitive(*from_type)) return to->a = box(*from_type, from), !self->exception;
    else if (!is_primitive(*to_type)) return true;
    else if (!from.a) return throw_null(), false;
    else if (unbox(from.a, *to_type, to)) return true;
    throw_new("java/lang/ClassCastException", "Cannot cast %s to %.1s", *from_type == 'L' && from.a ? dotted(from.a->cls->name) : from_type, to_type);
    return false;
}

static Slot construct(Method *method, Slot *args, int count) {
    Slot list[260];
    if (!init_class(method->cls)) return NOTHING;
    if (method->cls->flags & ACC_ABSTRACT) return throw_new("java/lang/InstantiationException", "%s", dotted(method->cls->name));
    list[0] = of_ref(new_object(method->cls));
    memcpy(list + 1, args, (size_t)count * sizeof *args);
    invoke(method, list, count + 1);
    return list[0];
}

/* With arguments of the handle's own descriptor. */
static Slot run_handle(Object *object, Slot *args, int count) {
    Handle *handle = handle_of(object);
    if (handle->kind != HANDLE_DIRECT) {
        Method *method = method_of(object);
        return method && init_class(method->cls) ? invoke(method, args, count) : NOTHING;
    }
    Method *method = handle->resolved;
    if (*method->name == '<') return construct(method, args, count);
    if (is_polymorphic(method)) return args[0].a ? call_polymorphic(method->name, method->type, args) : throw_null();
    method = link_select(method, args[0].a);
    return method ? invoke(method, args, count) : NOTHING;
}

static Slot call_converted(Object *handle, const char *type, Slot *args) {
    Slot list[260], result;
    int count = 0;
    const char *own = handle_type(handle), *to = own + 1, *from = type + 1;
    for (; *from != ')' && *to != ')'; from = next_type(from), to = next_type(to)) {
        if (!convert(*args, from, to, &list[count])) return NOTHING;
        args += width_of(*from);
        count += width_of(*to);
    }
    if (*from != *to) return wrong_type(type, own);
    result = run_handle(handle, list, count);
    if (!self->exception) convert(result, to + 1, from + 1, &result);
    return result;
}

/* With conversions from and to this descriptor. */
static Slot call_handle(Object *handle, const char *type, Slot *args) {
    return handle_type(handle) == type ? run_handle(handle, args, slots_of(type)) : call_converted(handle, type, args);
}

static Slot call_with_arguments(Object *handle, Object *list) {
    char text[1024], *at = text;
    const char *type = handle_type(handle), *result = strchr(type, ')') + 1;
    uint32_t count = list ? list->length : 0, wanted = 0;
    Slot args[256];
    for (const char *one = type + 1; *one != ')'; one = next_type(one)) wanted++;
    if (count != wanted || count > 50) return throw_new(WRONG_TYPE, "cannot convert MethodHandle%s to %u arguments", type, count);
    at += snprintf(at, 2, "(");
    for (uint32_t i = 0; i < count; i++) {
        args[i] = of_ref(DATA(list, Object *)[i]);
        at += snprintf(at, 20, "Ljava/lang/Object;");
    }
    snprintf(at, 24, *result == 'V' ? ")V" : ")Ljava/lang/Object;");
    Slot given = call_handle(handle, text, args);
    return *result == 'V' ? NOTHING : given;
}

/* ---- methods of VarHandle and MethodHandle, which no site of the linker names */

bool is_polymorphic(Method *method) {
    return method->cls->loader == BOOT_LOADER && !(method->flags & ACC_STATIC)
        && (!strcmp(method->cls->name, HANDLE) || !strcmp(method->cls->name, "java/lang/invoke/VarHandle"));
}

static Slot handle_call(const char *name, const char *type, Slot *args) {
    Object *handle = args[0].a;
    if (!strcmp(name, "invokeExact") && handle_type(handle) != type) return wrong_type(type, handle_type(handle));
    if (!strncmp(name, "invoke", 7) || !strcmp(name, "invokeExact")) return call_handle(handle, type, args + 1);
    if (!strcmp(name, "type")) return get_field(handle, "type", NULL);
    if (!strcmp(name, "asType")) return of_ref(adapt_type(handle, descriptor_of(args[1].a)));
    if (!strcmp(name, "bindTo")) return of_ref(adapt_insert(handle, 0, &args[1].a, 1));
    if (!strcmp(name, "isVarargsCollector")) return of_int(0);
    if (!strcmp(name, "asFixedArity")) return of_ref(handle);
    if (!strcmp(name, "invokeWithArguments") && !strncmp(type, "([", 2)) return call_with_arguments(handle, args[1].a);
    return throw_new("java/lang/UnsupportedOperationException", "MethodHandle.%s", name);
}

Slot call_polymorphic(const char *name, const char *type, Slot *args) {
    return is_handle(args[0].a) ? handle_call(name, type, args) : variable_call(name, args[0].a, args);
}

Slot polymorphic_call(Site *site, Slot *args) {
    Class *cls = site->caller->cls;
    Constant *reference = site_reference(site), *pair = &cls->constants[reference->b];
    const char *name = constant_text(cls, pair->a), *type = constant_text(cls, pair->b);
    if (site->opcode == OP_invokestatic) return throw_new("java/lang/UnsupportedOperationException", "%s", name);
    return args[0].a ? call_polymorphic(name, type, args) : throw_null();
}

/* ---- bootstrap methods (5.4.3.6) */

static bool static_argument(Class *cls, uint16_t index, Object **value) {
    Constant *constant = &cls->constants[index];
    static const char letters[] = {[CONSTANT_Integer] = 'I', [CONSTANT_Float] = 'F', [CONSTANT_Long] = 'J', [CONSTANT_Double] = 'D'};
    if (constant->tag == CONSTANT_Class) {
        Class *named = resolve_class(cls, index);
        *value = named ? named->mirror : NULL;
    } else if (!resolve_constant(cls, index)) return false;
    else if (constant->tag < sizeof letters && letters[constant->tag]) *value = box(letters[constant->tag], constant->is.value);
    else *value = constant->is.value.a;
    return !self->exception;
}

static Object *lookup_of(Class *cls) {
    Object *made = new_object(boot_class("java/lang/invoke/MethodHandles$Lookup"));
    set_field(made, "lookupClass", NULL, of_ref(cls->mirror));
    set_field(made, "allowedModes", NULL, of_int(FULL_POWER));
    return made;
}

/* The CallSite that the bootstrap method gives. */
static Object *run_bootstrap(Class *cls, const Bootstrap *bootstrap, const char *name, const char *type) {
    Object *handle = resolve_constant(cls, bootstrap->handle) ? cls->constants[bootstrap->handle].is.value.a : NULL;
    if (!handle) return NULL;
    Object *list = new_array_of("[Ljava/lang/Object;", 3 + bootstrap->count);
    DATA(list, Object *)[0] = lookup_of(cls);
    DATA(list, Object *)[1] = string_of(name);
    if (!(DATA(list, Object *)[2] = method_type_of(type, cls->loader))) return NULL;
    for (uint16_t i = 0; i < bootstrap->count; i++)
        if (!static_argument(cls, u2(bootstrap->args + 2 * i), &DATA(list, Object *)[3 + i])) return NULL;
    return call_with_arguments(handle, list).a;
}

bool dynamic_by_bootstrap(Site *site) {
    Class *cls = site->caller->cls;
    Constant *named = site_reference(site), *pair = &cls->constants[named->b];
    const char *type = constant_text(cls, pair->b);
    Object *made = run_bootstrap(cls, &cls->bootstraps[named->a], constant_text(cls, pair->a), type);
    if (!self->exception && (!made || !is_subclass(made->cls, boot_class(CALL_SITE))))
        throw_new("java/lang/ClassCastException", "the bootstrap method gives no call site");
    CallSite *call_site = self->exception ? NULL : call_site_of(made);
    if (call_site && !link_bind(site, call_site)) wrong_type(handle_type(get_field(made, "target", NULL).a), type);
    if (!self->exception || is_subclass(self->exception->cls, boot_class("java/lang/Error"))) return !self->exception;
    Object *cause = self->exception;
    self->exception = NULL;
    throw_wrapped("java/lang/BootstrapMethodError", cause);
    return false;
}
