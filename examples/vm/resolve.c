/* Resolution of classes, fields and constants (5.4.3), and initialization (5.5). Methods are the linker's. */
#include "vm.h"

bool is_subclass(Class *below, Class *above) {
    if (below == above) return true;
    if (above->element) {
        if (!below->element || above->element->primitive || below->element->primitive) return false;
        return is_subclass(below->element, above->element);
    }
    if (above->flags & ACC_INTERFACE) {
        for (uint32_t i = 0; i < below->all_interface_count; i++)
            if (below->all_interfaces[i] == above) return true;
        return false;
    }
    return !below->primitive && !above->primitive && above->depth <= below->depth && below->ancestors[above->depth] == above;
}

/* ---- resolution */

/* What the machine itself has written may name all. */
static bool is_accessible(Class *cls, Class *to) {
    while (cls->element) cls = cls->element;
    return cls->primitive || to->hidden || link_accessible(to, cls);
}

/* What was resolved is seen by who sees `resolved`. */
static void keep(Constant *constant, Slot value) {
    lock();
    if (!constant->resolved) {
        constant->is.value = value;
        RELEASE(constant->resolved, true);
    }
    unlock();
}

Class *resolve_class(Class *cls, uint16_t index) {
    Constant *constant = &cls->constants[index];
    if (ACQUIRE(constant->resolved)) return constant->is.cls;
    Class *named = load_class(constant_text(cls, constant->a), cls->loader);
    if (!named) return NULL;
    if (!is_accessible(named, cls)) {
        throw_new("java/lang/IllegalAccessError", "failed to access class %s from class %s", dotted(named->name), dotted(cls->name));
        return NULL;
    }
    keep(constant, (Slot){.a = (Object *)named});
    return named;
}

Field *resolve_field(Class *cls, uint16_t index, bool is_static) {
    Constant *constant = &cls->constants[index], *name = &cls->constants[constant->b];
    if (ACQUIRE(constant->resolved)) return constant->is.field;
    Class *named = resolve_class(cls, constant->a);
    if (!named) return NULL;
    Field *field = find_field(named, constant_text(cls, name->a), constant_text(cls, name->b));
    if (!field) throw_new("java/lang/NoSuchFieldError", "%s", constant_text(cls, name->a));
    else if (!(field->flags & ACC_STATIC) == is_static)
        throw_new("java/lang/IncompatibleClassChangeError", "Expected %s field %s.%s", is_static ? "static" : "non-static",
                  dotted(field->cls->name), field->name);
    if (self->exception) return NULL;
    keep(constant, (Slot){.a = (Object *)field});
    return field;
}

bool resolve_constant(Class *cls, uint16_t index) {
    Constant *constant = &cls->constants[index];
    Object *value = NULL;
    if (ACQUIRE(constant->resolved)) return true;
    switch (constant->tag) {
        case CONSTANT_String: value = string_of(constant_text(cls, constant->a)); break;
        case CONSTANT_MethodType: value = method_type_of(constant_text(cls, constant->a), cls->loader); break;
        case CONSTANT_MethodHandle: value = method_handle_of(cls, index); break;
        default: throw_new("java/lang/UnsupportedOperationException", "a constant of tag %d", constant->tag);
    }
    if (self->exception) return false;
    keep(constant, of_ref(value));
    return true;
}

/* ---- initialization */

static void set_state(Class *cls, enum class_state state) {
    lock();
    cls->starter = NULL;
    RELEASE(cls->state, (uint8_t)state);
    lock_notify();
    unlock();
}

static bool failed(Class *cls) {
    set_state(cls, FAILED);
    if (is_subclass(self->exception->cls, boot_class("java/lang/Error"))) return false;
    Object *cause = self->exception;
    self->exception = NULL;
    throw_wrapped("java/lang/ExceptionInInitializerError", cause);
    return false;
}

static bool has_default(Class *cls) {
    for (uint16_t i = 0; i < cls->method_count; i++)
        if (!(cls->methods[i].flags & (ACC_ABSTRACT | ACC_STATIC))) return true;
    return false;
}

static bool init_interfaces(Class *cls) {
    for (uint16_t i = 0; i < cls->interface_count; i++) {
        Class *one = cls->interfaces[i];
        if (ACQUIRE(one->state) == READY) continue;
        if (!init_interfaces(one) || (has_default(one) && !init_class(one))) return false;
    }
    return true;
}

/* The state that it has when this thread may go on: LOADED where this thread has to initialize it. */
static enum class_state await_state(Class *cls) {
    lock();
    while (cls->state == STARTED && cls->starter != self) lock_wait();
    enum class_state state = cls->state;
    if (state == LOADED) {
        SET_RELAXED(cls->state, STARTED);
        cls->starter = self;
    }
    unlock();
    return state;
}

bool init_class(Class *cls) {
    if (ACQUIRE(cls->state) == READY) return true;
    enum class_state state = await_state(cls);
    if (state == FAILED) {
        throw_new("java/lang/NoClassDefFoundError", "Could not initialize class %s", dotted(cls->name));
        return false;
    }
    if (state != LOADED) return true;
    if (!(cls->flags & ACC_INTERFACE) && ((cls->super && !init_class(cls->super)) || !init_interfaces(cls)))
        return set_state(cls, FAILED), false;
    Method *method = declared(cls, "<clinit>", "()V");
    if (method) {
        invoke(method, NULL, 0);
        if (self->exception) return failed(cls);
    }
    set_state(cls, READY);
    return true;
}
