/* Exceptions: how the machine throws them, and stack traces. */
#include "vm.h"
#include <stdarg.h>

Slot throw_object(Object *exception) {
    self->exception = exception;
    return NOTHING;
}

/* As java.lang.String, of java/lang/String. */
const char *dotted(const char *name) {
    char text[1024];
    size_t i = 0;
    for (; name[i] && i < sizeof text - 1; i++) text[i] = name[i] == '/' ? '.' : name[i];
    text[i] = 0;
    return intern(text);
}

/* As java/lang/String, of java.lang.String. */
const char *slashed(const char *name) {
    char text[1024];
    size_t i = 0;
    for (; name[i] && i < sizeof text - 1; i++) text[i] = name[i] == '.' ? '/' : name[i];
    text[i] = 0;
    return intern(text);
}

Slot throw_new(const char *name, const char *format, ...) {
    char text[2048];
    va_list list;
    va_start(list, format);
    if (format) vsnprintf(text, sizeof text, format, list);
    va_end(list);
    Class *cls = boot_class(name);
    if (!init_class(cls)) return NOTHING;
    Object *exception = new_object(cls);
    Slot args[2] = {of_ref(exception), of_ref(format ? new_string(text) : NULL)};
    Method *with_text = format ? declared(cls, "<init>", "(Ljava/lang/String;)V") : NULL;
    if (!with_text) with_text = format ? declared(cls, "<init>", "(Ljava/lang/Object;)V") : NULL; /* as AssertionError has it */
    invoke(with_text ? with_text : must_declare(cls, "<init>", "()V"), args, with_text ? 2 : 1);
    if (!self->exception) self->exception = exception;
    return NOTHING;
}

Slot throw_null(void) { return throw_new("java/lang/NullPointerException", NULL); }

Slot throw_wrapped(const char *name, Object *cause) {
    Class *cls = boot_class(name);
    if (!init_class(cls)) return NOTHING;
    Object *wrapped = new_object(cls);
    Slot args[2] = {of_ref(wrapped), of_ref(cause)};
    invoke(must_declare(cls, "<init>", "(Ljava/lang/Throwable;)V"), args, 2);
    return self->exception ? NOTHING : throw_object(wrapped);
}

static const char *module_of(Class *cls) {
    while (cls->element) cls = cls->element;
    return cls->loader != BOOT_LOADER ? "in unnamed module of loader 'app'" : "in module java.base of loader 'bootstrap'";
}

void throw_cast(Object *object, Class *to) {
    char text[1024];
    const char *from = dotted(object->cls->name);
    if (!strcmp(module_of(object->cls), module_of(to)))
        snprintf(text, sizeof text, "%s and %s are %s", from, dotted(to->name), module_of(to));
    else snprintf(text, sizeof text, "%s is %s; %s is %s", from, module_of(object->cls), dotted(to->name), module_of(to));
    throw_new("java/lang/ClassCastException", "class %s cannot be cast to class %s (%s)", from, dotted(to->name), text);
}

/* ---- stack traces: the backtrace is an array of long, a method and a pc for each frame */

static bool is_throwables(Frame *frame, Object *exception) {
    const char *name = frame->method->name;
    return (!strcmp(name, "<init>") || !strcmp(name, "fillInStackTrace")) && frame->locals[0].a == exception
        && is_subclass(frame->method->cls, vm.throwable);
}

Slot fill_in_stack_trace(Slot *args) {
    Object *exception = args[0].a;
    uint32_t depth = self->depth, count = 0, limit = 1024;
    while (depth && is_throwables(&self->frames[depth - 1], exception)) depth--;
    Object *trace = new_array(vm.arrays['J'], (int32_t)(depth < limit ? depth : limit) * 2);
    for (; depth && count < limit; depth--) {
        Frame *frame = &self->frames[depth - 1];
        if (frame->method->hidden || frame->method->cls->hidden) continue;
        DATA(trace, int64_t)[2 * count] = (int64_t)(intptr_t)frame->method;
        DATA(trace, int64_t)[2 * count + 1] = frame->method->code ? frame->pc - frame->method->code : -2;
        count++;
    }
    set_field(exception, "backtrace", NULL, of_ref(trace));
    set_field(exception, "depth", NULL, of_int((int32_t)count));
    set_field(exception, "stackTrace", NULL, get_static(vm.throwable, "UNASSIGNED_STACK", NULL));
    return of_ref(exception);
}

Slot init_stack_trace_elements(Slot *args) {
    Object *elements = args[0].a, *trace = get_field(args[1].a, "backtrace", NULL).a;
    for (uint32_t i = 0; trace && i < elements->length; i++) {
        Object *one = DATA(elements, Object *)[i];
        Method *method = (Method *)(intptr_t)DATA(trace, int64_t)[2 * i];
        int64_t pc = DATA(trace, int64_t)[2 * i + 1];
        set_field(one, "declaringClassObject", NULL, of_ref(method->cls->mirror));
        set_field(one, "declaringClass", NULL, of_ref(string_of(dotted(method->cls->name))));
        set_field(one, "methodName", NULL, of_ref(string_of(method->name)));
        if (method->cls->source) set_field(one, "fileName", NULL, of_ref(string_of(method->cls->source)));
        set_field(one, "lineNumber", NULL, of_int(method->flags & ACC_NATIVE ? -2 : line_of(method, (int)pc)));
        if (method->cls->loader == BOOT_LOADER) set_field(one, "moduleName", NULL, of_ref(string_of("java.base")));
        else if (method->cls->loader == CLASS_PATH_LOADER) set_field(one, "classLoaderName", NULL, of_ref(string_of("app")));
    }
    return NOTHING;
}

Frame *java_caller(int above) {
    for (uint32_t depth = self->depth; depth; depth--) {
        Frame *frame = &self->frames[depth - 1];
        if (frame->method->hidden || frame->method->cls->hidden) continue;
        if (!strncmp(frame->method->cls->name, "jdk/internal/reflect/", 21) && above) continue;
        if (!strcmp(frame->method->name, "invoke") && !strcmp(frame->method->cls->name, "java/lang/reflect/Method")) continue;
        if (above-- == 0) return frame;
    }
    return NULL;
}
