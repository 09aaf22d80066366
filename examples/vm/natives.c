/* How native methods are found, and which methods with a body are natives here. */
#include "vm.h"

static const NativeRow *const tables[] = {lang_natives, system_natives, class_natives, member_natives, unsafe_natives, file_natives, nio_natives,
    invoke_natives};


Slot native_nothing(Slot *args) { (void)args; return NOTHING; }
Slot native_yes(Slot *args) { (void)args; return of_int(1); }

static Native native_row(Method *method) {
    for (size_t i = 0; i < sizeof tables / sizeof *tables; i++)
        for (const NativeRow *row = tables[i]; row->cls; row++)
            if (!strcmp(row->name, method->name) && !strcmp(row->cls, method->cls->name) && (!row->type || !strcmp(row->type, method->type)))
                return row->native;
    return NULL;
}

Native find_native(Method *method) {
    Native native = method->cls->loader == BOOT_LOADER ? native_row(method) : NULL;
    if (native) return native;
    if (!strcmp(method->type, "()V") && (!strcmp(method->name, "registerNatives") || !strncmp(method->name, "init", 4))) return native_nothing;
    throw_new("java/lang/UnsatisfiedLinkError", "%s.%s%s", method->cls->name, method->name, method->type);
    if (vm.trace) fprintf(stderr, "vm: no native %s.%s%s\n", method->cls->name, method->name, method->type);
    return NULL;
}

/* Of these classes alone. */
void replace_methods(Class *cls) {
    static const char *const names[] = {"java/lang/invoke/MethodHandles", "java/lang/invoke/MethodHandles$Lookup", "java/lang/invoke/SwitchPoint",
        "java/lang/invoke/CallSite", "java/lang/invoke/MethodHandleNatives$CallSiteContext",
        "jdk/internal/loader/BootLoader", "java/lang/System", "jdk/internal/misc/UnsafeConstants",
        "java/lang/Terminator", "java/lang/ref/Finalizer", "java/lang/StackTraceElement", "java/lang/Math", "java/lang/Thread",
        "jdk/internal/reflect/MethodAccessorGenerator", "java/nio/file/spi/FileSystemProvider"};
    for (size_t i = 0; i < sizeof names / sizeof *names; i++) {
        if (strcmp(names[i], cls->name)) continue;
        for (uint16_t j = 0; j < cls->method_count; j++) {
            Method *method = &cls->methods[j];
            if (!(method->flags & ACC_NATIVE) && (method->native = native_row(method))) method->flags |= ACC_NATIVE;
        }
    }
}
