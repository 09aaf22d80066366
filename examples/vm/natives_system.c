/* Native methods of what starts the runtime, and of System, Runtime, Math. */
#include "vm.h"
#include <math.h>
#include <time.h>
#include <unistd.h>

NATIVE(current_time) { struct timespec now; clock_gettime(CLOCK_REALTIME, &now); return of_long(now.tv_sec * 1000 + now.tv_nsec / 1000000); }
NATIVE(nano_time) { return of_long((int64_t)now_ns()); }
NATIVE(nano_adjustment) {
    struct timespec now;
    clock_gettime(CLOCK_REALTIME, &now);
    return of_long((now.tv_sec - args[0].j) * 1000000000 + now.tv_nsec);
}
NATIVE(set_in) { set_static(boot_class("java/lang/System"), "in", NULL, args[0]); return NOTHING; }
NATIVE(set_out) { set_static(boot_class("java/lang/System"), "out", NULL, args[0]); return NOTHING; }
NATIVE(set_err) { set_static(boot_class("java/lang/System"), "err", NULL, args[0]); return NOTHING; }
NATIVE(halt) { end_process(args[0].i); }
NATIVE(collect_now) { collect(false); return NOTHING; }
NATIVE(processors) { return of_int((int32_t)sysconf(_SC_NPROCESSORS_ONLN)); }
NATIVE(free_memory) { return of_long((int64_t)(vm.heap_size - vm.counts.live)); }
NATIVE(total_memory) { return of_long((int64_t)vm.heap_size); }
NATIVE(map_library) {
    char name[512];
    snprintf(name, sizeof name, "lib%s.so", text_of(args[0].a));
    return of_ref(new_string(name));
}

/* ---- properties */

static Object *strings(const char **list, int count) {
    Object *array = new_array_of("[Ljava/lang/String;", count);
    for (int i = 0; i < count; i++) DATA(array, Object *)[i] = new_string(list[i]);
    return array;
}

NATIVE(vm_properties) {
    const char *list[128] = {"java.home", vm.java_home, "java.vm.specification.name", "Java Virtual Machine Specification",
        "java.vm.specification.vendor", "Oracle Corporation", "java.vm.specification.version", "17", "java.vm.name", "linkd vm",
        "java.vm.vendor", "linkd", "java.vm.version", "1", "java.vm.info", "interpreted mode", "java.class.path", vm.class_path,
        "java.class.version", "61.0", "java.library.path", "/usr/lib", "sun.boot.library.path", "/usr/lib", "jdk.debug", "release",
        "sun.nio.MaxDirectMemorySize", "-1", "sun.reflect.inflationThreshold", "2147483647", "java.vm.compressedOopsMode", "none"};
    int count = 0;
    while (list[count]) count += 2;
    for (int i = 0; i < vm.property_count; i++) {
        char *equals = strchr(vm.properties[i], '=');
        list[count++] = strndup(vm.properties[i], strcspn(vm.properties[i], "="));
        list[count++] = equals ? equals + 1 : "";
    }
    return of_ref(strings(list, count + 2));
}

/* By the numbers of SystemProps$Raw. */
NATIVE(platform_properties) {
    const char *list[40] = {[1] = "en", [4] = "UTF-8", [5] = "/", [18] = "/tmp", [19] = "\n", [20] = "amd64", [21] = "Linux",
        [22] = "6.0", [23] = ":", [28] = "64", [29] = "little", [31] = "UnicodeLittle", [32] = "UTF-8", [33] = "unknown"};
    char folder[4096];
    list[36] = getcwd(folder, sizeof folder);
    list[37] = getenv("HOME") ? getenv("HOME") : "/";
    list[38] = getenv("USER") ? getenv("USER") : "user";
    return of_ref(strings(list, 39));
}

/* ---- numbers */

NATIVE(same_bits) { return args[0]; }
#define MATH(name) NATIVE(math_##name) { return (Slot){.d = name(args[0].d)}; }
MATH(sin) MATH(cos) MATH(tan) MATH(asin) MATH(acos) MATH(atan) MATH(log) MATH(log10) MATH(sqrt) MATH(sinh) MATH(cosh) MATH(tanh)
MATH(expm1) MATH(log1p) MATH(exp)
NATIVE(math_pow) {
    double a = args[0].d, b = args[2].d;
    if (b != b || (fabs(a) == 1 && isinf(b))) return (Slot){.d = NAN}; /* where C has 1 */
    return (Slot){.d = pow(a, b)};
}
NATIVE(math_atan2) { return (Slot){.d = atan2(args[0].d, args[2].d)}; }
NATIVE(math_remainder) { return (Slot){.d = remainder(args[0].d, args[2].d)}; }

NATIVE(random_seed) { return of_long(0); }
NATIVE(signal_number) { return of_int(!strcmp(text_of(args[0].a), "INT") ? 2 : !strcmp(text_of(args[0].a), "TERM") ? 15 : 1); }

NATIVE(unsafe_constants) {
    Class *cls = boot_class("jdk/internal/misc/UnsafeConstants");
    set_static(cls, "ADDRESS_SIZE0", NULL, of_int(8));
    set_static(cls, "PAGE_SIZE", NULL, of_int(4096));
    set_static(cls, "UNALIGNED_ACCESS", NULL, of_int(1));
    return NOTHING;
}

static Object *bytes_of(const char *text, size_t length) {
    Object *bytes = new_array(vm.arrays['B'], (int32_t)length);
    memcpy(DATA(bytes, char), text, length);
    return bytes;
}

/* Names and values in turn. */
NATIVE(environ_native) {
    extern char **environ;
    int count = 0;
    while (environ[count]) count++;
    Object *list = new_array_of("[[B", count * 2);
    for (int i = 0; i < count; i++) {
        size_t name = strcspn(environ[i], "="), value = environ[i][name] ? name + 1 : name;
        DATA(list, Object *)[2 * i] = bytes_of(environ[i], name);
        DATA(list, Object *)[2 * i + 1] = bytes_of(environ[i] + value, strlen(environ[i] + value));
    }
    return of_ref(list);
}

/* The JDK's own reader of lib/modules, by which javac reads classes, takes it where the machine has mapped it. */
NATIVE(native_map) {
    Class *cls = boot_class("java/nio/DirectByteBuffer");
    if (!init_class(cls)) return NOTHING;
    Bytes image = image_bytes();
    Object *made = new_object(cls);
    Slot list[4] = {of_ref(made), of_long((int64_t)(intptr_t)image.at), NOTHING, of_int((int32_t)image.length)};
    invoke(must_declare(cls, "<init>", "(JI)V"), list, 4);
    return of_ref(made);
}

static Object *make_plain(const char *name) {
    Class *cls = boot_class(name);
    if (!init_class(cls)) return NULL;
    Object *made = new_object(cls);
    Slot list[1] = {of_ref(made)};
    invoke(must_declare(cls, "<init>", "()V"), list, 1);
    return self->exception ? NULL : made;
}

/* The provider of jrt:/, which the runtime finds by its modules. */
NATIVE(file_system_providers) {
    Object *provider = make_plain("jdk/internal/jrtfs/JrtFileSystemProvider"), *list = provider ? make_plain("java/util/ArrayList") : NULL;
    if (!list) return NOTHING;
    Slot add[2] = {of_ref(list), of_ref(provider)};
    invoke(must_declare(list->cls, "add", "(Ljava/lang/Object;)Z"), add, 2);
    return of_ref(list);
}

NATIVE(library_name) { return args[0]; }

const NativeRow system_natives[] = {
    {"java/lang/System", "currentTimeMillis", NULL, current_time}, {"java/lang/System", "nanoTime", NULL, nano_time},
    {"java/lang/System", "setIn0", NULL, set_in}, {"java/lang/System", "setOut0", NULL, set_out}, {"java/lang/System", "setErr0", NULL, set_err},
    {"java/lang/System", "mapLibraryName", NULL, map_library}, {"java/lang/Shutdown", "halt0", NULL, halt},
    {"java/lang/Runtime", "availableProcessors", NULL, processors}, {"java/lang/Runtime", "freeMemory", NULL, free_memory},
    {"java/lang/Runtime", "totalMemory", NULL, total_memory}, {"java/lang/Runtime", "maxMemory", NULL, total_memory},
    {"jdk/internal/util/SystemProps$Raw", "vmProperties", NULL, vm_properties},
    {"jdk/internal/util/SystemProps$Raw", "platformProperties", NULL, platform_properties}, {"java/lang/Float", "floatToRawIntBits", NULL, same_bits},
    {"java/lang/Float", "intBitsToFloat", NULL, same_bits}, {"java/lang/Double", "doubleToRawLongBits", NULL, same_bits},
    {"java/lang/Double", "longBitsToDouble", NULL, same_bits}, {"java/lang/StrictMath", "sin", NULL, math_sin},
    {"java/lang/StrictMath", "cos", NULL, math_cos}, {"java/lang/StrictMath", "tan", NULL, math_tan},
    {"java/lang/StrictMath", "asin", NULL, math_asin}, {"java/lang/StrictMath", "acos", NULL, math_acos},
    {"java/lang/StrictMath", "atan", NULL, math_atan}, {"java/lang/StrictMath", "log", NULL, math_log},
    {"java/lang/StrictMath", "log10", NULL, math_log10}, {"java/lang/StrictMath", "sqrt", NULL, math_sqrt},
    {"java/lang/StrictMath", "sinh", NULL, math_sinh}, {"java/lang/StrictMath", "cosh", NULL, math_cosh},
    {"java/lang/StrictMath", "tanh", NULL, math_tanh}, {"java/lang/StrictMath", "expm1", NULL, math_expm1},
    {"java/lang/StrictMath", "log1p", NULL, math_log1p}, {"java/lang/StrictMath", "atan2", NULL, math_atan2},
    {"java/lang/StrictMath", "IEEEremainder", NULL, math_remainder}, {"java/lang/Math", "exp", NULL, math_exp},
    {"java/lang/Math", "pow", NULL, math_pow}, {"java/lang/Math", "sin", NULL, math_sin}, {"java/lang/Math", "cos", NULL, math_cos},
    {"java/lang/Math", "tan", NULL, math_tan}, {"java/lang/Math", "log", NULL, math_log}, {"java/lang/Math", "log10", NULL, math_log10},
    {"java/lang/Math", "sqrt", NULL, math_sqrt}, {"jdk/internal/misc/CDS", "getRandomSeedForDumping", NULL, random_seed},
    {"jdk/internal/misc/VM", "getNanoTimeAdjustment", NULL, nano_adjustment}, {"jdk/internal/misc/Signal", "findSignal0", NULL, signal_number},
    {"jdk/internal/misc/UnsafeConstants", "<clinit>", NULL, unsafe_constants}, {"java/lang/ProcessEnvironment", "environ", NULL, environ_native},
    {"jdk/internal/loader/NativeLibraries", "findBuiltinLib", NULL, library_name},
    {"jdk/internal/loader/BootLoader", "loadLibrary", NULL, native_nothing}, {"java/lang/System", "loadLibrary", NULL, native_nothing},
    {"java/lang/Terminator", "setup", NULL, native_nothing}, {"java/lang/Runtime", "gc", NULL, collect_now},
    {"java/lang/Shutdown", "beforeHalt", NULL, native_nothing}, {"java/lang/Module", "defineModule0", NULL, native_nothing},
    {"java/lang/Module", "addReads0", NULL, native_nothing}, {"java/lang/Module", "addExports0", NULL, native_nothing},
    {"java/lang/Module", "addExportsToAll0", NULL, native_nothing}, {"java/lang/Module", "addExportsToAllUnnamed0", NULL, native_nothing},
    {"jdk/internal/loader/BootLoader", "setBootLoaderUnnamedModule0", NULL, native_nothing},
    {"jdk/internal/loader/BootLoader", "getSystemPackageLocation", NULL, native_nothing},
    {"jdk/internal/misc/CDS", "isDumpingClassList0", NULL, native_nothing}, {"jdk/internal/misc/CDS", "isDumpingArchive0", NULL, native_nothing},
    {"jdk/internal/misc/CDS", "isSharingEnabled0", NULL, native_nothing}, {"jdk/internal/misc/CDS", "initializeFromArchive", NULL, native_nothing},
    {"jdk/internal/misc/CDS", "defineArchivedModules", NULL, native_nothing}, {"jdk/internal/misc/Signal", "handle0", NULL, native_nothing},
    {"jdk/internal/misc/VM", "initialize", NULL, native_nothing}, {"jdk/internal/misc/VM", "latestUserDefinedLoader0", NULL, native_nothing},
    {"java/security/AccessController", "getStackAccessControlContext", NULL, native_nothing},
    {"java/security/AccessController", "getInheritedAccessControlContext", NULL, native_nothing},
    {"java/security/AccessController", "ensureMaterializedForStackWalk", NULL, native_nothing},
    {"java/security/AccessController", "getProtectionDomain", NULL, native_nothing},
    {"java/util/TimeZone", "getSystemTimeZoneID", NULL, native_nothing}, {"java/util/TimeZone", "getSystemGMTOffsetID", NULL, native_nothing},
    {"jdk/internal/jimage/NativeImageBuffer", "getNativeMap", NULL, native_map},
    {"java/nio/file/spi/FileSystemProvider", "loadInstalledProviders", NULL, file_system_providers},
    {NULL, NULL, NULL, NULL}};
