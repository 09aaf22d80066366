/* The command line, and what the machine does before and after a program's main. */
#include "heap.h"
#include <pthread.h>
#include <sys/stat.h>
#include <unistd.h>

VM vm;
static int word_count; /* the class and its arguments */
static char **words;

/* ---- the start of the runtime (java.lang.System) */

/* Ends the process where the machine itself can't go on after an exception. */
static void must(const char *what) {
    Object *exception = self->exception;
    if (!exception) return;
    self->exception = NULL;
    fprintf(stderr, "vm: %s: %s: %s\n", what, exception->cls->name, text_of(get_field(exception, "detailMessage", NULL).a));
    Object *trace = get_field(exception, "backtrace", NULL).a;
    for (uint32_t i = 0; trace && i < trace->length / 2; i++) {
        Method *method = (Method *)(intptr_t)DATA(trace, int64_t)[2 * i];
        int pc = (int)DATA(trace, int64_t)[2 * i + 1];
        if (method) fprintf(stderr, "    %s.%s:%d\n", method->cls->name, method->name, line_of(method, pc));
    }
    end_process(3);
}

static void initialize(const char *name) {
    init_class(boot_class(name));
    must(name);
}

static void call_static(const char *cls, const char *name, const char *type, Slot *args, int count) {
    initialize(cls);
    invoke(must_declare(boot_class(cls), name, type), args, count);
    must(name);
}

static Object *make(const char *name, const char *type, Slot *args, int count) {
    Class *cls = boot_class(name);
    initialize(name);
    Object *made = args[0].a = new_object(cls);
    invoke(must_declare(cls, "<init>", type), args, count);
    must(name);
    return made;
}

static void make_first_thread(void) {
    Slot args[3];
    Object *thread = new_object(boot_class("java/lang/Thread"));
    threads_boot(thread);
    set_field(thread, "priority", NULL, of_int(5));
    initialize("java/lang/String");
    initialize("java/lang/System");
    initialize("java/lang/Class");
    initialize("java/lang/ThreadGroup");
    initialize("java/lang/Thread");
    Object *system = make("java/lang/ThreadGroup", "()V", args, 1);
    args[1] = of_ref(system);
    args[2] = of_ref(string_of("main"));
    Object *group = make("java/lang/ThreadGroup", "(Ljava/lang/ThreadGroup;Ljava/lang/String;)V", args, 3);
    set_field(thread, "group", NULL, of_ref(group));
    args[0] = of_ref(thread);
    args[1] = of_ref(group);
    args[2] = of_ref(string_of("main"));
    invoke(must_declare(boot_class("java/lang/Thread"), "<init>", "(Ljava/lang/ThreadGroup;Ljava/lang/String;)V"), args, 3);
    must("the first thread");
}

/* Without modules: all classes are in one unnamed module. */
static void boot(void) {
    Slot args[2];
    boot_classes();
    strings_open();
    complete_mirrors();
    make_first_thread();
    initialize("java/lang/OutOfMemoryError"); /* there may be no room for these when they are thrown */
    initialize("java/lang/StackOverflowError");
    initialize("java/lang/Module");
    initialize("java/lang/reflect/Method");
    initialize("java/lang/ref/Finalizer");
    args[1] = NOTHING;
    vm.module = make("java/lang/Module", "(Ljava/lang/ClassLoader;)V", args, 2);
    complete_mirrors();
    call_static("java/lang/System", "initPhase1", "()V", NULL, 0);
    args[0] = of_int(2);
    call_static("jdk/internal/misc/VM", "initLevel", "(I)V", args, 1);
    call_static("java/lang/System", "initPhase3", "()V", NULL, 0);
    call_static("java/lang/ClassLoader", "getSystemClassLoader", "()Ljava/lang/ClassLoader;", NULL, 0);
    set_loader_object(CLASS_PATH_LOADER, get_static(boot_class("java/lang/ClassLoader"), "scl", NULL).a);
}

/* ---- a program */

static Method *find_main(Class **cls) {
    *cls = load_class(slashed(words[0]), CLASS_PATH_LOADER);
    if (!*cls) {
        self->exception = NULL;
        fprintf(stderr, "Error: Could not find or load main class %s\n", words[0]);
        end_process(1);
    }
    for (Class *at = *cls; at; at = at->super) {
        Method *method = declared(at, "main", "([Ljava/lang/String;)V");
        if (method && (method->flags & ACC_STATIC)) return method;
    }
    fprintf(stderr, "Error: Main method not found in class %s\n", words[0]);
    end_process(1);
}

static int run_main(void) {
    Class *cls;
    Method *method = find_main(&cls);
    Object *list = new_array_of("[Ljava/lang/String;", word_count - 1);
    for (int i = 1; i < word_count; i++) DATA(list, Object *)[i - 1] = new_string(words[i]);
    Slot args[2] = {of_ref(list)};
    if (init_class(cls)) invoke(method, args, 1);
    if (!self->exception) return 0;
    args[0] = of_ref(self->object);
    args[1] = of_ref(self->exception);
    self->exception = NULL;
    invoke(must_declare(boot_class("java/lang/Thread"), "dispatchUncaughtException", NULL), args, 2);
    must("the end");
    return 1;
}

static void *run_program(void *unused) {
    (void)unused;
    threads_open(__builtin_frame_address(0));
    link_open();
    self->reader = link_new_reader();
    boot();
    vm.booted = true;
    int status = run_main();
    threads_finish();
    Slot args[1] = {of_int(status)};
    call_static("java/lang/Shutdown", status ? "exit" : "shutdown", NULL, args, status);
    end_process(status);
    return NULL;
}

/* ---- the command line */

static void usage(FILE *to) {
    fprintf(to,
            "usage: vm [options] CLASS [ARGUMENTS..]\n"
            "as those of java:\n"
            "  -cp PATH, -classpath PATH, --class-path PATH   folders of class files, separated by colons\n"
            "  -Dname=value   -ea, -da   -Xmx SIZE, as -Xmx64m   -Xint (it always is)   -version   -help\n"
            "of this machine:\n"
            "  --jdk HOME             a JDK 17; else JAVA_HOME's, else that of the java in PATH\n"
            "  --seat                 no link is kept at an instruction: each call is one at a seat\n"
            "  --patience N           with --seat: how many calls miss before it is refreshed (32)\n"
            "  --eager                the invocations of a method are linked at once, when one of them is executed\n"
            "  --check                each call is compared with linkd_call\n"
            "  --stats                what was requested, installed and dropped, at the end\n"
            "  --trace                which links are dropped, and what is missing\n"
            "  --collect-every N      collects at each N-th allocation of a thread\n"
            "  --unload-every N       collects where loaders have defined so many classes since the last time (1000)\n"
            "  --renew-every N        each N-th collection goes over to a fresh linker\n"
            "  --no-collections       the heap isn't collected\n"
            "  --poison               overwrites what is free after a collection\n"
            "  --trace-collections    tells of each collection\n"
            "  --most-classes N, --most-loaders N, --most-sites N, --most-call-sites N, --most-switch-points N\n"
            "                         the linker is opened for so many numbers; where they run out it is renewed\n");
}

static __attribute__((noreturn)) void refuse(const char *word, const char *why) {
    fprintf(stderr, "vm: %s: %s\n", word, why);
    exit(2);
}

static uint64_t number_of(const char *option, const char *text) {
    char *end;
    uint64_t number = strtoull(text, &end, 10);
    if (!*text || *end || *text == '-') refuse(option, "a number has to follow");
    return number;
}

static uint32_t limit_of(const char *option, const char *text) {
    uint64_t number = number_of(option, text);
    if (number < 1 || number > 1048576) refuse(option, "1 to 1048576");
    return (uint32_t)number;
}

/* As 64m. */
static size_t size_of(const char *option, const char *text) {
    char *end;
    uint64_t number = strtoull(text, &end, 10);
    int shift = *end == 'k' || *end == 'K' ? 10 : *end == 'm' || *end == 'M' ? 20 : *end == 'g' || *end == 'G' ? 30 : 0;
    if (!number || (shift && end[1]) || (!shift && *end) || number << shift < 4 << 20 || number << shift > UINT64_C(1) << 36)
        refuse(option, "a size from 4m to 64g");
    return (size_t)(number << shift);
}

static bool is_one_of(const char *word, const char *const *list) {
    for (; *list; list++)
        if (!strcmp(word, *list)) return true;
    return false;
}

/* Options without an argument. */
static bool take_flag(const char *word) {
    static const struct { const char *name; bool *at, value; } flags[] = {
        {"--seat", &vm.use_seat, true}, {"--eager", &vm.eager, true}, {"--check", &vm.check, true}, {"--stats", &vm.stats, true},
        {"--trace", &vm.trace, true}, {"--no-collections", &vm.collects, false}, {"--poison", &vm.poison, true}, {"--trace-collections", &vm.trace_collections, true},
        {"-ea", &vm.assertions, true}, {"-enableassertions", &vm.assertions, true}, {"-da", &vm.assertions, false},
        {"-disableassertions", &vm.assertions, false}};
    static const char *const ignored[] = {"-Xint", "-server", "-Xshare:auto", "-Xshare:off", NULL};
    for (size_t i = 0; i < sizeof flags / sizeof *flags; i++)
        if (!strcmp(word, flags[i].name)) {
            *flags[i].at = flags[i].value;
            return true;
        }
    if (!strncmp(word, "-D", 2)) vm.properties[vm.property_count++] = (char *)word + 2;
    else if (!strncmp(word, "-Xmx", 4)) vm.heap_size = size_of("-Xmx", word + 4);
    else return is_one_of(word, ignored);
    return true;
}

static bool take_pair(const char *word, const char *next) {
    static const char *const class_path[] = {"-cp", "-classpath", "--class-path", NULL};
    static const struct { const char *name; uint64_t *at; } numbers[] = {
        {"--collect-every", &vm.collect_every}, {"--renew-every", &vm.renew_every}, {"--unload-every", &vm.unload_every}};
    static const struct { const char *name; uint32_t *at; } limits[] = {
        {"--patience", &vm.patience}, {"--most-classes", &vm.most_classes}, {"--most-loaders", &vm.most_loaders},
        {"--most-sites", &vm.most_sites}, {"--most-call-sites", &vm.most_call_sites}, {"--most-switch-points", &vm.most_switch_points}};
    if (is_one_of(word, class_path)) return vm.class_path = next, true;
    if (!strcmp(word, "--jdk")) return vm.java_home = next, true;
    for (size_t i = 0; i < sizeof numbers / sizeof *numbers; i++)
        if (!strcmp(word, numbers[i].name)) return *numbers[i].at = number_of(word, next), true;
    for (size_t i = 0; i < sizeof limits / sizeof *limits; i++)
        if (!strcmp(word, limits[i].name)) return *limits[i].at = limit_of(word, next), true;
    return false;
}

static void take_words(int count, char **all) {
    int i = 1;
    for (; i < count && *all[i] == '-'; i++) {
        const char *word = all[i];
        if (!strcmp(word, "-help") || !strcmp(word, "--help")) usage(stdout), exit(0);
        if (!strcmp(word, "-version") || !strcmp(word, "--version")) {
            fprintf(stderr, "vm on linkd, for class files of Java 17 and the classes of a JDK 17\n");
            exit(0);
        }
        if (!strcmp(word, "-jar")) refuse(word, "jars aren't read: unpack it into a folder, and name that and the main class");
        if (!strcmp(word, "-m") || !strncmp(word, "--module", 8) || !strncmp(word, "--add-", 6)) refuse(word, "there are no modules here");
        if (take_flag(word)) continue;
        if (i + 1 < count && take_pair(word, all[i + 1])) i++;
        else refuse(word, "unknown, or something has to follow; -help tells the options");
    }
    word_count = count - i;
    words = all + i;
    if (!word_count) usage(stderr), exit(2);
}

static void check_class_path(void) {
    for (const char *at = vm.class_path; *at;) {
        char path[4096];
        struct stat info;
        size_t length = strcspn(at, ":");
        snprintf(path, sizeof path, "%.*s", (int)length, at);
        if (length && !stat(path, &info) && !S_ISDIR(info.st_mode)) refuse(path, "is no folder: jars aren't read, unpack it first");
        at += length + (at[length] == ':');
    }
}

static const char *find_jdk(void) {
    static char path[4096], whole[4096];
    if (vm.java_home) return vm.java_home;
    if (getenv("JAVA_HOME")) return getenv("JAVA_HOME");
    for (const char *at = getenv("PATH") ? getenv("PATH") : ""; *at;) {
        size_t length = strcspn(at, ":");
        snprintf(path, sizeof path, "%.*s/java", (int)length, at);
        if (!access(path, X_OK) && realpath(path, whole) && strstr(whole, "/bin/java")) {
            *strstr(whole, "/bin/java") = 0;
            return whole;
        }
        at += length + (at[length] == ':');
    }
    refuse("java", "no JDK: set JAVA_HOME to a JDK 17");
}

/* What the machine does in the place of native methods is that of JDK 17. */
static void check_jdk(void) {
    char path[4096], line[256];
    snprintf(path, sizeof path, "%s/release", vm.java_home);
    FILE *from = fopen(path, "r");
    while (from && fgets(line, sizeof line, from))
        if (!strncmp(line, "JAVA_VERSION=", 13) && strncmp(line, "JAVA_VERSION=\"17", 16)) refuse(vm.java_home, "isn't a JDK 17");
    if (from) fclose(from);
}

int main(int count, char **all) {
    pthread_t thread;
    pthread_attr_t attributes;
    enum { C_STACK = 512 << 20 }; /* natives that call into Java recurse */
    vm = (VM){.class_path = ".", .patience = 32, .unload_every = 1000, .collects = true, .heap_size = (size_t)2 << 30, .most_sites = 1 << 20,
              .most_loaders = 1 << 16, .most_classes = 1 << 18, .most_call_sites = 1 << 18, .most_switch_points = 1 << 16};
    vm.properties = calloc((size_t)count, sizeof(char *));
    take_words(count, all);
    check_class_path();
    vm.java_home = find_jdk();
    check_jdk();
    vm.counts.start_ns = now_ns();
    image_open(vm.java_home);
    heap_open(vm.heap_size);
    pthread_attr_init(&attributes);
    pthread_attr_setstacksize(&attributes, C_STACK);
    if (pthread_create(&thread, &attributes, run_program, NULL)) refuse("vm", "no thread can be started");
    pthread_join(thread, NULL);
    return 0;
}
