/* An agent for HotSpot, of a JDK from 11 to 25: it hands each class that the machine loads to a linker, and compares each method that the
 * machine runs with what the linker's link says.
 *
 *     java -Xshare:off -agentpath:.../liblinkd_agent.so=check,report=FILE[,json][,entries=N][,sites=PREFIX] ..
 *
 * README.md beside this file says what the words mean and what the report has. Whatever is refused, the machine runs on.
 */
#include "agent.h"
#include <errno.h>
#include <inttypes.h>
#include <stdlib.h>
#include <string.h>

#define DEFAULT_ENTRIES UINT64_C(10000000)

static struct {
    bool check, json;
    FILE *report; /* where the report goes */
    char *prefix; /* the sites of classes whose name begins so are told one by one; or null */
} options;

static void warn(const char *what, const char *more) { fprintf(stderr, "linkd: %s%s\n", what, more); }

/* ---- the words after the agent's path */

static void read_entries(const char *word) {
    char *end = NULL;
    errno = 0;
    unsigned long long wanted = strtoull(word, &end, 10);
    if (*word < '0' || *word > '9' || *end != 0 || errno != 0) warn("entries isn't a number: ", word);
    else calls.most = wanted;
}

static void open_report(const char *path) {
    FILE *to = fopen(path, "w");
    if (to == NULL) fprintf(stderr, "linkd: %s: %s; the report goes to standard error\n", path, strerror(errno));
    else options.report = to;
}

static void read_option(const char *word) {
    if (strcmp(word, "check") == 0) options.check = true;
    else if (strcmp(word, "json") == 0) options.json = true;
    else if (strncmp(word, "report=", 7) == 0) open_report(word + 7);
    else if (strncmp(word, "entries=", 8) == 0) read_entries(word + 8);
    else if (strncmp(word, "sites=", 6) == 0) options.prefix = strdup(word + 6);
    else warn("no such word: ", word);
}

static void read_options(const char *words) {
    options.report = stderr;
    calls.most = DEFAULT_ENTRIES;
    char *own = words == NULL ? NULL : strdup(words), *rest = NULL;
    if (own == NULL) return;
    for (char *word = strtok_r(own, ",", &rest); word != NULL; word = strtok_r(NULL, ",", &rest)) read_option(word);
    free(own);
}

/* ---- events */

static void JNICALL on_class_file(jvmtiEnv *jvmti, JNIEnv *jni, jclass redefined, jobject loader, const char *name, jobject domain, jint length,
                                  const unsigned char *bytes, jint *new_length, unsigned char **new_bytes) {
    (void)jvmti, (void)domain, (void)new_length, (void)new_bytes;
    pthread_mutex_lock(&world.lock);
    if (world.linker != NULL) retire_collected(jni);
    if (world.linker != NULL && redefined != NULL) forget_class(redefined);
    else if (world.linker != NULL && name != NULL) keep_file(jni, loader, name, bytes, (size_t)length);
    pthread_mutex_unlock(&world.lock);
}

static void JNICALL on_class_load(jvmtiEnv *jvmti, JNIEnv *jni, jthread thread, jclass class) {
    (void)jvmti, (void)thread;
    pthread_mutex_lock(&world.lock);
    if (world.linker != NULL) {
        retire_collected(jni);
        class_of(jni, class);
    }
    pthread_mutex_unlock(&world.lock);
}

/* How many classes the linker has. */
static uint32_t defined(void) {
    uint32_t count = 0;
    for (uint32_t i = 0; i < world.class_count; i++) count += world.classes[i] != NULL && world.classes[i]->number != NO_NUMBER;
    return count;
}

static uint32_t without_file(void) {
    uint32_t count = 0;
    for (uint32_t i = 0; i < world.class_count; i++) count += world.classes[i] != NULL && world.classes[i]->why == NO_FILE;
    return count;
}

/* The classes that were loaded before. They come in no order, so some have to wait for a later one of the list. */
static void define_loaded(jvmtiEnv *jvmti, JNIEnv *jni) {
    jint count = 0;
    jclass *loaded = NULL;
    uint32_t before;
    if ((*jvmti)->GetLoadedClasses(jvmti, &count, &loaded) != JVMTI_ERROR_NONE) return;
    expect_references(jni, count);
    do {
        before = defined();
        for (jint i = 0; i < count; i++) class_of(jni, loaded[i]);
    } while (defined() != before);
    for (jint i = 0; i < count; i++) (*jni)->DeleteLocalRef(jni, loaded[i]);
    (*jvmti)->Deallocate(jvmti, (unsigned char *)loaded);
    if (without_file() > 0) warn("the files of some classes weren't seen; is -Xshare:off there?", "");
}

static void enable(jvmtiEnv *jvmti, jvmtiEvent event) {
    if ((*jvmti)->SetEventNotificationMode(jvmti, JVMTI_ENABLE, event, NULL) != JVMTI_ERROR_NONE) warn("an event can't be had", "");
}

static void JNICALL on_start(jvmtiEnv *jvmti, JNIEnv *jni, jthread thread) {
    (void)thread;
    enable(jvmti, JVMTI_EVENT_CLASS_LOAD);
    pthread_mutex_lock(&world.lock);
    if (world.linker != NULL) define_loaded(jvmti, jni);
    pthread_mutex_unlock(&world.lock);
    if (options.check) enable(jvmti, JVMTI_EVENT_METHOD_ENTRY);
}

static void JNICALL on_end(jvmtiEnv *jvmti, JNIEnv *jni) {
    (void)jvmti;
    pthread_mutex_lock(&world.lock);
    if (world.linker != NULL) {
        retire_collected(jni);
        report(options.report, options.json, options.prefix);
    }
    close_world();
    pthread_mutex_unlock(&world.lock);
    bool written = options.report == stderr ? fflush(stderr) == 0 : fclose(options.report) == 0;
    if (!written) warn("the report wasn't written", "");
}

/* ---- the start */

static bool set_up(jvmtiEnv *jvmti) {
    jvmtiCapabilities wanted = {.can_generate_all_class_hook_events = 1, .can_generate_early_class_hook_events = 1, .can_tag_objects = 1,
                                  .can_generate_object_free_events = 1};
    if (options.check) {
        wanted.can_generate_method_entry_events = 1;
        wanted.can_access_local_variables = 1;
    }
    static const jvmtiEventCallbacks callbacks = {.VMInit = on_start,
                                                  .VMDeath = on_end,
                                                  .ClassFileLoadHook = on_class_file,
                                                  .ClassLoad = on_class_load,
                                                  .ObjectFree = on_object_free,
                                                  .MethodEntry = on_method_entry};
    if ((*jvmti)->AddCapabilities(jvmti, &wanted) != JVMTI_ERROR_NONE) return false;
    if ((*jvmti)->SetEventCallbacks(jvmti, &callbacks, (jint)sizeof callbacks) != JVMTI_ERROR_NONE) return false;
    if (!open_calls() || !open_world(jvmti)) return false;
    enable(jvmti, JVMTI_EVENT_CLASS_FILE_LOAD_HOOK);
    enable(jvmti, JVMTI_EVENT_VM_INIT);
    enable(jvmti, JVMTI_EVENT_VM_DEATH);
    enable(jvmti, JVMTI_EVENT_OBJECT_FREE);
    return true;
}

JNIEXPORT jint JNICALL Agent_OnLoad(JavaVM *machine, char *words, void *reserved) {
    jvmtiEnv *jvmti = NULL;
    (void)reserved;
    read_options(words);
    if ((*machine)->GetEnv(machine, (void **)&jvmti, JVMTI_VERSION_11) != JNI_OK || !set_up(jvmti))
        warn("the machine or its memory doesn't let the agent look on", "");
    return JNI_OK;
}
