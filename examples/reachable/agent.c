/* An agent for HotSpot: it notes each method that the machine enters, by whom, once, and writes them into a file when the machine ends.
 *
 *     java -Xshare:off -agentpath:.../liblinkd_entries.so=FILE ..
 *
 * A line of FILE has seven words, with tabs between: the class, the name and the type of a method; `java`, `native` or `none` for what stands
 * above it on its stack; and the class, the name and the type of that, which are `-` where there is none. The name of a hidden class has a `.`,
 * and no other has one (JVM TI, GetClassSignature). A file that isn't whole ends with the line `failed`.
 *
 * What was entered before the machine could tell of it, that is, before JVM TI's live phase, isn't there. It is for JDK 11 to 25.
 */
#include <jvmti.h>
#include <pthread.h>
#include <stdbool.h>
#include <stdint.h>
#include <stdio.h>
#include <stdlib.h>
#include <string.h>

enum { ROOM = 1 << 20 };

/* A method and the one above it. The identifier of a method whose class is gone may be given again: a program has to keep its classes. */
struct pair {
    jmethodID entered, above;
};

static struct {
    pthread_mutex_t lock;
    FILE *to;
    struct pair seen[ROOM]; /* an open hash table: a place without `entered` is free */
    uint32_t count;
    bool failed;
} notes = {.lock = PTHREAD_MUTEX_INITIALIZER};

/* Notes a pair; false where it was there, or there is no room. */
static bool is_new(struct pair pair) {
    uint64_t hash = ((uint64_t)(uintptr_t)pair.entered * UINT64_C(31) + (uint64_t)(uintptr_t)pair.above) * UINT64_C(0x9e3779b97f4a7c15);
    uint32_t at = (uint32_t)(hash >> 44);
    while (notes.seen[at].entered != NULL) {
        if (notes.seen[at].entered == pair.entered && notes.seen[at].above == pair.above) return false;
        at = (at + 1) % ROOM;
    }
    if (notes.count >= ROOM / 2) {
        notes.failed = true;
        return false;
    }
    notes.seen[at] = pair;
    notes.count++;
    return true;
}

/* Writes a method's class, name and type. */
static void write_method(jvmtiEnv *jvmti, JNIEnv *jni, jmethodID method) {
    char *class_signature = NULL, *name = NULL, *type = NULL;
    jclass class = NULL;
    if ((*jvmti)->GetMethodDeclaringClass(jvmti, method, &class) == JVMTI_ERROR_NONE &&
        (*jvmti)->GetClassSignature(jvmti, class, &class_signature, NULL) == JVMTI_ERROR_NONE &&
        (*jvmti)->GetMethodName(jvmti, method, &name, &type, NULL) == JVMTI_ERROR_NONE) {
        int length = (int)strlen(class_signature);
        fprintf(notes.to, "%.*s\t%s\t%s", length - 2, class_signature + 1, name, type);
    } else {
        notes.failed = true;
    }
    if (class != NULL) (*jni)->DeleteLocalRef(jni, class);
    (*jvmti)->Deallocate(jvmti, (unsigned char *)class_signature);
    (*jvmti)->Deallocate(jvmti, (unsigned char *)name);
    (*jvmti)->Deallocate(jvmti, (unsigned char *)type);
}

static void write_pair(jvmtiEnv *jvmti, JNIEnv *jni, struct pair pair) {
    jboolean is_native = JNI_FALSE;
    write_method(jvmti, jni, pair.entered);
    if (pair.above == NULL) {
        fputs("\tnone\t-\t-\t-\n", notes.to);
        return;
    }
    if ((*jvmti)->IsMethodNative(jvmti, pair.above, &is_native) != JVMTI_ERROR_NONE) notes.failed = true;
    fputs(is_native ? "\tnative\t" : "\tjava\t", notes.to);
    write_method(jvmti, jni, pair.above);
    fputc('\n', notes.to);
}

static void JNICALL on_method_entry(jvmtiEnv *jvmti, JNIEnv *jni, jthread thread, jmethodID method) {
    struct pair pair = {.entered = method};
    jlocation place = 0;
    if ((*jvmti)->GetFrameLocation(jvmti, thread, 1, &pair.above, &place) != JVMTI_ERROR_NONE) pair.above = NULL;
    pthread_mutex_lock(&notes.lock);
    if (notes.to != NULL && is_new(pair)) write_pair(jvmti, jni, pair);
    pthread_mutex_unlock(&notes.lock);
}

static void JNICALL on_start(jvmtiEnv *jvmti, JNIEnv *jni, jthread thread) {
    (void)jni, (void)thread;
    if ((*jvmti)->SetEventNotificationMode(jvmti, JVMTI_ENABLE, JVMTI_EVENT_METHOD_ENTRY, NULL) != JVMTI_ERROR_NONE) notes.failed = true;
}

static void JNICALL on_end(jvmtiEnv *jvmti, JNIEnv *jni) {
    (void)jvmti, (void)jni;
    pthread_mutex_lock(&notes.lock);
    if (notes.failed) fputs("failed\n", notes.to);
    if (fclose(notes.to) != 0) fputs("the entered methods weren't written\n", stderr);
    notes.to = NULL;
    pthread_mutex_unlock(&notes.lock);
}

static bool set_up(jvmtiEnv *jvmti) {
    static const jvmtiCapabilities wanted = {.can_generate_method_entry_events = 1};
    static const jvmtiEventCallbacks callbacks = {.VMInit = on_start, .VMDeath = on_end, .MethodEntry = on_method_entry};
    return (*jvmti)->AddCapabilities(jvmti, &wanted) == JVMTI_ERROR_NONE &&
           (*jvmti)->SetEventCallbacks(jvmti, &callbacks, (jint)sizeof callbacks) == JVMTI_ERROR_NONE &&
           (*jvmti)->SetEventNotificationMode(jvmti, JVMTI_ENABLE, JVMTI_EVENT_VM_INIT, NULL) == JVMTI_ERROR_NONE &&
           (*jvmti)->SetEventNotificationMode(jvmti, JVMTI_ENABLE, JVMTI_EVENT_VM_DEATH, NULL) == JVMTI_ERROR_NONE;
}

JNIEXPORT jint JNICALL Agent_OnLoad(JavaVM *machine, char *path, void *reserved) {
    jvmtiEnv *jvmti = NULL;
    (void)reserved;
    notes.to = path == NULL ? NULL : fopen(path, "w");
    if (notes.to != NULL && (*machine)->GetEnv(machine, (void **)&jvmti, JVMTI_VERSION_11) == JNI_OK && set_up(jvmti)) return JNI_OK;
    fputs("the machine or the file doesn't let the agent look on\n", stderr);
    return JNI_ERR;
}
