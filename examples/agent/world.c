#include "agent.h"
#include <stdlib.h>
#include <string.h>

/* A class's tag is its place here and 1; a loader's is its address below 0. The bootstrap loader is no object. */
struct world world = {.lock = PTHREAD_MUTEX_INITIALIZER};

static struct loader bootstrap = {.name = "the bootstrap loader"};

/* All array types, and all hidden classes. */
static struct class arrays = {.name = "an array", .number = NO_NUMBER, .why = ARRAY_RECEIVER};
static struct class hidden = {.name = "a hidden class", .number = NO_NUMBER, .why = HIDDEN_METHOD};

/* ---- memory and numbers */

static uint64_t hash_file(const void *item) {
    const struct file *file = item;
    return hash_bytes(file->name.at, file->name.length, (uintptr_t)file->loader);
}

static bool same_file(const void *item, const void *other) {
    const struct file *one = item, *two = other;
    return one->loader == two->loader && same_text(one->name, two->name);
}

/* Room for one more element, or false. */
static bool make_room(void **elements, uint32_t *room, uint32_t count, size_t size) {
    if (count < *room) return true;
    uint32_t wanted = *room == 0 ? 256 : *room * 2;
    void *grown = realloc(*elements, wanted * size);
    if (grown == NULL) return false;
    *elements = grown;
    *room = wanted;
    return true;
}

/* The tag that the class has from now on, or 0. */
static jlong keep_class(struct class *class) {
    if (!make_room((void **)&world.classes, &world.class_room, world.class_count, sizeof *world.classes)) return 0;
    world.classes[world.class_count++] = class;
    return world.class_count;
}

void count_refusal(uint32_t status, uint32_t fault) {
    uint32_t i = 0;
    while (i < world.refusal_count && (world.refusals[i].status != status || world.refusals[i].fault != fault)) i++;
    if (i == world.refusal_count) {
        struct refusal *grown = realloc(world.refusals, (i + 1) * sizeof *grown);
        if (grown == NULL) return;
        grown[i] = (struct refusal){.status = status, .fault = fault};
        world.refusals = grown;
        world.refusal_count++;
    }
    world.refusals[i].count++;
}

/* Counts an event, and says how many links it dropped, and how many of these at sites that aren't gone. */
static size_t count_event(size_t *kept) {
    static uint32_t sites[MOST_SITES];
    size_t count = 0;
    atomic_fetch_add(&world.changes, 1);
    *kept = 0;
    if (linkd_dropped(world.linker, sites, MOST_SITES, &count) != LINKD_DONE) return 0;
    *kept = drop_links(sites, count);
    return count;
}

void accepted(struct class *by) {
    size_t kept, count = count_event(&kept);
    world.dropped += count;
    if (by != NULL) by->dropped += (uint32_t)count;
}

void accepted_retirement(void) {
    size_t kept, count = count_event(&kept);
    world.retired.links += count;
    world.retired.kept_links += kept;
}

bool open_world(jvmtiEnv *jvmti) {
    size_t align = linkd_align() < sizeof(void *) ? sizeof(void *) : linkd_align();
    linkd *linker = aligned_alloc(align, (linkd_size() + align - 1) / align * align);
    if (linker == NULL) return false;
    linkd_blank(linker);
    world.jvmti = jvmti;
    world.files = (struct table){.hash = hash_file, .same = same_file};
    if (!make_room((void **)&world.loaders, &world.loader_room, 0, sizeof *world.loaders) || keep_class(&arrays) == 0 ||
        keep_class(&hidden) == 0 || linkd_open(linker, MOST_SITES) != LINKD_DONE) {
        linkd_close(linker);
        free(linker);
        return false;
    }
    world.loaders[world.loader_count++] = &bootstrap;
    world.linker = linker;
    return true;
}

/* What the agent itself keeps stays: other threads may still read it. */
void close_world(void) {
    linkd *linker = world.linker;
    world.linker = NULL;
    if (linker == NULL) return;
    linkd_close(linker);
    free(linker);
}

/* ---- loaders */

/* The name of an object's class, or null. */
static char *class_name(JNIEnv *jni, jobject object) {
    char *signature = NULL, *name = NULL;
    jclass of = (*jni)->GetObjectClass(jni, object);
    if ((*world.jvmti)->GetClassSignature(world.jvmti, of, &signature, NULL) == JVMTI_ERROR_NONE) {
        name = strndup(signature + 1, strlen(signature) - 2);
        (*world.jvmti)->Deallocate(world.jvmti, (unsigned char *)signature);
    }
    (*jni)->DeleteLocalRef(jni, of);
    return name;
}

/* HotSpot makes such a loader for each accessor of a reflective call, and lets its one class extend a class of another package that isn't
 * public: the linker refuses that (5.3.5), so a number would be lost. */
static bool is_of_accessor(const struct loader *loader) {
    return loader->name != NULL && strcmp(loader->name, "jdk/internal/reflect/DelegatingClassLoader") == 0;
}

static void number_loader(struct loader *loader) {
    linkd_told told;
    if (is_of_accessor(loader)) return;
    uint32_t status = linkd_new_loader(world.linker, &told);
    if (status == LINKD_DONE) {
        loader->number = told.number;
        accepted(NULL);
    } else {
        count_refusal(status, told.fault);
    }
}

static struct loader *new_loader(JNIEnv *jni, jobject object) {
    struct loader *loader = calloc(1, sizeof *loader);
    if (loader == NULL || !make_room((void **)&world.loaders, &world.loader_room, world.loader_count, sizeof *world.loaders) ||
        (*world.jvmti)->SetTag(world.jvmti, object, -(jlong)(uintptr_t)loader) != JVMTI_ERROR_NONE) {
        free(loader);
        return NULL;
    }
    *loader = (struct loader){.object = (*jni)->NewWeakGlobalRef(jni, object), .name = class_name(jni, object), .number = NO_NUMBER};
    number_loader(loader);
    world.loaders[world.loader_count++] = loader;
    return loader;
}

/* Null if there is no memory. */
static struct loader *loader_of_object(JNIEnv *jni, jobject object) {
    jlong tag = 0;
    if (object == NULL) return &bootstrap;
    if ((*world.jvmti)->GetTag(world.jvmti, object, &tag) != JVMTI_ERROR_NONE) return NULL;
    return tag < 0 ? (struct loader *)(uintptr_t)-tag : new_loader(jni, object);
}

struct loader *loader_of(JNIEnv *jni, jclass from) {
    jobject object = NULL;
    if ((*world.jvmti)->GetClassLoader(world.jvmti, from, &object) != JVMTI_ERROR_NONE) return NULL;
    struct loader *loader = loader_of_object(jni, object);
    if (object != NULL) (*jni)->DeleteLocalRef(jni, object);
    return loader;
}

/* The loader finds the class, which another has defined. */
static void record(const struct loader *loader, const struct class *class) {
    linkd_told told;
    if (class->number == NO_NUMBER || class->loader == loader || loader->number == NO_NUMBER) return;
    uint32_t to = class->loader->number;
    uint32_t status = linkd_delegate(world.linker, loader->number, (const uint8_t *)class->name, strlen(class->name), to, &told);
    if (status == LINKD_DONE) accepted(NULL);
    else if (status != LINKD_DELEGATE || told.fault != LINKD_DELEGATE_ALREADY_RECORDED) count_refusal(status, told.fault);
}

void expect_references(JNIEnv *jni, jint count) {
    enum { OWN = 64 }; /* of the agent's calls in between */
    if ((*jni)->EnsureLocalCapacity(jni, count + OWN) != JNI_OK) (*jni)->ExceptionClear(jni);
}

void record_all(JNIEnv *jni, struct loader *loader) {
    jint count = 0;
    jclass *found = NULL;
    if (loader->going_on) return;
    jobject object = loader == &bootstrap ? NULL : (*jni)->NewLocalRef(jni, loader->object);
    if (loader != &bootstrap && object == NULL) return;
    loader->going_on = true;
    if ((*world.jvmti)->GetClassLoaderClasses(world.jvmti, object, &count, &found) == JVMTI_ERROR_NONE) {
        expect_references(jni, count);
        for (jint i = 0; i < count; i++) {
            struct class *class = class_of(jni, found[i]);
            if (class != NULL) record(loader, class);
            (*jni)->DeleteLocalRef(jni, found[i]);
        }
        (*world.jvmti)->Deallocate(world.jvmti, (unsigned char *)found);
    }
    loader->going_on = false;
    if (object != NULL) (*jni)->DeleteLocalRef(jni, object);
}

/* ---- class files */

static struct file *find_file(struct loader *loader, const char *name) {
    struct file probe = {.loader = loader, .name = text_of(name)};
    return table_find(&world.files, &probe);
}

static struct file *new_file(struct loader *loader, const char *name) {
    struct file *file = calloc(1, sizeof *file);
    char *own = strdup(name);
    if (file != NULL && own != NULL) {
        *file = (struct file){.loader = loader, .name = text_of(own)};
        if (table_add(&world.files, file)) return file;
    }
    free(file);
    free(own);
    return NULL;
}

void keep_file(JNIEnv *jni, jobject loader, const char *name, const uint8_t *bytes, size_t length) {
    struct loader *by = loader_of_object(jni, loader);
    if (by == NULL) return;
    struct file *file = find_file(by, name);
    if (file == NULL) file = new_file(by, name);
    if (file == NULL || file->taken) return;
    uint8_t *copy = malloc(length);
    if (copy == NULL) return;
    memcpy(copy, bytes, length);
    free(file->bytes); /* of an attempt that failed */
    file->bytes = copy;
    file->length = length;
}

void forget_class(jclass from) {
    jlong tag = 0;
    if ((*world.jvmti)->GetTag(world.jvmti, from, &tag) != JVMTI_ERROR_NONE || tag <= 0) return;
    if (world.classes[tag - 1] != NULL) world.classes[tag - 1]->why = REDEFINED;
}

/* ---- classes */

/* The direct superclass and, where the machine tells them yet, the direct superinterfaces: they go to the linker first. */
static void define_parents(JNIEnv *jni, jclass from, struct loader *loader) {
    jint count = 0;
    jclass *interfaces = NULL;
    jclass super = (*jni)->GetSuperclass(jni, from);
    if (super != NULL) {
        struct class *parent = class_of(jni, super);
        if (parent != NULL) record(loader, parent);
        (*jni)->DeleteLocalRef(jni, super);
    }
    if ((*world.jvmti)->GetImplementedInterfaces(world.jvmti, from, &count, &interfaces) != JVMTI_ERROR_NONE) return;
    for (jint i = 0; i < count; i++) {
        struct class *parent = class_of(jni, interfaces[i]);
        if (parent != NULL) record(loader, parent);
        (*jni)->DeleteLocalRef(jni, interfaces[i]);
    }
    (*world.jvmti)->Deallocate(world.jvmti, (unsigned char *)interfaces);
}

static bool lacks_parent(uint32_t status, const linkd_told *told) {
    return status == LINKD_DEFINE && told->fault == LINKD_MISSING_PARENT;
}

static uint32_t define_file(uint32_t loader, const struct file *file, linkd_told *told) {
    return linkd_define_up_to(world.linker, loader, LINKD_NEWEST_KNOWN, file->bytes, file->length, told);
}

static void define(JNIEnv *jni, jclass from, struct class *class) {
    linkd_told told = {0};
    uint32_t loader = class->loader->number;
    class->why = REFUSED_CLASS;
    if (loader == NO_NUMBER) {
        world.loaderless++;
        return;
    }
    class->going_on = true;
    define_parents(jni, from, class->loader);
    uint32_t status = define_file(loader, class->file, &told);
    if (lacks_parent(status, &told)) {
        record_all(jni, class->loader);
        status = define_file(loader, class->file, &told);
    }
    class->going_on = false;
    class->waits = lacks_parent(status, &told);
    if (status == LINKD_DONE) {
        class->number = told.number;
        class->why = read_class_file(class->file->bytes, &class->read) ? COMPARED : NO_MEMORY;
        accepted(class);
    } else if (!class->waits) {
        count_refusal(status, told.fault);
    }
}

/* A class of its own record: its name is the file's where it has one. */
static struct class *new_class(struct loader *loader, const char *name) {
    struct class *class = calloc(1, sizeof *class);
    if (class == NULL) return NULL;
    *class = (struct class){.loader = loader, .number = NO_NUMBER, .why = NO_FILE};
    struct file *file = find_file(loader, name);
    if (file != NULL && file->bytes != NULL && !file->taken) {
        class->file = file;
        class->name = (const char *)file->name.at;
        file->taken = true;
    } else {
        class->name = strdup(name);
    }
    if (class->name != NULL) return class;
    free(class);
    return NULL;
}

static struct class *make_class(JNIEnv *jni, jclass from, char *signature) {
    struct class *class = NULL;
    size_t length = strlen(signature);
    if (signature[0] == '[') {
        class = &arrays;
    } else if (strchr(signature, '.') != NULL) { /* the names of hidden classes alone have it (JVM TI, GetClassSignature) */
        class = &hidden;
    } else if (signature[0] == 'L') {
        struct loader *loader = loader_of(jni, from);
        signature[length - 1] = 0;
        if (loader != NULL) class = new_class(loader, signature + 1);
    }
    if (class == NULL) return NULL;
    jlong tag = class == &arrays ? 1 : class == &hidden ? 2 : keep_class(class);
    if (tag == 0 || (*world.jvmti)->SetTag(world.jvmti, from, tag) != JVMTI_ERROR_NONE) return NULL;
    if (class->file != NULL) define(jni, from, class);
    return class;
}

struct class *class_of(JNIEnv *jni, jclass from) {
    jlong tag = 0;
    char *signature = NULL;
    if ((*world.jvmti)->GetTag(world.jvmti, from, &tag) != JVMTI_ERROR_NONE) return NULL;
    if (tag > 0) {
        struct class *class = world.classes[tag - 1];
        if (class != NULL && class->waits && !class->going_on) define(jni, from, class);
        return class;
    }
    if ((*world.jvmti)->GetClassSignature(world.jvmti, from, &signature, NULL) != JVMTI_ERROR_NONE) return NULL;
    struct class *class = make_class(jni, from, signature);
    (*world.jvmti)->Deallocate(world.jvmti, (unsigned char *)signature);
    return class;
}

/* ---- classes that are gone */

void keep_dropper(struct dropper *droppers, const char *name, uint32_t dropped) {
    int at = MOST_TOLD;
    while (at > 0 && droppers[at - 1].dropped < dropped) at--;
    char *own = at == MOST_TOLD ? NULL : strdup(name);
    if (own == NULL) return;
    free(droppers[MOST_TOLD - 1].name);
    memmove(&droppers[at + 1], &droppers[at], (size_t)(MOST_TOLD - 1 - at) * sizeof *droppers);
    droppers[at] = (struct dropper){.name = own, .dropped = dropped};
}

static void let_class_go(struct class *class) {
    if (class->number != NO_NUMBER) class->loader->classes++;
    if (class->dropped > 0) keep_dropper(world.droppers, class->name, class->dropped);
    let_class_file_go(&class->read);
    if (class->file == NULL) free((char *)class->name);
    free(class);
}

static bool let_file_go(void *item) {
    struct file *file = item;
    if (!file->loader->gone) return false;
    free((uint8_t *)file->name.at);
    free(file->bytes);
    free(file);
    return true;
}

void forget_classes(void) {
    for (uint32_t i = 0; i < world.class_count; i++) {
        struct class *class = world.classes[i];
        if (class == NULL || class->loader == NULL || !class->loader->gone) continue;
        world.classes[i] = NULL;
        let_class_go(class);
    }
    table_sweep(&world.files, let_file_go);
}
