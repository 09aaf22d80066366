#include "agent.h"
#include <inttypes.h>
#include <stdlib.h>
#include <string.h>

struct calls calls;

/* A method that was entered, or that has called one. */
struct method {
    jmethodID id;
    struct class *of;
    struct loader *loader; /* of its class, be it hidden */
    uint32_t number; /* among those that its class declares, or NO_NUMBER */
    char *name, *type;
    bool is_static;
};

/* A thread's seat, and how many events of the linker it has seen. */
struct place {
    linkd_seat *seat;
    uint64_t seen;
};

/* A call while it is looked at: `method` is what the machine runs. */
struct call {
    JNIEnv *jni;
    jthread thread;
    struct method *caller, *method;
    uint32_t pc;
    struct site *site;
    struct class *receiver; /* null at a static method */
};

static struct table methods, sites;
static pthread_key_t place_key;

static uint64_t hash_method(const void *item) {
    const struct method *method = item;
    return hash_bytes(&method->id, sizeof method->id, 0);
}

static bool same_method(const void *item, const void *other) {
    return ((const struct method *)item)->id == ((const struct method *)other)->id;
}

static uint64_t hash_site(const void *item) {
    const struct site *site = item;
    return hash_bytes(&site->caller, sizeof site->caller, site->pc);
}

static bool same_site(const void *item, const void *other) {
    const struct site *one = item, *two = other;
    return one->caller == two->caller && one->pc == two->pc;
}

/* ---- seats */

static void leave(void *is) {
    struct place *place = is;
    linkd_seat_leave(place->seat);
    free(place->seat);
    free(place);
}

bool open_calls(void) {
    methods = (struct table){.hash = hash_method, .same = same_method};
    sites = (struct table){.hash = hash_site, .same = same_site};
    calls.sites = calloc(MOST_SITES, sizeof *calls.sites);
    return calls.sites != NULL && pthread_key_create(&place_key, leave) == 0;
}

/* This thread's, or null if there is no memory. */
static struct place *own_place(void) {
    struct place *place = pthread_getspecific(place_key);
    if (place != NULL) return place;
    size_t align = linkd_seat_align() < sizeof(void *) ? sizeof(void *) : linkd_seat_align();
    place = malloc(sizeof *place);
    linkd_seat *seat = aligned_alloc(align, (linkd_seat_size() + align - 1) / align * align);
    if (place == NULL || seat == NULL || pthread_setspecific(place_key, place) != 0) {
        free(place);
        free(seat);
        return NULL;
    }
    linkd_seat_blank(seat);
    *place = (struct place){.seat = seat};
    return place;
}

/* Under the lock: the seat reads the links of now. */
static bool refresh(struct place *place) {
    uint64_t changes = atomic_load(&world.changes);
    if (place->seen == changes) return true;
    if (linkd_seat_refresh(place->seat, world.linker) != LINKD_DONE) return false;
    place->seen = changes;
    return true;
}

/* ---- methods */

static struct method *new_method(JNIEnv *jni, jmethodID id) {
    jvmtiEnv *jvmti = world.jvmti;
    jclass from = NULL;
    jint flags = 0;
    struct method found = {.id = id, .number = NO_NUMBER};
    if ((*jvmti)->GetMethodDeclaringClass(jvmti, id, &from) != JVMTI_ERROR_NONE) return NULL;
    found.of = class_of(jni, from);
    found.loader = loader_of(jni, from);
    (*jni)->DeleteLocalRef(jni, from);
    struct method *method = malloc(sizeof *method);
    if (method == NULL || found.of == NULL || found.loader == NULL || (*jvmti)->GetMethodModifiers(jvmti, id, &flags) != JVMTI_ERROR_NONE ||
        (*jvmti)->GetMethodName(jvmti, id, &found.name, &found.type, NULL) != JVMTI_ERROR_NONE) {
        free(method);
        return NULL;
    }
    found.is_static = (flags & 0x0008) != 0;
    if (found.of->why == COMPARED) found.number = method_number(&found.of->read, text_of(found.name), text_of(found.type));
    *method = found;
    return method;
}

static struct method *method_of(JNIEnv *jni, jmethodID id) {
    struct method probe = {.id = id};
    struct method *method = table_find(&methods, &probe);
    if (method != NULL) return method;
    method = new_method(jni, id);
    return method != NULL && table_add(&methods, method) ? method : NULL;
}

/* ---- sites */

static enum left_out kind_of(const struct invocation *named) {
    if (named->dynamic) return DYNAMIC;
    if (named->of.at[0] == '[') return ARRAY_NAMED;
    bool handle = is_text(named->of, "java/lang/invoke/MethodHandle") || is_text(named->of, "java/lang/invoke/VarHandle");
    return handle ? POLYMORPHIC : COMPARED;
}

static struct site *new_site(const struct call *call) {
    struct site *site = calloc(1, sizeof *site);
    if (site == NULL) return NULL;
    const struct method *caller = call->caller;
    *site = (struct site){.caller = caller->id,
                          .pc = call->pc,
                          .of = caller->of,
                          .loader = caller->loader,
                          .method = caller->number,
                          .number = NO_NUMBER};
    if (site->of->why != COMPARED) site->why = site->of->why == HIDDEN_METHOD ? HIDDEN_CALLER : site->of->why;
    else if (site->method == NO_NUMBER) site->why = NOT_IN_FILE;
    else if (!invocation_at(&site->of->read, site->method, site->pc, &site->named)) site->why = BY_THE_MACHINE;
    else site->why = kind_of(&site->named);
    if (table_add(&sites, site)) return site;
    free(site);
    return NULL;
}

static struct site *site_of(const struct call *call) {
    struct site probe = {.caller = call->caller->id, .pc = call->pc};
    struct site *site = table_find(&sites, &probe);
    return site != NULL ? site : new_site(call);
}

size_t drop_links(const uint32_t *dropped, size_t count) {
    size_t kept = 0;
    for (size_t i = 0; i < count; i++) {
        struct site *site = calls.sites[dropped[i]];
        if (site == NULL) continue;
        site->linked = false;
        kept++;
    }
    return kept;
}

static enum left_out request(struct site *site) {
    linkd_told told;
    uint32_t status = linkd_request(world.linker, site->of->number, site->method, site->pc, &told);
    if (status == LINKD_SITES_FULL) return SITES_FULL;
    if (status == LINKD_MEMORY) return NO_MEMORY;
    if (status != LINKD_DONE) {
        count_refusal(status, told.fault);
        return REFUSED_SITE;
    }
    site->number = told.number;
    calls.sites[told.number] = site;
    if (told.number >= calls.site_count) calls.site_count = told.number + 1;
    accepted(NULL);
    return COMPARED;
}

/* A class that the link wants may be one that the caller's loader has recorded from another since. */
static enum left_out install(JNIEnv *jni, struct site *site) {
    linkd_told told;
    uint32_t status = linkd_install(world.linker, &site->number, 1, &told);
    if (status == LINKD_NOT_READY && site->tried != atomic_load(&world.changes)) {
        record_all(jni, site->of->loader);
        status = linkd_install(world.linker, &site->number, 1, &told);
        site->tried = atomic_load(&world.changes);
    }
    if (status != LINKD_DONE) return status == LINKD_NOT_READY ? UNLINKED : status == LINKD_MEMORY ? NO_MEMORY : REFUSED_SITE;
    site->linked = true;
    site->installed++;
    accepted(NULL);
    return COMPARED;
}

/* ---- what is gone: the machine may give its jmethodIDs to other methods */

static bool let_site_go(void *item) {
    struct site *site = item;
    if (!site->loader->gone) return false;
    if (site->number != NO_NUMBER) {
        calls.sites[site->number] = NULL;
        site->loader->sites++;
    }
    free(site);
    return true;
}

static bool let_method_go(void *item) {
    struct method *method = item;
    if (!method->loader->gone) return false;
    (*world.jvmti)->Deallocate(world.jvmti, (unsigned char *)method->name);
    (*world.jvmti)->Deallocate(world.jvmti, (unsigned char *)method->type);
    free(method);
    return true;
}

void forget_calls(void) {
    table_sweep(&sites, let_site_go);
    table_sweep(&methods, let_method_go);
}

void count_records(size_t *method_count, size_t *site_count) {
    *method_count = methods.count;
    *site_count = sites.count;
}

/* ---- a call */

static enum left_out find_receiver(struct call *call) {
    jobject object = NULL;
    if (call->method->is_static) return COMPARED;
    if ((*world.jvmti)->GetLocalInstance(world.jvmti, call->thread, 0, &object) != JVMTI_ERROR_NONE || object == NULL) return NOT_TOLD;
    jclass from = (*call->jni)->GetObjectClass(call->jni, object);
    call->receiver = class_of(call->jni, from);
    (*call->jni)->DeleteLocalRef(call->jni, from);
    (*call->jni)->DeleteLocalRef(call->jni, object);
    if (call->receiver == NULL) return NO_MEMORY;
    return call->receiver->why == HIDDEN_METHOD ? HIDDEN_RECEIVER : call->receiver->why;
}

/* Whether the instruction at the caller's pc may be what has made this call. */
static enum left_out invoked_here(const struct call *call) {
    const struct site *site = call->site;
    if (strcmp(call->method->name, "<clinit>") == 0) return INITIALIZER;
    if (site->why != COMPARED) return site->why;
    bool named = is_text(site->named.name, call->method->name) && is_text(site->named.type, call->method->type);
    return named ? COMPARED : BY_THE_MACHINE;
}

/* Under the lock: the site of the call is linked, and its receiver is a class of the linker. */
static enum left_out prepare(struct call *call, jmethodID caller, jmethodID method) {
    call->caller = method_of(call->jni, caller);
    call->method = method_of(call->jni, method);
    if (call->caller == NULL || call->method == NULL) return NO_MEMORY;
    call->site = site_of(call);
    if (call->site == NULL) return NO_MEMORY;
    enum left_out why = invoked_here(call);
    if (why == COMPARED) why = find_receiver(call);
    if (why == COMPARED) why = call->method->of->why;
    if (why == COMPARED && call->method->number == NO_NUMBER) why = NOT_IN_FILE;
    if (why == COMPARED && call->site->number == NO_NUMBER) why = call->site->why = request(call->site);
    if (why == COMPARED && !call->site->linked) why = install(call->jni, call->site);
    return why;
}

static uint32_t receiver_number(const struct call *call) { return call->receiver == NULL ? LINKD_NULL : call->receiver->number; }

static const struct class *class_numbered(uint32_t number) {
    for (uint32_t i = 0; i < world.class_count; i++) {
        if (world.classes[i] != NULL && world.classes[i]->number == number) return world.classes[i];
    }
    return NULL;
}

/* Under the lock. */
static void tell_difference(const struct call *call, const linkd_call_answer *answer) {
    const struct class *of = answer->kind == LINKD_RUN ? class_numbered(answer->class_number) : NULL;
    const struct invocation *named = &call->site->named;
    const struct method_text *runs = of != NULL && answer->value < of->read.method_count ? &of->read.methods[answer->value] : NULL;
    fprintf(stderr, "linkd: difference at %s.%s%s, pc %" PRIu32 ", which calls %.*s.%.*s%.*s on %s: the JVM runs %s.%s%s, linkd says ",
            call->caller->of->name, call->caller->name, call->caller->type, call->pc, (int)named->of.length, named->of.at,
            (int)named->name.length, named->name.at, (int)named->type.length, named->type.at,
            call->receiver == NULL ? "no object" : call->receiver->name, call->method->of->name, call->method->name, call->method->type);
    if (runs != NULL) {
        fprintf(stderr, "%s.%.*s%.*s\n", of->name, (int)runs->name.length, runs->name.at, (int)runs->type.length, runs->type.at);
    } else {
        fprintf(stderr, "kind %" PRIu32 ", value %" PRIu32 "\n", answer->kind, answer->value);
    }
}

/* What the link says by itself at the thread's seat, or, on a miss, what the linker says. */
static enum left_out ask(const struct call *call, const struct place *place, linkd_call_answer *answer) {
    uint32_t status = linkd_seat_call(place->seat, call->site->number, receiver_number(call), answer);
    if (status == LINKD_DONE && answer->kind == LINKD_MISS) {
        atomic_fetch_add(&calls.missed, 1);
        pthread_mutex_lock(&world.lock);
        status = world.linker == NULL ? (uint32_t)LINKD_CLOSED
                                      : linkd_call(world.linker, call->site->number, receiver_number(call), answer);
        pthread_mutex_unlock(&world.lock);
    }
    if (status != LINKD_DONE) return NOT_TOLD;
    return answer->kind == LINKD_UNLINKED ? UNLINKED : COMPARED;
}

static enum left_out compare(struct call *call, jmethodID caller, jmethodID method) {
    linkd_call_answer answer;
    struct place *place = own_place();
    if (place == NULL) return NO_MEMORY;
    pthread_mutex_lock(&world.lock);
    if (world.linker != NULL) retire_collected(call->jni);
    enum left_out why = world.linker == NULL ? NOT_TOLD : prepare(call, caller, method);
    if (why == COMPARED && !refresh(place)) why = NO_MEMORY;
    pthread_mutex_unlock(&world.lock);
    if (why == COMPARED) why = ask(call, place, &answer);
    if (why != COMPARED) return why;
    atomic_fetch_add(&calls.compared, 1);
    if (answer.kind == LINKD_RUN && answer.class_number == call->method->of->number && answer.value == call->method->number) return COMPARED;
    atomic_fetch_add(&calls.differences, 1);
    pthread_mutex_lock(&world.lock);
    tell_difference(call, &answer);
    pthread_mutex_unlock(&world.lock);
    return COMPARED;
}

void JNICALL on_method_entry(jvmtiEnv *jvmti, JNIEnv *jni, jthread thread, jmethodID method) {
    jmethodID caller = NULL;
    jlocation pc = 0;
    enum left_out why;
    uint64_t entry = atomic_fetch_add(&calls.entries, 1);
    if (entry >= calls.most) {
        if (entry == calls.most) (*jvmti)->SetEventNotificationMode(jvmti, JVMTI_DISABLE, JVMTI_EVENT_METHOD_ENTRY, NULL);
        return;
    }
    jvmtiError error = (*jvmti)->GetFrameLocation(jvmti, thread, 1, &caller, &pc);
    if (error == JVMTI_ERROR_NO_MORE_FRAMES) why = NO_CALLER;
    else if (error != JVMTI_ERROR_NONE) why = NOT_TOLD;
    else if (pc < 0) why = NATIVE_CALLER;
    else why = compare(&(struct call){.jni = jni, .thread = thread, .pc = (uint32_t)pc}, caller, method);
    if (why != COMPARED) atomic_fetch_add(&calls.left_out[why], 1);
}
