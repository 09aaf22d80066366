#include "agent.h"
#include "../host/names.h"
#include <inttypes.h>
#include <stdlib.h>

/* What the machine has told of since the last look, the latest first. */
static struct loader *_Atomic collected;

void JNICALL on_object_free(jvmtiEnv *jvmti, jlong tag) {
    (void)jvmti;
    if (tag >= 0) return; /* a class goes with its loader */
    struct loader *loader = (struct loader *)(uintptr_t)-tag;
    loader->gone_before = atomic_load(&collected);
    while (!atomic_compare_exchange_weak(&collected, &loader->gone_before, loader)) {}
}

/* ---- names for a report */

void name_loader(char *out, size_t length, const struct loader *loader) {
    snprintf(out, length, "loader %" PRIu32 ", a %s", loader->number, loader->name == NULL ? "class without a name" : loader->name);
}

static void name_class(char *out, size_t length, uint32_t number) {
    char name[HOLDER_LENGTH];
    size_t written = 0;
    if (linkd_class_name(world.linker, number, (uint8_t *)name, sizeof name, &written) != LINKD_DONE) written = 0;
    snprintf(out, length, "class %" PRIu32 ", %.*s", number, (int)written, name);
}

/* The loader of this number, or null where the agent has none. */
static struct loader *numbered(uint32_t number) {
    for (uint32_t i = 0; i < world.loader_count; i++) {
        if (world.loaders[i]->number == number) return world.loaders[i];
    }
    return NULL;
}

void name_holder(char *out, size_t length, uint32_t fault, uint32_t place) {
    if (fault == LINKD_INHERITED) {
        name_class(out, length, place);
        return;
    }
    if (fault == 0) snprintf(out, length, "want of memory");
    else snprintf(out, length, "%s %" PRIu32, fault == LINKD_TARGETED ? "call site" : "loader", place);
    const struct loader *loader = fault == LINKD_RECORDED ? numbered(place) : NULL;
    if (loader != NULL) name_loader(out, length, loader);
}

/* ---- retirements */

static void count_refused(struct loader *loader, const linkd_told *told) {
    struct refused_retirements *refused = &world.refused_retirements[told->fault];
    loader->fault = told->fault;
    loader->place = told->place;
    refused->count++;
    name_loader(refused->loader, sizeof refused->loader, loader);
    name_holder(refused->holder, sizeof refused->holder, told->fault, told->place);
}

/* The numbers of the loaders that are to go with the next call. */
static uint32_t list_going(uint32_t *numbers) {
    uint32_t count = 0;
    for (uint32_t i = 0; i < world.loader_count; i++) {
        if (world.loaders[i]->going) numbers[count++] = world.loaders[i]->number;
    }
    return count;
}

/* The linker has them no more, or says which one can't go: that one stays. Else all stay. */
static bool retire_listed(const uint32_t *numbers, uint32_t count) {
    linkd_told told;
    uint32_t status = linkd_retire_all(world.linker, numbers, count, &told);
    if (status == LINKD_DONE) {
        accepted_retirement();
        return true;
    }
    struct loader *held = status == LINKD_RETIRE && told.fault < RETIRE_FAULTS ? numbered(told.number) : NULL;
    if (held == NULL || !held->going) {
        count_refusal(status, told.fault);
        for (uint32_t i = 0; i < world.loader_count; i++) world.loaders[i]->going = false;
        return true;
    }
    count_refused(held, &told);
    held->going = false;
    return false;
}

/* All that the machine has collected go at once, but for those that a loader holds that stays. The agent makes no call sites. A host that does
 * releases those of the collected loaders here first (linkd_release), since their targets hold loaders. */
static void retire_gone(void) {
    uint32_t count, *numbers = malloc(world.loader_count * sizeof *numbers);
    if (numbers == NULL) {
        count_refusal(LINKD_MEMORY, 0);
        return;
    }
    for (uint32_t i = 0; i < world.loader_count; i++) {
        world.loaders[i]->going = world.loaders[i]->gone && world.loaders[i]->number != NO_NUMBER;
    }
    do {
        count = list_going(numbers);
    } while (count > 0 && !retire_listed(numbers, count));
    free(numbers);
}

static void let_loader_go(struct loader *loader) {
    if (loader->going) {
        world.retired.loaders++;
        world.retired.classes += loader->classes;
        world.retired.sites += loader->sites;
    }
    free(loader->name);
    free(loader);
}

/* The agent, too, lets go what the linker has no more. */
static void let_loaders_go(void) {
    uint32_t kept = 0;
    for (uint32_t i = 0; i < world.loader_count; i++) {
        struct loader *loader = world.loaders[i];
        if (loader->gone && (loader->going || loader->number == NO_NUMBER)) let_loader_go(loader);
        else world.loaders[kept++] = loader;
    }
    world.loader_count = kept;
}

void retire_collected(JNIEnv *jni) {
    if (atomic_load(&collected) == NULL) return;
    for (struct loader *loader = atomic_exchange(&collected, NULL); loader != NULL; loader = loader->gone_before) {
        loader->gone = true;
        if (loader->object != NULL) (*jni)->DeleteWeakGlobalRef(jni, loader->object);
        loader->object = NULL;
    }
    forget_calls();
    forget_classes();
    retire_gone();
    let_loaders_go();
}
