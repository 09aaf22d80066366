/* What the parts of the agent share. All but reading a seat is done under the lock of `world`. */
#ifndef LINKD_AGENT_H
#define LINKD_AGENT_H

#include "linkd.h"
#include <jvmti.h>
#include <pthread.h>
#include <stdatomic.h>
#include <stdbool.h>
#include <stddef.h>
#include <stdint.h>
#include <stdio.h>

enum { MOST_SITES = 1 << 20, MOST_ROWS = 8, MOST_TOLD = 10, HOLDER_LENGTH = 256, RETIRE_FAULTS = LINKD_TARGETED + 1 };

/* A number that the linker hasn't given. */
#define NO_NUMBER UINT32_MAX

/* ---- table.c: a hash table of pointers, whose keys lie in what they point to */

struct table {
    uint64_t (*hash)(const void *item);
    bool (*same)(const void *item, const void *other);
    void **slots;
    size_t capacity, count;
};

void *table_find(const struct table *table, const void *probe);
/* Adds an item that isn't there yet; false if there is no memory. */
bool table_add(struct table *table, void *item);
/* Takes each item out for which `let_go` says so; that may free it. Takes no memory. */
void table_sweep(struct table *table, bool (*let_go)(void *item));
uint64_t hash_bytes(const void *bytes, size_t length, uint64_t seed);

/* ---- class_file.c: what the agent has to know of a class file that the linker has accepted */

/* Modified UTF-8 of some length. */
struct text {
    const uint8_t *at;
    uint32_t length;
};

struct method_text {
    struct text name, type;
    const uint8_t *code; /* null where it has none */
    uint32_t code_length;
};

struct class_file {
    const uint8_t **pool; /* each entry's tag */
    uint32_t pool_count;
    struct method_text *methods;
    uint32_t method_count;
};

struct invocation {
    uint8_t opcode;
    bool dynamic;     /* an invokedynamic: it names no class */
    struct text of, name, type;
};

/* Reads a file that the linker has accepted, so nothing is checked here once more. It stays valid as long as the bytes do. */
bool read_class_file(const uint8_t *bytes, struct class_file *file);
void let_class_file_go(struct class_file *file);
/* The method of the file with this name and type, or NO_NUMBER. */
uint32_t method_number(const struct class_file *file, struct text name, struct text type);
/* Whether an invocation stands at the pc, which is one of an instruction, and which it is. */
bool invocation_at(const struct class_file *file, uint32_t method, uint32_t pc, struct invocation *found);
struct text text_of(const char *string);
bool same_text(struct text one, struct text other);
bool is_text(struct text one, const char *other);

/* ---- world.c: classes and loaders, as the linker has them */

/* Why a call isn't compared. */
enum left_out {
    COMPARED,
    NO_CALLER,
    NATIVE_CALLER,
    INITIALIZER,
    BY_THE_MACHINE,
    DYNAMIC,
    POLYMORPHIC,
    ARRAY_NAMED,
    HIDDEN_CALLER,
    HIDDEN_METHOD,
    HIDDEN_RECEIVER,
    ARRAY_RECEIVER,
    NO_FILE,
    REFUSED_CLASS,
    REDEFINED,
    NOT_IN_FILE,
    SITES_FULL,
    REFUSED_SITE,
    UNLINKED,
    NOT_TOLD,
    NO_MEMORY,
    REASONS
};

/* A class loader. The bootstrap loader is no object, and is loader 0 of the linker. */
struct loader {
    jweak object;
    char *name;      /* that of its object's class */
    uint32_t number; /* NO_NUMBER where the linker has no more, or needs not know it */
    bool going_on;   /* what it has recorded is being handed in */
    bool gone;       /* the machine has collected it: the agent has no class of it any more */
    bool going;      /* once it is gone: it goes with the linker's next retirement, or has gone with it */
    uint32_t classes, sites;    /* once it is gone: how many the linker has of it */
    uint32_t fault, place;      /* once it is gone: why the linker doesn't retire it, of its last refusal */
    struct loader *gone_before; /* the machine told of that one before */
};

/* The bytes with which a loader defines a class, from the hook on. Its name's bytes are its own. */
struct file {
    struct loader *loader;
    struct text name;
    uint8_t *bytes;
    size_t length;
    bool taken; /* a class was made of it */
};

struct class {
    const char *name;       /* that of its file, or its own where it has none */
    struct loader *loader;  /* null for what stands for all arrays, and for all hidden classes */
    uint32_t number;        /* NO_NUMBER where the linker hasn't it */
    enum left_out why;      /* its calls aren't compared */
    struct file *file;
    struct class_file read;
    bool waits, going_on; /* a parent isn't there yet; its definition isn't done yet */
    uint32_t dropped;     /* links, by its definition */
};

/* A class whose definition dropped links, be it gone since. */
struct dropper {
    char *name;
    uint32_t dropped;
};

/* What went by retirements. */
struct retired {
    uint32_t loaders, classes, sites;
    uint64_t links, kept_links; /* that were dropped; of these, at sites that stay */
};

/* The retirements that the linker has refused for one reason. */
struct refused_retirements {
    uint64_t count;
    char loader[HOLDER_LENGTH], holder[HOLDER_LENGTH]; /* of the last one */
};

/* A refusal by the linker. */
struct refusal {
    uint32_t status, fault;
    uint64_t count;
};

struct world {
    pthread_mutex_t lock;
    jvmtiEnv *jvmti;
    linkd *linker;                /* null before the agent is loaded, and after its report */
    atomic_uint_fast64_t changes; /* accepted events: a seat that has seen fewer is behind */
    struct class **classes;       /* by their tags; null where one is gone */
    uint32_t class_count, class_room;
    struct loader **loaders; /* in the order in which they came */
    uint32_t loader_count, loader_room;
    struct table files;
    struct refusal *refusals;
    uint32_t refusal_count;
    uint32_t loaderless; /* classes of loaders without a number */
    uint64_t dropped;
    struct dropper droppers[MOST_TOLD]; /* the gone classes that dropped most, falling */
    struct retired retired;
    struct refused_retirements refused_retirements[RETIRE_FAULTS]; /* by linkd_retire_fault */
};

extern struct world world;

bool open_world(jvmtiEnv *jvmti);
void close_world(void);
/* Keeps what the loader is about to define. */
void keep_file(JNIEnv *jni, jobject loader, const char *name, const uint8_t *bytes, size_t length);
/* The class has other code now. */
void forget_class(jclass from);
/* The class, which goes to the linker first where that hasn't it yet; null if there is no memory. */
struct class *class_of(JNIEnv *jni, jclass from);
/* The class's defining loader; null if there is no memory. */
struct loader *loader_of(JNIEnv *jni, jclass from);
/* Tells JNI that JVM TI has handed out so many local references, which are let go one by one. */
void expect_references(JNIEnv *jni, jint count);
/* Gives the linker what the loader has recorded from others. */
void record_all(JNIEnv *jni, struct loader *loader);
void count_refusal(uint32_t status, uint32_t fault);
/* Counts an event that the linker has accepted, by the definition of a class or of none, and the links that it dropped. */
void accepted(struct class *by);
/* The same, of a retirement. */
void accepted_retirement(void);
/* Counts the classes of loaders that are gone, and lets them go with their files. */
void forget_classes(void);
/* Puts a class among those that dropped most, falling, where it is one of them. */
void keep_dropper(struct dropper *droppers, const char *name, uint32_t dropped);

/* ---- unloading.c: loaders that the machine has collected */

/* Notes it. The collector may be at work, so it takes no lock and no memory, and asks nobody. */
void JNICALL on_object_free(jvmtiEnv *jvmti, jlong tag);
/* Under the lock: retires what the machine has collected. */
void retire_collected(JNIEnv *jni);
/* What holds a loader that the linker doesn't retire, by the place of the refusal. */
void name_holder(char *out, size_t length, uint32_t fault, uint32_t place);
void name_loader(char *out, size_t length, const struct loader *loader);

/* ---- calls.c: method entries, and the sites that they come from */

struct site {
    jmethodID caller; /* with pc the key */
    uint32_t pc;
    struct class *of;
    struct loader *loader; /* of the caller's class, be it hidden */
    uint32_t method, number; /* NO_NUMBER where it isn't requested: `why` not */
    enum left_out why;
    struct invocation named;
    bool linked;
    uint32_t installed; /* how often */
    uint64_t tried;     /* how many events there were when a class was wanted in vain */
};

struct calls {
    uint64_t most; /* entries that are looked at */
    atomic_uint_fast64_t entries, compared, missed, differences, left_out[REASONS];
    struct site **sites; /* by the linker's numbers; null where one is gone */
    uint32_t site_count;
};

extern struct calls calls;

bool open_calls(void);
void JNICALL on_method_entry(jvmtiEnv *jvmti, JNIEnv *jni, jthread thread, jmethodID method);
/* The links of these sites went. Says how many of the sites are not gone. */
size_t drop_links(const uint32_t *sites, size_t count);
/* Counts the requested sites of loaders that are gone, and lets all sites and methods of these go. */
void forget_calls(void);
/* How many methods and sites, requested or not, are kept. */
void count_records(size_t *method_count, size_t *site_count);

/* ---- report.c */

/* Says what was seen, as text or as JSON. Where there is a prefix, each requested site of a class whose name begins so is told. */
void report(FILE *to, bool json, const char *prefix);

#endif
