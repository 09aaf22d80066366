/* A small Java Virtual Machine whose every invocation is linked by linkd.
 *
 * The machine itself reads class files, resolves classes and fields, initializes classes and interprets bytecodes. Which method an
 * invocation runs it never decides: link.c asks the linker, and keeps at the instruction what a link says until the linker drops it.
 * Words are those of the Java Virtual Machine Specification (JVMS), whose sections stand in parentheses.
 *
 * Who may write what:
 *  - classes, loaders, constants, interned texts and all that is asked of the linker: the thread that holds the lock (threads.c);
 *  - what other threads read without the lock is published by RELEASE and read by ACQUIRE;
 *  - what a collection changes: the collecting thread, while all others stand at safepoints. */
#ifndef VM_H
#define VM_H

#include <stdbool.h>
#include <stddef.h>
#include <stdint.h>
#include <stdio.h>
#include <stdlib.h>
#include <string.h>

typedef struct Class Class;
typedef struct Method Method;
typedef struct Field Field;
typedef struct Site Site;
typedef struct Link Link;
typedef struct CallSite CallSite;
typedef struct SwitchPoint SwitchPoint;
typedef struct Reader Reader;
typedef struct Thread Thread;

#define ACQUIRE(place) __atomic_load_n(&(place), __ATOMIC_ACQUIRE)
#define RELEASE(place, value) __atomic_store_n(&(place), value, __ATOMIC_RELEASE)
#define RELAXED(place) __atomic_load_n(&(place), __ATOMIC_RELAXED)
#define SET_RELAXED(place, value) __atomic_store_n(&(place), value, __ATOMIC_RELAXED)

/* ---- values */

typedef struct Object {
    Class *cls;
    uint32_t hash; /* the identity hash, 0 until it is asked for */
    union {
        uint32_t length; /* of an array */
        uint32_t lock;   /* of another object: see monitors.c */
    };
} Object; /* fields, or an array's elements, lie after it, from HEADER on */

enum { HEADER = sizeof(Object) };
enum { HANDLE_ROOM = 56 }; /* what the machine has in a MethodHandle or a VarHandle */
enum { FULL_POWER = 95 }; /* of a MethodHandles.Lookup: all modes */

typedef union Slot { /* a local or an operand; a long or a double takes two, and stands in the first */
    int32_t i;
    int64_t j;
    float f;
    double d;
    Object *a;
} Slot;

#define DATA(object, type) ((type *)((char *)(object) + HEADER))
#define AT(object, offset, type) (*(type *)((char *)(object) + (offset)))

static inline Slot of_ref(Object *object) { return (Slot){.a = object}; }
static inline Slot of_int(int32_t value) { Slot slot; slot.j = 0; slot.i = value; return slot; }
static inline Slot of_long(int64_t value) { return (Slot){.j = value}; }
#define NOTHING ((Slot){.j = 0})

/* ---- class files (4) */

enum access_flag { /* Tables 4.1-B, 4.5-A, 4.6-A */
    ACC_PUBLIC = 1, ACC_PRIVATE = 2, ACC_PROTECTED = 4, ACC_STATIC = 8, ACC_FINAL = 16, ACC_SYNCHRONIZED = 32, ACC_VOLATILE = 64,
    ACC_VARARGS = 128, ACC_NATIVE = 256, ACC_INTERFACE = 512, ACC_ABSTRACT = 1024, ACC_SYNTHETIC = 4096, ACC_ENUM = 16384
};

enum constant_tag { /* Table 4.4-A */
    CONSTANT_Utf8 = 1, CONSTANT_Integer = 3, CONSTANT_Float = 4, CONSTANT_Long = 5, CONSTANT_Double = 6, CONSTANT_Class = 7,
    CONSTANT_String = 8, CONSTANT_Fieldref = 9, CONSTANT_Methodref = 10, CONSTANT_InterfaceMethodref = 11, CONSTANT_NameAndType = 12,
    CONSTANT_MethodHandle = 15, CONSTANT_MethodType = 16, CONSTANT_Dynamic = 17, CONSTANT_InvokeDynamic = 18, CONSTANT_Module = 19,
    CONSTANT_Package = 20
};

enum reference_kind { /* Table 5.4.3.5-A */
    REF_getField = 1, REF_getStatic = 2, REF_putField = 3, REF_putStatic = 4, REF_invokeVirtual = 5, REF_invokeStatic = 6,
    REF_invokeSpecial = 7, REF_newInvokeSpecial = 8, REF_invokeInterface = 9
};

typedef struct Constant {
    uint8_t tag;
    bool resolved;    /* `is` is what was resolved */
    uint16_t a, b;    /* the numbers that it has in the file */
    const char *text; /* of a CONSTANT_Utf8: the one copy of that text */
    void *place;      /* what a quick ldc pushes, or where a static field is */
    union {
        Slot value;
        Class *cls;
        Field *field;
    } is;
} Constant;

typedef struct Bytes {
    const uint8_t *at;
    uint32_t length;
} Bytes;

static inline uint16_t u2(const uint8_t *at) { return (uint16_t)(at[0] << 8 | at[1]); }
static inline uint32_t u4(const uint8_t *at) { return (uint32_t)at[0] << 24 | (uint32_t)at[1] << 16 | (uint32_t)at[2] << 8 | at[3]; }

struct Field {
    Class *cls;
    const char *name, *type;
    uint16_t flags, constant, index;
    uint32_t offset; /* in the object, or in the class's mirror */
    const char *signature;
    Bytes annotations;
};

typedef struct Handler {
    uint16_t start, end, at, type;
} Handler;

/* The arguments, as they lie on the operand stack; the result. An exception stands in self->exception. */
typedef Slot (*Native)(Slot *args);

struct Method {
    Class *cls;
    const char *name, *type;
    uint16_t flags, index; /* index: the place among those that the class declares, as the linker numbers them */
    uint16_t nargs, max_stack, max_locals, handler_count;
    char result;  /* the first letter of the result's type */
    bool ready;   /* code and sites are there */
    bool hidden;  /* not shown in stack traces and by reflection */
    bool simple;  /* a call only has to make a frame */
    uint8_t *code;
    uint32_t code_length, site_count;
    Site *sites; /* the invocations in the code, by pc */
    Handler *handlers;
    Native native;
    Bytes code_bytes, lines, annotations, parameter_annotations, default_value;
    const char *signature;
    uint16_t *throws;
    uint16_t throw_count;
};

typedef struct Bootstrap {
    uint16_t handle, count;
    const uint8_t *args;
} Bootstrap;

enum class_state { LOADED, STARTED, READY, FAILED }; /* (5.5) */

struct Class {
    Class *super, **interfaces;
    const char *name; /* as java/lang/String, [I, int */
    uint32_t number;  /* the linker's; of an array that of java/lang/Object, whose methods it has */
    uint32_t loader;
    uint16_t flags, interface_count, field_count, method_count, constant_count, depth;
    uint8_t state;
    Thread *starter; /* the thread that initializes it */
    char primitive;  /* I of int, and so on; else 0 */
    bool hidden;
    Class *element, *array_of;
    uint8_t shift; /* of an array: an element has 1 << shift bytes */
    uint32_t size, static_size;
    Class **ancestors, **all_interfaces; /* superclasses from java/lang/Object on, itself the last; superinterfaces */
    uint32_t all_interface_count;
    Constant *constants;
    Field *fields;
    Method *methods;
    Object *mirror; /* its java.lang.Class, in which its static fields lie */
    Bytes file;
    Bootstrap *bootstraps;
    uint16_t bootstrap_count;
    const char *source, *signature, *nest_host;
    Bytes inner, enclosing, annotations, record, permitted;
    uint8_t layout;          /* how the collector goes through its objects: see collect.c */
    uint32_t made;           /* classes that were made for it at run time */
    uint32_t *refs, ref_count; /* where references stand in its objects */
};

/* A loader's number here stays while the loader lives; that of the linker may become another one by a renewal. */
typedef struct Loader {
    Object *object;
    uint32_t number; /* the linker's */
    bool used, marked;
    bool dead; /* nothing reaches it, and it isn't retired yet */
    Class **classes, **recorded; /* that it has defined; of other loaders */
    uint32_t class_count, class_room, recorded_count, recorded_room;
} Loader;

enum { MOST_LOADERS = 65536 };
enum { BOOT_LOADER = 0, CLASS_PATH_LOADER = 1, FIRST_OWN_LOADER = 2 }; /* numbers of loaders; the others are objects of programs */
extern Loader loaders[MOST_LOADERS];
extern uint32_t loader_count;

/* ---- invocations */

enum link_form {
    LINK_NONE,   /* nothing is known: the linker is asked */
    LINK_PLAIN,  /* each call runs `method` */
    LINK_DIRECT, /* the same, after a check for null */
    LINK_TABLE,  /* by the receiver's class */
    LINK_MEGA,   /* by the memo, or the linker */
    LINK_FAULT,  /* each call throws */
    LINK_ARRAY,  /* it names an array type: clone, or a method of java/lang/Object */
    LINK_POLYMORPHIC, /* it names a method of VarHandle or MethodHandle */
    LINK_ASK     /* as the form of any other: link_call goes by the kind; with --seat or --check */
};

typedef struct Row {
    Class *receiver;
    Method *method; /* NULL: throws */
    uint32_t throws;
} Row;

/* What is kept at an invocation. It isn't written once it is published; threads that still read one that was dropped may go on. */
struct Link {
    uint8_t form, kind; /* by which the interpreter goes at once, and link_call */
    uint8_t count;      /* of the rows of a table */
    bool interface;     /* of a table: that of an invokeinterface */
    uint32_t throws;    /* where there is no method */
    Method *method;
    Link *older; /* in the list of dropped ones, which are freed at a collection */
    Row rows[];
};

struct Site {
    Link *link;
    Method *caller;
    CallSite *call_site; /* to which an invokedynamic is bound */
    uint32_t number;     /* the linker's */
    uint16_t pc, nargs;
    uint8_t opcode;
    bool requested;
};

enum call_site_kind { CONSTANT_SITE = 1, MUTABLE_SITE, VOLATILE_SITE };
enum target_kind { TARGET_METHOD, TARGET_GUARD, TARGET_INVOKER };
enum { MOST_PARTS = 128 }; /* of a target */

/* A part of a call site's target. After a guard come its first part and its fallback, each with all that belongs to it. */
typedef struct Target {
    enum target_kind kind;
    Method *method;            /* a static one */
    SwitchPoint *switch_point;
    CallSite *call_site;       /* whose dynamic invoker this is */
} Target;

struct CallSite {
    uint32_t number; /* the linker's */
    uint32_t loader; /* of the class in which the bound invokedynamic stands; MOST_LOADERS: of a java.lang.invoke.CallSite */
    Object *object;  /* that, which this doesn't keep; or the MethodHandle that it runs, which is kept while the loader is; or NULL */
    bool gone;
};

/* ---- threads */

typedef struct Frame {
    Method *method;
    uint8_t *pc; /* the instruction that is being executed */
    Slot *locals;
    Object *locked; /* of a synchronized method */
} Frame;

typedef struct ThreadCounts {
    uint64_t calls, slow, mega, mega_hits, seat_misses, refreshes, checked, natives, allocations;
    uint64_t checked_by[LINK_ASK];
} ThreadCounts;

struct Thread {
    Object *object; /* its java.lang.Thread */
    Frame *frames;
    uint32_t depth, max_depth;
    Slot *stack, *top, *stack_end;
    Object *exception; /* that is thrown */
    char *free, *free_end; /* where it allocates */
    uint32_t locked;       /* how many times it holds the lock */
    uint32_t id;           /* in monitors, from 1 on */
    Reader *reader;        /* its seat and its memo (link.c) */
    ThreadCounts counts;
    uint32_t random;
    char *texts[256]; /* the last ones of text_of */
    uint32_t next_text;
    struct Standing *standing; /* threads.c */
};

extern _Thread_local Thread *self;

/* ---- the machine */

typedef struct Counts { /* written under the lock */
    ThreadCounts threads; /* of those that have ended */
    uint64_t defined, lambdas, concatenations, delegations, requests, installs, waits, dropped, targets, invalidations, binds, selections,
        resolutions;
    uint64_t by_kind[LINK_ASK];
    uint64_t collections, retired_loaders, retired_classes, released_call_sites, released_switch_points, renewals, cleared, enqueued;
    uint64_t live; /* bytes, after the last collection */
    uint64_t define_ns, link_ns, collect_ns, retire_ns, renew_ns, start_ns;
    uint64_t defined_since; /* classes of the program's own loaders, since the last collection */
} Counts;

typedef struct VM {
    bool use_seat, eager, check, stats, trace;
    bool booted; /* the runtime has started; before that nothing is collected */
    bool collects, poison, trace_collections, assertions;
    uint32_t patience; /* with --seat: how many calls miss before the seat is refreshed */
    uint64_t collect_every, renew_every, unload_every;
    uint32_t most_sites, most_loaders, most_classes, most_call_sites, most_switch_points;
    bool stop; /* a thread wants the others to stand at safepoints */
    size_t heap_size;
    Object *module; /* the one module: unnamed */
    Class *object, *string, *class_class, *throwable, *cloneable, *serializable, *primitives[128], *arrays[128];
    const char *class_path, *java_home;
    char **properties;
    int property_count;
    Counts counts;
} VM;

extern VM vm;

/* ---- classfile.c: class files, for what the linker doesn't give */
const char *intern(const char *text); /* the one copy of a text */
const char *intern_n(const char *text, size_t length);
Class *parse_class(Bytes file);
void prepare_code(Method *method);
Method *declared(Class *cls, const char *name, const char *type); /* in this class alone; of any type where that is NULL */
Method *must_declare(Class *cls, const char *name, const char *type);
Field *find_field(Class *cls, const char *name, const char *type);
int line_of(Method *method, int pc);
const char *next_type(const char *type); /* after one field descriptor */
uint16_t slots_of(const char *type);     /* of a method descriptor's parameters */
static inline int width_of(char type) { return type == 'V' ? 0 : type == 'J' || type == 'D' ? 2 : 1; }
static inline const char *constant_text(Class *cls, uint16_t index) { return cls->constants[index].text; }
static inline const char *class_name_at(Class *cls, uint16_t index) { return cls->constants[cls->constants[index].a].text; }

/* ---- image.c: the file lib/modules of a JDK */
void image_open(const char *java_home);
bool image_find(const char *name, Bytes *file); /* of a class */
Bytes image_bytes(void); /* the whole file */

/* ---- loader.c: loaders and definitions (5.3) */
Class *load_class(const char *name, uint32_t loader);     /* NULL with an exception */
Class *find_class(const char *name, uint32_t loader);     /* NULL without one, where there is none */
Class *recorded_class(const char *name, uint32_t loader); /* NULL where the loader hasn't one yet */
Class *boot_class(const char *name);                      /* has to be there */
Class *define_class(uint32_t loader, Bytes file, const char *name, bool made); /* NULL with an exception; made: by the machine itself */
Class *class_of_type(const char *type, size_t length, uint32_t loader); /* of a field descriptor */
Class *array_class(Class *element);
Class *mirror_class(Object *mirror);
uint32_t loader_number(Object *loader); /* with an exception where there may be no more */
void set_loader_object(uint32_t number, Object *loader);
void boot_classes(void);
void complete_mirrors(void);
void forget_dead_loaders(void);
void class_gone(Class *cls);

/* ---- resolve.c: resolution (5.4.3) and initialization (5.5); false or NULL with an exception */
bool is_subclass(Class *below, Class *above); /* or the same, or an array of such */
Class *resolve_class(Class *cls, uint16_t index);
Field *resolve_field(Class *cls, uint16_t index, bool is_static);
bool resolve_constant(Class *cls, uint16_t index);
bool init_class(Class *cls);

/* ---- link.c: what is asked of the linker */
void link_open(void);
uint32_t link_new_loader(void); /* the linker's number, or 0 */
const char *link_check(Bytes file, char *reason, size_t room); /* the class of an error, or NULL; and so the next */
const char *link_define(uint32_t loader, Class *cls, char *reason, size_t room);
void link_delegate(uint32_t loader, const char *name, uint32_t to);
void make_sites(Method *method);
Site *site_at(Method *method, uint32_t pc);
Constant *site_reference(Site *site); /* what the instruction names */
Method *link_call(Site *site, Slot *args); /* the method that runs; NULL with an exception, or at a LINK_POLYMORPHIC */
Method *link_select(Method *method, Object *receiver); /* that runs where no code calls, as by reflection; NULL with an exception */
Method *link_resolve(Class *from, Class *named, const char *name, const char *type); /* of a reference (5.4.3.3); NULL with an exception */
bool link_accessible(Class *from, Class *cls); /* (5.4.4) */
CallSite *link_new_call_site(enum call_site_kind kind, const char *type, const Target *target, size_t count, uint32_t loader, Object *object);
bool link_bind(Site *site, CallSite *call_site);
bool link_set_target(CallSite *call_site, const Target *target, size_t count);
SwitchPoint *link_new_switch_point(Object *object);
void link_invalidate(SwitchPoint *const *which, size_t count);
bool link_is_invalid(SwitchPoint *which);
void link_free_dropped(void);
Reader *link_new_reader(void);
void link_reader_gone(Reader *reader);

/* ---- unload.c: what goes, at the end of a collection */
void find_dead_call_sites(void); /* after marking: and switch points */
void link_retire_dead(void);
bool link_is_short(void);
void link_renew(void);
void link_catch_up(void); /* after a collection that has retired loaders */

/* ---- generate.c, bridges.c: classes that are made at run time */
bool link_dynamic(Site *site); /* gives an invokedynamic its call site; false with an exception */
Bytes with_bridges(Bytes file, Class *parsed); /* the file with a method for each lambda of the class */

/* ---- heap.c: where objects are allocated */
Object *alloc(Class *cls, size_t size);
Object *new_object(Class *cls);
Object *new_array(Class *array, int32_t length); /* of an array class; NULL with an exception */
Object *new_array_of(const char *type, int32_t length);

/* ---- collect.c: the collector */
void collect(bool clear_soft);
void find_layout(Class *cls);
void mark(Object *object);
void mark_words(void *from, void *to);
void mark_frames(Frame *frames, uint32_t depth);
bool is_marked(Object *object);
void mark_method_loader(Method *method); /* of a method that may be called */
Object *take_pending_references(void);
bool has_pending_references(void);
void wait_for_pending_references(void);

/* ---- object.c: strings, fields, boxes */
void strings_open(void);
Object *new_string(const char *utf8);
Object *string_of(const char *utf8); /* the one string of this text */
Object *intern_string(Object *string);
void sweep_interned(void);
char *text_of(Object *string); /* in UTF-8; it stays for the thread's next 255 */
uint32_t identity_hash(Object *object);
Slot get_field(Object *object, const char *name, const char *type);
void set_field(Object *object, const char *name, const char *type, Slot value);
Slot get_static(Class *cls, const char *name, const char *type);
void set_static(Class *cls, const char *name, const char *type, Slot value);
Slot load_as(char type, const void *at);
void store_as(char type, void *at, Slot value);
Object *box(char type, Slot value);
bool unbox(Object *object, char type, Slot *value); /* false where it can't be; widens */

/* ---- throw.c: exceptions and stack traces */
Slot throw_new(const char *cls, const char *format, ...) __attribute__((format(printf, 2, 3)));
Slot throw_object(Object *exception);
Slot throw_null(void);
Slot throw_wrapped(const char *cls, Object *cause);
void throw_cast(Object *object, Class *to);
Slot fill_in_stack_trace(Slot *args);
Slot init_stack_trace_elements(Slot *args);
Frame *java_caller(int above); /* the frame so many above the native's, hidden ones and reflection left out */
const char *dotted(const char *name);
const char *slashed(const char *name);

/* ---- interpreter.c */
Slot invoke(Method *method, Slot *args, int count); /* runs it to its end; an exception may stand in self->exception */

/* ---- threads.c: threads of the host, the lock and safepoints */
void lock(void);   /* no Java code runs, and no monitor is waited for, while it is held */
void unlock(void);
void lock_wait(void); /* until lock_notify, without the lock meanwhile */
void lock_notify(void);
void stop_the_world(void);  /* takes the lock; returns once all others stand at safepoints */
void start_the_world(void);
void safepoint(void);
void enter_safe(void); /* from here on the world may stop while this thread goes on: it touches no object */
void leave_safe(void);
void threads_open(void *stack_base);
void threads_boot(Object *object);
void thread_start(Object *object);
void threads_finish(void);
Thread *each_thread(Thread *after); /* of all, in a stopped world; NULL at the end */
void mark_threads(void);
void thread_sleep(int64_t milliseconds);
void thread_park(bool absolute, int64_t time);
void thread_unpark(Object *object);
void thread_interrupt(Object *object);
void end_process(int status) __attribute__((noreturn));

/* ---- monitors.c */
void monitor_enter(Object *object);
bool monitor_exit(Object *object); /* false with an exception */
bool monitor_held(Object *object);
void monitor_wait(Object *object, int64_t milliseconds);
void monitor_notify(Object *object, bool all);
void mark_monitors(void);

/* ---- stats.c */
void print_stats(FILE *to);
uint64_t now_ns(void);
void add_counts(ThreadCounts *to, const ThreadCounts *from);

/* ---- natives: tables of class, name, type and function */
typedef struct NativeRow {
    const char *cls, *name, *type; /* of any type where that is NULL */
    Native native;
} NativeRow;
#define NATIVE(name) static Slot name(__attribute__((unused)) Slot *args)
Native find_native(Method *method);
Slot native_nothing(Slot *args); /* gives 0, or null */
Slot native_yes(Slot *args);
void replace_methods(Class *cls); /* natives in the place of bodies */
extern const NativeRow lang_natives[], system_natives[], class_natives[], member_natives[], unsafe_natives[], file_natives[], nio_natives[],
    invoke_natives[];

Object *byte_array(Bytes bytes); /* natives_class.c */

/* ---- java.lang.invoke: variables.c, handles.c, natives_invoke.c */
Slot variable_call(const char *name, Object *handle, Slot *args);
void mark_variable(Object *handle);
Slot polymorphic_call(Site *site, Slot *args); /* a method of VarHandle or MethodHandle (2.9.3) */
bool is_polymorphic(Method *method); /* whether it is one, which isn't static */
Slot call_polymorphic(const char *name, const char *type, Slot *args); /* on a receiver */
void mark_handle(Object *handle);
void mark_call_site(CallSite *call_site);
bool dynamic_by_bootstrap(Site *site);
SwitchPoint *switch_point_of(Object *object);
Object *method_type_of(const char *type, uint32_t loader); /* NULL with an exception; and so the next */
Object *method_handle_of(Class *cls, uint16_t index);

#endif
