/* linkd: which method does this JVM call run, now? A proved devirtualizing linker, as a library for C and C++.
 *
 * A linker is a block of linkd_size() bytes at a multiple of linkd_align(). The caller has the block, as from aligned_alloc, the stack or an
 * arena. linkd_blank makes a linker of it, and linkd_open opens that. After linkd_close the block is only memory again: it holds nothing.
 * There are four more kinds of blocks, made and left the same way:
 *  - a seat is one thread's place to read links without a lock;
 *  - a memo is what one thread remembers of calls at megamorphic links;
 *  - a view is what there was to link when it was taken: in it a compiler prepares links without a lock;
 *  - a renewal makes a fresh linker while the old one goes on.
 *
 * What a caller owes, since nothing checks it:
 *  - A linker, a seat, a memo, a view or a renewal is passed only between its blank and the end of its block. In between the block isn't moved
 *    or written.
 *  - One call at a time is made on each of them. Another thread may make the next call if a lock, a join or a seq_cst atomic orders the two.
 *  - Texts, arrays and out places are valid for the call. So are those of length 0, whose pointer isn't null, either. An out place is no part
 *    of the linker, seat, memo, view or renewal, of what is read, or of another out place.
 *  - Before its block goes, a linker or a memo is closed, and a seat, a view or a renewal left. Each may be done more than once.
 *  - No call is made from a signal handler, or in the forked child of a process with threads.
 *  - malloc, realloc and free come from one allocator.
 *
 * A linker's memory grows with the loaders, classes, delegations, sites, call sites and switch points that were ever given, and with nothing
 * else. Of its other events (targets, invalidations, installs) it keeps at most some thousand of the last ones, and forgets the others.
 * While a renewal in steps is under way it forgets none: they are kept until the renewal ends or is left.
 */
#ifndef LINKD_H
#define LINKD_H

#include <stddef.h>
#include <stdint.h>

#ifdef __cplusplus
extern "C" {
#endif

/* Grows with each change of this header that a library has to follow. linkd_version() tells the library's. */
#define LINKD_VERSION 12

typedef struct linkd linkd;
typedef struct linkd_seat linkd_seat;
typedef struct linkd_memo linkd_memo;
typedef struct linkd_view linkd_view;
typedef struct linkd_renewal linkd_renewal;

/* What a call answers: LINKD_DONE, why the linker refuses an event, or why it wasn't asked. Unless it is LINKD_DONE nothing has changed: the
 * linker and the seat are as before. The one exception is linkd_answer without memory; see there. The sections named are those of the Java
 * Virtual Machine Specification, SE 17. The enum of a fault, a cause or a value depends on the status or the kind, so it is a uint32_t: cast
 * it before a switch, as to linkd_define_fault. */
typedef enum linkd_status {
    LINKD_DONE = 0,
    LINKD_DEFINE = 1,          /* a class isn't defined (5.3.5): fault is a linkd_define_fault */
    LINKD_UNKNOWN_CLASS = 2,   /* there is no class of this number or name; of a request, also a retired one */
    LINKD_NO_SUCH_PLACE = 3,   /* the class has no such method, or no invocation there */
    LINKD_NOT_LINKABLE = 4,    /* fault is a linkd_not_linkable_fault */
    LINKD_SITES_FULL = 5,      /* there are as many as the linker may have */
    LINKD_CALL_SITE = 6,       /* fault is a linkd_call_site_fault */
    LINKD_NOT_DYNAMIC = 7,     /* the site is no invokedynamic */
    LINKD_ALREADY_BOUND = 8,   /* place is the call site that it is bound to */
    LINKD_TYPE_MISMATCH = 9,
    LINKD_STALE = 10,          /* place is the first site whose given link isn't the one from scratch now */
    LINKD_NOT_READY = 11,      /* place is the first site that has no link from scratch now, or in a view had none then */
    LINKD_UNKNOWN_SITE = 12,   /* place is the number under which nothing was requested; of a bind, also a site of a retired class */
    LINKD_REPEATED = 13,       /* place is the site that comes twice */
    LINKD_BATCH_SIZE = 14,     /* no sites, or more than 256 */
    LINKD_MEMORY = 15,         /* want of memory; of a call that is given bytes, text or an array, maybe in the place of another refusal */
    LINKD_DELEGATE = 16,       /* fault is a linkd_delegate_fault */
    LINKD_LOADERS_FULL = 17,   /* there are as many as the linker may have */
    LINKD_RETIRE = 19,         /* fault is a linkd_retire_fault */
    LINKD_RELEASE = 20,        /* fault is a linkd_release_fault */
    LINKD_NO_CLASS_FILE = 32,  /* the bytes are no class file: fault is a linkd_class_fault */
    LINKD_MALFORMED = 33,      /* a kind, type, target or link that is none, a number that is too large, or another linker than a renewal's */
    LINKD_CLOSED = 34,         /* the linker or the memo isn't open, the seat was never refreshed, the view never taken, or no renewal begun */
    LINKD_OPEN_ALREADY = 35,   /* of a renewal, that it has begun */
    LINKD_TOO_SHORT = 36,      /* the array is too short; the length that is wanted was written, if there is a place for it */
    LINKD_RELEASED = 37        /* since a renewal's begin an event has named what was released: see at linkd_renewal_fill */
} linkd_status;

/* What an event made, or why it was refused. A number that says nothing is 0. It is written whatever the status is. */
typedef struct linkd_told {
    uint32_t number;  /* of the loader, class, site, call site or switch point that the event made or found; see at linkd_retire_all */
    uint32_t fault;   /* why, more closely, by the status */
    uint32_t place;   /* where, by the status or the fault */
    uint32_t cause;   /* why, still more closely: of a class file's pool or code */
    uint32_t at;      /* the pc of a fault of a code */
    uint32_t dropped; /* how many links the event removed: linkd_dropped has the sites */
} linkd_told;

typedef enum linkd_define_fault {
    LINKD_UNKNOWN_LOADER = 1, /* never made, or retired */
    LINKD_ALREADY_RECORDED = 2,
    LINKD_NAMES_ITSELF = 3,
    LINKD_MISSING_PARENT = 4,
    LINKD_SUPER_IS_INTERFACE = 5,
    LINKD_FINAL_SUPER = 6,
    LINKD_NOT_AN_INTERFACE = 7,
    LINKD_INACCESSIBLE_PARENT = 8,
    LINKD_SECOND_OBJECT = 9,
    LINKD_CLASSES_FULL = 10 /* there are as many as the linker may have */
} linkd_define_fault;

/* Why an invocation is never linked. */
typedef enum linkd_not_linkable_fault {
    LINKD_ARRAY_RECEIVER = 1,       /* it names an array type */
    LINKD_POLYMORPHIC_SIGNATURE = 2 /* it names a method of MethodHandle or VarHandle of java.lang.invoke (2.9.3) */
} linkd_not_linkable_fault;

typedef enum linkd_delegate_fault {
    LINKD_DELEGATE_UNKNOWN_LOADER = 1, /* one of the two was never made, or is retired */
    LINKD_DELEGATE_NOT_RECORDED = 2,   /* the other loader finds no class under the name */
    LINKD_DELEGATE_ALREADY_RECORDED = 3
} linkd_delegate_fault;

typedef enum linkd_call_site_fault {
    LINKD_UNKNOWN_CALL_SITE = 1, /* never made, or released */
    LINKD_CONSTANT = 2,
    LINKD_WRONG_TYPE = 3,
    LINKD_UNKNOWN_METHOD = 4,
    LINKD_NOT_STATIC = 5,
    LINKD_UNKNOWN_SWITCH = 6,  /* never made, or released */
    LINKD_TOO_DEEP = 7,
    LINKD_CALL_SITES_FULL = 8, /* there are as many as the linker may have; of a new switch point, as many of these */
    LINKD_INVOKER_ORDER = 9 /* place is the call site that the target invokes */
} linkd_call_site_fault;

typedef enum linkd_retire_fault {
    LINKD_NO_LOADER = 1,    /* never made, or retired */
    LINKD_FIRST_LOADER = 2, /* loader 0 stays */
    LINKD_INHERITED = 3,    /* place is the least class of a loader that stays that has an ancestor in this one */
    LINKD_RECORDED = 4,     /* place is the least loader that stays and records a class of this one */
    LINKD_TARGETED = 5      /* place is the least call site whose target names a method of one of its classes */
} linkd_retire_fault;

/* Why call sites and switch points aren't let go. A target also names what stands on a side that isn't taken. */
typedef enum linkd_release_fault {
    LINKD_NO_CALL_SITE = 1, /* place is the first call site in the array that was never made, or is released */
    LINKD_NO_SWITCH = 2,    /* place is the first switch point in the array that was never made, or is released */
    LINKD_INVOKED = 3,      /* place is the least call site that stays and whose target invokes one of the call sites */
    LINKD_GUARDED = 4       /* place is the least call site that stays and whose target guards by one of the switch points */
} linkd_release_fault;

/* Why bytes are no class file (chapter 4). */
typedef enum linkd_class_fault {
    LINKD_TOO_LARGE = 1,
    LINKD_BAD_MAGIC = 2,
    LINKD_BAD_VERSION = 3,      /* one that isn't taken, or from 56 on one with a minor, as of preview files */
    LINKD_TRUNCATED = 4,
    LINKD_POOL = 5,             /* cause is a linkd_pool_cause, place the entry */
    LINKD_MODULE_FILE = 6,
    LINKD_BAD_SUPER = 7,
    LINKD_DUPLICATE_METHOD = 8, /* place is the method */
    LINKD_TWO_CODES = 9,        /* place is the method */
    LINKD_CODE = 10,            /* place is the method, cause a linkd_code_cause, and at the pc */
    LINKD_TRAILING_BYTES = 11,
    LINKD_BAD_MEMBER = 12,      /* place is the member, fields and methods together */
    LINKD_BAD_LINK = 13,        /* place is the number */
    LINKD_BAD_NEST = 14
} linkd_class_fault;

/* What is wrong in the constant pool (4.4). */
typedef enum linkd_pool_cause {
    LINKD_POOL_TRUNCATED = 1,
    LINKD_POOL_BAD_TAG = 2,
    LINKD_POOL_BAD_INDEX = 3,
    LINKD_POOL_BAD_TEXT = 4,
    LINKD_POOL_BAD_DESCRIPTOR = 5
} linkd_pool_cause;

/* What is wrong in a method's code (4.9.1, 4.10). */
typedef enum linkd_code_cause {
    LINKD_CODE_BAD_OPCODE = 1,
    LINKD_CODE_CUT_SHORT = 2,
    LINKD_CODE_BAD_SWITCH = 3,
    LINKD_CODE_BAD_OPERAND = 4,
    LINKD_CODE_BAD_LAYOUT = 5 /* at is 0 */
} linkd_code_cause;

/* The answer to a call. */
typedef enum linkd_answer_kind {
    LINKD_RUN = 0,          /* the method `value` of the class `class_number` runs */
    LINKD_THROWS = 1,       /* value is a linkd_throwable */
    LINKD_BAD_RECEIVER = 2, /* no object can be such a receiver here */
    LINKD_UNLINKED = 3,     /* value is a linkd_unlinked */
    LINKD_MISS = 4          /* a seat or a memo doesn't know: ask the linker */
} linkd_answer_kind;

typedef enum linkd_throwable {
    LINKD_NO_SUCH_METHOD_ERROR = 1,
    LINKD_ILLEGAL_ACCESS_ERROR = 2,
    LINKD_INCOMPATIBLE_CLASS_CHANGE_ERROR = 3,
    LINKD_ABSTRACT_METHOD_ERROR = 4,
    LINKD_NULL_POINTER_EXCEPTION = 5
} linkd_throwable;

typedef enum linkd_unlinked {
    LINKD_WANTS_NAMED = 1,       /* the class that the instruction names isn't there yet */
    LINKD_WANTS_CALLER_HOST = 2, /* the nest host of the caller's class isn't */
    LINKD_WANTS_METHOD_HOST = 3, /* the nest host of the method's class isn't */
    LINKD_UNBOUND = 4,           /* an invokedynamic without a call site */
    LINKD_GONE = 5,              /* the site's class is retired, or the call site to which it is bound is released */
    LINKD_NO_SITE = 6
} linkd_unlinked;

typedef struct linkd_call_answer {
    linkd_answer_kind kind;
    uint32_t class_number; /* 0 unless the kind is LINKD_RUN */
    uint32_t value;        /* 0 for LINKD_BAD_RECEIVER and LINKD_MISS */
} linkd_call_answer;

/* What a reference to a method resolves to. */
typedef struct linkd_resolution {
    linkd_answer_kind kind; /* LINKD_RUN: the method that was found; LINKD_THROWS; LINKD_UNLINKED: a nest host isn't recorded */
    uint32_t value;         /* of LINKD_THROWS a linkd_throwable, of LINKD_UNLINKED a linkd_unlinked, else 0 */
    uint32_t class_number;  /* of the method that was found, accessible or not; if none was, this and `method` are LINKD_NO_NUMBER */
    uint32_t method;
} linkd_resolution;

typedef enum linkd_link_kind {
    LINKD_NONE = 0,            /* none is installed */
    LINKD_FAULT = 1,           /* each call throws: row 0 has it */
    LINKD_PLAIN = 2,           /* each call runs this method: row 0 */
    LINKD_DIRECT = 3,          /* each call on an object has this outcome: row 0 */
    LINKD_VIRTUAL_TABLE = 4,   /* by the receiver's class: `count` rows; a class without a row is none that can be a receiver */
    LINKD_INTERFACE_TABLE = 5, /* so, too; a class without a row throws IncompatibleClassChangeError (6.5) */
    LINKD_MEGA = 6             /* too many classes for a table */
} linkd_link_kind;

typedef struct linkd_row {
    uint32_t receiver;      /* the class of the receiver, in a table; else 0 */
    linkd_answer_kind kind; /* LINKD_RUN or LINKD_THROWS */
    uint32_t class_number;  /* as in a linkd_call_answer */
    uint32_t value;
} linkd_row;

typedef struct linkd_link {
    linkd_link_kind kind;
    uint32_t count; /* how many rows say something: 1 of a fault, a plain and a direct link; the others are 0 */
    linkd_row rows[8];
} linkd_link;

/* The library has a uint32_t in the place of each of these enums. A compiler that takes fewer bytes, as by -fshort-enums, refuses this header. */
typedef char linkd_enums_have_4_bytes[sizeof(linkd_status) == 4 && sizeof(linkd_answer_kind) == 4 &&
                                      sizeof(linkd_link_kind) == 4 ? 1 : -1];

/* A site with the link that it is to have. */
typedef struct linkd_link_row {
    uint32_t site;
    linkd_link link;
} linkd_link_row;

typedef enum linkd_target_kind {
    LINKD_METHOD_TARGET = 0, /* the method `value` of the class `number` */
    LINKD_GUARD_TARGET = 1,  /* the first while the switch point `number` is valid, and then the fallback */
    LINKD_INVOKER_TARGET = 2 /* whatever the call site `number` runs (CallSite.dynamicInvoker) */
} linkd_target_kind;

/* A part of a target (java.lang.invoke). After a guard come its first part and then its fallback, each with all that belongs to it. */
typedef struct linkd_target_part {
    uint32_t kind; /* a linkd_target_kind */
    uint32_t number;
    uint32_t value; /* looked at for LINKD_METHOD_TARGET alone */
} linkd_target_part;

/* An invocation in a method's code. */
typedef struct linkd_invocation {
    uint32_t pc;     /* in bytes from the code's start */
    uint32_t opcode; /* 182 invokevirtual, 183 invokespecial, 184 invokestatic, 185 invokeinterface, 186 invokedynamic (6.5) */
} linkd_invocation;

/* How many of each a linker has ever had, retired and released ones among them: the numbers below are theirs. Or how many are present: see
 * linkd_counts_present. */
typedef struct linkd_count {
    uint32_t loaders;
    uint32_t classes;
    uint32_t sites;
    uint32_t call_sites;
    uint32_t switches;
} linkd_count;

/* What the host has let go, in any order: it asks for none of them again. A number that was never given, or that linkd_release has taken, is
 * passed over. */
typedef struct linkd_released {
    const uint32_t *call_sites;
    size_t call_site_count;
    const uint32_t *switches;
    size_t switch_count;
} linkd_released;

/* Arrays of a renewal. In the place of each old number it writes the new one, or LINKD_NO_NUMBER. */
typedef struct linkd_numbers {
    uint32_t *loaders;
    size_t loader_capacity;
    uint32_t *classes;
    size_t class_capacity;
    uint32_t *sites;
    size_t site_capacity;
    uint32_t *call_sites;
    size_t call_site_capacity;
    uint32_t *switches;
    size_t switch_capacity;
} linkd_numbers;

/* The newest major version of class files of SE 17 (4.1), and so the newest one that linkd_define takes. */
#define LINKD_NEWEST_OF_17 61
/* The newest major version of class files that is known to be read the same way: that of Java 25. */
#define LINKD_NEWEST_KNOWN 69
/* The null reference, as a receiver. */
#define LINKD_NULL UINT32_C(0xffffffff)
/* The new number of what a renewal doesn't take over. */
#define LINKD_NO_NUMBER UINT32_C(0xffffffff)
/* The most sites that a linker may have, and the most loaders, classes, call sites and switch points. */
#define LINKD_MOST_OF_A_KIND UINT32_C(1048576)

uint32_t linkd_version(void);

/* ---- a linker */

size_t linkd_size(void);
size_t linkd_align(void);
void linkd_blank(linkd *at);

/* Opens the linker, without classes. At most max_sites sites may be requested, 1 to LINKD_MOST_OF_A_KIND. It may have LINKD_MOST_OF_A_KIND
 * loaders, classes, call sites and switch points. LINKD_OPEN_ALREADY; LINKD_MALFORMED: max_sites is no such number; LINKD_MEMORY. */
linkd_status linkd_open(linkd *at, uint32_t max_sites);
/* As linkd_open, with a limit for each kind: how many numbers of the kind it ever gives, those of what is retired among them.
 *  - sites: 1 to LINKD_MOST_OF_A_KIND;
 *  - each of the others: 1 to LINKD_MOST_OF_A_KIND, or 0, which stands for that. Loader 0 counts as one.
 * LINKD_OPEN_ALREADY; LINKD_MALFORMED: sites is 0, or one of them is above LINKD_MOST_OF_A_KIND; LINKD_MEMORY. */
linkd_status linkd_open_with(linkd *at, uint32_t sites, uint32_t loaders, uint32_t classes, uint32_t call_sites,
                             uint32_t switches);
/* Lets go all that the linker has. It isn't open then. */
void linkd_close(linkd *at);

/* Events. Loader 0 is there from the start. All numbers are given from 0 on. Each event may be LINKD_DONE, LINKD_CLOSED and LINKD_MEMORY; the
 * other statuses stand at each. If nothing is said of place, it is 0. */

/* number is the loader. LINKD_LOADERS_FULL: there are as many as the linker may have. */
linkd_status linkd_new_loader(linkd *at, linkd_told *told);
/* Defines the class of a class file, whose major version is 45 to LINKD_NEWEST_OF_17. number is the class. LINKD_NO_CLASS_FILE:
 * linkd_class_fault says the place; LINKD_DEFINE. */
linkd_status linkd_define(linkd *at, uint32_t loader, const uint8_t *bytes, size_t length, linkd_told *told);
/* As linkd_define, but the major version is 45 to `newest`. A file of a version above LINKD_NEWEST_OF_17 is read as one of 61.0 is, and linked
 * as SE 17 says. Up to LINKD_NEWEST_KNOWN the editions of the specification say the same of all that is read. Of later versions nothing is
 * known. A JVM of SE 17 would not take such a file. */
linkd_status linkd_define_up_to(linkd *at, uint32_t loader, uint16_t newest, const uint8_t *bytes, size_t length,
                                linkd_told *told);
/* From now on the loader finds under the name the class that the loader `to` finds. LINKD_DELEGATE. */
linkd_status linkd_delegate(linkd *at, uint32_t loader, const uint8_t *name, size_t name_length, uint32_t to,
                            linkd_told *told);
/* Requests the invocation at the pc of the class's method, which is given by its place among those that the class declares. number is the
 * site. A place that was requested keeps its number. In this order:
 *  - LINKD_MALFORMED: the method is above 65,535;
 *  - LINKD_UNKNOWN_CLASS; LINKD_NO_SUCH_PLACE; LINKD_NOT_LINKABLE; LINKD_SITES_FULL. */
linkd_status linkd_request(linkd *at, uint32_t class_number, uint32_t method, uint32_t pc, linkd_told *told);
/* Makes a call site. number is the call site.
 *  - kind: 1 constant, 2 mutable, 3 volatile;
 *  - type: a method descriptor;
 *  - target, as JSON: {"method":[class,index]}, {"guard":switch,"target":..,"fallback":..} or {"invoker":call_site}.
 * LINKD_MALFORMED: one of the three is none; LINKD_CALL_SITE: at LINKD_INVOKER_ORDER the place is said. */
linkd_status linkd_new_call_site(linkd *at, uint32_t kind, const uint8_t *type, size_t type_length,
                                 const uint8_t *target, size_t target_length, linkd_told *told);
/* As linkd_new_call_site, with the target as its parts, which are one target and no more. LINKD_MALFORMED, also if
 *  - a part is missing or left over, or its kind is unknown;
 *  - a method is above 65,535;
 *  - guards are nested deeper than JSON may be, which has at most 127 objects and arrays in one another.
 * LINKD_CALL_SITE as above. */
linkd_status linkd_new_call_site_of(linkd *at, uint32_t kind, const uint8_t *type, size_t type_length,
                                    const linkd_target_part *parts, size_t count, linkd_told *told);
/* Sets the target of the call site. LINKD_MALFORMED: the target is none; LINKD_CALL_SITE as above. */
linkd_status linkd_set_target(linkd *at, uint32_t call_site, const uint8_t *target, size_t target_length,
                              linkd_told *told);
/* As linkd_set_target, by the parts of the target. LINKD_MALFORMED as at linkd_new_call_site_of; LINKD_CALL_SITE as above. */
linkd_status linkd_set_target_of(linkd *at, uint32_t call_site, const linkd_target_part *parts, size_t count,
                                 linkd_told *told);
/* Makes a switch point. number is the switch point. LINKD_CALL_SITE with LINKD_CALL_SITES_FULL: there are as many as the linker may have. */
linkd_status linkd_new_switch(linkd *at, linkd_told *told);
/* Invalidates the switch points. LINKD_CALL_SITE with LINKD_UNKNOWN_SWITCH: one of them is none, and none is invalidated. */
linkd_status linkd_invalidate(linkd *at, const uint32_t *switches, size_t count, linkd_told *told);
/* Binds the site of an invokedynamic to the call site. In this order:
 *  - LINKD_UNKNOWN_SITE: place is the site;
 *  - LINKD_NOT_DYNAMIC;
 *  - LINKD_ALREADY_BOUND: place is the call site that it is bound to;
 *  - LINKD_CALL_SITE with LINKD_UNKNOWN_CALL_SITE;
 *  - LINKD_TYPE_MISMATCH. */
linkd_status linkd_bind(linkd *at, uint32_t site, uint32_t call_site, linkd_told *told);
/* Retires the loader, with the classes that it has defined and the sites in them: these are LINKD_GONE. No number is given again.
 * LINKD_RETIRE: linkd_retire_fault says the place. */
linkd_status linkd_retire(linkd *at, uint32_t loader, linkd_told *told);
/* Retires the loaders at once, each as by linkd_retire: all of them or none. Only what stays holds one. So loaders that record each other go,
 * and so do a loader and one whose classes extend its own, in whatever order they stand. One that comes twice goes once. Without any nothing
 * changes. LINKD_RETIRE: number is the first loader in the array that can't go, and linkd_retire_fault says why, and the place.
 * However many loaders go, it takes one look at each class that there ever was, at what each loader records, at each call site's target, and
 * at each link that rests on a class which loses a receiver. If it is refused it looks up no link. Then it looks at the classes, the records
 * and the targets once more for each loader up to the one that is told. */
linkd_status linkd_retire_all(linkd *at, const uint32_t *loaders, size_t count, linkd_told *told);
/* Releases the call sites and the switch points at once: all of them or none. What the target of a released call site names isn't held by it
 * any more. A site that is bound to it is LINKD_GONE; after a renewal it is LINKD_UNBOUND. No number is given again. Only what stays holds
 * one. So call sites that invoke each other go, and so does a switch point with the call sites that guard by it. One that comes twice goes
 * once. Without any nothing changes. LINKD_RELEASE: linkd_release_fault says the place.
 * It takes one look at each call site's target, and one evaluation for each site that was bound to a call site that went. */
linkd_status linkd_release(linkd *at, const uint32_t *call_sites, size_t call_site_count, const uint32_t *switches,
                           size_t switch_count, linkd_told *told);
/* Links the sites from scratch, 1 to 256 of them, and installs their links: all of them or none. In this order:
 *  - LINKD_BATCH_SIZE;
 *  - LINKD_UNKNOWN_SITE or LINKD_REPEATED: place is the first site that wasn't requested or comes a second time;
 *  - LINKD_NOT_READY: place is the first site that has no link now. A linkd_call there is LINKD_UNLINKED. */
linkd_status linkd_install(linkd *at, const uint32_t *sites, size_t count, linkd_told *told);

/* Installs these links, of 1 to 256 sites: all of them or none. Each has to be its site's link from scratch now, wherever and whenever it was
 * looked up. In this order:
 *  - LINKD_MALFORMED: a link is none by its kind, its count or one of its rows, as of a method above 65,535. What the kind and the count leave
 *    out isn't looked at;
 *  - LINKD_BATCH_SIZE, LINKD_UNKNOWN_SITE and LINKD_REPEATED as above;
 *  - of the first site of which one is so: LINKD_NOT_READY, it has no link now; LINKD_STALE, its link is another one. So is a given link that
 *    names a class or a method that isn't there. *present is the link that the site has.
 * No other status writes *present. */
linkd_status linkd_install_links(linkd *at, const linkd_link_row *rows, size_t count, linkd_told *told,
                                 linkd_link *present);

/* As linkd_request of the place, and then as linkd_install of its site, unless it has a link. So this one call gives the link of an invocation
 * that is met. The statuses are those of the two. If the request is refused, *link is as before. Else number is the site, whatever the status
 * is, and *link is what is installed there: LINKD_NONE with LINKD_MEMORY, and with LINKD_NOT_READY, after which linkd_awaited names the class
 * for which the site waits. These are two events at most. Neither removes a link. linkd_last_work tells of the second one. */
linkd_status linkd_link_place(linkd *at, uint32_t class_number, uint32_t method, uint32_t pc, linkd_link *link,
                              linkd_told *told);

/* Links from scratch those of the sites that have a link now, and installs these links as one event: all of them or none. The others are passed
 * over: sites that have no link now, and numbers under which nothing was requested. They may come more than once. If all are passed over it
 * is LINKD_DONE, too, and there is no event.
 * If it is done, links[i] is what is installed at sites[i] then, and LINKD_NONE for what was passed over. Else links is as before. No link is
 * removed. Each link that is installed is looked up twice. capacity is that of links. In this order:
 *  - LINKD_TOO_SHORT: capacity is less than count;
 *  - LINKD_BATCH_SIZE: more than 256 of the sites have a link;
 *  - LINKD_REPEATED: place is the first site that has a link and comes a second time. */
linkd_status linkd_install_ready(linkd *at, const uint32_t *sites, size_t count, linkd_link *links, size_t capacity,
                                 linkd_told *told);

/* LINKD_DONE if the bytes are a class file whose major version is 45 to `newest`, as linkd_define_up_to reads them. A definition asks for more,
 * as for the parents. A host that reads a class itself before it defines it calls this first. It is no event, and takes memory while it reads.
 * LINKD_NO_CLASS_FILE: linkd_class_fault says the place; LINKD_MEMORY. */
linkd_status linkd_check(linkd *at, uint16_t newest, const uint8_t *bytes, size_t length, linkd_told *told);

/* What follows is no event: it leaves the linker as it is, takes no memory, and is LINKD_DONE or LINKD_CLOSED, or what stands there. Unless it
 * is done nothing is written; LINKD_TOO_SHORT alone writes the length. */

/* The sites, rising, whose links the last accepted event removed, whichever event that was: they are pending now. An array of as many as may be
 * requested is always long enough. LINKD_TOO_SHORT. */
linkd_status linkd_dropped(linkd *at, uint32_t *out, size_t capacity, size_t *length);

/* The answer to a call now, linked or not. */
linkd_status linkd_call(linkd *at, uint32_t site, uint32_t receiver, linkd_call_answer *answer);
/* The link that is installed at the site. LINKD_NONE if there is none, and if nothing was requested. */
linkd_status linkd_link_of(linkd *at, uint32_t site, linkd_link *link);

/* The answer to a call of the method on the receiver that no invocation makes, as by reflection, a method handle or native code:
 *  - a static method runs itself, whatever the receiver is;
 *  - else null throws NullPointerException;
 *  - else it is LINKD_BAD_RECEIVER if no object is of the receiver's class, or if that is neither the method's class nor below it;
 *  - else an instance initialization method runs itself;
 *  - else the answer is that of an invokevirtual of the method or, if its class is an interface, of an invokeinterface that names this one
 *    (5.4.6, 6.5).
 * No caller's access is looked at. The answer stays as long as there may be objects of the receiver's class, whatever is defined later.
 * LINKD_NO_SUCH_PLACE: the class was never defined or is retired, or has no such method. */
linkd_status linkd_select(linkd *at, uint32_t class_number, uint32_t method, uint32_t receiver,
                          linkd_call_answer *answer);
/* What a reference to the method of this name and descriptor in the class `named` resolves to for the class `from` (5.4.3.3; if `named` is an
 * interface 5.4.3.4; access: 5.4.4). It looks at no instruction: the host has to see whether the method is static, and whether an instance
 * initialization method is one of `named` (6.5). In java/lang/invoke/MethodHandle and VarHandle methods are found as in any class; their
 * signature polymorphism (2.9.3) is the host's. If it is LINKD_UNLINKED, the value is LINKD_WANTS_CALLER_HOST or LINKD_WANTS_METHOD_HOST: the
 * NestHost (4.7.28) of `from`, or of the method's class, names the class that is to be defined.
 * LINKD_UNKNOWN_CLASS: one of the two classes was never defined or is retired. */
linkd_status linkd_resolve(linkd *at, uint32_t from, uint32_t named, const uint8_t *name, size_t name_length,
                           const uint8_t *type, size_t type_length, linkd_resolution *resolution);
/* *accessible is 1 if the class is accessible to the class `from`, as for new, checkcast and fields, else 0 (5.4.4). For an array class ask for
 * the class of its elements (5.3.3). LINKD_UNKNOWN_CLASS as above. */
linkd_status linkd_class_accessible(linkd *at, uint32_t from, uint32_t class_number, uint32_t *accessible);

/* The class that the loader finds under the name (5.3): one that it has defined or was delegated. LINKD_UNKNOWN_CLASS: it finds none, or it was
 * never made or is retired. */
linkd_status linkd_lookup(linkd *at, uint32_t loader, const uint8_t *name, size_t name_length, uint32_t *class_number);
/* The name of the class as its file has it (4.2.1), in modified UTF-8, retired or not. LINKD_UNKNOWN_CLASS, LINKD_TOO_SHORT. */
linkd_status linkd_class_name(linkd *at, uint32_t class_number, uint8_t *out, size_t capacity, size_t *length);
/* The name (4.2.2) and the descriptor (4.3.3) of the method at a place among those that the class declares, as of a linkd_call_answer.
 * LINKD_NO_SUCH_PLACE: there is no such class or method; LINKD_TOO_SHORT. */
linkd_status linkd_method_name(linkd *at, uint32_t class_number, uint32_t method, uint8_t *out, size_t capacity,
                               size_t *length);
linkd_status linkd_method_type(linkd *at, uint32_t class_number, uint32_t method, uint8_t *out, size_t capacity,
                               size_t *length);
/* The invocations in that method's code, by rising pc. Some of them may be LINKD_NOT_LINKABLE. The methods of a class are those from 0 on up to
 * the first one that is LINKD_NO_SUCH_PLACE. LINKD_TOO_SHORT. */
linkd_status linkd_invocations(linkd *at, uint32_t class_number, uint32_t method, linkd_invocation *out,
                               size_t capacity, size_t *length);

/* The name of the class that the refusal of the last event told of: LINKD_MISSING_PARENT, LINKD_NOT_AN_INTERFACE or LINKD_INACCESSIBLE_PARENT of
 * a linkd_define. Calls that end with LINKD_NO_CLASS_FILE or LINKD_MALFORMED leave this name as it was; so does linkd_answer.
 * LINKD_UNKNOWN_CLASS: the last event told of none; LINKD_TOO_SHORT. */
linkd_status linkd_refused_name(linkd *at, uint8_t *out, size_t capacity, size_t *length);
/* The name of the class for which the requested site waits, if a linkd_call there is LINKD_WANTS_NAMED, LINKD_WANTS_CALLER_HOST or
 * LINKD_WANTS_METHOD_HOST. So it is what the place of LINKD_NOT_READY waits for. LINKD_UNKNOWN_CLASS: it waits for none; LINKD_TOO_SHORT. */
linkd_status linkd_awaited(linkd *at, uint32_t site, uint8_t *out, size_t capacity, size_t *length);

/* How many selections, special searches and evaluations of call sites the last accepted event took. That is its cost beside the sites that it
 * dropped. */
linkd_status linkd_last_work(linkd *at, uint64_t *work);
/* A linker has two instances of all that it keeps. An event is made in the second one, after the event before it was made there. So each event
 * pays for the one before it, too. This call does that beforehand: a host makes it when it waits, above all after a retirement. No later call
 * is answered otherwise. This call takes memory, as the next event would. LINKD_MEMORY: the next event copies all that the linker keeps. */
linkd_status linkd_catch_up(linkd *at);

/* How many loaders, classes, sites, call sites and switch points there ever were, retired and released ones among them. If it is LINKD_CLOSED
 * each count is written as 0. */
linkd_status linkd_counts(linkd *at, linkd_count *counts);
/* How many of these are present: those that a renewal would take over now if nothing were handed to it as released. So a host knows whether a
 * renewal is worth it. This call takes memory, and looks at each that there ever was. Unless it is done each count is written as 0.
 * LINKD_MEMORY. */
linkd_status linkd_counts_present(linkd *at, linkd_count *counts);

/* Any command of docs/FORMATS.md, as text. The answer is kept until the next one, and its length written; linkd_take copies it. What the
 * command prepare prepares is kept until the linker is closed. LINKD_CLOSED; LINKD_MEMORY: the command was obeyed, or nothing has changed.
 * linkd_take may be LINKD_TOO_SHORT, too. */
linkd_status linkd_answer(linkd *at, const uint8_t *line, size_t line_length, size_t *length);
linkd_status linkd_take(linkd *at, uint8_t *out, size_t capacity, size_t *length);

/* ---- a renewal */

/* Opens the linker `fresh`, which isn't open, over what stays of the linker `at`, which is left as it is. In a linker something stays of all
 * that is retired or not used any more. So a process in which loaders come and go, or call sites and switch points are made over and over,
 * goes over to a fresh linker from time to time. These stay:
 *  - each loader that isn't retired, with its classes and the sites in these;
 *  - each call site that linkd_release hasn't taken and that isn't handed in here as released, or that a staying site is bound to, or that the
 *    target of a later staying call site invokes;
 *  - each switch point that linkd_release hasn't taken and that isn't handed in here as released, or that a staying call site guards by.
 * They keep their order and get new numbers, from 0 on. A site that stays has its link there, too, if it had one. A site that was bound to a
 * call site that linkd_release has taken isn't bound there.
 * In each array the new number of each old one is written in its place, or LINKD_NO_NUMBER. After as many as linkd_counts says it is as before.
 * max_sites: as linkd_open. Of each other kind `fresh` may have as many as `at`. What linkd_refused_name, linkd_take and the command prepare
 * kept isn't taken over.
 * Counts as a call on the two linkers, which are not one. What a seat, a memo or a view has is of `at` and its numbers. Before it is used with
 * `fresh`, the seat is refreshed and the view taken from it, and the memo closed and opened. In this order:
 *  - LINKD_CLOSED: `at` isn't open;
 *  - LINKD_OPEN_ALREADY: `fresh` is;
 *  - LINKD_MALFORMED, as linkd_open;
 *  - LINKD_TOO_SHORT: an array is shorter than there are numbers for it;
 *  - LINKD_SITES_FULL: more than max_sites sites stay;
 *  - LINKD_MEMORY, maybe in the place of LINKD_SITES_FULL.
 * Unless it is done, `fresh` and the arrays are as before. */
linkd_status linkd_renew_into(linkd *at, linkd *fresh, uint32_t max_sites, const uint32_t *released_call_sites,
                              size_t released_call_site_count, const uint32_t *released_switches,
                              size_t released_switch_count, uint32_t *loaders, size_t loader_capacity,
                              uint32_t *classes, size_t class_capacity, uint32_t *sites, size_t site_capacity,
                              uint32_t *call_sites, size_t call_site_capacity, uint32_t *switches,
                              size_t switch_capacity);

/* As linkd_renew_into, by structs. */
static inline linkd_status linkd_renew(linkd *at, linkd *fresh, uint32_t max_sites, const linkd_released *released,
                                       linkd_numbers *numbers) {
    return linkd_renew_into(at, fresh, max_sites, released->call_sites, released->call_site_count, released->switches,
                            released->switch_count, numbers->loaders, numbers->loader_capacity, numbers->classes, numbers->class_capacity,
                            numbers->sites, numbers->site_capacity, numbers->call_sites, numbers->call_site_capacity, numbers->switches,
                            numbers->switch_capacity);
}

/* ---- a renewal in steps
 *
 * It does what linkd_renew does, while events go on: the host's lock is held for moments alone. A renewal reads one linker, and writes none
 * before its end:
 *
 *     linkd_renewal_begin(renewal, linker, max_sites, &released);      under the lock
 *     do {
 *         linkd_renewal_take(renewal, linker, most, &left);            under the lock: `most` events at a time
 *         linkd_renewal_fill(renewal, &told);                          without it
 *         linkd_renewal_take(renewal, linker, 0, &left);               under the lock: how many have come meanwhile
 *     } while (left > few);
 *     linkd_renewal_finish(renewal, linker, fresh, &told, &numbers);   under the lock: it does what is left
 *
 * What is owed beside what stands at the head:
 *  - All these calls are given one linker, which isn't closed in between. Some others are refused, not all: see linkd_renewal_take.
 *  - From the begin on the host asks the linker for nothing that it has released: no new target names it, and no site is bound to it.
 *  - After the finish events go to `fresh` alone: what the linker accepts then, the fresh one never has.
 * No other event is refused because of what is released; retirements, releases and invalidations aren't, either.
 * Several renewals of one linker may be under way at a time, each in its own block. None sees the others, and each finish gives a linker of
 * its own, with its own numbers. */

size_t linkd_renewal_size(void);
size_t linkd_renewal_align(void);
void linkd_renewal_blank(linkd_renewal *at);

/* Begins a renewal of the linker as it is now. What stays is said at linkd_renew_into. At most max_sites sites may be requested in the fresh
 * linker: give as many as the linker was opened with, or a request that is still to come may be LINKD_SITES_FULL there. Of each other kind the
 * fresh linker may have as many as the linker.
 * What the linker has is shared and not copied, except for the pages of links that events have touched since a seat was last refreshed. Each
 * event that it keeps is shared, those of all classes and delegations among them. So this call takes as long as a seat's refresh and a walk
 * over these events. The second event after it copies the list of requested sites, as after a view. From here on the linker forgets no event
 * until the renewal is finished or left.
 * Counts as a call on the renewal and on the linker. In this order:
 *  - LINKD_CLOSED: the linker isn't open;
 *  - LINKD_OPEN_ALREADY: the renewal has begun and wasn't left;
 *  - LINKD_MALFORMED: max_sites is 0 or above LINKD_MOST_OF_A_KIND;
 *  - LINKD_MEMORY.
 * Unless it is done the renewal is as before. */
linkd_status linkd_renewal_begin_with(linkd_renewal *at, linkd *from, uint32_t max_sites,
                                      const uint32_t *released_call_sites, size_t released_call_site_count,
                                      const uint32_t *released_switches, size_t released_switch_count);

/* As linkd_renewal_begin_with, by a struct. */
static inline linkd_status linkd_renewal_begin(linkd_renewal *at, linkd *from, uint32_t max_sites,
                                               const linkd_released *released) {
    return linkd_renewal_begin_with(at, from, max_sites, released->call_sites, released->call_site_count, released->switches,
                                    released->switch_count);
}

/* Takes the next events that the linker has accepted since the begin, at most so many of them. An event is shared and not copied. If the linker
 * has more classes than at the take before, or any at the first take, the table of all classes is copied. *left is how many events are left
 * then. Counts as a call on the renewal and on the linker.
 *  - LINKD_CLOSED: the renewal has not begun or the linker isn't open. *left is not written.
 *  - LINKD_MEMORY: the call may be made again.
 *  - LINKD_MALFORMED: the linker isn't the one of the begin, as far as that shows. It has accepted fewer events than were taken, or has
 *    forgotten the next of them.
 * With the last two none of the events was taken, and *left tells how many are left. */
linkd_status linkd_renewal_take(linkd_renewal *at, linkd *from, size_t most, size_t *left);

/* Makes the fresh linker. The first call defines the classes that stay of those that there were at the begin, requests their sites, makes the
 * call sites and switch points, and installs the links of the begin. For as many classes as a JDK has that takes seconds. Then, and in each
 * later call, each event that was taken is carried over under the new numbers, installs among them. So the fresh linker has the links of the
 * old one after that event.
 * Takes no lock. Counts as a call on the renewal alone: the linker may be asked anything meanwhile.
 *  - LINKD_CLOSED: the renewal has not begun.
 *  - LINKD_SITES_FULL: more sites stay than max_sites, or more are requested later.
 *  - LINKD_RELEASED: an event since the begin names a call site or a switch point that was released and is gone. place is its number, and
 *    number is how many of the linker's events the fresh one has.
 *  - LINKD_MEMORY, maybe in the place of another refusal: what was carried over stays so, and the call may be made again.
 * After LINKD_SITES_FULL and LINKD_RELEASED the renewal is good for nothing but linkd_renewal_leave. */
linkd_status linkd_renewal_fill(linkd_renewal *at, linkd_told *told);

/* Takes what is left and carries it over, as the two calls above do. Then it opens the linker `fresh`, which isn't open, over what was made,
 * and writes the new numbers to the arrays as linkd_renew_into does. A loader that was retired since the begin has a new number, too, and is
 * retired there. The renewal has ended then, and may begin anew.
 * The call takes as long as the events that were left and the arrays do. It looks up no link except those of the installs among these events.
 * The first seat that is refreshed from `fresh` copies only what events have touched since. Counts as a call on the renewal and on the two
 * linkers, which are not one. In this order:
 *  - LINKD_CLOSED: the renewal has not begun or the linker isn't open;
 *  - LINKD_OPEN_ALREADY: `fresh` is open;
 *  - LINKD_TOO_SHORT: an array is shorter than linkd_counts says that there are numbers for it. Nothing was taken then;
 *  - LINKD_MEMORY and LINKD_MALFORMED, as linkd_renewal_take; then as linkd_renewal_fill.
 * Unless it is done `fresh` and the arrays are as before, and the renewal has not ended. After LINKD_OPEN_ALREADY, LINKD_TOO_SHORT,
 * LINKD_MALFORMED and LINKD_MEMORY it may be finished later. */
linkd_status linkd_renewal_finish_into(linkd_renewal *at, linkd *from, linkd *fresh, linkd_told *told,
                                       uint32_t *loaders, size_t loader_capacity, uint32_t *classes,
                                       size_t class_capacity, uint32_t *sites, size_t site_capacity,
                                       uint32_t *call_sites, size_t call_site_capacity, uint32_t *switches,
                                       size_t switch_capacity);

/* As linkd_renewal_finish_into, by a struct. */
static inline linkd_status linkd_renewal_finish(linkd_renewal *at, linkd *from, linkd *fresh, linkd_told *told,
                                                linkd_numbers *numbers) {
    return linkd_renewal_finish_into(at, from, fresh, told, numbers->loaders, numbers->loader_capacity, numbers->classes,
                                     numbers->class_capacity, numbers->sites, numbers->site_capacity, numbers->call_sites,
                                     numbers->call_site_capacity, numbers->switches, numbers->switch_capacity);
}

/* Lets go what was made: the renewal has not begun then. It frees as much as a linker's close, so it is best done without the lock. Counts as
 * a call on the renewal alone. */
void linkd_renewal_leave(linkd_renewal *at);

/* ---- a seat */

size_t linkd_seat_size(void);
size_t linkd_seat_align(void);
void linkd_seat_blank(linkd_seat *at);
/* Gives the seat the linker's links and count of classes as they are now. Counts as a call on the seat and on the linker. LINKD_CLOSED: the
 * linker isn't open; LINKD_MEMORY: the seat has what it had. */
linkd_status linkd_seat_refresh(linkd_seat *at, linkd *from);
/* The answer to a call by the links of the last refresh, at once: of null, and of each object that may stand there. It is LINKD_MISS if the
 * site had no link or a megamorphic one, or if its link looks at the receiver, whose class is newer. LINKD_CLOSED: the seat was never
 * refreshed. Takes no lock and no memory, and counts as a call on the seat alone, which may outlive the linker. */
linkd_status linkd_seat_call(linkd_seat *at, uint32_t site, uint32_t receiver, linkd_call_answer *answer);
/* The answer of linkd_seat_call in 64 bits, which come back in a register. A seat that was never refreshed, or was left, is LINKD_MISS. The
 * class number begins at bit 0, the value at bit 32 and the kind at bit 56: the three functions below take them apart. */
uint64_t linkd_seat_answer(linkd_seat *at, uint32_t site, uint32_t receiver);
static inline linkd_answer_kind linkd_kind_of(uint64_t answer) { return (linkd_answer_kind)(answer >> 56); }
static inline uint32_t linkd_class_of(uint64_t answer) { return (uint32_t)answer; }
static inline uint32_t linkd_value_of(uint64_t answer) { return (uint32_t)(answer >> 32) & UINT32_C(0xffffff); }
/* As linkd_seat_call, but at a megamorphic link the answer is what the memo remembers of such calls, and LINKD_MISS if it remembers none; null
 * throws there at once. The memo was asked of the linker that the seat was refreshed from, and of no other one. LINKD_CLOSED also if the memo
 * isn't open. A site of a retired loader is LINKD_MISS once the seat was refreshed. Of a class of a retired loader there is no object; such a
 * number gets what is remembered. Counts as a call on both. */
linkd_status linkd_seat_call_with(linkd_seat *at, linkd_memo *with, uint32_t site, uint32_t receiver,
                                  linkd_call_answer *answer);
/* Lets the seat's links go: it is as if it was never refreshed. Counts as a call on the seat alone. */
void linkd_seat_leave(linkd_seat *at);

/* ---- a memo */

size_t linkd_memo_size(void);
size_t linkd_memo_align(void);
void linkd_memo_blank(linkd_memo *at);
/* Opens the memo, which remembers nothing, with so many sets. Each set remembers two calls; a hash tells which set a call has. If three calls
 * have one set, they push each other out. So a memo wants several times as many sets as there are calls that are made over and over: of 9,000
 * calls in turn, 1,000 sites on 9 classes each, 75 of a hundred are remembered in 9,000 sets, 97 in 18,000, all in 36,000. One of no sets
 * remembers nothing. LINKD_OPEN_ALREADY, LINKD_MEMORY. */
linkd_status linkd_memo_open(linkd_memo *at, uint32_t sets);
/* As linkd_call, on the linker: the answer to a call now. It is remembered if the site's link is megamorphic and the answer runs a method or
 * throws. If the set is full, another call's answer goes. Such an answer stays right, whatever is defined later, while the site's class and
 * the receiver's are present. Takes no memory, and counts as a call on the memo and on the linker. Receivers that are known beforehand can be
 * asked for once their site is installed. */
linkd_status linkd_memo_ask(linkd_memo *at, linkd *from, uint32_t site, uint32_t receiver, linkd_call_answer *answer);
/* The answer to a call that the memo remembers, by itself: LINKD_MISS if it remembers none, and for null. So a host that knows that a site is
 * megamorphic needs no seat for it. But such a host has to know when the site's loader is retired: the memo still has what it remembered.
 * Takes no lock and no memory, and counts as a call on the memo alone. */
linkd_status linkd_memo_call(linkd_memo *at, uint32_t site, uint32_t receiver, linkd_call_answer *answer);
/* Lets go what the memo remembers: it isn't open then. A memo that is to be asked of another linker, or of one that was closed and opened
 * again, is closed and opened first. Counts as a call on the memo alone. */
void linkd_memo_close(linkd_memo *at);

/* ---- a view */

size_t linkd_view_size(void);
size_t linkd_view_align(void);
void linkd_view_blank(linkd_view *at);
/* Gives the view what there is to link now, classes, sites and call sites, in the place of what it had. Nothing is copied here. A later event
 * copies what it changes if the view still has it then: so leave a view once it isn't needed. Counts as a call on the view and on the linker.
 * LINKD_CLOSED: the linker isn't open; LINKD_MEMORY: the view has what it had. */
linkd_status linkd_view_take(linkd_view *at, linkd *from);
/* After how many accepted events the view was taken. This and each call that follows counts as a call on the view alone, which may outlive the
 * linker. */
linkd_status linkd_view_serial(linkd_view *at, uint64_t *serial);
/* The answer of linkd_call when the view was taken. Takes no lock and no memory. */
linkd_status linkd_view_call(linkd_view *at, uint32_t site, uint32_t receiver, linkd_call_answer *answer);
/* The links of these sites from scratch, 1 to 256 of them, as they were when the view was taken, in the order of the sites: all are written or
 * none. Nothing is installed, and no lock taken. capacity is that of links. In this order:
 *  - LINKD_TOO_SHORT: capacity is less than count;
 *  - LINKD_BATCH_SIZE;
 *  - LINKD_UNKNOWN_SITE or LINKD_REPEATED: place is the first site that wasn't requested or comes a second time;
 *  - LINKD_NOT_READY: place is the first site that had no link;
 *  - LINKD_MEMORY, maybe in the place of the others. */
linkd_status linkd_view_prepare(linkd_view *at, const uint32_t *sites, size_t count, linkd_link *links, size_t capacity,
                                linkd_told *told);
/* Lets go what the view has: it is as if it was never taken. */
void linkd_view_leave(linkd_view *at);

/* ---- names of numbers, as they stand above; NULL if there is none */

#define LINKD_NAMED(number) case number: return #number

static inline const char *linkd_status_name(uint32_t status) {
    switch (status) {
        LINKD_NAMED(LINKD_DONE);
        LINKD_NAMED(LINKD_DEFINE);
        LINKD_NAMED(LINKD_UNKNOWN_CLASS);
        LINKD_NAMED(LINKD_NO_SUCH_PLACE);
        LINKD_NAMED(LINKD_NOT_LINKABLE);
        LINKD_NAMED(LINKD_SITES_FULL);
        LINKD_NAMED(LINKD_CALL_SITE);
        LINKD_NAMED(LINKD_NOT_DYNAMIC);
        LINKD_NAMED(LINKD_ALREADY_BOUND);
        LINKD_NAMED(LINKD_TYPE_MISMATCH);
        LINKD_NAMED(LINKD_STALE);
        LINKD_NAMED(LINKD_NOT_READY);
        LINKD_NAMED(LINKD_UNKNOWN_SITE);
        LINKD_NAMED(LINKD_REPEATED);
        LINKD_NAMED(LINKD_BATCH_SIZE);
        LINKD_NAMED(LINKD_MEMORY);
        LINKD_NAMED(LINKD_DELEGATE);
        LINKD_NAMED(LINKD_LOADERS_FULL);
        LINKD_NAMED(LINKD_RETIRE);
        LINKD_NAMED(LINKD_RELEASE);
        LINKD_NAMED(LINKD_NO_CLASS_FILE);
        LINKD_NAMED(LINKD_MALFORMED);
        LINKD_NAMED(LINKD_CLOSED);
        LINKD_NAMED(LINKD_OPEN_ALREADY);
        LINKD_NAMED(LINKD_TOO_SHORT);
        LINKD_NAMED(LINKD_RELEASED);
        default: return NULL;
    }
}

static inline const char *linkd_define_fault_name(uint32_t fault) {
    switch (fault) {
        LINKD_NAMED(LINKD_UNKNOWN_LOADER);
        LINKD_NAMED(LINKD_ALREADY_RECORDED);
        LINKD_NAMED(LINKD_NAMES_ITSELF);
        LINKD_NAMED(LINKD_MISSING_PARENT);
        LINKD_NAMED(LINKD_SUPER_IS_INTERFACE);
        LINKD_NAMED(LINKD_FINAL_SUPER);
        LINKD_NAMED(LINKD_NOT_AN_INTERFACE);
        LINKD_NAMED(LINKD_INACCESSIBLE_PARENT);
        LINKD_NAMED(LINKD_SECOND_OBJECT);
        LINKD_NAMED(LINKD_CLASSES_FULL);
        default: return NULL;
    }
}

static inline const char *linkd_call_site_fault_name(uint32_t fault) {
    switch (fault) {
        LINKD_NAMED(LINKD_UNKNOWN_CALL_SITE);
        LINKD_NAMED(LINKD_CONSTANT);
        LINKD_NAMED(LINKD_WRONG_TYPE);
        LINKD_NAMED(LINKD_UNKNOWN_METHOD);
        LINKD_NAMED(LINKD_NOT_STATIC);
        LINKD_NAMED(LINKD_UNKNOWN_SWITCH);
        LINKD_NAMED(LINKD_TOO_DEEP);
        LINKD_NAMED(LINKD_CALL_SITES_FULL);
        LINKD_NAMED(LINKD_INVOKER_ORDER);
        default: return NULL;
    }
}

static inline const char *linkd_retire_fault_name(uint32_t fault) {
    switch (fault) {
        LINKD_NAMED(LINKD_NO_LOADER);
        LINKD_NAMED(LINKD_FIRST_LOADER);
        LINKD_NAMED(LINKD_INHERITED);
        LINKD_NAMED(LINKD_RECORDED);
        LINKD_NAMED(LINKD_TARGETED);
        default: return NULL;
    }
}

static inline const char *linkd_release_fault_name(uint32_t fault) {
    switch (fault) {
        LINKD_NAMED(LINKD_NO_CALL_SITE);
        LINKD_NAMED(LINKD_NO_SWITCH);
        LINKD_NAMED(LINKD_INVOKED);
        LINKD_NAMED(LINKD_GUARDED);
        default: return NULL;
    }
}

static inline const char *linkd_class_fault_name(uint32_t fault) {
    switch (fault) {
        LINKD_NAMED(LINKD_TOO_LARGE);
        LINKD_NAMED(LINKD_BAD_MAGIC);
        LINKD_NAMED(LINKD_BAD_VERSION);
        LINKD_NAMED(LINKD_TRUNCATED);
        LINKD_NAMED(LINKD_POOL);
        LINKD_NAMED(LINKD_MODULE_FILE);
        LINKD_NAMED(LINKD_BAD_SUPER);
        LINKD_NAMED(LINKD_DUPLICATE_METHOD);
        LINKD_NAMED(LINKD_TWO_CODES);
        LINKD_NAMED(LINKD_CODE);
        LINKD_NAMED(LINKD_TRAILING_BYTES);
        LINKD_NAMED(LINKD_BAD_MEMBER);
        LINKD_NAMED(LINKD_BAD_LINK);
        LINKD_NAMED(LINKD_BAD_NEST);
        default: return NULL;
    }
}

static inline const char *linkd_not_linkable_fault_name(uint32_t fault) {
    switch (fault) {
        LINKD_NAMED(LINKD_ARRAY_RECEIVER);
        LINKD_NAMED(LINKD_POLYMORPHIC_SIGNATURE);
        default: return NULL;
    }
}

static inline const char *linkd_delegate_fault_name(uint32_t fault) {
    switch (fault) {
        LINKD_NAMED(LINKD_DELEGATE_UNKNOWN_LOADER);
        LINKD_NAMED(LINKD_DELEGATE_NOT_RECORDED);
        LINKD_NAMED(LINKD_DELEGATE_ALREADY_RECORDED);
        default: return NULL;
    }
}

#undef LINKD_NAMED

/* Of the fault that a linkd_told has beside this status. */
static inline const char *linkd_fault_name(uint32_t status, uint32_t fault) {
    switch (status) {
        case LINKD_DEFINE: return linkd_define_fault_name(fault);
        case LINKD_NOT_LINKABLE: return linkd_not_linkable_fault_name(fault);
        case LINKD_CALL_SITE: return linkd_call_site_fault_name(fault);
        case LINKD_DELEGATE: return linkd_delegate_fault_name(fault);
        case LINKD_RETIRE: return linkd_retire_fault_name(fault);
        case LINKD_RELEASE: return linkd_release_fault_name(fault);
        case LINKD_NO_CLASS_FILE: return linkd_class_fault_name(fault);
        default: return NULL;
    }
}

#ifdef __cplusplus
}
#endif
#endif
