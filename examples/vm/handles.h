/* What handles.c, adapters.c, variables.c and natives_invoke.c share. */
#ifndef HANDLES_H
#define HANDLES_H

#include "generate.h"

/* A MethodHandle calls a static method, selects a method that was resolved, or makes an object by a constructor, is a guard by a SwitchPoint,
 * or the dynamic invoker of a CallSite. All other ones are static methods that adapters.c has written. It stands after the fields of the
 * object. */
enum handle_kind { HANDLE_METHOD, HANDLE_DIRECT, HANDLE_GUARD, HANDLE_INVOKER };

typedef struct Handle {
    enum handle_kind kind;
    Method *method;          /* a static one that does what the handle does; but for HANDLE_METHOD NULL until it is wanted */
    Method *resolved;        /* of HANDLE_DIRECT: a constructor, or a method that isn't static */
    Object *first, *fallback; /* handles of a guard */
    Object *of;              /* the class that a direct one names, the SwitchPoint of a guard, the CallSite of an invoker */
    const char *type;        /* its descriptor, interned */
} Handle;

/* handles.c */
Handle *handle_of(Object *object);
Object *new_handle(Handle handle, const char *type, uint32_t loader); /* NULL with an exception */
const char *handle_type(Object *handle);
const char *descriptor_of(Object *method_type);
uint32_t handle_loader(Object *handle);
Object *make_direct(Class *from, Class *named, uint16_t reference_kind, const char *name, const char *type); /* NULL with an exception */
bool bind_handle(Site *site, Object *handle, uint32_t loader);
bool set_call_site_target(Object *object, Object *handle);

/* adapters.c: all NULL with an exception */
Object *adapt_type(Object *handle, const char *type);
Object *adapt_constant(Class *type, Object *value);
Object *adapt_identity(Class *type);
Object *adapt_insert(Object *handle, int32_t position, Object **values, uint32_t count);
Object *adapt_drop(Object *handle, int32_t position, Class **types, uint32_t count);
Object *adapt_guard(Object *test, Object *target, Object *fallback);
Object *adapt_filter_result(Object *handle, Object *filter);
Object *adapt_throw(const char *type, uint32_t loader); /* of a CallSite without a target */

/* variables.c: natives */
Slot find_var_handle(Slot *args);
Slot find_static_var_handle(Slot *args);
Slot array_var_handle(Slot *args);
Slot bytes_var_handle(Slot *args);

#endif
