/* Classes that the machine writes at run time, so that what an invokedynamic runs is linked as any other method: one for each lambda
 * (java.lang.invoke.LambdaMetafactory), for each concatenation of strings (StringConcatFactory) and for each method of a record
 * (ObjectMethods, in records.c). Each has a static method `make`, which is the call site's target. */
#include "generate.h"

bool is_primitive(char type) { return type != 'L' && type != '['; }

/* Of the one type that begins there. */
static char *type_text(const char *type, char *text, size_t room) {
    snprintf(text, room, "%.*s", (int)(next_type(type) - type), type);
    return text;
}

uint32_t next_made(Class *cls) { return __atomic_add_fetch(&cls->made, 1, __ATOMIC_RELAXED); }

bool is_method_of(Class *cls, const Bootstrap *bootstrap, const char *factory) {
    Constant *method = &cls->constants[cls->constants[bootstrap->handle].b];
    return !strcmp(class_name_at(cls, method->a), factory);
}

/* ---- lambdas */

typedef struct Lambda {
    Class *caller;
    uint16_t number;   /* of the bootstrap method */
    const char *self;  /* the class that is made */
    const char *captured, *bridge, *name, *instance;
} Lambda;

static void load_captured(Writer *w, const Lambda *lambda, const char **to) {
    char field[16], type[1024];
    uint16_t number = 0;
    for (const char *at = lambda->captured + 1; *at != ')'; at = next_type(at), *to = next_type(*to)) {
        snprintf(field, sizeof field, "c%u", number++);
        write_load(w, 'L', 0);
        op2(w, OP_getfield, member_constant(w, CONSTANT_Fieldref, lambda->self, field, type_text(at, type, sizeof type)));
        write_conversion(w, at, *to, *to);
    }
}

static void return_result(Writer *w, const Lambda *lambda, const char *type) {
    const char *from = strchr(lambda->bridge, ')') + 1, *result = strchr(type, ')') + 1, *wanted = strchr(lambda->instance, ')') + 1;
    if (*result == 'V') {
        if (width_of(*from)) op(w, width_of(*from) == 2 ? OP_pop2 : OP_pop);
    } else if (is_primitive(*from) || is_primitive(*result)) write_conversion(w, from, wanted, result);
    write_return(w, *result);
}

static void lambda_method(Writer *w, const Lambda *lambda, const char *type) {
    uint16_t local = 1;
    char bridge_name[32];
    const char *to = lambda->bridge + 1, *middle = lambda->instance + 1;
    load_captured(w, lambda, &to);
    for (const char *at = type + 1; *at != ')'; at = next_type(at), middle = next_type(middle), to = next_type(to)) {
        write_load(w, *at, local);
        local += (uint16_t)width_of(*at);
        write_conversion(w, at, middle, to);
    }
    snprintf(bridge_name, sizeof bridge_name, "linkd$%u", lambda->number);
    write_call(w, OP_invokestatic, lambda->caller->flags & ACC_INTERFACE ? CONSTANT_InterfaceMethodref : CONSTANT_Methodref,
               lambda->caller->name, bridge_name, lambda->bridge);
    return_result(w, lambda, type);
    end_method(w, ACC_PUBLIC, lambda->name, type, local);
}

/* The arguments of altMetafactory after the first three: flags, markers, bridges. */
static int alt_arguments(Writer *w, const Lambda *lambda, const char **interfaces, int count) {
    enum { FLAG_SERIALIZABLE = 1, FLAG_MARKERS = 2, FLAG_BRIDGES = 4 };
    Class *caller = lambda->caller;
    const uint8_t *args = caller->bootstraps[lambda->number].args;
    int flags = caller->constants[u2(args + 6)].is.value.i, at = 4;
    if (flags & FLAG_SERIALIZABLE) interfaces[count++] = "java/io/Serializable";
    if (flags & FLAG_MARKERS)
        for (int left = caller->constants[u2(args + 2 * at++)].is.value.i; left > 0; left--) {
            const char *marker = class_name_at(caller, u2(args + 2 * at++));
            bool known = false;
            for (int i = 0; i < count; i++) known |= !strcmp(interfaces[i], marker);
            if (!known) interfaces[count++] = marker;
        }
    if (flags & FLAG_BRIDGES)
        for (int left = caller->constants[u2(args + 2 * at++)].is.value.i; left > 0; left--)
            lambda_method(w, lambda, constant_text(caller, caller->constants[u2(args + 2 * at++)].a));
    return count;
}

/* An object with what is captured; the same one each time where that is nothing. It has no constructor to be called. */
static void make_method(Writer *w, const Lambda *lambda) {
    uint16_t local = 0, place = 0;
    char type[1100], field[16];
    if (lambda->captured[1] == ')') {
        snprintf(type, sizeof type, "L%s;", lambda->self);
        add_field(w, ACC_STATIC, "one", type);
        uint16_t one = member_constant(w, CONSTANT_Fieldref, lambda->self, "one", type);
        op2(w, OP_getstatic, one);
        op2(w, OP_ifnonnull, 9);
        op2(w, OP_new, class_constant(w, lambda->self));
        op2(w, OP_putstatic, one);
        op2(w, OP_getstatic, one);
    } else op2(w, OP_new, class_constant(w, lambda->self));
    for (const char *at = lambda->captured + 1; *at != ')'; at = next_type(at)) {
        snprintf(field, sizeof field, "c%u", place++);
        add_field(w, ACC_FINAL, field, type_text(at, type, sizeof type));
        op(w, OP_dup);
        write_load(w, *at, local);
        op2(w, OP_putfield, member_constant(w, CONSTANT_Fieldref, lambda->self, field, type));
        local += (uint16_t)width_of(*at);
    }
    op(w, OP_areturn);
    end_method(w, ACC_PUBLIC | ACC_STATIC, "make", lambda->captured, local);
}

static Class *make_lambda(Class *caller, uint16_t number, const char *name, const char *type) {
    const Bootstrap *bootstrap = &caller->bootstraps[number];
    const uint8_t *args = bootstrap->args;
    Writer *w = new_writer(1);
    char made[1024];
    const char *interfaces[32], *result = strchr(type, ')') + 1;
    int interface_count = 1;
    snprintf(made, sizeof made, "%s$$Lambda$%u", caller->name, next_made(caller));
    Lambda lambda = {caller, number, made, type, bridge_type_of(caller, &caller->constants[u2(args + 2)]), name,
                     constant_text(caller, caller->constants[u2(args + 4)].a)};
    interfaces[0] = intern_n(result + 1, strlen(result) - 2);
    lambda_method(w, &lambda, constant_text(caller, caller->constants[u2(args)].a));
    if (bootstrap->count > 3) interface_count = alt_arguments(w, &lambda, interfaces, interface_count);
    make_method(w, &lambda);
    __atomic_add_fetch(&vm.counts.lambdas, 1, __ATOMIC_RELAXED);
    return define_written(w, made, interfaces, interface_count, caller->loader);
}

/* ---- concatenations */

void new_builder(Writer *w) {
    op2(w, OP_new, class_constant(w, BUILDER));
    op(w, OP_dup);
    write_call(w, OP_invokespecial, CONSTANT_Methodref, BUILDER, "<init>", "()V");
}

void append(Writer *w, const char *type) {
    char text[64], letter = *type == 'B' || *type == 'S' ? 'I' : *type;
    if (is_primitive(letter)) snprintf(text, sizeof text, "(%c)L" BUILDER ";", letter);
    else if (!strncmp(type, "Ljava/lang/String;", 18)) snprintf(text, sizeof text, "(Ljava/lang/String;)L" BUILDER ";");
    else snprintf(text, sizeof text, "(Ljava/lang/Object;)L" BUILDER ";");
    write_call(w, OP_invokevirtual, CONSTANT_Methodref, BUILDER, "append", text);
}

void append_text(Writer *w, const char *text, size_t length) {
    char *copy = strndup(text, length);
    if (length) push_string(w, copy), append(w, "Ljava/lang/String;");
    free(copy);
}

static uint16_t append_argument(Writer *w, const char **type, uint16_t local) {
    write_load(w, **type, local);
    append(w, *type);
    local += (uint16_t)width_of(**type);
    *type = next_type(*type);
    return local;
}

/* In the recipe of makeConcatWithConstants \1 is an argument and \2 a constant. */
static Class *make_concatenation(Class *caller, const Bootstrap *bootstrap, const char *name, const char *type) {
    Writer *w = new_writer(1);
    char made[1024];
    const char *at = type + 1, *recipe = "";
    uint16_t local = 0, place = 1;
    snprintf(made, sizeof made, "%s$$Concat$%u", caller->name, next_made(caller));
    new_builder(w);
    if (!strcmp(name, "makeConcatWithConstants")) recipe = constant_text(caller, caller->constants[u2(bootstrap->args)].a);
    while (*recipe) {
        size_t piece = strcspn(recipe, "\1\2");
        append_text(w, recipe, piece);
        if (recipe[piece] == 1) local = append_argument(w, &at, local);
        else if (recipe[piece] == 2) {
            const char *text = constant_text(caller, caller->constants[u2(bootstrap->args + 2 * place++)].a);
            append_text(w, text, strlen(text));
        }
        recipe += piece + (recipe[piece] != 0);
    }
    while (*at != ')') local = append_argument(w, &at, local);
    write_call(w, OP_invokevirtual, CONSTANT_Methodref, BUILDER, "toString", "()Ljava/lang/String;");
    write_return(w, 'L');
    end_method(w, ACC_PUBLIC | ACC_STATIC, "make", type, local);
    __atomic_add_fetch(&vm.counts.concatenations, 1, __ATOMIC_RELAXED);
    return define_written(w, made, NULL, 0, caller->loader);
}

/* ---- invokedynamic */

bool link_dynamic(Site *site) {
    Class *caller = site->caller->cls, *made;
    Constant *named = site_reference(site), *pair = &caller->constants[named->b];
    const Bootstrap *bootstrap = &caller->bootstraps[named->a];
    const char *name = constant_text(caller, pair->a), *type = constant_text(caller, pair->b);
    if (is_method_of(caller, bootstrap, LAMBDAS)) made = make_lambda(caller, named->a, name, type);
    else if (is_method_of(caller, bootstrap, "java/lang/invoke/StringConcatFactory"))
        made = make_concatenation(caller, bootstrap, name, type);
    else if (is_method_of(caller, bootstrap, "java/lang/runtime/ObjectMethods")) made = make_record_method(caller, bootstrap, name, type);
    else return dynamic_by_bootstrap(site);
    if (!made) return false;
    Target target = {.kind = TARGET_METHOD, .method = declared(made, "make", type)};
    CallSite *call_site = link_new_call_site(CONSTANT_SITE, type, &target, 1, caller->loader, NULL);
    if (!call_site) return throw_new("java/lang/OutOfMemoryError", "call sites"), false;
    link_bind(site, call_site);
    return true;
}
