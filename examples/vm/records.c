/* toString, equals and hashCode of records (java.lang.runtime.ObjectMethods). */
#include "generate.h"

typedef struct Branches { /* to where false is returned */
    size_t at[260];
    int count;
} Branches;

static void get(Writer *w, uint16_t local, const char *cls, const char *name, const char *type) {
    write_load(w, 'L', local);
    op2(w, OP_getfield, member_constant(w, CONSTANT_Fieldref, cls, name, type));
}

static void or_false(Writer *w, Branches *branches, uint8_t opcode) {
    branches->at[branches->count++] = w->code.length;
    op2(w, opcode, 0);
}

static void compare_fields(Writer *w, Branches *branches, const char *cls, const char *name, const char *type) {
    char text[64];
    get(w, 0, cls, name, type);
    get(w, 2, cls, name, type);
    if (*type == 'J') op(w, OP_lcmp), or_false(w, branches, OP_ifne);
    else if (*type == 'F' || *type == 'D') {
        snprintf(text, sizeof text, "(%c%c)I", *type, *type);
        write_call(w, OP_invokestatic, CONSTANT_Methodref, wrapper_of(*type), "compare", text);
        or_false(w, branches, OP_ifne);
    } else if (is_primitive(*type)) or_false(w, branches, OP_if_icmpne);
    else {
        write_call(w, OP_invokestatic, CONSTANT_Methodref, "java/util/Objects", "equals", "(Ljava/lang/Object;Ljava/lang/Object;)Z");
        or_false(w, branches, OP_ifeq);
    }
}

static void hash_field(Writer *w, const char *cls, const char *name, const char *type) {
    char text[64];
    put1(&w->code, OP_bipush), put1(&w->code, 31), op(w, OP_imul);
    get(w, 0, cls, name, type);
    snprintf(text, sizeof text, "(%c)I", *type);
    if (is_primitive(*type)) write_call(w, OP_invokestatic, CONSTANT_Methodref, wrapper_of(*type), "hashCode", text);
    else write_call(w, OP_invokestatic, CONSTANT_Methodref, "java/util/Objects", "hashCode", "(Ljava/lang/Object;)I");
    op(w, OP_iadd);
}

static void append_field(Writer *w, const char *cls, const char *name, const char *type, bool first) {
    char text[1024];
    append_text(w, text, (size_t)snprintf(text, sizeof text, "%s%s=", first ? "" : ", ", name));
    get(w, 0, cls, name, type);
    append(w, type);
}

static const char *simple_name(const char *cls) {
    const char *simple = strrchr(cls, '/') ? strrchr(cls, '/') + 1 : cls;
    if (strrchr(simple, '$')) simple = strrchr(simple, '$') + 1;
    while (*simple >= '0' && *simple <= '9') simple++;
    return simple;
}

static void begin(Writer *w, Branches *branches, const char *name, const char *cls) {
    char text[1024];
    if (!strcmp(name, "toString")) {
        new_builder(w);
        append_text(w, text, (size_t)snprintf(text, sizeof text, "%s[", simple_name(cls)));
    } else if (!strcmp(name, "hashCode")) op(w, OP_iconst_0);
    else {
        write_load(w, 'L', 1);
        op2(w, OP_instanceof, class_constant(w, cls));
        or_false(w, branches, OP_ifeq);
        write_load(w, 'L', 1);
        op(w, OP_astore_2);
    }
}

static void finish(Writer *w, const Branches *branches, const char *name) {
    if (!strcmp(name, "toString")) {
        append_text(w, "]", 1);
        write_call(w, OP_invokevirtual, CONSTANT_Methodref, BUILDER, "toString", "()Ljava/lang/String;");
        write_return(w, 'L');
        return;
    }
    if (!strcmp(name, "equals")) {
        op(w, OP_iconst_1), write_return(w, 'I');
        for (int i = 0; i < branches->count; i++) {
            size_t offset = w->code.length - branches->at[i];
            w->code.at[branches->at[i] + 1] = (uint8_t)(offset >> 8);
            w->code.at[branches->at[i] + 2] = (uint8_t)offset;
        }
        op(w, OP_iconst_0);
    }
    write_return(w, 'I');
}

Class *make_record_method(Class *caller, const Bootstrap *bootstrap, const char *name, const char *type) {
    Writer *w = new_writer(1);
    Branches branches = {.count = 0};
    char made[1024];
    snprintf(made, sizeof made, "%s$$Record$%u", caller->name, next_made(caller));
    begin(w, &branches, name, caller->name);
    for (uint16_t i = 2; i < bootstrap->count; i++) {
        Constant *field = &caller->constants[caller->constants[u2(bootstrap->args + 2 * i)].b], *pair = &caller->constants[field->b];
        const char *its_name = constant_text(caller, pair->a), *its_type = constant_text(caller, pair->b);
        if (!strcmp(name, "toString")) append_field(w, caller->name, its_name, its_type, i == 2);
        else if (!strcmp(name, "equals")) compare_fields(w, &branches, caller->name, its_name, its_type);
        else hash_field(w, caller->name, its_name, its_type);
    }
    finish(w, &branches, name);
    end_method(w, ACC_PUBLIC | ACC_STATIC, "make", type, 3);
    return define_written(w, made, NULL, 0, caller->loader);
}
