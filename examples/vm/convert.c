/* Conversions between the types of a lambda's interface, of its instance and of what it runs, and of method handles (asType). */
#include "generate.h"

static const struct { char type; const char *cls, *value; } wrappers[] = {{'Z', "java/lang/Boolean", "booleanValue"},
    {'B', "java/lang/Byte", "byteValue"}, {'C', "java/lang/Character", "charValue"}, {'S', "java/lang/Short", "shortValue"},
    {'I', "java/lang/Integer", "intValue"}, {'J', "java/lang/Long", "longValue"}, {'F', "java/lang/Float", "floatValue"},
    {'D', "java/lang/Double", "doubleValue"}};

static int wrapper_number(char type) {
    int i = 0;
    while (wrappers[i].type != type) i++;
    return i;
}

const char *wrapper_of(char type) { return wrappers[wrapper_number(type)].cls; }

/* Which wrapper the reference type is, or -1. */
static int wrapper_named(const char *type) {
    for (int i = 0; *type == 'L' && i < 8; i++) {
        size_t length = strlen(wrappers[i].cls);
        if (!strncmp(type + 1, wrappers[i].cls, length) && type[length + 1] == ';') return i;
    }
    return -1;
}

static bool is_object(const char *type) { return !strncmp(type, "Ljava/lang/Object;", 18); }

static bool same_type(const char *one, const char *other) {
    size_t length = (size_t)(next_type(one) - one);
    return length == (size_t)(next_type(other) - other) && !strncmp(one, other, length);
}

static void widen(Writer *w, char from, char to) {
    static const char order[] = "IJFD";
    static const uint8_t codes[4][4] = {{0, OP_i2l, OP_i2f, OP_i2d}, {0, 0, OP_l2f, OP_l2d}, {0, 0, 0, OP_f2d}, {0, 0, 0, 0}};
    const char *a = strchr(order, strchr("ZBCS", from) ? 'I' : from), *b = strchr(order, strchr("ZBCS", to) ? 'I' : to);
    if (codes[a - order][b - order]) op(w, codes[a - order][b - order]);
}

static void cast(Writer *w, const char *type) {
    char name[1024];
    size_t length = (size_t)(next_type(type) - type);
    if (is_object(type)) return;
    snprintf(name, sizeof name, "%.*s", (int)(*type == 'L' ? length - 2 : length), *type == 'L' ? type + 1 : type);
    op2(w, OP_checkcast, class_constant(w, name));
}

static void box_value(Writer *w, char from) {
    char type[64];
    snprintf(type, sizeof type, "(%c)L%s;", from, wrapper_of(from));
    write_call(w, OP_invokestatic, CONSTANT_Methodref, wrapper_of(from), "valueOf", type);
}

static void unbox_value(Writer *w, const char *from, const char *middle, char to) {
    char type[8];
    int known = wrapper_named(from) >= 0 ? wrapper_named(from) : wrapper_named(middle), i = known >= 0 ? known : wrapper_number(to);
    op2(w, OP_checkcast, class_constant(w, wrappers[i].cls));
    snprintf(type, sizeof type, "()%c", wrappers[i].type);
    write_call(w, OP_invokevirtual, CONSTANT_Methodref, wrappers[i].cls, wrappers[i].value, type);
    widen(w, wrappers[i].type, to);
}

void write_conversion(Writer *w, const char *from, const char *middle, const char *to) {
    if (*from == 'V' || *to == 'V') return;
    if (is_primitive(*from) && is_primitive(*to)) widen(w, *from, *to);
    else if (is_primitive(*from)) box_value(w, *from);
    else if (is_primitive(*to)) unbox_value(w, from, middle, *to);
    else if (!is_object(middle) && !is_primitive(*middle)) {
        if (!same_type(from, middle)) cast(w, middle);
    } else if (!same_type(from, to)) cast(w, to);
}
