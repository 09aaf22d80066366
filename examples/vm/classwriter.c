/* See classwriter.h. */
#include "classwriter.h"

void put1(Buffer *to, uint32_t value) {
    if (to->length == to->room) to->at = realloc(to->at, to->room = to->room * 2 + 256);
    to->at[to->length++] = (uint8_t)value;
}

void put2(Buffer *to, uint32_t value) { put1(to, value >> 8); put1(to, value); }
static void put4(Buffer *to, uint32_t value) { put2(to, value >> 16); put2(to, value); }

void put_all(Buffer *to, const void *at, size_t length) {
    for (size_t i = 0; i < length; i++) put1(to, ((const uint8_t *)at)[i]);
}

Writer *new_writer(uint16_t first_constant) {
    Writer *w = calloc(1, sizeof *w);
    w->first = w->count = first_constant;
    return w;
}

void writer_gone(Writer *w) {
    for (uint16_t i = 0; i < w->entry_count; i++) free((char *)w->entries[i].text);
    free(w->pool.at), free(w->fields.at), free(w->methods.at), free(w->code.at), free(w);
}

/* ---- constants */

static uint16_t constant(Writer *w, uint8_t tag, uint16_t a, uint16_t b, const char *text) {
    for (uint16_t i = 0; i < w->entry_count; i++) {
        Entry *one = &w->entries[i];
        if (one->tag == tag && one->a == a && one->b == b && (!text || !strcmp(text, one->text))) return (uint16_t)(w->first + i);
    }
    if (w->entry_count == sizeof w->entries / sizeof *w->entries) abort();
    w->entries[w->entry_count++] = (Entry){tag, a, b, text ? strdup(text) : NULL};
    put1(&w->pool, tag);
    if (tag == CONSTANT_Utf8) put2(&w->pool, (uint32_t)strlen(text)), put_all(&w->pool, text, strlen(text));
    else if (put2(&w->pool, a), tag != CONSTANT_Class && tag != CONSTANT_String) put2(&w->pool, b);
    return w->count++;
}

static uint16_t utf8(Writer *w, const char *text) { return constant(w, CONSTANT_Utf8, 0, 0, text); }
static uint16_t pair(Writer *w, const char *name, const char *type) {
    return constant(w, CONSTANT_NameAndType, utf8(w, name), utf8(w, type), NULL);
}

uint16_t class_constant(Writer *w, const char *name) { return constant(w, CONSTANT_Class, utf8(w, name), 0, NULL); }

uint16_t member_constant(Writer *w, uint8_t tag, const char *cls, const char *name, const char *type) {
    uint16_t name_and_type = pair(w, name, type);
    return constant(w, tag, class_constant(w, cls), name_and_type, NULL);
}

/* ---- code */

void op(Writer *w, uint8_t opcode) { put1(&w->code, opcode); }
void op2(Writer *w, uint8_t opcode, uint16_t operand) { put1(&w->code, opcode); put2(&w->code, operand); }

void write_call(Writer *w, uint8_t opcode, uint8_t tag, const char *cls, const char *name, const char *type) {
    op2(w, opcode, member_constant(w, tag, cls, name, type));
    if (opcode == OP_invokeinterface) put1(&w->code, slots_of(type) + 1u), put1(&w->code, 0);
}

void write_dynamic(Writer *w, const char *type) {
    op2(w, OP_invokedynamic, constant(w, CONSTANT_InvokeDynamic, w->dynamic_count++, pair(w, "call", type), NULL));
    put2(&w->code, 0);
}

static uint8_t of_type(char type, uint8_t first) { /* iload or ireturn, and so on */
    return (uint8_t)(first + (type == 'J' ? 1 : type == 'F' ? 2 : type == 'D' ? 3 : type == 'L' || type == '[' ? 4 : 0));
}

void write_load(Writer *w, char type, uint16_t local) {
    if (local > 255) op(w, OP_wide), op2(w, of_type(type, OP_iload), local);
    else put1(&w->code, of_type(type, OP_iload)), put1(&w->code, local);
}

uint16_t write_load_all(Writer *w, const char *type, uint16_t local) {
    for (type++; *type != ')'; type = next_type(type)) {
        write_load(w, *type, local);
        local += (uint16_t)width_of(*type);
    }
    return local;
}

void write_return(Writer *w, char type) { op(w, type == 'V' ? OP_return : of_type(type, OP_ireturn)); }

void push_string(Writer *w, const char *text) { op2(w, OP_ldc_w, constant(w, CONSTANT_String, utf8(w, text), 0, NULL)); }

/* ---- members and files */

void end_method(Writer *w, uint16_t flags, const char *name, const char *type, uint16_t locals) {
    put2(&w->methods, flags);
    put2(&w->methods, utf8(w, name));
    put2(&w->methods, utf8(w, type));
    put2(&w->methods, 1);
    put2(&w->methods, utf8(w, "Code"));
    put4(&w->methods, (uint32_t)w->code.length + 12);
    put2(&w->methods, locals + 20u); /* no verifier wants these to be exact */
    put2(&w->methods, locals);
    put4(&w->methods, (uint32_t)w->code.length);
    put_all(&w->methods, w->code.at, w->code.length);
    put4(&w->methods, 0);
    w->method_count++;
    w->code.length = 0;
}

void add_field(Writer *w, uint16_t flags, const char *name, const char *type) {
    put2(&w->fields, flags);
    put2(&w->fields, utf8(w, name));
    put2(&w->fields, utf8(w, type));
    put2(&w->fields, 0);
    w->field_count++;
}

static Bytes finish_file(Writer *w, const char *name, const char **interfaces, int interface_count) {
    enum { MAGIC = 0xcafebabe, VERSION = 61, ACC_SUPER = 0x20 };
    Buffer file = {0};
    uint16_t this_class = class_constant(w, name), super_class = class_constant(w, "java/lang/Object"), numbers[64];
    for (int i = 0; i < interface_count; i++) numbers[i] = class_constant(w, interfaces[i]);
    put4(&file, MAGIC);
    put4(&file, VERSION);
    put2(&file, w->count);
    put_all(&file, w->pool.at, w->pool.length);
    put2(&file, ACC_PUBLIC | ACC_FINAL | ACC_SUPER | ACC_SYNTHETIC);
    put2(&file, this_class);
    put2(&file, super_class);
    put2(&file, (uint32_t)interface_count);
    for (int i = 0; i < interface_count; i++) put2(&file, numbers[i]);
    put2(&file, w->field_count);
    put_all(&file, w->fields.at, w->fields.length);
    put2(&file, w->method_count);
    put_all(&file, w->methods.at, w->methods.length);
    put2(&file, 0);
    return (Bytes){file.at, (uint32_t)file.length};
}

Class *define_written(Writer *w, const char *name, const char **interfaces, int interface_count, uint32_t loader) {
    Bytes file = finish_file(w, name, interfaces, interface_count);
    writer_gone(w);
    Class *cls = define_class(loader, file, NULL, true);
    if (cls) cls->hidden = true;
    return cls;
}
