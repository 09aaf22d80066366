/* Class files (4), for what the linker doesn't give: constants, fields, code, attributes. The linker has read the bytes before (link_check), so
 * that they are a class file, and lengths and numbers aren't checked again. */
#include "vm.h"

/* ---- one copy of each text, so that texts are compared by their places */

static const char **texts;
static size_t text_room, text_count;

static uint32_t hash_text(const char *text, size_t length) {
    uint32_t hash = 2166136261u;
    for (size_t i = 0; i < length; i++) hash = (hash ^ (uint8_t)text[i]) * 16777619u;
    return hash;
}

static void grow_texts(void) {
    size_t room = text_room ? text_room * 2 : 1 << 16;
    const char **bigger = calloc(room, sizeof *bigger);
    for (size_t i = 0; i < text_room; i++) {
        if (!texts[i]) continue;
        size_t at = hash_text(texts[i], strlen(texts[i])) & (room - 1);
        while (bigger[at]) at = (at + 1) & (room - 1);
        bigger[at] = texts[i];
    }
    free(texts);
    texts = bigger;
    text_room = room;
}

static const char *find_or_add(const char *text, size_t length) {
    if (text_count * 2 >= text_room) grow_texts();
    size_t at = hash_text(text, length) & (text_room - 1);
    while (texts[at]) {
        if (!strncmp(texts[at], text, length) && !texts[at][length]) return texts[at];
        at = (at + 1) & (text_room - 1);
    }
    char *copy = malloc(length + 1);
    memcpy(copy, text, length);
    copy[length] = 0;
    text_count++;
    return texts[at] = copy;
}

const char *intern_n(const char *text, size_t length) {
    lock();
    const char *one = find_or_add(text, length);
    unlock();
    return one;
}

const char *intern(const char *text) { return intern_n(text, strlen(text)); }

/* ---- descriptors */

const char *next_type(const char *type) {
    while (*type == '[') type++;
    if (*type == 'L') return strchr(type, ';') + 1;
    return type + 1;
}

uint16_t slots_of(const char *type) {
    uint16_t slots = 0;
    for (type++; *type != ')'; type = next_type(type)) slots += *type == 'J' || *type == 'D' ? 2 : 1;
    return slots;
}

/* ---- reading */

typedef struct Reader {
    const uint8_t *at;
    Class *cls;
} Reader;

static uint16_t read2(Reader *from) { from->at += 2; return u2(from->at - 2); }
static uint32_t read4(Reader *from) { from->at += 4; return u4(from->at - 4); }
static const char *text_at(Class *cls, uint16_t index) { return index ? cls->constants[index].text : NULL; }
static const char *name_at(Class *cls, uint16_t index) { return index ? cls->constants[cls->constants[index].a].text : NULL; }

static void read_constant(Reader *from, Constant *one) {
    one->tag = *from->at++;
    switch (one->tag) {
        case CONSTANT_Utf8: {
            uint16_t length = read2(from);
            one->text = intern_n((const char *)from->at, length);
            from->at += length;
            break;
        }
        case CONSTANT_Integer: case CONSTANT_Float:
            one->is.value = of_int((int32_t)read4(from));
            one->resolved = true;
            break;
        case CONSTANT_Long: case CONSTANT_Double:
            one->is.value.j = (int64_t)((uint64_t)u4(from->at) << 32 | u4(from->at + 4));
            one->resolved = true;
            from->at += 8;
            break;
        case CONSTANT_MethodHandle:
            one->a = *from->at++;
            one->b = read2(from);
            break;
        case CONSTANT_Class: case CONSTANT_String: case CONSTANT_MethodType: case CONSTANT_Module: case CONSTANT_Package:
            one->a = read2(from);
            break;
        default:
            one->a = read2(from);
            one->b = read2(from);
    }
}

static void read_constants(Reader *from) {
    Class *cls = from->cls;
    cls->constant_count = read2(from);
    cls->constants = calloc(cls->constant_count, sizeof(Constant));
    for (uint16_t i = 1; i < cls->constant_count; i++) {
        read_constant(from, &cls->constants[i]);
        if (cls->constants[i].tag == CONSTANT_Long || cls->constants[i].tag == CONSTANT_Double) i++;
    }
}

/* Of each attribute its name, and its bytes without the length. */
#define EACH_ATTRIBUTE(from, name, bytes)                                                                       \
    for (uint16_t left_ = read2(from); left_ > 0; left_--)                                                      \
        for (const char *name = text_at((from)->cls, read2(from)), *once_ = name; once_; once_ = NULL)          \
            for (Bytes bytes = {(from)->at + 4, read4(from)}; bytes.at && ((from)->at += bytes.length, true); bytes.at = NULL)

static void read_field(Reader *from, Field *field, uint16_t index) {
    *field = (Field){.cls = from->cls, .index = index, .flags = read2(from)};
    field->name = text_at(from->cls, read2(from));
    field->type = text_at(from->cls, read2(from));
    EACH_ATTRIBUTE(from, name, bytes) {
        if (!strcmp(name, "ConstantValue")) field->constant = u2(bytes.at);
        else if (!strcmp(name, "Signature")) field->signature = text_at(from->cls, u2(bytes.at));
        else if (!strcmp(name, "RuntimeVisibleAnnotations")) field->annotations = bytes;
    }
}

static void read_code(Reader *from, Method *method, Bytes code) {
    Reader inner = {code.at, from->cls};
    method->max_stack = read2(&inner);
    method->max_locals = read2(&inner);
    uint32_t length = read4(&inner);
    method->code_bytes = (Bytes){inner.at, length};
    inner.at += length;
    method->handler_count = read2(&inner);
    if (method->handler_count) method->handlers = malloc(method->handler_count * sizeof(Handler));
    for (uint16_t i = 0; i < method->handler_count; i++) {
        Handler *one = &method->handlers[i];
        one->start = read2(&inner);
        one->end = read2(&inner);
        one->at = read2(&inner);
        one->type = read2(&inner);
    }
    EACH_ATTRIBUTE(&inner, name, bytes) {
        if (!strcmp(name, "LineNumberTable") && !method->lines.at) method->lines = bytes;
    }
}

static void read_throws(Method *method, Bytes bytes) {
    method->throw_count = u2(bytes.at);
    method->throws = malloc(method->throw_count * sizeof(uint16_t));
    for (uint16_t i = 0; i < method->throw_count; i++) method->throws[i] = u2(bytes.at + 2 + 2 * i);
}

static void read_method(Reader *from, Method *method, uint16_t index) {
    *method = (Method){.cls = from->cls, .index = index, .flags = read2(from)};
    method->name = text_at(from->cls, read2(from));
    method->type = text_at(from->cls, read2(from));
    method->nargs = slots_of(method->type) + !(method->flags & ACC_STATIC);
    method->result = strchr(method->type, ')')[1];
    if (!strncmp(method->name, "linkd$", 6)) method->hidden = true;
    EACH_ATTRIBUTE(from, name, bytes) {
        if (!strcmp(name, "Code")) read_code(from, method, bytes);
        else if (!strcmp(name, "Signature")) method->signature = text_at(from->cls, u2(bytes.at));
        else if (!strcmp(name, "RuntimeVisibleAnnotations")) method->annotations = bytes;
        else if (!strcmp(name, "RuntimeVisibleParameterAnnotations")) method->parameter_annotations = bytes;
        else if (!strcmp(name, "AnnotationDefault")) method->default_value = bytes;
        else if (!strcmp(name, "Exceptions")) read_throws(method, bytes);
    }
    if (method->flags & ACC_NATIVE) method->max_locals = method->nargs;
}

static void read_bootstraps(Class *cls, Bytes bytes) {
    const uint8_t *at = bytes.at;
    cls->bootstrap_count = u2(at);
    cls->bootstraps = malloc(cls->bootstrap_count * sizeof(Bootstrap));
    at += 2;
    for (uint16_t i = 0; i < cls->bootstrap_count; i++) {
        cls->bootstraps[i] = (Bootstrap){u2(at), u2(at + 2), at + 4};
        at += 4 + 2 * u2(at + 2);
    }
}

static void read_attributes(Reader *from) {
    Class *cls = from->cls;
    EACH_ATTRIBUTE(from, name, bytes) {
        if (!strcmp(name, "SourceFile")) cls->source = text_at(cls, u2(bytes.at));
        else if (!strcmp(name, "BootstrapMethods")) read_bootstraps(cls, bytes);
        else if (!strcmp(name, "InnerClasses")) cls->inner = bytes;
        else if (!strcmp(name, "EnclosingMethod")) cls->enclosing = bytes;
        else if (!strcmp(name, "NestHost")) cls->nest_host = name_at(cls, u2(bytes.at));
        else if (!strcmp(name, "Signature")) cls->signature = text_at(cls, u2(bytes.at));
        else if (!strcmp(name, "RuntimeVisibleAnnotations")) cls->annotations = bytes;
        else if (!strcmp(name, "Record")) cls->record = bytes;
        else if (!strcmp(name, "PermittedSubclasses")) cls->permitted = bytes;
    }
}

/* The superclass and the interfaces are left as names: their places have to be filled by who defines it. */
Class *parse_class(Bytes file) {
    Class *cls = calloc(1, sizeof *cls);
    Reader from = {file.at + 8, cls};
    cls->file = file;
    read_constants(&from);
    cls->flags = read2(&from);
    cls->name = name_at(cls, read2(&from));
    uint16_t super = read2(&from);
    cls->super = (Class *)name_at(cls, super);
    cls->interface_count = read2(&from);
    cls->interfaces = calloc(cls->interface_count + 1, sizeof(Class *));
    for (uint16_t i = 0; i < cls->interface_count; i++) cls->interfaces[i] = (Class *)name_at(cls, read2(&from));
    cls->field_count = read2(&from);
    cls->fields = calloc(cls->field_count + 1, sizeof(Field));
    for (uint16_t i = 0; i < cls->field_count; i++) read_field(&from, &cls->fields[i], i);
    cls->method_count = read2(&from);
    cls->methods = calloc(cls->method_count + 1, sizeof(Method));
    for (uint16_t i = 0; i < cls->method_count; i++) read_method(&from, &cls->methods[i], i);
    read_attributes(&from);
    return cls;
}

/* A copy of the code, which the interpreter then writes its own instructions into. */
void prepare_code(Method *method) {
    lock();
    if (!method->ready) {
        method->code_length = method->code_bytes.length;
        method->code = malloc(method->code_length + 1);
        memcpy(method->code, method->code_bytes.at, method->code_length);
        make_sites(method);
        RELEASE(method->ready, true);
    }
    unlock();
}

Method *declared(Class *cls, const char *name, const char *type) {
    for (uint16_t i = 0; i < cls->method_count; i++)
        if (!strcmp(cls->methods[i].name, name) && (!type || !strcmp(cls->methods[i].type, type))) return &cls->methods[i];
    return NULL;
}

Method *must_declare(Class *cls, const char *name, const char *type) {
    for (Class *at = cls; at; at = at->super) {
        Method *method = declared(at, name, type);
        if (method) return method;
    }
    fprintf(stderr, "vm: no method %s.%s\n", cls->name, name);
    end_process(3);
}

/* Field resolution (5.4.3.2), by interned texts; of any type where that is NULL. */
Field *find_field(Class *cls, const char *name, const char *type) {
    for (; cls; cls = cls->super) {
        for (uint16_t i = 0; i < cls->field_count; i++)
            if (cls->fields[i].name == name && (!type || cls->fields[i].type == type)) return &cls->fields[i];
        for (uint16_t i = 0; i < cls->interface_count; i++) {
            Field *found = find_field(cls->interfaces[i], name, type);
            if (found) return found;
        }
    }
    return NULL;
}

int line_of(Method *method, int pc) {
    if (!method->lines.at) return -1;
    int line = -1, best = -1;
    for (uint16_t i = 0; i < u2(method->lines.at); i++) {
        const uint8_t *row = method->lines.at + 2 + 4 * i;
        if (u2(row) <= pc && u2(row) >= best) {
            best = u2(row);
            line = u2(row + 2);
        }
    }
    return line;
}
