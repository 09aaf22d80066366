/* Class files that the machine writes at run time, method by method. */
#ifndef CLASSWRITER_H
#define CLASSWRITER_H

#include "opcodes.h"
#include "vm.h"

typedef struct Buffer {
    uint8_t *at;
    size_t length, room;
} Buffer;

typedef struct Entry {
    uint8_t tag;
    uint16_t a, b;
    const char *text;
} Entry;

typedef struct Writer {
    Buffer pool, methods, fields, code;
    Entry entries[512];
    uint16_t entry_count, first, count; /* the number of the first constant, and of the next one */
    uint16_t method_count, field_count, dynamic_count;
} Writer;

Writer *new_writer(uint16_t first_constant);
void writer_gone(Writer *w);
void put1(Buffer *to, uint32_t value);
void put2(Buffer *to, uint32_t value);
void put_all(Buffer *to, const void *at, size_t length);

uint16_t class_constant(Writer *w, const char *name);
uint16_t member_constant(Writer *w, uint8_t tag, const char *cls, const char *name, const char *type);

void op(Writer *w, uint8_t opcode);
void op2(Writer *w, uint8_t opcode, uint16_t operand);
void write_call(Writer *w, uint8_t opcode, uint8_t tag, const char *cls, const char *name, const char *type);
void write_dynamic(Writer *w, const char *type); /* an invokedynamic, which the machine binds itself */
void write_load(Writer *w, char type, uint16_t local);
uint16_t write_load_all(Writer *w, const char *type, uint16_t local); /* all parameters, which lie from this local on; the local after them */
void write_return(Writer *w, char type);
void push_string(Writer *w, const char *text);
void end_method(Writer *w, uint16_t flags, const char *name, const char *type, uint16_t locals);
void add_field(Writer *w, uint16_t flags, const char *name, const char *type);

/* The class, defined by the loader, and hidden: NULL with an exception. The writer is gone. */
Class *define_written(Writer *w, const char *name, const char **interfaces, int interface_count, uint32_t loader);

#endif
