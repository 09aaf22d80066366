/* What generate.c, bridges.c, convert.c, records.c and handles.c share. */
#ifndef GENERATE_H
#define GENERATE_H

#include "classwriter.h"

#define BUILDER "java/lang/StringBuilder"
#define LAMBDAS "java/lang/invoke/LambdaMetafactory"

bool is_primitive(char type);
uint32_t next_made(Class *cls); /* a number for a class that is made for this one */
bool is_method_of(Class *cls, const Bootstrap *bootstrap, const char *factory);

/* bridges.c: the descriptor of a static method that does what a method handle of this kind does */
const char *bridge_type(uint16_t reference_kind, const char *owner, const char *type);
const char *bridge_type_of(Class *cls, const Constant *handle);

/* strings */
void new_builder(Writer *w);
void append(Writer *w, const char *type);
void append_text(Writer *w, const char *text, size_t length);

/* convert.c: of what has the type `from`, and by an instantiated type is a `middle`, something of the type `to` */
void write_conversion(Writer *w, const char *from, const char *middle, const char *to);
const char *wrapper_of(char type); /* java/lang/Integer of I, and so on */

/* records.c */
Class *make_record_method(Class *caller, const Bootstrap *bootstrap, const char *name, const char *type);

#endif
