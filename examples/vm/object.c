/* Strings, fields by their names, and boxes. */
#include "vm.h"

/* ---- strings */

static Field *value_field, *coder_field;

/* Once java.lang.String is there. */
void strings_open(void) {
    value_field = find_field(vm.string, intern("value"), NULL);
    coder_field = find_field(vm.string, intern("coder"), NULL);
}

/* One unit of modified UTF-8, or of UTF-8: what lies beyond 16 bits comes as a code point. */
static const uint8_t *decode(const uint8_t *at, uint32_t *unit) {
    if (at[0] < 0x80) return *unit = at[0], at + 1;
    if ((at[0] & 0xe0) == 0xc0) return *unit = (uint32_t)(at[0] & 31) << 6 | (at[1] & 63), at + 2;
    if ((at[0] & 0xf0) == 0xe0) return *unit = (uint32_t)(at[0] & 15) << 12 | (uint32_t)(at[1] & 63) << 6 | (at[2] & 63), at + 3;
    *unit = (uint32_t)(at[0] & 7) << 18 | (uint32_t)(at[1] & 63) << 12 | (uint32_t)(at[2] & 63) << 6 | (at[3] & 63);
    return at + 4;
}

static Object *new_string_n(const char *utf8, size_t length) {
    const uint8_t *at = (const uint8_t *)utf8, *end = at + length;
    uint32_t unit, units = 0, largest = 0;
    while (at < end) {
        at = decode(at, &unit);
        units += unit > 0xffff ? 2 : 1;
        if (unit > largest) largest = unit;
    }
    bool wide = largest > 0xff;
    Object *value = new_array(vm.arrays['B'], (int32_t)(wide ? units * 2 : units)), *string = new_object(vm.string);
    uint32_t to = 0;
    for (at = (const uint8_t *)utf8; at < end;) {
        at = decode(at, &unit);
        if (!wide) DATA(value, uint8_t)[to++] = (uint8_t)unit;
        else if (unit <= 0xffff) DATA(value, uint16_t)[to++] = (uint16_t)unit;
        else {
            DATA(value, uint16_t)[to++] = (uint16_t)(0xd800 + ((unit - 0x10000) >> 10));
            DATA(value, uint16_t)[to++] = (uint16_t)(0xdc00 + ((unit - 0x10000) & 0x3ff));
        }
    }
    AT(string, value_field->offset, Object *) = value;
    AT(string, coder_field->offset, uint8_t) = wide;
    return string;
}

Object *new_string(const char *utf8) { return utf8 ? new_string_n(utf8, strlen(utf8)) : NULL; }

static uint8_t *encode(uint32_t unit, uint8_t *to) {
    if (unit < 0x80) *to++ = (uint8_t)unit;
    else if (unit < 0x800) *to++ = (uint8_t)(0xc0 | unit >> 6), *to++ = (uint8_t)(0x80 | (unit & 63));
    else if (unit < 0x10000)
        *to++ = (uint8_t)(0xe0 | unit >> 12), *to++ = (uint8_t)(0x80 | (unit >> 6 & 63)), *to++ = (uint8_t)(0x80 | (unit & 63));
    else {
        *to++ = (uint8_t)(0xf0 | unit >> 18);
        *to++ = (uint8_t)(0x80 | (unit >> 12 & 63));
        *to++ = (uint8_t)(0x80 | (unit >> 6 & 63));
        *to++ = (uint8_t)(0x80 | (unit & 63));
    }
    return to;
}

char *text_of(Object *string) {
    static char null[] = "null";
    if (!string) return null;
    Object *value = AT(string, value_field->offset, Object *);
    bool wide = AT(string, coder_field->offset, uint8_t);
    uint32_t units = value->length >> wide;
    char **kept = &self->texts[self->next_text++ % (sizeof self->texts / sizeof *self->texts)];
    free(*kept);
    char *text = *kept = malloc(units * 3 + 1);
    uint8_t *to = (uint8_t *)text;
    for (uint32_t i = 0; i < units; i++) {
        uint32_t unit = wide ? DATA(value, uint16_t)[i] : DATA(value, uint8_t)[i];
        if (unit >= 0xd800 && unit < 0xdc00 && i + 1 < units && (DATA(value, uint16_t)[i + 1] & 0xfc00) == 0xdc00)
            unit = 0x10000 + ((unit - 0xd800) << 10) + (DATA(value, uint16_t)[++i] - 0xdc00u);
        to = encode(unit, to);
    }
    *to = 0;
    return text;
}

static Object **interned;
static size_t interned_room, interned_count;

static bool same_string(Object *one, Object *other) {
    Object *a = AT(one, value_field->offset, Object *), *b = AT(other, value_field->offset, Object *);
    return a->length == b->length && AT(one, coder_field->offset, uint8_t) == AT(other, coder_field->offset, uint8_t)
        && !memcmp(DATA(a, char), DATA(b, char), a->length);
}

static size_t string_hash(Object *string) {
    Object *value = AT(string, value_field->offset, Object *);
    size_t hash = value->length;
    for (uint32_t i = 0; i < value->length; i++) hash = hash * 31 + DATA(value, uint8_t)[i];
    return hash ^ hash >> 15;
}

static Object *find_or_add(Object *string) {
    if (interned_count * 2 >= interned_room) {
        size_t room = interned_room ? interned_room * 2 : 1 << 14;
        Object **bigger = calloc(room, sizeof *bigger);
        for (size_t i = 0; i < interned_room; i++) {
            if (!interned[i]) continue;
            size_t at = string_hash(interned[i]) & (room - 1);
            while (bigger[at]) at = (at + 1) & (room - 1);
            bigger[at] = interned[i];
        }
        free(interned);
        interned = bigger;
        interned_room = room;
    }
    size_t at = string_hash(string) & (interned_room - 1);
    for (; interned[at]; at = (at + 1) & (interned_room - 1))
        if (same_string(interned[at], string)) return interned[at];
    interned_count++;
    return interned[at] = string;
}

Object *intern_string(Object *string) {
    lock();
    Object *one = find_or_add(string);
    unlock();
    return one;
}

/* Strings that nothing else reaches go. */
void sweep_interned(void) {
    Object **old = interned;
    interned = calloc(interned_room, sizeof *interned);
    interned_count = 0;
    for (size_t i = 0; i < interned_room; i++)
        if (old[i] && is_marked(old[i])) {
            size_t at = string_hash(old[i]) & (interned_room - 1);
            while (interned[at]) at = (at + 1) & (interned_room - 1);
            interned[at] = old[i];
            interned_count++;
        }
    free(old);
}

Object *string_of(const char *utf8) { return intern_string(new_string(utf8)); }

/* A random number of the thread (xorshift) that isn't 0. */
static uint32_t next_random(void) {
    uint32_t *state = &self->random;
    do {
        *state ^= *state << 13;
        *state ^= *state >> 17;
        *state ^= *state << 5;
    } while (!(*state & 0x7fffffff));
    return *state & 0x7fffffff;
}

uint32_t identity_hash(Object *object) {
    uint32_t hash = object ? RELAXED(object->hash) : 0, made;
    if (!object || hash) return hash;
    made = next_random();
    if (__atomic_compare_exchange_n(&object->hash, &hash, made, false, __ATOMIC_RELAXED, __ATOMIC_RELAXED)) return made;
    return hash; /* another thread's */
}

/* ---- values in fields and elements, by the first letter of their type: written and read whole, in one order for all threads */

#define WHOLE(type) __atomic_load_n((const type *)at, __ATOMIC_SEQ_CST)
#define PUT_WHOLE(type, value) __atomic_store_n((type *)at, value, __ATOMIC_SEQ_CST)

Slot load_as(char type, const void *at) {
    switch (type) {
        case 'Z': return of_int(WHOLE(uint8_t));
        case 'B': return of_int(WHOLE(int8_t));
        case 'C': return of_int(WHOLE(uint16_t));
        case 'S': return of_int(WHOLE(int16_t));
        case 'I': case 'F': return of_int(WHOLE(int32_t));
        default: return of_long(WHOLE(int64_t));
    }
}

void store_as(char type, void *at, Slot value) {
    switch (type) {
        case 'Z': PUT_WHOLE(uint8_t, (uint8_t)(value.i & 1)); break;
        case 'B': PUT_WHOLE(int8_t, (int8_t)value.i); break;
        case 'C': case 'S': PUT_WHOLE(int16_t, (int16_t)value.i); break;
        case 'I': case 'F': PUT_WHOLE(int32_t, value.i); break;
        default: PUT_WHOLE(int64_t, value.j);
    }
}

static Field *must_field(Class *cls, const char *name, const char *type) {
    Field *field = find_field(cls, intern(name), type ? intern(type) : NULL);
    if (!field) {
        fprintf(stderr, "vm: no field %s.%s\n", cls->name, name);
        abort();
    }
    return field;
}

Slot get_field(Object *object, const char *name, const char *type) {
    Field *field = must_field(object->cls, name, type);
    return load_as(*field->type, (char *)object + field->offset);
}

void set_field(Object *object, const char *name, const char *type, Slot value) {
    Field *field = must_field(object->cls, name, type);
    store_as(*field->type, (char *)object + field->offset, value);
}

Slot get_static(Class *cls, const char *name, const char *type) {
    Field *field = must_field(cls, name, type);
    return load_as(*field->type, (char *)field->cls->mirror + field->offset);
}

void set_static(Class *cls, const char *name, const char *type, Slot value) {
    Field *field = must_field(cls, name, type);
    store_as(*field->type, (char *)field->cls->mirror + field->offset, value);
}

/* ---- boxes */

static const struct { char type; const char *cls; } boxes[] = {
    {'Z', "java/lang/Boolean"}, {'B', "java/lang/Byte"}, {'C', "java/lang/Character"}, {'S', "java/lang/Short"},
    {'I', "java/lang/Integer"}, {'J', "java/lang/Long"}, {'F', "java/lang/Float"}, {'D', "java/lang/Double"}};

Object *box(char type, Slot value) {
    if (type == 'V') return NULL;
    for (int i = 0; i < 8; i++) {
        if (boxes[i].type != type) continue;
        char descriptor[64];
        Slot args[2] = {value};
        snprintf(descriptor, sizeof descriptor, "(%c)L%s;", type, boxes[i].cls);
        Class *cls = boot_class(boxes[i].cls);
        if (!init_class(cls)) return NULL;
        return invoke(declared(cls, "valueOf", descriptor), args, type == 'J' || type == 'D' ? 2 : 1).a;
    }
    return value.a;
}

bool unbox(Object *object, char type, Slot *value) {
    for (int i = 0; object && i < 8; i++) {
        if (strcmp(object->cls->name, boxes[i].cls)) continue;
        char from = boxes[i].type;
        Slot got = get_field(object, "value", NULL);
        if (from == type) return *value = got, true;
        if (from == 'Z' || type == 'Z') return false;
        if (!strchr("BSIJFD", type) || (from == 'C' && (type == 'B' || type == 'S'))) return false;
        bool whole = from != 'F' && from != 'D';
        if (!whole) return type == 'D' && from == 'F' ? (value->d = got.f, true) : false;
        if (strchr("BSIJ", from) && strchr("BSIJ", type) && strchr("BSIJ", from) > strchr("BSIJ", type)) return false;
        int64_t number = from == 'J' ? got.j : got.i;
        if (type == 'J') value->j = number;
        else if (type == 'F') value->f = (float)number;
        else if (type == 'D') value->d = (double)number;
        else *value = of_int((int32_t)number);
        return true;
    }
    return false;
}
