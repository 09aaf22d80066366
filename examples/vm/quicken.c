/* See quicken.h. What an instruction names is read in the class file's bytes, which stay as they are. */
#include "quicken.h"

static const uint8_t *bytes_at(Method *method, uint8_t *pc) { return method->code_bytes.at + (pc - method->code); }

/* Of an instruction of the constant, with what it is to find at its place. An ldc keeps its operand. */
static void write_over(uint8_t *pc, uint8_t opcode, uint8_t quick, Constant *constant, void *place, uint16_t operand) {
    lock();
    if (*pc == opcode) {
        if (place && constant->place != place) constant->place = place;
        if (opcode != OP_ldc && opcode != OP_ldc_w) memcpy(pc + 1, &operand, 2);
        RELEASE(*pc, quick);
    }
    unlock();
}

bool quicken_ldc(Method *method, uint8_t *pc) {
    const uint8_t *at = bytes_at(method, pc);
    uint16_t index = *at == OP_ldc ? at[1] : u2(at + 1);
    Constant *constant = &method->cls->constants[index];
    void *place;
    if (constant->tag == CONSTANT_Class) {
        Class *named = resolve_class(method->cls, index);
        if (!named) return false;
        place = named->mirror;
    } else {
        if (!resolve_constant(method->cls, index)) return false;
        place = (void *)(intptr_t)constant->is.value.j;
    }
    write_over(pc, *at, *at == OP_ldc ? QUICK_LDC : QUICK_LDC_W, constant, place, 0);
    return true;
}

/* Which of six widths, in the order of the quick opcodes. */
static int width_number(char type) {
    switch (type) {
        case 'Z': case 'B': return 0;
        case 'C': return 1;
        case 'S': return 2;
        case 'I': case 'F': return 3;
        case 'J': case 'D': return 4;
        default: return 5;
    }
}

static uint8_t quick_field(uint8_t opcode, Field *field) {
    bool is_static = opcode == OP_getstatic || opcode == OP_putstatic, get = opcode == OP_getstatic || opcode == OP_getfield;
    if (field->flags & ACC_VOLATILE)
        return get ? is_static ? QUICK_GETSTATIC_VOLATILE : QUICK_GETFIELD_VOLATILE
                   : is_static ? QUICK_PUTSTATIC_VOLATILE : QUICK_PUTFIELD_VOLATILE;
    int width = width_number(*field->type);
    if (get) return (uint8_t)((is_static ? QUICK_GETSTATIC_B : QUICK_GETFIELD_B) + width);
    width = width == 1 ? 2 : width; /* a char is written as a short is */
    return (uint8_t)((is_static ? QUICK_PUTSTATIC_B : QUICK_PUTFIELD_B) + (width ? width - 1 : 0));
}

bool quicken_field(Method *method, uint8_t *pc, Field **early) {
    const uint8_t *at = bytes_at(method, pc);
    uint16_t index = u2(at + 1);
    bool is_static = *at == OP_getstatic || *at == OP_putstatic;
    Field *field = resolve_field(method->cls, index, is_static);
    if (!field || (is_static && !init_class(field->cls))) return false;
    if (is_static && ACQUIRE(field->cls->state) != READY) {
        *early = field;
        return true;
    }
    bool by_offset = !is_static && !(field->flags & ACC_VOLATILE);
    void *place = is_static ? (char *)field->cls->mirror + field->offset : NULL;
    write_over(pc, *at, quick_field(*at, field), &method->cls->constants[index], place, by_offset ? (uint16_t)field->offset : index);
    return true;
}

bool quicken_class(Method *method, uint8_t *pc, uint8_t quick) {
    const uint8_t *at = bytes_at(method, pc);
    uint16_t index = u2(at + 1);
    Class *named = resolve_class(method->cls, index);
    if (!named) return false;
    if (quick == QUICK_ANEWARRAY) array_class(named);
    write_over(pc, *at, quick, &method->cls->constants[index], NULL, index);
    return true;
}

Class *quicken_new(Method *method, uint8_t *pc) {
    uint16_t index = u2(bytes_at(method, pc) + 1);
    Class *named = resolve_class(method->cls, index);
    if (!named) return NULL;
    if (named->flags & (ACC_ABSTRACT | ACC_INTERFACE)) return throw_new("java/lang/InstantiationError", "%s", dotted(named->name)), NULL;
    if (!init_class(named)) return NULL;
    if (ACQUIRE(named->state) == READY) write_over(pc, OP_new, QUICK_NEW, &method->cls->constants[index], NULL, index);
    return named;
}

void quicken_invoke(Method *method, uint8_t *pc) {
    const uint8_t *at = bytes_at(method, pc);
    Site *site = site_at(method, (uint32_t)(pc - method->code));
    uint8_t quick = *at == OP_invokeinterface || *at == OP_invokedynamic ? QUICK_INVOKE_LONG : QUICK_INVOKE;
    write_over(pc, *at, quick, NULL, NULL, (uint16_t)(site - method->sites));
}
