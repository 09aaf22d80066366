/* The interpreter (JVMS 6.5). Instructions that name something are written over by quick ones once it is resolved (quicken.c); invocations
 * by ones that have the number of their site, and go by what link.c keeps there.
 *
 * What other threads may write at the same time, fields and elements, is read and written whole: references so that who reads one sees the
 * object, fields that are volatile in one order for all threads (JLS 17.4). */
#include "quicken.h"
#include <math.h>

static inline int16_t s2(const uint8_t *at) { return (int16_t)u2(at); }
static inline int32_t s4(const uint8_t *at) { return (int32_t)u4(at); }

static int32_t to_int(double value) {
    if (value != value) return 0;
    return value >= 2147483647.0 ? INT32_MAX : value <= -2147483648.0 ? INT32_MIN : (int32_t)value;
}

static int64_t to_long(double value) {
    if (value != value) return 0;
    return value >= 9223372036854775807.0 ? INT64_MAX : value <= -9223372036854775808.0 ? INT64_MIN : (int64_t)value;
}

static int compare(double one, double other, int unordered) {
    return one > other ? 1 : one == other ? 0 : one < other ? -1 : unordered;
}

static Object *new_arrays(Class *cls, const Slot *lengths, int dimensions) {
    for (int i = 0; i < dimensions; i++)
        if (lengths[i].i < 0) return throw_new("java/lang/NegativeArraySizeException", "%d", lengths[i].i).a;
    Object *made = new_array(cls, lengths[0].i);
    for (int32_t i = 0; made && dimensions > 1 && i < lengths[0].i; i++)
        if (!(DATA(made, Object *)[i] = new_arrays(cls->element, lengths + 1, dimensions - 1))) return NULL;
    return made;
}

/* Where the exception goes on in this frame (2.10), or NULL. */
static uint8_t *handler_of(Frame *frame) {
    Method *method = frame->method;
    if (!method->code) return NULL;
    uint16_t pc = (uint16_t)(frame->pc - method->code);
    for (uint16_t i = 0; i < method->handler_count; i++) {
        Handler *one = &method->handlers[i];
        if (pc < one->start || pc >= one->end) continue;
        if (!one->type) return method->code + one->at;
        Object *exception = self->exception;
        self->exception = NULL;
        Class *cls = resolve_class(method->cls, one->type);
        if (!cls) return NULL; /* that is the exception then */
        self->exception = exception;
        if (is_subclass(exception->cls, cls)) return method->code + one->at;
    }
    return NULL;
}

static void throw_index(int32_t index, Object *array) {
    throw_new("java/lang/ArrayIndexOutOfBoundsException", "Index %d out of bounds for length %u", index, array->length);
}

/* There is room after the last frame in which the exception is made. */
static void throw_overflow(void) {
    uint32_t depth = self->max_depth;
    self->max_depth = depth + 1000;
    self->stack_end += 100000;
    throw_new("java/lang/StackOverflowError", NULL);
    self->max_depth = depth;
    self->stack_end -= 100000;
}

/* What a call has to do but once; false with an exception. */
static bool prepare_call(Method *method) {
    if ((method->flags & ACC_STATIC) && !init_class(method->cls)) return false;
    if (method->flags & ACC_NATIVE) {
        Native native = ACQUIRE(method->native) ? NULL : find_native(method);
        if (native) RELEASE(method->native, native);
        self->counts.natives++;
        return !self->exception;
    }
    if (!ACQUIRE(method->ready)) prepare_code(method);
    bool ready = !(method->flags & ACC_STATIC) || ACQUIRE(method->cls->state) == READY;
    if (ready && !(method->flags & ACC_SYNCHRONIZED)) RELEASE(method->simple, true);
    return true;
}

/* ---- the loop */

#define TOP sp[-1]
#define NEXT(n) { pc += (n); continue; }
#define SAVE (frame->pc = pc, thread->top = sp)
#define POLL if (RELAXED(vm.stop)) { SAVE; safepoint(); }
#define NULLCHECK(object) if (!(object)) { SAVE; throw_null(); goto raise; }
#define PUSH_I(value) { int32_t v_ = (value); sp->i = v_; sp++; }
#define LOAD(index, n) { sp->j = locals[index].j; sp += 1; pc += (n); continue; }
#define LOAD2(index, n) { sp->j = locals[index].j; sp += 2; pc += (n); continue; }
#define STORE(index, n) { sp -= 1; locals[index].j = sp->j; pc += (n); continue; }
#define STORE2(index, n) { sp -= 2; locals[index].j = sp->j; pc += (n); continue; }
#define INT(expression) { int32_t b = TOP.i, a = sp[-2].i; (void)a; (void)b; sp--; TOP.i = (int32_t)(expression); NEXT(1) }
#define LONG(expression) { int64_t b = sp[-2].j, a = sp[-4].j; sp -= 2; sp[-2].j = (int64_t)(expression); NEXT(1) }
#define FLOAT(expression) { float b = TOP.f, a = sp[-2].f; sp--; TOP.f = (expression); NEXT(1) }
#define DOUBLE(expression) { double b = sp[-2].d, a = sp[-4].d; sp -= 2; sp[-2].d = (expression); NEXT(1) }
#define BRANCH(condition, pops) {                    \
        bool taken = (condition);                    \
        int offset = taken ? s2(pc + 1) : 3;         \
        sp -= (pops);                                \
        if (offset < 0) POLL                         \
        NEXT(offset)                                 \
    }
#define BRANCH_WIDE { int32_t offset = s4(pc + 1); if (offset < 0) POLL NEXT(offset) }
#define ELEMENT(back, type)                                                                          \
    Object *array = sp[-(back)].a;                                                                   \
    int32_t index = sp[1 - (back)].i;                                                                \
    NULLCHECK(array)                                                                                 \
    if ((uint32_t)index >= array->length) { SAVE; throw_index(index, array); goto raise; }           \
    type *at = &DATA(array, type)[index]
#define FIELD(back, type)                \
    Object *object = sp[-(back)].a;      \
    NULLCHECK(object)                    \
    type *at = &AT(object, native2(pc + 1), type)
#define GETFIELD(type) { FIELD(1, type); TOP.i = RELAXED(*at); NEXT(3) }
#define PUTFIELD(type) { FIELD(2, type); SET_RELAXED(*at, (type)TOP.i); sp -= 2; NEXT(3) }
#define PLACE(type) (*(type *)constants[native2(pc + 1)].place)
#define GETSTATIC(type) { sp->i = RELAXED(PLACE(type)); sp++; NEXT(3) }
#define PUTSTATIC(type) { sp--; SET_RELAXED(PLACE(type), (type)sp->i); NEXT(3) }
#define RESULT(call, type) {                                     \
        Slot result = call;                                      \
        if (thread->exception) goto raise;                       \
        sp = args;                                               \
        *sp = result;                                            \
        sp += width_of(strchr(type, ')')[1]);                    \
        NEXT(*pc == QUICK_INVOKE ? 3 : 5)                        \
    }

/* Runs the frames from the last one on, until there are only so many. */
static Slot run(uint32_t base) {
    Thread *const thread = self;
    Frame *frame = &thread->frames[thread->depth - 1];
    Slot *locals = frame->locals, *sp = locals + frame->method->max_locals;
    uint8_t *pc = frame->method->code;
    Constant *constants = frame->method->cls->constants;
    for (;;) {
        switch (ACQUIRE(*pc)) {
            case OP_nop: NEXT(1)
            case OP_aconst_null: sp->a = NULL; sp++; NEXT(1)
            case OP_iconst_m1: case OP_iconst_0: case OP_iconst_1: case OP_iconst_2: case OP_iconst_3: case OP_iconst_4: case OP_iconst_5:
                PUSH_I(*pc - OP_iconst_0)
                NEXT(1)
            case OP_lconst_0: case OP_lconst_1: sp->j = *pc - OP_lconst_0; sp += 2; NEXT(1)
            case OP_fconst_0: case OP_fconst_1: case OP_fconst_2: sp->f = (float)(*pc - OP_fconst_0); sp++; NEXT(1)
            case OP_dconst_0: case OP_dconst_1: sp->d = *pc - OP_dconst_0; sp += 2; NEXT(1)
            case OP_bipush: PUSH_I((int8_t)pc[1]) NEXT(2)
            case OP_sipush: PUSH_I(s2(pc + 1)) NEXT(3)
            case OP_ldc: case OP_ldc_w:
                SAVE;
                if (!quicken_ldc(frame->method, pc)) goto raise;
                continue;
            case QUICK_LDC: sp->j = (int64_t)(intptr_t)constants[pc[1]].place; sp++; NEXT(2)
            case QUICK_LDC_W: sp->j = (int64_t)(intptr_t)constants[u2(pc + 1)].place; sp++; NEXT(3)
            case OP_ldc2_w: sp->j = constants[u2(pc + 1)].is.value.j; sp += 2; NEXT(3)
            case OP_iload: case OP_fload: case OP_aload: LOAD(pc[1], 2)
            case OP_lload: case OP_dload: LOAD2(pc[1], 2)
            case OP_iload_0: case OP_fload_0: case OP_aload_0: LOAD(0, 1)
            case OP_iload_1: case OP_fload_1: case OP_aload_1: LOAD(1, 1)
            case OP_iload_2: case OP_fload_2: case OP_aload_2: LOAD(2, 1)
            case OP_iload_3: case OP_fload_3: case OP_aload_3: LOAD(3, 1)
            case OP_lload_0: case OP_lload_1: case OP_lload_2: case OP_lload_3: LOAD2(*pc - OP_lload_0, 1)
            case OP_dload_0: case OP_dload_1: case OP_dload_2: case OP_dload_3: LOAD2(*pc - OP_dload_0, 1)
            case OP_iaload: case OP_faload: { ELEMENT(2, int32_t); sp--; TOP.i = RELAXED(*at); NEXT(1) }
            case OP_laload: case OP_daload: { ELEMENT(2, int64_t); sp[-2].j = RELAXED(*at); NEXT(1) }
            case OP_aaload: { ELEMENT(2, Object *); sp--; TOP.a = ACQUIRE(*at); NEXT(1) }
            case OP_baload: { ELEMENT(2, int8_t); sp--; TOP.i = RELAXED(*at); NEXT(1) }
            case OP_caload: { ELEMENT(2, uint16_t); sp--; TOP.i = RELAXED(*at); NEXT(1) }
            case OP_saload: { ELEMENT(2, int16_t); sp--; TOP.i = RELAXED(*at); NEXT(1) }
            case OP_istore: case OP_fstore: case OP_astore: STORE(pc[1], 2)
            case OP_lstore: case OP_dstore: STORE2(pc[1], 2)
            case OP_istore_0: case OP_fstore_0: case OP_astore_0: STORE(0, 1)
            case OP_istore_1: case OP_fstore_1: case OP_astore_1: STORE(1, 1)
            case OP_istore_2: case OP_fstore_2: case OP_astore_2: STORE(2, 1)
            case OP_istore_3: case OP_fstore_3: case OP_astore_3: STORE(3, 1)
            case OP_lstore_0: case OP_lstore_1: case OP_lstore_2: case OP_lstore_3: STORE2(*pc - OP_lstore_0, 1)
            case OP_dstore_0: case OP_dstore_1: case OP_dstore_2: case OP_dstore_3: STORE2(*pc - OP_dstore_0, 1)
            case OP_iastore: case OP_fastore: { ELEMENT(3, int32_t); SET_RELAXED(*at, TOP.i); sp -= 3; NEXT(1) }
            case OP_lastore: case OP_dastore: { ELEMENT(4, int64_t); SET_RELAXED(*at, sp[-2].j); sp -= 4; NEXT(1) }
            case OP_aastore: {
                ELEMENT(3, Object *);
                Object *value = TOP.a;
                if (value && value->cls != array->cls->element && !is_subclass(value->cls, array->cls->element)) {
                    SAVE;
                    throw_new("java/lang/ArrayStoreException", "%s", dotted(value->cls->name));
                    goto raise;
                }
                RELEASE(*at, value);
                sp -= 3;
                NEXT(1)
            }
            case OP_bastore: { ELEMENT(3, int8_t); SET_RELAXED(*at, (int8_t)TOP.i); sp -= 3; NEXT(1) }
            case OP_castore: case OP_sastore: { ELEMENT(3, int16_t); SET_RELAXED(*at, (int16_t)TOP.i); sp -= 3; NEXT(1) }
            case OP_pop: sp--; NEXT(1)
            case OP_pop2: sp -= 2; NEXT(1)
            case OP_dup: sp[0] = sp[-1]; sp++; NEXT(1)
            case OP_dup_x1: sp[0] = sp[-1]; sp[-1] = sp[-2]; sp[-2] = sp[0]; sp++; NEXT(1)
            case OP_dup_x2: sp[0] = sp[-1]; sp[-1] = sp[-2]; sp[-2] = sp[-3]; sp[-3] = sp[0]; sp++; NEXT(1)
            case OP_dup2: sp[0] = sp[-2]; sp[1] = sp[-1]; sp += 2; NEXT(1)
            case OP_dup2_x1: sp[1] = sp[-1]; sp[0] = sp[-2]; sp[-1] = sp[-3]; sp[-2] = sp[1]; sp[-3] = sp[0]; sp += 2; NEXT(1)
            case OP_dup2_x2:
                sp[1] = sp[-1]; sp[0] = sp[-2]; sp[-1] = sp[-3]; sp[-2] = sp[-4]; sp[-3] = sp[1]; sp[-4] = sp[0];
                sp += 2;
                NEXT(1)
            case OP_swap: { Slot top = sp[-1]; sp[-1] = sp[-2]; sp[-2] = top; NEXT(1) }
            case OP_iadd: INT((uint32_t)a + (uint32_t)b)
            case OP_ladd: LONG((uint64_t)a + (uint64_t)b)
            case OP_fadd: FLOAT(a + b)
            case OP_dadd: DOUBLE(a + b)
            case OP_isub: INT((uint32_t)a - (uint32_t)b)
            case OP_lsub: LONG((uint64_t)a - (uint64_t)b)
            case OP_fsub: FLOAT(a - b)
            case OP_dsub: DOUBLE(a - b)
            case OP_imul: INT((uint32_t)a * (uint32_t)b)
            case OP_lmul: LONG((uint64_t)a * (uint64_t)b)
            case OP_fmul: FLOAT(a * b)
            case OP_dmul: DOUBLE(a * b)
            case OP_idiv: if (!TOP.i) goto divide; INT(b == -1 ? -(uint32_t)a : (uint32_t)(a / b))
            case OP_ldiv: if (!sp[-2].j) goto divide; LONG(b == -1 ? -(uint64_t)a : (uint64_t)(a / b))
            case OP_fdiv: FLOAT(a / b)
            case OP_ddiv: DOUBLE(a / b)
            case OP_irem: if (!TOP.i) goto divide; INT(b == -1 ? 0 : a % b)
            case OP_lrem: if (!sp[-2].j) goto divide; LONG(b == -1 ? 0 : a % b)
            case OP_frem: FLOAT(fmodf(a, b))
            case OP_drem: DOUBLE(fmod(a, b))
            case OP_ineg: TOP.i = (int32_t)-(uint32_t)TOP.i; NEXT(1)
            case OP_lneg: sp[-2].j = (int64_t)-(uint64_t)sp[-2].j; NEXT(1)
            case OP_fneg: TOP.f = -TOP.f; NEXT(1)
            case OP_dneg: sp[-2].d = -sp[-2].d; NEXT(1)
            case OP_ishl: INT((uint32_t)a << (b & 31))
            case OP_lshl: sp--; sp[-2].j = (int64_t)((uint64_t)sp[-2].j << (sp[0].i & 63)); NEXT(1)
            case OP_ishr: INT(a >> (b & 31))
            case OP_lshr: sp--; sp[-2].j = sp[-2].j >> (sp[0].i & 63); NEXT(1)
            case OP_iushr: INT((uint32_t)a >> (b & 31))
            case OP_lushr: sp--; sp[-2].j = (int64_t)((uint64_t)sp[-2].j >> (sp[0].i & 63)); NEXT(1)
            case OP_iand: INT(a & b)
            case OP_land: LONG(a & b)
            case OP_ior: INT(a | b)
            case OP_lor: LONG(a | b)
            case OP_ixor: INT(a ^ b)
            case OP_lxor: LONG(a ^ b)
            case OP_iinc: locals[pc[1]].i = (int32_t)((uint32_t)locals[pc[1]].i + (uint32_t)(int8_t)pc[2]); NEXT(3)
            case OP_i2l: TOP.j = TOP.i; sp++; NEXT(1)
            case OP_i2f: TOP.f = (float)TOP.i; NEXT(1)
            case OP_i2d: TOP.d = TOP.i; sp++; NEXT(1)
            case OP_l2i: sp--; TOP.i = (int32_t)TOP.j; NEXT(1)
            case OP_l2f: sp--; TOP.f = (float)TOP.j; NEXT(1)
            case OP_l2d: sp[-2].d = (double)sp[-2].j; NEXT(1)
            case OP_f2i: TOP.i = to_int(TOP.f); NEXT(1)
            case OP_f2l: TOP.j = to_long(TOP.f); sp++; NEXT(1)
            case OP_f2d: TOP.d = TOP.f; sp++; NEXT(1)
            case OP_d2i: sp--; TOP.i = to_int(TOP.d); NEXT(1)
            case OP_d2l: sp[-2].j = to_long(sp[-2].d); NEXT(1)
            case OP_d2f: sp--; TOP.f = (float)TOP.d; NEXT(1)
            case OP_i2b: TOP.i = (int8_t)TOP.i; NEXT(1)
            case OP_i2c: TOP.i = (uint16_t)TOP.i; NEXT(1)
            case OP_i2s: TOP.i = (int16_t)TOP.i; NEXT(1)
            case OP_lcmp: {
                int64_t b = sp[-2].j, a = sp[-4].j;
                sp -= 3;
                TOP.i = a > b ? 1 : a == b ? 0 : -1;
                NEXT(1)
            }
            case OP_fcmpl: case OP_fcmpg: { float b = TOP.f, a = sp[-2].f; sp--; TOP.i = compare(a, b, *pc == OP_fcmpl ? -1 : 1); NEXT(1) }
            case OP_dcmpl: case OP_dcmpg: { double b = sp[-2].d, a = sp[-4].d; sp -= 3; TOP.i = compare(a, b, *pc == OP_dcmpl ? -1 : 1); NEXT(1) }
            case OP_ifeq: BRANCH(TOP.i == 0, 1)
            case OP_ifne: BRANCH(TOP.i != 0, 1)
            case OP_iflt: BRANCH(TOP.i < 0, 1)
            case OP_ifge: BRANCH(TOP.i >= 0, 1)
            case OP_ifgt: BRANCH(TOP.i > 0, 1)
            case OP_ifle: BRANCH(TOP.i <= 0, 1)
            case OP_if_icmpeq: BRANCH(sp[-2].i == TOP.i, 2)
            case OP_if_icmpne: BRANCH(sp[-2].i != TOP.i, 2)
            case OP_if_icmplt: BRANCH(sp[-2].i < TOP.i, 2)
            case OP_if_icmpge: BRANCH(sp[-2].i >= TOP.i, 2)
            case OP_if_icmpgt: BRANCH(sp[-2].i > TOP.i, 2)
            case OP_if_icmple: BRANCH(sp[-2].i <= TOP.i, 2)
            case OP_if_acmpeq: BRANCH(sp[-2].a == TOP.a, 2)
            case OP_if_acmpne: BRANCH(sp[-2].a != TOP.a, 2)
            case OP_goto: BRANCH(true, 0)
            case OP_jsr: PUSH_I((int32_t)(pc - frame->method->code) + 3) NEXT(s2(pc + 1))
            case OP_ret: pc = frame->method->code + locals[pc[1]].i; continue;
            case OP_tableswitch: {
                uint8_t *at = frame->method->code + (((pc - frame->method->code) + 4) & ~3);
                int32_t low = s4(at + 4), high = s4(at + 8), value = (--sp)->i;
                NEXT(value < low || value > high ? s4(at) : s4(at + 12 + 4 * ((int64_t)value - low)))
            }
            case OP_lookupswitch: {
                uint8_t *at = frame->method->code + (((pc - frame->method->code) + 4) & ~3);
                int32_t low = 0, high = s4(at + 4) - 1, value = (--sp)->i, to = s4(at);
                while (low <= high) {
                    int32_t middle = (low + high) / 2, key = s4(at + 8 + 8 * middle);
                    if (key == value) { to = s4(at + 12 + 8 * middle); break; }
                    if (key < value) low = middle + 1;
                    else high = middle - 1;
                }
                NEXT(to)
            }
            case OP_ireturn: case OP_lreturn: case OP_freturn: case OP_dreturn: case OP_areturn: case OP_return: {
                int size = *pc == OP_return ? 0 : *pc == OP_lreturn || *pc == OP_dreturn ? 2 : 1;
                Slot result = size ? sp[-size] : NOTHING;
                sp = locals;
                if (frame->locked && !monitor_exit(frame->locked)) goto raise;
                if (--thread->depth == base) return result;
                frame = &thread->frames[thread->depth - 1];
                locals = frame->locals;
                constants = frame->method->cls->constants;
                pc = frame->pc;
                pc += *pc == QUICK_INVOKE ? 3 : 5;
                *sp = result;
                sp += size;
                continue;
            }
            case OP_getstatic: case OP_putstatic: case OP_getfield: case OP_putfield: {
                Field *early = NULL;
                bool get = ACQUIRE(*pc) == OP_getstatic;
                SAVE;
                if (!quicken_field(frame->method, pc, &early)) goto raise;
                if (!early) continue;
                if (!get) sp -= width_of(*early->type);
                char *place = (char *)early->cls->mirror + early->offset;
                if (get) *sp = load_as(*early->type, place);
                else store_as(*early->type, place, *sp);
                if (get) sp += width_of(*early->type);
                NEXT(3)
            }
            case QUICK_GETFIELD_B: GETFIELD(int8_t)
            case QUICK_GETFIELD_C: GETFIELD(uint16_t)
            case QUICK_GETFIELD_S: GETFIELD(int16_t)
            case QUICK_GETFIELD_I: GETFIELD(int32_t)
            case QUICK_GETFIELD_J: { FIELD(1, int64_t); TOP.j = RELAXED(*at); sp++; NEXT(3) }
            case QUICK_GETFIELD_A: { FIELD(1, Object *); TOP.a = ACQUIRE(*at); NEXT(3) }
            case QUICK_PUTFIELD_B: PUTFIELD(int8_t)
            case QUICK_PUTFIELD_S: PUTFIELD(int16_t)
            case QUICK_PUTFIELD_I: PUTFIELD(int32_t)
            case QUICK_PUTFIELD_J: { FIELD(3, int64_t); SET_RELAXED(*at, sp[-2].j); sp -= 3; NEXT(3) }
            case QUICK_PUTFIELD_A: { FIELD(2, Object *); RELEASE(*at, TOP.a); sp -= 2; NEXT(3) }
            case QUICK_GETSTATIC_B: GETSTATIC(int8_t)
            case QUICK_GETSTATIC_C: GETSTATIC(uint16_t)
            case QUICK_GETSTATIC_S: GETSTATIC(int16_t)
            case QUICK_GETSTATIC_I: GETSTATIC(int32_t)
            case QUICK_GETSTATIC_J: sp->j = RELAXED(PLACE(int64_t)); sp += 2; NEXT(3)
            case QUICK_GETSTATIC_A: sp->a = ACQUIRE(PLACE(Object *)); sp++; NEXT(3)
            case QUICK_PUTSTATIC_B: PUTSTATIC(int8_t)
            case QUICK_PUTSTATIC_S: PUTSTATIC(int16_t)
            case QUICK_PUTSTATIC_I: PUTSTATIC(int32_t)
            case QUICK_PUTSTATIC_J: sp -= 2; SET_RELAXED(PLACE(int64_t), sp->j); NEXT(3)
            case QUICK_PUTSTATIC_A: sp--; RELEASE(PLACE(Object *), sp->a); NEXT(3)
            case QUICK_GETFIELD_VOLATILE: {
                Field *field = constants[native2(pc + 1)].is.field;
                NULLCHECK(TOP.a)
                TOP = load_as(*field->type, (char *)TOP.a + field->offset);
                sp += width_of(*field->type) - 1;
                NEXT(3)
            }
            case QUICK_PUTFIELD_VOLATILE: {
                Field *field = constants[native2(pc + 1)].is.field;
                sp -= width_of(*field->type) + 1;
                NULLCHECK(sp->a)
                store_as(*field->type, (char *)sp->a + field->offset, sp[1]);
                NEXT(3)
            }
            case QUICK_GETSTATIC_VOLATILE: {
                Field *field = constants[native2(pc + 1)].is.field;
                *sp = load_as(*field->type, (char *)field->cls->mirror + field->offset);
                sp += width_of(*field->type);
                NEXT(3)
            }
            case QUICK_PUTSTATIC_VOLATILE: {
                Field *field = constants[native2(pc + 1)].is.field;
                sp -= width_of(*field->type);
                store_as(*field->type, (char *)field->cls->mirror + field->offset, *sp);
                NEXT(3)
            }
            case OP_invokevirtual: case OP_invokespecial: case OP_invokestatic: case OP_invokeinterface: case OP_invokedynamic:
                quicken_invoke(frame->method, pc);
                continue;
            case QUICK_INVOKE: case QUICK_INVOKE_LONG: {
                Site *site = &frame->method->sites[native2(pc + 1)];
                Slot *args = sp - site->nargs;
                Link *link = ACQUIRE(site->link);
                Method *target = NULL;
                thread->counts.calls++;
                switch (link->form) {
                    case LINK_PLAIN:
                        target = link->method;
                        break;
                    case LINK_DIRECT:
                        NULLCHECK(args[0].a)
                        target = link->method;
                        break;
                    case LINK_TABLE:
                        NULLCHECK(args[0].a)
                        for (int i = 0; i < link->count; i++)
                            if (link->rows[i].receiver == args[0].a->cls) { target = link->rows[i].method; break; }
                }
                if (!target) {
                    SAVE;
                    if (!(target = link_call(site, args))) {
                        if (thread->exception) goto raise;
                        RESULT(polymorphic_call(site, args), constant_text(frame->method->cls, constants[site_reference(site)->b].b))
                    }
                }
                Object *locked = NULL;
                if (!ACQUIRE(target->simple)) {
                    SAVE;
                    if (!prepare_call(target)) goto raise;
                    if (target->flags & ACC_NATIVE) RESULT(ACQUIRE(target->native)(args), target->type)
                    if (target->flags & ACC_SYNCHRONIZED) locked = target->flags & ACC_STATIC ? target->cls->mirror : args[0].a;
                }
                SAVE;
                if (thread->depth >= thread->max_depth || args + target->max_locals + target->max_stack + 8 >= thread->stack_end) {
                    throw_overflow();
                    goto raise;
                }
                if (RELAXED(vm.stop)) safepoint();
                if (locked) monitor_enter(locked);
                frame = &thread->frames[thread->depth];
                *frame = (Frame){target, target->code, args, locked};
                thread->depth++;
                locals = args;
                pc = target->code;
                sp = args + target->max_locals;
                constants = target->cls->constants;
                continue;
            }
            case OP_new: {
                SAVE;
                Class *cls = quicken_new(frame->method, pc);
                if (!cls) goto raise;
                sp->a = new_object(cls);
                sp++;
                NEXT(3)
            }
            case QUICK_NEW: SAVE; sp->a = new_object(constants[native2(pc + 1)].is.cls); sp++; NEXT(3)
            case OP_newarray: {
                static const char letters[] = "....ZCFDBSIJ";
                SAVE;
                TOP.a = new_array(vm.arrays[(int)letters[pc[1]]], TOP.i);
                if (thread->exception) goto raise;
                NEXT(2)
            }
            case OP_anewarray: SAVE; if (!quicken_class(frame->method, pc, QUICK_ANEWARRAY)) goto raise; continue;
            case QUICK_ANEWARRAY:
                SAVE;
                TOP.a = new_array(constants[native2(pc + 1)].is.cls->array_of, TOP.i);
                if (thread->exception) goto raise;
                NEXT(3)
            case OP_arraylength: { Object *array = TOP.a; NULLCHECK(array) TOP.i = (int32_t)array->length; NEXT(1) }
            case OP_athrow: NULLCHECK(TOP.a) SAVE; thread->exception = TOP.a; goto raise;
            case OP_checkcast:
                if (!TOP.a) NEXT(3) /* nothing is resolved */
                SAVE;
                if (!quicken_class(frame->method, pc, QUICK_CHECKCAST)) goto raise;
                continue;
            case QUICK_CHECKCAST: {
                Object *object = TOP.a;
                Class *cls = constants[native2(pc + 1)].is.cls;
                if (object && object->cls != cls && !is_subclass(object->cls, cls)) {
                    SAVE;
                    throw_cast(object, cls);
                    goto raise;
                }
                NEXT(3)
            }
            case OP_instanceof:
                if (!TOP.a) { TOP.i = 0; NEXT(3) }
                SAVE;
                if (!quicken_class(frame->method, pc, QUICK_INSTANCEOF)) goto raise;
                continue;
            case QUICK_INSTANCEOF: {
                Object *object = TOP.a;
                Class *cls = constants[native2(pc + 1)].is.cls;
                TOP.i = object && (object->cls == cls || is_subclass(object->cls, cls));
                NEXT(3)
            }
            case OP_monitorenter: NULLCHECK(TOP.a) SAVE; monitor_enter(TOP.a); sp--; NEXT(1)
            case OP_monitorexit: NULLCHECK(TOP.a) SAVE; if (!monitor_exit(TOP.a)) goto raise; sp--; NEXT(1)
            case OP_wide: {
                uint16_t index = u2(pc + 2);
                switch (pc[1]) {
                    case OP_iload: case OP_fload: case OP_aload: LOAD(index, 4)
                    case OP_lload: case OP_dload: LOAD2(index, 4)
                    case OP_istore: case OP_fstore: case OP_astore: STORE(index, 4)
                    case OP_lstore: case OP_dstore: STORE2(index, 4)
                    case OP_iinc: locals[index].i = (int32_t)((uint32_t)locals[index].i + (uint32_t)s2(pc + 4)); NEXT(6)
                    default: pc = frame->method->code + locals[index].i; continue;
                }
            }
            case OP_multianewarray: {
                SAVE;
                Class *cls = resolve_class(frame->method->cls, u2(pc + 1));
                if (!cls) goto raise;
                sp -= pc[3];
                sp->a = new_arrays(cls, sp, pc[3]);
                if (thread->exception) goto raise;
                sp++;
                NEXT(4)
            }
            case OP_ifnull: BRANCH(!TOP.a, 1)
            case OP_ifnonnull: BRANCH(TOP.a != NULL, 1)
            case OP_goto_w: BRANCH_WIDE
            case OP_jsr_w: PUSH_I((int32_t)(pc - frame->method->code) + 5) NEXT(s4(pc + 1))
            default:
                fprintf(stderr, "vm: opcode %u in %s.%s\n", *pc, frame->method->cls->name, frame->method->name);
                abort();
        }
    divide:
        SAVE;
        throw_new("java/lang/ArithmeticException", "/ by zero");
    raise:
        for (;;) {
            frame = &thread->frames[thread->depth - 1];
            uint8_t *at = handler_of(frame);
            if (at) {
                pc = at;
                locals = frame->locals;
                constants = frame->method->cls->constants;
                sp = locals + frame->method->max_locals;
                sp->a = thread->exception;
                sp++;
                thread->exception = NULL;
                break;
            }
            if (frame->locked) {
                Object *exception = thread->exception;
                thread->exception = NULL;
                if (monitor_exit(frame->locked)) thread->exception = exception;
            }
            if (--thread->depth == base) return NOTHING;
        }
    }
}

Slot invoke(Method *method, Slot *args, int count) {
    Slot *top = self->top, *locals = top, result = NOTHING;
    uint32_t depth = self->depth;
    Object *locked = NULL;
    if (count) memmove(locals, args, (size_t)count * sizeof(Slot));
    self->top = locals + count;
    if (method->flags & ACC_NATIVE) {
        if (prepare_call(method)) result = ACQUIRE(method->native)(locals);
        self->top = top;
        return result;
    }
    if (!ACQUIRE(method->ready)) prepare_code(method);
    if (self->depth >= self->max_depth || locals + method->max_locals + method->max_stack + 8 >= self->stack_end) {
        throw_overflow();
        self->top = top;
        return result;
    }
    if (method->flags & ACC_SYNCHRONIZED) monitor_enter(locked = method->flags & ACC_STATIC ? method->cls->mirror : locals[0].a);
    self->frames[self->depth++] = (Frame){method, method->code, locals, locked};
    self->top = locals + method->max_locals;
    result = run(depth);
    self->top = top;
    return result;
}
