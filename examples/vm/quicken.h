/* Instructions that are written over once what they name is resolved. Each is done under the lock, and its opcode is written last, so who sees
 * the quick opcode sees its operand; false with an exception. An instruction that initializes a class is left as it is until the class is
 * initialized, since other threads have to wait for that (5.5). */
#ifndef QUICKEN_H
#define QUICKEN_H

#include "opcodes.h"
#include "vm.h"

bool quicken_ldc(Method *method, uint8_t *pc);
bool quicken_field(Method *method, uint8_t *pc, Field **early); /* early: a static field of a class that this thread still initializes */
bool quicken_class(Method *method, uint8_t *pc, uint8_t quick);
Class *quicken_new(Method *method, uint8_t *pc); /* NULL with an exception */
void quicken_invoke(Method *method, uint8_t *pc);

static inline uint16_t native2(const uint8_t *at) { uint16_t value; memcpy(&value, at, 2); return value; }

#endif
