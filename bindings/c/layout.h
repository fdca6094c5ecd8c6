/* Each struct of njallavet.h as the archive has it: its size, its alignment, the place of each field. rust/src/ffi.rs asserts the same. */
#ifndef NJALLAVET_LAYOUT_H
#define NJALLAVET_LAYOUT_H

#include "../njallavet.h"

#define LAID_OUT(type, size, align) _Static_assert(sizeof(type) == (size) && _Alignof(type) == (align), #type)
#define STANDS(type, field, at) _Static_assert(offsetof(type, field) == (at), #type "." #field)

LAID_OUT(njallavet_stack, 4100, 4);
STANDS(njallavet_stack, stack_raw, 0);
STANDS(njallavet_stack, stack_len, 4096);

LAID_OUT(njallavet_answer, 4136, 8);
STANDS(njallavet_answer, code, 0);
STANDS(njallavet_answer, shrink_ticks, 4);
STANDS(njallavet_answer, grow_ticks, 8);
STANDS(njallavet_answer, ops, 16);
STANDS(njallavet_answer, slots, 24);
STANDS(njallavet_answer, stack, 32);

LAID_OUT(njallavet_state, 4120, 8);
STANDS(njallavet_state, stack, 0);
STANDS(njallavet_state, first, 4100);
STANDS(njallavet_state, filled, 4104);
STANDS(njallavet_state, written, 4112);

LAID_OUT(njallavet_verdict, 32, 8);
STANDS(njallavet_verdict, code, 0);
STANDS(njallavet_verdict, index, 8);
STANDS(njallavet_verdict, gas, 16);
STANDS(njallavet_verdict, filled, 24);

#endif
