/* Calls on a stack of their own that was painted before, to see how far down they write. */
#ifndef COST_STACK_H
#define COST_STACK_H

#include <stddef.h>
#include <stdint.h>

/* As many as a call has in registers. */
enum { ARGUMENTS = 6 };

/* The bytes below the caller's stack that the call wrote to, its return address among them. */
size_t stack_of_call(void (*function)(void), const uint64_t arguments[ARGUMENTS]);

#endif
