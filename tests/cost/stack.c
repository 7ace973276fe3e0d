#include "stack.h"

#include <string.h>

/* A lowest byte that is written as PAINT goes unseen; over many calls the largest figure is of one that is not. */
enum { ROOM = 4096, PAINT = 0xA5 };

static _Alignas(64) uint8_t room[ROOM];

/* With the stack pointer at `top`, which is a multiple of 16 as a caller has it. */
void call_on_stack(void *top, void (*function)(void), const uint64_t arguments[ARGUMENTS]);

__asm__(".globl call_on_stack\n"
	"call_on_stack:\n"
	"	push %rbp\n"
	"	mov %rsp, %rbp\n"
	"	mov %rdi, %rsp\n"
	"	mov %rsi, %rax\n"
	"	mov %rdx, %r10\n"
	"	mov 0(%r10), %rdi\n"
	"	mov 8(%r10), %rsi\n"
	"	mov 16(%r10), %rdx\n"
	"	mov 24(%r10), %rcx\n"
	"	mov 32(%r10), %r8\n"
	"	mov 40(%r10), %r9\n"
	"	call *%rax\n"
	"	mov %rbp, %rsp\n"
	"	pop %rbp\n"
	"	ret\n");

size_t stack_of_call(void (*function)(void), const uint64_t arguments[ARGUMENTS])
{
	size_t lowest = 0;
	memset(room, PAINT, sizeof room);
	call_on_stack(room + sizeof room, function, arguments);
	while (lowest < sizeof room && room[lowest] == PAINT)
		lowest++;
	return sizeof room - lowest;
}
