/* Measures the stack that the three operations take, over events of all kinds on tables of all kinds, and holds it to what dedakhumi.h says. */
#include <stdio.h>
#include <string.h>

#include "../compare/random.h"
#include "../usage.h"
#include "dedakhumi.h"
#include "stack.h"

enum { EVENTS = 60000 };

static uint8_t table[DEDAKHUMI_TABLE_LENGTH], report[DEDAKHUMI_REPORT_LENGTH];

/* The archive's memset: one that writes to no stack, so that only its return address counts. */
void *memset(void *bytes, int value, size_t count)
{
	uint8_t *byte = bytes;
	__asm__ volatile("rep stosb" : "+D"(byte), "+c"(count) : "a"(value) : "memory");
	return bytes;
}

static unsigned below(unsigned limit)
{
	static uint64_t random = 1;
	return random_below(&random, limit);
}

/* The casts are the calls' own: System V passes each of these in one register. */
static size_t stack_of_start(size_t length, uint8_t policy)
{
	const uint64_t arguments[ARGUMENTS] = {(uint64_t)(uintptr_t)table, length, policy};
	return stack_of_call((void (*)(void))dedakhumi_start, arguments);
}

static size_t stack_of_name(void)
{
	const uint64_t arguments[ARGUMENTS] = {(uint64_t)(uintptr_t)table, sizeof table};
	return stack_of_call((void (*)(void))dedakhumi_name, arguments);
}

static size_t stack_of_apply(const struct dedakhumi_event *event)
{
	const uint64_t arguments[ARGUMENTS] = {(uint64_t)(uintptr_t)table, sizeof table, (uint64_t)(uintptr_t)report, sizeof report,
		(uint64_t)(uintptr_t)event->bytes, sizeof event->bytes};
	return stack_of_call((void (*)(void))dedakhumi_apply, arguments);
}

/* A task of the table if there is one, for completions and aborts. */
static struct dedakhumi_event event_of_a_task(uint8_t kind, uint8_t first)
{
	size_t count = dedakhumi_task_count(table);
	struct dedakhumi_task task = dedakhumi_task_at(table, count == 0 ? 0 : below((unsigned)count));
	return dedakhumi_event_of(kind, task.nexus, first, 0, task.tag);
}

static struct dedakhumi_event any_command(void)
{
	uint8_t attribute = (uint8_t)below(below(4) == 0 ? 6 : 3), control = (uint8_t)below(below(50) == 0 ? 8 : 4);
	return dedakhumi_command_event((uint8_t)below(8), (dedakhumi_tag)below(300), attribute, control);
}

/* Commands outnumber the rest, so that the set is often full; an ACA, which keeps them out, is soon cleared. */
static struct dedakhumi_event any_event(void)
{
	if (dedakhumi_faulted_nexus(table) != DEDAKHUMI_NEXUSES && below(2) == 0)
		return dedakhumi_function_event(dedakhumi_faulted_nexus(table), DEDAKHUMI_FUNCTION_CLEAR_ACA);
	switch (below(60)) {
	case 0: return dedakhumi_function_event((uint8_t)below(9), (uint8_t)below(7));
	case 1: return below(10) == 0 ? dedakhumi_reset_event((uint8_t)(1 + below(2))) : any_command();
	case 2: return dedakhumi_nexus_loss_event((uint8_t)below(9));
	case 3: return event_of_a_task(DEDAKHUMI_KIND_MANAGEMENT, DEDAKHUMI_FUNCTION_ABORT_TASK);
	case 4: return event_of_a_task(DEDAKHUMI_KIND_COMPLETION, DEDAKHUMI_STATUS_CHECK_CONDITION);
	case 5:
	case 6: return event_of_a_task(DEDAKHUMI_KIND_COMPLETION, DEDAKHUMI_STATUS_GOOD);
	case 7: return event_of_a_task(DEDAKHUMI_KIND_COMPLETION, below(2) == 0 ? DEDAKHUMI_STATUS_BUSY : DEDAKHUMI_STATUS_RESERVATION_CONFLICT);
	default: return any_command();
	}
}

struct stacks {
	size_t start, name, apply;
};

static void raise_to(size_t *most, size_t measured)
{
	if (measured > *most)
		*most = measured;
}

static void measure_start(struct stacks *most, unsigned round)
{
	static const uint8_t policies[] = {0x00, 0x01, 0x03, 0x04, 0x05, 0x07};
	raise_to(&most->start, stack_of_start(sizeof table - 1, 0));
	raise_to(&most->start, stack_of_start(sizeof table, DEDAKHUMI_POLICY_TAS | 2));
	raise_to(&most->start, stack_of_start(sizeof table, policies[round % sizeof policies]));
}

static void measure_event(struct stacks *most)
{
	struct dedakhumi_event event = any_event();
	raise_to(&most->apply, stack_of_apply(&event));
	raise_to(&most->name, stack_of_name());
}

/* Refused, and so as it was when its byte is put right again. */
static void measure_damaged(struct stacks *most)
{
	size_t place = below(sizeof table);
	table[place] ^= 0x80;
	measure_event(most);
	table[place] ^= 0x80;
}

static int hold(const char *operation, size_t measured, size_t said)
{
	printf("cost: %s takes %zu bytes of stack\n", operation, measured);
	if (measured != said)
		fprintf(stderr, "cost: dedakhumi.h says %zu bytes of stack for %s, measured are %zu\n", said, operation, measured);
	return measured != said;
}

int main(int argument_count, char **arguments)
{
	(void)arguments;
	take_no_argument("cost", argument_count);
	struct stacks most = {0, 0, 0};
	for (unsigned i = 0; i < EVENTS; i++) {
		if (i % 1000 == 0)
			measure_start(&most, i / 1000);
		measure_event(&most);
		if (i % 100 == 0)
			measure_damaged(&most);
	}
	int wrong = hold("dedakhumi_start", most.start, DEDAKHUMI_START_STACK) + hold("dedakhumi_name", most.name, DEDAKHUMI_NAME_STACK) +
		    hold("dedakhumi_apply", most.apply, DEDAKHUMI_APPLY_STACK);
	return wrong == 0 ? 0 : 1;
}
