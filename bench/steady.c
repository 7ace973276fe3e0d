/* Steady work for bench/run to count: COMMANDs and GOOD completions in turn, with the task set kept at N tasks. */
#include <stdio.h>
#include <stdlib.h>

#include "dedakhumi.h"
#include "layout.h"

#ifdef SECOND
#include "second.h"
#define START second_start
#define APPLY second_apply
#else
#define START dedakhumi_start
#define APPLY dedakhumi_apply
#endif

static uint8_t table[TABLE_LENGTH], report[REPORT_LENGTH];

/* COMMANDs are exempt, so that the power on that a fresh table has pending is not told. */
static void apply(uint8_t kind, unsigned number)
{
	uint8_t nexus = number % NEXUS_COUNT;
	struct dedakhumi_event event = dedakhumi_event_of(kind, nexus, 0, kind == COMMAND ? COMMAND_EXEMPT : 0, (dedakhumi_tag)number);
	struct dedakhumi_answer answer = APPLY(table, sizeof table, report, sizeof report, event.bytes, sizeof event.bytes);
	if (answer.answer != 0) {
		fprintf(stderr, "kind %u of %u.%u was answered %u\n", kind, nexus, number, answer.answer);
		exit(1);
	}
}

static bool read_number(const char *text, unsigned long most, unsigned *number)
{
	char *end;
	unsigned long value = strtoul(text, &end, 10);
	*number = (unsigned)value;
	return *text >= '0' && *text <= '9' && *end == '\0' && value <= most;
}

int main(int argument_count, char **arguments)
{
	unsigned tasks, events;
	if (argument_count != 3 || !read_number(arguments[1], TASK_LIMIT, &tasks) || !read_number(arguments[2], UINT16_MAX, &events)) {
		fprintf(stderr, "usage: steady TASKS EVENTS, with at most %d tasks and %d events\n", TASK_LIMIT, UINT16_MAX);
		return 2;
	}
	if (START(table, sizeof table, 0) != 0)
		return 1;
	for (unsigned number = 0; number < tasks; number++)
		apply(COMMAND, number);
	for (unsigned oldest = 0; oldest < events / 2; oldest++) {
		apply(COMPLETION, oldest);
		apply(COMMAND, oldest + tasks);
	}
	return 0;
}
