/* The events that take the most instructions, for bench/run to count: `largest ROW EVENTS` fills a table and applies the row's event if EVENTS is 1;
   without arguments it lists the rows. A climb over tables and events found the last two, and nothing above them;
   a search of each kind of event the rows with an ACA task and with HEAD OF QUEUE tasks. */
#include <stdio.h>
#include <stdlib.h>
#include <string.h>

#include "dedakhumi.h"

static uint8_t table[DEDAKHUMI_TABLE_LENGTH], report[DEDAKHUMI_REPORT_LENGTH];

static void apply(struct dedakhumi_event event)
{
	struct dedakhumi_answer answer = dedakhumi_apply(table, sizeof table, report, sizeof report, event.bytes, sizeof event.bytes);
	if (answer.answer != DEDAKHUMI_DONE && answer.answer != DEDAKHUMI_ENDED_AT_ENTRY) {
		fprintf(stderr, "largest: answered %u\n", answer.answer);
		exit(1);
	}
}

enum { OLDEST = 1, YOUNGEST = DEDAKHUMI_TASKS, NEW = DEDAKHUMI_TASKS + 1, NEXUS = 3, OTHER = 4, SHARED = DEDAKHUMI_NEXUSES };

/* Tags go from 1, the oldest task's. Exempt, so that the power on is not told. */
static void fill(uint8_t policy, unsigned tasks, uint8_t attribute, uint8_t nexus)
{
	if (dedakhumi_start(table, sizeof table, policy) != DEDAKHUMI_DONE)
		exit(1);
	for (unsigned tag = OLDEST; tag <= tasks; tag++)
		apply(dedakhumi_command_event(nexus == SHARED ? (uint8_t)(tag % DEDAKHUMI_NEXUSES) : nexus, (dedakhumi_tag)tag, attribute,
			DEDAKHUMI_CONTROL_EXEMPT | DEDAKHUMI_CONTROL_NACA));
}

/* 63 tasks wait for the end of an ACA, and the ACA task is there. QERR 01b would have ended them as it began: no events lead here from a
   start with that policy, but a table may be lent so. */
static void fill_with_aca(uint8_t policy)
{
	fill(DEDAKHUMI_POLICY_QERR_NONE, YOUNGEST, DEDAKHUMI_ATTRIBUTE_SIMPLE, NEXUS);
	apply(dedakhumi_completion_event(NEXUS, OLDEST, DEDAKHUMI_STATUS_CHECK_CONDITION));
	apply(dedakhumi_command_event(NEXUS, NEW, DEDAKHUMI_ATTRIBUTE_ACA, DEDAKHUMI_CONTROL_EXEMPT));
	table[DEDAKHUMI_HEADER_OFFSET + DEDAKHUMI_AT_HEADER_POLICY] = policy;
}

struct row {
	const char *name;
	bool with_aca;
	uint8_t policy;
	unsigned tasks;
	uint8_t attribute, nexus, kind, first;
	dedakhumi_tag tag;
};

static const struct row rows[] = {
	{"a COMMAND that finds 63 tasks", false, DEDAKHUMI_POLICY_QERR_NONE, 63, DEDAKHUMI_ATTRIBUTE_SIMPLE, NEXUS, DEDAKHUMI_KIND_COMMAND,
		DEDAKHUMI_ATTRIBUTE_SIMPLE, NEW},
	{"a COMMAND that finds 63 HEAD OF QUEUE tasks", false, DEDAKHUMI_POLICY_QERR_NONE, 63, DEDAKHUMI_ATTRIBUTE_HEAD_OF_QUEUE, NEXUS,
		DEDAKHUMI_KIND_COMMAND, DEDAKHUMI_ATTRIBUTE_HEAD_OF_QUEUE, NEW},
	{"a COMMAND that finds 64 tasks", false, DEDAKHUMI_POLICY_QERR_NONE, 64, DEDAKHUMI_ATTRIBUTE_SIMPLE, NEXUS, DEDAKHUMI_KIND_COMMAND,
		DEDAKHUMI_ATTRIBUTE_SIMPLE, NEW},
	{"GOOD of the oldest of 64", false, DEDAKHUMI_POLICY_QERR_NONE, 64, DEDAKHUMI_ATTRIBUTE_SIMPLE, NEXUS, DEDAKHUMI_KIND_COMPLETION,
		DEDAKHUMI_STATUS_GOOD, OLDEST},
	{"GOOD of the ACA task behind 63 others", true, DEDAKHUMI_POLICY_QERR_NONE, 64, DEDAKHUMI_ATTRIBUTE_SIMPLE, NEXUS, DEDAKHUMI_KIND_COMPLETION,
		DEDAKHUMI_STATUS_GOOD, NEW},
	{"ABORT TASK of the oldest of 64", false, DEDAKHUMI_POLICY_QERR_NONE, 64, DEDAKHUMI_ATTRIBUTE_SIMPLE, NEXUS, DEDAKHUMI_KIND_MANAGEMENT,
		DEDAKHUMI_FUNCTION_ABORT_TASK, OLDEST},
	{"ABORT TASK of the ACA task behind 63 others", true, DEDAKHUMI_POLICY_QERR_NONE, 64, DEDAKHUMI_ATTRIBUTE_SIMPLE, NEXUS,
		DEDAKHUMI_KIND_MANAGEMENT, DEDAKHUMI_FUNCTION_ABORT_TASK, NEW},
	{"CLEAR TASK SET of 64 tasks of eight nexuses, TAS 0", false, DEDAKHUMI_POLICY_QERR_NONE, 64, DEDAKHUMI_ATTRIBUTE_SIMPLE, SHARED,
		DEDAKHUMI_KIND_MANAGEMENT, DEDAKHUMI_FUNCTION_CLEAR_TASK_SET, 0},
	{"CLEAR TASK SET of the ACA task and 63 others of its nexus, TAS 0", true, DEDAKHUMI_POLICY_QERR_NONE, 64, DEDAKHUMI_ATTRIBUTE_SIMPLE, NEXUS,
		DEDAKHUMI_KIND_MANAGEMENT, DEDAKHUMI_FUNCTION_CLEAR_TASK_SET, 0},
	{"LOGICAL UNIT RESET of 64 tasks of eight nexuses", false, DEDAKHUMI_POLICY_QERR_NONE, 64, DEDAKHUMI_ATTRIBUTE_SIMPLE, SHARED,
		DEDAKHUMI_KIND_MANAGEMENT, DEDAKHUMI_FUNCTION_LOGICAL_UNIT_RESET, 0},
	{"LOGICAL UNIT RESET of the ACA task and 63 others of its nexus", true, DEDAKHUMI_POLICY_QERR_NONE, 64, DEDAKHUMI_ATTRIBUTE_SIMPLE, NEXUS,
		DEDAKHUMI_KIND_MANAGEMENT, DEDAKHUMI_FUNCTION_LOGICAL_UNIT_RESET, 0},
	{"the loss of a nexus without a task, with the ACA task and 63 others of its nexus", true, DEDAKHUMI_POLICY_QERR_NONE, 64,
		DEDAKHUMI_ATTRIBUTE_SIMPLE, NEXUS, DEDAKHUMI_KIND_CONDITION, DEDAKHUMI_CONDITION_NEXUS_LOSS, 0},
	{"a COMMAND ended at entry, QERR 01b, that ends 64 tasks", false, DEDAKHUMI_POLICY_QERR_ALL, 64, DEDAKHUMI_ATTRIBUTE_HEAD_OF_QUEUE, NEXUS,
		DEDAKHUMI_KIND_COMMAND, DEDAKHUMI_ATTRIBUTE_ACA, NEW},
	{"CHECK CONDITION, QERR 01b, of the youngest of 64 HEAD OF QUEUE tasks of one nexus", false, DEDAKHUMI_POLICY_QERR_ALL, 64,
		DEDAKHUMI_ATTRIBUTE_HEAD_OF_QUEUE, NEXUS, DEDAKHUMI_KIND_COMPLETION, DEDAKHUMI_STATUS_CHECK_CONDITION, YOUNGEST},
	{"CHECK CONDITION, QERR 01b, of the ACA task of a lent table with 63 others of its nexus", true, DEDAKHUMI_POLICY_QERR_ALL, 64,
		DEDAKHUMI_ATTRIBUTE_SIMPLE, NEXUS, DEDAKHUMI_KIND_COMPLETION, DEDAKHUMI_STATUS_CHECK_CONDITION, NEW},
};

static void play(const struct row *row, bool with_event)
{
	uint8_t control = row->kind == DEDAKHUMI_KIND_COMMAND ? DEDAKHUMI_CONTROL_EXEMPT : 0;
	if (row->with_aca)
		fill_with_aca(row->policy);
	else
		fill(row->policy, row->tasks, row->attribute, row->nexus);
	if (with_event)
		apply(dedakhumi_event_of(row->kind, row->kind == DEDAKHUMI_KIND_CONDITION ? OTHER : NEXUS, row->first, control, row->tag));
}

int main(int argument_count, char **arguments)
{
	size_t count = sizeof rows / sizeof rows[0], row = 0;
	if (argument_count == 1) {
		for (size_t i = 0; i < count; i++)
			printf("%zu %s\n", i, rows[i].name);
		return 0;
	}
	while (argument_count == 3 && row < count && strtoul(arguments[1], NULL, 10) != row)
		row++;
	if (argument_count != 3 || row == count || (strcmp(arguments[2], "0") != 0 && strcmp(arguments[2], "1") != 0)) {
		fprintf(stderr, "usage: largest [ROW 0|1], with a row below %zu\n", count);
		return 2;
	}
	play(&rows[row], arguments[2][0] == '1');
	return 0;
}
