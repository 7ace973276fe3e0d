#include <stdio.h>

#include "happening.h"
#include "names.h"

static void show_task(const struct dedakhumi_task *task)
{
	printf("%u.%u %c%s %s", task->nexus, task->tag, attribute_name(task->attribute)[0],
		task->control & DEDAKHUMI_CONTROL_NACA ? " naca" : "", state_name(task->state));
}

static void show_tasks(const uint8_t *table)
{
	for (size_t place = 0; place < dedakhumi_task_count(table); place++) {
		struct dedakhumi_task task = dedakhumi_task_at(table, place);
		fputs(place == 0 ? "" : ", ", stdout);
		show_task(&task);
	}
	if (dedakhumi_task_count(table) == 0)
		printf("no tasks");
}

static void show_header(const uint8_t *table)
{
	if (dedakhumi_faulted_nexus(table) != DEDAKHUMI_NEXUSES)
		printf("; ACA of nexus %u", dedakhumi_faulted_nexus(table));
	if (dedakhumi_run_of(table) != 0)
		printf("; run %u", dedakhumi_run_of(table));
}

void show_table(const uint8_t *table)
{
	struct dedakhumi_turn turn = dedakhumi_name(table, DEDAKHUMI_TABLE_LENGTH);
	printf("  ");
	show_tasks(table);
	show_header(table);
	if (turn.found)
		printf("; turn: %u.%u\n", turn.nexus, turn.tag);
	else
		printf("; turn: nobody\n");
}

/* QERR 11b has both bits of its field. */
void show_policy(uint8_t policy)
{
	unsigned qerr = policy & DEDAKHUMI_POLICY_QERR_NEXUS;
	printf("a fresh table of policy %02Xh (QERR %u%ub, TAS %d)", policy, qerr >> 1, qerr & 1, (policy & DEDAKHUMI_POLICY_TAS) != 0);
}
