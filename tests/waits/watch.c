#include "watch.h"

#include <stdio.h>
#include <stdlib.h>
#include <string.h>

#include "operations.h"

void watch_demand(const struct watch *watch, bool so, const char *said)
{
	if (so)
		return;
	fprintf(stderr, "waits: %s, %s, after %lu events and %u turns: it is not so that %s\n", PLAYED, watch->run, watch->events, watch->turns, said);
	exit(1);
}

void watch_start(struct watch *watch, uint8_t policy)
{
	memset(watch->report, 0xA5, sizeof watch->report);
	watch->older = (struct older){0, 0};
	watch->events = 0;
	watch->turns = watch->listed_at = 0;
	watch_demand(watch, START(watch->table, sizeof watch->table, policy) == DEDAKHUMI_DONE, "a good policy is taken");
}

bool watch_holds(const struct watch *watch, uint8_t nexus, dedakhumi_tag tag)
{
	for (size_t place = 0; place < dedakhumi_task_count(watch->table); place++) {
		struct dedakhumi_task task = dedakhumi_task_at(watch->table, place);
		if (task.nexus == nexus && task.tag == tag)
			return true;
	}
	return false;
}

/* As many as the answer says (RULES 22.2). */
static bool lists_awaited(const struct watch *watch)
{
	for (size_t place = 0; place < watch->ended; place++) {
		struct dedakhumi_ended ended = dedakhumi_ended_at(watch->report, place);
		if (ended.nexus == AWAITED_NEXUS && ended.tag == AWAITED_TAG)
			return true;
	}
	return false;
}

static void apply(struct watch *watch, struct dedakhumi_event event, uint8_t expected)
{
	struct dedakhumi_answer answer = APPLY(watch->table, sizeof watch->table, watch->report, sizeof watch->report, event.bytes, sizeof event.bytes);
	watch->events++;
	watch->ended = answer.ended;
	watch_demand(watch, answer.answer == expected, "each event is answered as the run has it");
}

void watch_command(struct watch *watch, uint8_t nexus, dedakhumi_tag tag, uint8_t attribute)
{
	apply(watch, dedakhumi_command_event(nexus, tag, attribute, DEDAKHUMI_CONTROL_EXEMPT), DEDAKHUMI_DONE);
	watch_demand(watch, !lists_awaited(watch), "no command ends the task");
}

static struct older count_older(const uint8_t *table)
{
	struct older older = {0, 0};
	for (size_t place = 0; place < dedakhumi_task_count(table); place++)
		if (dedakhumi_task_at(table, place).attribute == DEDAKHUMI_ATTRIBUTE_HEAD_OF_QUEUE)
			older.heads++;
		else
			older.others++;
	return older;
}

void watch_accept(struct watch *watch, uint8_t attribute)
{
	watch->older = count_older(watch->table);
	watch_command(watch, AWAITED_NEXUS, AWAITED_TAG, attribute);
	watch->turns = watch->listed_at = 0;
}

/* RULES 22.3, but for the answer. */
static bool is_turn(const struct watch *watch, struct dedakhumi_event event)
{
	struct dedakhumi_turn turn = NAME(watch->table, sizeof watch->table);
	struct dedakhumi_fields fields = dedakhumi_fields_of(event.bytes);
	bool named = turn.answer == DEDAKHUMI_DONE && turn.found && turn.nexus == fields.nexus && turn.tag == fields.tag;
	return named && fields.kind == DEDAKHUMI_KIND_COMPLETION && watch->table[DEDAKHUMI_HEADER_OFFSET + DEDAKHUMI_AT_HEADER_ACA] == 0;
}

void watch_complete(struct watch *watch, uint8_t nexus, dedakhumi_tag tag, uint8_t status)
{
	struct dedakhumi_event event = dedakhumi_completion_event(nexus, tag, status);
	watch_demand(watch, is_turn(watch, event), "the task that the run completes is named");
	apply(watch, event, DEDAKHUMI_DONE);
	watch->turns++;
	if (watch->listed_at == 0 && lists_awaited(watch))
		watch->listed_at = watch->turns;
}

void watch_aside(struct watch *watch, struct dedakhumi_event event, uint8_t answer)
{
	watch_demand(watch, !is_turn(watch, event), "what comes between two turns is none");
	apply(watch, event, answer);
	watch_demand(watch, !lists_awaited(watch), "what comes between two turns does not end the task");
}
