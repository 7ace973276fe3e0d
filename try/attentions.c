#include <stdbool.h>
#include <stdio.h>

#include "happening.h"
#include "names.h"

static bool to_all(const struct happening *happening, unsigned nexus)
{
	(void)happening;
	(void)nexus;
	return true;
}

static bool to_lost(const struct happening *happening, unsigned nexus)
{
	return nexus == happening->event.nexus;
}

/* A nexus that another has aborted a task of, with nothing sent for it. */
static bool to_aborted(const struct happening *happening, unsigned nexus)
{
	for (size_t place = 0; place < happening->answer.ended; place++) {
		struct dedakhumi_ended ended = dedakhumi_ended_at(happening->report, place);
		if (ended.nexus == nexus && ended.nexus != happening->event.nexus && ended.status == DEDAKHUMI_STATUS_NONE)
			return true;
	}
	return false;
}

/* The events that give a bit, and to whom (RULES 11.3 and 11.4). The tables alone don't tell: the bit may have been set before. */
static const struct giver {
	uint8_t kind, first, bit;
	bool (*to)(const struct happening *happening, unsigned nexus);
} givers[] = {
	{DEDAKHUMI_KIND_CONDITION, DEDAKHUMI_CONDITION_POWER_ON, DEDAKHUMI_PENDING_POWER_ON, to_all},
	{DEDAKHUMI_KIND_CONDITION, DEDAKHUMI_CONDITION_HARD_RESET, DEDAKHUMI_PENDING_HARD_RESET, to_all},
	{DEDAKHUMI_KIND_MANAGEMENT, DEDAKHUMI_FUNCTION_LOGICAL_UNIT_RESET, DEDAKHUMI_PENDING_LOGICAL_UNIT_RESET, to_all},
	{DEDAKHUMI_KIND_CONDITION, DEDAKHUMI_CONDITION_NEXUS_LOSS, DEDAKHUMI_PENDING_NEXUS_LOSS, to_lost},
	{DEDAKHUMI_KIND_MANAGEMENT, DEDAKHUMI_FUNCTION_CLEAR_TASK_SET, DEDAKHUMI_PENDING_COMMANDS_CLEARED, to_aborted},
	{DEDAKHUMI_KIND_COMPLETION, DEDAKHUMI_STATUS_CHECK_CONDITION, DEDAKHUMI_PENDING_COMMANDS_CLEARED, to_aborted},
};
enum { GIVERS = sizeof givers / sizeof givers[0] };

/* By the rules; 0 if the event was refused. A command that ended at entry gives one by QERR alone (RULES 5.16). */
static uint8_t given_to(const struct happening *happening, unsigned nexus)
{
	const struct dedakhumi_fields *event = &happening->event;
	if (happening->answer.answer == DEDAKHUMI_ENDED_AT_ENTRY)
		return to_aborted(happening, nexus) ? DEDAKHUMI_PENDING_COMMANDS_CLEARED : 0;
	for (const struct giver *giver = givers; giver < givers + GIVERS; giver++)
		if (happening->answer.answer == DEDAKHUMI_DONE && giver->kind == event->kind && giver->first == event->first)
			return giver->to(happening, nexus) ? giver->bit : 0;
	return 0;
}

/* What the command itself was told has gone as well, but not untold. */
static uint8_t told_to(const struct happening *happening, unsigned nexus)
{
	const struct dedakhumi_answer *answer = &happening->answer;
	return nexus == happening->event.nexus ? attention_bit(answer->code, answer->qualifier) : 0;
}

/* The table has the last word: what is not set is not shown as given, and what was not set before is. */
void show_attentions(const struct happening *happening)
{
	uint8_t given[DEDAKHUMI_NEXUSES], taken[DEDAKHUMI_NEXUSES];
	for (unsigned nexus = 0; nexus < DEDAKHUMI_NEXUSES; nexus++) {
		uint8_t before = dedakhumi_pending_of(happening->before, nexus), after = dedakhumi_pending_of(happening->table, nexus);
		given[nexus] = (uint8_t)(after & (given_to(happening, nexus) | ~before));
		taken[nexus] = (uint8_t)(before & ~after & ~told_to(happening, nexus));
	}
	show_by_nexus(given, "will be told", ", then ");
	show_by_nexus(taken, "will not be told any more", ", ");
}

void show_pending(const uint8_t *table)
{
	uint8_t pending[DEDAKHUMI_NEXUSES], any = 0;
	for (unsigned nexus = 0; nexus < DEDAKHUMI_NEXUSES; nexus++)
		any |= pending[nexus] = dedakhumi_pending_of(table, nexus);
	show_by_nexus(pending, "will be told", ", then ");
	if (any == 0)
		printf("  nothing waits\n");
}
